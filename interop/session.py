"""The session of a firm with `allocd`, as docs/profile.md has it, from the side that connects.

- `Feed` finds the frames of a stream, `Message` is what one says.
- `Machine` is the session without a socket: bytes and moments go in; bytes to send, and the messages of the application (P, AR,
  AS and 3), come out. It numbers what it sends and keeps it for resends, asks for what it lacks, and answers for the session.
- `Session` is a machine on a connection, with TLS or without.
- `Firm` asks and is answered: where the connection ends it logs on anew and sends again, with its id, what has no answer.

The robot, the certification and the clerk's screen stand on it, and checks/session tries it. It needs Python 3.9.
"""
import os
import re
import socket
import ssl
import sys
import time
from collections import deque
from datetime import datetime, timezone

sys.dont_write_bytecode = True
sys.path.insert(1, os.path.join(os.path.dirname(os.path.abspath(__file__)), "../examples"))
from fix import BODY, OPENING, checksum, framed

TRAILER = re.compile(rb"10=(\d{3})\x01")
OF_SESSION = "012345A"
ID = {"AE": 571, "AR": 571, "J": 70, "P": 70}  # where a message has the id of its command
TEST = "ALIVE"  # the 112 of a TestRequest
LARGEST = 65_536  # bytes of a frame


class Closed(Exception):
    """The session is over; the text says why."""


class Message:
    """The fields of a frame, in their order."""

    def __init__(self, body, frame=b""):
        self.fields = [tuple(field.split("=", 1)) for field in body.split("\x01")[:-1]]
        self.frame = frame
        self.kind = self.fields[0][1]
        self.is_behind_gap = False  # whether a gap before it, on its connection, was filled by no messages

    def get(self, tag, otherwise=""):
        """The first value of a tag."""
        return next((value for key, value in self.fields if key == str(tag)), otherwise)

    def all(self, tag):
        return [value for key, value in self.fields if key == str(tag)]

    def count(self, tag):
        """A value that is a number, or 0."""
        return int(self.get(tag)) if self.get(tag).isdecimal() else 0

    @property
    def number(self):
        return self.count(34)

    @property
    def is_repeat(self):
        return self.get(43) == "Y"

    def __str__(self):
        return self.frame.decode("latin-1").replace("\x01", "|")


class Feed:
    """The messages of a stream that comes in pieces. A garbled frame is passed over, and counted."""

    def __init__(self):
        self.held, self.garbled = b"", 0

    def push(self, data):
        """The messages that are whole now."""
        return [message for _, message in self.frames(data) if message]

    def frames(self, data):
        """The frames that are whole now, each with its message, or None where it is garbled."""
        self.held += data
        while (size := self.front()) is not None:
            frame, self.held = self.held[:size], self.held[size:]
            opening = OPENING.match(frame)
            body, trailer = frame[opening.end() : -7], TRAILER.fullmatch(frame[-7:])
            if trailer and checksum(frame[:-7]) == int(trailer[1]) and BODY.fullmatch(body):
                yield frame, Message(body.decode("latin-1"), frame)
            else:
                self.garbled += 1
                yield frame, None

    def front(self):
        """The length of the frame at the front, or None where it isn't whole."""
        opening = OPENING.match(self.held)
        if opening:
            size = opening.end() + int(opening[1]) + 7
            if size > LARGEST or (len(self.held) >= size and self.held[size - 7 : size - 4] != b"10="):
                raise Closed(f"no frame has this length: {self.held[:24]!r}")
            return size if len(self.held) >= size else None
        if not re.match(rb"8=FIXT\.1\.1\x019=\d{0,6}\Z", self.held) and not b"8=FIXT.1.1\x019=".startswith(self.held):
            raise Closed(f"no frame begins with {self.held[:24]!r}")
        return None


def moment(seconds):
    """A moment as FIX has it, with milliseconds."""
    return datetime.fromtimestamp(seconds, timezone.utc).strftime("%Y%m%d-%H:%M:%S.%f")[:-3]


class Machine:
    """A session, without a socket. `out` is what has to be sent, `came` the messages of the application that are to be read.
    `want` is the number that the next message has to have, `next` that of the next one sent. Where `book` is the name of a kept
    book, reports begin above the number `last`."""

    def __init__(self, firm, house, heartbeat=30, clock=time.time, book="", last=0):
        self.firm, self.house, self.heartbeat, self.clock = firm, house, heartbeat, clock
        self.book, self.last = book, last
        self.want = self.next = 1
        self.gap = 0  # the highest number that came above a gap which is open
        self.skipped = 0  # how many gaps were filled by no messages
        self.is_on = self.is_asked = self.is_leaving = False
        self.kept = {}  # the messages of the application that were sent, by their numbers: kind, moment, fields
        self.out, self.came = b"", deque()
        self.heard = self.told = clock()

    def logon(self):
        asked = f"5005={self.last}|5006={self.book}|" if self.book else ""
        self.send("A", f"98=0|108={self.heartbeat}|1137=9|{asked}")

    def logout(self):
        self.is_leaving = True
        self.send("5")

    def send(self, kind, rest=""):
        """Sends a message with the next number, which it answers. Its fields end with '|', and none may be empty."""
        if re.search(r"=\||(^|\|)\||\x01", rest):
            raise ValueError(f"an empty field or SOH: {rest}")
        number, self.next = self.next, self.next + 1
        now = moment(self.clock())
        if kind not in OF_SESSION:
            self.kept[number] = kind, now, rest
        self.write(kind, number, f"52={now}|", rest)
        return number

    def write(self, kind, number, times, rest):
        self.out += framed(f"35={kind}|49={self.firm}|56={self.house}|34={number}|{times}{rest}")
        self.told = self.clock()

    def take(self, message):
        """Takes the next message that came."""
        self.heard, self.is_asked = self.clock(), False
        if (message.get(49), message.get(56)) != (self.house, self.firm):
            raise Closed(f"not of {self.house} to {self.firm}: {message}")
        if not self.is_on:
            if message.kind != "A" or message.number != 1:
                raise Closed(f"no Logon: {message.get(58) or message}")
            self.is_on, self.want = True, 2
        elif message.kind == "4" and message.get(123) != "Y":
            self.want, self.skipped = max(self.want, message.count(36)), self.skipped + 1
        elif message.number < self.want:
            if not message.is_repeat:
                self.leave(f"sequence number too low, expected {self.want}")
        elif message.number > self.want:
            self.above(message)
        else:
            self.want += 1
            self.by_kind(message)
        if self.want > self.gap:
            self.gap = 0

    def above(self, message):
        """A message above the one that is wanted: it has to come again, after those that are lacking."""
        if message.kind == "5":
            return self.by_kind(message)
        if message.kind == "2":
            self.resend(message.count(7), message.count(16))
        if not self.gap:
            self.send("2", f"7={self.want}|16=0|")
        self.gap = max(self.gap, message.number)

    def by_kind(self, message):
        kind = message.kind
        if kind == "1":
            self.send("0", f"112={message.get(112)}|")
        elif kind == "2":
            self.resend(message.count(7), message.count(16))
        elif kind == "4":
            self.want, self.skipped = max(self.want, message.count(36)), self.skipped + 1
        elif kind == "5":
            if not self.is_leaving:
                self.send("5")
            raise Closed(message.get(58) or "logged out")
        elif kind not in "0A":
            message.is_behind_gap = self.skipped > 0
            self.came.append(message)

    def leave(self, why):
        self.send("5", f"58={why}|")
        raise Closed(why)

    def resend(self, first, last):
        """Sends the messages from the first to the last number again: those of the application, and in place of others gaps."""
        last = self.next - 1 if last == 0 else min(last, self.next - 1)
        now, number = moment(self.clock()), first
        while number <= last:
            if number in self.kept:
                kind, then, rest = self.kept[number]
                self.write(kind, number, f"43=Y|52={now}|122={then}|", rest)
                number += 1
                continue
            after = next((it for it in range(number, last + 1) if it in self.kept), last + 1)
            self.write("4", number, f"43=Y|52={now}|122={now}|", f"123=Y|36={after}|")
            number = after

    def tick(self):
        """Looks at the clock: a Heartbeat where nothing was sent, a TestRequest where nothing came."""
        if not self.heartbeat or not self.is_on:
            return
        silent = self.clock() - self.heard
        if silent >= 2 * self.heartbeat + 1:
            raise Closed("nothing came from the service")
        if silent >= self.heartbeat + 1 and not self.is_asked:
            self.is_asked = True
            self.send("1", f"112={TEST}|")
        elif self.clock() - self.told >= self.heartbeat:
            self.send("0")


class Tls:
    """How a door is asked for its certificate, and shown the firm's: files of PEM, and the name that the door has to have."""

    def __init__(self, authority, certificate, key, name):
        self.name = name
        self.context = ssl.create_default_context(cafile=authority)
        self.context.minimum_version = ssl.TLSVersion.TLSv1_3
        self.context.load_cert_chain(certificate, key)

    def wrapped(self, stream):
        return self.context.wrap_socket(stream, server_hostname=self.name)


class Session:
    """A machine on a connection. `address` is a host and a port."""

    PATIENCE = 30  # seconds for a connection, and for a Logon to be answered

    def __init__(self, address, machine, tls=None):
        self.machine, self.feed = machine, Feed()
        try:
            stream = socket.create_connection(address, self.PATIENCE)
            stream.setsockopt(socket.IPPROTO_TCP, socket.TCP_NODELAY, 1)
            self.stream = tls.wrapped(stream) if tls else stream
        except OSError as fault:
            raise Closed(f"{address[0]}:{address[1]}: {fault}") from None

    def logon(self):
        self.machine.logon()
        until = time.monotonic() + self.PATIENCE
        while not self.machine.is_on:
            if time.monotonic() > until:
                raise Closed("the Logon isn't answered")
            self.turn(1)

    def flush(self):
        """Sends what the machine has to send."""
        data, self.machine.out = self.machine.out, b""
        try:
            self.stream.settimeout(self.PATIENCE)
            self.stream.sendall(data)
        except OSError as fault:
            raise Closed(f"the connection is gone: {fault}") from None

    def turn(self, seconds):
        """Sends what is to be sent, reads once, for so many seconds at most, and sends what that leads to."""
        try:
            self.flush()
            for message in self.feed.push(self.read(seconds)):
                self.machine.take(message)
            self.machine.tick()
            self.flush()
        except Closed:
            self.close()
            raise

    def read(self, seconds):
        try:
            self.stream.settimeout(max(seconds, 0.001))
            data = self.stream.recv(LARGEST)
        except (TimeoutError, ssl.SSLWantReadError):
            return b""
        except OSError as fault:
            raise Closed(f"the connection is gone: {fault}") from None
        if not data:
            raise Closed("the service closed the connection")
        return data

    def messages(self, seconds):
        """The messages of the application that have come, at the latest after so many seconds."""
        until = time.monotonic() + seconds
        while not self.machine.came and (left := until - time.monotonic()) > 0:
            self.turn(left if left < 1 else 1)
        found = list(self.machine.came)
        self.machine.came.clear()
        return found

    def close(self):
        """Ends the connection, after what the machine still has to send."""
        try:
            self.stream.settimeout(1)
            self.stream.sendall(self.machine.out)
        except OSError:
            pass
        self.machine.out = b""
        self.stream.close()

    def logout(self):
        """Logs out in order."""
        self.machine.logout()
        try:
            until = time.monotonic() + self.PATIENCE
            while time.monotonic() < until:
                self.turn(1)
        except Closed:
            pass
        self.close()


def answers(message, number, id):
    """Whether a message answers the command with this id that had this number."""
    if message.kind == "3":
        return message.count(45) == number
    return message.kind in ("P", "AR") and message.get(ID[message.kind]) == id


class Firm:
    """A firm that asks and is answered, over as many connections as that takes. `reports` has what it was told beside answers:
    each entry once, whatever number of times a connection told it. Where `book` is the name of a kept book, a connection begins above
    `last`, the last report behind which none is lacking."""

    REST = 0.2  # seconds after which it connects anew

    def __init__(self, address, firm, house="HSE", tls=None, heartbeat=30, book=""):
        self.address, self.firm, self.house, self.tls, self.heartbeat = address, firm, house, tls, heartbeat
        self.session, self.seen, self.reports = None, set(), deque()
        self.book, self.last = book, 0

    def connect(self):
        """Logs on, where the firm isn't."""
        if self.session is None:
            machine = Machine(self.firm, self.house, self.heartbeat, book=self.book, last=self.last)
            session = Session(self.address, machine, self.tls)
            session.logon()
            self.session = session

    def lost(self):
        if self.session:
            self.session.close()
        self.session = None

    def ask(self, kind, id, rest, patience=60):
        """The answer to a command: a P, an AR or a Reject. While there is none the firm connects and sends it again, which is
        the same command, since its id is. Where there is none in time it is Closed."""
        until = time.monotonic() + patience
        text = f"{ID[kind]}={id}|{rest}"
        while True:
            try:
                self.connect()
                return self.awaited(kind, text, id, until)
            except Closed:
                self.lost()
                if time.monotonic() > until:
                    raise
                time.sleep(self.REST)

    def awaited(self, kind, text, id, until):
        """The answer on this connection. A Reject that got lost doesn't come again, since a gap stands for it: where one was
        passed over the command is sent anew."""
        machine = self.session.machine
        while time.monotonic() < until:
            number, skipped = machine.send(kind, text), machine.skipped
            while machine.skipped == skipped and time.monotonic() < until:
                came = self.session.messages(min(1, max(0.01, until - time.monotonic())))
                found = [it for it in came if answers(it, number, id)]
                self.keep(it for it in came if it not in found)
                if found:
                    return found[0]
        raise Closed("no answer in time")

    def keep(self, messages):
        for it in messages:
            if it.kind == "AS" and it.get(755) not in self.seen:
                self.seen.add(it.get(755))
                self.reports.append(it)
            if it.kind == "AS" and not it.is_behind_gap:
                self.last = max(self.last, it.count(755))

    def listen(self, seconds):
        """The reports that have come, at the latest after so many seconds; it is Closed where the connection ends."""
        try:
            self.connect()
            if not self.reports:
                self.keep(self.session.messages(seconds))
        except Closed:
            self.lost()
            raise
        found = list(self.reports)
        self.reports.clear()
        return found

    def leave(self):
        if self.session:
            self.session.logout()
        self.session = None


def trade(firm, account, lots, instrument, side="1"):
    """The fields of an AE, behind its id."""
    return f"55={instrument}|32={lots}|552=1|54={side}|453=1|448={firm}|447=D|452=4|1={account}|"


def part(lots, account=None, taker=None):
    """A part of a split: of the firm's own account, or given to a taker."""
    given = f"539=1|524={taker}|525=D|538=4|" if taker else ""
    return f"79={account or 'GIVEN'}|80={lots}|{given}"


def split(node, *parts):
    """The fields of a J that splits a node, behind its id."""
    return f"71=0|626=17|72={node}|78={len(parts)}|{''.join(parts)}"


def claim(node, account):
    return f"71=0|626=18|72={node}|78=1|79={account}|"


def on_node(command, node):
    """The fields of a J that refuses or cancels a node."""
    return {"refuse": "71=0|626=19|", "cancel": "71=2|626=17|"}[command] + f"72={node}|"


def on_entry(command, entry):
    """The fields of a J about the reversal of an entry."""
    return {"consent": "71=6|626=20|", "reverse": "71=6|626=21|", "decline": "71=6|626=22|"}[command] + f"72={entry}|"


def raised(giver, lots):
    return f"71=0|626=91|5001={giver}|5004={lots}|"


def agreed(giver, taker, rate, limit):
    return f"71=0|626=90|5001={giver}|5002={taker}|5003={rate}|5004={limit}|"
