"""What checks/abuse does to a server that keeps its book: its limits hold, and no firm stops another."""
import collections
import hashlib
import os
import re
import resource
import selectors
import shutil
import signal
import socket
import struct
import subprocess
import sys
import threading
import time

sys.dont_write_bytecode = True
from harness import PATIENCE, TOP, built, compiled
from fix import frames_of, free_port, message

ALLOCD = built("allocd")
SILENT, DESCRIPTORS = 2_000, 300
MOST_LOGON, MOST_MEMORY, LEAST_SHARE = 1, 2_048, 0.5
DEAF = 20
ROUNDS = 15
UNNAMED_WAIT = 20  # the seconds that a server has to close what it is to close
MOST_BEHIND = 8
TRIES = 5  # of what has to be quick: on a busy machine one of them is
HOUSE = f"{TOP}/examples/rows.house"
CROWD, CROWD_CALLS, CROWD_SENDS = 200, 100, 8_000  # a firm's connections, the house's calls beside them, and what is sent on each
MOST_CROWDED = 6  # the seconds for which calls are made beside them
NARROW, MOST_HELD = 6, 16  # sessions that read nothing, and the megabytes that the server may take for a firm that may hold two
MOST_CALL = 1  # the seconds that the house's call may take beside them
REFUSING, MORE_SPACE = 7, 1 << 20  # the seconds of refused growths, and the bytes of address space that are left then
MOST_BESIDE = 0.1  # the seconds that the house's calls may take beside them, where ten times those alone are less
RAISES, LIMIT, ASKS = 400_000, 500, 50_000  # a firm's raises, its limit before them, and how often each connection asks for the first one's reversal
LIMITED = ("--rate", "500", "--per-firm", "4")  # as interop/README.md has it
LOGONS, REPORTS, MOST_LOGONS = 1_500, 4_000, 512  # of one firm at once, the reports that each is due, and the megabytes that the server may take for them
GROUP_FIRMS, GROUP_CALLS, GROUP_SYNC = 60, 250, 1_500  # firms, the calls of each, and the milliseconds of a sync meanwhile
GROUP_ROOM, GROUP_WORKERS = 8_000, 4  # the entries for which there is room, in a group and one that waits; each worker may make one more
KNOCKERS, KNOCKS, KNOCKING, KNOCKERS_HOLD = 3, 4_200, 6, 4_000  # processes, and for each: connects a second, seconds, and connections


class Peer:
    """A connection of a firm that has logged on, and what it was sent."""

    def __init__(self, port, firm, name=""):
        self.firm, self.name, self.number, self.got = firm, name or firm, 1, b""
        self.socket = self.connected(port)
        self.socket.setsockopt(socket.IPPROTO_TCP, socket.TCP_NODELAY, 1)
        self.send("A", "98=0|108=0|1137=9|")

    def connected(self, port):
        return socket.create_connection(("127.0.0.1", port), timeout=PATIENCE)

    def send(self, kind, rest=""):
        """Sends a message. If the connection is closed by then, what it was sent tells why."""
        try:
            self.socket.sendall(message(kind, self.firm, self.number, rest))
        except OSError:
            pass
        self.number += 1

    def raises(self, count):
        """Calls as many times, each with an id of its own."""
        giver = {"BBB": "AAA", "CCC": "BBB"}.get(self.firm, "GGG")
        ids = [f"{self.name}{self.number + n}" for n in range(count)]
        calls = [f"70={it}|71=0|626=91|5001={giver}|5004=1|" for it in ids]
        frames = [message("J", self.firm, self.number + n, it) for n, it in enumerate(calls)]
        self.number += count
        try:
            self.socket.sendall(b"".join(frames))
        except OSError:
            pass

    def trade(self, lots=1):
        self.send("AE", f"571={self.name}{self.number}|55=ESZ6|32={lots}|552=1|54=1|453=1|448=AAA|447=D|452=4|1=A1|")

    def read(self, until=None, seconds=PATIENCE):
        """Reads until this was sent or the connection is closed: whether it was sent."""
        until_time = time.monotonic() + seconds
        while until is None or until not in self.got:
            self.socket.settimeout(max(0.01, until_time - time.monotonic()))
            try:
                piece = self.socket.recv(1 << 18)
            except OSError:
                break
            if not piece:
                break
            self.got += piece
        return until is not None and until in self.got

    def accepted(self):
        return self.got.count(b"\x0187=0\x0110=") + self.got.count(b"\x01939=0\x01")

    def made(self):
        """How many of its calls with an id of its own are accepted, where it gets reports of others' too."""
        return sum(b"\x0135=P\x01" in it and b"\x0187=0\x01" in it for it in frames_of(self.got))

    def text(self):
        """58 of its Logout."""
        logout = self.got.rfind(b"\x0135=5\x01")
        return self.got[logout:].partition(b"\x0158=")[2].partition(b"\x01")[0].decode() if logout >= 0 else ""

    def close(self):
        self.socket.close()
        return self


class Server:
    """A server that keeps its book in the journal of a room, or serves one, with these words more. A firm may have as many
    connections as it likes, where the words don't say and nothing is as usual."""

    def __init__(self, room, name, *words, kind="keep", workers=2, shell=(), env=(), usual=False, house=HOUSE):
        self.port, self.journal = free_port(), f"{room}/{name}"
        self.told = open(f"{room}/{name}.told", "w+b")
        book = [house, self.journal] if kind == "keep" else [house]
        if kind == "keep" and "--per-firm" not in words and not usual:
            words = (*words, "--per-firm", "1000000")
        given = [ALLOCD, kind, *book, "--port", str(self.port), "--workers", str(workers), *words]
        env = dict(os.environ, **dict(env))
        self.process = subprocess.Popen([*shell, *given], stdout=subprocess.DEVNULL, stderr=self.told, env=env)
        while self.process.poll() is None:
            try:
                socket.create_connection(("127.0.0.1", self.port), timeout=PATIENCE).close()
                return
            except ConnectionRefusedError:
                time.sleep(0.02)
            except ConnectionResetError:
                return  # it has listened, and ends
        if "event=listening" not in self.says():  # (else it has listened, and has ended)
            sys.exit(self.says())

    def peer(self, firm, name=""):
        return Peer(self.port, firm, name)

    def says(self):
        self.told.flush()
        with open(self.told.name, encoding="latin-1") as it:
            return it.read()

    def says_soon(self, *texts):
        """Whether it says these on standard error: some lines come each second, some each ten."""
        until = time.monotonic() + PATIENCE
        while not all(it in self.says() for it in texts) and time.monotonic() < until:
            time.sleep(0.1)
        return all(it in self.says() for it in texts)

    def memory(self):
        """What it needs now, in kB."""
        with open(f"/proc/{self.process.pid}/status") as it:
            return int(it.read().split("VmRSS:")[1].split()[0])

    def __enter__(self):
        return self

    def __exit__(self, *_):
        self.process.kill()
        self.process.wait()
        self.told.close()


def called(server, firm, name, count):
    """How many calls of a firm are accepted of so many on a connection, and what its Logout says."""
    peer = server.peer(firm, name)
    peer.raises(count)
    peer.send("5")
    peer.read()
    return peer.close().accepted(), peer.text()


def made_before(server):
    """How many calls of a firm are accepted of one, which is made again, and of 60 that are refused: none of these is an entry."""
    peer = server.peer("BBB")
    for giver, id in [("AAA", "S1")] * 2 + [("BBB", f"X{n}") for n in range(60)]:
        peer.send("J", f"70={id}|71=0|626=91|5001={giver}|5004=1|")
    peer.send("5")
    peer.read()
    answers = peer.close().got.count(b"\x0135=P\x01")
    return peer.accepted(), answers


def entries(room):
    """The limits on entries: of a firm, by many connections at once, and after a start anew; and the house's reserve."""
    with Server(room, "entries", "--most-entries", "50", "--reserve", "999930", workers=4) as server:
        before = made_before(server)
        yield before == (2, 62), f"of 62 calls {before[1]} are answered, one as it was before, and 60 refused"
        took = []
        threads = [threading.Thread(target=lambda n=n: took.append(called(server, "BBB", f"B{n}x", 100))) for n in range(8)]
        for it in threads:
            it.start()
        for it in threads:
            it.join()
        well = sum(count for count, _ in took) == 49 and {text for _, text in took} == {"too many entries"}
        yield well, f"of 800 further calls of a firm on 8 connections {sum(count for count, _ in took)} are made, and 49 may be"
        count, text = called(server, "CCC", "C", 40)
        yield (count, text) == (20, "entries left are the house's"), f"another firm makes {count} calls, up to the reserve"
        said = (f'event=at_limit firm={why}' for why in ('BBB why="too many entries"', 'CCC why="entries left'))
        yield server.says_soon(*said), "the log says so"
        house = server.peer("HSE")
        for _ in range(30):
            house.trade()
        house.send("5")
        house.read()
        yield house.accepted() == 30, f"the house makes {house.accepted()} calls of 30"
    with Server(room, "entries", "--most-entries", "50") as server:
        yield called(server, "BBB", "B", 1) == (0, "too many entries"), "a server that goes on with the journal counts its entries"
        yield called(server, "CCC", "D", 40)[0] == 30, "and makes the others'"


def logged_on(server, firm, name, seconds=PATIENCE):
    """A connection of a firm once another one, which has ended, isn't counted any more; or none."""
    until = time.monotonic() + seconds
    while time.monotonic() < until:
        peer = server.peer(firm, name)
        # (where there are too many, the Logon is answered, and the Logout follows at once)
        peer.read(b"\x0135=A\x01")
        peer.send("1", "112=HERE|")
        if peer.read(b"\x01112=HERE\x01"):
            return peer
        time.sleep(0.1)


def at_a_rate(peer, count):
    """The seconds that so many calls take, if all are accepted."""
    begun = time.monotonic()
    peer.raises(count)
    peer.send("5")
    peer.read()
    return time.monotonic() - begun if peer.made() == count else None


def at_a_rate_together(peers, count):
    """The seconds that so many calls of each of these take, which are made at once, if all are accepted."""
    took, begun = [], time.monotonic()
    threads = [threading.Thread(target=lambda it=it: took.append(at_a_rate(it, count))) for it in peers]
    for it in threads:
        it.start()
    for it in threads:
        it.join()
    return None if None in took else time.monotonic() - begun


def a_call(peer):
    """The seconds that a call of the house takes."""
    peer.got, begun = b"", time.monotonic()
    peer.trade()
    peer.read(b"\x01939=0\x01")
    return time.monotonic() - begun


def connections(room):
    """The limits on connections and on calls a second."""
    with Server(room, "connections", "--per-firm", "2", "--rate", "50") as server:
        first = [server.peer("BBB", f"B{n}") for n in range(2)]
        well = all(it.read(b"\x0135=A\x01") for it in first)
        third = server.peer("BBB")
        third.read()
        yield well and third.text() == "too many connections", "a third connection of a firm is closed"
        houses = [server.peer("HSE", f"H{n}") for n in range(5)]
        yield all(it.read(b"\x0135=A\x01") for it in houses), "five of the house are not"
        first[0].close()
        again = logged_on(server, "BBB", "again")
        yield again is not None, "where one has ended another may log on"
        took = [at_a_rate(again, 200)]
        while None not in took and min(took) > 6 and len(took) < TRIES:
            took.append(at_a_rate(logged_on(server, "BBB", f"again{len(took)}"), 200))
        yield None not in took and 2.5 <= min(took) <= 6, f"200 calls at 50 a second take {took} s"
        first[1].close()
        both = [logged_on(server, "BBB", f"both{n}") for n in range(2)]
        seconds = at_a_rate_together(both, 150)
        yield seconds is not None and seconds >= 4.5, f"300 calls at 50 a second on two connections take {seconds} s"
        yield min(a_call(houses[0]) for _ in range(TRIES)) < 1, "the house's call waits for none"


def a_split(peer, id, node, parts):
    """Sends a split of a trade of 100 lots into so many parts."""
    lots = [100 // parts] * (parts - 1) + [100 - 100 // parts * (parts - 1)]
    peer.send("J", f"70={id}|71=0|626=17|72={node}.0|78={parts}|" + "".join(f"79=A1|80={it}|" for it in lots))


def parts(room):
    """The limit on the parts of a firm's splits, those of reversed ones too, and after a start anew."""
    with Server(room, "parts", "--most-parts", "150") as server:
        house = server.peer("HSE")
        for _ in range(5):
            house.trade(100)
            house.read(b"\x01939=0\x01")
            house.got = b""
        peer = server.peer("AAA", "A")
        for id, node, count in (("S1", 1, 100), ("S2", 2, 50)):
            a_split(peer, id, node, count)
        peer.send("J", "70=I1|71=6|626=20|72=6|")
        peer.send("J", "70=V1|71=6|626=21|72=6|")
        a_split(peer, "S3", 3, 2)
        peer.read(seconds=UNNAMED_WAIT)
        made, text = peer.made(), peer.close().text()
        well = (made, text) == (2, "too many parts") and b"\x0187=7\x01" in peer.got
        yield well, f"beside splits of 100 and 50 parts, one of them reversed, one of 2 isn't made: {text}"
    with Server(room, "parts", "--most-parts", "150") as server:
        peer = server.peer("AAA", "B")
        peer.read(b"\x0135=A\x01")
        peer.send("J", "70=I2|71=6|626=20|72=7|")
        peer.read(b"\x0170=I2\x01")
        a_split(peer, "S4", 4, 2)
        peer.read(seconds=UNNAMED_WAIT)
        well = b"\x0187=14\x01" in peer.got and peer.close().text() == "too many parts"
        yield well, "after a start anew too; a call without parts is made"
        others = server.peer("BBB", "C")
        others.raises(3)
        others.send("5")
        others.read(seconds=UNNAMED_WAIT)
        yield others.close().accepted() == 3, "another firm makes its calls"


def memory(room):
    """The memory that a book may take: a tenth of it is the house's."""
    entry = 254  # the bytes of an entry
    with Server(room, "memory", "--memory", "1") as server:
        count, text = called(server, "BBB", "B", 4_000)
        most = 900_000 // entry
        yield (count, text) == (most, "memory left is the house's"), f"of 4,000 calls of a firm {count} are made in a megabyte: {text}"
        house = server.peer("HSE")
        house.read(b"\x0135=A\x01")
        for _ in range(500):
            house.trade()
        house.read(seconds=UNNAMED_WAIT)
        made, text = house.close().got.count(b"\x01939=0\x01"), house.text()
        yield (made, text) == (1_000_000 // entry - most, "no memory left"), f"of 500 of the house {made}: {text}"
        yield server.says_soon("event=at_limit firm=HSE why=\"no memory left\""), "the log says so"


class Deaf(Peer):
    """One that asks for resends and reads nothing, and what the socket hasn't taken of that."""

    def __init__(self, port, name=""):
        super().__init__(port, "BBB", name)
        self.unsent = b""
        self.read(b"\x0135=A\x01")
        self.socket.setblocking(False)

    def ask(self):
        """Asks as far as the socket takes it: whether the server still has the connection."""
        for _ in range(100):
            if not self.unsent:
                self.unsent = message("2", "BBB", self.number, "7=1|16=0|")
                self.number += 1
            try:
                self.unsent = self.unsent[self.socket.send(self.unsent) :]
            except BlockingIOError:
                return True
            except OSError:
                return False
        return True


class Narrow(Deaf):
    """A deaf one whose system takes few bytes for it, and which has 256 answers to ask for again."""

    def __init__(self, port, name):
        super().__init__(port, name)
        self.socket.setblocking(True)
        self.raises(256)
        while self.accepted() < 256 and self.read(b"\x0135=P\x01", 5):
            self.read(seconds=0.02)
        self.socket.setblocking(False)

    def connected(self, port):
        it = socket.socket()
        it.setsockopt(socket.SOL_SOCKET, socket.SO_RCVBUF, 4096)
        it.settimeout(PATIENCE)
        it.connect(("127.0.0.1", port))
        return it


def held(room):
    """What waits for a firm is bounded: sessions that ask for resends and read nothing are closed, that with most first."""
    with Server(room, "held", "--held", "2", workers=4) as server:
        reads = server.peer("BBB", "reads")
        reads.read(b"\x0135=A\x01")
        house = server.peer("HSE")
        house.read(b"\x0135=A\x01")
        before = needs = server.memory()
        peers = [Narrow(server.port, f"N{n}x") for n in range(NARROW)]
        until, took, open_ones = time.monotonic() + 12, [], NARROW
        while time.monotonic() < until and open_ones == NARROW:
            open_ones = sum(it.ask() for it in peers)
            needs = max(needs, server.memory())
            time.sleep(0.05)
            took.append(a_call(house))
        grown = (needs - before) / 1_024
        yield open_ones < NARROW and server.says_soon('why="too much waits"'), f"of {NARROW} sessions that read nothing {open_ones} stay"
        yield grown <= MOST_HELD, f"the server takes {grown:.0f} MB more for a firm that may hold 2"
        reads.raises(1)
        yield reads.read(b"\x0135=P\x01", 5), "one of them that reads stays"
        yield late_ones(took) <= MOST_CALL, f"the house's calls take {1000 * late_ones(took):.0f} ms"
    with Server(room, "eight", usual=True) as server:
        peers = [server.peer("BBB", f"B{n}") for n in range(8)]
        well = all(it.read(b"\x0135=A\x01") for it in peers)
        ninth = server.peer("BBB")
        ninth.read(seconds=UNNAMED_WAIT)
        yield well and ninth.text() == "too many connections", "a firm has eight connections if the line doesn't say"


def honest(server, seconds, name):
    """How many calls of the house are made in so long, which logs on again wherever it is closed."""
    until, made, number, peer = time.monotonic() + seconds, 0, 0, None
    while time.monotonic() < until:
        if peer is None:
            number += 1
            try:
                peer = server.peer("HSE", f"{name}{number}x")
            except OSError:
                time.sleep(0.05)
                continue
            if not peer.read(b"\x0135=A\x01", 1):
                peer = peer.close() and None
                continue
        peer.got = b""
        peer.trade()
        if peer.read(b"\x01939=0\x01", 1):
            made += 1
        else:
            peer = peer.close() and None
    return made


def greedy(server, name, stop):
    """A firm that calls as fast as it can, and logs on again wherever it is closed."""
    number = 0
    while not stop.is_set():
        number += 1
        try:
            peer = server.peer("BBB", f"{name}{number}x")
            peer.raises(200)
            peer.read(seconds=0.1)
            peer.close()
        except OSError:
            time.sleep(0.01)


def beside_greedy(server, seconds, name):
    """How many calls of the house are made beside a greedy firm in so long."""
    stop = threading.Event()
    threads = [threading.Thread(target=greedy, args=(server, f"{name}{n}y", stop)) for n in range(4)]
    for it in threads:
        it.start()
    made = honest(server, seconds, name)
    stop.set()
    for it in threads:
        it.join()
    return made


def refused(room):
    """Growths that are refused end who asks, and never the server: one in a hundred, and all above a limit of address space."""
    compiled(f"{TOP}/checks/refusing.c", f"{room}/refusing.so")
    env = {"LD_PRELOAD": f"{room}/refusing.so", "REFUSED_ONE_IN": "100", "REFUSED_WHILE": f"{room}/refuses"}
    with Server(room, "one", env=env) as server:
        open(env["REFUSED_WHILE"], "w").close()
        made = beside_greedy(server, REFUSING, "H")
        well = server.process.poll() is None
        yield well and made > 0, f"of a hundred growths one is refused: the server lives, the house makes {made} calls"
        os.remove(env["REFUSED_WHILE"])
        made = honest(server, 2, "L")
        yield made > 0, f"then the house makes {made}"
    # of one arena, since the others have address space that they don't use yet
    with Server(room, "space", env={"MALLOC_ARENA_MAX": "1"}) as server:
        honest(server, 0.5, "E")
        with open(f"/proc/{server.process.pid}/status") as it:
            space = int(it.read().split("VmSize:")[1].split()[0]) * 1_024
        resource.prlimit(server.process.pid, resource.RLIMIT_AS, (space + MORE_SPACE, resource.RLIM_INFINITY))
        made = beside_greedy(server, REFUSING, "G")
        yield server.process.poll() is None, f"above a limit all growths are refused: the server lives, the house makes {made} calls"
        resource.prlimit(server.process.pid, resource.RLIMIT_AS, (resource.RLIM_INFINITY, resource.RLIM_INFINITY))
        made = honest(server, 2, "F")
        yield made > 0, f"once there is memory again the house makes {made}"


class Beating(Peer):
    """One with a HeartBtInt of a second, which it keeps, and calls that come behind others."""

    def __init__(self, port):
        self.logon = "98=0|108=1|1137=9|"
        super().__init__(port, "BBB", "beats")

    def send(self, kind, rest=""):
        super().send(kind, self.logon if kind == "A" else rest)

    def beat(self, seconds):
        """Sends a Heartbeat each half second: whether the server still has the connection."""
        until = time.monotonic() + seconds
        while time.monotonic() < until:
            self.send("0")
            self.read(seconds=0.5)
        return self.text() == "" and b"\x0135=5\x01" not in self.got


def many_firms(path):
    """A house file of many firms, each of which takes what GGG gives up."""
    firms = [f"F{n:02}" for n in range(GROUP_FIRMS)]
    lines = [f"FIRM {it}" for it in ["GGG", *firms]] + [f"AGREEMENT GGG {it} 1 1" for it in firms]
    with open(path, "w") as file:
        file.write("\n".join(["GIVEUP 1", "HOUSE HSE", *lines, ""]))
    return firms


def groups(room):
    """A group has no more entries than it has room for: further calls wait until it is on the disk."""
    shim, file, house = f"{room}/slow.so", f"{room}/slow", f"{room}/many.house"
    compiled(f"{TOP}/checks/slow.c", shim)
    firms = many_firms(house)
    env = {"LD_PRELOAD": shim, "SLOW_SYNC": str(GROUP_SYNC), "SLOW_SYNC_AT": file}
    with Server(room, "groups", workers=GROUP_WORKERS, env=env, house=house) as server:
        peers = [server.peer(it) for it in firms]
        for it in peers:
            it.read(b"\x0135=A\x01")
        open(file, "w").close()
        for it in peers:
            it.raises(GROUP_CALLS)
            it.send("5")
        for it in peers:
            it.read()
        made = sum(it.made() for it in peers)
        sizes = [int(it) for it in re.findall(r"event=slow_sync ms=\d+ entries=(\d+)", server.says())]
        most = max(sizes, default=0)
        well = made == sum(sizes) == GROUP_FIRMS * GROUP_CALLS and most <= GROUP_ROOM + GROUP_WORKERS
        yield well, f"of {made} calls at once, while a sync takes {GROUP_SYNC} ms, a group has at most {most}: {sizes}"


def answered(peer, seconds):
    """When calls were answered, in seconds from now on, in so many seconds."""
    begun, at = time.monotonic(), []
    while time.monotonic() - begun < seconds:
        before = peer.made()
        peer.read(seconds=0.02)
        at += [time.monotonic() - begun] * (peer.made() - before)
    return at


def most_within(at, seconds):
    """How many of these moments fall into so long at the most."""
    return max(sum(it <= other < it + seconds for other in at) for it in at) if at else 0


def rates(room):
    """A firm's rate: heartbeats don't wait for it, its connections share it, and no border lets twice the rate pass."""
    with Server(room, "rates", "--rate", "5", "--per-firm", "2", workers=1) as server:
        busy, beats = server.peer("BBB", "busy"), Beating(server.port)
        busy.read(b"\x0135=A\x01")
        busy.raises(400)
        well = beats.beat(6)
        yield well, "beside 400 calls that wait another connection of the firm is heard"
        before = busy.made()
        beats.raises(10)
        made = len(answered(beats, 6))
        busy.read(seconds=0.1)
        took = busy.made() - before
        yield made >= 8 and took >= 8, f"of two connections on which calls wait one has {made} made, the other {took}"
    with Server(room, "place", "--rate", "1", "--per-firm", "1", workers=1) as server:
        took = []
        while not took or (min(took) >= 0.5 and len(took) < TRIES):
            busy = logged_on(server, "BBB", f"busy{len(took)}")
            busy.raises(400)
            busy.read(b"\x0135=P\x01")
            busy.close()
            begun = time.monotonic()
            logged_on(server, "BBB", "again", UNNAMED_WAIT).close()
            took.append(time.monotonic() - begun)
        yield min(took) < 0.5, f"one that has gone gives its place back in {min(took):.1f} s, with calls unread"
    with Server(room, "border", "--rate", "100", workers=1) as server:
        worst = []
        while not worst or (min(worst) > 80 and len(worst) < TRIES):
            peer = server.peer("BBB", f"border{len(worst)}")
            peer.read(b"\x0135=A\x01")
            peer.raises(400)
            worst.append(most_within(answered(peer, 3), 0.5))
            peer.close()
            time.sleep(2)
        yield min(worst) <= 80, f"at 100 a second {min(worst)} calls are made within half a second"


def a_logon(server, firm):
    """The seconds until a firm has logged on."""
    begun = time.monotonic()
    peer = server.peer(firm)
    well = peer.read(b"\x0135=A\x01")
    took = time.monotonic() - begun
    peer.close()
    return took if well else float("inf")


RACING = 16


def race(room):
    """The count of a firm's entries, by many connections on as many workers at once."""
    with Server(room, "race", "--most-entries", "8000", workers=RACING) as server:
        took = []
        threads = [threading.Thread(target=lambda n=n: took.append(called(server, "BBB", f"B{n}x", 1000))) for n in range(RACING)]
        for it in threads:
            it.start()
        for it in threads:
            it.join()
        made = sum(count for count, _ in took)
        yield made == 8000, f"of {RACING * 1000} calls of a firm on {RACING} connections {made} are made, and 8000 may be"


def is_open(connection, wait=0.01):
    """Whether the server still has a connection on which it has nothing to say."""
    connection.settimeout(wait)
    try:
        return connection.recv(1) != b""
    except TimeoutError:
        return True
    except OSError:
        return False


def unnamed(room):
    """Of 2,092 connections without a Logon that one worker has those that came last stay, 2,048 of them."""
    with Server(room, "unnamed", workers=1) as server:
        held = []
        for _ in range(2_092):
            held.append(socket.create_connection(("127.0.0.1", server.port), timeout=PATIENCE))
        until = time.monotonic() + UNNAMED_WAIT
        while sum(map(is_open, held[:44])) and time.monotonic() < until:
            time.sleep(0.1)
        stay = [at for at, it in enumerate(held) if is_open(it, 0.001)]
        yield stay == list(range(44, 2_092)), f"of 2,092 silent connections {len(stay)} stay, from the {stay[0] + 1 if stay else 0}. on, and 2,048 may, from the 45. on"


def behind(room):
    """A firm that is behind has its next reports at once, and not in the next second."""
    with Server(room, "behind") as server:
        house = server.peer("HSE")
        for _ in range(2_000):
            house.trade()
        house.read(b"58=entry 2000\x01")
        begun = time.monotonic()
        peer = server.peer("AAA")
        peer.read(b"\x01755=2000\x01", 30)
        took = time.monotonic() - begun
        reports = peer.got.count(b"\x0135=AS\x01")
        yield reports == 2_000 and took <= MOST_BEHIND, f"{reports} of 2,000 reports in {took:.1f} s, and they may take {MOST_BEHIND}"


def logons(room):
    """A connection without a Logon is closed after half a minute, by a clock that jumps, and not before; at both servers."""
    compiled(f"{TOP}/checks/jumping.c", f"{room}/jumping.so")
    for kind in ("keep", "serve"):
        env = {"LD_PRELOAD": f"{room}/jumping.so", "JUMP": f"{room}/jump-{kind}", "JUMP_BY": "35"}
        with Server(room, f"logons-{kind}", kind=kind, env=env) as server:
            connection = socket.create_connection(("127.0.0.1", server.port), timeout=PATIENCE)
            time.sleep(4)
            before = is_open(connection)
            open(env["JUMP"], "w").close()
            until = time.monotonic() + UNNAMED_WAIT
            while (after := is_open(connection)) and time.monotonic() < until:
                time.sleep(0.1)
            yield before and not after, f"{kind}, one without a Logon: open before 30 s {before}, and after them {after}"


def silent(room):
    """Connections that say nothing beside one that logs on: with descriptors for all of them, and without."""
    for name, shell in (("silent", ()), ("lacking", ("sh", "-c", f'ulimit -n {DESCRIPTORS}; exec "$@"', ""))):
        with Server(room, name, shell=shell) as server:
            held = [socket.create_connection(("127.0.0.1", server.port), timeout=PATIENCE) for _ in range(SILENT)]
            took = [a_logon(server, "AAA")]
            while min(took) > MOST_LOGON and len(took) < TRIES:
                took.append(a_logon(server, "AAA"))
            yield min(took) <= MOST_LOGON, f"a Logon beside {SILENT} {name} connections takes {min(took):.2f} s"
            if shell:
                yield server.says_soon("connections wait"), "the log says that descriptors lack"
            for it in held:
                it.close()


def patience(room):
    """A firm that says nothing for three hours, by a clock that jumps, and the house beside it."""
    compiled(f"{TOP}/checks/jumping.c", f"{room}/jumping.so")
    env = {"LD_PRELOAD": f"{room}/jumping.so", "JUMP": f"{room}/jump", "JUMP_BY": str(3 * 3600 + 60), "JUMP_ALL": "1"}
    with Server(room, "patience", env=env) as server:
        peers = [server.peer("BBB"), server.peer("HSE")]
        well = all(it.read(b"\x0135=A\x01") for it in peers)
        open(env["JUMP"], "w").close()
        for it in peers:
            it.read()
        well = well and [it.text() for it in peers] == ["no heartbeat"] * 2
        yield well, "one that says nothing for three hours is closed, though its HeartBtInt is 0"
        again = server.peer("BBB")
        yield again.read(b"\x0135=A\x01"), "and may log on again"


def deaf(room):
    """Sessions that ask for resends and read nothing."""
    with Server(room, "deaf") as server:
        peer = server.peer("BBB")
        peer.raises(2_000)
        peer.send("5")
        peer.read()
        before = needs = server.memory()
        peers = [Deaf(server.port) for _ in range(DEAF)]
        until, open_ones = time.monotonic() + 10, DEAF
        while time.monotonic() < until:
            open_ones = min(open_ones, sum(it.ask() for it in peers))
            needs = max(needs, server.memory())
            time.sleep(0.01)
        each = (needs - before) / DEAF
        yield open_ones == DEAF and each <= MOST_MEMORY, f"each of {open_ones} sessions that read nothing takes {each:.0f} kB"


def anew(port, stop):
    """Connects anew for each call, as fast as it can."""
    number = 0
    while not stop.is_set():
        number += 1
        try:
            peer = Peer(port, "BBB", f"N{number}x")
            peer.raises(1)
            peer.read(b"\x0135=P\x01", 2)
            peer.close()
        except OSError:
            pass


def calls_within(house, seconds):
    """How many calls the house makes in so long, one after the other."""
    count, begun = 0, time.monotonic()
    while time.monotonic() - begun < seconds:
        a_call(house)
        count += 1
    return count


def share(house, server):
    """What part of the calls that the house makes alone it makes beside a firm that connects anew for each call. The firm is
    stopped and goes on by turns, so that a busy machine or disk is none of it."""
    firm = subprocess.Popen([sys.executable, "-B", os.path.abspath(__file__), str(server.port)])
    time.sleep(1)
    alone = beside = 0
    for _ in range(ROUNDS):
        firm.send_signal(signal.SIGSTOP)
        alone += calls_within(house, 0.3)
        firm.send_signal(signal.SIGCONT)
        beside += calls_within(house, 0.3)
    firm.kill()
    firm.wait()
    return beside / alone


def reconnecting(room):
    """A firm that connects anew for each call, beside the house."""
    with Server(room, "anew") as server:
        peer = server.peer("BBB")
        peer.raises(20_000)
        peer.send("5")
        peer.read()
        house = server.peer("HSE")
        house.read(b"\x0135=A\x01")
        shares = [share(house, server)]
        while max(shares) < LEAST_SHARE and len(shares) < TRIES:
            shares.append(share(house, server))
        well = max(shares) >= LEAST_SHARE
        yield well, f"beside a firm that connects anew for each call the house has {max(shares):.2f} of its calls a second"


def late_ones(seconds):
    """Of these seconds all but the longest hundredth are as short as this."""
    return sorted(seconds)[len(seconds) * 99 // 100]


def flood(peers, sent, stop):
    """Sends the same bytes on each connection, as far as each takes them, and reads what comes, until it is stopped."""
    left = {it.socket: memoryview(sent) for it in peers}
    with selectors.DefaultSelector() as waits:
        for it in left:
            it.setblocking(False)
            waits.register(it, selectors.EVENT_READ | selectors.EVENT_WRITE)
        while not stop.is_set() and any(left.values()):
            for key, ready in waits.select(0.1):
                try:
                    if ready & selectors.EVENT_READ:
                        key.fileobj.recv(1 << 18)
                    if ready & selectors.EVENT_WRITE:
                        left[key.fileobj] = left[key.fileobj][key.fileobj.send(left[key.fileobj][: 1 << 16]) :]
                        if not left[key.fileobj]:
                            waits.modify(key.fileobj, selectors.EVENT_READ)
                except OSError:
                    pass


def beside(house, peers, sent, count):
    """The seconds of so many calls of the house beside connections that call all the time."""
    stop = threading.Event()
    thread = threading.Thread(target=flood, args=(peers, sent, stop))
    thread.start()
    time.sleep(0.5)
    took, begun = [], time.monotonic()
    while len(took) < count and time.monotonic() - begun < MOST_CROWDED:
        took.append(a_call(house))
    stop.set()
    thread.join()
    return late_ones(took)


def crowded(server, count, sent):
    """What the house's calls take alone, and beside a firm that sends this on so many connections at once."""
    house = server.peer("HSE")
    house.read(b"\x0135=A\x01")
    alone = late_ones([a_call(house) for _ in range(CROWD_CALLS)])
    peers = [server.peer("BBB") for _ in range(count)]
    well = all(it.read(b"\x0135=A\x01") for it in peers)
    took = beside(house, peers, sent, CROWD_CALLS)
    well = well and server.process.poll() is None
    for it in peers:
        it.close()
    return well, alone, took


def served(tried):
    """Whether the house is served beside others, in one of three tries at the most, and what its calls take, and took alone."""
    for _ in range(3):
        well, alone, took = tried()
        if well and took <= max(10 * alone, MOST_BESIDE):
            return True, alone, took
    return False, alone, took


def turns(room):
    """A firm that calls on 200 connections at once, beside the house: its connections share the time of one turn."""
    call = "70=S1|71=0|626=91|5001=AAA|5004=1|"
    sent = b"".join(message("J", "BBB", 2 + n, call) for n in range(CROWD_SENDS))

    def tried():
        with Server(room, "turns", workers=1) as server:
            return crowded(server, CROWD, sent)

    well, alone, took = served(tried)
    yield well, f"beside {CROWD} connections of a firm the house's calls take {1000 * took:.0f} ms, alone {1000 * alone:.0f} ms"


def sealed(path, calls):
    """A journal of these calls, each a type, a firm and fields, in one group."""
    with open(HOUSE, "rb") as it:
        pin = hashlib.sha256(it.read()).hexdigest()
    frames = [message("A", "HSE", 1, f"98=0|108=0|1137=9|1408=allocd-journal-3|58={pin}|")]
    frames += [message(kind, firm, number, rest) for number, (kind, firm, rest) in enumerate(calls, 1)]
    front = b"".join(frames)
    with open(path, "wb") as to:
        to.write(front + message("0", "HSE", len(frames), f"112={hashlib.sha512(front).hexdigest()}|58=1|") + b"\0")


def a_trade(id, lots):
    return "AE", "HSE", f"571={id}|55=ESZ6|32={lots}|552=1|54=1|453=1|448=AAA|447=D|452=4|1=A1|"


def raised():
    """The calls of a firm that has raised its limit by one lot again and again, and claimed all of it; to undo the first raise is consented to."""
    lots = LIMIT + RAISES
    yield from (("J", "BBB", f"70=R{n}|71=0|626=91|5001=AAA|5004=1|") for n in range(RAISES))
    yield a_trade("T1", lots)
    yield "J", "AAA", f"70=S1|71=0|626=17|72={RAISES + 1}.0|78=1|79=X|80={lots}|539=1|524=BBB|525=D|538=4|"
    yield "J", "BBB", f"70=C1|71=0|626=18|72={RAISES + 2}.1|78=1|79=B1|"
    yield from (("J", firm, "70=I1|71=6|626=20|72=1|") for firm in ("AAA", "BBB"))


def reversals(room):
    """A firm asks without end, on few and on many connections, for the reversal of its first raise, on which its claim stands."""
    sealed(f"{room}/raised", raised())
    ask = "70=V1|71=6|626=21|72=1|"
    sent = b"".join(message("J", "BBB", 2 + n, ask) for n in range(ASKS))
    for count in (4, 48):
        for words in ((), LIMITED):

            def tried():
                shutil.copyfile(f"{room}/raised", f"{room}/asks")
                with Server(room, "asks", *words, workers=4) as server:
                    return crowded(server, count, sent)

            well, alone, took = served(tried)
            text = f"asks on {count} connections{', with limits,' if words else ''}"
            yield well, f"beside a firm that {text} for a reversal the house's calls take {1000 * took:.0f} ms, alone {1000 * alone:.0f} ms"


def flocked(server):
    """What the house's calls take alone, and while one firm logs on very often at once, and the megabytes that the server takes more at the most."""
    house = server.peer("HSE")
    house.read(b"\x0135=A\x01")
    alone, before = late_ones([a_call(house) for _ in range(CROWD_CALLS)]), server.memory()
    logon = message("A", "AAA", 1, "98=0|108=0|1137=9|")
    held, took, needs, begun = [], [], before, time.monotonic()
    while len(took) < CROWD_CALLS and time.monotonic() - begun < MOST_CROWDED:
        for _ in range(LOGONS // 20 if len(held) < LOGONS else 0):
            held.append(socket.create_connection(("127.0.0.1", server.port), timeout=PATIENCE))
            held[-1].sendall(logon)
        took.append(a_call(house))
        needs = max(needs, server.memory())
    lives = server.process.poll() is None
    for it in held:
        it.close()
    return lives and len(held) >= LOGONS, alone, late_ones(took), (needs - before) / 1_024


def flock(room):
    """1,500 Logons of one firm that read nothing, as many as it may have and without a bound of them: the house is served."""
    sealed(f"{room}/reports", (a_trade(f"T{n}", 1) for n in range(REPORTS)))
    for usual in (True, False):
        needs = []

        def tried():
            shutil.copyfile(f"{room}/reports", f"{room}/flock")
            with Server(room, "flock", usual=usual, workers=4) as server:
                *told, more = flocked(server)
                needs.append(more)
                return told

        well, alone, took = served(tried)
        well = well and needs[-1] <= MOST_LOGONS
        text = "where it may have eight" if usual else "where it may have any"
        yield well, f"beside {LOGONS} Logons of a firm, {text}, the house's calls take {1000 * took:.0f} ms, alone {1000 * alone:.0f} ms; {needs[-1]:.0f} MB more"


def knock(port):
    """Connects so often a second as is asked for, says nothing, and keeps the last connections open."""
    held, begun, count = collections.deque(), time.monotonic(), 0
    while time.monotonic() - begun < KNOCKING:
        if count > (time.monotonic() - begun) * KNOCKS:
            time.sleep(0.001)
            continue
        count += 1
        knocking = socket.socket()
        knocking.setsockopt(socket.SOL_SOCKET, socket.SO_LINGER, struct.pack("ii", 1, 0))
        knocking.setblocking(False)
        knocking.connect_ex(("127.0.0.1", port))
        held.append(knocking)
        if len(held) > KNOCKERS_HOLD:
            held.popleft().close()
    print(count / (time.monotonic() - begun), flush=True)


def late_logon(server, got):
    """Connects, and logs on 300 ms later: notes whether it got in."""
    try:
        with socket.create_connection(("127.0.0.1", server.port), timeout=PATIENCE) as it:
            time.sleep(0.3)
            it.sendall(message("A", "AAA", 1, "98=0|108=0|1137=9|"))
            it.settimeout(5)
            got.append(b"\x0135=A\x01" in it.recv(4096))
    except OSError:
        got.append(False)


def knocked(room, name):
    """How many of twenty get in that log on 300 ms after they connect, and how many a second connect beside them and say nothing."""
    with Server(room, name, workers=4) as server:
        words = [sys.executable, "-B", os.path.abspath(__file__), "knock", str(server.port)]
        knockers = [subprocess.Popen(words, stdout=subprocess.PIPE) for _ in range(KNOCKERS)]
        time.sleep(1.5)
        got, threads = [], []
        for _ in range(20):
            threads.append(threading.Thread(target=late_logon, args=(server, got)))
            threads[-1].start()
            time.sleep(0.1)
        for it in threads:
            it.join()
        rate = sum(float(it.communicate()[0]) for it in knockers)
        return got.count(True), rate


def strangers(room):
    """A Logon 300 ms after its connect, beside many that connect and say nothing."""
    tries = [knocked(room, "strangers-0")]
    while max(tries)[0] < 18 and len(tries) < 3:
        tries.append(knocked(room, f"strangers-{len(tries)}"))
    count, rate = max(tries)
    yield count >= 18, f"{count} of 20 Logons 300 ms after their connects get in beside {rate:.0f} connects a second"


PARTS = {it.__name__: it for it in (turns, reversals, flock, strangers, rates, entries, parts, memory, held, groups, refused, race, connections, unnamed, behind, silent, logons, patience, deaf, reconnecting)}


def allow_descriptors():
    """Has the harness hold as many connections as it may."""
    _, hard = resource.getrlimit(resource.RLIMIT_NOFILE)
    resource.setrlimit(resource.RLIMIT_NOFILE, (min(hard, 16_384), hard))


if __name__ == "__main__":
    allow_descriptors()
    if sys.argv[1] == "knock":
        knock(int(sys.argv[2]))
    else:
        anew(int(sys.argv[1]), threading.Event())
