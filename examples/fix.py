"""FIX as `allocd` speaks it: frames, the messages that are sent to it, and a server to send them to.

The tools of this folder, checks/ and interop/ make and find frames by this module, and none of them in another way. It lies
here so that a copy of this folder runs alone, and needs nothing but Python 3.9.
"""
import functools
import itertools
import random
import re
import socket
import threading
import time

OPENING = re.compile(rb"8=FIXT\.1\.1\x019=(\d{1,6})\x01")
BODY = re.compile(rb"35=[^\x01]+\x01(?:[1-9]\d{0,8}=[^\x01]+\x01)*")
# A frame that the service wrote, with its body; its length and its checksum are looked at by `framed`.
FRAME = re.compile(rb"8=FIXT\.1\.1\x019=\d+\x01(.*?\x01)10=\d{3}\x01", re.DOTALL)
# A byte that a line of a frame writes as its two digits: any control byte but the one that ends a field, '|', which stands
# for that one, and a backslash. And such digits.
HIDDEN = re.compile(rb"[\x00\x02-\x1f|\\\x7f]")
DIGITS = re.compile(rb"\\x([0-9a-fA-F]{2})")
# A Logon's own fields, and those of the trade of the examples: AAA buys 100 lots for A1.
LOGON = "98=0|108=30|1137=9|"
TRADE = "571=T1|55=ESZ6|32=100|552=1|54=1|453=1|448=AAA|447=D|452=4|1=A1|"


def checksum(data):
    return sum(data) % 256


def framed(body, off=0):
    """The frame of a body, which is bytes, or a text whose fields end with '|'. Its checksum is wrong by `off`."""
    if isinstance(body, str):
        body = body.encode("latin-1").replace(b"|", b"\x01")
    front = b"8=FIXT.1.1\x019=%d\x01%b" % (len(body), body)
    return b"%b10=%03d\x01" % (front, (checksum(front) + off) % 256)


def shown(data):
    r"""Bytes of a frame as a line: '|' for the byte 0x01, and digits as in \x1b for other control bytes, '|' and a backslash."""
    return HIDDEN.sub(lambda byte: b"\\x%02x" % byte[0][0], data).replace(b"\x01", b"|")


def meant(line):
    """The bytes that `shown` shows as this line."""
    return DIGITS.sub(lambda digits: bytes.fromhex(digits[1].decode()), line.replace(b"|", b"\x01"))


def message(kind, firm, number, rest="", house="HSE"):
    """The frame of a message of a firm, with its header and these fields."""
    return framed(f"35={kind}|49={firm}|56={house}|34={number}|52=20260302-09:00:00|{rest}")


def frames_of(stream):
    """The frames of what the service wrote."""
    return [found[0] for found in FRAME.finditer(stream)]


def body_of(frame):
    """The body of a frame, as a text whose fields end with '|'."""
    return frame.split(b"\x01", 2)[2].rsplit(b"10=", 1)[0].decode("latin-1").replace("\x01", "|")


ASKS = threading.Lock()  # one thread at a time asks for a port: two that begin at once would each get a hundred of their own


@functools.cache
def own_ports():
    """A hundred ports, again and again, that no other process takes here by `free_port` while this one runs: whoever has them
    has a name in the system that one process can have. They lie below those that connections get by themselves (32,768 and
    up), so that none of these takes one before a server does, or between two servers."""
    for first in random.SystemRandom().sample(range(10_000, 32_000, 100), 220):
        owner = socket.socket(socket.AF_UNIX)
        try:
            owner.bind(f"\0allocd-ports-{first}")
            return owner, itertools.cycle(range(first, first + 100))
        except OSError:
            owner.close()
    raise OSError("all ports from 10,000 to 31,999 are other processes'")


def free_port():
    """A port of 127.0.0.1 on which nobody listens, and that is given to nobody else before 99 others, in no other thread
    either."""
    while True:
        with ASKS:
            port = next(own_ports()[1])
        with socket.socket() as probe:
            try:
                probe.bind(("127.0.0.1", port))
                return port
            except OSError:
                continue


def is_free(port):
    """Whether nobody listens on a port of 127.0.0.1."""
    with socket.socket() as probe:
        return probe.connect_ex(("127.0.0.1", port)) != 0


def serving(program, house, port, workers, connections=0):
    """The words that start a server."""
    words = [program, "serve", house, "--port", str(port), "--workers", str(workers)]
    return words + ["--connections", str(connections)] * (connections > 0)


class Ended(Exception):
    """A server ended before it listened."""


def connected(port, server, patience=None):
    """A connection to a server, as soon as it listens."""
    while server.poll() is None:
        try:
            return socket.create_connection(("127.0.0.1", port), patience)
        except ConnectionRefusedError:
            time.sleep(0.01)
    raise Ended(f"the server ended with {server.returncode}")


def listening(start, tries=10):
    """A server, and its port, once it listens; `start` starts it on a port, which another program may take meanwhile: then
    it is another port's turn. The look whether it listens is a connection too."""
    for left in reversed(range(tries)):
        port = free_port()
        server = start(port)
        try:
            connected(port, server).close()
            return server, port
        except Ended:
            if not left:
                raise
