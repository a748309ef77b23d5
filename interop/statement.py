"""A firm's statement, as `allocd statement HOUSE --firm FIRM` writes it (docs/statement.md), for the
clerk's screen and the robot.

- `Statement` is what the lines of a whole one say. What isn't sure isn't taken (`NoStatement`): a line that is cut, a
  kind or a member that isn't known, lines that are fewer than its first one says, another firm, house or form.
- `Place` is where it lies: a file, an address of the door of the statements (https), or one of this machine (http).
- `Latest` keeps the last whole one of a place, and why there is none that is newer.

It needs Python 3.9.
"""
import contextlib
import http.client
import json
import os
import re
import stat
import sys
import time
from collections import Counter, namedtuple
from datetime import datetime, timezone
from email.utils import parsedate_to_datetime
from urllib.parse import urlsplit

sys.dont_write_bytecode = True
sys.path.insert(1, os.path.join(os.path.dirname(os.path.abspath(__file__)), "../examples"))
import tool

EACH = 5  # seconds between two looks at a place
PATIENCE = 10  # seconds for a connection, and for the next bytes
LONGEST_READ = 60  # seconds for a whole statement
PIECE, LONGEST_LINE, LARGEST = 1 << 16, 1 << 20, 1 << 30  # bytes
FORM = 1
TYPES = {"#": int, "[": list, "?": bool, "": str}
# Of each kind of line the members that it has, and those that it may have: texts, numbers (#), lists ([) and facts (?).
KINDS = {
    "book": ("house form# entries# trades# long# short# hops# paid# received#", "firm refused#"),
    "entry": (
        "number# firm command status",
        "id time reversed_by# owner account instrument side lots# node parts[ giver taker rate# limit# change#",
    ),
    "refused": ("number# firm", "id time place# refusal# text reject# tag#"),
    "node": ("name depth# lots# instrument side state leaf?", "parent trade# firm account giver taker decision# fee#"),
    "position": ("firm account instrument long# short#", ""),
    "balance": ("firm paid# received#", ""),
    "hop": ("entry# node giver taker lots# rate# fee#", ""),
    "agreement": ("giver taker rate# limit# used# entry#", ""),
    "offer": ("node giver taker lots#", "since rate# fee# refusal"),
    "reversal": ("change# consented[ lacking[", "stands#"),
}


def members_of(words):
    """The members that words of KINDS name, each with its type."""
    return {it.rstrip("#[?"): TYPES[it.lstrip("abcdefghijklmnopqrstuvwxyz_")] for it in words.split()}


MEMBERS = {kind: (members_of(has), members_of(has) | members_of(may)) for kind, (has, may) in KINDS.items()}


class NoStatement(Exception):
    """Why a statement isn't taken."""


def shown(value):
    """A value that others chose, for a line of text."""
    return ascii(value)[:60]


def lines_of(pieces):
    """The lines of what comes in pieces."""
    held = b""
    for piece in pieces:
        *whole, held = (held + piece).split(b"\n")
        yield from whole
        if len(held) > LONGEST_LINE:
            raise NoStatement("a line of it is too long")
    if held:
        raise NoStatement("its last line is cut")


def line_of(text):
    """The object of a line, which is of a known kind and has its members."""
    try:
        line = json.loads(text.decode("utf-8"))
    except (ValueError, RecursionError):
        raise NoStatement("is no JSON") from None
    kind = line.pop("kind", None) if isinstance(line, dict) else line
    if not isinstance(kind, str) or kind not in MEMBERS:
        raise NoStatement(f"is of an unknown kind, {shown(kind)}")
    if kind == "book" and line.get("form") != FORM:
        raise NoStatement(f"is of form {shown(line.get('form'))}, and {FORM} is known here")
    has, known = MEMBERS[kind]
    for name, value in line.items():
        if name not in known:
            raise NoStatement(f"has an unknown member, {shown(name)} of {kind}")
        if type(value) is not known[name] or (known[name] is int and value < 0):
            raise NoStatement(f"has a wrong {name} of {kind}, {shown(value)}")
    for name in has.keys() - line.keys():
        raise NoStatement(f"has no {name} of {kind}")
    return kind, line


class Offer:
    """An offer that waits. `rate` and `fee` are hundredths, None where nothing is agreed; `since` a moment, None where
    no time was told; `refusal` why its claim would be refused, '' where it wouldn't."""

    def __init__(self, line):
        self.giver, self.taker, self.rate, self.fee = line["giver"], line["taker"], line.get("rate"), line.get("fee")
        self.since = moment_of(line.get("since", ""))
        self.refusal = re.sub(r"\A\d+ ", "", line.get("refusal", ""))  # behind its number


def moment_of(text):
    """The moment of a SendingTime, in seconds."""
    if not re.fullmatch(r"\d{8}-\d\d:\d\d:\d\d(\.\d{1,9})?", text, re.ASCII):
        return None
    try:
        return datetime.strptime(text[:17], "%Y%m%d-%H:%M:%S").replace(tzinfo=timezone.utc).timestamp()
    except ValueError:
        return None


# A node: what stays of it, the account of the firm where it stands, and its giver, '' where there is none.
Node = namedtuple("Node", "lots side instrument account giver")


def node_of(line):
    return Node(line["lots"], *(sys.intern(line.get(name, "")) for name in Node._fields[1:]))


class Statement:
    """What a firm's statement says: the number of its `last` entry, `offers` and `nodes` by their names, `positions`
    and the `balance`."""

    def __init__(self, lines, house, firm):
        self.house, self.firm, self.last = house, firm, 0
        self.book, self.offers, self.nodes, self.positions, self.balance = None, {}, {}, [], None
        self.sums, self.offered = Counter(), set()
        for number, text in enumerate(lines, 1):
            try:
                self.take(*line_of(text))
            except NoStatement as why:
                raise NoStatement(f"its line {number} {why}") from None
        self.must_be_whole()

    def take(self, kind, line):
        if (kind == "book") != (self.book is None):
            raise NoStatement("isn't where it has to be")
        self.sums[kind] += 1
        if kind == "book":
            self.must_be_own(line)
            self.book = line
        elif kind == "entry":
            self.last = max(self.last, line["number"])
        elif kind == "node":
            self.nodes[line["name"]] = node_of(line)
            self.sums["trade"] += line["depth"] == 0 and "trade" in line
            self.offered |= {line["name"]} if line["state"] == "offered" else set()
        elif kind == "offer":
            self.offers[line["node"]] = Offer(line)
        elif kind in ("position", "balance"):
            self.must_be_of(line)
            self.sums.update({name: line[name] for name in line.keys() & {"long", "short", "paid", "received"}})
            if kind == "position":
                self.positions.append(line)
            else:
                self.balance = line

    def must_be_own(self, book):
        if book["house"] != self.house:
            raise NoStatement(f"is of the house {shown(book['house'])}, and not of {self.house}")
        if "firm" not in book:
            raise NoStatement(f"is of the whole book, and not of {self.firm}")
        self.must_be_of(book)

    def must_be_of(self, line):
        if line["firm"] != self.firm:
            raise NoStatement(f"is of {shown(line['firm'])}, and not of {self.firm}")

    def must_be_whole(self):
        """Whether no line is lacking. How many offers there are is told by the nodes."""
        if not self.book or not self.balance:
            raise NoStatement("it is cut: it has no balance" if self.book else "it is empty")
        kinds = {"entries": "entry", "trades": "trade", "hops": "hop"}
        for name in ("entries", "trades", "long", "short", "hops", "paid", "received"):
            if self.sums[kinds.get(name, name)] != self.book[name]:
                raise NoStatement(f"it is cut: of {name} its first line says {shown(self.book[name])}")
        if self.offered != self.offers.keys():
            raise NoStatement("it is cut: it hasn't all offers")


class Connection(http.client.HTTPConnection):
    """A connection by a door's TLS, or without it."""

    def __init__(self, address, tls):
        super().__init__(*address, timeout=PATIENCE)
        self.tls = tls

    def connect(self):
        super().connect()
        if self.tls:
            self.sock = self.tls.wrapped(self.sock)


class Place:
    """Where a statement lies: a path, https://HOST:PORT/.. with the session's `tls`, or http://127.0.0.1:PORT/.."""

    def __init__(self, text, tls=None):
        self.text, self.tls, self.url = text, None, None
        if "://" not in text:
            return
        try:
            self.url = urlsplit(text)
            self.address = self.url.hostname, self.url.port or {"https": 443}.get(self.url.scheme, 80)
        except ValueError as fault:
            raise tool.Fault(f"{text}: {fault}") from None
        if self.url.scheme == "https" and tls:
            self.tls = tls
        elif (self.url.scheme, self.url.hostname) != ("http", "127.0.0.1"):
            raise tool.Fault(f"{text}: a statement is a file, or at https:// with --tls, or at http://127.0.0.1")

    def opened(self):
        """What changes when the statement does (None where that isn't sure), when it was made, its bytes in pieces."""
        return self.asked() if self.url else self.file()

    @contextlib.contextmanager
    def file(self):
        with open(self.text, "rb", opener=lambda path, flags: os.open(path, flags | os.O_NONBLOCK)) as file:
            seen = os.fstat(file.fileno())
            if not stat.S_ISREG(seen.st_mode):
                raise OSError("it is no file")
            mark = seen.st_dev, seen.st_ino, seen.st_size, seen.st_mtime_ns
            yield mark, seen.st_mtime, iter(lambda: file.read(PIECE), b"")

    @contextlib.contextmanager
    def asked(self):
        """By GET. No other place is gone to, and what is as it was isn't read."""
        with contextlib.closing(Connection(self.address, self.tls)) as connection:
            path = self.url.path or "/"
            path += f"?{self.url.query}" if self.url.query else ""
            connection.request("GET", path, headers={"Connection": "close"})
            answer = connection.getresponse()
            if answer.status != 200:
                raise OSError(f"the answer is {answer.status} {shown(answer.reason)}")
            mark, age = seen_of(answer)
            yield mark, time.time() - age, pieces_of(answer)


def seen_of(answer):
    """What of an answer changes when what it has does, and how many seconds ago that was made. Its moments tell seconds
    alone: what was made within the last one may change, and look the same."""
    told = [answer.getheader(name) for name in ("Last-Modified", "Date")]
    try:
        made, now = (parsedate_to_datetime(it) for it in told)
        age = (now - made).total_seconds()
    except (TypeError, ValueError, IndexError):
        return None, 0
    mark = told[0], answer.getheader("Content-Length"), answer.getheader("ETag")
    return mark if age > 1 else None, max(age, 0)


def pieces_of(answer):
    """The bytes of an answer, of which none may be lacking."""
    left, until = answer.length, time.monotonic() + LONGEST_READ
    while left != 0 and (piece := answer.read1(PIECE if left is None else min(PIECE, left))):
        left = left if left is None else left - len(piece)
        if time.monotonic() > until:
            raise OSError("it comes too slowly")
        yield piece
    if left:
        raise OSError("its end didn't come")


class Latest:
    """The last whole statement of a place, None before there is one, with the moment when it was made; and `why` there
    is none that is newer, '' where it is as the place has it."""

    def __init__(self, place, house, firm):
        self.place, self.house, self.firm = place, house, firm
        self.statement, self.made, self.why = None, 0, ""
        self.mark, self.next = None, 0

    def look(self):
        """Looks at the place, at most each EACH seconds, and says whether anything is new. A fault is told once."""
        if time.monotonic() < self.next:
            return False
        before = self.statement, self.why
        try:
            self.read()
        except NoStatement as why:
            self.why = str(why)
        except (OSError, http.client.HTTPException, ValueError) as fault:
            said = getattr(fault, "strerror", None) or str(fault)
            self.mark, self.why = None, f"it can't be read: {ascii(said)[1:-1]:.200}"
        self.next = time.monotonic() + EACH
        if self.why and self.why != before[1]:
            tool.say(f"{self.place.text}: {self.why}")
        return (self.statement, self.why) != before

    def read(self):
        with self.place.opened() as (mark, made, pieces):
            if mark is None or mark != self.mark:
                self.mark = mark
                found = Statement(lines_of(limited(pieces)), self.house, self.firm)
                self.statement, self.made, self.why = found, made, ""

    def refuse(self, why):
        """Takes back a statement that others show to be wrong."""
        self.statement, self.why = None, why
        tool.say(f"{self.place.text}: {why}")


def limited(pieces):
    """Pieces that aren't too many."""
    size = 0
    for piece in pieces:
        size += len(piece)
        if size > LARGEST:
            raise NoStatement("it is too long")
        yield piece
