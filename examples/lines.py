"""The lines of a statement (crates/gu_statement/statement.md) as Python objects: what all tools of this folder draw.

A tool gets them from `allocd statement`, which it starts on HOUSE and DAY, or from a file of such lines. The program is
$ALLOCD, or the one that `./allocd` starts. Nothing is reckoned here: each figure is the program's.
"""
import json
import os
import re
import subprocess
import sys
import tempfile

from tool import Fault, called, content, say

TOP = os.path.dirname(os.path.dirname(os.path.abspath(__file__)))
FORM = 1  # of the statements that are read
KIND = re.compile(rb'"kind":"([a-z]+)"')
HEAD, TRAILER = b"8=FIXT.1.1\x019=", re.compile(rb"\x0110=\d{3}\x01")  # of a frame
KEPT = re.compile(rb"8=FIXT.{0,400}\x011408=allocd-journal-", re.DOTALL)  # the front of a journal of `allocd keep`
OF_HOUSE = re.compile("house |cannot read house|no firm")  # how a fault of the house file begins, or of what it hasn't
COUNTS = {"lots", "fee", "long", "short", "paid", "received", "used", "limit"}
TRACED = {
    "node": re.compile(
        r"(?P<indent>(?:  )*)(?P<name>\d+\.\d+) (?P<lots>\d+) (?P<firm>\S+?)/(?P<account>\S+) "
        r"(?P<state>held|offered|claimed|refused|cancelled)(?: (?:to|from|by|for) (?P<other>\S+))?(?: fee (?P<fee>\d+))?"
    ),
    "position": re.compile(r"position (?P<firm>\S+?)/(?P<account>\S+) (?P<instrument>\S+) long (?P<long>\d+) short (?P<short>\d+)"),
    "balance": re.compile(r"fees (?P<firm>\S+) paid (?P<paid>\d+) received (?P<received>\d+)"),
    "agreement": re.compile(r"agreement (?P<giver>\S+) (?P<taker>\S+) used (?P<used>\d+) limit (?P<limit>\d+)"),
}
SHOWN_PARTS = 4  # of a split, in words
ABOUT = {"initiate": "Consent to reverse", "decline": "Decline to reverse", "reverse": "Reverse"}


class Statement:
    """A statement: `book`, its first line; `firm`, whose it is, or None of one of the whole book; and its lines by kind."""

    def __init__(self, name, lines):
        self.name, self.raw, self.parsed = name, {}, {}
        try:
            for line in lines:
                self.raw.setdefault(KIND.search(line)[1].decode(), []).append(line)
            [self.book] = self.of("book")
            self.firm, form = self.book.get("firm"), self.book["form"]
            is_whole = all(len(self.raw.get(kind, [])) == self.book[it] for kind, it in (("entry", "entries"), ("hop", "hops")))
        except (TypeError, ValueError, KeyError):
            raise Fault(f"{name} isn't the lines of a statement") from None
        if form != FORM or not is_whole:
            raise Fault(f"{name}: a statement " + ("that isn't whole" if form == FORM else f"of the form {form}, and not {FORM}"))

    def of(self, kind):
        """The lines of a kind, each a dict, in their order."""
        if kind not in self.parsed:
            try:
                self.parsed[kind] = json.loads(b"[%b]" % b",".join(self.raw.get(kind, [])))
            except ValueError:
                raise Fault(f"{self.name} isn't the lines of a statement") from None
        return self.parsed[kind]

    def text(self):
        """Its lines, as the program wrote them."""
        return b"".join(line + b"\n" for lines in self.raw.values() for line in lines).decode()

    def sees(self, firm):
        """Whether what a firm does by itself is seen: it is the statement's own, or this is of the whole book."""
        return self.firm in (None, firm)

    def firms(self):
        """The firms, the house first; of a firm's statement that one."""
        return [it["firm"] for it in self.of("balance")]

    def last(self):
        """The number of the last entry, 0 where there is none."""
        return json.loads(self.raw.get("entry", [b'{"number":0}'])[-1])["number"]

    def what(self, entry):
        """What an entry does, in words."""
        return f"{ABOUT[entry['command']]} {entry['change']}" if "change" in entry else WORDS[entry["command"]](self, entry)


class Traced(Statement):
    """What `allocd trace` writes, read from standard input: nodes, positions, balances and agreements, in the words of a
    statement. The first `/` in FIRM/ACCOUNT ends the firm's name."""

    def __init__(self):
        if sys.stdin.isatty():
            raise Fault("a trace is read from standard input, and this is a terminal: name HOUSE and DAY, or see --help")
        self.name, self.firm, self.raw, self.parsed = called("-"), None, {}, {kind: [] for kind in TRACED}
        for number, line in enumerate(content("-").decode("latin-1").splitlines(), 1):
            found = next(((kind, it) for kind, words in TRACED.items() if (it := words.fullmatch(line))), None)
            if not found:
                raise Fault(f"{self.name}: line {number} isn't one of a trace: {line[:60]!r}")
            it = {name: int(text) if name in COUNTS else text for name, text in found[1].groupdict().items() if text is not None}
            self.parsed[found[0]].append(it)
        self.place_nodes(self.of("node"))

    def place_nodes(self, nodes):
        """Says of each node what its place and its words tell."""
        above = []
        for it, after in zip(nodes, nodes[1:] + [{"indent": ""}]):
            it["depth"] = len(it["indent"]) // 2
            it["leaf"] = len(after["indent"]) // 2 <= it["depth"]
            del above[it["depth"] :]
            above.append(it["name"])
            it["trade"] = int(above[0].split(".")[0])
            it.update({"parent": above[-2]} if it["depth"] else {})
            if "other" in it:
                pair = (it["other"], it["firm"]) if it["state"] == "claimed" else (it["firm"], it["other"])
                it["giver"], it["taker"] = pair


def trade(statement, it):
    place = f"{it['owner']}/{it['account']}" if statement.sees(it["owner"]) else it["owner"]
    return f"{'Bought' if it['side'] == 'buy' else 'Sold'} {it['lots']} {it['instrument']} for {place}"


def split(statement, it):
    if not statement.sees(it["firm"]):
        parts = [f"{part['lots']} lots as {part['name']}" for part in it["parts"]]
        return f"Offer {shortened(parts)} to {statement.firm}"
    parts = [f"{part['lots']} " + (part["account"] if "account" in part else f"to {part['firm']}") for part in it["parts"]]
    return f"Split {it['node']} into {shortened(parts)}"


def of_node(_, it):
    return f"{it['command'].capitalize()} {it['node']}" + (f" into {it['account']}" if "account" in it else "")


WORDS = {
    "trade": trade, "split": split, "claim": of_node, "refuse": of_node, "cancel": of_node,
    "agree": lambda _, it: f"{it['taker']} may take {it['limit']} lots of {it['giver']} at {money(it['rate'])}",
    "raise": lambda _, it: f"Raise the limit with {it['giver']} by {it['lots']}",
}


def shortened(parts):
    more = f" and {len(parts) - SHOWN_PARTS} more" if len(parts) > SHOWN_PARTS else ""
    return ", ".join(parts[:SHOWN_PARTS]) + more


def place(node):
    """Firm and account where a node stands. Where that isn't the statement's own firm, its account isn't told."""
    return node.get("firm") or node["taker" if node["state"] == "claimed" else "giver"], node.get("account", "")


def money(hundredths):
    return f"{'-' if hundredths < 0 else ''}{abs(hundredths) // 100}.{abs(hundredths) % 100:02}"


def program():
    """The program: $ALLOCD, or what `./allocd` starts; in a package it lies there itself."""
    named = os.environ.get("ALLOCD") or f"{TOP}/allocd"
    is_clone = named == f"{TOP}/allocd" and os.path.isdir(f"{TOP}/crates")
    if not os.access(f"{TOP}/crates/allocd/out/allocd" if is_clone else named, os.X_OK):
        raise Fault(f"{named} isn't there, or isn't built: it tells what a book holds. ALLOCD may name another, as ./quick")
    return os.path.abspath(named)


def up_to_end(day, data):
    """A stream up to its first zero, without a last frame that isn't whole yet."""
    data, _, behind = data.partition(b"\0")
    if behind.strip(b"\0"):
        say(f"{called(day)}: what stands behind the zero at byte {len(data)} is left out")
    end = max((it.end() for it in TRAILER.finditer(data)), default=0)
    rest = data[end:]
    if rest and (HEAD.startswith(rest) or rest.startswith(HEAD)):
        say(f"{called(day)}: the last frame, at byte {end}, isn't whole, and is left out")
        data = data[:end]
    return data


class Day:
    """A day of a house: a journal, or what was sent to `allocd batch`. A journal of `allocd keep` is read by the program itself,
    also while it grows; of anything else the bytes are read once."""

    def __init__(self, house, day, answers=None):
        self.house, self.day, data = house, day, content(day)
        is_kept = KEPT.match(data)
        # (a file, since a pipe would end the tool where the program ends before it has read all)
        self.file = tempfile.NamedTemporaryFile(prefix="allocd-")
        self.file.write(data if is_kept else up_to_end(day, data))
        self.file.flush()
        self.journal = is_kept and (day if os.path.isfile(day) else self.file.name)
        if answers and self.run("batch") != content(answers):
            raise Fault(f"{called(answers)} isn't what answers {called(day)}")

    def statement(self, firm=None):
        """What `allocd statement` says of it, of the whole book or of a firm."""
        more = (["--firm", firm] if firm else []) + (["--journal", self.journal] if self.journal else [])
        return Statement(called(self.day), self.run("statement", *more).splitlines())

    def run(self, word, *more):
        """What the program writes. Its fault names the file that it is of."""
        self.file.seek(0)
        words = [program(), word, self.house, *more]
        try:
            done = subprocess.run(words, stdin=self.file, stdout=subprocess.PIPE, stderr=subprocess.PIPE)
        except OSError as fault:
            raise Fault(f"{words[0]}: {fault.strerror}") from None
        said = done.stderr.decode(errors="replace").replace(self.file.name, called(self.day)).splitlines()
        if done.returncode:
            last = (said or [f"{words[0]} ended with {done.returncode}"])[-1].removeprefix(f"{called(self.day)}: ")
            raise Fault(f"{self.house if OF_HOUSE.match(last) else called(self.day)}: {last.removeprefix('house ')}")
        for line in said:
            say(line)
        return done.stdout


def statements_in(path):
    """The statements in a file of their lines, one behind the other."""
    found = []
    for line in content(path).splitlines():
        if not found or b'"kind":"book"' in line:
            found.append([])
        found[-1].append(line)
    if not found:
        raise Fault(f"{called(path)}: there is no statement in it")
    return [Statement(called(path), lines) for lines in found]


def statements_of(house, day=None, answers=None):
    """The statement of the whole book of a day, and after it those of its firms; without a day those in the file `house`."""
    if not day:
        yield from statements_in(house)
    else:
        it = Day(house, day, answers)
        whole = it.statement()
        yield whole
        yield from map(it.statement, whole.firms())


def statement_of(house, day=None, firm=None, answers=None):
    """The statement of a day, of the whole book or of a firm; without a day the first of these in the file `house`."""
    if day:
        return Day(house, day, answers).statement(firm)
    found = [it for it in statements_in(house) if firm in (None, it.firm)]
    if not found:
        raise Fault(f"{called(house)}: there is no statement of {firm} in it")
    return found[0]
