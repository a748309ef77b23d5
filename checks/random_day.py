"""Days for checks: a random one, in which refused commands, repeats and what isn't understood stand among the accepted, and a large one.

A random day is made by asking `allocd batch` one message after the other, so what it accepts is its own word. Names and ids
are what strangers may choose: markup, quotes, formulas, the longest and widest.
"""
import os
import random
import subprocess
import sys

TOP = os.path.dirname(os.path.dirname(os.path.abspath(__file__)))
sys.dont_write_bytecode = True
sys.path[:0] = [f"{TOP}/checks/model", f"{TOP}/examples"]
from book import Book, House
from fix import framed
from journal import firsts, frames, number_of

FIRMS = ["AAA", "<script>", "</script>", "&lt;b>x", "A/B", "/A", "=1+1", "'\"`${x}\\n", "WWWWWWWWWWWWWWWW", "]]>", "constructor"]
ACCOUNTS = ["A1", "<img/src=x>", "MMMMMMMMMMMMMMMM", "a/held"]
INSTRUMENTS = ["ESZ6", "<!--", "{{DAY}}", "@@@@@@@@@@@@@@@@"]
IDS = ["T", "<script>x=1</script>", "<b onclick='x=1'>", "</script><script>", "=HYPERLINK(0)", "a  b", " -1", '"><img src=y>', "\\u003c"]


def message(kind, firm, house, number, rest):
    clock = f"20260302-{9 + number // 3600 % 12:02}:{number // 60 % 60:02}:{number % 60:02}"
    fields = [f"35={kind}", f"49={firm}", f"56={house}", f"34={number}", f"52={clock}", *rest, ""]
    return framed("\x01".join(fields).encode("latin-1"))


def trade(id, firm, account, instrument, side, lots):
    return [f"571={id}", f"55={instrument}", f"32={lots}", "552=1", f"54={side}", "453=1", f"448={firm}", "452=4", f"1={account}"]


def part(lots, account, taker=None):
    return [f"79={account}", f"80={lots}"] + ([f"539=1", f"524={taker}", "538=4"] if taker else [])


def split(id, node, parts):
    return [f"70={id}", "71=0", "626=17", f"72={node}", f"78={len(parts)}", *(field for part in parts for field in part)]


def house_text(rng):
    """A house file of strangers' names: each pair of firms has an agreement or none, some of them tight."""
    lines = [rng.choice(["GIVEUP 1", "GIVEUP 2"]), "HOUSE <HSE>&co"] + [f"FIRM {firm}" for firm in FIRMS]
    lines += [f"ACCOUNT {firm} {account}" for firm in FIRMS + ["<HSE>&co"] for account in ACCOUNTS]
    lines += [f"INSTRUMENT {name}" for name in INSTRUMENTS]
    pairs = [(giver, taker) for giver in FIRMS for taker in FIRMS if giver != taker and rng.random() < 0.8]
    lines += [f"AGREEMENT {giver} {taker} {rng.choice([0, 1, 40, 125, 100000])} {rng.choice([0, 300, 5000, 10**13])}" for giver, taker in pairs]
    return "\n".join(lines) + "\n"


class Day:
    """A day that is being made. `sent` is its input, `answers` what came back, `accepted` its journal, `book` what stands."""

    def __init__(self, program, path, seed):
        self.rng = random.Random(seed)
        text = house_text(self.rng)
        with open(path, "w") as file:
            file.write(text)
        self.house = path
        self.book = Book(House.parse(text))
        self.sent, self.answers, self.accepted = [], [], []
        self.service = subprocess.Popen([program, "batch", path], stdin=subprocess.PIPE, stdout=subprocess.PIPE)

    def send(self, frame, is_answered=True):
        self.sent.append(frame)
        self.service.stdin.write(frame)
        self.service.stdin.flush()
        if is_answered:
            self.hear(frame)

    def hear(self, frame):
        held = b""
        while not (answer := list(frames(held))):
            piece = os.read(self.service.stdout.fileno(), 65536)
            if not piece:
                sys.exit(f"{self.house}: allocd batch has ended")
            held += piece
        self.answers.append(held)
        if number_of(firsts(answer[0])) == len(self.book.entries) + 1:
            self.accepted.append(frame)
            self.book.accept(next(frames(frame)))

    def end(self):
        self.service.stdin.close()
        if self.service.wait() or self.service.stdout.read():
            sys.exit(f"{self.house}: allocd batch failed")

    def id(self):
        return f"{self.rng.choice(IDS)}{len(self.sent)}"[-32:]

    def ask(self, kind, firm, rest):
        self.send(message(kind, firm, self.book.house.name, len(self.sent) + 1, rest))

    def act(self):
        acts = [self.trade] * 2 + [self.split] * 4 + [self.decide] * 5 + [self.agree, self.lift] + [self.reversal] * 4 + [self.noise]
        self.rng.choice(acts)()

    def trade(self):
        firm, account, side = self.rng.choice(FIRMS + ["NOBODY"]), self.rng.choice(ACCOUNTS + ["NONE"]), self.rng.choice("12")
        rest = trade(self.id(), firm, account, self.rng.choice(INSTRUMENTS), side, self.rng.choice([1, 7, 100, 2500, 10_000_000]))
        self.ask("AE", self.book.house.name, rest)

    def split(self):
        nodes = [node for node in self.book.nodes.values() if not node.parts or self.rng.random() < 0.02]
        if not nodes:
            return
        node = self.rng.choice(nodes)
        left, parts = node.lots, []
        while left and len(parts) < 6:
            lots = left if len(parts) == 5 else self.rng.randint(1, left)
            parts.append(part(lots, self.rng.choice(ACCOUNTS), self.rng.choice(FIRMS) if self.rng.random() < 0.6 else None))
            left -= lots
        owner = node.place()[0] if self.rng.random() < 0.95 else self.rng.choice(FIRMS)
        self.ask("J", owner, split(self.id(), node.name, parts if self.rng.random() < 0.97 else parts[:-1]))

    def decide(self):
        offered = [node for node in self.book.nodes.values() if node.state == "offered"]
        if not offered:
            return
        node = self.rng.choice(offered)
        how = self.rng.choice(["claim"] * 6 + ["refuse", "cancel"])
        firm = node.firm if how == "cancel" else node.taker
        codes = {"claim": ["71=0", "626=18"], "refuse": ["71=0", "626=19"], "cancel": ["71=2", "626=23"]}[how]
        account = ["79=before", "78=1", f"79={self.rng.choice(ACCOUNTS)}"] if how == "claim" else []
        self.ask("J", firm, [f"70={self.id()}", *codes, f"72={node.name}", *account])

    def agree(self):
        by = self.book.house.name if self.rng.random() < 0.9 else self.rng.choice(FIRMS)
        giver, taker = (self.rng.choice(FIRMS + ["NOBODY"]) for _ in range(2))
        terms = [f"5003={self.rng.choice([0, 40, 100_001])}", f"5004={self.rng.choice([0, 1000, 10**12])}"]
        self.ask("J", by, [f"70={self.id()}", "71=0", "626=90", f"5001={giver}", f"5002={taker}", *terms])

    def lift(self):
        """A raise of a limit, or one that is refused."""
        giver, taker = self.rng.choice([*self.book.terms, ("NOBODY", self.rng.choice(FIRMS))])
        self.ask("J", taker, [f"70={self.id()}", "71=0", "626=91", f"5001={giver}", f"5004={self.rng.choice([0, 5, 500, 10**13])}"])

    def reversal(self):
        """A consent to the undo of a change, a decline, or the undo; of those with a consent most often."""
        changes = [e for e in self.book.entries if e.kind not in ("initiate", "decline", "reverse") and not e.undone_by]
        pending = [self.book.entry(number) for number in self.book.consents]
        if not changes:
            return
        change = self.rng.choice(pending if pending and self.rng.random() < 0.6 else changes)
        parties = self.book.parties(change)
        missing = [firm for firm in parties if firm not in self.book.consents.get(change.number, [])]
        code = "626=20" if missing and self.rng.random() < 0.6 else self.rng.choice(["626=21"] * 8 + ["626=22"])
        self.ask("J", self.rng.choice(missing or parties), [f"70={self.id()}", "71=6", code, f"72={change.number}"])

    def noise(self):
        """A repeat, a message of a session, one that isn't understood, or a garbled frame."""
        way = self.rng.randrange(5)
        name, firm = self.book.house.name, self.rng.choice(FIRMS)
        if way == 0 and self.accepted:
            self.send(self.rng.choice(self.accepted))
        elif way == 1:
            self.send(message("0", firm, name, len(self.sent) + 1, []), is_answered=False)
        elif way == 2:
            self.send(message("0", firm, "ELSE", len(self.sent) + 1, []))
        elif way == 3:
            self.ask(self.rng.choice(["J", "D"]), firm, ["70=x"])
        else:
            self.send(message("J", firm, name, 1, ["70=x"])[:-4] + b"999\x01", is_answered=False)


def random_day(program, house, seed, trades):
    """A day with this many accepted trades; its house file is written to the path `house`."""
    day = Day(program, house, seed)
    while sum(entry.kind == "trade" for entry in day.book.entries) < trades:
        day.act()
    day.end()
    return day


def large_day(entries):
    """The journal of a day over examples/rows.house: trades of AAA, each split, a part of it given up to BBB, and claimed."""
    for number in range(1, entries + 1, 3):
        id = f"N{number}"
        yield message("AE", "HSE", "HSE", number, trade(id, "AAA", "A1", "ESZ6", "12"[number % 2], 100))
        yield message("J", "AAA", "HSE", number, split(id, f"{number}.0", [part(60, "A2"), part(40, "X", "BBB")]))
        yield message("J", "BBB", "HSE", number, [f"70={id}", "71=0", "626=18", f"72={number + 1}.2", "78=1", "79=B1"])


# Firms of a chain of give-ups, each with names that nobody else has: its account, its ids, and what it deals in.
CHAIN = ("ALPHA", "BRAVO", "CHARLIE", "DELTA", "ECHO")


def chain_house():
    """A house in which each firm of the chain may give up to the next."""
    lines = ["GIVEUP 2", "HOUSE HSE"] + [f"FIRM {firm}" for firm in CHAIN] + ["INSTRUMENT ESZ6"]
    lines += [f"ACCOUNT {firm} {firm.lower()}-acct" for firm in CHAIN]
    lines += [f"AGREEMENT {giver} {taker} {100 + i} 1000000" for i, (giver, taker) in enumerate(zip(CHAIN, CHAIN[1:]))]
    return "\n".join(lines) + "\n"


def chain_day():
    """The journal of a day over such a house. ALPHA's 10007 lots go down the chain to DELTA, who offers some of them to
    ALPHA. A second trade goes to BRAVO, who offers it to ECHO, and both that split and BRAVO's claim are undone."""
    own = {firm: f"{firm.lower()}-acct" for firm in CHAIN}
    frames = []

    def id(firm):
        return f"{firm.lower()}-id-{len(frames)}"

    def ask(firm, kind, *rest):
        frames.append(message(kind, firm, "HSE", len(frames) + 1, rest))

    def give(firm, node, kept, given, to):
        ask(firm, "J", *split(id(firm), node, [part(kept, own[firm])] * (kept > 0) + [part(given, "X", to)]))

    def instruct(firm, trans, kind, names, *rest):
        ask(firm, "J", f"70={id(firm)}", f"71={trans}", f"626={kind}", f"72={names}", *rest)

    def claim(firm, node):
        instruct(firm, 0, 18, node, "78=1", f"79={own[firm]}")

    ask("HSE", "AE", *trade("trade-id-1", "ALPHA", own["ALPHA"], "ESZ6", 1, 10007))  # 5
    give("ALPHA", "5.0", 3001, 7006, "BRAVO")  # 6
    claim("BRAVO", "6.2")  # 7
    give("BRAVO", "6.2", 2003, 5003, "CHARLIE")  # 8
    claim("CHARLIE", "8.2")  # 9
    give("CHARLIE", "8.2", 1009, 3994, "DELTA")  # 10
    claim("DELTA", "10.2")  # 11
    give("DELTA", "10.2", 2997, 997, "ALPHA")  # 12
    ask("HSE", "AE", *trade("trade-id-2", "ALPHA", own["ALPHA"], "ESZ6", 2, 4001))  # 13
    give("ALPHA", "13.0", 0, 4001, "BRAVO")  # 14
    claim("BRAVO", "14.1")  # 15
    give("BRAVO", "14.1", 2, 3999, "ECHO")  # 16
    for firm, code, entry in (("BRAVO", 20, 16), ("BRAVO", 21, 16), ("BRAVO", 20, 15), ("ALPHA", 20, 15), ("BRAVO", 21, 15)):
        instruct(firm, 6, code, entry)  # 17 to 21
    return frames
