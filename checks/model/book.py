"""The book of a day, built anew from its accepted commands: the tests' own, with the rules of docs/book.md, which the program
is compared with. No tool stands on it.
"""
import re
from hashlib import sha256

from journal import Entry, NoJournal, commands, entry_of
from tool import called, content

DECISIONS = {"claim": "claimed", "refuse": "refused", "cancel": "cancelled"}
WORDS = {"HOUSE": 2, "FIRM": 2, "ACCOUNT": 3, "INSTRUMENT": 2, "AGREEMENT": 5}  # of a line of a house file
MOST_LOTS, MOST_PARTS, DEEPEST, MOST_RATE, MOST_LIMIT = 10_000_000, 100, 64, 100_000, 10**13
NAME, NUMBER = re.compile("[!-~]{1,16}"), re.compile("0|[1-9][0-9]{0,13}")
OF_REVERSAL = ("initiate", "decline", "reverse")


class House:
    """A house file."""

    def __init__(self):
        self.name, self.firms, self.accounts, self.instruments = "", [], [], []
        self.agreements = []  # giver, taker, rate and limit
        self.is_opening = False  # whether these are the first entries of the book
        self.named = set()

    @classmethod
    def parse(cls, text, name="house file"):
        version, *lines = text.removesuffix("\n").split("\n")
        if version not in ("GIVEUP 1", "GIVEUP 2"):
            raise NoJournal(f"{name}: line 1: bad version")
        if not lines or not lines[0].startswith("HOUSE "):
            raise NoJournal(f"{name}: line 2: no house")
        house = cls()
        house.is_opening = version == "GIVEUP 2"
        for number, line in enumerate(lines, 2):
            try:
                house.line(number, *line.split(" "))
            except ValueError as fault:
                raise NoJournal(f"{name}: line {number}: {fault}") from None
        return house

    def line(self, number, kind, *words):
        must(len(words) + 1 == WORDS.get(kind) and (kind == "HOUSE") == (number == 2), "bad line")
        names = words[:2]
        must(all(NAME.fullmatch(word) for word in names), "bad name")
        if kind == "AGREEMENT":
            must(all(NUMBER.fullmatch(word) for word in words[2:]), "bad number")
            rate, limit = map(int, words[2:])
            must(rate <= MOST_RATE and limit <= MOST_LIMIT, "bad number")
            must(words[0] != words[1], "own agreement")
            self.agreements.append((*names, rate, limit))
        firms = {"ACCOUNT": words[:1], "AGREEMENT": names}.get(kind, ())
        must(all(("FIRM", firm) in self.named for firm in firms), "unknown name")
        named = ("FIRM" if kind == "HOUSE" else kind, *names)
        must(named not in self.named, "named twice")
        self.named.add(named)
        self.name = self.name or words[0]
        if kind in ("HOUSE", "FIRM"):
            self.firms.append(words[0])
        elif kind == "ACCOUNT":
            self.accounts.append(names)
        elif kind == "INSTRUMENT":
            self.instruments.append(words[0])


class Terms:
    """What a giver and a taker deal: the rate, the limit with its raises, and the live entries of the two in their order."""

    __slots__ = ("rate", "limit", "used", "entries")

    def __init__(self, rate, limit):
        self.rate, self.limit, self.used, self.entries = rate, limit, 0, []

    def claims(self):
        return [entry for entry in self.entries if entry.kind == "claim"]

    def overrun(self, lift):
        """The first claim after this raise which would pass the limit without it, or 0."""
        added = lift.detail[1]
        limit, used = self.limit - sum(e.detail[1] for e in self.entries if e.kind == "raise"), 0
        for entry in self.entries:
            if entry.kind == "raise":
                limit += entry.detail[1]
            elif entry.kind == "claim":
                if entry.number > lift.number and used + entry.node.lots > limit - added:
                    return entry.number
                used += entry.node.lots
        return 0


class Node:
    """What has lots. `firm` is that of the trade or split that made it: of a given part, which has a taker, the giver."""

    __slots__ = ("name", "lots", "firm", "account", "taker", "trade", "parent", "depth", "decision", "split", "parts")

    def __init__(self, name, lots, firm, account, taker=None, parent=None, trade=0):
        self.name, self.lots, self.firm, self.account, self.taker = name, lots, firm, account, taker
        self.parent, self.trade = parent, parent.trade if parent else trade
        self.depth = parent.depth + 1 if parent else 0
        self.decision, self.split, self.parts = None, 0, []

    @property
    def state(self):
        if self.taker is None:
            return "held"
        return DECISIONS[self.decision.kind] if self.decision else "offered"

    @property
    def made_by(self):
        """The entry that made it."""
        return int(self.name.split(".")[0])

    def place(self):
        """Firm and account where it stands."""
        node = self
        while node.taker is not None and node.state != "claimed":
            node = node.parent
        return (node.firm, node.account) if node.taker is None else (node.taker, node.decision.detail)

    def rows(self):
        """This node and all below it, as a trace has them."""
        waiting = [self]
        while waiting:
            node = waiting.pop()
            yield node
            waiting.extend(reversed(node.parts))


class Book:
    """What stands after the accepted commands of a day."""

    def __init__(self, house):
        self.house = house
        self.firms, self.accounts, self.instruments = set(house.firms), set(house.accounts), set(house.instruments)
        self.entries, self.nodes, self.ids = [], {}, {}
        self.consents = {}  # of an entry: the firms whose consent to its reversal stands
        self.terms = {}  # of giver and taker; those of the house file first
        self.reckoned = {}  # what was reckoned since the last entry
        for number, detail in enumerate(house.agreements, 1):
            if house.is_opening:
                self.keep(Entry(number, "", house.name, f"OPEN-{number}", "agree", None, detail))
            else:
                self.terms[detail[:2]] = Terms(*detail[2:])

    @classmethod
    def read(cls, house, day, answers=None):
        """The book of these files."""
        file = content(house)
        book = cls(House.parse(file.decode("latin-1"), called(house)))
        try:
            for fields in commands(day, answers, len(book.entries), sha256(file).hexdigest()):
                book.accept(fields)
        except ValueError as fault:
            hint = "" if answers else ". A day's input is read with its --answers, a journal with its own house file"
            raise NoJournal(f"{called(day)}: entry {len(book.entries) + 1} can't be: {fault}{hint}") from None
        return book

    def accept(self, fields):
        """Adds an accepted command. The same once more is a repeat, and changes nothing."""
        try:
            entry = entry_of(len(self.entries) + 1, fields)
        except (KeyError, IndexError) as fault:
            raise ValueError(f"what it says isn't understood ({fault})") from None
        before = self.ids.get((entry.firm, entry.id))
        if before is None:
            self.keep(entry)
        else:
            must(before.command() == entry.command(), f"21 id used by {before.number}")

    def keep(self, entry):
        must(entry.firm in self.firms, "1 unknown firm")
        getattr(self, "_" + entry.kind)(entry)
        self.ids[entry.firm, entry.id] = entry
        self.entries.append(entry)
        self.reckoned.clear()

    def entry(self, number):
        must(0 < number <= len(self.entries), "15 unknown entry")
        return self.entries[number - 1]

    def deal(self, node):
        """The trade that a node is of: its entry."""
        return self.entries[node.trade - 1]

    def trades(self):
        """The roots of the live trades."""
        return (e.node for e in self.entries if e.kind == "trade" and not e.undone_by)

    def once(self, what, reckon):
        """What is reckoned of the book as it stands, and kept until there is another entry."""
        if what not in self.reckoned:
            self.reckoned[what] = reckon()
        return self.reckoned[what]

    def positions(self):
        """Of each account and instrument that has some, in the order of the house file: lots bought and sold."""
        return self.once("positions", self._positions)

    def _positions(self):
        sums = {}
        for root in self.trades():
            _, _, instrument, side, _ = self.deal(root).detail
            for node in root.rows():
                if not node.parts:
                    sums.setdefault((node.place(), instrument), [0, 0])[side == "sell"] += node.lots
        places = ((account, i) for account in self.house.accounts for i in self.house.instruments)
        return {(*account, i): sums[account, i] for account, i in places if (account, i) in sums}

    def claimed(self):
        """The claimed nodes, in the order of their names."""
        return (node for node in self.nodes.values() if node.state == "claimed")

    def fees(self):
        """Of each firm that paid or received some, the house first: the hundredths that it paid and received."""
        sums = {firm: [0, 0] for firm in self.house.firms}
        for (giver, taker), terms in self.terms.items():
            sums[taker][0] += terms.used * terms.rate
            sums[giver][1] += terms.used * terms.rate
        return {firm: total for firm, total in sums.items() if any(total)}

    def rate(self, node):
        """What a lot of a given part costs its taker, in hundredths; None without an agreement."""
        terms = self.terms.get((node.firm, node.taker))
        return terms and terms.rate

    def fee(self, node):
        """The hundredths of a claimed node."""
        return node.lots * self.rate(node) if node.state == "claimed" else 0

    def change(self, entry):
        """The change that an entry is, or whose reversal it is about."""
        return self.entries[entry.names - 1] if entry.kind in OF_REVERSAL else entry

    def parties(self, change):
        """Who has to consent to the reversal of a change."""
        if change.kind == "trade":
            firms = [self.house.name, change.detail[0]]
        elif change.kind == "split":
            firms = [change.firm]
        elif change.kind == "agree":
            firms = [self.house.name, *change.detail[:2]]
        elif change.kind == "raise":
            firms = [change.firm, change.detail[0]]
        else:
            firms = [change.node.firm] if change.kind == "cancel" else [change.node.taker, change.node.firm]
        return list(dict.fromkeys(firms))

    def standing_on(self, change):
        """The first live change that stands on a live one, or 0."""
        if change.kind == "agree":
            return next((e.number for e in self.terms[change.detail[:2]].entries if e is not change), 0)
        if change.kind == "raise":
            return self.terms[change.detail[0], change.firm].overrun(change)
        if change.kind == "split":
            above = (n for part in change.parts for n in (part.decision and part.decision.number, part.split) if n)
            return min(above, default=0)
        return change.node.split

    def known(self, *firms):
        must(set(firms) <= self.firms, "1 unknown firm")

    def node(self, entry):
        """The node that an entry names."""
        must(entry.names in self.nodes, "4 unknown node")
        entry.node = self.nodes[entry.names]
        entry.trade = entry.node.trade
        return entry.node

    def add(self, node):
        must(1 <= node.lots <= MOST_LOTS, "9 lots out of range")
        self.nodes[node.name] = node
        return node

    def _agree(self, entry):
        giver, taker, rate, limit = entry.detail
        must(entry.firm == self.house.name, "23 house only")
        self.known(giver, taker)
        must(giver != taker, "26 own agreement")
        must(rate <= MOST_RATE and limit <= MOST_LIMIT, "27 terms out of range")
        must((giver, taker) not in self.terms, "28 agreement exists")
        self.terms[giver, taker] = Terms(rate, limit)
        self.terms[giver, taker].entries.append(entry)

    def _raise(self, entry):
        giver, lots = entry.detail
        self.known(giver)
        must((giver, entry.firm) in self.terms, "12 no agreement")
        terms = self.terms[giver, entry.firm]
        must(lots and terms.limit + lots <= MOST_LIMIT, "27 terms out of range")
        terms.limit += lots
        terms.entries.append(entry)

    def _trade(self, entry):
        firm, account, instrument, _, lots = entry.detail
        must(entry.firm == self.house.name, "23 house only")
        self.known(firm)
        must((firm, account) in self.accounts, "2 unknown account")
        must(instrument in self.instruments, "3 unknown instrument")
        entry.trade = entry.number
        entry.node = self.add(Node(f"{entry.number}.0", lots, firm, account, trade=entry.number))

    def _split(self, entry):
        parent = self.node(entry)
        must(parent.place()[0] == entry.firm, "5 not yours")
        must(not parent.parts, f"6 already split by {parent.split}")
        must(parent.state != "offered", "7 still offered")
        must(1 <= len(entry.detail) <= MOST_PARTS, "11 part count out of range")
        must(parent.depth < DEEPEST, "14 too deep")
        must(sum(lots for lots, _, _ in entry.detail) == parent.lots, "10 parts do not sum")
        for _, taker, account in entry.detail:
            self.known(taker or entry.firm)
            must(taker or (entry.firm, account) in self.accounts, "2 unknown account")
        parts = enumerate(entry.detail, 1)
        entry.parts = [self.add(Node(f"{entry.number}.{i}", lots, entry.firm, account, taker, parent))
                       for i, (lots, taker, account) in parts]
        parent.parts, parent.split = list(entry.parts), entry.number

    def _claim(self, entry):
        node = self.decided(entry, lambda node: node.taker)
        must((node.taker, entry.detail) in self.accounts, "2 unknown account")
        must((node.firm, node.taker) in self.terms, "12 no agreement")
        terms = self.terms[node.firm, node.taker]
        must(terms.used + node.lots <= terms.limit, "13 limit exceeded")
        terms.used += node.lots
        terms.entries.append(entry)
        node.decision = entry

    def _refuse(self, entry):
        self.decided(entry, lambda node: node.taker).decision = entry

    def _cancel(self, entry):
        self.decided(entry, lambda node: node.firm).decision = entry

    def decided(self, entry, by):
        """The offered node that an entry decides."""
        node = self.node(entry)
        must(node.state == "offered", "8 not offered")
        must(entry.firm == by(node), "5 not yours")
        return node

    def named(self, entry):
        """The live change that an entry names, to whose reversal its firm is a party."""
        change = self.entry(entry.names)
        entry.trade = change.trade
        must(change.kind not in OF_REVERSAL, "16 not a change")
        must(not change.undone_by, f"17 already reversed by {change.undone_by}")
        must(entry.firm in self.parties(change), "18 not a party")
        return change

    def _initiate(self, entry):
        consents = self.consents.get(self.named(entry).number, [])
        must(entry.firm not in consents, "24 already consented")
        self.consents[entry.names] = [*consents, entry.firm]

    def _decline(self, entry):
        must(self.named(entry).number in self.consents, "25 nothing pending")
        del self.consents[entry.names]

    def _reverse(self, entry):
        change = self.named(entry)
        consents = self.consents.get(change.number, [])
        missing = next((firm for firm in self.parties(change) if firm not in consents), None)
        must(not missing, f"19 needs consent of {missing}")
        standing = self.standing_on(change)
        must(not standing, f"20 entry {standing} stands on it")
        del self.consents[change.number]
        change.undone_by = entry.number
        self.take_back(change)

    def take_back(self, change):
        """Takes a change, on which nothing stands, out of what stands."""
        node = change.node
        if change.kind == "agree":
            del self.terms[change.detail[:2]]
        elif change.kind == "raise":
            terms = self.terms[change.detail[0], change.firm]
            terms.limit -= change.detail[1]
            terms.entries.remove(change)
        elif change.kind == "trade":
            del self.nodes[node.name]
        elif change.kind == "split":
            for part in node.parts:
                del self.nodes[part.name]
            node.parts, node.split = [], 0
        else:
            if change.kind == "claim":
                terms = self.terms[node.firm, node.taker]
                terms.used -= node.lots
                terms.entries.remove(change)
            node.decision = None


def must(holds, what):
    if not holds:
        raise ValueError(what)
