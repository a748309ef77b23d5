"""What one firm may see of a book, or all of it where no firm is named.

A firm sees its own trades and splits, what it gives up and what it is given, and the entries that concern it. Of what
others do with lots that it gave up, of their accounts and their ids, it sees nothing.
"""
from journal import NoJournal
from tool import called

class View:
    def __init__(self, book, firm=None, house="the house file"):
        if firm and firm not in book.firms:
            raise NoJournal(f"{called(house)}: there is no firm {firm}")
        self.book, self.firm = book, firm

    def of(self, *firms):
        """Whether something between these firms is seen."""
        return self.firm is None or self.firm in firms

    def concerned(self, entry):
        """The firms that an entry concerns."""
        change = self.book.change(entry)
        if change.kind == "trade":
            return [self.book.house.name, change.detail[0]]
        if change.kind == "split":
            return [change.firm, *(taker for _, taker, _ in change.detail if taker)]
        if change.kind == "agree":
            return [self.book.house.name, *change.detail[:2]]
        if change.kind == "raise":
            return [change.firm, change.detail[0]]
        return [change.node.firm, change.node.taker]

    def entries(self):
        """The entries that concern the firm."""
        return (entry for entry in self.book.entries if self.of(*self.concerned(entry)))

    def is_seen(self, node):
        return self.of(node.firm, node.taker)

    def top(self, node):
        """The highest node of what is seen of the tree around a node that is: a trade's root, or a part that was given to
        the firm."""
        while node.parent and (self.firm is None or node.firm == self.firm):
            node = node.parent
        return node

    def trade_of(self, node):
        """The trade of a node, where what is seen of its tree begins with it; else 0."""
        top = self.top(node)
        return 0 if top.parent else top.trade

    def tops(self, entry):
        """The tops below which the nodes are that an entry made or named."""
        change = self.book.change(entry)
        if not change.node:
            return []
        if change.kind == "split" and not self.of(change.firm):
            return [part for part in change.parts if part.taker == self.firm]
        if change.kind == "trade" and not self.of(change.node.firm):
            return []
        return [self.top(change.node)] if self.of(*self.concerned(change)) else []

    def pieces(self):
        """All tops, of what was undone too, each with the entries that are about it."""
        found = {}
        for entry in self.book.entries:
            for top in self.tops(entry):
                found.setdefault(top, []).append(entry)
        return found

    def is_live(self, top):
        return self.book.nodes.get(top.name) is top

    def parts(self, node):
        """The parts of a node, where the firm split it."""
        return node.parts if node.parts and self.of(node.parts[0].firm) else []

    def rows(self, top):
        """A top and what is seen below it, in the order of a trace, each with the depth below that top."""
        waiting = [(0, top)]
        while waiting:
            depth, node = waiting.pop()
            yield depth, node
            waiting.extend((depth + 1, part) for part in reversed(self.parts(node)))

    def nodes(self):
        """The nodes of live trees, each with its top and its depth below that."""
        tops = [top for top in self.pieces() if self.is_live(top)]
        for top in sorted(tops, key=lambda top: [int(number) for number in top.name.split(".")]):
            for depth, node in self.rows(top):
                yield top, depth, node

    def place(self, node):
        """Firm and account where a node stands, or of one that was undone those of its giver or trade; another firm's
        account isn't told."""
        firm, account = node.place() if self.is_live(node) else (node.firm, node.account)
        return firm, account if account and self.of(firm) else ""

    def id(self, entry):
        """The id of an entry: of the firm's own commands, and of its trades, which are the house's."""
        return entry.id if self.of(entry.firm) or entry.kind == "trade" and self.of(entry.detail[0]) else ""

    def positions(self):
        return {key: sums for key, sums in self.book.positions().items() if self.of(key[0])}

    def terms(self):
        return {pair: terms for pair, terms in self.book.terms.items() if self.of(*pair)}

    def fees(self):
        return {firm: sums for firm, sums in self.book.fees().items() if self.of(firm)}

    def offers(self):
        return [node for node in self.book.nodes.values() if node.state == "offered" and self.is_seen(node)]

    def hops(self):
        """The claimed parts that the firm gave or took."""
        return [node for node in self.book.claimed() if self.is_seen(node)]

    def rate_of_claim(self, offer):
        """What the claim of an offer would cost a lot, and why it would be refused, if it would."""
        terms = self.book.terms.get((offer.firm, offer.taker))
        if not terms:
            return None, "no agreement"
        return terms.rate, "over the limit" if terms.used + offer.lots > terms.limit else ""

    def controls(self):
        """What to reconcile with, of the whole book (its firm is '') and of each firm that is seen: live trades, the entries
        that concern it and the last of them, lots bought and sold, hops, and the hundredths that it paid and received."""
        sums = self.book.once("controls", self._controls)
        return [[firm, *row] for firm, row in sums.items() if self.of(firm)]

    def _controls(self):
        book = self.book
        sums = {firm: [0] * 8 for firm in ["", *book.house.firms]}
        for root in book.trades():
            add(sums, ["", root.firm], 0)
        for entry in book.entries:
            for firm in {"", *self.concerned(entry)}:
                sums[firm][1] += 1
                sums[firm][2] = entry.number
        for (firm, *_), (long, short) in book.positions().items():
            add(sums, ["", firm], 3, long)
            add(sums, ["", firm], 4, short)
        for (giver, taker), terms in book.terms.items():
            add(sums, ["", giver, taker], 5, len(terms.claims()))
        for firm, (paid, received) in book.fees().items():
            add(sums, ["", firm], 6, paid)
            add(sums, ["", firm], 7, received)
        return sums


def add(sums, firms, column, amount=1):
    for firm in firms:
        sums[firm][column] += amount
