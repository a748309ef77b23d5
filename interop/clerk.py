"""What interop/desk knows and does: `Told` is what a firm's reports have told it, `Done` the kept list of what its clerks did, and
`Clerk` holds the session, sends what is pressed, and says what there is to see, with what a statement has of it.

A command's id is made of what it does, to what, and in which state of that: `desk claim 2.2 @2`. So two presses of a button, in one window
or two, before a restart or after it, are one command: the service answers it twice and does it once.
"""
import bisect
import json
import os
import re
import sys
import threading
import time

sys.dont_write_bytecode = True
import session
from session import Closed

MOST = 500  # rows of a list that are shown
OPEN = 25  # seconds for which a page is open after it asked: it asks each 20
STATUS = {"0": "held", "6": "offered", "7": "reversed", "9": "claimed", "10": "refused", "12": "cancelled", "14": "consented"}
ON_ENTRY = {"consent": "consent to the reversal of", "decline": "decline the reversal of", "reverse": "reverse"}
SIDES = {"1": "buy", "2": "sell"}


class Node:
    """Lots that concern the firm. Its state: `held` by the firm, an `offer` to it, `given` by it and not decided, `theirs`, `gone`,
    `split`. `version` is the last entry about it."""

    def __init__(self, name, lots, deal, state, version, account="", taker=""):
        self.name, self.lots, self.deal, self.state = name, lots, deal, state
        self.version, self.account, self.taker, self.note = version, account, taker, ""

    def shown(self):
        side, instrument = self.deal
        return dict(node=self.name, lots=self.lots, side=side, instrument=instrument, account=self.account, taker=self.taker,
                    note=self.note, version=self.version)


class Told:
    """The nodes, changes and consents that a firm was told of, from its reports in their order."""

    def __init__(self, firm):
        self.firm, self.nodes, self.changes, self.asked = firm, {}, {}, {}
        self.accounts, self.firms = {}, {}  # names that came by, in their order
        self.entries, self.fresh = [], []  # the reports' entries in order, and the nodes that aren't compared yet

    def take(self, report):
        entry, names, kind = report.count(755), report.get(72), report.get(794)
        bisect.insort(self.entries, entry)
        if report.get(71) == "6":
            return self.reversal(entry, int(names), kind)
        deal = SIDES.get(report.get(54), ""), report.get(55)
        if kind == "16":
            self.decide(entry, names, "claimed", "held", report.get(79))
        elif kind == "10":
            what = "cancelled" if report.get(71) == "2" else "refused"
            self.decide(entry, names, what, "gone", "")
        elif report.get(78):
            self.split(entry, names, deal, list(zip(report.all(79), report.all(80), report.all(524))))
        else:
            self.add(Node(names, report.count(53), deal, "held", entry))
            self.changes[entry] = ("trade", names, None, [names])

    def add(self, node):
        self.nodes[node.name] = node
        self.fresh.append(node)

    def after(self, entry):
        """How many entries above one the reports told of."""
        return len(self.entries) - bisect.bisect_right(self.entries, entry)

    def split(self, entry, names, deal, parts):
        node = self.nodes.get(names)
        is_own = node is not None and node.state == "held"
        made = []
        for place, (account, lots, firm) in enumerate(parts, 1):
            is_given = firm != self.firm
            name = f"{entry}.{place}" if is_own else account
            state = "given" if is_given else "held" if is_own else "offer"
            kept = account if is_own and not is_given else ""
            self.add(Node(name, int(lots), deal, state, entry, kept, firm if is_given else ""))
            self.accounts |= {kept: None} if kept else {}
            self.firms |= {firm: None} if is_given else {}
            made.append(name)
        if is_own:
            node.state, node.version = "split", entry
        self.changes[entry] = ("split" if is_own else "offer", names, None, made)

    def decide(self, entry, names, what, mine, account):
        """A claim, a refusal or a cancellation of a node that was offered: to the firm, or by it."""
        node = self.nodes.get(names)
        if node is None:
            return
        self.changes[entry] = (what, names, node.state, [])
        is_claimed = what == "claimed"
        if node.state == "offer":
            node.state, node.account = mine, account
            self.accounts |= {account: None} if account else {}
        else:
            node.state, node.note = ("theirs" if is_claimed else "held"), f"{what}, {node.taker}"
        node.version = entry

    def reversal(self, entry, change, kind):
        """A consent, a decline or a reversal of a change."""
        if kind != "17":
            self.asked[change] = entry, kind == "14"
            return
        self.asked.pop(change, None)
        what, names, before, made = self.changes.pop(change, ("", "", None, []))
        node = self.nodes.get(names)
        for name in made:
            self.nodes.pop(name, None)
        if what == "split":
            node.state = "held"
        elif before:
            node.state, node.note, node.account = before, "", "" if before == "offer" else node.account
        if node:
            node.version = entry

    def of(self, state):
        return [node for node in self.nodes.values() if node.state == state]

    def reversals(self):
        """The changes whose reversal somebody consented to."""
        for change, (version, is_asked) in self.asked.items():
            if is_asked and change in self.changes:
                yield dict(entry=change, what=self.words(change), version=version)

    def words(self, change):
        what, names, *_ = self.changes[change]
        return f"{what} {names}"

    def undoable(self):
        """The changes that may be reversed, the newest first."""
        for change in reversed(self.changes):
            version, is_asked = self.asked.get(change, (change, False))
            if not is_asked and self.changes[change][0] != "offer":
                yield dict(entry=change, what=self.words(change), version=version)


class Done:
    """The kept list of what was pressed: a file with a line of JSON for each press, and one for its answer. What a line tells is on the
    disk before it is acted upon."""

    def __init__(self, path):
        self.list, self.latest = [], {}  # the presses in their order, and the last one of each id
        self.file = open(path, "a+", encoding="ascii")
        self.file.seek(0)
        whole = self.file.read()
        self.file.truncate(whole.rfind("\n") + 1)  # behind it is a line that was being written when the machine ended
        for line in whole.split("\n")[:-1]:
            self.take(json.loads(line))

    def take(self, deed):
        if "when" in deed:
            self.list.append(deed)
            self.latest[deed["id"]] = deed
        else:
            self.latest[deed["id"]].update(deed)

    def note(self, deed):
        self.file.write(json.dumps(deed) + "\n")
        self.file.flush()
        os.fsync(self.file.fileno())
        self.take(deed)

    def waiting(self):
        return [deed["id"] for deed in self.latest.values() if not deed["answer"]]


NODE = re.compile(r"[1-9]\d{0,6}\.\d{1,3}")
ENTRY = re.compile(r"[1-9]\d{0,6}")
NAME = re.compile(r"[!-{}~]{1,16}")  # a name with the letter that stands for SOH can't be sent from here
LOTS = re.compile(r"\d{1,9}")


def must(pattern, text, what):
    if not pattern.fullmatch(text):
        raise ValueError(f"{text!r} is no {what}")


def rest_of(verb, target, more):
    """The fields of a command, and what it does in words."""
    must(ENTRY if verb in ON_ENTRY else NODE, target, "entry" if verb in ON_ENTRY else "node")
    if verb == "claim":
        must(NAME, more["account"], "account")
        return session.claim(target, more["account"]), f"claim {target} into {more['account']}"
    if verb in ("refuse", "cancel"):
        return session.on_node(verb, target), f"{verb} {target}"
    if verb in ON_ENTRY:
        return session.on_entry(verb, target), f"{ON_ENTRY[verb]} {target}"
    if verb == "split":
        for account, taker, lots in more["parts"]:
            must(NAME, taker or account, "account or firm")
            must(LOTS, lots, "number of lots")
        parts = [session.part(lots, account or None, taker or None) for account, taker, lots in more["parts"]]
        words = ", ".join(f"{lots} {'to' if taker else 'into'} {taker or account}" for account, taker, lots in more["parts"])
        return session.split(target, *parts), f"split {target}: {words}"
    raise ValueError(f"no command: {verb}")


class Clerk:
    """The session of a firm, what its clerks press, and the firm's statement, where `latest` looks for one."""

    def __init__(self, firm, path, latest=None):
        self.firm, self.told, self.done = firm, Told(firm.firm), Done(path)
        self.changed, self.version, self.is_on, self.why = threading.Condition(), 0, False, ""
        self.latest, self.statement, self.seen = latest, None, time.monotonic()
        self.queue = self.done.waiting()
        threading.Thread(target=self.works, daemon=True).start()
        if latest:
            threading.Thread(target=self.reads, daemon=True).start()

    def works(self):
        """Sends what was pressed, and listens."""
        while True:
            try:
                if self.queue:
                    self.sends(self.done.latest[self.queue[0]])
                reports = self.firm.listen(0.05)
                self.sees(reports)
            except Closed as why:
                self.sees([], str(why))
                time.sleep(0.3)

    def sends(self, deed):
        """Sends a command until it is answered, over as many connections as that takes."""
        while True:
            try:
                answer = self.firm.ask("J", deed["id"], deed["rest"], patience=5)
                break
            except Closed as why:
                self.sees([], str(why))
        with self.changed:
            self.done.note(dict(id=deed["id"], answer=said(answer), is_well=answer.kind == "P" and answer.get(87) != "1"))
            self.queue.pop(0)
            self.tell()

    def sees(self, reports, why=""):
        """Takes reports, or why the firm isn't logged on."""
        with self.changed:
            for report in reports:
                self.told.take(report)
            self.compares(self.told.fresh)
            self.told.fresh.clear()
            if reports or (not why, why) != (self.is_on, self.why):
                self.is_on, self.why = not why, why
                self.tell()

    def reads(self):
        """Looks for a statement at first, and then while a page is open, or an offer or an answer is waited for."""
        while True:
            if self.latest.look():
                with self.changed:
                    self.statement = self.latest.statement
                    self.compares(self.told.nodes.values())
                    self.tell()
            time.sleep(1)
            while not self.is_waited_for():
                time.sleep(1)

    def is_waited_for(self):
        with self.changed:
            is_open = time.monotonic() - self.seen < OPEN
            return is_open or bool(self.queue) or any(it.state == "offer" for it in self.told.nodes.values())

    def compares(self, nodes):
        """Refuses a statement that says of one of these nodes what the session doesn't: it is of another book."""
        for node in nodes if self.statement else ():
            known = self.statement.nodes.get(node.name)
            if known and known[:3] != (node.lots, *node.deal):
                self.statement = None
                self.latest.refuse(f"it is of another book: the session tells otherwise of {node.name}")
                return

    def tell(self):
        self.version += 1
        self.changed.notify_all()

    def press(self, verb, target, version, who, more):
        """A button that was pressed. What waits for its answer, or was done, isn't asked for again; what was refused may be."""
        rest, words = rest_of(verb, target, more)
        id = f"desk {verb} {target} @{int(version)}"
        with self.changed:
            deed = self.done.latest.get(id)
            if id not in self.queue and not (deed and deed["is_well"]):
                self.done.note(dict(id=id, rest=rest, words=words, who=who[:40], when=time.time(), answer="", is_well=False))
                self.queue.append(id)
                self.tell()

    def view(self, after, seconds):
        """What there is to see, as soon as it isn't what was seen."""
        with self.changed:
            self.seen = time.monotonic()
            self.changed.wait_for(lambda: self.version != after, seconds)
            nodes = dict(offers=self.told.of("offer"), given=self.told.of("given"), held=self.told.of("held"))
            lists = dict(reversals=list(self.told.reversals()), changes=list(self.told.undoable()))
            lists["positions"] = self.positions()
            keys = ("id", "words", "who", "when", "answer", "is_well")
            lists["done"] = [{key: deed[key] for key in keys} for deed in reversed(self.done.list)]
            counts = {name: len(rows) for name, rows in {**nodes, **lists}.items()}
            lists |= {name: [it.shown() | self.stated(it) for it in rows[:MOST]] for name, rows in nodes.items()}
            found = dict(version=self.version, isOn=self.is_on, why=self.why, statement=self.of_statement())
            found |= dict(firm=self.firm.firm, house=self.firm.house)
            found |= dict(accounts=list(self.told.accounts), firms=list(self.told.firms))
            return dict(**found, counts=counts, **{name: rows[:MOST] for name, rows in lists.items()})

    def stated(self, node):
        """What the statement says of a node; `lack` is said in the place of what it doesn't. Sums are texts, since a
        browser's numbers end at 2^53."""
        statement = self.statement
        if not statement:
            return dict(lack="not told")
        found = dict(lack="not told yet" if node.version > statement.last else "not told")
        known, offer = statement.nodes.get(node.name), statement.offers.get(node.name)
        if known:
            found |= dict(giver=known.giver, account=node.account or known.account)
        if offer and offer.taker == (node.taker or self.firm.firm):
            costs = {} if offer.fee is None else dict(rate=str(offer.rate), fee=str(offer.fee))
            found |= dict(giver=offer.giver, since=offer.since, refusal=offer.refusal, **costs)
        return found

    def positions(self):
        rows = self.statement.positions if self.statement else ()
        return [{key: it[key] for key in ("account", "instrument", "long", "short")} for it in rows]

    def of_statement(self):
        """What there is to see of the statement itself: None where none is looked for."""
        if not self.latest:
            return None
        found, statement = dict(why=self.latest.why, made=self.latest.made, last=None), self.statement
        if statement:
            sums = {name: str(statement.balance[name]) for name in ("paid", "received")}
            found |= dict(last=statement.last, since=self.told.after(statement.last), **sums)
        return found


def said(answer):
    """An answer in words."""
    if answer.kind == "3":
        return f"not understood: tag {answer.get(371)}, reason {answer.get(373)}"
    if answer.get(87) == "1":
        return "refused: " + answer.get(58).partition(" ")[2]
    return f"{STATUS.get(answer.get(87), answer.get(87))}, entry {answer.get(793)}"
