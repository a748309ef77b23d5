"""The chapters of interop/certify: what an engine is asked to send, and by what its frames are judged.

The engine is AAA. The house and the counterparties, BBB and CCC, are played here by session.py. A chapter is a function over a
`Course`; it ends, or it raises `Failed` with the frame and the sentence of docs/profile.md that says otherwise.
"""
import itertools
import sys
import time

sys.dont_write_bytecode = True
import session
from between import CUT, TO_FIRM, TO_SERVICE, garbled
from session import Closed, Firm

ME, OTHER, THIRD, HOUSE = "AAA", "BBB", "CCC", "HSE"
HOUSE_FILE = """GIVEUP 1
HOUSE HSE
FIRM AAA
FIRM BBB
FIRM CCC
ACCOUNT AAA A1
ACCOUNT AAA A2
ACCOUNT BBB B1
ACCOUNT CCC C1
INSTRUMENT ESZ6
AGREEMENT AAA BBB 125 100000
AGREEMENT BBB AAA 50 100000
"""
MANY = 250  # reports after a Logon
TRADES = 10  # of the full day

# Sentences of docs/profile.md, letter by letter but for its stars and its line ends.
LOGON = "The first message has to be a Logon that is understood, with MsgSeqNum (34) 1, from a firm of the house file."
NUMBERS = "Numbers are reset at each Logon: they begin at 1, both ways"
GARBLED = "A garbled frame is no message: the service asks for the gap that it leaves."
EMPTY = "A value has one or more bytes, none of them SOH; it may hold `=`."
MEND = "Mend the message and send it with the next number: the rejected one is used up."
REPORT = "AS, AllocationReport: the service tells a firm what concerns it."
LOGOUT = "A Logout is answered by a Logout, and the service closes the connection."
CLOSED = "After any other first message the service closes the connection and sends nothing."
PAIRS = "AllocTransType (71) and AllocType (626) are one of the pairs below"
NAMES = "RefAllocID (72) says what the command is about: a node, such as `2.1`; with 71=6 an entry, such as `2`, by the number"
PARTS = "The entries of a Split are its parts, read one after the other"
GIVEN = "A part is given up to the party with NestedPartyRole (538) 4."
CLAIM = "A Claim has 78=1 and in 79 the account that takes the lots, else the reason is 5."
IDS = "An id names one command of its firm as long as the book lasts."
AGAIN = "If a command may not have arrived, send it again with its id."
ANSWER = "P: 70 AllocID, 793 the number of the entry, 87 AllocStatus."
RAISE = "Some stand in the house file. The house makes others by an Agree, and a taker raises its limit by a Raise."
UNDO = "Any accepted change can be reversed by its number, if its parties consent"
GAP = "The message is dropped, and has to come again."
BEGIN = "With both, reports begin above that number."
RESEND = "A ResendRequest asks for the numbers from its 7 to its 16."


class Failed(Exception):
    """What was wrong, the sentence that it goes against, and the frame."""

    def __init__(self, what, sentence, seen=None):
        super().__init__(what)
        self.what, self.sentence, self.frame = what, sentence, str(seen) if seen else ""


class Course:
    """What the chapters play on: the engine by way of `between`, the others, and `say`, which tells the engine what is next."""

    def __init__(self, between, service, say, patience, book=""):
        self.between, self.say, self.patience = between, say, patience
        self.book = book  # the name of the book that the service keeps; `serve` has none
        self.firms = {name: Firm(("127.0.0.1", service), name, HOUSE) for name in (HOUSE, OTHER, THIRD)}
        self.at, self.numbers, self.ids = 0, {}, itertools.count(1)
        self.is_leaving, self.agreed = False, 0
        self.newest = 0  # the last entry that is known

    # ---- what comes by ----

    def until(self, test, what, sentence):
        """The next frame that is asked for. All that come before it are judged."""
        end, last = time.monotonic() + self.patience, None
        while True:
            coming = self.between.waits(lambda: self.between.seen[self.at :], end - time.monotonic())
            if not coming:
                raise Failed(f"{what}: nothing of it came in {self.patience} s", sentence, last)
            last = coming[0]
            self.at += 1
            self.judge(last)
            if test(last):
                return last

    def judge(self, seen):
        """What has to hold of each frame."""
        if seen.way == TO_SERVICE:
            return self.judge_sent(seen)
        self.newest = max(self.newest, seen.message.count(793))
        if seen.message.kind == "3":
            raise Failed("the service doesn't understand a message", MEND, seen)
        if seen.message.kind == "5" and seen.message.get(58):
            raise Failed(f"the service ends the session: {seen.message.get(58)}", NUMBERS, seen)

    def judge_sent(self, seen):
        message = seen.message
        if message is None:
            raise Failed("a garbled frame", EMPTY if b"=\x01" in seen.frame else GARBLED, seen)
        if message.kind in ("3", "j"):
            raise Failed("the engine doesn't take what the service sent", REPORT, seen)
        if seen.link not in self.numbers and (message.kind != "A" or message.number != 1):
            raise Failed(f"a connection begins with 35={message.kind} and 34={message.number}", LOGON, seen)
        wanted = self.numbers.get(seen.link, 1)
        if not message.is_repeat:
            if message.number != wanted:
                raise Failed(f"34 is {message.number} and not {wanted}", NUMBERS, seen)
            self.numbers[seen.link] = wanted + 1
        if message.kind == "5" and not self.is_leaving:
            raise Failed("the engine logs out by itself", LOGOUT, seen)

    def sent(self, kind, what, sentence):
        return self.until(lambda seen: seen.is_of(TO_SERVICE, kind), what, sentence)

    def told(self, entry, sentence=REPORT):
        """The report of an entry, on its way to the engine."""
        return self.until(lambda seen: seen.is_of(TO_FIRM, "AS") and seen.message.count(755) == entry, f"the report of entry {entry}", sentence)

    def is_on(self):
        """Whether the engine's last connection is open, and logged on."""
        link = self.between.links
        is_open = any(number == link for number, _ in self.between.open)
        return is_open and any(seen.link == link and seen.is_of(TO_FIRM, "A") for seen in list(self.between.seen))

    def forget(self):
        """Begins anew behind all that has come."""
        self.between.rule, self.is_leaving = None, False
        for seen in self.between.seen[self.at :]:
            if seen.way == TO_SERVICE and seen.message and not seen.message.is_repeat:
                self.numbers[seen.link] = seen.message.number + 1
        self.at = len(self.between.seen)

    # ---- the others ----

    def ask(self, firm, kind, rest):
        """The number of the entry that a command of another firm made."""
        answer = self.firms[firm].ask(kind, f"{firm}-{next(self.ids)}", rest)
        number = answer.get(793) or answer.get(58).removeprefix("entry ")
        if not number.isdecimal():
            raise Closed(f"{firm} is refused: {answer}")
        self.newest = int(number)
        return self.newest

    def trade(self, lots=100, firm=ME, account="A1"):
        return self.ask(HOUSE, "AE", session.trade(firm, account, lots, "ESZ6"))

    # ---- the engine's commands ----

    def command(self, line, words, fields, sentence, parts=None):
        """Has the engine send a command: the frame, which has to have these fields and parts."""
        self.say(line, words)
        return self.instruction(fields, sentence, parts, words)

    def instruction(self, fields, sentence, parts=None, words="the command"):
        seen = self.until(lambda seen: seen.is_of(TO_SERVICE, "J") and not seen.message.is_repeat, words, sentence)
        for tag, wanted in fields.items():
            got = seen.message.get(tag, "missing")
            if got not in wanted.split():
                raise Failed(f"{tag} is {got} and not {' or '.join(wanted.split())}", sentence, seen)
        if parts is not None and parts_of(seen.message) != parts:
            raise Failed(f"the parts are {parts_of(seen.message)} and not {parts}", sentence, seen)
        return seen

    def answered(self, seen, status="", sentence=ANSWER):
        """The service's answer to a command, on its way to the engine; its status has to be this."""
        id = seen.message.get(70)
        answer = self.until(lambda it: it.is_of(TO_FIRM, "P") and it.message.get(70) == id, f"the answer to {id}", sentence)
        if status and answer.message.get(87) != status:
            is_used = answer.message.get(58).startswith("21 ")
            raise Failed(f"87 is {answer.message.get(87)} {answer.message.get(58)} and not {status}", IDS if is_used else sentence, answer)
        return answer

    def splits(self, node, parts, status, more=""):
        """Has the engine split a node: the answer."""
        words = ", ".join(f"{lots} lots {'given up to' if taker else 'into'} {taker or account}" for account, lots, taker in parts)
        line = f"split {node} {line_of(parts)}{more and ' note'}"
        fields = {71: "0", 626: "17 23", 72: node, 78: str(len(parts))}
        sentence = GIVEN if any(taker for *_, taker in parts) else PARTS
        seen = self.command(line, f"split {node}: {words}{more}", fields, sentence, wanted(parts))
        return self.answered(seen, status)

    def on_node(self, verb, node, pair, status, rest=""):
        fields = {71: pair[0], 626: pair[1], 72: node} | ({78: "1", 79: rest} if rest else {})
        seen = self.command(f"{verb} {node} {rest}".strip(), f"{verb} {node}{rest and ' into ' + rest}", fields, CLAIM if rest else PAIRS)
        return self.answered(seen, status)

    def on_entry(self, verb, entry, type, status):
        words = {"consent": "consent to the reversal of", "decline": "decline the reversal of", "reverse": "reverse"}[verb]
        seen = self.command(f"{verb} {entry}", f"{words} entry {entry}", {71: "6", 626: type, 72: str(entry)}, NAMES)
        return self.answered(seen, status, UNDO)


def line_of(parts):
    return " ".join(f"{'@' + taker if taker else account}={lots}" for account, lots, taker in parts)


def own(account, lots):
    return account, lots, None


def given(taker, lots):
    return None, lots, taker


def wanted(parts):
    """Parts as `parts_of` finds them: of each the account, or none, the lots and the taker, or none."""
    return [(account if not taker else None, lots, taker) for account, lots, taker in parts]


def parts_of(message):
    """The parts of a split, as the service reads them."""
    starts = [n for n, (tag, _) in enumerate(message.fields) if tag == "79"] + [len(message.fields)]
    found = []
    for start, end in zip(starts, starts[1:]):
        part = message.fields[start:end]
        of = dict(reversed(part))
        lots = of.get("80", "").split(".")[0]
        parties = [n for n, (tag, _) in enumerate(part) if tag == "524"] + [len(part)]
        groups = [part[a:b] for a, b in zip(parties, parties[1:])]
        taker = next((it[0][1] for it in groups if ("538", "4") in it), None)
        is_own = taker in (None, ME)
        found.append((of["79"] if is_own else None, int(lots) if lots.isdecimal() else lots, None if is_own else taker))
    return found


# ---- the chapters ----


def log_on(c, words="log on as AAA", line="logon", more=(), sentence=LOGON):
    """Has the engine log on, with these fields more: the connection."""
    c.say(line, words)
    seen = c.sent("A", words, LOGON)
    for tag, value in ((49, ME), (56, HOUSE), (98, "0"), (1137, "9"), *more):
        if seen.message.get(tag) != value:
            raise Failed(f"{tag} is {seen.message.get(tag, 'missing')} and not {value}", sentence if tag > 5000 else LOGON, seen)
    c.until(lambda it: it.is_of(TO_FIRM, "A") and it.link == seen.link, "the service's Logon", CLOSED)
    return seen.link


def log_out(c):
    c.is_leaving = True
    c.say("logout", "log out")
    c.sent("5", "a Logout", LOGOUT)
    c.until(lambda it: it.is_of(TO_FIRM, "5"), "the service's Logout", LOGOUT)
    c.between.waits(lambda: not c.between.open, c.patience)
    c.is_leaving = False


def chapter_logon(c):
    """A Logon"""
    if not c.is_on():
        log_on(c)


def chapter_split(c):
    """A split among own accounts"""
    entry = c.trade()
    c.told(entry)
    c.splits(f"{entry}.0", [own("A1", 60), own("A2", 40)], "0")


def chapter_ids(c):
    """An id of its own for each command"""
    used = {it.message.get(70) for it in c.between.seen if it.is_of(TO_SERVICE, "J")}
    entry = c.trade()
    for lots in (30, 20):
        answer = c.splits(f"{entry}.0", [own("A1", 100 - lots), own("A2", lots)], "0").message
        if answer.get(70) in used:
            raise Failed(f"the id {answer.get(70)} was used before", IDS, answer)
        used.add(answer.get(70))
        entry = c.trade()


def give_up(c, lots=40):
    """A give-up to BBB: the node that is offered."""
    entry = c.trade()
    answer = c.splits(f"{entry}.0", [own("A1", 100 - lots), given(OTHER, lots)], "6")
    return f"{answer.message.count(793)}.2"


def chapter_claimed(c):
    """A give-up that is claimed"""
    c.told(c.ask(OTHER, "J", session.claim(give_up(c), "B1")))


def chapter_refused(c):
    """A give-up that is refused"""
    c.told(c.ask(OTHER, "J", session.on_node("refuse", give_up(c))))


def chapter_cancelled(c):
    """A give-up that is cancelled"""
    c.on_node("cancel", give_up(c), ("2", "17 23"), "12")


def offer(c, giver, account, *lots):
    """An offer of another firm to AAA, of so many lots each: the split's number, which was told."""
    entry = c.trade(sum(lots), giver, account)
    made = c.ask(giver, "J", session.split(f"{entry}.0", *[session.part(it, taker=ME) for it in lots]))
    c.told(made)
    return made


def chapter_offers(c):
    """Offers that are claimed, and refused"""
    made = offer(c, OTHER, "B1", 70, 30)
    c.on_node("claim", f"{made}.1", ("0", "18"), "9", "A1")
    c.on_node("refuse", f"{made}.2", ("0", "19"), "10")


def chapter_agreements(c):
    """A limit that is reached, and raised"""
    c.agreed = c.agreed or c.ask(HOUSE, "J", session.agreed(THIRD, ME, 40, 10))
    made = offer(c, THIRD, "C1", 50)
    c.on_node("claim", f"{made}.1", ("0", "18"), "1", "A1")
    fields = {71: "0", 626: "91", 5001: THIRD, 5004: "40"}
    c.answered(c.command(f"raise {THIRD} 40", f"raise your limit with {THIRD} by 40 lots", fields, RAISE), "0")
    c.on_node("claim", f"{made}.1", ("0", "18"), "9", "A1")


def chapter_undo(c):
    """Consents, a decline and a reversal"""
    claimed = c.ask(OTHER, "J", session.claim(give_up(c), "B1"))
    c.told(c.ask(OTHER, "J", session.on_entry("consent", claimed)))
    c.on_entry("decline", claimed, "22", "0")
    c.told(c.ask(OTHER, "J", session.on_entry("consent", claimed)))
    c.on_entry("consent", claimed, "20", "14")
    c.on_entry("reverse", claimed, "21", "7")


def once(way, kind, deed, after=0):
    """A rule that does something to the first message of this type and way, of a report to that of an entry after this one,
    and to no other."""
    left = [1]

    def rule(seen):
        is_it = seen.is_of(way, kind) and not seen.message.is_repeat and (not after or seen.message.count(755) > after)
        if left[0] and is_it:
            left[0] = 0
            return deed(seen)
        return seen.frame

    return rule


def held_back(seen):
    time.sleep(1)
    return seen.frame


def chapter_answers(c):
    """An answer that is awaited"""
    entry = c.trade()
    first, second = [own("A1", 60), own("A2", 40)], [own("A1", 50), own("A2", 10)]
    c.between.rule = once(TO_FIRM, "P", held_back)
    words = "split {0}.0: 60 lots into A1, 40 lots into A2; then split its first part: 50 lots into A1, 10 lots into A2"
    line = f"split-on {entry}.0 {line_of(first)} / {line_of(second)}"
    split = c.command(line, words.format(entry), {72: f"{entry}.0"}, PARTS, wanted(first))
    id = split.message.get(70)
    either = c.until(lambda it: it.is_of(TO_SERVICE, "J") or it.is_of(TO_FIRM, "P") and it.message.get(70) == id, "its answer", ANSWER)
    if either.way == TO_SERVICE:
        raise Failed("a command about the parts of a split came before the answer to that", ANSWER, either)
    c.answered(c.instruction({72: f"{either.message.count(793)}.1"}, NAMES, wanted(second)), "0")


def chapter_empty(c):
    """A text that is empty"""
    entry = c.trade()
    c.splits(f"{entry}.0", [own("A2", 100)], "0", ", with a text (58) that is empty")


def chapter_gap_in(c):
    """A message that the engine lacks"""
    c.between.rule = once(TO_FIRM, "AS", lambda seen: b"", after=c.newest)
    entry = c.trade()
    lost = c.told(entry)
    c.trade()
    asked = c.sent("2", f"a ResendRequest from {lost.message.number}", RESEND)
    if asked.message.count(7) != lost.message.number:
        raise Failed(f"7 is {asked.message.get(7)} and not {lost.message.number}", RESEND, asked)
    c.told(entry, RESEND)
    c.splits(f"{entry}.0", [own("A2", 100)], "0")


def gap_out(c, deed):
    entry = c.trade()
    c.between.rule = once(TO_SERVICE, "J", deed)
    parts = [own("A1", 60), own("A2", 40)]
    c.say(f"split {entry}.0 {line_of(parts)}", f"split {entry}.0: 60 lots into A1, 40 lots into A2 (it gets lost, and is noticed by what you send next)")
    seen = c.instruction({72: f"{entry}.0"}, PARTS, wanted(parts))
    c.until(lambda it: it.is_of(TO_FIRM, "2"), "a ResendRequest, which a Heartbeat leads to", GAP)
    again = c.until(lambda it: it.is_of(TO_SERVICE, "J"), "the command again", GAP)
    if again.message.get(70) != seen.message.get(70):
        raise Failed(f"the id is {again.message.get(70)} and was {seen.message.get(70)}", AGAIN, again)
    c.answered(again, "0")


def chapter_gap_out(c):
    """A message that the service lacks"""
    gap_out(c, lambda seen: b"")


def chapter_garbled(c):
    """A message that comes garbled"""
    gap_out(c, lambda seen: garbled(seen.frame))


def chapter_again(c):
    """Numbers that begin again at each Logon"""
    log_out(c)
    log_on(c)
    entry = c.trade()
    c.splits(f"{entry}.0", [own("A2", 100)], "0")


def chapter_closed(c):
    """A Logon that is closed"""
    log_out(c)
    c.between.rule = once(TO_SERVICE, "A", lambda seen: CUT)
    c.say("logon", "log on as AAA; the connection is closed, and you log on again")
    c.sent("A", "a Logon", LOGON)
    second = c.sent("A", "a second Logon", CLOSED)
    c.until(lambda it: it.is_of(TO_FIRM, "A") and it.link == second.link, "the service's Logon", CLOSED)


def chapter_retry(c):
    """A connection that is lost before an answer"""
    entry = c.trade()
    c.between.rule = once(TO_FIRM, "P", lambda seen: CUT)
    parts = [own("A1", 60), own("A2", 40)]
    words = f"split {entry}.0: 60 lots into A1, 40 lots into A2; the connection ends, and you log on and send again what has no answer"
    seen = c.command(f"split {entry}.0 {line_of(parts)}", words, {72: f"{entry}.0"}, PARTS, wanted(parts))
    lost = c.answered(seen, "0")
    c.sent("A", "a Logon", LOGON)
    again = c.instruction({70: seen.message.get(70), 72: f"{entry}.0"}, AGAIN, wanted(parts))
    answer = c.answered(again, "0")
    if answer.message.get(793) != lost.message.get(793):
        raise Failed("it is another entry", AGAIN, answer)


def chapter_many(c):
    """Many reports after a Logon"""
    log_out(c)
    for _ in range(MANY):
        entry = c.trade(1)
    log_on(c)
    c.told(entry)
    c.splits(f"{entry}.0", [own("A2", 1)], "0")


def chapter_lacking(c):
    """Reports from 5005 on"""
    last = c.trade(1)
    c.told(last)
    log_out(c)
    entries = [c.trade(1) for _ in range(3)]
    book = c.book or "ANY"
    words = f"log on as AAA, with 5006={book} and 5005={last}: you have the reports of this book up to entry {last}"
    link = log_on(c, words, f"logon {book} {last}", ((5006, book), (5005, str(last))), BEGIN)
    for entry in entries:
        c.told(entry, BEGIN)
    old = [it for it in c.between.seen if it.link == link and it.is_of(TO_FIRM, "AS") and it.message.count(755) <= last]
    if c.book and old:
        raise Failed("a report of an entry that the engine has", BEGIN, old[0])
    c.splits(f"{entries[-1]}.0", [own("A2", 1)], "0")


def chapter_day(c):
    """A full day"""
    for n in range(TRADES):
        node = give_up(c, 10 + n)
        if n % 3 == 0:
            c.told(c.ask(OTHER, "J", session.claim(node, "B1")))
        elif n % 3 == 1:
            c.told(c.ask(OTHER, "J", session.on_node("refuse", node)))
        else:
            c.on_node("cancel", node, ("2", "17 23"), "12")
    made = offer(c, OTHER, "B1", 5, 5)
    c.on_node("claim", f"{made}.2", ("0", "18"), "9", "A2")
    log_out(c)


CHAPTERS = [
    chapter_logon, chapter_split, chapter_ids, chapter_claimed, chapter_refused, chapter_cancelled, chapter_offers,
    chapter_agreements, chapter_undo, chapter_answers, chapter_empty, chapter_gap_in, chapter_gap_out, chapter_garbled,
    chapter_again, chapter_closed, chapter_retry, chapter_many, chapter_lacking, chapter_day,
]
SENTENCES = [LOGON, NUMBERS, GARBLED, EMPTY, MEND, REPORT, LOGOUT, CLOSED, PAIRS, NAMES, PARTS, GIVEN, CLAIM, IDS, AGAIN, ANSWER,
             RAISE, UNDO, GAP, RESEND, BEGIN]
