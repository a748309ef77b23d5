"""The accepted commands of a day, read from its journal: what the tests' book stands on.

A journal is a stream of FIX frames with accepted commands alone, in their order, so its n-th command is entry n, counted
after the agreements of a house file of version 2. It ends at its first zero; what follows that is the rest of a group
that wasn't finished. One of `allocd keep` begins with the digest of its house file, and has seals: both are looked at,
and entries count up to the last seal. A
day's input may hold refused commands too: it is read beside the answers that `allocd batch` gave to it, and what they
accepted is its journal.
"""
import hashlib
import re

from fix import BODY, OPENING, checksum
from tool import Fault, called, content, say

BEGINNING = b"8=FIXT.1.1\x019="
FORM = "allocd-journal-3"
TORN_LENGTH = re.compile(rb"8=FIXT\.1\.1\x019=\d{1,6}")
TRAILER = re.compile(rb"10=(\d{3})\x01")
SEAL = re.compile(rb"\x0135=0\x01[^\0]*?\x01112=[0-9a-f]{128}\x0158=(\d+)\x0110=\d{3}\x01")
OF_SESSION = {"0", "1", "2", "3", "4", "5", "A"}
KINDS = {"017": "split", "023": "split", "018": "claim", "019": "refuse", "217": "cancel", "223": "cancel",
         "090": "agree", "091": "raise", "620": "initiate", "621": "reverse", "622": "decline"}


class NoJournal(Fault):
    """What was read isn't the journal of a day of this house."""


def still(path):
    """The bytes of a file, as it was at one moment: behind a zero that isn't one any more `allocd keep` has written since."""
    data = content(path)
    at = data.find(b"\0")
    if path == "-" or at < 0 or not data[at:].strip(b"\0"):
        return data
    with open(path, "rb") as file:
        file.seek(at)
        return data if file.read(1) in (b"", b"\0") else data[: at + 1]


class Stream:
    """The frames of a file, each as its fields. What is passed over is kept in mind, for `tell`: garbled frames, a last
    frame that isn't whole, what stands behind the first zero, and entries of a kept book that no seal follows."""

    def __init__(self, name, data, house=None):
        self.name, self.house = name, house
        self.data, _, self.behind = data.partition(b"\0")
        self.garbled, self.first, self.left_out = 0, 0, ""
        self.is_kept, self.hasher, self.hashed, self.next = False, hashlib.sha512(), 0, 0

    @classmethod
    def of(cls, path, house=None):
        """The frames of a file; a kept book's has to be of the house file with this SHA-256, if one is given."""
        return cls(called(path), still(path), house)

    def __iter__(self):
        """The frames, those of a kept book up to the last seal."""
        group = []
        for fields in self.each():
            group.append(fields)
            if not self.is_kept or fields[0][1] in ("0", "A"):
                yield from group
                group = []
        if self.behind.strip(b"\0"):
            self.look_behind()
        if group:
            more = f"; {self.left_out}" if self.left_out else ""
            self.left_out = f"{counted(len(group), 'entry', 'entries')} behind the last seal, of a group that isn't whole{more}"

    def each(self):
        """The frames that are there."""
        data, at = self.data, 0
        while at < len(data):
            opening = OPENING.match(data, at)
            if not opening:
                return self.end(data, at)
            end = opening.end() + int(opening[1])
            trailer = TRAILER.match(data, end)
            if not trailer:
                return self.torn(data, at, end)
            if checksum(data[at:end]) == int(trailer[1]) and BODY.fullmatch(data, opening.end(), end):
                body = data[opening.end() : end - 1].decode("latin-1")
                fields = [tuple(pair.split("=", 1)) for pair in body.split("\x01")]
                self.look(data, at, fields)
                yield fields
            else:
                self.first = self.first if self.garbled else at
                self.garbled += 1
            at = trailer.end()

    def look(self, data, at, fields):
        """Sees that the journal of a kept book is of this house, and that its seals are of the bytes before them."""
        if at == 0:
            head = firsts(fields)
            form = head.get("1408", "")
            self.is_kept = form == FORM
            if form.startswith("allocd-journal-") and not self.is_kept:
                raise NoJournal(f"{self.name} is of the form {form}, and not {FORM}")
            self.next = int(head.get("34", "0")) if self.is_kept else 0
            if self.is_kept and self.house not in (None, head.get("58")):
                raise NoJournal(f"{self.name} is of another house file, with SHA-256 {head.get('58')}")
        elif self.is_kept and fields[0][1] == "0":
            self.hasher.update(data[self.hashed : at])
            self.hashed = at
            if firsts(fields).get("112") != self.hasher.hexdigest():
                raise NoJournal(f"{self.name}: the bytes before the seal at byte {at} aren't those that were sealed")
            self.next = int(firsts(fields).get("34", "0"))

    def look_behind(self):
        """Sees that behind the first zero no seal of a later group stands."""
        self.left_out = self.left_out or f"what stands behind the zero at byte {len(self.data)} is left out"
        for seal in SEAL.finditer(self.behind):
            if int(seal[1]) != self.next:
                raise NoJournal(f"{self.name}: a zero stands at byte {len(self.data)}, before a group that was committed")

    def end(self, data, at):
        """Sees that where no frame begins a file may end: within the beginning of a frame."""
        rest = data[at : at + 32]
        if BEGINNING.startswith(rest) or TORN_LENGTH.fullmatch(rest):
            self.torn(data, at, len(data))
        else:
            raise NoJournal(f"{self.name}: no frame begins at byte {at}")

    def torn(self, data, at, end):
        """Sees that a frame which isn't whole is so since the file ends."""
        if end + 7 <= len(data):
            raise NoJournal(f"{self.name}: the frame at byte {at} isn't as long as it says")
        self.left_out = f"the last frame, at byte {at}, isn't whole, and is left out"

    def tell(self):
        """Tells what was passed over."""
        if self.garbled:
            frames = "1 garbled frame is" if self.garbled == 1 else f"{self.garbled} garbled frames are"
            first = "" if self.garbled == 1 else "the first "
            say(f"{self.name}: {frames} passed over, {first}at byte {self.first}")
        if self.left_out:
            say(f"{self.name}: {self.left_out}")


def frames(data):
    """The fields of each frame of some bytes."""
    return iter(Stream("bytes", data))


def firsts(fields):
    """Each tag's first value."""
    return dict(reversed(fields))


def group(fields, count, first):
    """The entries of a group: each begins at a field with the group's first tag, after the count."""
    tags = [tag for tag, _ in fields]
    after = tags.index(count) + 1 if count in tags else len(tags)
    starts = [i for i in range(after, len(tags)) if tags[i] == first]
    return [fields[start:end] for start, end in zip(starts, starts[1:] + [len(fields)])]


def party(fields, count, first, role):
    """The firm with role 4, a clearing firm, among these parties."""
    entries = group(fields, count, first)
    return next((entry[0][1] for entry in entries if firsts(entry).get(role) == "4"), None)


def lots_of(text):
    return int(text.split(".")[0])


def number_of(answer):
    """The entry that an answer of `allocd batch` tells, or 0 where it refuses; None where it isn't such an answer."""
    try:
        if answer["35"] == "P" and answer["87"] != "1":
            return int(answer["793"])
        if answer["35"] == "AR" and answer["939"] == "0":
            return int(answer["58"].split()[1])
        return 0
    except (KeyError, IndexError, ValueError):
        return None


def answers_to(message, answer):
    """Whether this may be the answer to that message."""
    kind = message["35"]
    if answer["35"] == "3":
        return answer.get("372") == kind[:8]
    tag = {("J", "P"): "70", ("AE", "AR"): "571"}.get((kind, answer["35"]))
    return tag is not None and (answer.get(tag), answer.get("56")) == (message.get(tag), message.get("49"))


def accepted(messages, answers, opening):
    """The messages of a day's input that its answers accepted. Each has an answer, but one of a session only a Reject."""
    asked = [fields for fields in messages if fields[0][1] not in OF_SESSION]
    given = [it for it in map(firsts, answers) if it["35"] != "3" or it.get("372") not in OF_SESSION]
    wrong = f"{answers.name} isn't what answers {messages.name}"
    if len(asked) != len(given):
        raise NoJournal(f"{wrong}: {counted(len(asked), 'message')}, {counted(len(given), 'answer')}")
    count, found = opening, []
    for fields, answer in zip(asked, given):
        number = number_of(answer) if answers_to(firsts(fields), answer) else None
        if number is None or number > count + 1:
            raise NoJournal(f"{wrong}: the answer with number {answer.get('34')} is to another message")
        if number == count + 1:
            count += 1
            found.append(fields)
    return found


def counted(n, what, more=None):
    return f"{n} {what}" if n == 1 else f"{n} {more or what + 's'}"


class Entry:
    """An accepted command.

    It names a node, or an entry where it is a consent (initiate), a decline or a reversal. Its detail is of a trade the
    firm, the account, the instrument, the side and the lots; of a split the lots, the taker and the account of each part,
    of which the taker or the account is None; of a claim the account; of an agreement (agree) giver, taker, rate and limit;
    of a raise the giver and the lots. The book adds the trade that it concerns (0 of an agreement), the node that it made or
    names, the parts that it made, and the reversal that undid it.
    """

    __slots__ = ("number", "sent", "firm", "id", "kind", "names", "detail", "trade", "node", "parts", "undone_by")

    def __init__(self, number, sent, firm, id, kind, names=None, detail=None):
        self.number, self.sent, self.firm, self.id = number, sent, firm, id
        self.kind, self.names, self.detail = kind, names, detail
        self.trade, self.node, self.parts, self.undone_by = 0, None, (), 0

    def command(self):
        return self.kind, self.names, self.detail


def entry_of(number, fields):
    """The entry that a message makes."""
    message = firsts(fields)
    sent, firm = message["52"], message["49"]
    if message["35"] == "AE":
        side = {"1": "buy", "2": "sell"}[message["54"]]
        account, instrument, lots = message["1"], message["55"], lots_of(message["32"])
        detail = (party(fields, "453", "448", "452"), account, instrument, side, lots)
        return Entry(number, sent, firm, message["571"], "trade", None, detail)
    kind = KINDS[message["71"] + message["626"]]
    names = int(message["72"]) if message["71"] == "6" else message.get("72")
    detail = None
    if kind == "agree":
        names = None
        detail = (message["5001"], message["5002"], int(message["5003"]), int(message["5004"]))
    elif kind == "raise":
        names, detail = None, (message["5001"], int(message["5004"]))
    elif kind == "split":
        detail = [part_of(part, firm) for part in group(fields, "78", "79")]
    elif kind == "claim":
        detail = group(fields, "78", "79")[0][0][1]
    return Entry(number, sent, firm, message["70"], kind, names, detail)


def part_of(part, firm):
    """The lots of a part, and the firm that it is given to or the account of the firm that splits."""
    message, taker = firsts(part), party(part, "539", "524", "538")
    return (lots_of(message["80"]), None, message["79"]) if taker in (None, firm) else (lots_of(message["80"]), taker, None)


def commands(day, answers=None, opening=0, house=None):
    """The commands of a journal, or those of a day's input that its answers accepted. So many entries came before them. The
    house is the SHA-256 of its file."""
    messages = Stream.of(day, house)
    given = answers and Stream.of(answers)
    for fields in accepted(messages, given, opening) if given else messages:
        if fields[0][1] in ("AE", "J"):
            yield fields
    for stream in (messages, given):
        if stream:
            stream.tell()
