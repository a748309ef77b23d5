"""What the entries of a journal ask for, and the messages that asked for them: what `audit` compares."""
import hashlib

import tool
from fix import FRAME

KINDS = {"017": "split", "023": "split", "018": "claim", "019": "refuse", "217": "cancel", "223": "cancel",
         "090": "agree", "091": "raise", "620": "initiate", "621": "reverse", "622": "decline"}


def kind_of(frame):
    """MsgType (35), the third field of each frame."""
    return frame.split(b"\x01", 3)[2][3:]


def fields_of(frame):
    """The fields of a frame, from MsgType (35) to the last of the body."""
    body = frame.split(b"\x01", 2)[2].rsplit(b"10=", 1)[0]
    return [tuple(pair.split("=", 1)) for pair in body[:-1].decode("latin-1").split("\x01")]


def firsts(fields):
    """Each tag's first value."""
    return dict(reversed(fields))


def entries_of(path):
    """The fields of each entry of a journal of `allocd keep`, up to its last seal. Each seal has to be of the bytes before it."""
    data, sealed, at, held = tool.content(path).partition(b"\0")[0], hashlib.sha512(), 0, []
    for found in FRAME.finditer(data):
        kind = kind_of(found[0])
        if found.start() == 0 and kind != b"A":
            break
        if kind == b"0":
            sealed.update(data[at : found.start()])
            at = found.start()
            if firsts(fields_of(found[0])).get("112") != sealed.hexdigest():
                raise tool.Fault(f"{path}: the bytes before the seal at byte {at} aren't those that were sealed")
            yield from held
            held = []
        elif kind in (b"J", b"AE"):
            held.append(fields_of(found[0]))
    if not at:
        raise tool.Fault(f"{path} is no journal of `allocd keep` with a seal")
    if held:
        tool.say(f"{path}: {len(held)} entries behind the last seal are left out")


def command_of(fields):
    """What a message asks for: two that mean the same have the same."""
    it = firsts(fields)
    if it["35"] == "AE":
        return "trade", party(fields, "453", "448", "452"), it["1"], it["55"], it["54"], lots_of(it["32"])
    kind = KINDS[it["71"] + it["626"]]
    if kind == "split":
        return kind, it["72"], [part_of(part, it["49"]) for part in group(fields, "78", "79")]
    if kind == "claim":
        return kind, it["72"], group(fields, "78", "79")[0][0][1]
    if kind in ("agree", "raise"):
        return kind, it["5001"], *((it["5002"], int(it["5003"])) if kind == "agree" else ()), int(it["5004"])
    return kind, int(it["72"]) if it["71"] == "6" else it["72"]


def part_of(part, firm):
    """The lots of a part, and the firm that it is given to or the account of the firm that splits."""
    it, taker = firsts(part), party(part, "539", "524", "538")
    return (lots_of(it["80"]), None, it["79"]) if taker in (None, firm) else (lots_of(it["80"]), taker, None)


def group(fields, count, first):
    """The entries of a group: each begins at a field with the group's first tag, after the count."""
    tags = [tag for tag, _ in fields]
    after = tags.index(count) + 1 if count in tags else len(tags)
    starts = [i for i in range(after, len(tags)) if tags[i] == first]
    return [fields[start:end] for start, end in zip(starts, starts[1:] + [len(fields)])]


def party(fields, count, first, role):
    """The firm with role 4, a clearing firm, among these parties."""
    return next((it[0][1] for it in group(fields, count, first) if firsts(it).get(role) == "4"), None)


def lots_of(text):
    return int(text.split(".")[0])
