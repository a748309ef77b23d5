"""The HTML of a statement: its lines, put into the frame of examples/page, page.html, whose script draws them."""
import base64
import hashlib
import html
import json
import os
import re
from datetime import datetime, timezone

FRAME = os.path.join(os.path.dirname(os.path.abspath(__file__)), "page.html")
KINDS = "entry refused node position balance hop agreement offer reversal".split()
EXACT = 2**53  # below it a script's numbers are exact; others are put as text


def packed(lines):
    """Lines, compact. Those with the same members are a table: the members, how many lines, and a column for each.
    Beside the tables stands which of them has each line; 0, where one has all."""
    tables, order = {}, []
    for line in lines:
        number, rows = tables.setdefault(tuple(line), (len(tables), []))
        order.append(number)
        rows.append(line)
    for names, (_, rows) in tables.items():
        tables[names] = names, len(rows), [column([row[name] for row in rows]) for name in names]
    return [*tables.values()], order if len(tables) > 1 else 0


def column(values):
    """A member of some lines: `rows`, if each has a list of objects, with the `lengths` of the lists; what is `same`
    in all; `steps` from number to number; the `words` that there are, with their `places`; or the values."""
    if isinstance(values[0], list):
        rows = [it for value in values for it in value]
        are_objects = all(isinstance(it, dict) for it in rows)
        return {"rows": packed(rows), "lengths": column([*map(len, values)])} if are_objects else values
    values = [str(it) if type(it) is int and abs(it) >= EXACT else it for it in values]
    words = {word: place for place, word in enumerate(dict.fromkeys(values))}
    if len(words) == 1:
        return {"same": values[0]}
    if all(type(it) is int for it in values):
        return {"steps": [it - before for it, before in zip(values, [0, *values])]}
    return {"words": list(words), "places": [words[it] for it in values]} if 2 * len(words) < len(values) else values


def page(statement, day, opening=None, mark=""):
    """The page. Its data has no `<`, so nothing in it ends or begins an element. One that is served has a mark, by
    which it sees whether there is a newer one."""
    with open(FRAME, encoding="utf-8") as file:
        frame = file.read()
    style, script = (re.search(f"<{tag}>(.*?)</", frame, re.DOTALL)[1] for tag in ("style", 'script type="module"'))
    hashes = [base64.b64encode(hashlib.sha256(text.encode()).digest()).decode() for text in (style, script)]
    policy = ["default-src 'none'", "base-uri 'none'", "form-action 'none'"] + ["connect-src 'self'"] * bool(mark)
    policy += [f"{kind}-src 'sha256-{text}'" for kind, text in zip(("style", "script"), hashes)]
    made = datetime.now(timezone.utc).strftime("%Y-%m-%d %H:%M:%S UTC")
    shown = {"day": os.path.basename(day), "made": made, "mark": mark, "book": packed([statement.book])}
    shown["lines"] = {kind: packed(statement.of(kind)) for kind in KINDS}
    shown["carried"] = opening and [[*place, *now, *before] for place, now, before, _ in opening.of(statement)]
    title = f"{statement.book['house']}: " + (f"statement of {statement.firm}" if statement.firm else "the day")
    data = json.dumps(shown, separators=(",", ":")).replace("<", "\\u003c")
    filled = {"POLICY": "; ".join(policy), "TITLE": html.escape(title), "DAY": data}
    return re.sub(r"\{\{(POLICY|TITLE|DAY)\}\}", lambda it: filled[it[1]], frame)
