"""Positions of the day before, as examples/table wrote them: with what a day opens."""
import csv
import io

from tool import Fault, called, content

WANTED = ("firm", "account", "instrument", "long", "short")


class Opening:
    """Positions of the day before, from a CSV of them. Where a house file is named it has to have them all, and its order is
    theirs; else they come first."""

    def __init__(self, path, house=None, plain=False):
        self.sums, self.places = {}, places_of(house) if house else None
        text = content(path).removeprefix(b"\xef\xbb\xbf")  # the mark that a spreadsheet puts at the front
        rows = csv.DictReader(io.StringIO(text.decode("latin-1")))
        if not set(WANTED) <= set(rows.fieldnames or ()):
            raise Fault(f"{called(path)}: line 1 isn't that of positions: {', '.join(WANTED)}")
        for row in rows:
            where = f"{called(path)}: line {rows.line_num}"
            try:
                place = tuple(name_of(row[column], plain) for column in WANTED[:3])
                sums = tuple(lots_of(row[column]) for column in WANTED[3:])
            except ValueError as fault:
                raise Fault(f"{where}: {fault}") from None
            if self.places is not None and place not in self.places:
                raise Fault(f"{where}: the house file has no {place[0]}/{place[1]} {place[2]}")
            if place in self.sums:
                raise Fault(f"{where}: {place[0]}/{place[1]} {place[2]} is there twice")
            self.sums[place] = sums

    def of(self, statement):
        """Of each account and instrument that has some: lots long and short now, at the opening, and those of the day."""
        days = {(it["firm"], it["account"], it["instrument"]): (it["long"], it["short"]) for it in statement.of("position")}
        for place in dict.fromkeys([*self.sums, *days]) if self.places is None else self.places:
            before, day = self.sums.get(place, (0, 0)), days.get(place, (0, 0))
            if statement.sees(place[0]) and any(before + day):
                yield place, (before[0] + day[0], before[1] + day[1]), before, day


def places_of(house):
    """The accounts and instruments of a house file, in its order."""
    lines = [line.split(" ") for line in content(house).decode("latin-1").splitlines()]
    names = {kind: [words[1:] for words in lines if words[0] == kind] for kind in ("ACCOUNT", "INSTRUMENT")}
    return dict.fromkeys((*account, *instrument) for account in names["ACCOUNT"] for instrument in names["INSTRUMENT"])


def name_of(text, plain):
    """A name, without the ' that stands before one which a spreadsheet would take for a formula."""
    if text is None:
        raise ValueError("a column is missing")
    rest = text.lstrip("'")
    return text[1:] if not plain and text != rest and rest[:1] in ("=", "+", "-", "@") else text


def lots_of(text):
    if not (text and text.isascii() and text.isdigit()):
        raise ValueError(f"no number of lots: {text!r}")
    return int(text)
