"""The rows of CSV of a statement: what examples/table and examples/statements write."""
import csv
import io
import re

from lines import money, place

COLUMNS = {
    "nodes": "trade id sent instrument side node entry part parent depth leaf lots firm account state giver taker fee",
    "positions": "firm account instrument long short net",
    "balances": "firm paid received net",
    "agreements": "giver taker used limit",
    "fees": "node trade entry sent instrument side giver taker lots rate fee",
    "offers": "node trade since instrument side giver taker lots rate fee claim",
    "history": "entry sent firm id trade what reversed_by",
    "control": "firm trades entries last long short hops paid received",
}
CARRIED = "opening_long opening_short day_long day_short"
STRANGERS = {"id", "instrument", "firm", "account", "giver", "taker"}
FORMULA = re.compile("'*[=+@-]")


def picked(line, names):
    """Members of a line, in these words; what isn't there is empty."""
    return [line.get(name, "") for name in names.split()]


def cost(line, *names):
    return [money(line[name]) if name in line else "" for name in names]


def by_name(lines, name):
    return {line[name]: line for line in lines}


def nodes(statement):
    made = by_name(statement.of("entry"), "number")
    for it in statement.of("node"):
        deal = [it.get("trade", ""), *picked(made.get(it.get("trade"), {}), "id time"), *picked(it, "instrument side")]
        where = [it["name"], *it["name"].split("."), it.get("parent", ""), it["depth"], "yes" if it["leaf"] else "no"]
        yield [*deal, *where, it["lots"], *place(it), *picked(it, "state giver taker"), *cost(it, "fee")]


def positions(statement, opening=None):
    if opening:
        for where, total, before, day in opening.of(statement):
            yield [*where, *total, total[0] - total[1], *before, *day]
    else:
        for it in statement.of("position"):
            yield [*picked(it, "firm account instrument long short"), it["long"] - it["short"]]


def balances(statement):
    for it in statement.of("balance"):
        if it["paid"] or it["received"]:
            yield [it["firm"], *cost(it, "paid", "received"), money(it["received"] - it["paid"])]


def agreements(statement):
    return (picked(it, "giver taker used limit") for it in statement.of("agreement") if it["used"])


def fees(statement):
    made, of = by_name(statement.of("entry"), "number"), by_name(statement.of("node"), "name")
    for it in sorted(statement.of("hop"), key=lambda it: [int(number) for number in it["node"].split(".")]):
        deal = [*picked(it, "entry"), *picked(made[it["entry"]], "time"), *picked(of[it["node"]], "instrument side")]
        yield [it["node"], *picked(of[it["node"]], "trade"), *deal, *picked(it, "giver taker lots"), *cost(it, "rate", "fee")]


def offers(statement):
    of = by_name(statement.of("node"), "name")
    for it in statement.of("offer"):
        deal = [*picked(of[it["node"]], "trade"), *picked(it, "since"), *picked(of[it["node"]], "instrument side")]
        claim = it.get("refusal", "0 yes").partition(" ")[2]
        yield [it["node"], *deal, *picked(it, "giver taker lots"), *cost(it, "rate", "fee"), claim]


def history(statement):
    """The entries. The trade of one is that of the tree which it made or changed, or of the change that it is about."""
    trades = {}  # of entries and nodes; a part that another firm gave is of none that is seen
    for it in statement.of("entry"):
        number, trade = it["number"], trades.get(it.get("change", it.get("node")), "")
        if it["command"] == "trade" and statement.sees(it["owner"]):
            trade = trades[f"{number}.0"] = number
        elif "parts" in it and not statement.sees(it["firm"]):
            trade = ""
        trades[number] = trade
        trades.update((part["name"], trade) for part in it.get("parts", ()))
        yield [number, *picked(it, "time firm id"), trade, statement.what(it), *picked(it, "reversed_by")]


def control(statement):
    it = statement.book
    yield [*picked(it, "firm trades entries"), statement.last(), *picked(it, "long short hops"), *cost(it, "paid", "received")]


def guarded(column, value):
    """A stranger's text, so that no spreadsheet takes it for a formula."""
    return "'" + value if column in STRANGERS and FORMULA.match(value) else value


def csv_of(of, rows, trade=None, is_carried=False, plain=False):
    """CSV of such rows, of one trade where that is given, with a line that names its columns."""
    columns = (COLUMNS[of] + (f" {CARRIED}" if is_carried else "")).split()
    text = io.StringIO()
    to = csv.writer(text, lineterminator="\n")
    to.writerow(columns)
    for row in rows:
        if not trade or row[columns.index("trade")] == trade:
            to.writerow(row if plain else map(guarded, columns, row))
    return text.getvalue()
