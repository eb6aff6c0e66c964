"""The text that `tracebench list` prints, from the table that `list --format csv` prints.

Each row is read by its columns, as docs/FORMATS.md has them, and makes the line that says the same. A field that the line
does not call for has to be empty.
"""

from csv_tables import NotTheText, rows_of

COLUMNS = (
    "kind", "place", "offset", "hart", "number", "packet", "addr", "diff", "priv", "branch", "trap", "cause", "tval",
    "handler", "epc", "map", "report", "mode", "ended", "bad", "waits", "closed", "treatment", "reason", "late", "bytes",
    "added", "first_row", "last_row", "first", "last", "first_symbol", "first_distance", "last_symbol", "last_distance")
OF_SALVAGE = (*COLUMNS[: COLUMNS.index("late")], "far", *COLUMNS[COLUMNS.index("late") :])
UNUSED = {"stranger", "copy", "doubtful", "alone", "passed"}


def packet(row):
    """What a row says of the message's packet, in the words of the dump."""
    take, what = row.pop, row.pop("packet")
    if what == "open":
        return "open" + {"diff": "", "full": " full"}[take("mode")]
    if what == "close":
        return f"close {take('ended')}"
    if what == "sync":
        return f"sync addr={take('addr')} priv={take('priv')} branch={take('branch')}"
    if what == "trap":
        kind = take("trap")
        value = f" tval={take('tval')}" if kind == "exception" else ""
        place = "handler" if row["handler"] else "epc"
        at = f"{place}={take(place)} priv={take('priv')} branch={take('branch')}"
        return f"trap {kind} cause={take('cause')}{value} {at}"
    if what == "address":
        field = "addr" if row["addr"] else "diff"
        return f"address {field}={take(field)} map={take('map')} {take('report')}"
    return f"{what} {take(what)}"


def place(row, which):
    """The place of the first event of a row, or of the last, with its name."""
    at, name, distance = row.pop(which), row.pop(f"{which}_symbol"), row.pop(f"{which}_distance")
    return f"{at} <{name}+{distance}>" if distance else at


def effect(row, rows=None, says_rows=False):
    """What a row says that the message does, with the rows of its hart or without. So many rows come before of its hart,
    where that is known."""
    added, first, last = row.pop("added"), row.pop("first_row"), row.pop("last_row")
    if rows is not None and (first, last) != ((str(rows + 1), str(rows + int(added))) if added != "0" else ("", "")):
        raise NotTheText(f"rows {first} to {last} after {rows}")
    made, settled = "nothing", f", row {first}" if first == last else f", rows {first} to {last}"
    if added != "0":
        first, last = place(row, "first"), place(row, "last")
        made = f"{added} events, {first} to {last}"
        if added == "1":
            if first != last:
                raise NotTheText(f"one event at {first} and at {last}")
            made = f"1 event, {first}"
        made += settled * says_rows
    return made + flag(row, "waits", ", waits") + flag(row, "closed", ", closed")


def flag(row, name, words):
    return {"yes": words, "no": ""}[row.pop(name)]


def word(row):
    """What a row says that salvaging does with the message."""
    what = row.pop("treatment")
    if what == "taken":
        made = effect(row, says_rows=True)
    elif what == "bad":
        made = f"bad: {row.pop('reason')}"
    else:
        made = what if what in UNUSED else "?"
    return made + flag(row, "far", ", far") + flag(row, "late", ", late")


def line(row, is_salvaged, rows):
    """The line that says what a row says. `rows` has how many rows came of each hart, where these come in order."""
    kind, offset = row.pop("kind"), row.pop("offset")
    if kind == "incomplete":
        return offset
    if kind == "bytes":
        return f"{offset} bytes: {row.pop('bytes')}"
    hart = row.pop("hart")
    head = f"{offset} {hart} {row.pop('number')} {packet(row)}"
    if kind == "refused":
        return head
    if kind != "message":
        raise NotTheText(f"kind {kind}")
    if is_salvaged:
        return f"{head} => {word(row)}"
    before = rows.get(hart, 0)
    rows[hart] = before + int(row["added"])
    return f"{head} => {effect(row, before)}"


def text_of(table, is_salvaged, places=None):
    """The lines of a table, which is bytes; the line of the header is none of them. `places` has the place of the message
    at each offset, where rows may be missing."""
    made, count, rows = [], 0, {}
    for row in rows_of(table, OF_SALVAGE if is_salvaged else COLUMNS):
        if row["kind"] != "bytes":
            wanted = places.get(int(row["offset"], 16)) if places is not None else count
            if row.pop("place") != str(wanted):
                raise NotTheText(f"place {wanted} is lacking")
            count += 1
        try:
            made.append(line(row, is_salvaged, rows) + "\n")
        except KeyError as why:
            raise NotTheText(f"a field says {why}") from None
        if left := {name: field for name, field in row.items() if field}:
            raise NotTheText(f"{left} where none applies: {made[-1]}")
    return "".join(made).encode("utf-8", "surrogateescape")


def fault_of(table, text, is_salvaged, places=None):
    """Why a table is not that of a text, or nothing. The first line of the text may be that of the header."""
    try:
        made = text_of(table, is_salvaged, places)
    except NotTheText as why:
        return f"{why}\n"
    header, end, rest = text.partition(b"\n")
    wanted = rest if header.startswith(b"capture 2 ") else text
    return "" if made == wanted else "the lines of the table: " + made.decode("utf-8", "backslashreplace")
