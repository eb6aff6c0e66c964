"""The table that `tracebench audit --format csv` prints, from the lines that it prints as text.

Each line is read by its words, and each row is made of what it says, by the columns of docs/FORMATS.md. The table has to
have these rows.
"""

import re

import csv_tables

COLUMNS = (
    "kind", "place", "offset", "hart", "number", "last", "fate", "by", "sent_payload", "came_payload", "sent", "came",
    "lost", "repeated", "late", "changed", "strange", "runs", "longest_run", "most_late", "verdict",
    "missing")
COUNTS = ("sent", "came", "lost", "repeated", "late", "changed", "strange")

MESSAGE = re.compile(r"message (\d+): hart (\d+)(?: number (\d+))?: (.*)")
CHANGED = re.compile(r"changed, sent ([0-9a-f]*) came ([0-9a-f]*)")
BYTES = re.compile(r"bytes: (\d+) at ([0-9a-f]+)")
LOST = re.compile(r"hart (\d+): numbers? (\d+)(?: to (\d+))? lost")
COUNTED = re.compile(r"(?:hart (\d+)|all): (\d+ sent, .*)")
RUNS = re.compile(r"hart (\d+): lost in (\d+) runs, the longest of (\d+)")
LATE = re.compile(r"hart (\d+): late by at most (\d+)")
MORE = re.compile(r"hart \d+: more than 256 lost and extra, more may match")
EXCHANGED = re.compile(r"hart (\d+): (\d+) of what came is hart (\d+)'s")


def row(kind, **fields):
    return {name: str({"kind": kind, **fields}.get(name, "")) for name in COLUMNS}


def message(place, hart, number, what):
    """The row of a message of which this is said."""
    where = {"place": place, "hart": hart, "number": number or ""}
    if changed := CHANGED.fullmatch(what):
        return row("message", **where, fate="changed", sent_payload=changed[1], came_payload=changed[2])
    fate, _, far = what.replace("late by", "late").partition(" ")
    return row("message", **where, fate=fate, by=far)


def counts(words):
    """The columns that the words of a hart's line count, and its verdict."""
    *counted, verdict = words.split(", ")
    found = {name: number for number, name in (it.split() for it in counted)}
    # What is extra is strange: SENT does not have it.
    if "extra" in found:
        found["strange"] = found.pop("extra")
    return {**found, **missing(found), "verdict": verdict}


def missing(found):
    """The column of what is lost and did not come changed, where these counts have both."""
    return {"missing": max(int(found["lost"]) - int(found["changed"]), 0)} if "changed" in found else {}


def total(harts, names):
    """The row of all harts, whose counts have these names."""
    sums = {name: sum(int(it[name]) for it in harts) for name in names}
    whole = all(it["verdict"] == "whole" for it in harts)
    return row("all", **sums, **missing(sums), verdict="whole" if whole else "not whole")


def rows_of(text, unnumbered, messages):
    """The rows of the lines of a text, where so many messages of RECEIVED are taken."""
    single, harts, others = [], [], {}
    result = {"place": messages, "strange": 0, "by": 0, "runs": 0}
    for line in text.splitlines():
        if found := MESSAGE.fullmatch(line):
            single.append(message(*found.groups()))
        elif found := BYTES.fullmatch(line):
            single.append(row("bytes", offset=int(found[2], 16), by=found[1]))
        elif found := LOST.fullmatch(line):
            single.append(row("run", hart=found[1], number=found[2], last=found[3] or found[2]))
        elif found := RUNS.fullmatch(line):
            harts[int(found[1])].update(runs=found[2], longest_run=found[3])
        elif found := LATE.fullmatch(line):
            harts[int(found[1])].update(most_late=found[2])
        elif found := EXCHANGED.fullmatch(line):
            others[len(harts)] = row("exchanged", hart=found[1], by=found[2], number=found[3])
        elif found := COUNTED.fullmatch(line):
            if found[1] is not None:
                none = {"runs": 0, "longest_run": 0} | ({} if unnumbered else {"most_late": 0})
                harts.append(row("hart", hart=found[1], **counts(found[2]), **none))
        elif line == "headers differ":
            result["fate"] = line
        elif MORE.fullmatch(line):
            pass  # its row's `lost` and `strange` show it
        elif line.startswith("strangers: "):
            result["strange"] = line.split()[1]
        elif line.startswith("bytes: "):
            _, result["by"], _, result["runs"], _ = line.split()
        elif line.startswith("first: "):
            result["number"] = line.split()[-1]
        else:
            result["verdict"] = line.removeprefix("result: ")
    names = [name for name in COUNTS if not unnumbered or name in ("sent", "came", "lost", "strange")]
    of_harts = [it for place, hart in enumerate(harts, 1) for it in (hart, others.get(place)) if it]
    return [*single, *of_harts, total(harts, names), row("result", **result)]


def taken(text):
    """How many messages of RECEIVED are taken, by the lines of a text that is no summary: those of the harts of SENT, and
    the strangers of other harts."""
    harts = [found for line in text.splitlines() if (found := COUNTED.fullmatch(line)) and found[1] is not None]
    came = sum(int(re.search(r"(\d+) came", found[2])[1]) for found in harts)
    strangers = [found for line in text.splitlines() if (found := MESSAGE.fullmatch(line)) and found[4] == "stranger"]
    return came + sum(int(found[2]) >= len(harts) for found in strangers)


def check(table, rows):
    """Raises NotTheText where a table, in bytes, is not read as these rows."""
    read = csv_tables.rows_of(table, COLUMNS)
    for at, (found, wanted) in enumerate(zip(read, rows)):
        if found != wanted:
            raise csv_tables.NotTheText(f"row {at}: {found} and not {wanted}")
    if len(read) != len(rows):
        raise csv_tables.NotTheText(f"{len(read)} rows and not {len(rows)}")
