"""Tables as `audit --format csv` writes them, made of the lines of `audit` or of counts.

    python3 tools/tests/audit_tables.py [--late] MESSAGES FAULTS FILE

writes the table of an audit of so many messages of four harts, of which so many are not in order: late, repeated, changed, or after
losses; with --late all are late.
"""
import argparse
import random
import re

COLUMNS = ("kind,place,offset,hart,number,last,fate,by,sent_payload,came_payload,sent,came,lost,repeated,late,changed,strange,"
           "runs,longest_run,most_late,verdict").split(",")
MESSAGE = re.compile(r"message (\d+): hart (\d+) number (\d+): (.*)")
BYTES = re.compile(r"bytes: (\d+) at ([0-9a-f]+)")
RUN = re.compile(r"hart (\d+): numbers? (\d+)(?: to (\d+))? lost")
SUMS = re.compile(r"(?:hart (\d+)|all): (\d+) sent, (\d+) came, (\d+) lost, (\d+) repeated, (\d+) late, (\d+) changed, "
                  r"(\d+) strange, (whole|not whole)")
RUNS = re.compile(r"hart (\d+): lost in (\d+) runs, the longest of (\d+)")
LATE = re.compile(r"hart (\d+): late by at most (\d+)")
CHANGED = re.compile(r"changed, sent ([0-9a-f]+) came ([0-9a-f]+)")
COUNTED = "sent", "came", "lost", "repeated", "late", "changed", "strange"
HARTS = 4
SUMMED = {"late": "late", "repeat": "repeated", "changed": "changed", "stranger": "strange", "skips": "lost"}


def row(kind, **fields):
    """A line of the table."""
    assert set(fields) <= set(COLUMNS)
    return ",".join([kind, *(str(fields.get(name, "")) for name in COLUMNS[1:])])


def table_of(text, total):
    """The table of what `audit` prints, of a RECEIVED of so many messages."""
    lines, harts, others = [], {}, []
    for line in text.splitlines():
        if found := MESSAGE.fullmatch(line):
            lines.append(message(*found.groups()))
        elif found := BYTES.fullmatch(line):
            lines.append(row("bytes", by=found[1], offset=int(found[2], 16)))
        elif found := RUN.fullmatch(line):
            lines.append(row("run", hart=found[1], number=found[2], last=found[3] or found[2]))
        elif found := SUMS.fullmatch(line):
            fields = {**dict(zip(COUNTED, found.groups()[1:8])), "verdict": found[9]}
            if found[1] is None:
                others.append(row("all", **fields))
            else:
                harts[found[1]] = {"hart": found[1], **fields}
        elif found := RUNS.fullmatch(line):
            harts[found[1]] |= {"runs": found[2], "longest_run": found[3]}
        elif found := LATE.fullmatch(line):
            harts[found[1]] |= {"most_late": found[2]}
        elif line.startswith("result: "):
            others.append(row("result", place=total, verdict=line.removeprefix("result: ")))
    rows = [",".join(COLUMNS), *lines, *(row("hart", **fields) for fields in harts.values()), *others]
    return "".join(line + "\n" for line in rows)


def message(place, hart, number, what):
    fields = {"place": place, "hart": hart, "number": number}
    fate, _, by = what.partition(" ")
    if found := CHANGED.fullmatch(what):
        return row("message", fate="changed", sent_payload=found[1], came_payload=found[2], **fields)
    return row("message", fate=fate, by=by.removeprefix("by "), **fields)


def write_large(out, total, faults, are_late=False):
    """Writes the table of an audit of so many messages, of which so many are not in order, evenly over the places."""
    chance = random.Random(1)
    out.write(",".join(COLUMNS) + "\n")
    fates = "late", "repeat", "changed", "skips"
    counts = [{**dict.fromkeys(COUNTED, 0), "sent": total // HARTS, "came": total // HARTS} for _ in range(HARTS)]
    lost = []
    for fault in range(faults):
        place = fault * total // faults
        fate = "late" if are_late else fates[chance.randrange(4)]
        by = chance.randrange(1, 4 if fate == "skips" else 5000) if fate in ("late", "skips") else ""
        hart, number = place % HARTS, place // HARTS + 3
        payloads = ("0a", "0b") if fate == "changed" else ("", "")
        out.write(f"message,{place},,{hart},{number},,{fate},{by},{payloads[0]},{payloads[1]},,,,,,,,,,,\n")
        if fate == "skips":
            lost.append((hart, number - by, number - 1))
        counts[hart][SUMMED[fate]] += by if fate == "skips" else 1
    for hart, first, last in sorted(lost):
        out.write(row("run", hart=hart, number=first, last=last) + "\n")
    for hart in range(HARTS):
        out.write(row("hart", hart=hart, verdict="not whole", **counts[hart]) + "\n")
    sums = {name: sum(count[name] for count in counts) for name in COUNTED}
    out.write(row("all", verdict="not whole", **sums) + "\n" + row("result", place=total, verdict="not whole") + "\n")


def main():
    parser = argparse.ArgumentParser(description=__doc__, formatter_class=argparse.RawDescriptionHelpFormatter)
    parser.add_argument("--late", action="store_true")
    parser.add_argument("messages", type=int, metavar="MESSAGES")
    parser.add_argument("faults", type=int, metavar="FAULTS")
    parser.add_argument("file", metavar="FILE")
    given = parser.parse_args()
    with open(given.file, "w") as out:
        write_large(out, given.messages, given.faults, given.late)


if __name__ == "__main__":
    main()
