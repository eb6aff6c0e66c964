"""What a page says of a capture without what was sent: figures in words and in small tables, and the table of harts."""
import numpy

from paging import figures, spread
from paging.salvaged import KINDS, NO_HART
from paging.told import count_of, figure

MOST_REASONS = 12
UNITS = {"byte": "byte of the file", "number": "number of the message"}
GOOD = "yes", "differential", "full"  # words of the table of harts
NAMES = {
    "rows": "rows left",
    "stretches": "stretches",
    "decoded": "decoded",
    "passed": "passed over",
    "missing": "missing",
    "bad": "bad",
    "doubtful": "doubtful numbers",
    "alone": "alone",
    "far": "far",
    "copies": "copies",
    "late": "late",
}
NOTE = (
    "“missing” are numbers that did not come; “passed over” are messages before the next synchronisation after a "
    "fault; “alone” and “far” have numbers that are not believed."
)


def shown_figures(found):
    """The figures of a page."""
    return [figure for figure in (
        strip("strip", "What is left, by hart", found, found.strips, found.unit),
        strip("marked", "Where it is in the file", found, found.marked, "byte"), reasons(found), gaps(found)) if figure]


def strip(name, title, found, parts, unit):
    """A strip for each hart, in each part of it the kind that comes first in KINDS."""
    groups = grouped(*(parts.whole(column) for column in ("hart", "kind", "first", "end")))
    if not groups:
        return None
    names = [*sorted(found.harts), *[NO_HART] * any(hart == NO_HART for hart, _ in groups)]
    total = max(int(end.max()) for _, end in groups.values())
    count, width = spread.bins(total)
    used = sorted({kind for _, kind in groups})
    grid = numpy.full((len(names), count), -1, numpy.int8)
    table = [[hart_name(hart), *[""] * len(used)] for hart in names]
    for place in range(len(used) - 1, -1, -1):
        for row, hart in enumerate(names):
            if (hart, used[place]) in groups:
                first, end = groups[hart, used[place]]
                grid[row][reached(first, end, count, width)] = place
                table[row][place + 1] = spread.class_name(int(first.min()), int(end.max()) - 1)
    shown = [kind_name(KINDS[at]) for at in used]
    sentences = [f"Each strip is a hart, each part of it {count_of(width, unit)}."]
    if len(shown) > 1:
        sentences[0] += f" Where several things befell a part, its colour is that of the first of: {', '.join(shown)}."
    if unit == "number":
        sentences.append(
            "Between two lines of the table, what is missing is drawn before what was passed over. "
            "Numbers that are alone or far are not shown."
        )
    rows_of = [hart_name(hart) for hart in names]
    draw = figures.by_hart(rows_of, shown, grid, width, total, UNITS[unit], figures.OF_SALVAGE)
    return figure(name, title, sentences, ["hart", *(f"{kind}: first and last" for kind in shown)], table, draw)


def grouped(harts, kinds, first, end):
    """Of each hart and kind where its parts begin and end."""
    order = numpy.lexsort((kinds, harts))
    harts, kinds, first, end = harts[order], kinds[order], first[order], end[order]
    steps = numpy.flatnonzero(numpy.diff(harts, prepend=-2) | numpy.diff(kinds, prepend=-2))
    pairs = zip(steps.tolist(), [*steps[1:].tolist(), len(harts)])
    return {(int(harts[at]), int(kinds[at])): (first[at:stop], end[at:stop]) for at, stop in pairs}


def hart_name(hart):
    return "none" if hart == NO_HART else str(hart)


def kind_name(kind):
    return "no message" if kind == "none" else kind


def reached(first, end, count, width):
    """Which bins some parts reach into."""
    steps = numpy.zeros(count + 1, numpy.int64)
    numpy.add.at(steps, first // width, 1)
    numpy.add.at(steps, (end - 1) // width + 1, -1)
    return numpy.cumsum(steps)[:count] > 0


def reasons(found):
    """Why messages are bad."""
    if not found.reasons:
        return None
    most = found.reasons.most_common()
    rows = most[:MOST_REASONS]
    if len(most) > MOST_REASONS:
        rows.append(("other", sum(count for _, count in most[MOST_REASONS:])))
    total = sum(found.reasons.values())
    sentences = [
        f"Bad messages: {total:,}, {rows[0][1]:,} of them for `{rows[0][0]}`. The damage is there or before, after the "
        "last synchronisation."
    ]
    panels = [("bad messages", "messages", [count for _, count in rows], figures.PURPLE)]
    draw = figures.bars([name for name, _ in rows], panels, "")
    table = [[name, f"{count:,}"] for name, count in rows]
    return figure("reasons", "Why messages are bad", sentences, ["why", "messages"], table, draw)


def gaps(found):
    """Gaps by their length."""
    if not found.gaps:
        return None
    lengths = numpy.array(found.gaps)
    names, counts = spread.in_classes(lengths)
    sentences = [
        f"Missing or doubtful messages: {int(lengths.sum()):,}, in {count_of(len(lengths), 'gap')}, the longest of "
        f"{int(lengths.max()):,}."
    ]
    rows = [[name, f"{int(count):,}"] for name, count in zip(names, counts)]
    draw = figures.bars(names, [("gaps", "gaps", counts, figures.COLOURS["lost"])], "length (messages)")
    return figure("gaps", "Gaps by length", sentences, ["length (messages)", "gaps"], rows, draw)


def verdict(found):
    return "nothing is missing" if found.is_whole else "not all is there"


def summary(found):
    """The totals, as the table's last rows say them, or as they are counted here."""
    sums = found.all
    parts = count_of(sums["stretches"], "stretch", "stretches")
    lines = [f"Left: {count_of(sums['rows'], 'row')} of {count_of(len(found.harts), 'hart')}, in {parts}."]
    others = [name for name in found.counted if name not in ("rows", "stretches") and sums[name]]
    counts = [f"{NAMES[name]} {sums[name]:,}" for name in others]
    lines.append(f"Messages: {', '.join(counts)}." if counts else "No message is missing, damaged or passed over.")
    if found.strangers:
        lines.append(f"Messages of harts that are not known: {found.strangers:,}.")
    if found.bytes:
        lines.append(f"{count_of(found.bytes, 'byte')} in {count_of(found.byte_runs, 'run')} are of no message.")
    if found.totals:
        totals = ", ".join(f"{count:,} {name}" for name, count in found.totals.items())
        lines.append(f"`salvage` counts: {totals}.")
    if opened := [hart for hart, closed in found.closed.items() if closed == "no"]:
        shown = ", ".join(map(str, opened[:8])) + (f" and {len(opened) - 8:,} more" if len(opened) > 8 else "")
        lines.append(f"No closing packet of hart {shown}." if found.modes else f"No row closes hart {shown}.")
    if not found.modes:
        lines.append("A hart of which no message came is in no row of `list --salvage`.")
    return lines


def hart_table(found):
    """The heads of the table of harts and its rows, each cell with its text and what it is sorted by."""
    heads = ["hart", *(["mode"] if found.modes else []), "closed", *(NAMES[name] for name in found.counted)]
    rows = []
    for hart in sorted(found.harts):
        counts = found.harts[hart]
        words = [*([found.modes[hart]] if found.modes else []), found.closed[hart]]
        numbers = [(f"{counts[name]:,}", counts[name]) for name in found.counted]
        rows.append([(f"{hart:,}", hart), *((word, word) for word in words), *numbers])
    return heads, rows
