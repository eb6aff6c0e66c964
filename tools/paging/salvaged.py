"""What is left of a capture, by the table of `salvage --format csv` or of `list --salvage --format csv`."""
import csv
import io
from collections import Counter
from dataclasses import dataclass, field

import numpy

from paging import tables
from paging.audited import Parts
from recording.unusable import Unusable

AUDIT, SALVAGE, LIST = (f"{name} --format csv" for name in ("audit", "salvage", "list"))
COLUMNS = "kind", "hart", "number", "last", "count", "offset", "second", "mode", "closed", "reason"
WANTED = "give it what `audit`, `salvage` or `list --salvage` writes with --format csv"
# What befell a part of a strip, the one that is shown where several did first. `none` is of no message.
KINDS = "gap", "bad", "doubtful", "alone", "far", "none", "passed", "copy", "stretch"
COUNTS = "rows", "stretches", "decoded", "passed", "missing", "bad", "doubtful", "alone", "far", "copies", "late"
FAULTS = "missing", "bad", "doubtful", "alone", "far"
TREATMENTS = {"taken": "stretch", **{name: name for name in ("passed", "bad", "alone", "doubtful", "copy")}}
MOST_OF_MESSAGE = 29  # bytes of a message
NO_HART = -1


@dataclass
class Salvaged:
    """What is left. `strips` are parts of the axis: (hart, place in KINDS, from, to); NO_HART is what is of none.
    `marked` are such parts of the file, where the strips are not."""

    unit: str  # of the axis: a byte of the file, or a number of the hart's messages
    strips: Parts = field(default_factory=lambda: Parts("hart", "kind", "first", "end"))
    marked: Parts = field(default_factory=lambda: Parts("hart", "kind", "first", "end"))
    harts: dict = field(default_factory=dict)  # of each hart a Counter of COUNTS
    closed: dict = field(default_factory=dict)  # of each hart `yes` or `no`
    modes: dict = field(default_factory=dict)
    counted: tuple = COUNTS  # those that the table has
    gaps: list = field(default_factory=list)
    reasons: Counter = field(default_factory=Counter)  # why messages are bad
    totals: dict = field(default_factory=dict)  # the rows `all`
    byte_runs: int = 0
    bytes: int = 0
    strangers: int = 0

    @property
    def all(self):
        return sum(self.harts.values(), Counter())

    @property
    def is_whole(self):
        """Whether nothing is known to be missing or damaged."""
        is_closed = bool(self.closed) and all(closed == "yes" for closed in self.closed.values())
        return is_closed and not (self.bytes or self.strangers or any(self.all[name] for name in FAULTS))


def read(source, show=None):
    """What is left, by a table of one of the two kinds, None where it is of neither."""
    if not source.line:
        raise Unusable(f"{source}: empty: {WANTED}")
    kind = tables.kind_of(source.columns())
    if kind == SALVAGE:
        return by_number(source)
    if kind == LIST:
        return by_offset(source, show)
    if kind not in (None, AUDIT):
        raise Unusable(f"{source}: a table of `{kind}`: {WANTED}")
    return None


def by_number(source):
    """Of a table of `salvage`: each hart over the numbers of its messages."""
    found = Salvaged("number", counted=tuple(name for name in COUNTS if name not in ("decoded", "passed")))
    walk = Walk(found)
    header = tables.header_of(source.path, source.line, SALVAGE, COLUMNS)
    with io.TextIOWrapper(source.file, newline="", encoding="ascii", errors="replace") as file:
        reader = csv.DictReader(file, header)
        for row in reader:
            try:
                if None in row or None in row.values():
                    raise ValueError(f"not {len(header)} fields")
                walk.take(row)
            except ValueError as wrong:
                raise Unusable(f"{source}: line {reader.line_num + 1}: {wrong}") from None
    if not found.harts:
        raise Unusable(f"{source}: no row of a hart: give it what `{SALVAGE}` writes")
    walk.finish()
    if not any(counts["far"] for counts in found.harts.values()):
        found.counted = tuple(name for name in found.counted if name != "far")
    return found


class Walk:
    """Goes over the rows of a table of `salvage`."""

    def __init__(self, found):
        self.found, self.hart = found, None
        self.parts = {name: [] for name in ("hart", "kind", "first", "end")}
        self.marked = {name: [] for name in self.parts}

    def take(self, row):
        kind = row["kind"]
        if kind in ("bytes", "strangers", "all"):
            return self.take_sum(kind, row)
        if kind == "hart":
            return self.begin(row)
        if number(row, "hart") != self.hart:
            raise ValueError("no row of its hart before it")
        if kind == "stretch":
            first, last = number(row, "number"), number(row, "last")
            if last < first:
                raise ValueError("the last number is below the first")
            self.counts["rows"] += number(row, "count")
            self.counts["stretches"] += 1
            if first != self.far:
                self.reach(first)
                self.put("stretch", first, last + 1)
        elif kind == "gap":
            self.gap += number(row, "count")
            self.counts["missing"] += number(row, "count")
            self.found.gaps.append(number(row, "count"))
        elif kind in ("bad", "doubtful", "alone", "far"):
            self.take_one(kind, row)
        elif kind in ("copies", "late"):
            self.counts[kind] += number(row, "count")
        elif kind != "mode":
            raise ValueError("the kind is none that a table of `salvage` has")

    def begin(self, row):
        self.finish()
        self.hart, self.at, self.gap, self.doubted, self.far = number(row, "hart"), 0, 0, 0, None
        self.counts = self.found.harts.setdefault(self.hart, Counter())
        if row["closed"] not in ("yes", "no"):
            raise ValueError("closed is neither yes nor no")
        self.found.closed[self.hart], self.found.modes[self.hart] = row["closed"], row["mode"]

    def take_one(self, kind, row):
        """A number that has a row of its own. Where it is alone or far, it is not believed, and not on the axis."""
        at = number(row, "number")
        self.counts[kind] += 1
        if kind == "bad":
            self.found.reasons[reason(row["reason"])] += 1
        if kind in ("bad", "doubtful"):
            self.reach(at)
            self.put(kind, at, at + 1)
            self.doubted = int(kind == "doubtful")
        elif kind == "far":
            self.far = at
        for name in ("offset", "second"):
            if row[name]:
                self.mark(self.hart, kind, offset(row, name), MOST_OF_MESSAGE)

    def take_sum(self, kind, row):
        self.finish()
        if kind == "bytes":
            self.found.bytes += number(row, "count")
            self.found.byte_runs += 1
            self.mark(NO_HART, "none", offset(row, "offset"), number(row, "count"))
        elif kind == "strangers":
            self.found.strangers = number(row, "count")
        else:
            self.found.totals[row["reason"]] = number(row, "count")

    def reach(self, number):
        """Of the numbers up to this one those are missing that the gaps count, and the rest was passed over."""
        between = self.at + max(self.gap - self.doubted, 0)
        self.put("gap", self.at, min(between, number))
        self.put("passed", between, number)
        self.at, self.gap, self.doubted = number, 0, 0

    def put(self, kind, first, end):
        if end > first:
            for name, value in zip(self.parts, (self.hart, KINDS.index(kind), first, end)):
                self.parts[name].append(value)
            self.at = max(self.at, end)

    def mark(self, hart, kind, first, count):
        for name, value in zip(self.marked, (hart, KINDS.index(kind), first, first + count)):
            self.marked[name].append(value)

    def finish(self):
        """The rows of a hart end; what is missing after its last number is where the axis ends."""
        if self.hart is not None:
            self.put("gap", self.at, self.at + self.gap)
        for parts, into in ((self.parts, self.found.strips), (self.marked, self.found.marked)):
            into.take(**{name: numpy.array(values, numpy.int64) for name, values in parts.items()})
            for values in parts.values():
                values.clear()
        self.hart = None


def number(row, name):
    if not tables.is_number(row[name]):
        raise ValueError(f"{name} is not a number")
    return tables.number_of(row[name])


def offset(row, name):
    if not tables.is_offset(row[name]):
        raise ValueError(f"{name} is no offset")
    return int(row[name], 16)


def reason(text):
    """Why a message is bad, of all that are so for the same cause."""
    return "closing, but a greater number came" if text.startswith("closing, but number ") else text


def by_offset(source, show):
    """Of a table of `list --salvage`: each hart over the bytes of the file."""
    far = ("far",) if "far" in source.columns() else ()
    found = Salvaged("byte", counted=tuple(name for name in COUNTS if name != "far" or far))
    words = "kind", "treatment", "reason", "closed", "late", "offset", *far
    numbers = "hart", "number", "added", "bytes"
    rows = Parts("hart", "number", "treatment", "added", "offset", "end", "far")
    closed = set()
    for block in tables.blocks(source, LIST, words, numbers, show, may_quote=True):
        take_rows(found, rows, closed, block, {name: block.numbers(name) for name in numbers}, bool(far))
    columns = {name: rows.whole(name) for name in rows.parts}
    columns["end"] = ends(columns["offset"], columns["end"])
    found.strips.take(kind=kinds_of(columns), first=columns["offset"], end=columns["end"], hart=columns["hart"])
    order = numpy.argsort(columns["hart"], kind="stable")
    columns = {name: column[order] for name, column in columns.items()}
    harts, starts = numpy.unique(columns["hart"], return_index=True)
    for hart, start, end in zip(harts.tolist(), starts.tolist(), [*starts[1:].tolist(), len(order)]):
        if hart != NO_HART:
            found.harts.setdefault(hart, Counter())
            found.closed[hart] = "yes" if hart in closed else "no"
            count_hart(found, hart, {name: column[start:end] for name, column in columns.items()})
    return found


def take_rows(found, rows, closed, block, numbers, has_far):
    kinds, treatments = block.words("kind", ("message", "bytes")), block.words("treatment", (*TREATMENTS, "stranger"))
    is_message = kinds == 0
    is_refused = kinds < 0
    is_plain = is_refused | (is_message & (block.codes("treatment") == tables.NONE))
    if is_plain.any():
        raise Unusable(f"{block.path}: a table of `list` without --salvage: {WANTED}")
    block.refuse(is_message & (treatments < 0), "the treatment is none that a message has")
    block.refuse(is_message & ((numbers["hart"] < 0) | (numbers["number"] < 0)), "no hart or no number")
    block.refuse(~is_message & (numbers["bytes"] < 0), "no count of bytes")
    offsets = block.places("offset")
    block.refuse(offsets < 0, "no offset")
    is_stranger = treatments == len(TREATMENTS)
    found.strangers += int(is_stranger.sum())
    found.bytes += int(numbers["bytes"][~is_message].sum())
    found.byte_runs += int((~is_message).sum())
    of_hart = is_message & ~is_stranger
    for hart in numpy.unique(numbers["hart"][of_hart & (block.words("closed", ("yes",)) == 0)]).tolist():
        closed.add(hart)
    is_late = of_hart & (block.words("late", ("yes",)) == 0)
    for hart, count in zip(*numpy.unique(numbers["hart"][is_late], return_counts=True)):
        found.harts.setdefault(int(hart), Counter())["late"] += int(count)
    texts, codes = block.texts("reason"), block.codes("reason")
    for code, count in zip(*numpy.unique(codes[codes >= 0], return_counts=True)):
        found.reasons[reason(texts[code])] += int(count)
    is_far = (block.words("far", ("yes",)) == 0) if has_far else numpy.zeros(len(kinds), bool)
    rows.take(hart=numpy.where(of_hart, numbers["hart"], NO_HART), number=numbers["number"], treatment=treatments,
              added=numpy.maximum(numbers["added"], 0), offset=offsets, far=is_far.astype(numpy.int64),
              end=offsets + numpy.where(is_message, MOST_OF_MESSAGE, numbers["bytes"]))


def ends(offsets, most):
    """Where each row ends: where the next begins, or as far as it can reach."""
    following = numpy.append(offsets[1:], numpy.iinfo(numpy.int64).max)
    return numpy.minimum(numpy.where(following > offsets, following, most), most)


def kinds_of(columns):
    """Of each row what is shown of it, as a place in KINDS."""
    shown = [KINDS.index(kind) for kind in (*TREATMENTS.values(), "none", "none")]  # the last of what has no treatment
    kinds = numpy.array(shown)[columns["treatment"]]
    return numpy.where((columns["hart"] != NO_HART) & (columns["far"] == 1), KINDS.index("far"), kinds)


def count_hart(found, hart, rows):
    """Counts the messages of a hart, and finds its stretches and gaps in the order of the numbers."""
    counts, names = found.harts[hart], list(TREATMENTS)
    of = {name: rows["treatment"] == at for at, name in enumerate(names)}
    is_far = rows["far"] == 1
    counts["rows"] = int(rows["added"].sum())
    counts["decoded"], counts["passed"] = (int((of[name] & ~is_far).sum()) for name in ("taken", "passed"))
    for name, into in (("bad", "bad"), ("alone", "alone"), ("copy", "copies")):
        counts[into] = int(of[name].sum())
    counts["far"] = int(is_far.sum())
    counts["stretches"] = int((is_far & (rows["added"] > 0)).sum())
    counts["doubtful"] = len(numpy.unique(rows["number"][of["doubtful"]]))
    is_believed = ~(of["alone"] | of["copy"] | is_far)
    if counts["alone"] and (sure := of["taken"] | of["passed"]).any():  # no gap is counted above the end
        is_believed &= rows["number"] <= rows["number"][sure].max()
    numbers, first = numpy.unique(rows["number"][is_believed], return_index=True)
    kept = {name: column[is_believed][first] for name, column in rows.items()}
    if not len(numbers):
        return
    doubtful = kept["treatment"] == names.index("doubtful")
    missing = numpy.diff(numbers, prepend=-1) - 1
    gaps = missing + numpy.concatenate([[False], doubtful[:-1]])
    counts["missing"] = int(gaps.sum())
    found.gaps += gaps[gaps > 0].tolist()
    at = kept["offset"][missing > 0]
    of_gaps = numpy.full(len(at), KINDS.index("gap"))
    found.strips.take(hart=numpy.full(len(at), hart), kind=of_gaps, first=at, end=at + 1)
    counts["stretches"] += stretches(kept["treatment"] == names.index("taken"), missing, kept["added"])


def stretches(is_taken, missing, added):
    """How many runs of decoded messages, with no number missing in them, add a row."""
    begins = is_taken & ~(numpy.concatenate([[False], is_taken[:-1]]) & (missing == 0))
    run = numpy.cumsum(begins)[is_taken]
    return int(numpy.count_nonzero(numpy.bincount(run, added[is_taken]))) if len(run) else 0
