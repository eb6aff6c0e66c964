"""What `audit --format csv` says: the fate of each message, the runs of lost numbers, and a row for each hart."""
from dataclasses import dataclass, field

import numpy

from recording.unusable import Unusable
from paging import tables

MAKER = "audit --format csv"
WORDS = "kind", "fate", "verdict"
COUNTS = "sent", "came", "lost", "repeated", "late", "changed", "strange", "runs", "longest_run", "most_late"
NUMBERS = "place", "hart", "number", "last", "by"
MISSING = "missing"  # of the lost ones those in whose place no changed one came, where the table has it
KINDS = "message", "bytes", "run", "exchanged", "hart", "all", "result"
FATES = "skips", "late", "repeat", "changed", "stranger", "extra"
DIFFER = "headers differ"
VERDICTS = "whole", "not whole"
SUMMED = "sent", "came", "lost", "repeated", "late", "changed", "strange", "extra"


class Parts:
    """Arrays that come in parts, by names."""

    def __init__(self, *names):
        self.parts = {name: [numpy.empty(0, numpy.int64)] for name in names}

    def take(self, **more):
        for name, part in more.items():
            if len(part):
                self.parts[name].append(part)

    def whole(self, name):
        self.parts[name] = [numpy.concatenate(self.parts[name])]
        return self.parts[name][0]


@dataclass
class Audited:
    """An audit: `total` messages in RECEIVED, the places of those with each fate, and the rows of the harts."""

    total: int = 0
    verdict: str = ""
    headers_differ: bool = False
    harts: list = field(default_factory=list)  # a dict for each hart, its counts, None where there is none, and its verdict
    all: dict = field(default_factory=dict)  # the sums over the harts
    places: Parts = field(default_factory=lambda: Parts(*FATES))
    harts_of: Parts = field(default_factory=lambda: Parts(*FATES))  # of each place the message's hart, -1 where it has none
    skips: Parts = field(default_factory=lambda: Parts("hart", "number", "place"))
    runs: Parts = field(default_factory=lambda: Parts("hart", "number", "last"))
    late_by: Parts = field(default_factory=lambda: Parts("by"))
    byte_runs: int = 0
    strange_bytes: int = 0
    strangers: int = 0  # of whatever hart
    counts: tuple = COUNTS
    exchanged: list = field(default_factory=list)  # the harts of which messages of another came

    @property
    def is_summary(self):
        """Whether messages and runs were left out."""
        has_rows = any(len(self.places.whole(fate)) for fate in FATES) or len(self.runs.whole("hart"))
        return not has_rows and any(self.all[name] for name in SUMMED[2:])


def read(source, show=None):
    """The audit in a table."""
    found = Audited(counts=COUNTS + (MISSING,) * (MISSING in source.columns()))
    for block in tables.blocks(source, MAKER, WORDS, (*NUMBERS, *found.counts), show):
        take(found, block)
    if not found.verdict:
        raise Unusable(f"{source}: no row of the result: the table is cut short")
    past = max(int(found.places.whole(fate).max(initial=-1)) for fate in FATES)
    if past >= found.total:
        raise Unusable(f"{source}: place {past} is past the {found.total} messages of the result")
    sums = {name: sum(row[name] or 0 for row in found.harts) for name in SUMMED}
    found.all = sums | {"strange": max(sums["strange"], found.strangers)}
    return found


def take(found, block):
    """Takes the rows of a block."""
    kinds = block.words("kind", KINDS)
    block.refuse(kinds < 0, "the kind is none that an audit has")
    numbers = {name: block.numbers(name) for name in (*NUMBERS, *found.counts)}
    ended = numpy.flatnonzero(kinds == KINDS.index("result"))
    after = numpy.arange(len(kinds)) > (ended[0] if len(ended) else len(kinds))
    block.refuse(after | bool(found.verdict), "a row after the result")
    take_messages(found, block, kinds == KINDS.index("message"), numbers)
    take_runs(found, block, kinds == KINDS.index("run"), numbers)
    take_sums(found, block, kinds, numbers)


def take_messages(found, block, is_message, numbers):
    fates = block.words("fate", FATES)
    block.refuse(is_message & (fates < 0), "the fate is none that a message has")
    block.refuse(is_message & (numbers["place"] < 0), "no place")
    has_by = (fates == FATES.index("skips")) | (fates == FATES.index("late"))
    block.refuse(is_message & has_by & (numbers["by"] < 1), "by is not 1 or more")
    for place, fate in enumerate(FATES):
        found.places.take(**{fate: numbers["place"][is_message & (fates == place)]})
        found.harts_of.take(**{fate: numbers["hart"][is_message & (fates == place)]})
    is_late = is_message & (fates == FATES.index("late"))
    found.late_by.take(by=numbers["by"][is_late])
    is_skip = is_message & (fates == FATES.index("skips"))
    block.refuse(is_skip & ((numbers["hart"] < 0) | (numbers["number"] < 0)), "no hart or no number")
    found.skips.take(**{name: numbers[name][is_skip] for name in ("hart", "number", "place")})


def take_runs(found, block, is_run, numbers):
    block.refuse(is_run & ((numbers["hart"] < 0) | (numbers["number"] < 0)), "no hart or no number")
    block.refuse(is_run & (numbers["last"] < numbers["number"]), "the last number is below the first")
    found.runs.take(**{name: numbers[name][is_run] for name in ("hart", "number", "last")})


def take_sums(found, block, kinds, numbers):
    """Takes the rows of harts, of all and of the result."""
    verdicts = block.words("verdict", VERDICTS)
    found.exchanged += numbers["hart"][kinds == KINDS.index("exchanged")].tolist()
    is_sum = kinds >= KINDS.index("hart")
    block.refuse(is_sum & (verdicts < 0), "the verdict is neither `whole` nor `not whole`")
    block.refuse((kinds == KINDS.index("hart")) & (numbers["hart"] < 0), "no hart")
    is_counted = kinds == KINDS.index("hart")
    block.refuse(is_counted & ((numbers["sent"] < 0) | (numbers["came"] < 0) | (numbers["lost"] < 0)), "a count is lacking")
    block.refuse((kinds == KINDS.index("result")) & (numbers["place"] < 0), "no count of messages")
    for place in numpy.flatnonzero(kinds == KINDS.index("hart")):
        row = {
            name: int(numbers[name][place]) if numbers[name][place] >= 0 else None for name in ("hart", *found.counts)
        }
        found.harts.append(row | strange(row) | {"verdict": VERDICTS[verdicts[place]]})
    differ = block.words("fate", (DIFFER,)) == 0
    for place in numpy.flatnonzero(kinds == KINDS.index("result")):
        found.total, found.verdict = int(numbers["place"][place]), VERDICTS[verdicts[place]]
        found.strange_bytes, found.byte_runs = (max(int(numbers[name][place]), 0) for name in ("by", "runs"))
        found.strangers = max(int(numbers["strange"][place]), 0)
        found.headers_differ = bool(differ[place])


def strange(row):
    """The messages of a hart that SENT has not: strangers, or, where numbers are not looked at, extra ones."""
    is_numbered = row["repeated"] is not None
    return {"strange": row["strange"] if is_numbered else None, "extra": None if is_numbered else row["strange"]}


def losses(found):
    """Before which place of RECEIVED each run of lost numbers is missing, and how many numbers it has. A run lies in one
    skip: that of the first message in order of its hart whose number is greater. What was lost after the last message of
    its hart is missing at the end."""
    harts, numbers, places = (found.skips.whole(name) for name in ("hart", "number", "place"))
    order = numpy.lexsort((numbers, harts))
    harts, numbers, places = harts[order], numbers[order], places[order]
    runs, first, last = (found.runs.whole(name) for name in ("hart", "number", "last"))
    before = numpy.full(len(runs), found.total, numpy.int64)
    for hart in numpy.unique(runs):
        start, end = numpy.searchsorted(harts, [hart, hart + 1])
        if start == end:
            continue
        mine = runs == hart
        at = start + numpy.searchsorted(numbers[start:end], last[mine], "right")
        before[mine] = numpy.where(at < end, places[numpy.minimum(at, end - 1)], found.total)
    return before, last - first + 1
