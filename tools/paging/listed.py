"""How many rows of a log one lost message takes away, by the table of `list --format csv`."""
from dataclasses import dataclass

import numpy

from paging import tables
from recording.unusable import Unusable

MAKER = "list --format csv"
WORDS, NUMBERS = ("kind", "packet"), ("hart", "number", "added")
KINDS, PACKETS = ("message", "refused", "incomplete"), ("sync",)
WANTED = f"give it what `{MAKER}` writes of SENT"


@dataclass
class Listed:
    """Of each message of each hart, in the order of their numbers, the rows that its loss takes away."""

    harts: numpy.ndarray
    taken: numpy.ndarray
    rows: numpy.ndarray  # of its hart before each

    def rows_lost(self, hart, first, last):
        """From which row of a hart to before which the loss of the messages from one number to another reaches."""
        start, end = numpy.searchsorted(self.harts, [hart, hart + 1])
        if start + first >= end:
            return None
        at = min(start + last, end - 1)
        return int(self.rows[start + first]), int(self.rows[at] + self.taken[at])

    def mean_of(self, hart):
        """The mean of a hart, None where it has no message."""
        start, end = numpy.searchsorted(self.harts, [hart, hart + 1])
        return float(self.taken[start:end].mean()) if end > start else None


def read(path, show=None):
    """The rows that each message of a list takes away where it alone is lost."""
    source = tables.Source(path)
    treatment = ("treatment",) if "treatment" in source.columns() else ()
    harts, added, syncs = [], [], []
    for block in tables.blocks(source, MAKER, (*WORDS, *treatment), NUMBERS, show, may_quote=True):
        if treatment and block.texts("treatment"):
            raise Unusable(f"{path}: a table of `list --salvage`: {WANTED}")
        columns = {name: block.numbers(name) for name in NUMBERS}
        kinds = block.words("kind", KINDS)
        block.refuse(kinds > 0, f"the list stops here, at a message that is refused: {WANTED}")
        is_message = kinds == 0
        block.refuse(is_message & ((columns["hart"] < 0) | (columns["number"] < 0)), "no hart or no number")
        harts.append(columns["hart"][is_message].astype(numpy.int32))
        added.append(numpy.maximum(columns["added"][is_message], 0))
        syncs.append(block.words("packet", PACKETS)[is_message] == 0)
    if not harts:
        return Listed(numpy.empty(0, numpy.int32), numpy.empty(0, numpy.int64), numpy.empty(0, numpy.int64))
    if not any(sync.any() for sync in syncs) and any(part.any() for part in added):
        raise Unusable(f"{path}: no message is a sync")
    return rows_taken(numpy.concatenate(harts), numpy.concatenate(added), numpy.concatenate(syncs))


def test(path, listed, found):
    """Refuses a list of another capture than the one that was sent."""
    counts = dict(zip(*(part.tolist() for part in numpy.unique(listed.harts, return_counts=True))))
    for row in found.harts:
        count = counts.get(row["hart"], 0)
        if count != row["sent"]:
            raise Unusable(
                f"{path}: hart {row['hart']} has {count:,} messages, and {row['sent']:,} were sent: {WANTED}"
            )


def rows_taken(harts, added, syncs):
    """What is added from each message on is lost up to the next sync of its hart, or to the hart's end. The sync's own event
    is kept; what it adds before that, of packets that waited, is lost too. The messages of a hart are in order."""
    order = numpy.argsort(harts, kind="stable")
    harts, added, syncs = harts[order], added[order], syncs[order]
    count = len(harts)
    before = numpy.concatenate([[0], numpy.cumsum(added)])  # events before each message, over all harts
    ends = numpy.searchsorted(harts, harts, "right")  # where each message's hart ends
    at = numpy.where(syncs, numpy.arange(count), count)
    following = numpy.append(numpy.minimum.accumulate(at[::-1])[::-1], count)[1:]
    has_sync = following < ends
    stops = numpy.where(has_sync, following, ends)
    lost_at_sync = numpy.where(has_sync, numpy.maximum(numpy.append(added, 0)[stops] - 1, 0), 0)
    starts = before[numpy.searchsorted(harts, harts, "left")]  # events before each message's hart
    return Listed(harts, before[stops] - before[:-1] + lost_at_sync, before[:-1] - starts)
