"""When messages came, by lines that end with @TIME."""
import re
from array import array
from collections import defaultdict
from dataclasses import dataclass

import numpy

from paging import tables
from recording.unusable import Unusable

SEPARATED = re.compile(r"[ \t,]+")
WANTED = "`tools/unwrap --times` writes it"


@dataclass
class Timed:
    """Of each hart the times of its messages in seconds after the first message of all, in order."""

    harts: dict
    untimed: int  # lines without a time

    @property
    def end(self):
        return max(float(times[-1]) for times in self.harts.values())

    def silence(self, hart):
        """The longest silence of a hart, from when on and how long: between two of its messages, before the first or
        after the last."""
        times = numpy.concatenate([[0.0], self.harts[hart], [self.end]])
        lengths = numpy.diff(times)
        at = int(lengths.argmax())
        return float(times[at]), float(lengths[at])


def read(path, ticks):
    """The times of lines for `capture`, of which a second has so many."""
    found, first, untimed = defaultdict(lambda: array("d")), None, 0
    with open(path, encoding="ascii", errors="replace") as file:
        for place, line in enumerate(file, 1):
            line = line.strip()
            if not line or line.startswith("#"):
                continue
            hart, *others = SEPARATED.split(line)
            if not tables.is_number(hart) or not others:
                raise Unusable(f"{path}: line {place}: no line of a hart, a payload and @TIME")
            if not others[-1].startswith("@"):
                untimed += 1
                continue
            time = time_of(others[-1][1:])
            if time is None:
                raise Unusable(f"{path}: line {place}: {others[-1]} is no time")
            first = time if first is None else first
            found[int(hart)].append(time - first)
    if not found:
        raise Unusable(f"{path}: no line has @TIME: {WANTED}")
    least = min(min(times) for times in found.values())
    return Timed({hart: (numpy.sort(numpy.array(found[hart])) - least) / ticks for hart in sorted(found)}, untimed)


def time_of(text):
    """A time, an integer or with a decimal point, None where it is none."""
    return int(text) if tables.is_number(text) else float(text) if re.fullmatch(r"[0-9]+\.[0-9]+", text) else None
