"""Where each hart was over its rows, by the table of `tools/timeline --strip`."""
import csv
from dataclasses import dataclass

import numpy

from recording.unusable import Unusable

HEADS = ["hart", "first", "last", "function", "rows"]


@dataclass
class Followed:
    """Of each hart the rows at which parts of it begin and where the last one ends, and the function of each part."""

    harts: dict


def read(path):
    harts = {}
    with open(path, newline="", encoding="utf-8", errors="replace") as file:
        table = csv.reader(file)
        if next(table, None) != HEADS:
            raise Unusable(f"{path}: line 1: no table of `tools/timeline --strip`")
        for row in table:
            if len(row) != len(HEADS) or not all(part.isdigit() for part in (*row[:3], row[4])):
                raise Unusable(f"{path}: line {table.line_num}: no row of `tools/timeline --strip`")
            edges, names = harts.setdefault(int(row[0]), ([int(row[1])], []))
            edges.append(int(row[2]) + 1)
            names.append(row[3])
    if not harts:
        raise Unusable(f"{path}: no row: give it what `tools/timeline --strip` writes")
    return Followed({hart: (numpy.array(edges), names) for hart, (edges, names) in harts.items()})
