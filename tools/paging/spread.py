"""Counts over places, and in classes of sizes."""
import numpy

MOST_BINS = 240  # over the places of RECEIVED
MOST_PARTS = 20  # of the small table that says the same


def bins(total, most=MOST_BINS):
    """How many bins there are over so many places, and how many places each has."""
    width = max(-(-total // most), 1)
    return max(-(-total // width), 1), width


def over_places(places, total, weights=None, most=MOST_BINS):
    """How many are at the places of each bin; what is past the last place is in the last bin."""
    count, width = bins(total, most)
    return numpy.bincount(numpy.minimum(places // width, count - 1), weights, count)


def in_classes(values, weights=None):
    """How many values are 0, 1, 2, 3 to 4, 5 to 8 and so on: the names of the classes from the first to the last that has a
    value, and the counts."""
    edges = numpy.concatenate([[0], 1 << numpy.arange(63, dtype=numpy.int64), [numpy.iinfo(numpy.int64).max]])
    places = numpy.searchsorted(edges, values, "left")
    counts = numpy.bincount(places, weights, len(edges))
    used = numpy.flatnonzero(numpy.bincount(places, None, len(edges)))
    if not len(used):
        return [], counts[:0]
    part = slice(used[0], used[-1] + 1)
    names = [class_name(int(edges[place - 1]) + 1 if place else 0, int(edge)) for place, edge in enumerate(edges)]
    return names[part], counts[part]


def class_name(first, last):
    return f"{last:,}" if first == last else f"{first:,} to {last:,}"


def least_of_share(values, share):
    """The least value that so large a share of the values does not pass."""
    ordered = numpy.partition(values, max(-(-len(values) * share // 100) - 1, 0))
    return int(ordered[max(-(-len(values) * share // 100) - 1, 0)])
