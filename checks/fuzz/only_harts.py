"""Cases of runs over some harts of a capture, `--only A-B`."""

import collections

# What is done with some harts of a capture: a case of another kind, and the first and the last of these harts.
Case = collections.namedtuple("Case", "kind case only")

KINDS = ("captures", "captures", "lists", "salvages", "treated", "dumps", "audits", "unnumbered", "live", "comparisons")


def any_range(random, harts):
    """The first and the last of some harts, most of them of so many."""
    first = random.choice((*range(harts + 1), *range(harts), random.randrange(1024)))
    return first, min(1023, random.choice((first, first, first + 1, harts, 1023)) if random.randrange(8) else first + 2)


def case(random, harts, kind, inner):
    """A case of another kind, over some harts; of a comparison with the logs of these, or with others."""
    if kind != "comparisons":
        return Case(kind, inner, ordered(any_range(random, harts)))
    asked, capture, logs = inner
    only = ordered(any_range(random, min(len(logs), 8)))
    own = logs[only[0] : only[1] + 1]
    return Case(kind, (asked, capture, own if own and random.randrange(8) else logs), only)


def ordered(only):
    return min(only), max(only)


def words_of(random, only):
    """The argument that asks for harts, in some spelling."""
    first, last = only
    zeros = random.choice(("", "", "0", "000"))
    if first == last and random.randrange(2):
        return ["--only", f"{zeros}{first}"]
    return ["--only", f"{first}-{zeros}{last}"]
