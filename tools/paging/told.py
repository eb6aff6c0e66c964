"""What the figures show, in words and in small tables: each figure as a dict with its title, its sentences, the heads and rows of
its table, and how it is drawn."""
from collections import Counter

import numpy

from paging import audited, figures, spread

ORDER = "lost", "changed", "repeated", "late", "strange", "extra"
MOST_STRIPS = 16  # harts whose functions are shown
MOST_FUNCTIONS = 40  # of the small table
KINDS = {"repeated": "repeat", "late": "late", "changed": "changed", "strange": "stranger", "extra": "extra"}


def count_of(count, one, many=None):
    """A count with its noun."""
    return f"{count:,} {one if count == 1 else many or one + 's'}"


def share(part, whole):
    """A part as percent, with a digit more where it is small."""
    if not whole:
        return "0 %"
    percent = 100 * part / whole
    return f"{percent:.1f} %" if percent >= 0.1 or not part else f"{percent:.2g} %"


def figure(name, title, sentences, heads, rows, draw):
    return {"name": name, "title": title, "sentences": sentences, "heads": heads, "rows": rows, "draw": draw}


def places(found):
    """Where messages were lost, repeated, late, changed, strange or extra."""
    before, counts = audited.losses(found)
    given = {"lost": (before, counts)} | {name: (found.places.whole(fate), None) for name, fate in KINDS.items()}
    used = {name: pair for name, pair in given.items() if len(pair[0])}
    if not used or not found.total:
        return None
    _, width = spread.bins(found.total)
    rows = [(name, spread.over_places(*pair[:1], found.total, pair[1])) for name, pair in used.items()]
    _, wide = spread.bins(found.total, spread.MOST_PARTS)
    parts = [spread.over_places(*pair[:1], found.total, pair[1], spread.MOST_PARTS) for pair in used.values()]
    sentences = [f"RECEIVED has {count_of(found.total, 'message')}. Each bar is of {count_of(width, 'place')}. "
                 "A lost message counts where it is missing: before the first message of its hart that came after it, or at the "
                 "last place."]
    sentences += [most_at(name, counts, width, found.total) for name, counts in rows]
    absent = [name for name in ("lost", "repeated", "late", "changed") if name not in used]
    if absent:
        sentences.append(f"No message is {', '.join(absent[:-1])}{' or ' if absent[1:] else ''}{absent[-1]}.")
    heads = ["places", *used]
    table = [[spread.class_name(at * wide, min((at + 1) * wide, found.total) - 1), *(f"{int(part[at]):,}" for part in parts)]
             for at in range(len(parts[0]))]
    return figure("places", "Where it happened", sentences, heads, table, figures.over_places(rows, width, found.total))


def most_at(name, counts, width, total):
    """Where most messages of a kind are."""
    at = int(numpy.argmax(counts))
    filled = int(numpy.count_nonzero(counts))
    most, last = int(counts[at]), min((at + 1) * width, total) - 1
    where = f"place {at * width:,}" if last == at * width else f"places {at * width:,} to {last:,}"
    return (f"{name.capitalize()}: {count_of(int(counts.sum()), 'message')}, in {filled} of {count_of(len(counts), 'bar')}, "
            f"the most at {where}: {most:,}.")


def by_hart(found):
    """What befell each hart at each place: in each bin the kind that comes first."""
    names = [row["hart"] for row in found.harts]
    if len(names) < 2 or not found.total:
        return None
    rows_of = {hart: at for at, hart in enumerate(names)}
    before, _ = audited.losses(found)
    given = {"lost": (found.runs.whole("hart"), before)}
    given |= {kind: (found.harts_of.whole(fate), found.places.whole(fate)) for kind, fate in KINDS.items()}
    given = {kind: pair for kind, pair in given.items() if numpy.isin(pair[0], names).any()}
    if not given:
        return None
    count, width = spread.bins(found.total)
    kinds = [kind for kind in ORDER if kind in given]
    grid = numpy.full((len(names), count), -1, numpy.int8)
    table = {hart: {} for hart in names}
    for at in range(len(kinds) - 1, -1, -1):
        harts, places = given[kinds[at]]
        for hart in numpy.unique(harts[numpy.isin(harts, names)]):
            mine = numpy.minimum(places[harts == hart], found.total - 1)
            grid[rows_of[int(hart)], mine // width] = at
            table[int(hart)][kinds[at]] = spread.class_name(int(mine.min()), int(mine.max()))
    hit = [hart for hart in names if table[hart]]
    several = f" Where several things befell a part, its colour is that of the first of: {', '.join(kinds)}." if len(kinds) > 1 else ""
    sentences = [f"Each strip is a hart, each part of it {count_of(width, 'place')}.{several}",
                 f"{len(hit):,} of {count_of(len(names), 'hart')} {'has' if len(hit) == 1 else 'have'} a fault" + (
                     f": hart {hit[0]}." if len(hit) == 1 else ".")]
    rows = [[f"hart {hart}", *(table[hart].get(kind, "") for kind in kinds)] for hart in hit]
    draw = figures.by_hart([str(name) for name in names], kinds, grid, width, found.total)
    return figure("by_hart", "Where it happened, by hart", sentences, ["hart", *(f"{kind}: first and last place" for kind in kinds)], rows, draw)


def functions(found, listed, followed):
    """Where the program was over the rows of each hart, above the rows that are lost."""
    if listed is None or followed is None:
        return None
    harts, first, last = (found.runs.whole(name) for name in ("hart", "number", "last"))
    losses = {hart: [] for hart in followed.harts}
    for hart, *run in zip(harts.tolist(), first.tolist(), last.tolist()):
        if hart in losses and (rows := listed.rows_lost(hart, *run)):
            losses[hart].append(rows)
    lost = {hart: rows_in(runs) for hart, runs in losses.items()}
    shown = sorted(sorted(losses, key=lambda hart: (-lost[hart], hart))[:MOST_STRIPS])
    counts = Counter()
    for hart in shown:
        edges, names = followed.harts[hart]
        for name, rows in zip(names, numpy.diff(edges).tolist()):
            counts[name] += rows
    colours = dict(zip((name for name, _ in counts.most_common(len(figures.OF_FUNCTIONS))), figures.OF_FUNCTIONS))
    sentences = ["Above, the function that most rows of each part of a hart are of; below it, in red, the rows that are lost with the "
                 "messages, up to the next synchronisation."]
    if len(shown) < len(losses):
        sentences.append(f"The {len(shown)} of {len(losses):,} harts that lost most rows are shown.")
    where = Counter()
    for hart in losses:
        where.update(functions_in(*followed.harts[hart], losses[hart]))
    if where:
        name, rows = where.most_common(1)[0]
        sentences.append(f"Most lost rows are of {name}: {rows:,} of {sum(where.values()):,}, by the function of each part.")
    table = [[name, f"{rows:,}", f"{where[name]:,}"] for name, rows in counts.most_common(MOST_FUNCTIONS)]
    draw = figures.functions([(str(hart), *followed.harts[hart]) for hart in shown], colours, [losses[hart] for hart in shown])
    return figure("functions", "Where the program was", sentences, ["function", "rows", "rows lost"], table, draw)


def rows_in(runs):
    """How many rows some runs of rows have, each row counted once."""
    count = reached = 0
    for first, end in sorted(runs):
        count += max(end - max(first, reached), 0)
        reached = max(reached, end)
    return count


def functions_in(edges, names, runs):
    """How many of the rows in some runs each function has."""
    found, reached = Counter(), 0
    for first, end in sorted(runs):
        first = max(first, reached)
        at = max(int(numpy.searchsorted(edges, first, "right")) - 1, 0)
        while at < len(names) and edges[at] < end:
            found[names[at]] += max(min(end, int(edges[at + 1])) - max(first, int(edges[at])), 0)
            at += 1
        reached = max(reached, end)
    return +found


def lateness(found):
    """How late the late ones are."""
    by = found.late_by.whole("by")
    if not len(by):
        return None
    names, counts = spread.in_classes(by)
    most, half, nearly = int(by.max()), spread.least_of_share(by, 50), spread.least_of_share(by, 99)
    shares = f"Half of them are late by at most {half:,}, 99 of 100 by at most {nearly:,}, the latest" if len(by) > 1 else "It is late"
    sentences = [f"{count_of(len(by), 'message')} came after a later one of the same hart. {shares} by {most:,}.",
                 f"A buffer of {count_of(most, 'message')} of a hart puts all in order again" + (
                     f", one of {nearly:,} all but one of a hundred." if nearly < most else ".")]
    rows = [[name, f"{int(count):,}"] for name, count in zip(names, counts)]
    draw = figures.bars(names, [("late messages", "late messages", counts, figures.COLOURS["late"])], "late by (messages)")
    return figure("lateness", "How late the late ones are", sentences, ["late by (messages)", "late messages"], rows, draw)


def runs(found):
    """Runs of lost messages by their length."""
    lengths = found.runs.whole("last") - found.runs.whole("number") + 1
    if not len(lengths):
        return None
    names, counts = spread.in_classes(lengths)
    _, lost = spread.in_classes(lengths, lengths)
    alone = int(numpy.count_nonzero(lengths == 1))
    sentences = [f"Lost: {count_of(int(lengths.sum()), 'message')}, in {count_of(len(lengths), 'run')}: {alone:,} of a single "
                 f"message, the longest of {int(lengths.max()):,}, {lengths.mean():,.1f} on average."]
    rows = [[name, f"{int(count):,}", f"{int(sum_):,}"] for name, count, sum_ in zip(names, counts, lost)]
    panels = [("runs", "runs", counts, figures.COLOURS["repeated"]),
              ("messages lost in them", "lost messages", lost, figures.COLOURS["lost"])]
    heads = ["length (messages)", "runs", "messages lost in them"]
    return figure("runs", "Runs of losses by length", sentences, heads, rows, figures.bars(names, panels, heads[0]))


def bits(found):
    """Bits a retirement against the period."""
    if not found:
        return None
    periods = sorted({period for hart in found.values() for period in hart})
    sentences = []
    for hart in [hart for hart in ("all",) if hart in found] or list(found)[:1]:
        points = found[hart]
        text = ", ".join(f"{points[period]:.3f} at period {period}" for period in sorted(points))
        sentences.append(f"{'All harts together' if hart == 'all' else f'Hart {hart}'}: {text}.")
    sentences.append("A longer period costs fewer bits, and a lost message takes more rows away.")
    rows = [[f"hart {hart}" if hart != "all" else "all", *(f"{points[at]:.3f}" if at in points else "" for at in periods)]
            for hart, points in found.items()]
    return figure("bits", "Bits a retirement against the period", sentences, ["hart", *(f"period {at}" for at in periods)],
                  rows, figures.bits(found))


def taken(listed):
    """How many rows one lost message takes away."""
    if listed is None or not len(listed.taken):
        return None
    names, counts = spread.in_classes(listed.taken)
    half, nearly = (spread.least_of_share(listed.taken, part) for part in (50, 99))
    sentences = [f"Where one of the {count_of(len(listed.taken), 'message')} of the list is lost, the rows up to the next "
                 f"synchronisation of its hart are lost with it: {listed.taken.mean():,.1f} on average, of half of the messages "
                 f"at most {half:,}, of 99 in 100 at most {nearly:,}, of none more than {int(listed.taken.max()):,}."]
    rows = [[name, f"{int(count):,}"] for name, count in zip(names, counts)]
    draw = figures.bars(names, [("messages by the rows they take away", "messages", counts, figures.BLUE)],
                        "rows lost with it")
    return figure("taken", "Rows that one lost message takes away", sentences, ["rows lost with it", "messages"], rows, draw)


def rates(timed):
    """Messages a second, and the longest silence of each hart."""
    if timed is None:
        return None
    names, span = list(timed.harts), timed.end
    edges = numpy.linspace(0, span, spread.MOST_BINS + 1) if span else numpy.array([0.0, 1.0])
    width = float(edges[1])
    counts = numpy.array([numpy.histogram(times, edges)[0] for times in timed.harts.values()])
    silences = [timed.silence(hart) for hart in names]
    total, worst = int(counts.sum()), max(range(len(names)), key=lambda at: silences[at][1])
    start, length = silences[worst]
    rate = f", {total / span:,.1f} a second" if span else ""
    sentences = [
        f"{count_of(total, 'message')} in {span:,.6g} s{rate}. Each bar is of {width:.3g} s.",
        f"Hart {names[worst]} has the longest silence: {length:,.6g} s, from {start:,.6g} s on.",
        "A silence is the time between two messages of a hart, before its first or after its last.",
    ]
    if timed.untimed:
        sentences.append(f"Lines without a time, which are not counted: {timed.untimed:,}.")
    rows = [[f"hart {hart}", f"{len(timed.harts[hart]):,}", f"{len(timed.harts[hart]) / span:,.1f}" if span else "",
             f"{counts[at].max() / width:,.1f}" if span else "", f"{silences[at][1]:,.6g}", f"{silences[at][0]:,.6g}"]
            for at, hart in enumerate(names)]
    heads = ["hart", "messages", "a second", "most a second in a bar", "longest silence (s)", "from (s)"]
    draw = figures.over_time([str(hart) for hart in names], counts / width, edges, silences)
    return figure("rates", "Messages over time", sentences, heads, rows, draw)
