"""The figures, each drawn for a wide and for a narrow window."""
import base64
import io

import matplotlib
import matplotlib.patches
import numpy
from matplotlib.figure import Figure
from matplotlib.ticker import FuncFormatter, MaxNLocator, NullLocator

# Colours of Okabe and Ito, which the colour-blind can tell apart.
BLACK, ORANGE, SKY, GREEN, BLUE, VERMILION, PURPLE = (
    "#000000", "#e69f00", "#56b4e9", "#009e73", "#0072b2", "#d55e00", "#cc79a7")
COLOURS = {"lost": VERMILION, "repeated": BLUE, "late": ORANGE, "changed": GREEN, "strange": PURPLE, "extra": SKY}
OF_LINES = BLUE, VERMILION, GREEN, PURPLE, ORANGE, SKY
OF_FUNCTIONS = BLUE, SKY, GREEN, ORANGE, PURPLE, "#f0e442", "#999933", "#332288"  # none is that of losses
OTHER = "#bbbbbb"
OF_SALVAGE = {"gap": VERMILION, "bad": PURPLE, "doubtful": ORANGE, "alone": BLUE, "far": GREEN, "no message": BLACK,
              "passed": "#f0e442", "copy": OTHER, "stretch": SKY}
MARKS = "o", "s", "^", "D", "v", "P"
DASHES = "-", "--", ":", "-."
MOST_NAMED = 12  # harts with a line and a name of their own
WIDE, NARROW = 9.0, 4.4  # inches
SETTINGS = {
    "svg.hashsalt": "tracebench", "font.size": 9, "axes.spines.top": False, "axes.spines.right": False,
    "axes.axisbelow": True, "axes.grid": True, "grid.color": "#dddddd", "axes.titlesize": 10, "axes.titlelocation": "left",
    "axes.titleweight": "bold",
}


def drawn(draw):
    """A figure as addresses of data, of the wide and of the narrow one."""
    return {"wide": address(draw, WIDE), "narrow": address(draw, NARROW)}


def address(draw, width):
    out = io.BytesIO()
    with matplotlib.rc_context(SETTINGS):
        draw(width).savefig(out, format="svg", dpi=150, metadata={"Date": None, "Creator": None})
    return "data:image/svg+xml;base64," + base64.b64encode(out.getvalue()).decode()


def write_picture(path, draw):
    """A figure as a file of PNG."""
    with matplotlib.rc_context(SETTINGS):
        draw(WIDE).savefig(path, format="png", dpi=100, metadata={"Software": None})


def thousands(value, _place=None):
    return f"{value:,.0f}"


def counted(axis, parts=5):
    """An axis of whole numbers."""
    axis.set_major_locator(MaxNLocator(parts, integer=True))
    axis.set_major_formatter(FuncFormatter(thousands))


def over_places(rows, width_of_bin, total):
    """Below one another, of each kind of fault how many messages have it in each bin of places."""
    def draw(width):
        figure = Figure(figsize=(width, max(0.7 + 1.35 * len(rows), 2.6)), layout="constrained")
        panels = figure.subplots(len(rows), 1, sharex=True, squeeze=False)[:, 0]
        for axes, (name, counts) in zip(panels, rows):
            edges = numpy.minimum(numpy.arange(len(counts) + 1) * width_of_bin, max(total, 1))
            axes.stairs(counts, edges, fill=True, color=COLOURS[name])
            axes.set_title(name)
            axes.set_xlim(0, max(total, 1))
            axes.set_ylim(0, None)
            counted(axes.yaxis, 3)
        counted(panels[-1].xaxis, 8 if width == WIDE else 4)
        figure.supylabel("messages for each " + ("place" if width_of_bin == 1 else f"{thousands(width_of_bin)} places"), fontsize=9)
        panels[-1].set_xlabel("place in RECEIVED (messages)")
        return figure
    return draw


def height_of(harts):
    """Of a strip for each hart: inches."""
    return min(0.16 * harts, 11.0) + 1.1


def by_hart(names, kinds, grid, width_of_bin, total, unit="place in RECEIVED (messages)", colours_of=COLOURS):
    """A strip of places for each hart, by the number of its kind: -1 where nothing befell."""
    def draw(width):
        figure = Figure(figsize=(width, height_of(len(names))), layout="constrained")
        axes = figure.subplots()
        colours = matplotlib.colors.ListedColormap([colours_of[kind] for kind in kinds])
        shown = numpy.ma.masked_less(grid, 0)
        edges = numpy.minimum(numpy.arange(grid.shape[1] + 1) * width_of_bin, max(total, 1))
        axes.pcolormesh(edges, numpy.arange(len(names) + 1) - 0.5, shown, cmap=colours, vmin=-0.5, vmax=len(kinds) - 0.5, rasterized=True)
        strips(axes, names)
        axes.set_xlim(0, max(total, 1))
        counted(axes.xaxis, 8 if width == WIDE else 4)
        axes.set_xlabel(unit)
        legend(axes, {kind: colours_of[kind] for kind in kinds}, 6 if width == WIDE else 3)
        return figure
    return draw


def over_time(names, rates, edges, silences):
    """The messages a second of all harts over time, and below that a strip of them for each hart with its longest
    silence. `silences` are (from, how long) in seconds."""
    def draw(width):
        figure = Figure(figsize=(width, 1.6 + height_of(len(names))), layout="constrained")
        above, below = figure.subplots(2, 1, sharex=True, height_ratios=[1.6, height_of(len(names))])
        above.stairs(rates.sum(axis=0), edges, fill=True, color=BLUE)
        above.set_title("messages a second, of all harts")
        above.set_ylim(0, None)
        shown = numpy.ma.masked_equal(rates, 0)
        mesh = below.pcolormesh(edges, numpy.arange(len(names) + 1) - 0.5, shown, cmap="viridis_r", rasterized=True)
        below.set_title("of each hart, and its longest silence in red")
        for at, (start, length) in enumerate(silences):
            below.broken_barh([(start, length)], (at - 0.12, 0.24), facecolors=VERMILION)
        strips(below, names)
        below.set_xlim(0, edges[-1])
        below.set_xlabel("seconds from the first message")
        figure.colorbar(mesh, ax=[above, below], fraction=0.04)
        return figure
    return draw


def strips(axes, names):
    """An axis of harts, the first at the top."""
    step = max(len(names) // 64, 1)
    axes.set_yticks(range(0, len(names), step), names[::step], fontsize=7)
    axes.set_ylim(len(names) - 0.5, -0.5)
    axes.set_ylabel("hart")
    axes.grid(False)
    for at in range(1, len(names)):
        axes.axhline(at - 0.5, color="#dddddd", linewidth=0.4)


def legend(axes, colours, columns):
    handles = [matplotlib.patches.Patch(color=colour, label=name) for name, colour in colours.items()]
    axes.legend(handles=handles, bbox_to_anchor=(0, 1), loc="lower left", ncols=columns, frameon=False, fontsize=8)


def functions(harts, colours, losses):
    """For each hart a strip of functions over its rows, and the rows that are lost below it. A hart is (name, edges, functions), and
    `losses` are [(first row, row behind)] of each."""
    def draw(width):
        figure = Figure(figsize=(width, 0.42 * len(harts) + 1.6), layout="constrained")
        axes = figure.subplots()
        most = max(int(edges[-1]) for _, edges, _ in harts)
        for at, (_, edges, names) in enumerate(harts):
            of_parts = [colours.get(name, OTHER) for name in names]
            axes.broken_barh(list(zip(edges[:-1], numpy.diff(edges))), (at - 0.42, 0.5), facecolors=of_parts, rasterized=True)
            lost = [(first, max(end - first, most / 400)) for first, end in losses[at]]
            axes.broken_barh(lost, (at + 0.12, 0.24), facecolors=VERMILION, rasterized=True)
        strips(axes, [name for name, _, _ in harts])
        axes.set_xlim(0, most)
        counted(axes.xaxis, 8 if width == WIDE else 4)
        axes.set_xlabel("row of the log")
        legend(axes, {**colours, "other": OTHER, "rows lost": VERMILION}, 5 if width == WIDE else 2)
        return figure
    return draw


def bars(names, panels, unit):
    """A bar for each class, in one panel or in several that have the same classes: (title, unit, counts, colour) each."""
    def draw(width):
        is_stacked = width == NARROW and len(panels) > 1
        rows, columns = (len(panels), 1) if is_stacked else (1, len(panels))
        height = (0.9 + 0.24 * len(names)) * rows
        figure = Figure(figsize=(width, max(height, 2.0 * rows)), layout="constrained")
        found = figure.subplots(rows, columns, sharey=True, squeeze=False).ravel()
        for place, (axes, (title, counts_of, counts, colour)) in enumerate(zip(found, panels)):
            axes.barh(names, counts, color=colour)
            for at, count in enumerate(counts):
                axes.annotate(thousands(count), (count, at), (3, 0), textcoords="offset points", va="center", fontsize=8)
            axes.set_title(title)
            axes.set_xlabel(counts_of)
            axes.set_xlim(0, max(counts) * (1.18 if width == WIDE else 1.3))
            axes.grid(axis="y", visible=False)
            counted(axes.xaxis, 4)
            if is_stacked or not place:
                axes.set_ylabel(unit)
                axes.invert_yaxis() if not place else None
        return figure
    return draw


def bits(found):
    """Bits a retirement against the period, a line for each hart."""
    harts = [hart for hart in found if hart != "all"]

    def draw(width):
        figure = Figure(figsize=(width, 3.6 if width == WIDE else 4.2), layout="constrained")
        axes = figure.subplots()
        many = len(harts) > MOST_NAMED
        for place, hart in enumerate(harts):
            line(axes, found[hart], **of_many(place, len(harts)) if many else of_few(place, hart))
        if "all" in found:
            line(axes, found["all"], color=BLACK, linewidth=2.4, label="all harts")
        axes.set_xscale("log", base=2)
        periods = sorted({period for hart in found.values() for period in hart})
        axes.set_xticks(periods, [str(period) for period in periods], rotation=0 if len(periods) < 8 else 60)
        axes.xaxis.set_minor_locator(NullLocator())
        axes.set_ylim(0, None)
        axes.set_title("bits a retirement")
        axes.set_xlabel("period (retirements between two synchronisations)")
        axes.set_ylabel("payload bits a retirement")
        if many:
            axes.annotate(f"{len(harts)} harts, from dark to light; black is all", (1, 1), xycoords="axes fraction", ha="right")
        elif len(found) > 1:
            axes.legend(frameon=False, ncols=2 if width == WIDE else 1)
        return figure
    return draw


def line(axes, points, **how):
    periods = sorted(points)
    axes.plot(periods, [points[period] for period in periods], **{"marker": "o", "markersize": 4, **how})


def of_few(place, hart):
    """A line that its colour, its mark and its dashes tell from others."""
    return {"color": OF_LINES[place % len(OF_LINES)], "marker": MARKS[place % len(MARKS)],
            "linestyle": DASHES[place // 3 % len(DASHES)], "label": f"hart {hart}", "linewidth": 1.4}


def of_many(place, count):
    return {"color": matplotlib.colormaps["cividis"](place / count), "marker": "", "linewidth": 0.7}
