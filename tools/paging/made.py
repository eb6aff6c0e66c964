"""The page: the verdict, the table of harts, and the figures with what they say in words."""
import os

import jinja2

from paging import figures, left, told

HERE = os.path.dirname(os.path.abspath(__file__))
MOST_WHOLE = 64  # rows of the table of harts that are shown without a scroll bar
NOTE = "“strange” messages are none of SENT, “late by” is the most that a message of the hart is late."
COUNTS = {"sent": "sent", "came": "came", "lost": "lost", "missing": "missing", "repeated": "repeated", "late": "late",
          "changed": "changed", "strange": "strange", "extra": "extra", "runs": "runs of losses",
          "longest_run": "longest run", "most_late": "late by"}


def page(found, listed, measured, compared, followed, timed, title):
    """The text of the page of an audit."""
    shown = [told.places(found), told.by_hart(found), told.functions(found, listed, followed), told.rates(timed),
             told.lateness(found), told.runs(found), told.taken(listed), told.bits(measured)]
    harts = hart_table(found, listed, compared)
    is_whole = found.verdict == "whole"
    return rendered(title, found.verdict, is_whole, summary(found, compared), harts, NOTE, ("whole",), shown)


def page_without_sent(found, timed, title):
    """The text of the page of what is left of a capture."""
    shown = [*left.shown_figures(found), told.rates(timed)]
    verdict, lines, harts = left.verdict(found), left.summary(found), left.hart_table(found)
    return rendered(title, verdict, found.is_whole, lines, harts, left.NOTE, left.GOOD, shown)


def rendered(title, verdict, is_good, lines, harts, note, good, shown):
    """The page of a verdict, of the lines below it, of the table of harts with its note and the words in it that are
    good, and of figures."""
    shown = [figure for figure in shown if figure]
    for figure in shown:
        figure["pictures"] = figures.drawn(figure["draw"])
    loader = jinja2.FileSystemLoader(HERE)
    template = jinja2.Environment(loader=loader, autoescape=True, trim_blocks=True, lstrip_blocks=True)
    heads, rows = harts
    return template.get_template("page.html").render(
        title=title, verdict=verdict, is_good=is_good, summary=lines, heads=heads, rows=rows, note=note, good=good,
        is_long=len(rows) > MOST_WHOLE, figures=shown)


def summary(found, compared):
    """The sentences below the verdict."""
    sums, harts = found.all, len(found.harts)
    lines = [f"{told.count_of(harts, 'hart')}: {told.count_of(sums['sent'], 'message')} sent, {sums['came']:,} came, "
             f"{sums['lost']:,} lost ({told.share(sums['lost'], sums['sent'])})."]
    others = [f"{sums[name]:,} {name}" for name in ("repeated", "late", "changed", "strange", "extra") if sums[name]]
    lines.append(f"Of those that came {', '.join(others)}." if others else "Those that came are what was sent, in order.")
    not_whole = [row for row in found.harts if row["verdict"] != "whole"]
    if not_whole and harts > 1:
        worst = max(not_whole, key=lambda row: row["lost"] / max(row["sent"], 1))
        lines.append(f"{len(not_whole):,} of {harts:,} harts are not whole" + (
            f"; hart {worst['hart']} lost the largest share, {told.share(worst['lost'], worst['sent'])}." if worst["lost"] else "."))
    if found.strange_bytes:
        lines.append(f"{told.count_of(found.strange_bytes, 'byte')} in {told.count_of(found.byte_runs, 'run')} are of no message.")
    if found.exchanged:
        harts = ", ".join(map(str, found.exchanged))
        lines.append(f"As those of hart {harts} came messages of another hart: look at the wiring of the sources.")
    if found.headers_differ:
        lines.append("The headers of SENT and RECEIVED differ.")
    if found.is_summary:
        lines.append("The audit is a summary (--summary), so where it happened is not shown.")
    if compared:
        harts, result = compared
        decoded, events = (sum(row[at] for row in harts.values()) for at in (1, 0))
        lines.append(f"`compare`: {decoded:,} of {events:,} rows of the logs are decoded ({told.share(decoded, events)}), {result}." + (
            "" if result == "whole" else " It stops at the first fault of any hart; `decode --lossy` goes on after lost messages."))
    return lines


def hart_table(found, listed, compared):
    """The heads of the table of harts and its rows, each cell with its text and what it is sorted by."""
    names = [name for name in COUNTS if any(row.get(name) is not None for row in found.harts)]
    heads = ["hart", "verdict", *(COUNTS[name] for name in names), "lost %"]
    heads += ["rows a loss costs"] if listed else []
    heads += ["rows", "rows decoded", "log"] if compared else []
    return heads, [hart_row(row, names, listed, compared) for row in found.harts]


def hart_row(row, names, listed, compared):
    cells = [cell(row["hart"]), (row["verdict"], row["verdict"]), *(cell(row[name]) for name in names)]
    part = 100 * row["lost"] / max(row["sent"], 1)
    cells.append((f"{part:.2f}", part))
    if listed:
        mean = listed.mean_of(row["hart"])
        cells.append(("", -1) if mean is None else (f"{mean:,.1f}", mean))
    if compared:
        events, decoded, verdict = compared[0].get(row["hart"], (None, None, ""))
        cells += [cell(events), cell(decoded), (verdict, verdict)]
    return cells


def cell(count):
    return ("", -1) if count is None else (f"{count:,}", count)
