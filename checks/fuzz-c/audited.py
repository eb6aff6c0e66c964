"""What `tracebench audit` prints, put together from what tracebench_audit_all reports."""
import alignments
import audits
import tracebench

# What the text says of a message's fate.
FATES = {tracebench.FATE_STRANGER: "stranger", tracebench.FATE_REPEAT: "repeat", tracebench.FATE_LATE: "late",
         tracebench.FATE_CHANGED: "changed"}


def message_line(place, one, own, received):
    """The line of a message, or nothing where it has none."""
    what = FATES.get(one.fate, "in order")
    payload = audits.message_at(received, one.offset)[2] if what == "changed" else b""
    said = audits.words(own, (one.hart, one.number, payload), what, one.by)
    return f"message {place}: hart {one.hart} number {one.number}: {said}\n" if said else ""


def single_line(place, one):
    """The line of a message by payloads alone, or nothing where it has none."""
    said = {tracebench.FATE_STRANGER: ": stranger", tracebench.FATE_EXTRA: ": extra"}.get(one.fate)
    if one.fate == tracebench.FATE_IN_ORDER and one.by:
        said = f" number {one.number}: skips {one.by}"
    return f"message {place}: hart {one.hart}{said}\n" if said else ""


def text_of(found, sent, received, unnumbered, summary):
    """The text of an audit: the lines of messages, of runs of bytes and of lost numbers, which a summary has not, and the
    counts of each hart."""
    own, names = audits.judged(sent)[1], alignments.NAMES if unnumbered else audits.NAMES
    lines = ""
    if not summary:
        each = [single_line(place, one) if unnumbered else message_line(place, one, own, received)
                for place, one in enumerate(found.arrivals)]
        spans = [(one.offset, line) for one, line in zip(found.arrivals, each)]
        spans += [(run.offset, f"bytes: {run.count} at {run.offset:08x}\n") for run in found.runs]
        lines = "".join(line for _, line in sorted(spans))
        lines += "".join(audits.lost_lines(run.hart, [(run.first, run.last)]) for run in found.lost)
    rows = [(hart, {name: getattr(row if name in ("strange", "extra") else row.tally, name) for name in names},
             row.tally.whole, row.runs, row.longest, row.latest, row.exchanged and (row.exchanged_hart, row.exchanged))
            for hart, row in enumerate(found.rows)]
    ended, first = found.ended, found.ended.first if found.ended.has_first else None
    return lines + audits.row_lines(rows, names) + audits.ending(
        ended.strangers, ended.bytes, ended.byte_runs, ended.headers_differ, first, ended.whole)


def place_of(ended):
    """Where RECEIVED has no valid header."""
    return ("message", 0) if ended.header_fault else None


def refusal(refused):
    """With what the error line begins of a SENT that is refused."""
    if refused.status == 20:
        return f"{audits.SENT}: capture header is not valid"
    words = {16: "", 17: "", 96: "stranger", 97: "repeat", 98: f"gap, expected number {refused.expected}"}
    return f"{audits.SENT}: message {refused.row}: {words[refused.status]}"
