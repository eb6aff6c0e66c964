"""What the program prints of a capture by the readings: of all its harts, or of those that `--only` asks for, of which `only`
has the first and the last."""

import alignments
import audits
import comparisons
import frames
import lists
import reading
import salvages
import treated


def no_hart(only, count):
    """The error where a capture has none of the harts."""
    return None if only is None or only[0] < count else f"no hart of {only[0]} to {only[1]}"


def counted(capture, harts):
    """How many harts a capture has: as its header counts, or so many."""
    try:
        header, _ = reading.start(capture)
    except reading.NoHeader:
        header = None
    return header[2] if header else harts


def decoded(program, harts, capture, only=None):
    """The status, the text and the error of `decode`."""
    if why := no_hart(only, counted(capture, harts)):
        return 1, "", why
    stop, decoders = reading.decode(program, harts, capture, only)
    chosen = [(hart, it) for hart, it in enumerate(decoders) if reading.is_chosen(only, hart)]
    text = "".join(f"hart {hart}\n{reading.log_text(it.events)}" for hart, it in chosen)
    if stop == "decoded":
        stop = next((f"hart {hart}: no closing packet" for hart, it in chosen if not it.closed), None)
    return (1 if stop else 0), text, stop


def part_text(part):
    if isinstance(part, int):
        return f"gap: {part} messages\n"
    return f"stretch: {len(part)} events\n{reading.log_text(part)}"


def lossy(program, harts, capture, only=None):
    """The status, the text and the error of `decode --lossy`."""
    if why := no_hart(only, counted(capture, harts)):
        return 1, "", why
    left, stop = reading.lossy(program, harts, capture, only)
    chosen = [(hart, it) for hart, it in enumerate(left) if reading.is_chosen(only, hart)]
    text = "".join(f"hart {hart}\n{''.join(map(part_text, it.parts))}" for hart, it in chosen)
    has_gap = any(isinstance(part, int) for _, it in chosen for part in it.parts)
    stop = stop or next((f"hart {hart}: no closing packet" for hart, it in chosen if not it.closed), None)
    return (1 if stop or has_gap else 0), text, stop


def dumped(capture, only=None):
    """The status, the text and the error of `dump`."""
    if why := no_hart(only, counted(capture, reading.MOST_HARTS)):
        return 1, "", why
    lines, end, bad = reading.dump(capture, only)
    return (1 if bad or end != "dumped" else 0), lines, None if end == "dumped" else end


def searched(capture, only=None):
    """The status, the text and the error of `dump --search`."""
    if why := no_hart(only, counted(capture, reading.MOST_HARTS)):
        return 1, "", why
    return frames.search(capture, only)


def salvaged_harts(capture, harts):
    """How many harts `salvage` finds."""
    header, found = frames.found(capture)
    return salvages.harts_of(found, header, harts)


def salvaged(program, harts, capture, is_summary, only=None):
    """The status, the text and the error of `salvage`."""
    if why := no_hart(only, salvaged_harts(capture, harts)):
        return 1, "", why
    return salvages.salvage(program, harts, capture, is_summary, only)


def listed(program, harts, capture, symbols, only=None, says_rows=False):
    """The status, the text and the error of `list`."""
    if why := no_hart(only, counted(capture, harts)):
        return 1, b"", why
    return lists.listing(program, harts, capture, symbols, only, says_rows)


def places_of(capture, is_salvaged):
    """The place of the message at each offset of a capture, among those that its lengths part or those that are found."""
    if is_salvaged:
        return {offset: place for place, (offset, _) in enumerate(frames.found(capture)[1])}
    places, (_, at, fault) = {}, frames.start(capture)
    for message in reading.messages(capture, at) if not fault else ():
        places[at] = len(places)
        at += 11 + len(message[2]) if not isinstance(message, str) else 0
    return places


def list_treated(program, harts, capture, symbols, only=None, says_rows=False):
    """The status, the text and the error of `list --salvage`."""
    if why := no_hart(only, salvaged_harts(capture, harts)):
        return 1, b"", why
    return treated.listing(program, harts, capture, symbols, only, says_rows)


def compared(program, harts, capture, logs, only=None, explain=False):
    """The status, the text and the error of `compare`."""
    if why := no_hart(only, counted(capture, harts or comparisons.DEFAULT_HARTS)):
        return 1, "", why
    return comparisons.compare(program, harts, capture, logs, only, explain)


def no_hart_of_sent(sent, only):
    """What comes where some harts are asked for and SENT is not whole, or has none of them; else nothing."""
    if only is None:
        return None
    try:
        _, own = audits.judged(sent)
    except reading.Refused as why:
        return 2, "", f"{audits.SENT}: {why}"
    why = no_hart(only, len(own))
    return (2, "", f"{audits.SENT}: {why}") if why else None


def audited(pair, is_summary, packets, only=None):
    """The status, the text and the error of `audit`."""
    return no_hart_of_sent(pair[0], only) or audits.audit(*pair, is_summary, packets, only)


def aligned(pair, answer, is_summary, packets, only=None):
    """The status, the output and the error of `audit --unnumbered`, by the output without a summary."""
    if refused := no_hart_of_sent(pair[0], only):
        return refused[0], b"", refused[2]
    try:
        status, text, error = alignments.audit(*pair, answer.decode(errors="replace"), is_summary, packets, only)
    except alignments.Unaligned as why:
        return None, f"{why}\n".encode(), None
    return status, text.encode(), error
