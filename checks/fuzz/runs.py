"""Runs the built program `tracebench` over the cases of `fuzz`, and compares each run with what the readings say."""

import collections
import subprocess
import tempfile

import audits
import cases
import comparisons
import csv_tables
import explained
import line_texts
import list_tables
import lists
import live_audits
import measures
import memories
import only_harts
import printed
import reading
import salvages
import tables
from built import put

# What a run has to print, or a function that returns status, output and error by what it printed.
Run = collections.namedtuple("Run", "words status out error")


def texts(words, found):
    """A run that prints this, by its status, its text and its error."""
    status, text, error = found
    return Run(words, status, text if isinstance(text, bytes) else text.encode(), error)


def of_capture(maker, harts, capture, only=None, asked=()):
    """What comes of a capture: its logs, what is left of them where messages may be lost, and its dump. Like the others
    below it is of all harts, or of those from the first to the last of `only`, for which the words `asked` ask."""
    words = ["decode", "--base", f"{maker.program.base:x}", "--harts", str(harts), *asked, "image", "case"]
    yield texts(words, printed.decoded(maker.program, harts, capture, only))
    yield texts([*words, "--lossy"], printed.lossy(maker.program, harts, capture, only))
    yield texts(["dump", *asked, "case"], printed.dumped(capture, only))


def of_log(maker, _, text):
    """What comes of a log: whether it is legal, and its capture or the lines of it."""
    words = ["check", "--base", f"{maker.program.base:x}", "image", "case"]
    events = reading.read_log(text)
    if isinstance(events, str):
        yield Run(words, 2, b"", f"case: {events}")
    elif illegal := reading.first_illegal(maker.program, events):
        said = f"case: row {illegal[0]}: {illegal[1]}\n"
        yield Run(words, 2, said.encode(), None)
        names = ["--symbols", lists.SYMBOLS]
        yield Run([*words, *names], 2, said.encode(), None)
        said += explained.text(maker.program, events, illegal, lists.symbols_of(lists.FEW))
        yield Run([*words, *names, "--explain"], 2, said.encode(), None)
    else:
        yield Run(words, 0, b"case: legal, %d events\n" % len(events), None)
        yield encoded(maker, events)


def encoded(maker, events):
    """What `encode` makes of a few legal logs that are the same, in some form."""
    random = maker.random
    period, mode = random.choice((1, 3, 8, 1024, 0xFFFF)), random.choice(reading.MODES)
    harts, flags = random.choice((1, 1, 2, 3)), random.choice(([], [], ["--v1"], ["--hex"], ["--hex", "--v1"]))
    payloads = [payloads_of(maker, events, period, mode)] * harts
    if "--hex" in flags:
        out = hex_lines(payloads).encode()
    else:
        out = (b"" if flags else cases.header(mode, period, harts)) + messages_of(payloads)
    return Run(["encode", *flags, *options_of(maker, period, mode), "image"] + ["case"] * harts, 0, out, None)


def payloads_of(maker, events, period, mode):
    return [cases.payload_of(packet) for packet in cases.packets(maker.program, events, period, mode)]


def hex_lines(payloads, first=0):
    """The lines of `encode --hex`, of the payloads of each hart from the first on."""
    return "".join(
        f"{hart} {number} {it.hex()}\n" for hart, own in enumerate(payloads, first) for number, it in enumerate(own))


def messages_of(payloads, first=0):
    """The messages of `encode`, of the payloads of each hart from the first on."""
    return b"".join(cases.message(hart, *it) for hart, own in enumerate(payloads, first) for it in enumerate(own))


def options_of(maker, period, mode):
    return ["--base", f"{maker.program.base:x}", "--period", str(period)] + ["--full"] * (mode == reading.FULL)


def of_pair(maker, _, pair, only=None, asked=()):
    """What an audit of a pair of captures prints, as it is and in another form."""
    for flags in ([], maker.random.choice((["--packets"], ["--summary"], ["--packets", "--summary"]))):
        found = printed.audited(pair, "--summary" in flags, "--packets" in flags, only)
        yield texts(["audit", *flags, *asked, audits.SENT, audits.RECEIVED], found)


def of_unnumbered(maker, _, pair, only=None, asked=()):
    """What an audit of a pair of captures prints where its numbers are not looked at, as it is and in a summary."""
    packets = maker.random.choice(([], ["--packets"]))
    words = ["audit", "--unnumbered", *packets, *asked, audits.SENT, audits.RECEIVED]
    said = []

    def wanted(answer):
        said.append(answer)
        return printed.aligned(pair, answer, False, bool(packets), only)

    yield Run(words, None, wanted, None)
    yield Run([*words, "--summary"], None, lambda _: printed.aligned(pair, said[0], True, bool(packets), only), None)


def of_table(maker, _, pair):
    """What an audit of a pair of captures prints as a table, whole and in a summary: the rows of its lines of text. Its
    numbers are looked at or not."""
    packets = maker.random.choice(([], ["--packets"]))
    words = ["audit", *packets, audits.SENT, audits.RECEIVED, "--format"]
    for summary in ([], ["--summary"]):
        whole, text = (audits.audit(*pair, it, bool(packets)) for it in (False, bool(summary)))
        yield Run([*words, "text", *summary], text[0], text[1].encode(), text[2])
        yield Run([*words, "csv", *summary], None, table_of(text, whole, False), None)
    said = []

    def aligned_text(answer):
        said.append(answer)
        return printed.aligned(pair, answer, False, bool(packets))

    yield Run([*words, "text", "--unnumbered"], None, aligned_text, None)
    for summary in ([], ["--summary"]):
        whole, text = (printed.aligned(pair, said[0], it, bool(packets)) for it in (False, bool(summary)))
        decoded = [(status, lines.decode(), error) for status, lines, error in (text, whole)]
        yield Run([*words, "csv", "--unnumbered", *summary], None, table_of(*decoded, True), None)


def table_of(text, whole, unnumbered):
    """What a run has to be that prints the table of a run in text, by what it prints: the status and the error are those
    of the text. The whole text, which is no summary, says how many messages are taken. Where it is empty, SENT is
    refused."""
    def wanted(answer):
        try:
            if text[1] or answer:
                tables.check(answer, tables.rows_of(text[1], unnumbered, tables.taken(whole[1])))
        except csv_tables.NotTheText as why:
            return text[0], f"{why}\n".encode(), text[2]
        return text[0], answer, text[2]
    return wanted


def of_live(maker, _, pair, only=None, asked=()):
    """What a live audit of a pair of captures prints, with a small window, complete and in a summary."""
    window, packets = maker.random.randint(1, 8), maker.random.choice(([], ["--packets"]))
    words = ["audit", "--live", "--window", str(window), *packets, *asked, audits.SENT, audits.RECEIVED]
    for summary in ([], ["--summary"]):
        yield texts([*words, *summary], live_audits.audit(*pair, window, bool(summary), bool(packets), only))


def of_salvaged(maker, harts, capture, only=None, asked=()):
    """What is salvaged of a damaged capture, with a count of harts and without one, as text and as a table, and what `decode
    --lossy` prints of it."""
    words = ["--base", f"{maker.program.base:x}", *asked, "image", "case"]
    for count, flags in ((harts, ["--harts", str(harts)]), (None, [])):
        for summary in ([], ["--summary"]):
            found = printed.salvaged(maker.program, count, capture, bool(summary), only)
            yield texts(["salvage", *flags, *summary, *words], found)
        table = salvaged_table(maker, count, capture, found, only)
        for summary in ([], ["--summary"]):
            yield Run(["salvage", "--format", "csv", *flags, *summary, *words], None, table, None)
    yield texts(["decode", "--lossy", "--harts", str(harts), *words], printed.lossy(maker.program, harts, capture, only))


def salvaged_table(maker, harts, capture, found, only):
    """What a run has to be that prints a table, by the summary of the same: it is read as the rows of the lines, whether a
    summary is asked for or not."""
    status, text, error = found
    ends = salvages.modes_and_ends(maker.program, harts, capture)

    def wanted(answer):
        has_rows = text or only is None
        is_good = salvages.is_table_of(answer, text, ends) if has_rows else answer == b"" or not error
        return status, answer if is_good else text.encode(), error
    return wanted


def of_searched(_, __, capture, only=None, asked=()):
    """What a search of a damaged capture prints."""
    yield texts(["dump", "--search", *asked, "case"], printed.searched(capture, only))


def of_measured(maker, _, logs):
    """The lines of some legal logs, and what `measure` prints of them."""
    random = maker.random
    period, mode = random.choice((1, 2, 3, 8, 1024, 0xFFFF)), random.choice(reading.MODES)
    payloads = [payloads_of(maker, events, period, mode) for events in logs]
    words = [*options_of(maker, period, mode), "image", *files_of("measures", logs)]
    yield Run(["encode", "--hex", *words], 0, hex_lines(payloads).encode(), None)
    yield Run(["measure", *words], 0, measures.text(logs, payloads).encode(), None)


def of_parts(maker, _, logs):
    """What `encode` writes of some legal logs, in parts that each have a log or more, and in one run. The parts have to
    be, one after the other, what the one run writes."""
    random = maker.random
    period, mode = random.choice((1, 3, 8, 1024, 0xFFFF)), random.choice(reading.MODES)
    flags = random.choice(([], [], ["--v1"], ["--hex"], ["--hex", "--v1"]))
    payloads = [payloads_of(maker, events, period, mode) for events in logs]
    words = ["encode", *flags, *options_of(maker, period, mode)]
    files = [*files_of("parts", logs)]
    header = b"" if flags else cases.header(mode, period, len(logs))
    joined = b""
    for first, end in stretches(random, len(logs)):
        own = payloads[first:end]
        out = hex_lines(own, first).encode() if "--hex" in flags else header * (first == 0) + messages_of(own, first)
        given = ["--first", str(first)] if first or random.randrange(2) else []
        yield Run([*words, *given, "--of", str(len(logs)), "image", *files[first:end]], 0, out, None)
        joined += out
    yield Run([*words, "image", *files], 0, joined, None)


def stretches(random, count):
    """The ends of stretches, of one or more each, that some things in a row are cut into."""
    cuts = [0, *sorted(random.sample(range(1, count), random.randrange(count))), count]
    return list(zip(cuts, cuts[1:]))


def of_listed(maker, harts, case, only=None, asked=()):
    """What `list` prints of a capture."""
    yield from of_lists(maker, case, ["list", "--harts", str(harts)], only, asked,
                        lambda capture, known, rows=False: printed.listed(maker.program, harts, capture, known, only, rows))


def of_treated(maker, harts, case, only=None, asked=()):
    """What `list --salvage` prints of a damaged capture, with a count of harts and without one."""
    for count, flags in ((harts, ["--harts", str(harts)]), (None, [])):
        yield from of_lists(maker, case, ["list", "--salvage", *flags], only, asked,
                            lambda capture, known, rows=False: printed.list_treated(maker.program, count, capture, known, only, rows))


def of_lists(maker, case, words, only, asked, found_of):
    """What a list prints as text and as a table, with a file of symbols or without one."""
    capture, symbols = case
    words = [*words, "--base", f"{maker.program.base:x}", *asked, "image", lists.CAPTURE]
    known = {}
    if symbols is not None:
        words += ["--symbols", lists.SYMBOLS]
        known = lists.symbols_of(symbols)
    found = (2, b"", f"{lists.SYMBOLS}: {lists.NO_SYMBOL}")
    if symbols is None or known:
        found = found_of(capture, known)
    is_salvaged, is_read = "--salvage" in words, symbols is None or known
    yield texts(words, found)
    if symbols is not None:
        dumped = printed.searched(capture, only) if is_salvaged else printed.dumped(capture, only)
        flags = ["--search"] * is_salvaged + ["--symbols", lists.SYMBOLS, *asked]
        yield texts(["dump", *flags, lists.CAPTURE], lists.dump_with_names(dumped, known) if known else found)
    if len(capture) % 4 == 1:
        yield texts([*words, "--rows"], found_of(capture, known, True) if is_read else found)
    words = [*words, "--format", "csv"]
    if found[0] == 2 or (found[2] or "").startswith("no hart of"):
        yield texts(words, (found[0], b"", found[2]))
        return
    places = only and printed.places_of(capture, is_salvaged)
    if is_salvaged:
        found = found_of(capture, known, True)
    yield Run(words, None, list_table_of(found, is_salvaged, places), None)


def list_table_of(found, is_salvaged, places=None):
    """What a run has to be that prints the table of a list in text, by the status, the text and the error of that: the
    table says what the text says. `places` has the place of the message at each offset, where some have no row."""
    status, text, error = found

    def wanted(answer):
        fault = list_tables.fault_of(answer, text, is_salvaged, places)
        return status, fault.encode() if fault else answer, error
    return wanted


def of_lines(_, __, case):
    """What `capture` writes of lines."""
    text, settings = case
    status, out, error = line_texts.capture(text, *settings)
    yield Run(line_texts.words(*settings), status, out, error)


def of_comparison(maker, _, case, only=None, asked=()):
    """What `decode` prints of a capture, and what `compare` does of it and of logs: by the reading, and by what `decode`
    printed and the bytes of the logs."""
    harts, capture, logs = case
    counted = [] if harts is None else ["--harts", str(harts)]
    words = ["--base", f"{maker.program.base:x}", *counted, *asked, "image", comparisons.CAPTURE]
    run = texts(["decode", *words], printed.decoded(maker.program, harts or comparisons.DEFAULT_HARTS, capture, only))
    said = []

    def decoded(answer):
        said.append(answer)
        return run.status, run.out, run.error

    yield Run(run.words, None, decoded, None)
    explain = maker.random.randrange(2) == 0
    status, text, error = printed.compared(maker.program, harts, capture, logs, only, explain)
    if text and all(map(comparisons.is_spelt_so, logs)):
        text = comparisons.against_decode((run.status, said[0]), text, logs) or text
    flags = maker.random.choice(([], [], ["--long"], ["--progress"], ["--long", "--progress"])) + ["--explain"] * explain
    names = [comparisons.name_of(hart) for hart in range(len(logs))]
    yield texts(["compare", *flags, *words, *names], (status, text, error))


def of_threads(maker, _, logs):
    """What `replay` and `bench` print of some legal logs, each of which comes back whole."""
    period, mode = maker.random.choice((1, 3, 8, 1024, 0xFFFF)), maker.random.choice(reading.MODES)
    payloads = [payloads_of(maker, events, period, mode) for events in logs]
    lines = [f"{len(events)} events, {len(own)} packets, {sum(map(len, own))} payload bytes, decoded {len(events)}, whole\n"
             for events, own in zip(logs, payloads)]
    out = "".join(f"hart {hart}: {line}" for hart, line in enumerate(lines)) + "result: whole\n"
    options = [*options_of(maker, period, mode), "--capacity", str(maker.random.choice((1, 2, 16)))]
    *names, turns = files_of("threads", logs)
    yield Run(["replay", *options, "image", turns, *names], 0, out.encode(), None)
    yield Run(["bench", *options, "image", *names], 0, out.encode(), None)


def of_memories(maker, harts, case):
    """What comes of a case of another kind, over an image and over pieces of it."""
    inner = OF_CASE[case.kind](maker, harts, case.case)
    yield from (Run(*run) for run in memories.runs(maker, case, inner))


def of_only(maker, harts, given):
    """What comes of a case of another kind, where some harts of it are asked for."""
    yield from OF_CASE[given.kind](maker, harts, given.case, given.only, only_harts.words_of(maker.random, given.only))


def files_of(kind, case):
    """The files that the runs over a case read, but for the image."""
    if kind == "only":
        return files_of(case.kind, case.case)
    if kind == "memories":
        return files_of(case.kind, case.case) | memories.files_of(case.pieces)
    if kind == "threads":
        turns = "".join(f"{hart} c\n" * (len(events) + 3) for hart, events in enumerate(case))
        return files_of("measures", case) | {"turns": turns.encode()}
    if kind == "comparisons":
        _, capture, logs = case
        return {comparisons.CAPTURE: capture} | {comparisons.name_of(hart): text for hart, text in enumerate(logs)}
    if kind in ("audits", "unnumbered", "tables", "live"):
        return {audits.SENT: case[0], audits.RECEIVED: case[1]}
    if kind in ("lists", "treated"):
        return {lists.CAPTURE: case[0]} | ({} if case[1] is None else {lists.SYMBOLS: case[1]})
    if kind == "lines":
        return {line_texts.LINES: case[0]}
    if kind == "logs":
        return {"case": case, lists.SYMBOLS: lists.FEW}
    if kind in ("measures", "parts"):
        return {f"case{hart}": reading.log_text(events).encode() for hart, events in enumerate(case)}
    return {"case": case}


def answer(binary, folder, words):
    done = subprocess.run([binary, *words], cwd=folder, capture_output=True)
    return done.returncode, done.stdout, done.stderr


OF_CASE = {
    "captures": of_capture, "logs": of_log, "audits": of_pair, "measures": of_measured, "lists": of_listed,
    "salvages": of_salvaged, "lines": of_lines, "dumps": of_searched, "unnumbered": of_unnumbered, "parts": of_parts,
    "tables": of_table, "treated": of_treated, "comparisons": of_comparison, "threads": of_threads,
    "memories": of_memories, "only": of_only, "live": of_live,
}


def compared(binary, kind, maker, harts, made):
    """Runs the program over cases. Returns the arguments of each run, and for the first that is answered otherwise the
    place of its case, what was wanted and the answer."""
    ended = []
    with tempfile.TemporaryDirectory() as folder:
        put(folder, {"image": maker.program.image})
        for place, case in enumerate(made):
            put(folder, files_of(kind, case))
            for run in OF_CASE[kind](maker, harts, case):
                found = answer(binary, folder, run.words)
                if callable(run.out):
                    run = Run(run.words, *run.out(found[1]))
                error = f"tracebench: {run.error}\n".encode() if run.error else b""
                if found != (run.status, run.out, error):
                    return ended, (place, run, found)
                ended.append(run.words)
    return ended, None
