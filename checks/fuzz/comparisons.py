"""What `tracebench compare` prints, read from docs/FORMATS.md, and captures with logs to give it.

A comparison is judged twice: by what the events are, and by what `decode` printed and the bytes of the logs' files.
"""

import functools
import itertools
import re

import audits
import cases
import lists
import reading

CAPTURE = "capture"
DEFAULT_HARTS = 1
ASKED_HARTS = (1, 2, 3, 5, 64, 1024)


def name_of(hart):
    """The name of the file of a hart's log."""
    return f"log{hart}.csv"


# What is printed.


@functools.lru_cache(maxsize=4096)
def events_of(text):
    """The events of a log, or the text of its fault. It is kept, since a text is asked for again and again."""
    return reading.read_log(text)


def fault_of(program, text):
    """What is wrong with a log: its first faulty row, or its first illegal one; None where it is legal."""
    events = events_of(text)
    if isinstance(events, str):
        return events
    illegal = reading.first_illegal(program, events)
    return illegal and "row %d: %s" % illegal


def taken(capture, stop):
    """The messages before the first fault of a capture, where decoding stops so, of whatever hart."""
    try:
        _, at = reading.start(capture)
    except reading.NoHeader:
        return []
    place = re.match(r"message (\d+): ", stop)
    return list(itertools.islice(reading.messages(capture, at), int(place[1]) if place else None))


def verdict(log, decoded, is_closed):
    """How what was decoded of a hart compares with its log."""
    both = enumerate(itertools.zip_longest(log, decoded), 1)
    row = next((row for row, (own, other) in both if own != other), None)
    if row is None:
        return "whole" if is_closed else "beginning"
    return "beginning" if row == len(decoded) + 1 else f"differs at row {row}"


def named_row(events, at, symbols):
    """A row as `decode` prints it, and the name of its place, or that there is none."""
    if at >= len(events):
        return "end"
    event = events[at]
    name = lists.place_text(event[1], symbols).partition(b" ")[2]
    return reading.row_text(event).rstrip("\n") + (" " + name.decode(errors="surrogateescape") if name else "")


def rows_of(hart, log, decoded, explain, symbols):
    """The lines below the one of a hart: the first row in which its log and what is decoded differ, as both have it, and
    the up to three rows before it, which both have."""
    row = first_other(log, decoded)
    before = range(max(row - 3, 0), row) if explain else ()
    said = [(at, "both", decoded) for at in before] + [(row, "log", log), (row, "decoded", decoded)]
    return [f"hart {hart}: row {at + 1}: {name} {named_row(events, at, symbols)}\n" for at, name, events in said]


def first_other(log, decoded):
    """How many rows a log and what is decoded have alike before the first that differs."""
    return next((row for row, (own, other) in enumerate(zip(log, decoded)) if own != other), min(len(log), len(decoded)))


def steps_of(program, harts, capture, stop):
    """Each complete message of a capture up to the one at which decoding stops, of whatever hart, as text, its hart and
    number; and of each one before that, how many rows its hart has then, how many it adds, and its packet."""
    try:
        header, at = reading.start(capture)
    except reading.NoHeader:
        return []
    place_of_stop = re.match(r"message (\d+): ", stop)
    decoders = {hart: reading.Decoder(program) for hart in range(header[2] if header else harts)}
    steps = []
    for place, message in enumerate(reading.messages(capture, at)):
        if isinstance(message, str):
            break
        hart, number, payload = message
        said = f"message {place}, number {number} at {at:08x}"
        if place_of_stop and place == int(place_of_stop[1]):
            return [*steps, (said, hart, number, None, None, None)]
        at += 11 + len(payload)
        if hart in decoders:
            rows = len(decoders[hart].events)
            try:
                packet = reading.unpack(payload)
                decoders[hart].feed(packet)
            except reading.Refused:
                continue  # of a hart that is not chosen
            steps.append((said, hart, number, len(decoders[hart].events), len(decoders[hart].events) - rows, packet))
    return steps


def source_of(steps, hart, row, stop):
    """Where a row of a hart comes from, or why it is not decoded."""
    own = [step for step in steps if step[1] == hart]
    waits = [step[5] is not None and step[5][0] == "address" and step[5][3] == "plain" for step in own]
    for place, (said, _, _, rows, added, packet) in enumerate(own):
        waited = f", number {own[place - 1][2]} waited" if place and waits[place - 1] else ""
        if packet is None:
            if place and own[place - 1][5][0].startswith("ended"):
                break
            return f"{said}, stops: {re.sub(r'^message [0-9]+: ', '', stop)}{waited}"
        if rows >= row:
            return f"{said}, settles rows {rows - added + 1} to {rows}{waited}"
    own = [step for step in own if step[5] is not None]
    if own and own[-1][5][0].startswith("ended"):
        return f"{own[-1][0]}, closes"
    stopped = "" if stop == "decoded" else f", stopped: {stop}"
    return (own[-1][0] + ", is the last" + ", waits" * waits[len(own) - 1] if own else "no message") + stopped


def compare(program, harts, capture, logs, only=None, explain=False, symbols=()):
    """The status, the text and the error of a comparison of the harts that are chosen with their logs."""
    stop, decoders = reading.decode(program, harts or DEFAULT_HARTS, capture, only)
    chosen = [hart for hart in range(len(decoders)) if reading.is_chosen(only, hart)]
    if len(logs) != len(chosen):
        return 2, "", f"{len(logs)} logs for {len(chosen)} harts"
    for place, text in enumerate(logs):
        if fault := fault_of(program, text):
            return 2, "", f"{name_of(place)}: {fault}"
    came = {hart: [] for hart in chosen}
    for hart, _, payload in taken(capture, stop):
        if hart in came:
            came[hart].append(payload)
    lines, verdicts, steps = [], [], steps_of(program, harts or DEFAULT_HARTS, capture, stop)
    for text, (hart, own) in zip(logs, came.items()):
        events, decoder = events_of(text), decoders[hart]
        verdicts.append(verdict(events, decoder.events, decoder.closed))
        counts = f"{len(events)} events, {len(own)} packets, {sum(map(len, own))} payload bytes"
        lines.append(f"hart {hart}: {counts}, decoded {len(decoder.events)}, {verdicts[-1]}\n")
        if verdicts[-1] != "whole":
            row = first_other(events, decoder.events) + 1
            lines += rows_of(hart, events, decoder.events, explain, symbols)
            lines.append(f"hart {hart}: row {row}: {source_of(steps, hart, row, stop)}\n")
    is_whole = stop == "decoded" and set(verdicts) == {"whole"}
    lines.append("result: whole\n" if is_whole else "result: not whole\n")
    return (0 if is_whole else 1), "".join(lines), None if stop == "decoded" else stop


def kind_of(text, error):
    """What a comparison found, without numbers: the result, the verdicts and the fault, without its place."""
    if not text:
        return re.sub(r"^\d+ logs for \d+", "N logs for M", re.sub(r"^.*\.csv: ", "", error))
    found = sorted(set(re.findall(r", (whole|beginning|differs)\b", text)))
    fault = re.sub(r"^message \d+: ", "", error) if error else "no fault"
    return f"{text.splitlines()[-1].removeprefix('result: ')}: {', '.join(found)}; {fault}"


# What `decode` and the bytes of files say.


def same_bytes(section, log):
    """The verdicts that a hart may have by the text that `decode` printed of it, and by its log's, row by row."""
    if section == log:
        return "whole", "beginning"
    if log.startswith(section):
        return ("beginning",)
    both = itertools.zip_longest(section.split(b"\n")[:-1], log.split(b"\n")[:-1])
    return (f"differs at row {next(row for row, (own, other) in enumerate(both) if own != other)}",)


ROW = re.compile(r"^hart \d+: row (\d+): (log|decoded|both) (.*)\n", re.MULTILINE)
SOURCE = re.compile(r"^hart \d+: row \d+: (no )?message.*\n", re.MULTILINE)


def rows_against(text, section, log):
    """The rows below the line of a hart that the bytes of its log and of what `decode` printed deny: each is the line with
    this number, where there is one. The last two are not the same, but for two ends."""
    decoded, own = section.decode().split("\n")[:-1], log.decode().split("\n")[:-1]
    rows = [(int(row), name, said) for row, name, said in ROW.findall(text)]
    wrong = []
    for row, name, said in rows:
        there = [lines[row] if row < len(lines) else "end" for lines in ({"log": [own], "decoded": [decoded]}.get(name, [own, decoded]))]
        if any(it != said for it in there):
            wrong.append(f"row {row}: {name} {said}: {there}")
    if rows and (rows[-1][2] == rows[-2][2] != "end" or [row for row, _, _ in rows[:-1]] != list(range(rows[0][0], rows[-1][0] + 1))):
        wrong.append(f"the rows {rows}")
    return wrong


def against_decode(decoded, text, logs):
    """What a comparison's text has that `decode`, by its status and its text, and the bytes of the logs deny; None where
    it has nothing. The logs are spelt as `decode` spells them."""
    status, printed = decoded
    sections = re.split(rb"^hart \d+\n", printed, flags=re.MULTILINE)[1:]
    below = [re.sub(r"^.*\n", "", part) for part in re.split(r"^(?=hart \d+: \d+ events, )", text, flags=re.MULTILINE)[1:]]
    *lines, result = SOURCE.sub("", ROW.sub("", text)).splitlines()
    if len(sections) != len(lines) or len(sections) != len(logs):
        return f"decode has {len(sections)} harts"
    if (result == "result: whole") != (status == 0 and sections == logs):
        return f"decode ends with status {status}, and its texts are {sections}"
    for line, rows, section, log in zip(lines, below, sections, logs):
        if wrong := rows_against(rows, section, log):
            return f"{line}: {wrong}"
        said = line.split(", ")[-1]
        if (said == "whole") != (not ROW.search(rows)):
            return f"{line}: {rows}"
        may_be = same_bytes(section, log)
        counts = f": {log.count(10) - 1} events, ", f", decoded {section.count(10) - 1}, "
        if said not in may_be or status == 0 and said != may_be[0] or not all(it in line for it in counts):
            return f"{line}: by the bytes {may_be}"
    return None


def is_spelt_so(text):
    """Whether a log is spelt as `decode` spells it."""
    events = events_of(text)
    return not isinstance(events, str) and reading.log_text(events).encode() == text


# Captures and logs.


def other_event(random, event):
    """An event with another type, privilege, address, cause or value."""
    fields = list(event)
    at = random.randrange(1, len(fields))
    if event[0] == "retire":
        fields[at] = {1: event[1] ^ random.choice((2, 4)), 2: random.choice((0, 4, 5, 6)), 3: random.choice((0, 1, 3))}[at]
    elif at == 3:
        fields[3:] = not event[3], event[4], 0
    else:
        fields[at] = {1: event[1] ^ 2, 2: random.choice((0, 1, 3)), 4: event[4] ^ 1, 5: 0 if event[3] else event[5] ^ 1}[at]
    return tuple(fields)


def legal_other(random, program, events, at):
    """Another event in place of this one that may follow the ones before it, if a few throws find one."""
    before = events[at - 1] if at else None
    for _ in range(20):
        other = other_event(random, events[at])
        if other != events[at] and not reading.why_illegal(program, before, other):
            return other
    return events[at]


def other_log(random, program, events, at):
    """A log with another event at a row: the rest as it was, which may be illegal, or what may follow."""
    begun = [*events[:at], legal_other(random, program, events, at)]
    if random.randrange(3) == 0:
        return begun + events[at + 1 :]
    return cases.legal_log(random, program, len(events) - at - 1 + random.choice((0, 0, 1)), begun)


def changed_log(random, maker, events):
    """A log that another one was made of: changed in its first, last or some row, longer or shorter, with an illegal row,
    also behind a difference; or another one."""
    what = random.randrange(9)
    last = len(events) - 1
    if what < 4 and events:
        return other_log(random, maker.program, events, (0, last, random.randint(0, last), random.randint(0, last))[what])
    if what == 4 and events:
        return events[: random.choice((0, last, random.randint(0, last)))]
    if what == 5:
        return cases.legal_log(random, maker.program, random.choice((1, 1, 2, 20)), events)
    if what == 6 and events:
        return [*other_log(random, maker.program, events, random.randint(0, last)), other_event(random, events[last])]
    if what == 7 and events:
        at = random.randint(0, last)
        return [*events[:at], other_event(random, events[at]), *events[at + 1 :]]
    return random.choice(maker.logs)


def text_of(random, maker, events):
    """The text of a log, now and then in another spelling, with a faulty row or with bytes changed."""
    text = reading.log_text(events).encode()
    what = random.randrange(40)
    if what == 0:
        return maker.broken(text)
    if what == 1:
        rows = text.splitlines()
        at = random.randrange(len(rows))
        rows[at] = maker.any_row(rows[at])
        return b"\n".join(rows)
    if what <= 4:
        rows = [b",".join(map(maker.spelt_field, row.split(b","))) for row in text.splitlines()]
        return random.choice((b"", b"\xef\xbb\xbf")) + random.choice((b"\n", b"\r\n", b"\n\n")).join(rows)
    return text


def changed_messages(random, maker, made, harts):
    """Messages with a close left out, one behind a close, or some that are lost, doubled, swapped or changed."""
    what = random.randrange(5)
    if what == 0 and made:
        hart = random.choice(made)[0]
        closing = max(at for at, it in enumerate(made) if it[0] == hart)
        return made[:closing] + made[closing + 1 :]
    if what == 1 and made:
        hart, number, payload = random.choice(made)
        count = sum(it[0] == hart for it in made)
        return [*made, (hart, random.choice((count, count, number)), payload)]
    if what == 2:
        return maker.lost(made, harts)
    return maker.in_order(harts) if what == 3 and random.randrange(4) == 0 else maker.disturbed(made, harts)


def changed_bytes(random, maker, text, has_header):
    """A capture that is cut, or of which bytes or the header are changed."""
    what = random.randrange(4)
    if what == 0 and has_header:
        return maker.with_other_header(text)
    return text[: random.randrange(len(text) + 1)] if what <= 2 else maker.broken(text)


def changed_count(random, logs):
    """Logs of which one is too many or too few, or two are exchanged."""
    made = list(logs)
    at = random.randrange(len(made))
    if random.randrange(3) == 0:
        made.insert(at, random.choice(logs))
    elif random.randrange(2):
        del made[at]
    else:
        made[0], made[at] = made[at], made[0]
    return made or [logs[0], logs[0]]


def case(random, maker):
    """The count of harts that is asked for, or None, a capture and the texts of logs: those that the capture was made of,
    or with some of either changed."""
    harts = random.choice((1, 1, 1, 2, 2, 3, 5)) if random.randrange(400) else 1024
    which = [random.randrange(len(maker.logs) if harts < 1024 else 4) for _ in range(harts)]
    has_header, mode = random.randrange(2) == 0, random.choice(reading.MODES)
    queues = []
    for hart, log in enumerate(which):
        payloads = maker.payloads[mode if has_header else random.choice(reading.MODES)][log]
        queues.append([(hart, number, payload) for number, payload in enumerate(payloads)])
    made = audits.mixed(random, queues) if harts < 1024 else [it for queue in queues for it in queue]
    if random.randrange(5) < 2:
        made = changed_messages(random, maker, made, harts)
    capture = cases.header(mode, random.choice((1, 8, 1024, 0xFFFF)), harts) if has_header else b""
    capture += b"".join(cases.message(*it) for it in made)
    if random.randrange(8) == 0:
        capture = changed_bytes(random, maker, capture, has_header)
    logs = [maker.logs[log] for log in which]
    if random.randrange(2):
        at = random.randrange(harts)
        logs[at] = changed_log(random, maker, logs[at])
    texts = [text_of(random, maker, events) if harts < 1024 else reading.log_text(events).encode() for events in logs]
    if random.randrange(12) == 0:
        texts = changed_count(random, texts)
    is_other = has_header or random.randrange(12) == 0
    asked = random.choice((None, *ASKED_HARTS)) if is_other else random.choice((None, 1)) if harts == 1 else harts
    return asked, capture, texts
