"""Messages among damaged bytes and what `tracebench dump --search` prints of them, read from docs/FORMATS.md, and damages."""

import cases
import reading

END_OF_FRAMES = 1 << 32
HEAD = 11


def end_of_frame(data, at, known):
    """Where the frame ends that begins at a place, or None where none does."""
    if at + HEAD >= len(data):
        return None
    hart, number = (int.from_bytes(data[at + first : at + last], "little") for first, last in ((0, 2), (2, 10)))
    end = at + HEAD + data[at + 10]
    is_frame = 1 <= data[at + 10] <= 18 and end <= len(data) and hart < known and number < END_OF_FRAMES
    return end if is_frame else None


def is_firm(data, at, known):
    end = end_of_frame(data, at, known)
    return end is not None and (end == len(data) or end_of_frame(data, end, known) is not None)


def is_taken(data, at, known):
    end = end_of_frame(data, at, known)
    if end is None:
        return False
    return is_firm(data, at, known) or not any(is_firm(data, place, known) for place in range(at + 1, end))


def start(capture):
    """The header of a capture, where a valid one begins it, where its frames are looked for, and the header's fault."""
    try:
        return *reading.start(capture), None
    except reading.NoHeader as why:
        return None, 0, str(why)


def spans(capture, header, at):
    """From a place on, each message of a frame that is taken, and the count of the bytes of each run between, after
    their offsets."""
    known = header[2] if header else reading.MOST_HARTS
    passed = at
    while at < len(capture):
        if not is_taken(capture, at, known):
            at += 1
            continue
        if passed < at:
            yield passed, at - passed
        yield at, next(reading.messages(capture, at))
        at = passed = end_of_frame(capture, at, known)
    if passed < at:
        yield passed, at - passed


def found(capture):
    """The header of a capture where a valid one begins it, and the messages that are taken, after their offsets."""
    header, at, _ = start(capture)
    return header, [span for span in spans(capture, header, at) if not isinstance(span[1], int)]


def message_line(message, mode):
    """The line of a message in a dump, and whether its payload is bad."""
    hart, number, payload = message
    try:
        return f"{hart} {number} {reading.packet_text(reading.unpack(payload), mode)}\n", False
    except reading.Refused as why:
        return f"{hart} {number} bad {why}\n", True


def search(capture, only=None):
    """The status, the text and the error of a dump of the harts that are chosen, by a search."""
    header, at, fault = start(capture)
    text = reading.dump(capture[:at])[0] if header else ""
    is_good = not fault
    for offset, it in spans(capture, header, at):
        if isinstance(it, int):
            line, is_damaged = f"bytes: {it} at {offset:08x}\n", True
        elif not reading.is_chosen(only, it[0]):
            continue
        else:
            line, is_damaged = message_line(it, header[0] if header else reading.DIFFERENTIAL)
        text, is_good = text + line, is_good and not is_damaged
    return (0 if is_good else 1), text, fault


def kind_of(text, error):
    """What was found, without numbers."""
    words = {"capture": "header", "bytes:": "bytes"}
    kinds = {words.get(line.split()[0], "bad" if " bad " in line else "frames") for line in text.splitlines()}
    return ", ".join((*sorted(kinds), *([error] if error else [])))


def damage(random, data):
    """Bytes with one damage at some place: bytes lost, added, zeroed, doubled or made others, a bit flipped, or a
    message put in."""
    at, what = random.randrange(len(data) + 1), random.randrange(8)
    count = random.choice((1, 1, 1, 2, 3, 8, 16, 40, 512))
    front, part, back = data[:at], data[at : at + count], data[at + count :]
    if what == 0:
        return front + back
    if what == 1:
        return front + random.randbytes(count) + data[at:]
    if what == 2:
        return front + bytes(len(part)) + back
    if what == 3:
        return front + part + part + back
    if what == 4:
        return front + random.randbytes(len(part)) + back
    if what == 5:
        return front + bytes(it ^ 1 << random.randrange(8) for it in part[:1]) + data[at + 1 :]
    if what == 6:
        return front + bytes(random.randrange(20) for _ in part[:1]) + data[at + 1 :]
    hart, number = random.choice((0, 1, 2, 1023, 1024)), random.choice((0, 1, END_OF_FRAMES - 1, END_OF_FRAMES))
    return front + cases.message(hart, number, random.randbytes(random.randrange(1, 19))) + data[at:]


def damaged(random, data):
    """Bytes with a few damages."""
    for _ in range(random.choice((0, 1, 1, 1, 2, 3, 8))):
        data = damage(random, data)
    return data
