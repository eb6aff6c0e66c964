"""What `tracebench list` prints, read from docs/FORMATS.md, and files of symbols for it."""

import re

import reading

CAPTURE, SYMBOLS = "case", "symbols"
SYMBOL = re.compile(rb"([0-9a-fA-F]{1,16}) (?:(?:[0-9a-fA-F]{8}|[0-9a-fA-F]{16}) )?[tTwW] ([^$].*)", re.DOTALL)
NAMES = (
    b"main", b"a b", b"", b" x", b"_start", b"\xff\x80", b"x<+>", b"$x", b"f<1, 2>()", b'say "so"', b'"', b"a\rb", b",", b"\xc3",
)
NO_SYMBOL = "no symbol of code: give it what nm prints"
REPORTED = re.compile(rb" (?:addr|handler|epc)=([0-9a-f]+)")
# Symbols of the runs over logs, whatever the program is.
FEW = b"8 T word\n80000004 t loop\n80000000 T main\n40 w high\n"


def symbols_of(text):
    """The symbols of a file, each address with the last name that the file has for it."""
    found = {}
    for line in text.split(b"\n"):
        if matched := SYMBOL.fullmatch(line.removesuffix(b"\r")):
            found[int(matched[1], 16)] = matched[2]
    return found


def place_text(address, symbols):
    below = [it for it in symbols if it <= address]
    if not below:
        return b"%x" % address
    return b"%x <%s+%x>" % (address, symbols[max(below)], address - max(below))


def name_text(address, symbols):
    """What follows a place: a blank and its name, or nothing."""
    name = place_text(address, symbols).partition(b" ")[2]
    return b" " + name if name else b""


def dump_with_names(found, symbols):
    """The status, the text and the error of a dump with symbols, by those of it without: each address that a line reports is
    named at its end."""
    status, text, error = found
    lines = [(line, REPORTED.search(line)) for line in text.encode().splitlines()]
    named = (line + (name_text(int(it[1], 16), symbols) if it else b"") + b"\n" for line, it in lines)
    return status, b"".join(named), error


def effect(events, packet, symbols, row=None):
    """What a message does: the events that it adds, the last of which is this row of its hart, if that is to be said; and
    whether its packet waits or closes its hart."""
    if not events:
        made = b"nothing"
    elif len(events) == 1:
        made = b"1 event, " + place_text(events[0][1], symbols)
    else:
        first, last = (place_text(event[1], symbols) for event in (events[0], events[-1]))
        made = b"%d events, %s to %s" % (len(events), first, last)
    if row is not None and events:
        made += b", row %d" % row if len(events) == 1 else b", rows %d to %d" % (row - len(events) + 1, row)
    if packet[0] == "address" and packet[3] == "plain":
        made += b", waits"
    return made + b", closed" * packet[0].startswith("ended")


def listing(program, harts, capture, symbols, only=None, says_rows=False):
    """The status, the text and the error of a list of the harts that are chosen."""
    stop, decoders = reading.decode(program, harts, capture, only)
    try:
        header, at = reading.start(capture)
    except reading.NoHeader as why:
        return 1, b"", str(why)
    lines = reading.dump(capture)[0].splitlines(keepends=True)
    text = lines.pop(0).encode() if header else b""
    harts = header[2] if header else harts
    place_of_stop = re.match(r"message (\d+): ", stop)
    accepted = int(place_of_stop[1]) if place_of_stop else None
    decoders = [reading.Decoder(program) for _ in range(harts)]
    for place, message in enumerate(reading.messages(capture, at)):
        if isinstance(message, str):
            return 1, text + b"%08x\n" % at, stop
        if not reading.is_chosen(only, message[0]):
            at += 11 + len(message[2])
            continue
        text += b"%08x" % at
        line = lines[place].encode().removesuffix(b"\n")
        if place == accepted:
            return 1, text + b" " + line + b"\n", stop
        decoder, packet = decoders[message[0]], reading.unpack(message[2])
        before = len(decoder.events)
        decoder.feed(packet)
        row = len(decoder.events) if says_rows else None
        text += b" %s => %s\n" % (line, effect(decoder.events[before:], packet, symbols, row))
        at += 11 + len(message[2])
    chosen = (hart for hart in range(harts) if reading.is_chosen(only, hart))
    left = next((hart for hart in chosen if not decoders[hart].closed), None)
    if left is not None:
        return 1, text, f"hart {left}: no closing packet"
    return 0, text, None


def any_symbols(random, program):
    """A file of symbols near a program, with lines that are none; or None."""
    if random.randrange(3) == 0:
        return None
    made = []
    for _ in range(random.randrange(8)):
        address = (program.base + random.randrange(-4, len(program.image) + 4)) & reading.MASK
        address = random.choice((address, address, address, 0, 1 << 63, reading.MASK))
        kind = random.choice((b"t", b"T", b"T", b"w", b"W", b"d", b"B", b"", b"tt"))
        name = random.choice(NAMES)
        end = random.choice((b"\n", b"\n", b"\n", b"\r\n", b"", b"\r"))
        digits = random.choice((b"%x", b"%X", b"%016x", b"0x%x", b"%017x")) % address
        size = random.choice((b"", b"", b"", b"00000010 ", b"00000000000000aB ", b"000000010 ", b"0000001g "))
        made.append(digits + random.choice((b" ", b" ", b" ", b"  ", b"\t")) + size + kind + b" " + name + end)
    return b"".join(made)
