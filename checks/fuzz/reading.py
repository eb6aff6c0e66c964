"""A reading of docs/FORMATS.md: words, legal logs, packets, what packets describe, captures and their texts. It was written
from that document alone, for whole lists and with no thought of speed, so that `fuzz` can compare the bench with it."""

MASK = (1 << 64) - 1
HEADER = "addr,itype,priv,cause,tval"
PRIVILEGES = (0, 1, 3)


def bits(number, low, width):
    return number >> low & (1 << width) - 1


def signed(number, width):
    return number - (number >> (width - 1) << width)


def gathered(word, layout):
    """The offset of a word: each triple is the word's lowest bit, the offset's lowest bit and how many."""
    return sum(bits(word, low, width) << to for low, to, width in layout)


J = (31, 20, 1), (21, 1, 10), (20, 11, 1), (12, 12, 8)
B = (31, 12, 1), (25, 5, 6), (8, 1, 4), (7, 11, 1)
CJ = (12, 11, 1), (11, 4, 1), (9, 8, 2), (8, 10, 1), (7, 6, 1), (6, 7, 1), (3, 1, 3), (2, 5, 1)
CB = (12, 8, 1), (10, 3, 2), (5, 6, 2), (3, 1, 2), (2, 5, 1)


class Program:
    """An image at its base, and other pieces of it, each with its own; `at` gives the class, the target where there is one,
    and the length."""

    def __init__(self, base, image, also=()):
        self.base, self.image, self.known = base, image, {}
        self.pieces = [(base, image), *also]

    def at(self, address):
        if address not in self.known:
            self.known[address] = self.looked_up(address)
        return self.known[address]

    def bytes_at(self, address, count):
        """So many bytes from an address on, whichever pieces they are in; None where one of them is in none."""
        found = [image[at - base] for at in range(address, address + count)
                 for base, image in self.pieces if 0 <= at - base < len(image)]
        return bytes(found) if len(found) == count else None

    def looked_up(self, address):
        first = None if address % 2 else self.bytes_at(address, 2)
        if first is None:
            return None
        half = int.from_bytes(first, "little")
        if half & 3 != 3:
            return self.short_word(half, address)
        if half & 0x1F == 0x1F:
            return "not retirable", None, 2
        whole = self.bytes_at(address, 4)
        return whole and self.long_word(int.from_bytes(whole, "little"), address)

    def short_word(self, half, address):
        quadrant, funct3 = half & 3, bits(half, 13, 3)
        if quadrant == 1 and funct3 == 5:
            return "jump", (address + signed(gathered(half, CJ), 12)) & MASK, 2
        if quadrant == 1 and funct3 in (6, 7):
            return "branch", (address + signed(gathered(half, CB), 9)) & MASK, 2
        if half in (0, 0x9002):
            return "not retirable", None, 2
        if quadrant == 2 and funct3 == 4 and bits(half, 2, 5) == 0 and bits(half, 7, 5):
            return "uninferable", None, 2
        return "plain", None, 2

    def long_word(self, word, address):
        opcode, funct3 = word & 0x7F, bits(word, 12, 3)
        if opcode == 0x6F:
            return "jump", (address + signed(gathered(word, J), 21)) & MASK, 4
        if opcode == 0x67 and funct3 == 0:
            if bits(word, 15, 5):
                return "uninferable", None, 4
            return "jump", signed(bits(word, 20, 12), 12) & MASK & ~1, 4
        if opcode == 0x63 and funct3 not in (2, 3):
            return "branch", (address + signed(gathered(word, B), 13)) & MASK, 4
        if word in (0x73, 0x00100073):
            return "not retirable", None, 4
        if word == 0x10200073:
            return "sret", None, 4
        if word == 0x30200073:
            return "mret", None, 4
        return "plain", None, 4

    def retires(self, address):
        word = self.at(address)
        return word is not None and word[0] != "not retirable"


# An event is ("retire", address, type, privilege) or ("trap", epc, privilege, is an interrupt, cause, value).


def is_retirement(event):
    return event is not None and event[0] == "retire"


def privilege_of(event):
    return event[3] if event[0] == "retire" else event[2]


def kind_at(program, event):
    return program.at(event[1])[0]


def is_discontinuity(program, event):
    return is_retirement(event) and kind_at(program, event) in ("uninferable", "sret", "mret")


def is_backward_jump(program, event):
    if not is_retirement(event):
        return False
    kind, target, _ = program.at(event[1])
    return kind == "jump" and target <= event[1]


def leads_to(program, event):
    """The one address that a retirement leads to; None where it may lead to any."""
    if not is_retirement(event) or is_discontinuity(program, event):
        return None
    kind, target, length = program.at(event[1])
    if kind == "jump" or kind == "branch" and event[2] == 5:
        return target
    return (event[1] + length) & MASK


def privileges_after(program, event):
    """The privileges that an event may have after this one, or first."""
    if event is None:
        return PRIVILEGES
    privilege = privilege_of(event)
    if not is_retirement(event):
        return [level for level in (1, 3) if level >= privilege]
    kind = kind_at(program, event)
    if kind == "mret":
        return PRIVILEGES
    return (0, 1) if kind == "sret" else (privilege,)


def retires_at(kind, privilege):
    least = {"mret": 3, "sret": 1}.get(kind, 0)
    return privilege in PRIVILEGES and privilege >= least


TYPES = {"plain": (0,), "jump": (0,), "sret": (3,), "mret": (3,), "branch": (4, 5), "uninferable": (6,)}


def why_illegal(program, before, event):
    """The first reason against an event after the one before it, which is legal."""
    right_privilege = privilege_of(event) in privileges_after(program, before)
    one_place = leads_to(program, before) if before else None
    if is_retirement(event):
        _, address, itype, privilege = event
        if program.at(address) is None:
            return "OffProgram"
        kind = program.at(address)[0]
        if kind == "not retirable":
            return "NotRetirable"
        if itype not in TYPES[kind]:
            return "WrongType"
        if one_place is not None and address != one_place:
            return "WrongNext"
        return None if right_privilege and retires_at(kind, privilege) else "WrongPrivilege"
    _, epc, _, interrupt, cause, value = event
    if cause > 0x3F or interrupt and value:
        return "WrongType"
    if not right_privilege:
        return "WrongPrivilege"
    return "WrongEpc" if epc % 2 or one_place is not None and epc != one_place else None


def first_illegal(program, events):
    """The first illegal row, from 1, and why; None where the log is legal."""
    before = None
    for row, event in enumerate(events, 1):
        if why := why_illegal(program, before, event):
            return row, why
        before = event
    return None


# Logs.


def records(text):
    """The records of CSV as the crate `csv` reads them: no field is trimmed, records may have any number of fields."""
    if text.startswith(b"\xef\xbb\xbf"):
        text = text[3:]
    found, record, field, state = [], [], bytearray(), "record"
    for byte in text:
        char = bytes([byte])
        ends_line = char in b"\r\n"
        if state == "record" and ends_line:
            continue
        if state in ("record", "field") and char == b'"':
            state = "quoted"
        elif state == "quoted":
            if char == b'"':
                state = "quote in quotes"
            else:
                field += char
        elif state == "quote in quotes" and char == b'"':
            field += char
            state = "quoted"
        elif ends_line or char == b",":
            record.append(bytes(field))
            field = bytearray()
            state = "field"
            if ends_line:
                found.append(record)
                record, state = [], "record"
        else:
            field += char
            state = "plain"
    if state != "record":
        found.append(record + [bytes(field)])
    return found


def number(field):
    """The number that a field spells; None where it spells none."""
    digits = field[2:] if field[:2] in (b"0x", b"0X") else field
    if not 1 <= len(digits) <= 16 or any(byte not in b"0123456789abcdefABCDEF" for byte in digits):
        return None
    return int(digits, 16)


def event_of(record):
    """The event of a record, or the text of its first fault."""
    if len(record) != 5:
        return "wrong number of fields"
    numbers = [number(field) for field in record]
    if None in numbers[:3] or any(field and number(field) is None for field in record[3:]):
        return "not a number"
    address, itype, privilege, cause, value = numbers
    if address % 2:
        return "odd address"
    if itype >= 7:
        return "unknown type"
    if privilege not in PRIVILEGES:
        return "unknown privilege"
    if cause is not None and cause > 0x3F:
        return "cause above 3f"
    wanted = {1: (True, True), 2: (True, value is not None)}.get(itype, (False, False))
    if (cause is not None, value is not None) != wanted:
        return "cause or value missing or not wanted"
    if itype == 2 and value:
        return "an interrupt has a value"
    if itype in (1, 2):
        return "trap", address, privilege, itype == 2, cause, value or 0
    return "retire", address, itype, privilege


def read_log(text):
    """The events of a log, or the text of its fault."""
    rows = records(text)
    if not rows or rows[0] != [name.encode() for name in HEADER.split(",")]:
        return "wrong header"
    events = []
    for row, record in enumerate(rows[1:], 1):
        event = event_of(record)
        if isinstance(event, str):
            return f"row {row}: {event}"
        events.append(event)
    return events


def row_text(event):
    if is_retirement(event):
        return f"{event[1]:x},{event[2]},{event[3]},,\n"
    _, epc, privilege, interrupt, cause, value = event
    return f"{epc:x},2,{privilege},{cause:x},\n" if interrupt else f"{epc:x},1,{privilege},{cause:x},{value:x}\n"


def log_text(events):
    return HEADER + "\n" + "".join(map(row_text, events))


# Packets: ("sync", taken, privilege, address), ("trap", taken, privilege, cause, interrupt, handler, address, value),
# ("open", mode), ("ended_rep",), ("ended_ntr",), ("address", outcomes, delta, report), ("map", outcomes). An address
# packet reports a difference or an address, as the mode of its trace says.

DIFFERENTIAL, FULL = 0, 1
MODES = DIFFERENTIAL, FULL
SUPPORT = {(1, 0): "open", (0, 1): "ended_rep", (0, 3): "ended_ntr"}


class Refused(Exception):
    """Why a payload does not unpack, or a packet is not decoded."""


def map_width(count):
    return next(width for width in (0, 1, 3, 7, 15, 31) if count <= width)


class Bits:
    """The bits of a payload, one field after the other."""

    def __init__(self, payload):
        self.given = len(payload) * 8
        top = payload[-1] >> 7
        self.number = int.from_bytes(payload, "little") | ((1 << 256) - (1 << self.given)) * top
        self.at = 0

    def field(self, width):
        value = bits(self.number, self.at, width)
        self.at += width
        return value

    def outcomes(self, count, width):
        value = self.field(width)
        return tuple(not bits(value, place, 1) for place in range(count))

    def test_padding(self):
        last = bits(self.number, self.at - 1, 1)
        if any(bits(self.number, place, 1) != last for place in range(self.at, self.given)):
            raise Refused("BadPad")


def privilege_field(fields):
    privilege = fields.field(2)
    if privilege == 2:
        raise Refused("BadPrivilege")
    return privilege


def address_packet(fields, outcomes):
    address = fields.field(63)
    notify, updiscon, irreport = fields.field(1), fields.field(1), fields.field(1)
    differs = notify != address >> 62, updiscon != notify
    if irreport != updiscon or all(differs):
        raise Refused("BadReport")
    report = {(False, False): "plain", (True, False): "notify", (False, True): "updiscon"}[differs]
    return "address", outcomes, address << 1, report


def support_packet(fields):
    enabled, encoder_mode, status, options = (fields.field(width) for width in (1, 1, 2, 5))
    kind = SUPPORT.get((enabled, status))
    if encoder_mode or kind is None or options not in (MODES if kind == "open" else (0,)):
        raise Refused("Unsupported")
    return (kind, options) if kind == "open" else (kind,)


def packet_of(fields):
    form = fields.field(2)
    if form == 2:
        return address_packet(fields, ())
    if form == 1:
        count = fields.field(5)
        if count == 0:
            return "map", fields.outcomes(31, 31)
        return address_packet(fields, fields.outcomes(count, map_width(count)))
    subform = fields.field(2) if form == 3 else 2
    if subform == 2:
        raise Refused("Unsupported")
    if subform == 3:
        return support_packet(fields)
    taken = not fields.field(1)
    privilege = privilege_field(fields)
    if subform == 0:
        return "sync", taken, privilege, fields.field(63) << 1
    cause, interrupt, handler = fields.field(6), bool(fields.field(1)), bool(fields.field(1))
    address = fields.field(63) << 1
    return "trap", taken, privilege, cause, interrupt, handler, address, 0 if interrupt else fields.field(64)


def unpack(payload):
    if not payload:
        raise Refused("Empty")
    if len(payload) > 18:
        raise Refused("TooLong")
    fields = Bits(payload)
    packet = packet_of(fields)
    fields.test_padding()
    return packet


def digits(outcomes):
    return "".join("0" if taken else "1" for taken in outcomes) or "-"


def packet_text(packet, mode):
    """The text of a packet behind a header that announces this mode."""
    kind = packet[0]
    if kind == "sync":
        return f"sync addr={packet[3]:x} priv={packet[2]} branch={int(not packet[1])}"
    if kind == "trap":
        _, taken, privilege, cause, interrupt, handler, address, value = packet
        what = f"interrupt cause={cause:x}" if interrupt else f"exception cause={cause:x} tval={value:x}"
        place = "handler" if handler else "epc"
        return f"trap {what} {place}={address:x} priv={privilege} branch={int(not taken)}"
    if kind == "address":
        name = "addr" if mode == FULL else "diff"
        return f"address {name}={packet[2]:x} map={digits(packet[1])} {packet[3]}"
    if kind == "map":
        return f"map {digits(packet[1])}"
    if kind == "open":
        return "open full" if packet[1] == FULL else "open"
    return f"close {kind}"


# What packets describe.


class Decoder:
    """The events of one hart, packet by packet."""

    def __init__(self, program):
        self.program, self.events = program, []
        self.opened = self.closed = False
        self.mode, self.waiting, self.reported = None, None, 0

    def feed(self, packet):
        """Takes a packet in; where it is refused nothing has changed."""
        kind = packet[0]
        if self.closed:
            raise Refused("AfterClose")
        if not self.opened and kind != "open":
            raise Refused("NotOpened")
        added = self.settled(kind)
        last = (self.events + added)[-1] if self.events or added else None
        reported = self.address_of(self.waiting, self.reported) if self.waiting else self.reported
        waiting = None
        if kind == "open" and self.opened or kind == "ended_rep" and not self.waiting:
            raise Refused("WrongPlace")
        if kind == "sync":
            added.append(self.retired(last, packet[3], packet[2], packet[1]))
            reported = packet[3]
        elif kind == "trap":
            added += self.trapped(last, packet)
            reported = packet[6]
        elif kind in ("address", "map"):
            if not is_retirement(last):
                raise Refused("WrongPlace")
            if kind == "map":
                added += self.walk(last, packet[1], None, "map")
            elif packet[3] == "plain":
                waiting = packet
            else:
                reported = self.address_of(packet, reported)
                way = "target" if packet[3] == "updiscon" else "explicit"
                added += self.walk(last, packet[1], reported, way)
        self.events += added
        if kind == "open":
            self.mode = packet[1]
        self.opened, self.closed = True, kind.startswith("ended")
        self.waiting, self.reported = waiting, reported

    def address_of(self, packet, reported):
        """The address of an address packet, behind the last reported one."""
        return packet[2] if self.mode == FULL else (reported + packet[2]) & MASK

    def settled(self, next_kind):
        """The piece of the packet that waits, by the kind of the packet after it."""
        if not self.waiting:
            return []
        way = "explicit" if next_kind in ("sync", "trap", "ended_rep") else "target"
        end = self.address_of(self.waiting, self.reported)
        return self.walk(self.events[-1], self.waiting[1], end, way)

    def retired(self, before, address, privilege, taken):
        """The retirement that a packet reports at an address."""
        if not self.program.retires(address):
            raise Refused("OffProgram")
        kind = self.program.at(address)[0]
        if taken and kind != "branch":
            raise Refused("Branches")
        one_place = leads_to(self.program, before)
        if one_place is not None and address != one_place:
            raise Refused("WrongPlace")
        if not retires_at(kind, privilege) or privilege not in privileges_after(self.program, before):
            raise Refused("WrongPrivilege")
        return "retire", address, 5 if taken else TYPES[kind][0], privilege

    def trapped(self, before, packet):
        """The trap of a packet, and the first retirement of its handler where the packet has it."""
        _, taken, privilege, cause, interrupt, handler, address, value = packet
        one_place = leads_to(self.program, before)
        if handler:
            if one_place is None:
                raise Refused("WrongPlace")
            trap = "trap", one_place, privilege_of(before), interrupt, cause, value
            return [trap, self.retired(trap, address, privilege, taken)]
        if taken:
            raise Refused("Branches")
        if one_place is not None and address != one_place:
            raise Refused("WrongPlace")
        if privilege not in privileges_after(self.program, before):
            raise Refused("WrongPrivilege")
        return [("trap", address, privilege, interrupt, cause, value)]

    def walk(self, event, outcomes, end, way):
        """The retirements after this one, by these outcomes, as far as the way goes."""
        found, left = [], list(outcomes)
        while True:
            if is_discontinuity(self.program, event):
                if way != "target":
                    raise Refused("WrongPlace")
                return found + [self.stepped(event, end, left, True)]
            if found and is_backward_jump(self.program, event):
                raise Refused("MissedNotify")
            event = self.stepped(event, leads_to(self.program, event), left, False)
            found.append(event)
            if not left and (way == "map" or way == "explicit" and event[1] == end):
                if way == "explicit" or kind_at(self.program, event) == "branch":
                    return found

    def stepped(self, before, address, left, is_last):
        """The retirement at an address, with the outcome that it takes from those that are left."""
        if not self.program.retires(address):
            raise Refused("OffProgram")
        kind = self.program.at(address)[0]
        if kind == "branch" and not left or is_last and len(left) != (kind == "branch"):
            raise Refused("Branches")
        privilege = privilege_of(before)
        if not retires_at(kind, privilege) or privilege not in privileges_after(self.program, before):
            raise Refused("WrongPrivilege")
        itype = (5 if left.pop(0) else 4) if kind == "branch" else TYPES[kind][0]
        return "retire", address, itype, privilege


# Captures.

MARK = bytes.fromhex("ffff") + b"rvtrace2" + bytes(1)
CUT = "the capture ends inside a message"
MOST_HARTS = 1024


class NoHeader(Exception):
    """The fault of a capture whose header is cut short or bad."""


def start(capture):
    """The mode, period and count of harts that the header of a capture has, or None; and where messages begin."""
    if capture[: len(MARK)] != MARK:
        return None, 0
    settings = capture[len(MARK) : len(MARK) + 5]
    if len(settings) < 5:
        raise NoHeader(f"message 0: {CUT}")
    mode, period = settings[0], int.from_bytes(settings[1:3], "little")
    harts = int.from_bytes(settings[3:5], "little")
    if mode not in MODES or period == 0 or not 1 <= harts <= MOST_HARTS:
        raise NoHeader("capture header is not valid")
    return (mode, period, harts), len(MARK) + 5


def messages(capture, at):
    """The messages of a capture from a place on, and then the fault at which they end, if there is one."""
    while at < len(capture):
        head = capture[at : at + 11]
        if len(head) == 11 and not 1 <= head[10] <= 18:
            yield "payload length is not 1 to 18"
            return
        if len(head) < 11 or at + 11 + head[10] > len(capture):
            yield CUT
            return
        payload = capture[at + 11 : at + 11 + head[10]]
        yield int.from_bytes(head[:2], "little"), int.from_bytes(head[2:10], "little"), payload
        at += 11 + len(payload)


def is_chosen(only, hart):
    """Whether a hart is one of those that `--only` asks for: the first and the last of them, or None for all."""
    return only is None or only[0] <= hart <= only[1]


def accepted(message, expected, decoders, is_lossy=False):
    """The packet of a message that a demultiplexer accepts; `is_lossy` where messages may be lost."""
    hart, count, payload = message
    if hart >= len(decoders):
        raise Refused("stranger")
    if decoders[hart].closed or expected[hart] >= 1 << 63:
        raise Refused("after close")
    if count < expected[hart]:
        raise Refused("repeat")
    if count >= 1 << 63 if is_lossy else count > expected[hart]:
        raise Refused(f"gap, expected number {expected[hart]}")
    try:
        return unpack(payload)
    except Refused as why:
        raise Refused(f"bad packet: {why}") from None


def decode(program, harts, capture, only=None):
    """Where decoding stops, and the decoder of each hart; `harts` says how many there are where no header does. Messages
    of harts that are not chosen are passed over."""
    try:
        header, at = start(capture)
    except NoHeader as why:
        return str(why), [Decoder(program) for _ in range(harts)]
    if header:
        harts = header[2]
    decoders, expected = [Decoder(program) for _ in range(harts)], [0] * harts
    for place, message in enumerate(messages(capture, at)):
        if isinstance(message, str):
            return f"message {place}: {message}", decoders
        if not is_chosen(only, message[0]):
            continue
        try:
            packet = accepted(message, expected, decoders)
        except Refused as why:
            return f"message {place}: {why}", decoders
        if header and packet[0] == "open" and packet[1] != header[0]:
            return f"message {place}: open of another mode", decoders
        try:
            decoders[message[0]].feed(packet)
        except Refused as why:
            return f"message {place}: not decoded: {why}", decoders
        expected[message[0]] += 1
    return "decoded", decoders


class Left:
    """What is left of a hart's log where messages are lost: its parts, each a count of messages or a list of events."""

    def __init__(self, program):
        self.program, self.parts, self.decoder = program, [], Decoder(program)
        self.mode = None
        self.closed = self.passes_over = False

    def take(self, number, missing, packet, mode):
        """Takes a packet, before which so many messages are missing; `mode` holds where no Open announced another."""
        if missing:
            self.end()
            self.parts.append(missing)
            self.decoder, self.passes_over = Decoder(self.program), True
            self.decoder.opened = True
            self.decoder.mode = mode if self.mode is None else self.mode
        if packet[0] == "sync":
            self.passes_over = False
        if not self.passes_over:
            self.decoder.feed(packet)
        if number == 0 and packet[0] == "open":
            self.mode = packet[1]
        self.closed = packet[0].startswith("ended")

    def end(self):
        if self.decoder.events:
            self.parts.append(self.decoder.events)


def lossy(program, harts, capture, only=None):
    """What is left of each hart's log, and the fault at which decoding stops, or None. All messages are read first; those
    of harts that are not chosen are passed over."""
    try:
        header, at = start(capture)
    except NoHeader as why:
        return [], str(why)
    mode, _, harts = header or (DIFFERENTIAL, None, harts)
    made = list(messages(capture, at))
    if made and isinstance(made[-1], str):
        return [], f"message {len(made) - 1}: {made[-1]}"
    left, expected = [Left(program) for _ in range(harts)], [0] * harts
    for place, message in enumerate(made):
        if not is_chosen(only, message[0]):
            continue
        try:
            packet = accepted(message, expected, left, is_lossy=True)
        except Refused as why:
            return [], f"message {place}: {why}"
        hart, number, _ = message
        try:
            left[hart].take(number, number - expected[hart], packet, mode)
        except Refused as why:
            return [], f"message {place}: not decoded: {why}"
        expected[hart] = number + 1
    for it in left:
        it.end()
    return left, None


def dump(capture, only=None):
    """The lines of a capture's header and messages, where they stop, and whether a payload is bad. Messages of harts that
    are not chosen are passed over."""
    try:
        header, at = start(capture)
    except NoHeader as why:
        return "", str(why), False
    lines, bad, stop, mode = [], False, "dumped", DIFFERENTIAL
    if header:
        mode, period, harts = header
        name = "full" if mode == FULL else "diff"
        lines.append(f"capture 2 mode={name} period={period} harts={harts}\n")
    for place, message in enumerate(messages(capture, at)):
        if isinstance(message, str):
            stop = f"message {place}: {message}"
            break
        hart, count, payload = message
        if not is_chosen(only, hart):
            continue
        try:
            text = packet_text(unpack(payload), mode)
        except Refused as why:
            text, bad = f"bad {why}", True
        lines.append(f"{hart} {count} {text}\n")
    return "".join(lines), stop, bad
