"""Programs, logs and captures for `fuzz`: good ones, made by docs/FORMATS.md, and broken ones."""

import reading
import wire
from reading import MASK, is_discontinuity, is_retirement, kind_at, leads_to, privilege_of

# Words as the RISC-V Unprivileged ISA and the Privileged Architecture encode them: plain words, branches, jumps and
# uninferable jumps in both lengths, returns from traps, and words that do not retire.
WORDS = [
    (0x13, 4), (0x1, 2), (0x1, 2), (0x463, 4), (0x863, 4), (0xFE000EE3, 4), (0xC105, 2), (0xE091, 2), (0xFC7D, 2),
    (0x80006F, 4), (0xFFDFF06F, 4), (0x6F, 4), (0xA011, 2), (0xBFFD, 2), (0x8067, 4), (0x8082, 2), (0x9082, 2),
    (0x10200073, 4), (0x30200073, 4), (0x73, 4), (0x9002, 2), (0x0, 2), (0x1F, 2), (0x10000067, 4),
]
BASES = [0x80000000, 0x80000000, 0x80000000, 0, 0x100, 0x7FFFFFFFFFFFFFC0, 0xFFFFFFFFFFFFFF00]


def image(random):
    """A program of 4 to 40 words, sometimes cut or with random bytes in it."""
    words = [random.choice(WORDS) for _ in range(random.randint(4, 40))]
    made = bytearray(b"".join(word.to_bytes(length, "little") for word, length in words))
    for _ in range(random.choice((0, 0, 2, 8))):
        made[random.randrange(len(made))] = random.randrange(256)
    return random.choice(BASES), bytes(made[: len(made) - random.choice((0, 0, 0, 1))])


def any_place(random, program, more=1):
    """An even address of a piece, or one of so many behind it."""
    base, image = program.pieces[0] if len(program.pieces) == 1 else random.choice(program.pieces)
    return base + 2 * random.randrange(len(image) // 2 + more)


def any_retirement(random, program, privileges):
    """A retirement at one of these privileges, wherever the program has one; None where a few throws find none."""
    for _ in range(8):
        address = any_place(random, program)
        if found := retirement_at(random, program, address, privileges):
            return found
    return None


def retirement_at(random, program, address, privileges):
    if not program.retires(address):
        return None
    kind = program.at(address)[0]
    fit = [level for level in privileges if reading.retires_at(kind, level)]
    return ("retire", address, random.choice(reading.TYPES[kind]), random.choice(fit)) if fit else None


def any_trap(random, place, privileges):
    interrupt = random.random() < 0.5
    epc = random.choice((random.getrandbits(64), 0x80000000, 0x100)) & ~1 if place is None else place
    value = 0 if interrupt else random.choice((0, 1, 0x80000004, random.getrandbits(64)))
    return "trap", epc, random.choice(privileges), interrupt, random.randrange(64), value


def legal_log(random, program, count, begun=()):
    """So many events, or fewer, of a hart that runs the program, behind those with which its log begins."""
    events, trap_rate = list(begun), random.choice((0.01, 0.1, 0.4))
    before = events[-1] if events else None
    for _ in range(count):
        place = leads_to(program, before) if before else None
        privileges = reading.privileges_after(program, before)
        event = None
        if random.random() >= trap_rate:
            if place is None:
                event = any_retirement(random, program, privileges)
            else:
                event = retirement_at(random, program, place, privileges)
        if event is None and place is not None and place % 2:
            break
        before = event or any_trap(random, place, privileges)
        events.append(before)
    return events


# Packets of a log, by the table of rules.


def has_handler(program, before, after):
    return is_retirement(before) and not is_discontinuity(program, before) and is_retirement(after)


def rule_of(program, events, numbers, period, place):
    """The rule that reports an event, without the rule of the 31st branch."""
    at = lambda index: events[index] if 0 <= index < len(events) else None
    event, before, after = at(place), at(place - 1), at(place + 1)
    if event is None:
        return None
    if not is_retirement(event):
        return "trap"
    if before is not None and not is_retirement(before):
        return "handler" if has_handler(program, at(place - 2), event) else "sync"
    changed = before is not None and privilege_of(before) != privilege_of(event)
    if before is None or changed or numbers[place] % period == 0:
        return "sync"
    if is_discontinuity(program, before):
        return "target"
    if after is None or not is_retirement(after) or rule_of(program, events, numbers, period, place + 1) == "sync":
        return "explicit"
    return "notify" if reading.is_backward_jump(program, event) else None


def packets(program, events, period, mode):
    """The packets of a legal log, in a mode."""
    numbers, count = [], 0
    for event in events:
        numbers.append(count)
        count += is_retirement(event)
    yield "open", mode
    reported, outcomes, last_rule = 0, [], None
    for place, event in enumerate(events):
        rule = last_rule = rule_of(program, events, numbers, period, place)
        is_branch = is_retirement(event) and kind_at(program, event) == "branch"
        taken = is_branch and event[2] == 5
        if is_branch:
            outcomes.append(taken)
        after = events[place + 1] if place + 1 < len(events) else None
        if rule == "trap":
            _, epc, privilege, interrupt, cause, value = event
            if place and has_handler(program, events[place - 1], after):
                taken = kind_at(program, after) == "branch" and after[2] == 5
                reported = after[1]
                yield "trap", taken, privilege_of(after), cause, interrupt, True, reported, value
            else:
                reported = epc
                yield "trap", False, privilege, cause, interrupt, False, epc, value
        elif rule == "sync":
            reported = event[1]
            yield "sync", taken, privilege_of(event), reported
        elif rule in ("target", "explicit", "notify"):
            report = "notify" if rule == "notify" else "plain"
            next_rule = rule_of(program, events, numbers, period, place + 1)
            if rule == "target" and next_rule in ("trap", "sync"):
                report = "updiscon"
            delta = event[1] if mode == reading.FULL else (event[1] - reported) & MASK
            reported = event[1]
            yield "address", tuple(outcomes), delta, report
        elif rule is None and len(outcomes) == 31:
            yield "map", tuple(outcomes)
        elif rule is None:
            continue
        outcomes = []
    yield ("ended_rep",) if last_rule == "explicit" else ("ended_ntr",)


# Payloads and messages.

SUPPORT = {name: pair for pair, name in reading.SUPPORT.items()}


def tail(delta, report):
    """The address field and the three bits behind it."""
    notify = delta >> 63 ^ (report == "notify")
    updiscon = notify ^ (report == "updiscon")
    return [(63, delta >> 1), (1, notify), (1, updiscon), (1, updiscon)]


def fields_of(packet):
    """The fields of a packet; a support packet may have any number as its options, which are 0 where none is there."""
    kind = packet[0]
    if kind in SUPPORT:
        enabled, status = SUPPORT[kind]
        return [(2, 3), (2, 3), (1, enabled), (1, 0), (2, status), (5, *(packet[1:] or (0,)))]
    if kind == "sync":
        return [(2, 3), (2, 0), (1, not packet[1]), (2, packet[2]), (63, packet[3] >> 1)]
    if kind == "trap":
        _, taken, privilege, cause, interrupt, handler, address, value = packet
        front = [(2, 3), (2, 1), (1, not taken), (2, privilege), (6, cause), (1, interrupt), (1, handler)]
        return front + [(63, address >> 1)] + ([] if interrupt else [(64, value)])
    outcomes = packet[1]
    number = sum((not taken) << place for place, taken in enumerate(outcomes))
    if kind == "map":
        return [(2, 1), (5, 0), (31, number)]
    if not outcomes:
        return [(2, 2)] + tail(*packet[2:])
    return [(2, 1), (5, len(outcomes)), (reading.map_width(len(outcomes)), number)] + tail(*packet[2:])


def payload_of(packet, more=0):
    """The shortest payload of a packet, or one that is up to so many bytes longer."""
    return wire.spell(fields_of(packet), more)


message = wire.message


def header(mode, period, harts):
    """The header of a capture of version 2."""
    return wire.header(harts, period, mode)


def any_packet(random, program):
    """A packet that may or may not fit."""
    near = lambda: any_place(random, program, 2)
    outcomes = lambda count: tuple(random.random() < 0.5 for _ in range(count))
    privilege = random.choice((0, 1, 3, 3))
    kind = random.choice(("sync", "trap", "address", "address", "address", "map", "open", "ended_rep", "ended_ntr"))
    if kind == "sync":
        return "sync", random.random() < 0.2, privilege, near()
    if kind == "trap":
        interrupt, handler = random.random() < 0.5, random.random() < 0.5
        value = 0 if interrupt else random.choice((0, random.getrandbits(64)))
        return "trap", random.random() < 0.1, privilege, random.randrange(64), interrupt, handler, near(), value
    if kind == "address":
        address, difference = near(), near() - program.base
        delta = random.choice((2, 4, 8, address, address, difference, MASK + 1 - 4, random.getrandbits(64))) & MASK & ~1
        report = random.choice(("plain", "plain", "updiscon", "notify"))
        return "address", outcomes(random.choice((0, 0, 0, 1, 2, 5, 31))), delta, report
    if kind == "map":
        return "map", outcomes(31)
    options = random.choice(reading.MODES) if kind == "open" else 0
    return kind, random.randrange(32) if random.random() < 0.1 else options


class Maker:
    """Cases over one program, a random one if none is given."""

    def __init__(self, random, program=None):
        self.random = random
        self.program = program or reading.Program(*image(random))
        self.logs = [legal_log(random, self.program, random.choice((0, 1, 2, 5, 20, 80))) for _ in range(24)]
        self.payloads = {mode: [self.payloads_of(log, mode) for log in self.logs] for mode in reading.MODES}

    def payloads_of(self, log, mode):
        """The payloads of a log in a mode, at some period; a few are longer than they have to be."""
        made = packets(self.program, log, self.random.choice((1, 3, 8, 1024)), mode)
        return [payload_of(packet, self.random.choice((0, 0, 0, 1))) for packet in made]

    def good(self, harts, modes):
        """The messages of a hart each, in some of these modes, in some order that keeps each hart's."""
        random = self.random
        queues = [list(enumerate(random.choice(self.payloads[random.choice(modes)]))) for _ in range(harts)]
        made = []
        while left := [hart for hart in range(harts) if queues[hart]]:
            hart = self.random.choice(left)
            made.append((hart, *queues[hart].pop(0)))
        return made

    def disturbed(self, made, harts):
        """Messages dropped, doubled, swapped, of other harts, with other numbers, payloads, packets or modes."""
        random = self.random
        for _ in range(random.choice((1, 1, 2, 3))):
            if not made:
                return made
            at, to = random.randrange(len(made)), random.randrange(len(made))
            hart, number, payload = made[at]
            what = random.randrange(8)
            if what == 0:
                del made[at]
            elif what == 1:
                made.insert(to, made[at])
            elif what == 2:
                made[at], made[to] = made[to], made[at]
            elif what == 3:
                made[at] = random.randrange(harts + 1), number, payload
            elif what == 4:
                made[at] = hart, random.choice((number + 1, max(number, 1) - 1, 1 << 63, random.getrandbits(64))), payload
            elif what == 5:
                made[at] = hart, number, random.randbytes(random.choice((1, 1, 2, 5, 18)))
            elif what == 6:
                opening = payload_of(("open", random.choice(reading.MODES)))
                made = [(hart, number, payload if number else opening) for hart, number, payload in made]
            else:
                made[at] = hart, number, payload_of(any_packet(random, self.program))
        return made

    def lost(self, made, harts):
        """Messages of a hart or two lost: one, some in a row, all but one, the first, the last, about half."""
        random = self.random
        for _ in range(random.choice((1, 1, 2))):
            hart, what = random.randrange(harts), random.randrange(6)
            own = [number for of, number, _ in made if of == hart]
            if not own:
                continue
            one, row = random.choice(own), random.randint(2, 6)
            lost = {
                0: {one},
                1: set(range(one, one + row)),
                2: set(own) - {one},
                3: {own[0]},
                4: {own[-1]},
                5: {number for number in own if random.randrange(2)},
            }[what]
            made = [it for it in made if it[0] != hart or it[1] not in lost]
        return made

    def in_order(self, harts):
        """Random packets with the right harts and numbers, most of them behind an opening and a sync."""
        random, counts, made = self.random, [0] * harts, []
        for _ in range(random.randint(1, 12)):
            hart = random.randrange(harts)
            packet = any_packet(random, self.program)
            if counts[hart] < 2 and random.random() < 0.9:
                opening = "open", random.choice(reading.MODES)
                packet = opening if counts[hart] == 0 else ("sync", False, 3, self.program.base)
            made.append((hart, counts[hart], payload_of(packet)))
            counts[hart] += 1
        return made

    def broken(self, text):
        """Bytes changed, cut out, put in or left off."""
        random, made = self.random, bytearray(text)
        for _ in range(random.choice((1, 1, 2, 4))):
            at = random.randrange(len(made) + 1)
            what = random.randrange(5)
            if what == 0 and at < len(made):
                made[at] = random.randrange(256)
            elif what == 1 and at < len(made):
                made[at] ^= 1 << random.randrange(8)
            elif what == 2:
                del made[at : at + random.randint(1, 12)]
            elif what == 3:
                made[at:at] = random.randbytes(random.randint(1, 3))
            else:
                del made[at:]
        return bytes(made)

    def capture(self, harts):
        """A capture of about so many harts, a third of them with a header."""
        random = self.random
        if random.randrange(3):
            return self.messages(harts, reading.MODES)
        mode = random.choice(reading.MODES)
        counted = random.choice((harts, harts, harts, harts, harts + 1, 1)) if random.randrange(100) else 1024
        made = header(mode, random.choice((1, 8, 1024, 0xFFFF)), counted)
        made += self.messages(harts, random.choice(((mode,), (mode,), reading.MODES)))
        return self.with_other_header(made) if random.randrange(3) == 0 else made

    def with_other_header(self, text):
        """A capture with a header, of which a byte or two are changed, or in or behind which the capture ends."""
        random, made = self.random, bytearray(text)
        if random.randrange(4) == 0:
            return bytes(made[: random.randrange(17)])
        for _ in range(random.choice((1, 1, 2))):
            at = random.choice((random.randrange(11), 11, 12, 13, 14, 15))
            made[at] = random.choice((0, 1, 2, 4, made[at] ^ 1 << random.randrange(8), random.randrange(256)))
        return bytes(made)

    def messages(self, harts, modes):
        """Messages with no header, those of good captures in some of these modes; or any bytes."""
        random, what = self.random, self.random.randrange(10)
        if what == 0:
            return random.randbytes(random.randrange(60))
        if what <= 2:
            return b"".join(message(*it) for it in self.in_order(harts))
        made = self.good(harts, modes)
        if what <= 4:
            made = self.lost(made, harts)
        elif what <= 6:
            made = self.disturbed(made, harts)
        text = b"".join(message(*it) for it in made)
        return self.broken(text) if what >= 8 else text

    def any_row(self, text):
        """A row with one field, or the number of its fields, changed."""
        random = self.random
        fields = text.split(b",")
        at = random.randrange(len(fields))
        values = (b"", b"0", b"1", b"2", b"3", b"5", b"7", b"40", b"3f", b"g", b"0x4", b"0X", b" 4", b"-1", b"80000000",
                  b"80000001", b"10000000000000000", b"00000000000000004", b'"3"', b'"', b'3"', b'"3"4', b"%x" % self.program.base)
        fields[at] = random.choice(values)
        if random.random() < 0.1:
            fields = random.choice((fields[1:], fields + [b""]))
        return b",".join(fields)

    def log(self):
        random, what = self.random, self.random.randrange(12)
        if what == 0:
            return random.randbytes(random.randrange(60))
        rows = reading.log_text(random.choice(self.logs)).encode().split(b"\n")
        if 2 <= what <= 7:
            for _ in range(random.choice((1, 1, 2))):
                at, to = random.randrange(len(rows)), random.randrange(len(rows))
                if what == 2:
                    rows[at], rows[to] = rows[to], rows[at]
                elif what == 3:
                    rows.insert(to, rows[at])
                elif what == 4 and len(rows) > 1:
                    del rows[at]
                else:
                    at = at if random.random() < 0.1 else max(at, 1) % len(rows)
                    rows[at] = self.any_row(rows[at])
        if what == 8:
            end = random.choice((b"\r\n", b"\r", b"\n\n", b"\n\r\n"))
            return random.choice((b"", b"\xef\xbb\xbf", b"\n")) + end.join(rows)
        if what == 9:
            pieces = (b",", b'"', b"\n", b"\r", b"\r\n", b"0", b"3", b"80000000,0,3,,", b'""', b"x")
            return reading.HEADER.encode() + b"\n" + b"".join(random.choice(pieces) for _ in range(random.randrange(20)))
        text = b"\n".join(rows)
        return self.broken(text) if what >= 10 else text

    def spelt_field(self, field):
        """A field in quotes or not, which `csv` reads as the same."""
        what = self.random.randrange(4)
        if what == 0:
            return b'"' + field + b'"'
        if what == 1:
            return b'""' + field
        return b'"' + field[:1] + b'"' + field[1:] if what == 2 else field

    def misspelt(self, row):
        """A row with a quote too many or too few, a comma or the end of a line in quotes."""
        at = self.random.randrange(len(row) + 1)
        return row[:at] + self.random.choice((b'""', b'"', b'"\n', b'"\r\n4', b'""""', b'","')) + row[at:]

    def spelt_log(self):
        """A log of a few rows in one of many spellings: fields in quotes, other ends of lines, empty lines, a byte order
        mark; some with a faulty row or bytes changed."""
        random = self.random
        events = random.choice(self.logs)
        first = random.randrange(max(len(events), 1))
        events = events[first : first + random.choice((1, 1, 2, 2, 3, 5))]
        rows = [row.encode() for row in reading.log_text(events).splitlines()]
        at = random.randrange(1, len(rows)) if len(rows) > 1 and random.randrange(20) else 0
        if random.randrange(4) == 0:
            rows[at] = self.any_row(rows[at])
        if random.randrange(3):
            share = random.choice((0.2, 1))
            quoted = [b",".join(map(self.spelt_field, row.split(b","))) for row in rows]
            rows = [other if random.random() < share else row for row, other in zip(rows, quoted)]
        if random.randrange(6) == 0:
            rows[at] = self.misspelt(rows[at])
        ends = random.choice(((b"\n",), (b"\r\n",), (b"\r",), (b"\n", b"\r\n", b"\r", b"\n\n", b"\r\r\n")))
        text = b"".join(row + random.choice(ends) for row in rows)
        text = random.choice((b"", b"", b"", b"\xef\xbb\xbf", b"\n", b"\r\n")) + text
        if random.randrange(2):
            text = text.rstrip(b"\r\n")
        return self.broken(text) if random.randrange(10) == 0 else text
