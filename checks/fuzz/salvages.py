"""What `tracebench salvage` prints, read by whole lists of messages, and damaged captures for it."""

import re

import cases
import csv_tables
import frames
import reading

END_OF_NUMBERS = 1 << 63
MODES = {reading.DIFFERENTIAL: "differential", reading.FULL: "full"}


def is_stranger(message, harts):
    return message[0] >= harts or message[1] >= END_OF_NUMBERS


def sorted_out(came):
    """The used messages of a hart by number, each with the place where it first came, its doubtful numbers with the
    places of the first two that differ, and how many copies there are."""
    payloads = {}
    for number, payload in came:
        payloads.setdefault(number, []).append(payload)
    copies = sum(it in came[:place] for place, it in enumerate(came))
    used, doubtful = {}, {}
    for number, own in payloads.items():
        places = [came.index((number, payload)) for payload in dict.fromkeys(own)]
        if len(places) > 1:
            doubtful[number] = places[:2]
        else:
            used[number] = own[0], places[0]
    return used, doubtful, copies


def far_numbers(used, doubtful):
    """The greatest set of used numbers such that each stands by itself, is ahead of a message, and is ahead of more than
    twice as many as any used number outside. With a number such a set has all that are ahead of as many."""
    ahead = {one: sum(it < one and used[it][1] > used[one][1] for it in used) for one in used}
    came = {**used, **doubtful}
    for least in sorted(set(ahead.values()) - {0}):
        far = {it for it in used if ahead[it] >= least}
        most = max((ahead[it] for it in used if it not in far), default=0)
        if least > 2 * most and not any(it - 1 in came or it + 1 in came for it in far):
            return far
    return set()


def packet_or_fault(payload):
    try:
        return reading.unpack(payload), None
    except reading.Refused as why:
        return None, f"bad packet: {why}"


class Taken:
    """What some numbers of a hart leave, taken in their order: its parts, what is bad of it, and the events that each
    number adds whose packet is decoded. To the packets up to
    `end` it is as if no number above it were used. Of those in `far` no gap knows."""

    def __init__(self, program, mode, used, doubtful, far, end=None):
        self.program, self.mode, self.used, self.end = program, mode, used, end
        self.parts, self.bad, self.added = [], {}, {}
        self.decoder, self.numbers, expected = reading.Decoder(program), [], 0
        for number in sorted({**doubtful, **used}):
            if end is not None and number > end:
                break
            if number > expected:
                self.pass_over()
            if number in far:
                self.take(number, True)
                continue
            if number > expected:
                self.parts.append(("gap", number - expected))
            expected = number
            if number in doubtful:
                self.pass_over()
                self.parts.append(("doubtful", number))
            else:
                self.take(number)
                expected = number + 1
        self.pass_over()

    def pass_over(self):
        """Ends the stretch under way; a synchronisation is looked for."""
        if self.decoder and self.decoder.events:
            self.parts.append(("stretch", self.decoder.events, self.numbers[0], self.numbers[-1]))
        self.decoder, self.numbers = None, []

    def take(self, number, is_far=False):
        if why := self.fault(number):
            self.pass_over()
            self.bad[number] = why
            self.parts.append(("bad", number))
        elif is_far:
            self.parts.append(("far", number))

    def fault(self, number):
        """Takes the message with this number; why it is bad, or None."""
        packet, why = packet_or_fault(self.used[number][0])
        if why:
            return why
        later = [it for it in self.used if number < it and (self.end is None or it <= self.end)]
        if packet[0].startswith("ended") and later:
            return f"closing, but number {min(later)} came"
        if not self.decoder and packet[0] != "sync":
            return None
        if not self.decoder:
            self.decoder = reading.Decoder(self.program)
            self.decoder.feed(("open", self.mode))
        before = len(self.decoder.events)
        try:
            self.decoder.feed(packet)
        except reading.Refused as why:
            return f"not decoded: {why}"
        self.numbers.append(number)
        self.added[number] = self.decoder.events[before:]
        return None


def closes(payload):
    packet, _ = packet_or_fault(payload)
    return bool(packet) and packet[0].startswith("ended")


class Salvage:
    """What is left of one hart's log: its parts in the order of numbers, and what is bad and alone of it."""

    def __init__(self, program, mode, came):
        self.used, self.doubtful, self.copies = sorted_out(came)
        self.of_doubtful = len({it for it in came if it[0] in self.doubtful})
        far = far_numbers(self.used, self.doubtful)
        opening = packet_or_fault(self.used[0][0])[0] if 0 in self.used else None
        self.mode = opening[1] if opening and opening[0] == "open" else mode
        first = Taken(program, self.mode, self.used, self.doubtful, far)
        end = self.end_of(first)
        taken = Taken(program, self.mode, self.used, self.doubtful, far, end) if end is not None else first
        self.parts, self.bad, self.added, self.alone = taken.parts, dict(taken.bad), taken.added, set()
        if end is not None:
            self.beyond(first, end)
        self.far = far - set(self.bad) - self.alone
        last = end if end is not None else max(self.used, default=None)
        self.closed = last is not None and closes(self.used[last][0])
        self.late = sum(map(self.is_late, self.used))

    def end_of(self, first):
        """The lowest number whose packet closes the trace, which is not the last that is used, and above which no
        stretch is found where all such are taken as bad; None where there is none."""
        stretches = [part[2] for part in first.parts if part[0] == "stretch"]
        ends = [
            number
            for number, (payload, _) in self.used.items()
            if closes(payload) and number < max(self.used) and not any(begin > number for begin in stretches)
        ]
        return min(ends, default=None)

    def beyond(self, first, end):
        """What is above the end: bad and doubtful as it was, and else alone. No gap is counted."""
        for number in sorted(it for it in {**self.used, **self.doubtful} if it > end):
            if number in self.doubtful:
                self.parts.append(("doubtful", number))
            elif number in first.bad:
                self.bad[number] = first.bad[number]
                self.parts.append(("bad", number))
            else:
                self.alone.add(number)
                self.parts.append(("alone", number))

    def is_believed(self, number):
        return number not in self.bad and number not in self.alone and number not in self.far

    def is_late(self, number):
        """Whether the used message with this number is believed, and one with a greater number came before it."""
        if not self.is_believed(number):
            return False
        earlier = (it for it in self.used if it > number and self.used[it][1] < self.used[number][1])
        return any(map(self.is_believed, earlier))

    def is_whole(self):
        return self.closed and all(part[0] == "stretch" for part in self.parts)

    def totals(self):
        """What the last line counts of the hart, by name."""
        events = [len(part[1]) for part in self.parts if part[0] == "stretch"]
        decoded = len(self.added.keys() - self.far)
        taken = {"bad": len(self.bad), "alone": len(self.alone), "far": len(self.far), "decoded": decoded}
        return {
            "rows": sum(events), **taken, "passed": len(self.used) - sum(taken.values()),
            "doubtful": self.of_doubtful, "copies": self.copies, "late": self.late,
        }

    def text(self, offsets, header_mode=None, is_summary=False):
        """The lines of a hart whose messages are at these offsets."""
        lines = "".join(self.part_text(part, offsets, is_summary) for part in self.parts)
        opens = header_mode is not None and self.mode != header_mode
        mode = f"mode: {MODES[self.mode]}, the header says {MODES[header_mode]}\n" if opens else ""
        return mode + lines + counted("copies", self.copies) + counted("late", self.late)

    def part_text(self, part, offsets, is_summary):
        if part[0] == "gap":
            return f"gap: {part[1]} messages\n"
        if part[0] == "doubtful":
            first, second = (offsets[place] for place in self.doubtful[part[1]])
            return f"doubtful: number {part[1]} at {first:08x} and {second:08x}\n"
        if part[0] == "bad":
            return f"bad: number {part[1]} at {offsets[self.used[part[1]][1]]:08x}: {self.bad[part[1]]}\n"
        if part[0] in ("alone", "far"):
            return f"{part[0]}: number {part[1]} at {offsets[self.used[part[1]][1]]:08x}\n"
        _, events, first, last = part
        rows = "" if is_summary else reading.log_text(events)
        return f"stretch: {len(events)} events, numbers {first} to {last}\n{rows}"


def counted(name, count):
    return f"{name}: {count} messages\n" if count else ""


def harts_of(found, header, harts):
    """How many harts there are: the header's; or as many as are asked for; or up to the highest of a frame."""
    if header:
        return header[2]
    if harts is not None:
        return harts
    return max((hart for _, (hart, *_) in found), default=0) + 1


TOTALS = (
    "rows", "decoded", "passed", "far", "bad", "alone", "doubtful", "copies", "strangers", "late", "bytes",
)


def totals_line(left, strangers, runs):
    """The last line: what is counted of all harts that are printed. Each message is counted once among those from
    `decoded` to `strangers`."""
    own = [it.totals() for it in left]
    count = {name: sum(it.get(name, 0) for it in own) for name in TOTALS} | {"strangers": strangers, "bytes": sum(runs)}
    kinds = TOTALS[1:9]
    front = f"all: {count['rows']} rows of {len(own)} harts, {sum(count[it] for it in kinds)} messages: "
    return front + ", ".join(f"{count[it]} {it}" for it in kinds) + f"; {count['late']} late, {count['bytes']} bytes\n"


def salvage(program, harts, capture, is_summary=False, only=None):
    """The status, the text and the error of salvaging the chosen harts of a capture; `harts` is the count that is asked
    for, or None."""
    header, at, fault = frames.start(capture)
    spans = list(frames.spans(capture, header, at))
    found = [span for span in spans if not isinstance(span[1], int)]
    runs = [span for span in spans if isinstance(span[1], int)]
    count = harts_of(found, header, harts)
    found = [(offset, message) for offset, message in found if reading.is_chosen(only, message[0])]
    own = [(offset, message) for offset, message in found if not is_stranger(message, count)]
    text, left = "", {}
    for hart in filter(lambda it: reading.is_chosen(only, it), range(count)):
        mine = [(offset, message[1:]) for offset, message in own if message[0] == hart]
        it = Salvage(program, header[0] if header else reading.DIFFERENTIAL, [came for _, came in mine])
        text += f"hart {hart}\n" + it.text([offset for offset, _ in mine], header and header[0], is_summary)
        left[hart] = it
    text += "".join(f"bytes: {size} at {offset:08x}\n" for offset, size in runs)
    text += counted("strangers", len(found) - len(own))
    text += totals_line(left.values(), len(found) - len(own), [size for _, size in runs])
    open_harts = (f"hart {hart}: no closing packet" for hart, it in left.items() if not it.closed)
    error = fault or next(open_harts, None)
    is_good = not error and not runs and len(found) == len(own) and all(it.is_whole() for it in left.values())
    return (0 if is_good else 1), text, error


COLUMNS = ("kind", "hart", "number", "last", "count", "offset", "second", "mode", "closed", "reason")
LINES = (
    (re.compile(r"(mode): \w+, the header says (\w+)"), ("kind", "mode")),
    (re.compile(r"(stretch): (\d+) events, numbers (\d+) to (\d+)"), ("kind", "count", "number", "last")),
    (re.compile(r"(gap|copies|late|strangers): (\d+) messages"), ("kind", "count")),
    (re.compile(r"(bad): number (\d+) at (\w+): (.*)"), ("kind", "number", "offset", "reason")),
    (re.compile(r"(doubtful): number (\d+) at (\w+) and (\w+)"), ("kind", "number", "offset", "second")),
    (re.compile(r"(alone|far): number (\d+) at (\w+)"), ("kind", "number", "offset")),
    (re.compile(r"(bytes): (\d+) at (\w+)"), ("kind", "count", "offset")),
)


def rows_of(text, harts):
    """The rows of a table by the lines of a summary. Of each hart, in `harts`, its mode and whether it is closed are said
    in its row alone."""
    rows, hart = [], ""
    for line in text.splitlines():
        if line.startswith("hart "):
            hart = line.removeprefix("hart ")
            mode, closed = harts[int(hart)]
            said = {"kind": "hart", "mode": mode, "closed": "yes" if closed else "no"}
        elif line.startswith("all: "):
            rows += [dict.fromkeys(COLUMNS, "") | {"kind": "all", "count": count, "reason": name}
                     for count, name in re.findall(r"(\d+) (\w+)", line) if name in TOTALS]
            continue
        else:
            found, names = next((found, names) for form, names in LINES if (found := form.fullmatch(line)))
            said = dict(zip(names, found.groups()))
        of_hart = "" if said["kind"] in ("bytes", "strangers") else hart
        rows.append(dict.fromkeys(COLUMNS, "") | {"hart": of_hart} | said)
    return rows


def is_table_of(table, text, harts):
    """Whether the bytes of a table are read as the rows of a summary, under the names of the columns."""
    try:
        return csv_tables.rows_of(table, COLUMNS) == rows_of(text, harts)
    except csv_tables.NotTheText:
        return False


def modes_and_ends(program, harts, capture):
    """Of each hart of a capture in which mode it is read, and whether it is closed, where all are chosen."""
    header, found = frames.found(capture)
    count = harts_of(found, header, harts)
    read = []
    for hart in range(count):
        mine = [message[1:] for _, message in found if message[0] == hart and not is_stranger(message, count)]
        it = Salvage(program, header[0] if header else reading.DIFFERENTIAL, mine)
        read.append((MODES[it.mode], it.closed))
    return read


def kind_of(text, error):
    """What was salvaged, without numbers: which words stand in the text, and the error."""
    words = (
        "mode: ", "stretch: ", "gap: ", "bad: ", "doubtful: ", "alone: ", "far: ", "copies: ", "late: ", "bytes: ",
        "strangers: ",
    )
    found = [word.strip(": ") for word in words if word in text]
    return ", ".join((*found, *([error] if error else ["all closed"])))


def some_of(random, made):
    """All or some of messages in an order of their own, some of them again."""
    made = list(made)
    what = random.randrange(6)
    if what >= 1:
        made = [it for it in made if random.random() < random.choice((0.6, 0.9, 1))]
    if what >= 2:
        made += [random.choice(made) for _ in range(random.choice((0, 1, 3))) if made]
    if what >= 3:
        random.shuffle(made)
    return made


def everyday_damage(random, made, harts):
    """A doubled message, two swapped, one with a bit flipped, another of its number, a stranger, a closing packet."""
    made = list(made)
    for _ in range(random.choice((0, 1, 1, 2, 4))):
        if not made:
            break
        at, what = random.randrange(len(made)), random.randrange(8)
        hart, number, payload = made[at]
        flipped = bytearray(payload)
        flipped[random.randrange(len(flipped))] ^= 1 << random.randrange(8)
        if what == 0:
            made.insert(at, made[at])
        elif what == 1:
            to = min(at + 1, len(made) - 1)
            made[at], made[to] = made[to], made[at]
        elif what <= 3:
            made[at] = hart, number, bytes(flipped)
        elif what == 4:
            made.insert(random.randrange(len(made) + 1), (hart, number, bytes(flipped)))
        elif what == 5:
            made.insert(at, random.choice(((harts, number, payload), (hart, END_OF_NUMBERS | number, payload))))
        elif what == 6:
            made[at] = hart, number, cases.payload_of(random.choice((("ended_rep",), ("ended_ntr",))))
        else:
            made[at] = hart, random.choice((number ^ 1, max(number, 1) - 1, number + 60, END_OF_NUMBERS - 1)), payload
    return made


def capture(maker, harts):
    """A damaged capture of so many harts, with a header or without."""
    random = maker.random
    mode = random.choice(reading.MODES)
    start = cases.header(mode, random.choice((1, 8, 1024)), harts) if random.randrange(2) else b""
    what = random.randrange(8)
    made = maker.in_order(harts) if what == 0 else maker.good(harts, (mode,) if start else reading.MODES)
    if what >= 2:
        made = some_of(random, made)
    if what >= 4:
        made = everyday_damage(random, made, harts)
    if what == 5:
        made = maker.lost(made, harts)
    text = start + b"".join(cases.message(*it) for it in made)
    tail = random.randrange(12)
    if tail == 0:
        text += bytes(random.randrange(1, 40))
    elif tail == 1:
        text = text[: random.randrange(len(text) + 1)]
    elif tail == 2:
        text = maker.broken(text)
    return text
