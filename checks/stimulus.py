"""The stimulus generator by its description in docs/FORMATS.md, written a second time.

    python3 checks/stimulus.py image SEED MIX
    python3 checks/stimulus.py log SEED MIX HART EVENTS
    python3 checks/stimulus.py capture SEED MIX HARTS MESSAGES PERIOD full|diff BURST
    python3 checks/stimulus.py cases
    python3 checks/stimulus.py runs
    python3 checks/stimulus.py mixed
    python3 checks/stimulus.py calls
    python3 checks/stimulus.py example
    python3 checks/stimulus.py table

The first three write images, logs and captures of version 2, at base 80000000. The fourth writes the lines of
crates/path_vectors/data/stimuli.cases that have an answer, the fifth the runs with an output of
crates/transcripts/data/generate.transcript, and the sixth the runs of `encode --mixed` of
crates/transcripts/data/several_logs.transcript, by the messages that stand there. The next two write
crates/ffi_vectors/data/generated.cases and examples/c/expected_stimulus.txt, and the last the table of docs/FORMATS.md
of what comes in the first 20,000 events.
"""
import itertools
import os
import sys

import wire

MASK = (1 << 64) - 1
SLOTS = 1024
HEADER = "addr,itype,priv,cause,tval\n"
KINDS = ["short plain", "plain", "branch", "short branch", "jump", "short jump", "computed", "short computed", "mret",
         "sret", "call"]
# How many of 256 slots have each kind, the calls being the rest.
ALL = [56, 56, 48, 24, 12, 12, 12, 18, 8, 6]
SLOTS_OF = {
    "mixed": ALL,
    "branches": [0, 0, 256, 0, 0, 0, 0, 0, 0, 0],
    "jumps": [0, 0, 0, 0, 0, 0, 0, 256, 0, 0],
    "traps": ALL,
    "longest": ALL,
    "straight": [128, 128, 0, 0, 0, 0, 0, 0, 0, 0],
}
# Traps of 65,536 events, and of those that may be anywhere; interrupts of 256 traps; and the bits by which a trap value
# is shortened at most.
HABITS = {
    "mixed": (512, 16384, 128, 63),
    "branches": (0, 0, 0, 63),
    "jumps": (0, 0, 0, 63),
    "traps": (21845, 21845, 128, 63),
    "longest": (49152, 49152, 0, 7),
    "straight": (16, 16, 128, 63),
}


class Pcg32:
    """The generator PCG XSH RR 64/32."""

    def __init__(self, state, stream):
        self.increment = (stream << 1 | 1) & MASK
        self.state = 0
        self.step()
        self.state = (self.state + state) & MASK
        self.step()

    def step(self):
        self.state = (self.state * 6364136223846793005 + self.increment) & MASK

    def draw(self):
        old = self.state
        self.step()
        word = ((old >> 18 ^ old) >> 27) & 0xFFFFFFFF
        turn = old >> 59
        return (word >> turn | word << (32 - turn)) & 0xFFFFFFFF


def bit(number, *places):
    """The number whose bits, the lowest first, are those at these places."""
    return sum((number >> place & 1) << at for at, place in enumerate(places))


def load(bits):
    return 0x4001 | (bits & 0x7FF) << 2


def slot(mix, seed, number):
    """The kind and the target of a slot, and its word."""
    draws = Pcg32(seed, number)
    pick, bits = draws.draw() & 255, draws.draw()
    kind = len(SLOTS_OF[mix])
    for place, count in enumerate(SLOTS_OF[mix]):
        if pick < count:
            kind = place
            break
        pick -= count
    kind = KINDS[kind]
    if kind == "short plain":
        return kind, None, load(bits) | load(bits >> 11) << 16
    if kind == "plain":
        return kind, None, 0x13 | (bits & 31) << 7 | (bits >> 5 & 0x1FFFF) << 15
    if kind == "branch":
        to = bits % SLOTS
        far, rest = 4 * (to - number), bits >> 10
        condition = (0, 1, 4, 5, 6, 7)[rest % 6]
        word = 0x63 | bit(far, 11) << 7 | bit(far, 1, 2, 3, 4) << 8 | condition << 12 | (rest >> 3 & 0x3FF) << 15
        return kind, to, word | bit(far, 5, 6, 7, 8, 9, 10) << 25 | bit(far, 12) << 31
    if kind == "short branch":
        to = number - number % 4 + bits % 4
        far, rest = 4 * (to - number), bits >> 6
        word = 0xC001 | bit(far, 5, 1, 2, 6, 7) << 2 | (rest & 7) << 7 | bit(far, 3, 4, 8) << 10 | (rest >> 3 & 1) << 13
        return kind, to, word | load(bits >> 11) << 16
    if kind == "jump":
        to = bits % SLOTS
        far, rest = 4 * (to - number), bits >> 10
        word = 0x6F | (rest & 31) << 7 | bit(far, *range(12, 20)) << 12 | bit(far, 11) << 20
        return kind, to, word | bit(far, *range(1, 11)) << 21 | bit(far, 20) << 31
    if kind == "short jump":
        to = number - number % 512 + bits % 512
        far = 4 * (to - number) - 2
        word = 0xA001 | bit(far, 5, 1, 2, 3, 7, 6, 10, 8, 9, 4, 11) << 2
        return kind, to, load(bits >> 11) | word << 16
    if kind == "computed":
        return kind, None, 0x67 | (bits & 31) << 7 | (1 + (bits >> 5) % 31) << 15 | (bits >> 10 & 0xFFF) << 20
    if kind == "short computed":
        return kind, None, load(bits >> 11) | (0x8002 | (1 + bits % 31) << 7 | (bits >> 5 & 1) << 12) << 16
    return kind, None, {"mret": 0x30200073, "sret": 0x10200073, "call": 0x73}[kind]


def image(mix, seed):
    return b"".join(slot(mix, seed, number)[2].to_bytes(4, "little") for number in range(SLOTS))


def program(mix, seed, base):
    """What is at each address that has an instruction: its class, its length and its target."""
    at = {}
    for number in range(SLOTS):
        kind, to, _ = slot(mix, seed, number)
        target = None if to is None else base + 4 * to
        here = base + 4 * number
        halves = {
            "short plain": ("plain", "plain"), "short branch": ("branch", "plain"), "short jump": ("plain", "jump"),
            "short computed": ("plain", "computed"),
        }
        if kind in halves:
            for half, name in enumerate(halves[kind]):
                at[here + 2 * half] = name, 2, target
        else:
            at[here] = kind, 4, target
    return at


class Walk:
    """A hart that runs a program: where it is, whether the next event may be anywhere, its level, and its draws."""

    def __init__(self, mix, seed, hart, base):
        self.at, self.base, self.habits = program(mix, seed, base), base, HABITS[mix]
        self.draws = Pcg32(seed, 0x10000 + hart)
        self.draw = self.draws.draw
        self.land()
        self.now = self.level(3)

    def land(self):
        self.place, self.free = self.base + self.draw() % (4 * SLOTS) // 4 * 4, True

    def level(self, greatest):
        if greatest < 3:
            return self.draw() % 2
        return (0, 1, 3)[self.draw() % 3]

    def number(self, most):
        low, high = self.draw(), self.draw()
        return (high << 32 | low) >> self.draw() % (most + 1)

    def trap(self):
        """The trap that comes now, if one does."""
        traps, nested, interrupts, shortened = self.habits
        place, now = self.place, self.now
        if self.draw() % 65536 < (nested if self.free else traps):
            word = self.draw()
            epc = self.number(63) & ~1 if self.free and word // 256 % 2 == 0 else place
            if word % 256 < interrupts:
                return epc, 2, now, word // 1024 % 16, 0
            return epc, 1, now, word // 1024 % 64, self.number(shortened)
        if place not in self.at:
            return place, 1, now, 1, place
        name = self.at[place][0]
        if name == "call":
            return place, 1, now, 8 + now, 0
        if name == "mret" and now != 3 or name == "sret" and now == 0:
            return place, 1, now, 2, 0
        return None

    def next(self):
        """The next event and its class: a retirement (addr, itype, priv) or a trap (epc, itype, priv, cause, tval)."""
        place, now = self.place, self.now
        trap = self.trap()
        if trap:
            self.land()
            if now != 3:
                self.now = 3 if self.draw() % 2 == 0 else 1
            return trap, "trap"
        name, length, target = self.at[place]
        if name == "branch":
            taken = self.draw() % 256 < (240 if target <= place else 128) or place + length not in self.at
            self.place, self.free = target if taken else place + length, False
            return (place, 5 if taken else 4, now), name
        if name == "plain" or name == "jump":
            self.place, self.free = target if name == "jump" else place + length, False
            return (place, 0, now), name
        self.land()
        if name != "computed":
            self.now = self.level(3 if name == "mret" else 1)
        return (place, 6 if name == "computed" else 3, now), name


def events(mix, seed, hart, count, base=0x80000000):
    """The events of a hart, each with its class."""
    walk = Walk(mix, seed, hart, base)
    for _ in range(count) if count is not None else itertools.count():
        yield walk.next()


def row(event):
    if len(event) == 3:
        return "%x,%x,%x,,\n" % event
    epc, itype, privilege, cause, value = event
    return "%x,%x,%x,%x,%s\n" % (epc, itype, privilege, cause, "" if itype == 2 else "%x" % value)


RETURNS = ("computed", "mret", "sret")
COUNT = 20000  # how many events of a log are looked at
KINDS_OF_PACKETS = ("support", "sync", "trap", "address", "updiscon", "notify", "map")


class Sender:
    """A hart that sends the packets of its trace, each as its kind and its payload, as soon as it is known."""

    def __init__(self, mix, seed, hart, period, full, base=0x80000000):
        self.at, self.period, self.full = program(mix, seed, base), period, full
        self.events = events(mix, seed, hart, None, base)
        self.before = self.event = None  # each an event and its class
        self.number, self.outcomes, self.reported = -1, [], 0
        self.has_handler = self.is_handler = self.is_explicit = False
        self.taken = None  # how many events were taken; None before the trace is opened

    def send(self):
        """The next packet: Open, or that of the first event that has one."""
        if self.taken is None:
            self.taken = 0
            return "support", wire.OPEN_FULL if self.full else wire.OPEN
        packet = None
        while not packet:
            packet = self.take(next(self.events))
        return packet

    def close(self):
        """The packets that are left, and the one that closes the trace."""
        opened = [] if self.taken is not None else [self.send()]
        last = [self.decide(None)] if self.event else []
        closing = wire.ENDED_REP if self.is_explicit else wire.ENDED_NTR
        return opened + [each for each in last if each] + [("support", closing)]

    def take(self, after):
        packet = self.decide(after) if self.event else None
        self.taken += 1
        self.before, self.event = self.event, after
        self.is_handler, self.has_handler = self.has_handler, False
        if after[1] == "trap":
            return packet
        self.number += 1
        if after[1] == "branch":
            self.outcomes.append(after[0][1] == 4)
        return self.trap(self.before[0], after[0]) if self.is_handler else packet

    def starts(self, number, before, level):
        return not before or before[1] == "trap" or before[0][2] != level or number % self.period == 0

    def decide(self, after):
        """The packet of the last event, if it has one, where this comes after it."""
        event, before = self.event, self.before
        self.is_explicit = False
        if event[1] == "trap":
            leads = before and before[1] not in ("trap", *RETURNS)
            self.has_handler = bool(leads and after and after[1] != "trap")
            return None if self.has_handler else self.trap(event[0], None)
        place, itype, level = event[0]
        if self.is_handler:
            return None
        if self.starts(self.number, before, level):
            self.outcomes, self.reported = [], place
            return "sync", wire.spell([(2, 3), (2, 0), (1, itype != 5), (2, level), (63, place >> 1)])
        is_cut = after and (after[1] == "trap" or self.starts(self.number + 1, event, after[0][2]))
        if before[1] in RETURNS:
            return self.address(place, "updiscon" if is_cut else "address")
        if is_cut or not after:
            self.is_explicit = True
            return self.address(place, "address")
        if event[1] == "jump" and self.at[place][2] <= place:
            return self.address(place, "notify")
        return ("map", wire.spell(self.outcomes_as(0))) if len(self.outcomes) == 31 else None

    def outcomes_as(self, count):
        """The fields of the outcomes, said to be so many. They are then reported."""
        outcomes, self.outcomes = self.outcomes, []
        width = next(width for width in (1, 3, 7, 15, 31) if len(outcomes) <= width)
        return [(2, 1), (5, count), (width, sum(bit << at for at, bit in enumerate(outcomes)))]

    def address(self, place, kind):
        held, self.reported = place if self.full else place - self.reported & MASK, place
        front = self.outcomes_as(len(self.outcomes)) if self.outcomes else [(2, 2)]
        notify = held >> 63 ^ (kind == "notify")
        updiscon = notify ^ (kind == "updiscon")
        return kind, wire.spell(front + [(63, held >> 1), (1, notify), (1, updiscon), (1, updiscon)])

    def trap(self, trap, handler):
        """The packet of a trap, with the retirement of its handler or without."""
        epc, itype, level, cause, value = trap
        place, level, taken = (handler[0], handler[2], handler[1] == 5) if handler else (epc, level, False)
        self.outcomes, self.reported = [], place
        return "trap", wire.spell([(2, 3), (2, 1), (1, not taken), (2, level), (6, cause), (1, itype == 2),
                                   (1, bool(handler)), (63, place >> 1)] + [(64, value)] * (itype == 1))


def weighed(seed, harts):
    """The draws of an order, and the harts, each as often as it weighs."""
    draw = Pcg32(seed, 0x8000).draw
    return draw, [hart for hart in range(harts) for _ in range(draw() % 4 + 1)]


def mixed(seed, harts):
    """The messages of harts, in the order that `encode --mixed` writes them."""
    harts = [list(own) for own in harts]
    draw, listed = weighed(seed, len(harts))
    left = 0
    while listed:
        if left:
            left -= 1
        else:
            hart = listed[draw() % len(listed)]
            left = draw() % 16
        if harts[hart]:
            yield harts[hart].pop(0)
        else:
            listed, left = [other for other in listed if other != hart], 0


def capture(mix, seed, harts, messages, period=1024, full=False, burst=16):
    """The pieces of a capture, in order: its header, and its messages."""
    senders = [Sender(mix, seed, hart, period, full) for hart in range(harts)]
    numbers = [itertools.count() for _ in senders]

    def sent(hart, packets):
        return b"".join(wire.message(hart, next(numbers[hart]), payload) for _, payload in packets)

    draw, listed = weighed(seed, harts)
    # Half of the harts may close before the last turn, and one of so many bursts has one close.
    closed, hart, left, may_close = set(), 0, 0, harts // 2
    ending = min(max(messages // max(harts * (burst + 1) // 2, 1), 1), 0xFFFFFFFF)
    yield wire.header(harts, period, int(full))
    for _ in range(messages):
        if left:
            left -= 1
        else:
            if may_close and draw() % ending == 0:
                yield sent(hart, senders[hart].close())
                closed.add(hart)
                may_close -= 1
                listed = [other for other in listed if other != hart]
            hart = listed[draw() % len(listed)]
            left = draw() % burst
        yield sent(hart, [senders[hart].send()])
    for hart, sender in enumerate(senders):
        if hart not in closed:
            yield sent(hart, sender.close())


def comes(mix, seed, period, full, count=COUNT):
    """The kinds of the packets of the first events of hart 0, and the lengths of their payloads."""
    sender = Sender(mix, seed, 0, period, full)
    packets = [sender.send()]
    for event in itertools.islice(sender.events, count):
        packets.append(sender.take(event))
    packets = [each for each in packets if each] + sender.close()
    return {kind for kind, _ in packets}, {len(payload) for _, payload in packets}


def spans(lengths):
    """Numbers as spans: `1 to 6, 9`."""
    said = []
    for _, group in itertools.groupby(enumerate(sorted(lengths)), lambda each: each[1] - each[0]):
        own = [length for _, length in group]
        said.append(str(own[0]) if len(own) == 1 else f"{own[0]} to {own[-1]}")
    return ", ".join(said)


def table():
    """For each mix a row: what comes in the first events of hart 0 of each of the seeds 1 to 5."""
    print("| Mix | Classes and traps | Levels | Packets | Lengths of payloads, differential | full |")
    print("|---|---|---|---|---|---|")
    for mix in SLOTS_OF:
        classes, levels, kinds, lengths = [], [], [], {False: [], True: []}
        for seed in range(1, 6):
            seen = list(events(mix, seed, 0, COUNT))
            at = program(mix, seed, 0x80000000)
            classes.append({{2: "interrupt", 1: "exception"}.get(event[1], name) for event, name in seen} | {
                "call" for event, _ in seen if event[1] == 1 and (*at.get(event[0], " ")[:1], event[3]) == ("call", 8 + event[2])})
            levels.append({"USSM"[event[2]] for event, _ in seen})
            for full in lengths:
                came = comes(mix, seed, 64, full)
                kinds.append(came[0])
                lengths[full].append(came[1])
        cells = [", ".join(name for name in order if name in set.intersection(*found)) for order, found in (
            (("plain", "branch", "jump", "computed", "mret", "sret", "call", "exception", "interrupt"), classes),
            ("USM", levels), (KINDS_OF_PACKETS, kinds))]
        cells[1] = cells[1] or "one"
        print(f"| `{mix}` |", " | ".join(cells + [spans(set.intersection(*lengths[full])) for full in lengths]), "|")


def answer(kinds, lengths):
    return " ".join([kind for kind in KINDS_OF_PACKETS if kind in kinds] + [str(length) for length in sorted(lengths)])


def sum_of(data):
    """FNV-1a of 64 bits."""
    total = 0xCBF29CE484222325
    for byte in data:
        total = (total ^ byte) * 0x100000001B3 & MASK
    return "%d %d" % (len(data), total)


def log(mix, seed, hart, count, base=0x80000000):
    return HEADER + "".join(row(event) for event, _ in events(mix, seed, hart, count, base))


def cases():
    for mix in SLOTS_OF:
        for seed in range(1, 6):
            print("image-sum", mix, seed, "->", sum_of(image(mix, seed)))
    for mix in SLOTS_OF:
        for seed in range(1, 6):
            print("log-sum", mix, seed, 0, 20000, "->", sum_of(log(mix, seed, 0, 20000).encode()))
        print("log-sum", mix, MASK, 1023, 2000, "->", sum_of(log(mix, MASK, 1023, 2000).encode()))
    for asked in ("mixed", 6, 7, 1000), ("traps", 1234567890123, 512, 1000):
        print("log-sum", *asked, "->", sum_of(log(*asked).encode()))
    for mix in SLOTS_OF:
        for seed, mode in itertools.product(range(1, 6), ("diff", "full")):
            print("log-comes", mix, seed, COUNT, 64, mode, "->", answer(*comes(mix, seed, 64, mode == "full")))
    captures = [(mix, seed, 4, 3000, 64, False, 16) for mix in SLOTS_OF for seed in range(1, 4)]
    captures += [("mixed", 2, 4, 20000, 64, False, 1), ("mixed", 1, 1, 100, 1, True, 1), ("mixed", 1, 1024, 2000, 1024, True, 3), ("mixed", 1, 2, 0, 64, False, 16)]
    captures += [("mixed", 77, 5, 6000, 1024, True, 16)]
    captures += [("mixed", seed, 4, 3000, 64, False, burst) for seed in (4, 5, 6) for burst in (1, 2, 64)]
    captures += [("mixed", seed, 64, 3000, 64, False, burst) for seed, burst in ((1, 1), (2, 16), (3, 64))]
    for asked in captures:
        *words, full, burst = asked
        print("mixed-capture", *words, "full" if full else "diff", burst, "->", sum_of(b"".join(capture(*asked))))


def runs():
    """Runs of `generate` with what they print, in the form of transcripts."""
    def log_run(words, mix, seed, hart, count, base=0x80000000):
        print(f"$ tracebench generate log{words} --events {count}")
        print("> " + log(mix, seed, hart, count, base).rstrip("\n").replace("\n", "\n> "))

    def capture_run(words, mix, seed, harts, count, has_header=True, **settings):
        print(f"$ tracebench generate capture{words} --messages {count}")
        made = b"".join(capture(mix, seed, harts, count, **settings))
        if has_header:
            print(">=", made[:16].hex())
        for _, message in wire.messages(made, 16):
            hart, number = (int.from_bytes(part, "little") for part in (message[:2], message[2:10]))
            print(">~", hart, number, message[11:].hex())

    for seed in 1, 2, 3:
        words = f" --seed {seed}" * (seed > 1)
        print(f"$ tracebench generate image{words}")
        made = image("mixed", seed)
        for at in range(0, len(made), 64):
            print(">=", made[at:at + 64].hex())
        log_run(words, "mixed", seed, 0, 12)
        capture_run(f"{words} --harts 3 --burst 4", "mixed", seed, 3, 24, burst=4)
    for mix in SLOTS_OF:
        log_run(f" --mix {mix} --hart 1023 --base 7ffffffffffff000", mix, 1, 1023, 4, 0x7FFFFFFFFFFFF000)
        capture_run(f" --mix {mix} --full --period 2", mix, 1, 1, 6, period=2, full=True)
    log_run(" --hart 5 --seed 77", "mixed", 77, 5, 3)
    capture_run(" --harts 2", "mixed", 1, 2, 60)
    capture_run(" --v1 --harts 64 --burst 1", "mixed", 1, 64, 3, has_header=False, burst=1)
    capture_run(f" --seed {MASK} --harts 2 --burst 65535 --period 65535", "mixed", MASK, 2, 4, period=65535, burst=65535)


LOGS = ["kinds.csv", "empty.csv", "return.csv", "branches.csv", "trap.csv"]


def mixed_runs():
    """Runs of `encode --mixed` with what they print, in the form of transcripts."""
    data = os.path.join(os.path.dirname(os.path.abspath(__file__)), "../crates/transcripts/data/several_logs.transcript")
    with open(data) as file:
        lines = file.read().splitlines()

    def messages(mode, hart, first):
        at = lines.index(f"file {mode}{hart}.txt") + 1
        own = itertools.takewhile(lambda line: line.startswith("| "), lines[at:])
        return [(hart + first, *line.split()[2:]) for line in own]

    def run(words, seed, logs, mode="diff", first=0, header=None):
        print(f"$ tracebench encode --base 80000000{words} --mixed {seed} image.bin", *LOGS[:logs])
        if header is not None:
            print(">=", header.hex())
        sign = "> " if "--hex" in words else ">~ "
        for message in mixed(seed, [messages(mode, hart, first) for hart in range(logs)]):
            print(sign + " ".join(map(str, message)))

    for seed in 1, 2, 3:
        run(" --hex", seed, 5)
    run(" --hex", MASK, 2)
    run(" --hex", 0, 1)
    run("", 1, 5, header=wire.header(5, 1024, 0))
    run(" --full", 2, 4, mode="full", header=wire.header(4, 1024, 1))
    run(" --v1", 3, 3)
    run(" --hex --first 2 --of 9", 1, 5, first=2)
    run(" --first 1019 --of 1024", 1, 5, first=1019)
    run(" --of 7", 4, 3, header=wire.header(7, 1024, 0))


def fields(**numbers):
    """A struct of the library for C, as its cases have it."""
    return "{%s}" % ",".join(f"{name}={number}" if number < 1 << 24 else f"{name}={number:#x}"
                             for name, number in numbers.items() if number)


def numbers_of(event):
    if len(event) == 3:
        return fields(itype=event[1], privilege=event[2], address=event[0])
    epc, itype, privilege, cause, value = event
    return fields(kind=1, privilege=privilege, cause=cause, interrupt=int(itype == 2), address=epc, tval=value)


def calls():
    """Calls of the library for C that generate images and events."""
    print("# Images and events that are generated. These lines are those of `checks/stimulus.py calls`.\n")
    names = list(SLOTS_OF)
    made = {}
    for place, mix in enumerate(names):
        own = image(mix, 1).hex()
        if own not in made:
            print("bytes", made.setdefault(own, mix), own)
        print(f"generate_image mix={place} seed=1 due={made[own]} -> status=0 wanted=4096 due")
    images = [made[image(mix, 1).hex()] for mix in names]
    for place, seed in itertools.product(range(len(names)), (0, 2, MASK)):
        own = image(names[place], seed)
        print(f"generate_image mix={place} seed={seed:#x} show=24 -> status=0 wanted=4096 bytes={own[:24].hex()}")
        print(f"generate_image mix={place} seed={seed:#x} last=8 -> status=0 wanted=4096 bytes={own[-8:].hex()}")
    for place in 6, 1 << 16, 0xFFFFFFFF:
        print(f"generate_image mix={place:#x} seed=1 -> status=4")

    print("\n# Each call goes on from the state that the one before left.")
    for place, mix in enumerate(names):
        for hart, base in (0, 0x80000000), (1023, 0x7FFFFFFFFFFFF000), (65535, 0):
            walk = Walk(mix, 1, hart, base)
            print("let w", fields(seed=1, mix=place, hart=hart))
            for words in "room=1", "room=4", "room=0", "cut=2048 room=6", "room=1000 last=2", "room=20000 last=1":
                last = words.split("last=")[1:]
                came = [walk.next()[0] for _ in range(int(words.split("room=")[1].split()[0]))]
                came = [(len(list(own)), event) for event, own in itertools.groupby(came[-int(last[0]):] if last else came)]
                state = fields(seed=1, random=walk.draws.state, at=walk.place, mix=place, hart=hart, privilege=walk.now,
                               next=1 if walk.free else 2)
                said = ";".join((f"{count}*" if count > 1 else "") + numbers_of(event) for count, event in came)
                print(f"generate_events state=w base={base:#x} image={images[place]} {words} -> status=0" +
                      (f" events={said} state={state}" if came else ""))

    print("\n# A state that no walk has, and pieces that are no program.")
    for state in "{mix=6}", "{mix=0xffffffff,next=1}", "{seed=1,next=3}", "{seed=1,next=255}":
        print(f"generate_events state={state} base=1 image=mixed room=2 -> status=4")
    for base, status in ("1", 48), ("0xfffffffffffff000", 50):
        print(f"generate_events state={{seed=1}} base={base} image=mixed room=2 -> status={status}")
    print("generate_events state={seed=1} pieces=16:mixed,0:mixed room=2 -> status=54")
    print("generate_events state={seed=1} pieces=0:mixed,16:mixed room=2 -> status=51")


def example():
    """The messages of three harts that send the packets of 8 events in each of four turns."""
    senders = [Sender("mixed", 1, hart, 64, False) for hart in range(3)]
    numbers = [itertools.count() for _ in senders]

    def say(hart, packets):
        for _, payload in filter(None, packets):
            print(hart, next(numbers[hart]), payload.hex())

    for hart, sender in enumerate(senders):
        say(hart, [sender.send()])
    for _ in range(4):
        for hart, sender in enumerate(senders):
            say(hart, [sender.take(next(sender.events)) for _ in range(8)])
    for hart, sender in enumerate(senders):
        say(hart, sender.close())


def main(what, seed=0, mix="mixed", *rest):
    seed = int(seed)
    if what == "cases":
        return cases()
    if what == "runs":
        return runs()
    if what == "mixed":
        return mixed_runs()
    if what == "calls":
        return calls()
    if what == "example":
        return example()
    if what == "table":
        return table()
    if what == "image":
        sys.stdout.buffer.write(image(mix, seed))
    elif what == "log":
        hart, count = map(int, rest)
        sys.stdout.write(log(mix, seed, hart, count))
    else:
        harts, messages, period, mode, burst = rest
        pieces = capture(mix, seed, int(harts), int(messages), int(period), mode == "full", int(burst))
        sys.stdout.buffer.writelines(pieces)
    return None


if __name__ == "__main__":
    main(*sys.argv[1:])
