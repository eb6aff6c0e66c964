"""What `tracebench audit --live` prints, read from docs/FORMATS.md one message after the other, and pairs of captures for it."""

import collections

import audits
import cases
import frames
import reading

BELOW, BEYOND = "below", "beyond"
NAMES = *audits.NAMES, "too late"


class Sent:
    """SENT, of which each message is read once, when it is asked for."""

    def __init__(self, capture):
        try:
            self.header, at = reading.start(capture)
        except reading.NoHeader as why:
            raise reading.Refused(str(why)) from None
        self.known = self.header[2] if self.header else reading.MOST_HARTS
        self.counts = [0] * self.known
        self.left = audits.in_turn(capture, at, self.counts)
        self.messages, self.places = [], {}

    def read_one(self):
        """Reads the next message, and answers whether there was one."""
        for message in self.left:
            self.places[message[:2]] = len(self.messages)
            self.messages.append(message)
            return True
        return False

    def harts(self):
        """How many harts it has, where all of it is read."""
        return self.known if self.header else max((hart + 1 for hart, count in enumerate(self.counts) if count), default=0)


class Audit:
    """What is held while messages of RECEIVED come, and what was said of them."""

    def __init__(self, sent, window, packets):
        self.sent, self.window, self.packets = sent, window, packets
        self.front = -1
        self.came, self.waiting = set(), {}
        self.given_up, self.greatest = [0] * sent.known, [-1] * sent.known
        self.lost = collections.defaultdict(list)
        self.open = {}
        self.said = []

    # How a message stands in the view.

    def look(self, message):
        """The place of a message's number in view, or that it is below the view or beyond it."""
        hart, number = message[:2]
        counts, messages = self.sent.counts, self.sent.messages
        while 0 <= number - counts[hart] < self.front + self.window + 1 - len(messages) and self.sent.read_one():
            pass
        return BELOW if number < self.given_up[hart] else self.sent.places.get((hart, number), BEYOND)

    def has(self, message):
        """Whether the view has the message's hart and number."""
        return message[0] < self.sent.known and isinstance(self.look(message), int)

    def is_true(self, message):
        return self.has(message) and self.is_same(message)

    def is_same(self, message):
        return audits.is_same(self.sent.messages[self.sent.places[message[:2]]][2], message[2], self.packets)

    def is_near(self, one, other):
        return 1 <= abs(one[1] - other[1]) <= self.window

    def shows_outage(self, data, at):
        """Whether messages that are beyond are in a row from a place on, until two of one hart that are near each other."""
        firsts = {}
        while (message := audits.message_at(data, at)) and message[0] < self.sent.known and self.look(message) is BEYOND:
            if message[0] in firsts:
                return self.is_near(firsts[message[0]], message)
            firsts[message[0]] = message
            at += audits.HEAD + len(message[2])
        return False

    # What becomes of a message.

    def say(self, place, message, what):
        self.said.append(("message", place, message, what))

    def judge(self, place, message):
        """Says what is found of a message, and answers whether it is beyond the view: then nothing is said."""
        at, (hart, number, payload) = self.look(message), message
        if at is BEYOND:
            return True
        if at is BELOW:
            self.say(place, message, "too late")
        elif not self.is_same(message):
            self.say(place, message, f"changed, sent {self.sent.messages[at][2].hex()} came {payload.hex()}")
        elif at in self.came:
            self.say(place, message, "repeat")
        else:
            before = self.greatest[hart]
            far = "" if number == before + 1 else f"late by {before - number}" if number < before else f"skips {number - before - 1}"
            self.say(place, message, far)
            self.came.add(at)
            self.greatest[hart] = max(before, number)
            self.go_to(at)
        return False

    def go_to(self, place):
        """The front goes on to a place, if it is before it."""
        while self.front < place:
            self.front += 1
            hart, number, _ = self.sent.messages[self.front]
            if hart in self.waiting and self.waiting[hart][1][1] == number:
                self.judge(*self.waiting.pop(hart))
            if self.front > self.window:
                self.give_up(self.front - self.window - 1)

    def read_to(self, wanted):
        """Reads SENT to a message, or to its end. The front stays at most a window before what is read last."""
        while wanted not in self.sent.places and self.sent.read_one():
            self.go_to(len(self.sent.messages) - 1 - self.window)

    def take(self, place, message):
        hart = message[0]
        if hart >= self.sent.known:
            self.say(place, message, "stranger")
            return
        if hart in self.waiting:
            first = self.waiting.pop(hart)
            if self.look(first[1]) is BEYOND and self.look(message) is BEYOND and self.is_near(first[1], message):
                self.read_to(first[1][:2])
            if self.judge(*first):
                self.say(*first, "stranger")
        if self.judge(place, message):
            self.waiting[hart] = place, message

    # What is lost.

    def give_up(self, place):
        hart, number, _ = self.sent.messages[place]
        self.given_up[hart] += 1
        if place in self.came:
            self.end_run(hart)
            return
        self.lost[hart].append(number)
        first, unsaid = self.open.setdefault(hart, (number, number))
        if number - unsaid + 1 >= unsaid - first:
            self.say_lost(hart, unsaid)
            self.open[hart] = first, number + 1

    def end_run(self, hart):
        """Says what is left of the run of a hart, if one goes on."""
        _, unsaid = self.open.pop(hart, (0, None))
        if unsaid is not None and unsaid <= self.lost[hart][-1]:
            self.say_lost(hart, unsaid)

    def say_lost(self, hart, first):
        self.said.append(("lost", hart, first, self.lost[hart][-1]))

    def end(self):
        """RECEIVED has ended: SENT is read to its end, and the rest is given up."""
        self.read_to(None)
        last = len(self.sent.messages) - 1
        self.go_to(last)
        for place in range(max(0, last - self.window), last + 1):
            self.give_up(place)
        for _, first in sorted(self.waiting.items()):
            self.say(*first, "stranger")
        for hart in sorted(self.open):
            self.end_run(hart)

    def run(self, data, at):
        """Takes what came from a place on, and answers whether SENT could be read to its end: its fault, if it has one."""
        place = 0
        try:
            for offset, it in audits.read(self, data, at):
                if isinstance(it, int):
                    self.said.append(("bytes", it, offset))
                else:
                    self.take(place, it)
                    place += 1
            self.end()
        except reading.Refused as why:
            return str(why)
        return None


def line_of(said, only):
    """The line of what is said, or nothing where it has none."""
    kind, *its = said
    if kind == "bytes":
        return f"bytes: {its[0]} at {its[1]:08x}\n"
    if kind == "lost":
        return audits.lost_lines(its[0], [its[1:]]) if reading.is_chosen(only, its[0]) else ""
    place, (hart, number, _), what = its
    return f"message {place}: hart {hart} number {number}: {what}\n" if what and reading.is_chosen(only, hart) else ""


WORDS = {"repeated": "repeat", "late": "late by", "changed": "changed", "strange": "stranger", "too late": "too late"}


def row_of(audit, hart):
    """The row of a hart, as `audits.row_lines` has it."""
    whats = [said[3] for said in audit.said if said[0] == "message" and said[2][0] == hart]
    lost = audit.lost[hart]
    row = {"sent": audit.sent.counts[hart], "came": len(whats), "lost": len(lost)}
    row |= {name: sum(what.startswith(word) for what in whats) for name, word in WORDS.items()}
    latest = max((int(what.split()[-1]) for what in whats if what.startswith("late by")), default=0)
    return hart, row, not any(whats) and not lost, *audits.of_runs(audits.lost_runs(lost)), latest, None


def audit(sent, received, window, summary=False, packets=False, only=None):
    """The status, the text and the error of a live audit of the harts that are chosen."""
    try:
        sent = Sent(sent)
    except reading.Refused as why:
        return 2, "", f"{audits.SENT}: {why}"
    no_hart = only and f"{audits.SENT}: no hart of {only[0]} to {only[1]}"
    if only and only[0] >= sent.known:
        return 2, "", no_hart
    header, at, fault = frames.start(received)
    live = Audit(sent, window, packets)
    why = live.run(received, at)
    text = "" if summary else "".join(line_of(said, only) for said in live.said)
    if why:
        return 2, text, f"{audits.SENT}: {why}"
    if only and only[0] >= sent.harts():
        return 2, text, no_hart
    rows = [row_of(live, hart) for hart in range(sent.harts()) if reading.is_chosen(only, hart)]
    text += audits.row_lines(rows, NAMES)
    mine = [said for said in live.said if said[0] == "message" and reading.is_chosen(only, said[2][0])]
    strangers = sum(said[3] == "stranger" for said in mine)
    runs = [said[1] for said in live.said if said[0] == "bytes"]
    unlike = bool(sent.header) if fault else bool(sent.header and header and header != sent.header)
    first = min((said[1] for said in mine if said[3]), default=None)
    is_whole = all(it for _, _, it, *_ in rows) and not strangers and not unlike and not runs and not fault
    text += audits.ending(strangers, sum(runs), len(runs), unlike, first, is_whole)
    return (0 if is_whole else 1), text, f"{audits.RECEIVED}: capture header is not valid" if fault else None


# Pairs of captures.


def kind_of(status, text, error):
    """What a live audit found, without numbers: the fates, what was lost, and how it ended."""
    words = ("bytes:", "stranger\n", "changed, sent", "repeat\n", "late by", "skips", "too late\n", " lost\n", "headers differ\n")
    end = error.split(": ", 1)[-1] if status == 2 else text.splitlines()[-1]
    return ", ".join(word.strip() for word in (*(it for it in words if it in text), end))


def sent_order(random, queues):
    """The messages of harts in some order: one after the other, in turn, or in bursts, each hart's in theirs."""
    how = random.randrange(4)
    if how == 0:
        return [message for queue in queues for message in queue]
    if how == 1:
        return audits.mixed(random, queues)
    left, made = [list(queue) for queue in queues if queue], []
    while left:
        for queue in left:
            count = 1 if how == 2 else random.randint(1, 6)
            made += queue[:count]
            del queue[:count]
        left = [queue for queue in left if queue]
    return made


def delayed(random, made):
    """The messages, some of them by up to so many places later."""
    most, rate = random.choice((1, 2, 4, 9, 20)), random.choice((0.05, 0.3, 1))
    keys = [at + (random.uniform(0, most) if random.random() < rate else 0) for at in range(len(made))]
    return [made[at] for at in sorted(range(len(made)), key=keys.__getitem__)]


def cut_out(random, made, harts):
    """The messages without some in a row: of all harts, of one from there on, or of one in a stretch."""
    at, count, hart = random.randrange(len(made) + 1), random.choice((1, 3, 8, 20, 40)), random.randrange(max(harts, 1))
    whose = random.randrange(3)
    end = len(made) if whose == 1 else at + count
    return made[:at] + [it for it in made[at:end] if whose and it[0] != hart] + made[end:]


def flipped(random, made):
    """The messages, one of them with a bit of its hart, of its number or of its payload flipped."""
    at, made = random.randrange(len(made)), list(made)
    message = bytearray(cases.message(*made[at]))
    place = random.choice((random.randrange(2), random.randrange(2, 10), random.randrange(2, 4), random.randrange(11, len(message))))
    message[place] ^= 1 << random.randrange(8)
    made[at] = audits.message_at(bytes(message), 0)
    return made


def disturbed(random, made, harts):
    """What comes of messages: delayed, cut out, twice, with flipped bits, or as it was."""
    for _ in range(random.choice((0, 1, 1, 2, 3))):
        what = random.randrange(6)
        if what == 0:
            made = delayed(random, made)
        elif what <= 2:
            made = cut_out(random, made, harts)
        elif what == 3 and made:
            at, to = random.randrange(len(made)), random.randrange(len(made) + 1)
            made = made[:to] + made[at : at + random.randint(1, 5)] + made[to:]
        elif what == 4 and made:
            made = flipped(random, made)
        else:
            made = audits.damaged(random, made, harts)
    return made


def pair(random):
    """A capture that was sent and one that was received."""
    if random.randrange(4) == 0:
        return audits.pair(random)
    harts = random.choice((1, 1, 2, 2, 3, 4, 8))
    same = random.choice((None, b"\1"))
    queues = [
        [(hart, number, same or random.randbytes(random.choice((1, 1, 2, 5, 18)))) for number in range(random.choice((0, 2, 8, 8, 20, 40)))]
        for hart in range(harts)
    ]
    sent = sent_order(random, queues)
    received = disturbed(random, sent if random.randrange(4) else sent_order(random, queues), harts)
    header = random.choice((b"", audits.any_header(random, harts + random.choice((0, 0, 1)))))
    other = random.choice((header, header, header, b"", audits.any_header(random, harts)))
    if random.random() < 0.1:
        sent = audits.damaged(random, sent, harts)
    texts = [start + b"".join(cases.message(*it) for it in made) for start, made in ((header, sent), (other, received))]
    if random.random() < 0.3:
        texts[1] = frames.damaged(random, texts[1])
    return tuple(audits.spoiled(random, text) if random.random() < 0.05 else text for text in texts)
