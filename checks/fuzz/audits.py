"""What `tracebench audit` prints, read from docs/FORMATS.md by whole lists, and damaged pairs of captures for it."""

import itertools

import cases
import frames
import reading

SENT, RECEIVED = "sent", "received"


def judged(capture):
    """The header of a capture that was sent, and the payloads of each of its harts; Refused where it is not whole."""
    try:
        header, at = reading.start(capture)
    except reading.NoHeader as why:
        raise reading.Refused(str(why)) from None
    own = [[] for _ in range(header[2] if header else reading.MOST_HARTS)]
    for hart, _, payload in in_turn(capture, at, [0] * len(own)):
        own[hart].append(payload)
    return header, own if header else own[: max((hart + 1 for hart, payloads in enumerate(own) if payloads), default=0)]


def in_turn(capture, at, counts):
    """The messages of a capture from a place on, each the next one of its hart, which are counted; Refused at the first that
    is not."""
    for place, message in enumerate(reading.messages(capture, at)):
        if isinstance(message, str):
            raise reading.Refused(f"message {place}: {message}")
        hart, number, _ = message
        if hart >= len(counts):
            raise reading.Refused(f"message {place}: stranger")
        if number < counts[hart]:
            raise reading.Refused(f"message {place}: repeat")
        if number > counts[hart]:
            raise reading.Refused(f"message {place}: gap, expected number {counts[hart]}")
        counts[hart] += 1
        yield message


HEAD = 11

# The fate of a message of a hart that is not chosen.
UNSEEN = "in order", 0


class Sent:
    """What was sent: the payloads of each hart, and whether a payload that came is the one that was sent."""

    def __init__(self, own, packets):
        self.own, self.packets = own, packets

    def has(self, message):
        return message[0] < len(self.own) and message[1] < len(self.own[message[0]])

    def is_true(self, message):
        return self.has(message) and is_same(self.own[message[0]][message[1]], message[2], self.packets)

    def shows_outage(self, data, at):
        """Whether messages from a place on show that the path was out. All of SENT is known, so none do."""
        return False


def is_same(sent, came, packets):
    """Whether a payload that came is the one that was sent, or unpacks to its packet where that is asked for."""
    return sent == came or packets and (packet := packet_of(sent)) is not None and packet == packet_of(came)


def packet_of(payload):
    """The packet that a payload unpacks to, or None."""
    try:
        return reading.unpack(payload)
    except reading.Refused:
        return None


def message_at(data, at):
    """The message that stands at a place, or None."""
    if at + HEAD >= len(data) or not 1 <= data[at + 10] <= 18 or at + HEAD + data[at + 10] > len(data):
        return None
    hart, number = (int.from_bytes(data[at + first : at + last], "little") for first, last in ((0, 2), (2, 10)))
    return hart, number, data[at + HEAD : at + HEAD + data[at + 10]]


def is_backed(sent, data, at):
    """Whether what follows a message backs it: an end, a message of SENT's harts and numbers, or one after which again
    there is an end or a message."""
    if at == len(data):
        return True
    if (message := message_at(data, at)) is None:
        return False
    after = at + HEAD + len(message[2])
    return sent.has(message) or after == len(data) or message_at(data, after) is not None


def resumes(sent, data, at):
    """Whether reading goes on at a place after damage: a true message is there, or messages that show an outage."""
    return bool(message := message_at(data, at)) and (sent.is_true(message) or sent.shows_outage(data, at))


def read(sent, data, at):
    """From a place on, each message that is taken, and the count of the bytes of each run between, after their
    offsets."""
    while at < len(data):
        message = message_at(data, at)
        if message and (sent.is_true(message) or is_backed(sent, data, at + HEAD + len(message[2])) or sent.shows_outage(data, at)):
            yield at, message
            at += HEAD + len(message[2])
            continue
        run = at
        at += 1
        while at < len(data) and not resumes(sent, data, at):
            at += 1
        yield run, at - run


def found(sent, came):
    """What is found of each message, in their order: its fate, and how far it is from its place."""
    true_ones, greatest = set(), {}
    for message in came:
        hart, number = message[:2]
        if not sent.has(message):
            yield "stranger", 0
        elif not sent.is_true(message):
            yield "changed", 0
        elif (hart, number) in true_ones:
            yield "repeat", 0
        else:
            before = greatest.get(hart, -1)
            yield ("late", before - number) if before > number else ("in order", number - before - 1)
            true_ones.add((hart, number))
            greatest[hart] = max(before, number)


def words(own, message, what, far):
    """What the line of a message says after its number, or nothing where it has no line."""
    hart, number, payload = message
    if what == "in order":
        return f"skips {far}" if far else ""
    if what == "late":
        return f"late by {far}"
    return f"changed, sent {own[hart][number].hex()} came {payload.hex()}" if what == "changed" else what


NAMES = "sent", "came", "lost", "repeated", "late", "changed", "strange"


def counts(row, names, is_whole):
    """The counts of a row that have these names, and its verdict."""
    return "".join(f"{row[name]} {name}, " for name in names) + ("whole\n" if is_whole else "not whole\n")


def lost_lines(hart, runs):
    """The lines of a hart's runs of lost numbers, each its first and its last."""
    return "".join(f"hart {hart}: {f'number {last}' if first == last else f'numbers {first} to {last}'} lost\n"
                   for first, last in runs)


def row_lines(rows, names):
    """The lines of harts, and of all of them together. Each is a hart, its counts, whether it is whole, how many runs of
    numbers it lost, the longest of these, by how much a message of it is late at most, and the hart that most of its
    messages are of that are not true, with how many they are."""
    text = ""
    for hart, row, is_whole, count, longest, latest, other in rows:
        text += f"hart {hart}: {counts(row, names, is_whole)}"
        if count:
            text += f"hart {hart}: lost in {count} runs, the longest of {longest}\n"
        if row["lost"] and row.get("extra") and row["lost"] + row["extra"] > 256:
            text += f"hart {hart}: more than 256 lost and extra, more may match\n"
        if latest:
            text += f"hart {hart}: late by at most {latest}\n"
        if other:
            text += f"hart {hart}: {other[1]} of what came is hart {other[0]}'s\n"
    if len(rows) > 1:
        total = {name: sum(row[name] for _, row, *_ in rows) for name in names}
        text += f"all: {counts(total, names, all(is_whole for _, _, is_whole, *_ in rows))}"
    return text


def of_runs(lost):
    """How many runs of lost numbers there are, and the longest of them."""
    return len(lost), max((last - first + 1 for first, last in lost), default=0)


def ending(strangers, size, runs, are_unlike, first, is_whole):
    """The last lines of an audit, where so many bytes, in so many runs, are of no message."""
    text = f"strangers: {strangers} messages\n" if strangers else ""
    text += f"bytes: {size} in {runs} runs\n" if runs else ""
    text += "headers differ\n" if are_unlike else ""
    text += "" if first is None else f"first: message {first}\n"
    return text + f"result: {'whole' if is_whole else 'not whole'}\n"


def lines_of(sent, spans, fates):
    """The lines of the messages that have one and of the runs of bytes, and the places of these messages."""
    text, places, place = "", [], 0
    for offset, it in spans:
        if isinstance(it, int):
            text += f"bytes: {it} at {offset:08x}\n"
            continue
        if said := words(sent.own, it, *fates[place]):
            text += f"message {place}: hart {it[0]} number {it[1]}: {said}\n"
            places.append(place)
        place += 1
    return text, places


def lost_runs(lost):
    """The longest runs of these numbers, each by its first and its last."""
    runs = [
        [number for _, number in run]
        for _, run in itertools.groupby(enumerate(lost), lambda it: it[1] - it[0])
    ]
    return [(run[0], run[-1]) for run in runs]


def row_of(sent, hart, mine, fates):
    """What a hart's row counts, whether it is whole, its lost runs and by how much a message of it is late at most."""
    payloads = sent.own[hart]
    true = {message[1] for message in mine if sent.is_true(message)}
    lost = [number for number in range(len(payloads)) if number not in true]
    names = [what for what, _ in fates]
    same = [message[1] for message in mine] == list(range(len(payloads))) and all(map(sent.is_true, mine))
    row = {"sent": len(payloads), "came": len(mine), "lost": len(lost), "repeated": names.count("repeat"),
           "late": names.count("late"), "changed": names.count("changed"), "strange": names.count("stranger")}
    return row, same, lost_runs(lost), max((far for what, far in fates if what == "late"), default=0)


def owner_of(sent, message):
    """The hart of which SENT has the number and the payload of a message, if it is of one alone."""
    owners = [hart for hart in range(len(sent.own)) if sent.is_true((hart, *message[1:]))]
    return owners[0] if len(owners) == 1 else None


def exchanged(sent, mine):
    """The hart of which most of a hart's messages are that are not true, and how many they are: 8 at least, and more than
    half."""
    owners = [owner_of(sent, message) for message in mine if not sent.is_true(message)]
    known = [owner for owner in owners if owner is not None]
    other = max(sorted(set(known)), key=known.count, default=None)
    count = known.count(other)
    return (other, count) if count >= 8 and 2 * count > len(owners) else None


def audit(sent, received, summary=False, packets=False, only=None):
    """The status, the text and the error of an audit of the harts that are chosen."""
    try:
        header, own = judged(sent)
    except reading.Refused as why:
        return 2, "", f"{SENT}: {why}"
    try:
        other, at, fault = *reading.start(received), None
    except reading.NoHeader:
        other, at, fault = None, 0, f"{RECEIVED}: capture header is not valid"
    sent = Sent(own, packets)
    spans = list(read(sent, received, at))
    came = [it for _, it in spans if not isinstance(it, int)]
    runs = [it for _, it in spans if isinstance(it, int)]
    fates = [fate if reading.is_chosen(only, it[0]) else UNSEEN for it, fate in zip(came, found(sent, came))]
    single, places = lines_of(sent, spans, fates)
    of_hart = [[] for _ in own]
    for message, fate in zip(came, fates):
        if message[0] < len(own):
            of_hart[message[0]].append((message, fate))
    rows = []
    for hart, its in enumerate(of_hart):
        if not reading.is_chosen(only, hart):
            continue
        row, same, lost, latest = row_of(sent, hart, [it for it, _ in its], [it for _, it in its])
        single += lost_lines(hart, lost)
        rows.append((hart, row, same, *of_runs(lost), latest, exchanged(sent, [it for it, _ in its])))
    text = ("" if summary else single) + row_lines(rows, NAMES)
    strangers = [what for what, _ in fates].count("stranger")
    unlike = bool(header) if fault else bool(header and other and header != other)
    is_whole = all(same for _, _, same, *_ in rows) and not strangers and not unlike and not runs and not fault
    text += ending(strangers, sum(runs), len(runs), unlike, places[0] if places else None, is_whole)
    return (0 if is_whole else 1), text, fault


def kind_of(text):
    """What an audit found, without numbers: the fates, what was lost, and the result."""
    looked_for = ("bytes:", "stranger\n", "changed, sent", "repeat\n", "late by", "skips", " lost\n", "of what came is hart",
                  "headers differ\n")
    return ", ".join(word.strip() for word in (*(it for it in looked_for if it in text), text.splitlines()[-1]))


def mixed(random, queues):
    """The items of queues in some order that keeps each queue's."""
    queues, made = [list(queue) for queue in queues], []
    while left := [queue for queue in queues if queue]:
        made.append(random.choice(left).pop(0))
    return made


def any_header(random, harts):
    return cases.header(random.choice((0, 1)), random.choice((1, 2, 1024)), harts)


def damaged(random, made, harts):
    """Messages lost, doubled, moved, changed, with another number or hart; or none."""
    for _ in range(random.choice((0, 0, 1, 1, 2, 5))):
        what, to = random.randrange(8), random.randrange(len(made) + 1)
        if what == 0 or not made:
            made.insert(to, (random.randrange(harts + 2), random.choice((0, 1, 5, 1 << 63)), random.randbytes(1)))
            continue
        at = random.randrange(len(made))
        hart, number, payload = made[at]
        if what == 1:
            del made[at]
        elif what == 2:
            del made[at : at + random.randint(2, 4)]
        elif what == 3:
            made.insert(to, made[at])
        elif what == 4:
            made.insert(min(to, len(made) - 1), made.pop(at))
        elif what == 5:
            made[at] = hart, number, random.choice((payload + b"\0", payload[:-1] or b"\7", random.randbytes(len(payload))))
        elif what == 6:
            made[at] = hart, random.choice((number + 1, max(number, 1) - 1, random.getrandbits(64))), payload
        else:
            made[at] = random.choice((random.randrange(harts + 1), 1023, 1024, 65535)), number, payload
    return made


def renamed(random, made, harts):
    """The messages under another hart: two harts are exchanged, or come as one."""
    one, other = random.randrange(harts + 1), random.randrange(harts)
    names = random.choice(({one: other, other: one}, {one: other}))
    return [(names.get(hart, hart), number, payload) for hart, number, payload in made]


def respelt(random, message):
    """A message whose payload is spelt in more bytes or in fewer, where that may be one packet."""
    hart, number, payload = message
    top = b"\xff" if payload[-1] & 0x80 else b"\0"
    longer = payload + top * random.choice((1, 1, 2, 5))
    return hart, number, random.choice((payload, longer[:18], payload[:-1] or payload))


def spoiled(random, capture):
    """A capture whose end is cut, or a byte of which is changed."""
    what, made = random.randrange(3), bytearray(capture)
    if what == 0 or not made:
        return bytes(made[: random.randrange(len(made) + 1)])
    made[random.randrange(len(made))] = random.choice((0, 19, 255, random.randrange(256)))
    return bytes(made)


def pair(random):
    """A capture that was sent and one that was received."""
    harts = random.choice((0, 1, 1, 2, 2, 3, 5))
    counts = [random.choice((0, 1, 1, 2, 3, 8, 12)) for _ in range(harts)]
    queues = [
        [(hart, number, random.choice((b"\1", b"\2", b"\x1f", b"\x89\xfd", random.randbytes(random.randint(1, 18))))) for number in range(count)]
        for hart, count in enumerate(counts)
    ]
    has_header = random.random() < 0.5 and harts
    sent_header = any_header(random, harts + random.choice((0, 0, 0, 1))) if has_header else b""
    sent = mixed(random, queues)
    received_header = random.choice((sent_header, sent_header, sent_header, b"", any_header(random, max(harts, 1))))
    received = damaged(random, mixed(random, queues), harts)
    if random.random() < 0.1:
        sent = damaged(random, sent, harts)
    if random.random() < 0.2 and harts:
        received = renamed(random, received, harts)
    if random.random() < 0.3:
        received = [respelt(random, message) if random.random() < 0.5 else message for message in received]
    texts = [start + b"".join(cases.message(*it) for it in made) for start, made in ((sent_header, sent), (received_header, received))]
    if random.random() < 0.3:
        texts[1] = frames.damaged(random, texts[1])
    return tuple(spoiled(random, text) if random.random() < 0.08 else text for text in texts)
