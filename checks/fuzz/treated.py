"""What `tracebench list --salvage` prints, read from docs/FORMATS.md over the reading of `salvage`."""

import frames
import lists
import reading
import salvages


class Harts:
    """What is left of each hart of a capture, and which of its messages came before another."""

    def __init__(self, program, harts, found, mode):
        self.own = [[message[1:] for _, message in found if message[0] == hart] for hart in range(harts)]
        self.left = [salvages.Salvage(program, mode, own) for own in self.own]
        self.came = [set() for _ in range(harts)]
        self.last_row = [rows_of_numbers(it.added) for it in self.left]

    def treat(self, message, symbols, says_rows):
        """The word for the next message, and what follows it where it is far or late."""
        hart, number, payload = message
        if salvages.is_stranger(message, len(self.left)):
            return b"stranger", b""
        it = self.left[hart]
        if (number, payload) in self.came[hart]:
            return b"copy", b""
        self.came[hart].add((number, payload))
        if number in it.doubtful:
            return b"doubtful", b""
        last = self.last_row[hart].get(number) if says_rows else None
        return self.word(it, number, symbols, last), b", far" * (number in it.far) + b", late" * it.is_late(number)

    @staticmethod
    def word(it, number, symbols, last):
        """The word for a message that is used. Its last row is `last`, if that is to be said."""
        if number in it.bad:
            return f"bad: {it.bad[number]}".encode()
        if number in it.alone:
            return b"alone"
        if number not in it.added:
            return b"passed"
        return lists.effect(it.added[number], reading.unpack(it.used[number][0]), symbols, last)


def rows_of_numbers(added):
    """How many rows come from the messages of a hart up to each number, by the events that each of them adds."""
    rows, last = 0, {}
    for number in sorted(added):
        rows += len(added[number])
        last[number] = rows
    return last


def listing(program, harts, capture, symbols, only=None, says_rows=False):
    """The status, the text and the error of a list of what salvaging does with the messages of the harts that are chosen;
    `harts` is the count that is asked for, or None. The events that the lines add have to be the rows that `salvage` prints."""
    header, at, fault = frames.start(capture)
    spans = list(frames.spans(capture, header, at))
    found = [span for span in spans if not isinstance(span[1], int)]
    mode = header[0] if header else reading.DIFFERENTIAL
    count = salvages.harts_of(found, header, harts)
    known = [(offset, message) for offset, message in found if not salvages.is_stranger(message, count)]
    treated = Harts(program, count, known, mode)
    text = reading.dump(capture[:at])[0].encode() if header else b""
    for offset, one in spans:
        if isinstance(one, int):
            text += b"%08x bytes: %d\n" % (offset, one)
            continue
        if not reading.is_chosen(only, one[0]):
            continue
        word, mark = treated.treat(one, symbols, says_rows)
        line = frames.message_line(one, mode)[0].encode().removesuffix(b"\n")
        text += b"%08x %s => %s%s\n" % (offset, line, word, mark)
    status, salvaged, error = salvages.salvage(program, harts, capture, only=only)
    assert added_by(text) == rows_of(salvaged), (text, salvaged)
    return status, text, error


def added_by(text):
    """How many events the lines of a text add."""
    effects = [line.partition(b" => ")[2].split(b",")[0].split(b" ") for line in text.splitlines()]
    return sum(int(effect[0]) for effect in effects if effect[-1] in (b"event", b"events"))


def rows_of(salvaged):
    """How many rows of logs `salvage` prints."""
    return sum(line[0].isalnum() and line.count(",") == 4 and line[:4] != "addr" for line in salvaged.splitlines())
