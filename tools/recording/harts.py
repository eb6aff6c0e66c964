"""The harts of a recording: each line goes to its hart, and a line of text sums each up.

Most lines repeat others byte by byte, and so do most pairs of lines. So lines are looked up whole in `known`, which has
the instruction that each announces, and each instruction has the one that followed it last, and its row before that one.
Stretches in which each line is the usual one are taken as a whole. Only the others are looked into: an instruction that
now leads elsewhere, whose row `pairs` may have, new lines, traps, returns, changes of hart, and what is out of order.
"""
from itertools import islice, repeat
from operator import attrgetter, is_

from recording.files import ROW_LIMIT, Files
from recording.hart import NO_ROW, Hart
from recording.image import Nothing, Outside, is_jump_and_link_of_rv32
from recording.noticed import Noticed

NOTHING = Nothing()
USUAL, USUAL_ROW = attrgetter("usual"), attrgetter("usual_row")
IS_UNUSUAL = b"\0"

KEPT_ROWS = 1024  # of a hart, before they go to its file
KEPT_LINES = 1 << 17  # of `known`, so that an image of any length takes no more memory


class Harts:
    """The harts that a recording names, each from its first line on."""

    def __init__(self, image, form, folder, warn, has_pieces=False, has_inside=False, row_limit=ROW_LIMIT):
        self.image, self.form, self.folder = image, form, folder
        self.has_pieces, self.has_inside, self.row_limit = has_pieces, has_inside, row_limit
        self.noticed = Noticed(form, warn, image.is_user)
        self.found = {}
        self.known = {}  # the instructions that lines announce
        self.same = {}  # the one instruction of all lines that announce it
        self.pairs = {}  # the row of an instruction before another
        self.current = None  # the hart of the last line that announced an instruction

    def at(self, number):
        """The hart with this number."""
        if number not in self.found:
            files = Files(self.folder, number, self.has_pieces, self.row_limit)
            self.found[number] = Hart(number, self.image, self.form, self.has_inside, files, self.noticed)
        return self.found[number]

    def take(self, lines):
        """Takes lines of the recording."""
        lines = self.form.wanted(lines)
        keys = self.form.keys(lines)
        found = [*map(self.known.get, keys, repeat(NOTHING))]
        rows = [*map(USUAL_ROW, found)]
        are_usual = bytes(map(is_, map(USUAL, found), islice(found, 1, None)))
        at, count = 0, len(lines)
        while at < count:
            is_in_order = self.step(lines[at], keys[at])
            if is_in_order and at < len(are_usual) and are_usual[at]:
                end = are_usual.find(IS_UNUSUAL, at) % count
                self.current.follow(rows[at:end], found[end], lines[end])
                at = end
            at += 1
        for hart in self.found.values():
            if len(hart.rows) > KEPT_ROWS:
                hart.flush()

    def step(self, line, key):
        """Takes a line; returns False where it announces an instruction that is not the hart's last event then."""
        instruction, seen = self.known.get(key), None
        if instruction is None:
            seen = self.form.instruction(line)
            if seen is None:
                self.form.other(line, self)
                return True
            instruction = self.learn(key, *seen)
        hart = self.current = instruction.hart
        before = hart.held
        row = self.pairs.get((before, instruction))
        if row is not None:
            hart.follow((row,), instruction, line)
            before.usual, before.usual_row = instruction, row
            return hart.held is instruction
        if hart.why_ended:
            return False
        address = instruction.address if instruction.is_inside else (seen or self.form.instruction(line))[1]
        hart.announce(instruction, line, address)
        if hart.held is instruction and before is not None:
            self.keep_pair(before, instruction)
        return hart.held is instruction

    def learn(self, key, number, address, level, is_rv32, how):
        """The instruction that a new line announces; it may be known by other lines."""
        if len(self.known) >= KEPT_LINES:
            self.known.clear()
            self.same.clear()
            self.pairs.clear()
        self.noticed.ran(how)
        is_inside = address in self.image
        which = number, address if is_inside else None, level
        instruction = self.same.get(which)
        if instruction is None:
            hart = self.at(number)
            instruction = self.image.instruction(hart, address, level) if is_inside else Outside(hart, level)
            self.same[which] = instruction
            if is_rv32 and is_inside and is_jump_and_link_of_rv32(self.image.word(address)):
                self.noticed.jump_and_link(number, address)
        self.known[key] = instruction
        return instruction

    def keep_pair(self, before, instruction):
        """Keeps the row of an instruction before another, where nothing but these two decides it."""
        if instruction.is_inside and before.is_inside:
            is_plain = before.highest is None and before.level == instruction.level
            if not is_plain or not before.leads_to(instruction.address):
                return
            row = before.row_before(instruction.address)
        elif instruction.is_inside or before.is_inside:
            return
        else:
            row = NO_ROW
        self.pairs[before, instruction] = row
        before.usual, before.usual_row = instruction, row

    def rows(self):
        """How many rows there are by now."""
        return sum(hart.files.rows for hart in self.found.values())

    def finish(self):
        for hart in self.found.values():
            hart.finish()
        self.noticed.finish()

    def are_whole(self):
        """Whether the log of each hart goes to the end of the recording."""
        return bool(self.found) and all(hart.why_ended == "end of the recording" for hart in self.found.values())


def summary(hart):
    """The line that sums up a hart whose recording has ended."""
    files = hart.files
    if not files.rows:
        return f"hart {hart.number}: 0 rows; {hart.why_ended}"
    pieces = f" in {files.piece + 1} files" if files.piece else ""
    last = files.last_row.split(b",")[0].decode()
    outside = f"; left the image {hart.times_left} times, {hart.outside} instructions outside"
    return (
        f"hart {hart.number}: {files.rows} rows{pieces}, {files.rows - hart.traps} retirements, {hart.traps} traps; "
        f"last at {last}: {hart.why_ended}; {hart.opened.guessed()} levels guessed{outside if hart.has_inside else ''}"
    )
