"""Random runs of a made-up hart: the rows of its recording are those that it made, with the levels that it was at.

The hart takes interrupts and exceptions at any place, also right behind returns and other traps, from any level to one that is not
below, and each handler returns to where it was entered from. So every level is decided but those of the handlers that the end of
the recording cuts.
"""
import random
import unittest
from itertools import dropwhile, zip_longest

from support import BEQ_8, MACHINE, MRET, NOP, RET, SRET, STOPPED, SUPERVISOR, USER, Run, at, image_of, trace, trap_line

WORDS = 10 * [NOP, NOP, BEQ_8, NOP, RET] + [RET, MRET, RET, SRET, RET]
IMAGE = image_of(*WORDS)
RETURNS = {MACHINE: WORDS.index(MRET), SUPERVISOR: WORDS.index(SRET)}
DEEPEST = 8


class MadeUpHart:
    """Its lines and its rows; `place` is the next word, and `waits` holds place and level of each trap that it is inside of."""

    def __init__(self, draw, number=0):
        self.draw, self.number = draw, number
        self.place, self.level, self.waits = 0, draw.choice((USER, SUPERVISOR, MACHINE)), []
        self.is_behind_trap = True  # no trap before the first row
        self.retired = None  # the place of the last instruction: a fetch that fails at the same place would look like its fault
        self.lines, self.rows = [], []
        self.retire()

    def chance(self, share):
        return self.draw.random() < share

    def announce(self):
        self.lines.append(trace(self.place, self.level, self.number))

    def step(self):
        """An instruction that is stopped, a trap or an instruction that retires."""
        if self.chance(0.1):
            self.announce()
            self.lines.append(STOPPED)
        if len(self.waits) < DEEPEST and self.chance(0.3):
            self.trap(is_interrupt=self.chance(0.6))
        else:
            self.retire()

    def trap(self, is_interrupt):
        """A handler masks the interrupts of its level, so right behind a trap one goes from supervisor to machine level."""
        if is_interrupt and self.is_behind_trap and self.level == MACHINE:
            return
        if not is_interrupt and (self.place == self.retired or self.chance(0.5)):
            self.announce()
        cause, value = (7, "") if is_interrupt else (13, "40")
        self.lines.append(trap_line(is_interrupt, cause, at(self.place), 0x40, self.number))
        self.rows.append(f"{at(self.place):x},{2 if is_interrupt else 1},{self.level},{cause:x},{value}")
        self.waits.append((self.place, self.level))
        is_masked = is_interrupt and self.is_behind_trap
        self.level = MACHINE if self.level == MACHINE or is_masked or self.chance(0.5) else SUPERVISOR
        self.place = self.draw.randrange(50)
        self.is_behind_trap = True

    def retire(self):
        word, place, itype = WORDS[self.place], self.place + 1, 0
        self.announce()
        level = self.level
        if word == BEQ_8:
            itype = self.draw.choice((4, 5))
            place = self.place + itype - 3
        elif word == RET:
            itype = 6
            place = self.draw.randrange(50)
            if self.waits and self.level != USER and self.chance(0.8):
                place = RETURNS[self.level]
        elif word in (MRET, SRET):
            itype = 3
            place, level = self.waits.pop()
        self.rows.append(f"{at(self.place):x},{itype},{self.level},,")
        self.retired, self.place, self.level, self.is_behind_trap = self.place, place, level, False


def without_levels(rows):
    return [[field for at_field, field in enumerate(row.split(",")) if at_field != 2] for row in rows]


class Random(unittest.TestCase):
    def compare(self, run, harts):
        for hart in harts:
            name = f"hart{hart.number:02}.csv"
            rows = run.rows(name)
            want = hart.rows[: len(rows)]
            self.assertGreaterEqual(len(rows), len(hart.rows) - 1)
            self.assertEqual(without_levels(rows), without_levels(want))
            wrong = [row for row, wanted in zip(rows, want) if row != wanted]
            guessed = run.harts.found[hart.number].opened.guessed()
            self.assertLessEqual(len(wrong), guessed, wrong)
            self.assertEqual(run.warnings, [])
            self.assertIsNone(run.first_illegal(name))
            yield guessed

    def test_one_hart(self):
        decided = 0
        for seed in range(150):
            hart = MadeUpHart(random.Random(seed))
            for _ in range(400):
                hart.step()
            guesses = list(self.compare(Run(IMAGE, hart.lines), [hart]))
            decided += guesses == [0]
        self.assertGreater(decided, 10)

    def test_three_harts_in_turns(self):
        for seed in range(30):
            draw = random.Random(seed)
            harts = [MadeUpHart(draw, number) for number in range(3)]
            lines = []
            for _ in range(300):
                hart = draw.choice(harts)
                for _ in range(draw.randrange(5)):
                    hart.step()
                lines += hart.lines
                hart.lines = []
            list(self.compare(Run(IMAGE, lines), harts))


class Inside(unittest.TestCase):
    """The same runs with an image that has only some of the words: `--inside` leaves out what stands elsewhere."""

    def wanted(self, hart, first, last):
        """The rows that are left, by the rules of docs/RECORDING.md."""
        def is_inside(row):
            return row is not None and at(first) <= int(row.split(",")[0], 16) < at(last)

        rows = []
        for row, following in zip_longest(hart.rows, hart.rows[1:]):
            if is_inside(row) or row.split(",")[1] in "12" and is_inside(following):
                rows.append(row)
        return rows

    def from_first_instruction(self, rows):
        """The rows without the traps at the beginning: whether these have rows depends on the line of an instruction that fails."""
        return list(dropwhile(lambda row: row.split(",")[1] in "12", rows))

    def test_what_is_left(self):
        count, ended, wrong_levels, guessed = 0, 0, 0, 0
        for seed in range(150):
            draw = random.Random(seed)
            hart = MadeUpHart(draw)
            for _ in range(400):
                hart.step()
            first = draw.randrange(25)
            last = draw.randrange(first + 10, len(WORDS) + 1)
            run = Run(image_of(*WORDS[first:last]), hart.lines, has_inside=True, base=at(first))
            rows, want = map(self.from_first_instruction, (run.rows(), self.wanted(hart, first, last)))
            self.assertEqual(without_levels(rows), without_levels(want[: len(rows)]), seed)
            self.assertIsNone(run.first_illegal(), seed)
            self.assertEqual(run.warnings, [])
            is_whole = run.harts.are_whole()
            self.assertTrue(len(rows) >= len(want) - 2 if is_whole else rows or not want, seed)
            count += len(rows)
            ended += not is_whole
            wrong_levels += sum(row != other for row, other in zip(rows, want))
            guessed += run.harts.found[0].opened.guessed()
        self.assertGreater(count, 10_000)
        self.assertLess(ended, 150)
        self.assertLessEqual(wrong_levels, guessed)
