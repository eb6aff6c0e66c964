"""What `--inside` makes of a hart that leaves the image and comes back."""
import unittest

from support import (
    BASE, BEQ_8, LOOP, MACHINE, MRET, NOP, RET, SRET, STOPPED, SUPERVISOR, USER, Run, at, exception, image_of, interrupt, trace, traces,
    trap_line,
)

# 0 and 1: NOP, MRET; 2 and 3: NOP, SRET; 4 to 9: NOP; 10: JALR; 11: JAL to itself; 12: BEQ to 14; 13: NOP
IMAGE = image_of(NOP, MRET, NOP, SRET, NOP, NOP, NOP, NOP, NOP, NOP, RET, LOOP, BEQ_8, NOP)
FAR = 0x90000000


def away(count, level, first=FAR):
    """Lines of instructions outside the image, one behind the other."""
    return [trace(first + 4 * place, level) for place in range(count)]


def rows_of(lines):
    """The rows, and the run; the log is legal."""
    run = Run(IMAGE, lines, has_inside=True)
    assert run.first_illegal() is None, run.first_illegal()
    return run.rows(), run


def row(place, itype, level, rest=",,"):
    return f"{at(place):x},{itype},{level}{rest}"


class Jumps(unittest.TestCase):
    def test_an_uninferable_jump_leads_out_and_back(self):
        rows, run = rows_of(traces((9, 10), SUPERVISOR) + away(5, SUPERVISOR) + traces((4, 5, 6), SUPERVISOR))
        self.assertEqual(rows, [row(9, 0, 1), row(10, 6, 1), row(4, 0, 1), row(5, 0, 1)])
        self.assertTrue(run.harts.are_whole())
        self.assertTrue(run.summary().endswith("; 0 levels guessed; left the image 1 times, 5 instructions outside"))

    def test_each_time_is_counted(self):
        lines = 3 * (traces((9, 10), USER) + away(4, USER)) + traces((4, 5), USER)
        self.assertTrue(rows_of(lines)[1].summary().endswith("; left the image 3 times, 12 instructions outside"))

    def test_without_the_option_the_log_ends(self):
        run = Run(IMAGE, traces((9, 10), SUPERVISOR) + away(5, SUPERVISOR) + traces((4, 5, 6), SUPERVISOR))
        self.assertEqual((len(run.rows()), run.harts.found[0].why_ended), (2, f"left the image at {FAR:x}"))
        self.assertNotIn("outside", run.summary())

    def test_what_stands_before_the_image_is_not_counted(self):
        rows, run = rows_of([trace(0x1000, MACHINE)] * 5 + traces((4, 5), MACHINE))
        self.assertEqual((rows, run.harts.found[0].times_left), ([row(4, 0, 3)], 0))
        self.assertTrue(run.summary().endswith("; left the image 0 times, 0 instructions outside"))

    def test_a_plain_word_that_leads_out_ends_the_log(self):
        """The last word of the image, and no other row may follow it than one behind the image."""
        run = Run(IMAGE, [trace(13, USER), *away(3, USER, at(14)), *traces((4, 5), USER)], has_inside=True)
        self.assertEqual(run.rows(), [row(13, 0, 0)])
        self.assertEqual(run.harts.found[0].why_ended, f"left the image at {at(14):x}")
        self.assertFalse(run.harts.are_whole())

    def test_a_branch_that_leads_out_ends_the_log(self):
        run = Run(IMAGE, [trace(12, USER), *away(3, USER, at(14)), *traces((4, 5), USER)], has_inside=True)
        self.assertEqual((run.rows(), run.harts.found[0].why_ended), ([row(12, 5, 0)], f"left the image at {at(14):x}"))

    def test_another_level_behind_an_uninferable_jump_ends_the_log(self):
        lines = traces((9, 10), MACHINE) + away(3, MACHINE) + traces((4, 5), USER)
        run = Run(IMAGE, lines, has_inside=True)
        self.assertEqual(run.rows(), [row(9, 0, 3), row(10, 6, 3)])
        self.assertEqual(run.harts.found[0].why_ended, f"came back at {at(4):x} at level 0, where no row may follow")

    def test_a_recording_may_end_outside(self):
        rows, run = rows_of(traces((9, 10), USER) + away(3, USER))
        self.assertEqual((rows, run.harts.are_whole()), ([row(9, 0, 0), row(10, 6, 0)], True))
        self.assertTrue(run.summary().endswith("; left the image 1 times, 2 instructions outside"))

    def test_an_instruction_outside_that_is_stopped_is_not_counted(self):
        rows, run = rows_of(traces((9, 10), USER) + [*away(1, USER), STOPPED, *away(2, USER), *traces((4, 5), USER)])
        self.assertTrue(run.summary().endswith("; left the image 1 times, 2 instructions outside"))

    def test_harts_are_outside_by_themselves(self):
        lines = traces((9, 10), USER, 0) + traces((9, 10), USER, 1) + away(3, USER) + traces((4, 5), USER, 1)
        run = Run(IMAGE, lines + traces((6, 7), USER, 0), has_inside=True)
        self.assertEqual(run.rows("hart01.csv")[-1], row(4, 0, 0))
        self.assertEqual([run.harts.found[hart].times_left for hart in (0, 1)], [1, 0])


class TrapsFromOutside(unittest.TestCase):
    def test_a_trap_whose_handler_is_inside_is_written(self):
        lines = traces((2, 3), SUPERVISOR) + away(4, USER) + [trap_line(False, 8, FAR + 12)] + traces((4, 5), SUPERVISOR)
        rows, run = rows_of(lines)
        self.assertEqual(rows[1:], [row(3, 3, 1), f"{FAR + 12:x},1,0,8,0", row(4, 0, 1)])
        self.assertTrue(run.summary().endswith("; left the image 1 times, 3 instructions outside"))

    def test_a_trap_whose_handler_is_outside_is_left_out(self):
        lines = traces((2, 3), SUPERVISOR) + away(4, USER) + [trap_line(True, 7, FAR + 16)] + away(3, MACHINE, 0xA0000000)
        rows, run = rows_of(lines + away(2, USER, FAR + 16) + [trap_line(False, 13, FAR + 20, 64)] + traces((4, 5), SUPERVISOR))
        self.assertEqual(rows[1:], [row(3, 3, 1), f"{FAR + 20:x},1,0,d,40", row(4, 0, 1)])
        self.assertEqual(run.harts.found[0].times_left, 1)

    def test_a_trap_at_the_first_fetch_outside(self):
        """Nothing outside retires, so the image is not left."""
        lines = traces((2, 3), SUPERVISOR) + [trap_line(False, 12, FAR, FAR)] + traces((4, 5), SUPERVISOR)
        rows, run = rows_of(lines)
        self.assertEqual(rows[1:], [row(3, 3, 1), f"{FAR:x},1,1,c,{FAR:x}", row(4, 0, 1)])
        self.assertEqual(run.harts.found[0].times_left, 0)

    def test_a_trap_at_the_target_of_a_branch_out_of_the_image(self):
        lines = [trace(12, SUPERVISOR), trace(at(14), SUPERVISOR), trap_line(False, 12, at(14), at(14)), *traces((4, 5), SUPERVISOR)]
        rows, run = rows_of(lines)
        self.assertEqual(rows, [row(12, 5, 1), f"{at(14):x},1,1,c,{at(14):x}", row(4, 0, 1)])

    def test_a_handler_that_another_trap_interrupts_at_once(self):
        """The first trap's handler is where the second is taken."""
        lines = traces((2, 3), SUPERVISOR) + away(3, USER) + [trap_line(False, 8, FAR + 8), interrupt(7, 4)]
        rows, run = rows_of(lines + away(3, MACHINE, 0xA0000000) + traces((4, 5), SUPERVISOR))
        self.assertEqual(rows[2:], [f"{FAR + 8:x},1,0,8,0", row(4, 2, 1, ",7,"), row(4, 0, 1)])

    def test_the_level_behind_a_return_outside_shows_later(self):
        """Machine level outside goes back to user level, where an interrupt waits whose handler is inside."""
        lines = traces((2, 3), SUPERVISOR) + away(3, USER) + [trap_line(True, 7, FAR + 12)] + away(2, MACHINE, 0xA0000000)
        lines += [trap_line(True, 5, FAR + 12)] + traces((2, 3), SUPERVISOR) + away(2, USER, FAR + 12)
        rows, run = rows_of(lines)
        self.assertEqual(rows[2:], [f"{FAR + 12:x},2,0,5,", row(2, 0, 1), row(3, 3, 1)])
        self.assertTrue(": 0 levels guessed" in run.summary() or "; 0 levels guessed" in run.summary())

    def test_the_last_line_is_a_trap_from_outside(self):
        rows, run = rows_of(traces((2, 3), SUPERVISOR) + away(3, USER) + [trap_line(True, 7, FAR + 12)])
        self.assertEqual(rows, [row(2, 0, 1), row(3, 3, 1)])


class HandlersOutside(unittest.TestCase):
    def test_a_trap_from_inside_is_written(self):
        lines = traces((4, 5), SUPERVISOR) + [exception(9, 5)] + away(3, MACHINE) + traces((6, 7), SUPERVISOR)
        rows, run = rows_of(lines)
        self.assertEqual(rows, [row(4, 0, 1), row(5, 1, 1, ",9,0"), row(6, 0, 1)])
        self.assertTrue(run.summary().endswith("; left the image 1 times, 3 instructions outside"))

    def test_user_level_behind_a_trap_ends_the_log(self):
        lines = traces((4, 5), USER) + [exception(8, 5)] + away(3, MACHINE) + traces((6, 7), USER)
        run = Run(IMAGE, lines, has_inside=True)
        self.assertEqual(run.rows(), [row(4, 0, 0), row(5, 1, 0, ",8,0")])
        self.assertEqual(run.harts.found[0].why_ended, f"came back at {at(6):x} at level 0, where no row may follow")
        self.assertFalse(run.harts.are_whole())

    def test_traps_and_returns_outside_nest(self):
        """A call to machine level, outside; behind its return an interrupt, whose level shows once its handler goes back."""
        lines = traces((4, 5), SUPERVISOR) + [exception(9, 5)] + away(3, MACHINE) + [interrupt(5, 6)]
        lines += traces((2, 3), SUPERVISOR) + traces((6, 7), SUPERVISOR)
        rows, run = rows_of(lines)
        self.assertEqual(rows[1:], [row(5, 1, 1, ",9,0"), row(6, 2, 1, ",5,"), row(2, 0, 1), row(3, 3, 1), row(6, 0, 1)])
        self.assertIn("; 0 levels guessed", run.summary())


class SameAsWhole(unittest.TestCase):
    def test_a_recording_that_stays_inside_has_the_same_log(self):
        lines = traces((0, 1), MACHINE) + traces((4, 5), USER) + [interrupt(7, 6)] + traces((0, 1), MACHINE) + traces((6, 7), USER)
        self.assertEqual(rows_of(lines)[0], Run(IMAGE, lines).rows())

    def test_an_image_above_the_handlers(self):
        """All that stands below an address is outside, the handlers of traps too."""
        lines = traces((9, 10), MACHINE) + away(3, MACHINE, BASE + 0x100) + traces((4,), MACHINE)
        self.assertEqual(rows_of(lines)[0], [row(9, 0, 3), row(10, 6, 3)])
