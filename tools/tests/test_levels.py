"""The level of a trap whose line and whose event before do not say it: behind a return and behind another trap."""
import unittest
from unittest import mock

from support import (
    BASE, MACHINE, MRET, NOP, RET, SRET, STOPPED, SUPERVISOR, USER, Run, at, exception, image_of, interrupt, trace, traces,
)

from recording import harts, open_traps

# 0 and 1: NOP, MRET; 2 and 3: NOP, SRET; 4 to 9: NOP; 10 and 11: JALR, MRET
IMAGE = image_of(NOP, MRET, NOP, SRET, NOP, NOP, NOP, NOP, NOP, NOP, RET, MRET)
TO_MACHINE = traces((0, 1), MACHINE)
TO_SUPERVISOR = traces((2, 3), SUPERVISOR)


def trap_rows(lines):
    """The place of each trap of a log in the image, and its level; the log has to be legal."""
    run = Run(IMAGE, lines)
    assert run.first_illegal() is None, run.first_illegal()
    rows = [row.split(",") for row in run.rows()]
    return [((int(row[0], 16) - BASE) // 4, int(row[2])) for row in rows if row[1] in "12"], run


def guessed(run):
    return run.harts.found[0].opened.guessed()


class BehindReturns(unittest.TestCase):
    def test_the_level_that_the_handler_goes_back_to(self):
        for level in (USER, SUPERVISOR, MACHINE):
            found, run = trap_rows(TO_MACHINE + [interrupt(7, 4)] + TO_MACHINE + traces((4, 5), level))
            self.assertEqual((found, guessed(run)), ([(4, level)], 0))

    def test_behind_sret_from_supervisor_level(self):
        for level in (USER, SUPERVISOR):
            found, run = trap_rows(TO_SUPERVISOR + [interrupt(7, 4)] + TO_MACHINE + traces((4, 5), level))
            self.assertEqual((found, guessed(run)), ([(4, level)], 0))

    def test_without_a_return_it_is_the_handlers(self):
        found, run = trap_rows(TO_MACHINE + [interrupt(7, 4)] + traces((0, 1), MACHINE))
        self.assertEqual((found, guessed(run)), ([(4, MACHINE)], 1))
        self.assertTrue(run.summary().endswith("; 1 levels guessed"))

    def test_without_a_return_behind_sret_it_is_no_machine_level(self):
        found, run = trap_rows(TO_SUPERVISOR + [interrupt(7, 4)] + traces((0, 1), MACHINE))
        self.assertEqual((found, guessed(run)), ([(4, SUPERVISOR)], 1))

    def test_without_a_return_it_is_that_of_the_trap_before(self):
        """A user program calls; behind the MRET of the call comes an interrupt, and the recording ends in its handler."""
        lines = traces((4, 5), USER) + [exception(8, 5)] + TO_MACHINE + [interrupt(7, 6)] + traces((0, 0), MACHINE)
        found, run = trap_rows(lines)
        self.assertEqual((found, guessed(run)), ([(5, USER), (6, USER)], 1))

    def test_without_a_return_behind_a_return_to_another_place_it_is_the_handlers(self):
        lines = traces((4, 5), USER) + [interrupt(7, 6)] + TO_MACHINE + [interrupt(3, 9)] + traces((0, 0), MACHINE)
        found, run = trap_rows(lines)
        self.assertEqual((found, guessed(run)), ([(6, USER), (9, MACHINE)], 1))

    def test_without_a_return_it_is_not_above_the_handlers(self):
        """The handler of an interrupt from machine level goes back to a lower level, where a delegated interrupt waits."""
        lines = traces((4, 5), MACHINE) + [interrupt(7, 6)] + TO_MACHINE + [interrupt(5, 6)] + traces((2, 2), SUPERVISOR)
        found, run = trap_rows(lines)
        self.assertEqual((found, guessed(run)), ([(6, MACHINE), (6, SUPERVISOR)], 1))

    def test_of_two_traps_at_a_place_the_later_is_returned_from(self):
        lines = TO_MACHINE + [interrupt(7, 4)] + TO_MACHINE + traces((6, 7, 8, 9, 10, 1), MACHINE)
        found, run = trap_rows(lines + [interrupt(3, 4)] + TO_MACHINE + traces((4, 5), USER))
        self.assertEqual((found, guessed(run)), ([(4, MACHINE), (4, USER)], 1))

    def test_a_return_to_another_place_shows_nothing(self):
        lines = TO_MACHINE + [interrupt(7, 4)] + TO_MACHINE + traces((6, 7), USER)
        found, run = trap_rows(lines)
        self.assertEqual((found, guessed(run)), ([(4, MACHINE)], 1))

    def test_several_interrupts_with_nothing_between_them(self):
        lines = TO_MACHINE + 3 * ([interrupt(7, 4)] + TO_MACHINE) + traces((4, 5), USER)
        found, run = trap_rows(lines)
        self.assertEqual((found, guessed(run)), ([(4, USER)] * 3, 0))

    def test_an_interrupt_behind_that_of_a_running_program(self):
        lines = traces((4, 5), USER) + [interrupt(7, 6)] + TO_MACHINE + [interrupt(3, 6)] + TO_MACHINE + traces((6, 7), USER)
        found, run = trap_rows(lines)
        self.assertEqual((found, guessed(run)), ([(6, USER)] * 2, 0))

    def test_a_fault_on_the_first_fetch(self):
        lines = TO_MACHINE + [exception(12, 4, at(4))] + TO_MACHINE + traces((4, 5), USER)
        found, run = trap_rows(lines)
        self.assertEqual((found, guessed(run)), ([(4, USER)], 0))

    def test_an_exception_of_an_instruction_that_was_announced_is_certain(self):
        found, run = trap_rows(TO_MACHINE + [trace(4, USER), exception(2, 4)] + traces((0,), MACHINE))
        self.assertEqual((found, guessed(run)), ([(4, USER)], 0))

    def test_the_level_of_an_instruction_that_was_stopped_is_certain(self):
        found, run = trap_rows(TO_MACHINE + [trace(4, USER), STOPPED, interrupt(7, 4)] + traces((0,), MACHINE))
        self.assertEqual((found, guessed(run)), ([(4, USER)], 0))

    def test_a_context_switch(self):
        """An interrupt at 4 in a first program; its handler goes to a second at 6, whose interrupt leads back to the first."""
        lines = TO_MACHINE + [interrupt(7, 4)] + TO_MACHINE + traces((6, 7), SUPERVISOR)
        lines += [interrupt(7, 8)] + TO_MACHINE + traces((4, 5), USER)
        found, run = trap_rows(lines)
        self.assertEqual((found, guessed(run)), ([(4, USER), (8, SUPERVISOR)], 0))

    def test_a_handler_that_runs_the_interrupted_code_itself(self):
        """An interrupt at 4 comes from user level. Its handler runs the code at 4 too, is interrupted there, and goes on."""
        inner = [trace(10, MACHINE), interrupt(3, 4)] + TO_MACHINE + traces((4, 5, 6, 7, 8, 9, 10, 0, 1), MACHINE)
        found, run = trap_rows(TO_MACHINE + [interrupt(7, 4)] + inner + traces((4, 5), USER))
        self.assertEqual((found, guessed(run)), ([(4, USER), (4, MACHINE)], 0))

    def test_a_trap_that_is_never_returned_from(self):
        """Behind it traps and returns do not nest; the return to the place shows the level all the same."""
        lines = TO_MACHINE + [interrupt(7, 4)] + [trace(0, MACHINE), exception(11, 0)] + TO_MACHINE + traces((4, 5), USER)
        found, run = trap_rows(lines)
        self.assertEqual((found, guessed(run)), ([(4, USER), (0, MACHINE)], 1))


class BehindTraps(unittest.TestCase):
    def test_a_machine_interrupt_behind_a_delegated_call(self):
        lines = traces((4, 5), USER) + [exception(8, 5), interrupt(7, 2)] + TO_MACHINE + TO_SUPERVISOR + traces((6, 7), USER)
        found, run = trap_rows(lines)
        self.assertEqual((found, guessed(run)), ([(5, USER), (2, SUPERVISOR)], 0))

    def test_without_a_return_it_is_supervisor_level(self):
        lines = traces((4, 5), USER) + [exception(8, 5), interrupt(7, 2)] + traces((0, 0), MACHINE)
        found, run = trap_rows(lines)
        self.assertEqual((found, guessed(run)), ([(5, USER), (2, SUPERVISOR)], 1))

    def test_a_fault_on_the_first_fetch_of_a_handler(self):
        lines = traces((4, 5), MACHINE) + [exception(11, 5), exception(1, 2, at(2))] + traces((0, 1), MACHINE)
        found, run = trap_rows(lines + traces((2, 4), MACHINE))
        self.assertEqual((found, guessed(run)), ([(5, MACHINE), (2, MACHINE)], 0))

    def test_faults_on_fetches_without_end(self):
        """The handler of machine level lies where no fetch succeeds."""
        found, run = trap_rows(traces((4, 5), USER) + [exception(8, 5)] + 50 * [exception(1, 2, at(2))])
        self.assertEqual((found[0], len(found), guessed(run)), ((5, USER), 51, 50))

    def test_an_interrupt_behind_a_trap_behind_a_return(self):
        lines = TO_MACHINE + [exception(12, 4, at(4)), interrupt(7, 2)] + TO_MACHINE + TO_SUPERVISOR + traces((4, 5), USER)
        found, run = trap_rows(lines)
        self.assertEqual((found, guessed(run)), ([(4, USER), (2, SUPERVISOR)], 0))

    def test_the_cause_of_a_call_is_its_level(self):
        """Where the line of the instruction is missing."""
        for cause, level in ((8, USER), (9, SUPERVISOR), (11, MACHINE)):
            found, run = trap_rows(TO_MACHINE + [exception(cause, 4)] + traces((0, 0), MACHINE))
            self.assertEqual((found, guessed(run)), ([(4, level)], 0))


class Following(unittest.TestCase):
    def test_a_line_that_disagrees_is_warned_of_once(self):
        run = Run(IMAGE, traces((4, 5), USER) + traces((6, 7), SUPERVISOR) + traces((8, 9), USER))
        self.assertEqual([row.split(",")[2] for row in run.rows()], ["0"] * 5)
        self.assertEqual(len(run.warnings), 1)
        self.assertIn("hart 0: at 80000018 a line shows level 1, and the log has 0", run.warnings[0])

    def test_each_hart_is_warned_of(self):
        lines = [trace(place, level, hart) for hart in (0, 1) for place, level in ((4, 0), (5, 1), (6, 1))]
        self.assertEqual([text.split(":")[0] for text in Run(IMAGE, lines).warnings], ["hart 0", "hart 1"])

    def test_level_2_is_supervisor_level_with_user_memory_open(self):
        run = Run(IMAGE, TO_MACHINE + traces((4, 5), 2) + traces((6, 7), SUPERVISOR) + traces((8, 9), 2))
        self.assertEqual([row.split(",")[2] for row in run.rows()], ["3", "3", "1", "1", "1", "1", "1"])
        self.assertEqual(run.warnings, [])

    def test_returns_and_traps_are_not_warned_of(self):
        lines = TO_MACHINE + traces((4, 5), USER) + [interrupt(7, 6)] + TO_SUPERVISOR + traces((6, 7), USER)
        self.assertEqual(Run(IMAGE, lines).warnings, [])

    def test_an_interrupt_between_plain_instructions_has_their_level(self):
        found, run = trap_rows(traces((4, 5), USER) + [interrupt(7, 6)] + traces((0, 0), MACHINE))
        self.assertEqual((found, guessed(run)), ([(6, USER)], 0))

    def test_a_return_that_faults_changes_no_level(self):
        found, run = trap_rows([trace(0, USER), trace(1, USER), exception(2, 1)] + traces((0, 0), MACHINE))
        self.assertEqual((found, guessed(run)), ([(1, USER)], 0))


class Bounds(unittest.TestCase):
    """Runs in which no handler goes back take no more memory."""

    def test_open_traps_are_given_up_oldest_first(self):
        with mock.patch.object(open_traps, "MOST_KEPT", 4):
            lines = [line for place in (4, 5, 6, 7, 8) for line in TO_MACHINE + [interrupt(7, place)]]
            lines += TO_MACHINE + traces((4, 5), USER) + [interrupt(7, 6)] + TO_MACHINE + traces((8, 9), USER)
            found, run = trap_rows(lines)
            self.assertEqual((found[0], found[4]), ((4, MACHINE), (8, USER)))
            self.assertEqual((run.harts.found[0].opened.kept, guessed(run)), (3, 4))

    def test_a_chain_of_interrupts_is_given_up_oldest_first(self):
        with mock.patch.object(open_traps, "MOST_KEPT", 4):
            found, run = trap_rows(TO_MACHINE + 6 * ([interrupt(7, 4)] + TO_MACHINE) + traces((4, 5), USER))
            self.assertEqual(found, [(4, MACHINE)] * 2 + [(4, USER)] * 4)
            self.assertEqual(guessed(run), 2)

    def test_entries_are_forgotten(self):
        with mock.patch.object(harts, "KEPT_LINES", 2):
            run = Run(IMAGE, traces((4, 5, 6, 7, 8, 9), USER))
            self.assertEqual(run.rows(), [f"{at(place):x},0,0,," for place in range(4, 9)])
            self.assertLessEqual(len(run.harts.known), 2)
