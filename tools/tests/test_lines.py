"""Which rows the lines of QEMU give."""
import unittest

from support import (
    BASE, BEQ_8, LOOP, MACHINE, MRET, NOP, RET, STOPPED, USER, Run, at, exception, image_of, interrupt, trace, traces, trap_line,
)

# 0: BEQ to 2; 1 to 3: NOP; 4: JAL to itself; 5: JALR; 6: MRET
IMAGE = image_of(BEQ_8, NOP, NOP, NOP, LOOP, RET, MRET)
ROM = 0x1000


def rows_of(*lines, **how):
    return Run(IMAGE, lines, **how).rows()


class Instructions(unittest.TestCase):
    def test_each_line_but_the_last_is_a_row(self):
        self.assertEqual(rows_of(*traces((1, 2, 3), MACHINE)), ["80000004,0,3,,", "80000008,0,3,,"])

    def test_a_branch_that_is_taken(self):
        self.assertEqual(rows_of(*traces((0, 2), USER)), ["80000000,5,0,,"])

    def test_a_branch_that_is_not_taken(self):
        self.assertEqual(rows_of(*traces((0, 1), USER)), ["80000000,4,0,,"])

    def test_a_branch_before_an_interrupt(self):
        for place, row in ((1, "80000000,4,0,,"), (2, "80000000,5,0,,")):
            self.assertEqual(rows_of(trace(0, USER), interrupt(7, place), trace(3, MACHINE))[0], row)

    def test_a_jump_to_itself_goes_on(self):
        self.assertEqual(rows_of(*traces((4, 4, 4, 4), MACHINE)), ["80000010,0,3,,"] * 3)

    def test_an_uninferable_jump_and_a_return(self):
        self.assertEqual(rows_of(*traces((5, 6, 3), MACHINE)), ["80000014,6,3,,", "80000018,3,3,,"])

    def test_symbols_behind_the_brackets_are_nothing(self):
        self.assertEqual(rows_of(trace(1, USER) + "main", trace(2, USER) + "loop"), ["80000004,0,0,,"])

    def test_what_other_flags_are_is_nothing(self):
        lines = [trace(1, USER), trace(2, USER).replace("00209000", "0020f000"), trace(3, USER).replace("00209000", "00000004")]
        self.assertEqual(rows_of(*lines), ["80000004,0,0,,", "80000008,0,0,,"])

    def test_a_shorter_cs_base_as_later_versions_print_it(self):
        lines = [line.replace("[0000000000000000/", "[00000000/") for line in traces((1, 2, 1, 2, 3), MACHINE)]
        self.assertEqual(len(rows_of(*lines)), 4)

    def test_an_address_of_another_width(self):
        lines = [line.replace("/00000000", "/").replace("00209", "0f209") for line in traces((1, 2, 1, 2, 3), 4 | USER)]
        self.assertEqual(rows_of(*lines), ["80000004,0,0,,", "80000008,0,0,,"] * 2)

    def test_other_lines_are_nothing(self):
        others = ["", "IN: main", "----------------", "Priv: 3; Virt: 0", "Trace is on", "riscv_cpu_do_interrupt: none", "\xff" * 9]
        lines = [line for place in (1, 2, 3) for line in [*others, trace(place, MACHINE), *others]]
        self.assertEqual(rows_of(*lines), ["80000004,0,3,,", "80000008,0,3,,"])

    def test_a_line_that_is_cut_is_nothing(self):
        whole = trace(2, MACHINE)
        for length in range(len("Trace 0: 0x7f7c0c000100 [0000000000000000/0000000080000008/00209003")):
            self.assertEqual(rows_of(trace(1, MACHINE), whole[:length]), [], whole[:length])


class Withdrawn(unittest.TestCase):
    def test_a_stopped_instruction_is_no_row(self):
        self.assertEqual(rows_of(trace(1, USER), trace(2, USER), STOPPED), ["80000004,0,0,,"])

    def test_it_may_be_announced_again(self):
        lines = [trace(1, USER), trace(2, USER), STOPPED, trace(2, USER), trace(3, USER)]
        self.assertEqual(rows_of(*lines), ["80000004,0,0,,", "80000008,0,0,,"])

    def test_it_decides_the_branch_before(self):
        self.assertEqual(rows_of(trace(0, USER), trace(2, USER), STOPPED), ["80000000,5,0,,"])

    def test_an_interrupt_may_come_in_its_place(self):
        lines = [trace(1, USER), trace(2, USER), STOPPED, interrupt(7, 2), trace(3, MACHINE), trace(4, MACHINE)]
        self.assertEqual(rows_of(*lines), ["80000004,0,0,,", "80000008,2,0,7,", "8000000c,0,3,,"])

    def test_it_is_the_last_that_any_hart_announced(self):
        lines = [trace(1, USER, 0), trace(1, USER, 1), trace(2, USER, 0), trace(2, USER, 1), STOPPED, trace(3, USER, 0)]
        run = Run(IMAGE, lines)
        self.assertEqual(run.rows("hart00.csv"), ["80000004,0,0,,", "80000008,0,0,,"])
        self.assertEqual(run.rows("hart01.csv"), ["80000004,0,0,,"])

    def test_one_before_all_else_is_nothing(self):
        self.assertEqual(rows_of(STOPPED, trace(1, USER), trace(2, USER)), ["80000004,0,0,,"])


class Traps(unittest.TestCase):
    def test_an_instruction_that_faults_is_no_row(self):
        lines = [trace(1, USER), trace(2, USER), exception(13, 2, 0x1234), trace(3, MACHINE), trace(4, MACHINE)]
        self.assertEqual(rows_of(*lines), ["80000004,0,0,,", "80000008,1,0,d,1234", "8000000c,0,3,,"])

    def test_an_interrupt_leaves_the_instruction_before(self):
        lines = [trace(4, USER), interrupt(7, 4), trace(3, MACHINE)]
        self.assertEqual(rows_of(*lines), ["80000010,0,0,,", "80000010,2,0,7,"])

    def test_a_fetch_that_faults_outside_the_image(self):
        lines = [trace(5, USER), trap_line(False, 1, 0, 0), trace(3, MACHINE), trace(4, MACHINE)]
        self.assertEqual(rows_of(*lines), ["80000014,6,0,,", "0,1,0,1,0", "8000000c,0,3,,"])

    def test_the_interrupts_mark_in_the_cause_is_left_out(self):
        lines = [trace(1, USER), trap_line(True, 1 << 63 | 5, at(2)), trace(3, MACHINE)]
        self.assertEqual(rows_of(*lines)[1], "80000008,2,0,5,")

    def test_an_interrupts_value_is_left_out(self):
        lines = [trace(1, USER), trap_line(True, 5, at(2), 9), trace(3, MACHINE)]
        self.assertEqual(rows_of(*lines)[1], "80000008,2,0,5,")

    def test_the_last_line_may_be_a_trap(self):
        self.assertEqual(rows_of(trace(1, USER), interrupt(7, 2)), ["80000004,0,0,,", "80000008,2,0,7,"])

    def test_a_trap_is_that_of_its_hart(self):
        lines = [*traces((1, 2), USER, 0), *traces((1, 2), USER, 1), exception(13, 2, 0, 0), trace(3, MACHINE, 0)]
        run = Run(IMAGE, lines)
        self.assertEqual(run.rows("hart00.csv")[-1], "80000008,1,0,d,0")
        self.assertEqual(run.rows("hart01.csv"), ["80000004,0,0,,"])


class Ends(unittest.TestCase):
    def test_what_stands_before_the_image_is_left_out(self):
        lines = [trace(ROM, MACHINE), trace(ROM + 4, MACHINE), trap_line(False, 2, ROM + 4), trace(1, MACHINE), trace(2, MACHINE)]
        self.assertEqual(rows_of(*lines), ["80000004,0,3,,"])

    def test_the_level_of_the_first_row_is_not_that_of_the_rom(self):
        run = Run(IMAGE, [trace(ROM, MACHINE), *traces((1, 2), USER)])
        self.assertEqual((run.rows(), run.warnings), (["80000004,0,0,,"], []))

    def test_leaving_the_image(self):
        lines = traces((1, 5), USER) + [trace(0x80001000, USER)] + traces((1, 2, 3), USER)
        run = Run(IMAGE, lines)
        self.assertEqual(run.rows(), ["80000004,0,0,,", "80000014,6,0,,"])
        self.assertEqual(run.harts.found[0].why_ended, "left the image at 80001000")
        self.assertFalse(run.harts.are_whole())

    def test_a_trap_that_leads_out_of_the_image_has_its_row(self):
        lines = traces((1, 2), USER) + [exception(8, 2), trace(0x90000000, MACHINE), interrupt(7, 1), trace(1, MACHINE)]
        run = Run(IMAGE, lines)
        self.assertEqual(run.rows(), ["80000004,0,0,,", "80000008,1,0,8,0"])
        self.assertEqual(run.harts.found[0].why_ended, "left the image at 90000000")

    def test_the_other_harts_go_on(self):
        run = Run(IMAGE, [trace(1, USER, 1), trace(0x90000000, USER, 1), *traces((1, 2, 3), USER, 0), *traces((1, 2), USER, 1)])
        self.assertEqual((len(run.rows("hart00.csv")), run.rows("hart01.csv")), (2, ["80000004,0,0,,"]))

    def test_a_hart_that_never_comes_to_the_image(self):
        run = Run(IMAGE, [*traces((1, 2), USER, 0), trace(ROM, MACHINE, 1), trace(ROM, MACHINE, 1)])
        self.assertEqual(run.rows("hart01.csv"), [])
        self.assertEqual(run.summary(1), "hart 1: 0 rows; never came to the image")
        self.assertFalse(run.harts.are_whole())

    def test_the_summary_of_a_whole_log(self):
        run = Run(IMAGE, traces((1, 2), USER) + [exception(8, 2)] + traces((3, 4, 4), MACHINE))
        self.assertTrue(run.harts.are_whole())
        want = "hart 0: 4 rows, 3 retirements, 1 traps; last at 80000010: end of the recording; 0 levels guessed"
        self.assertEqual(run.summary(), want)

    def test_an_image_at_the_top_of_memory(self):
        base = (1 << 64) - 64
        run = Run(IMAGE, [trace(base + 4, USER), trace(base + 8, USER)], base=base)
        self.assertEqual(run.rows(), ["ffffffffffffffc4,0,0,,"])

    def test_many_harts(self):
        run = Run(IMAGE, [trace(place, USER, hart) for place in (1, 2, 3) for hart in range(120)])
        self.assertEqual(run.names()[0], "hart00.csv")
        self.assertEqual(run.names()[-1], "hart99.csv")
        self.assertEqual(run.rows("hart119.csv"), ["80000004,0,0,,", "80000008,0,0,,"])
