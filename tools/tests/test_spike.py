"""Spike's log, in the form that its documentation and sources show. No Spike was run: the lines are written by hand."""
import unittest

from support import BASE, BEQ_8, ECALL, LOOP, MRET, NOP, RET, Run, at, image_of, spike

# 0: BEQ to 2; 1: NOP; 2: ECALL; 3: NOP; 4: JALR; 5 and 6: NOP, MRET; 7: JAL to itself
IMAGE = image_of(BEQ_8, NOP, ECALL, NOP, RET, NOP, MRET, LOOP)


def commit(place, level, hart=0, rest="x5  0x0000000000000001"):
    return f"core {hart:3}: {level} 0x{at(place):016x} (0x00000013) {rest}"


def commits(places, level, hart=0):
    return [commit(place, level, hart) for place in places]


def disassembled(place, hart=0):
    """The line of `-l` for an instruction that is about to run."""
    return f"core {hart:3}: 0x{at(place):016x} (0x00000013) nop"


def trap(name, place, value=None, hart=0):
    lines = [f"core {hart:3}: exception {name}, epc 0x{at(place):016x}"]
    return lines if value is None else lines + [f"core {hart:3}:           tval 0x{value:016x}"]


def rows_of(*lines):
    run = Run(IMAGE, lines, form=spike)
    assert run.first_illegal() is None, run.first_illegal()
    return run.rows()


class Spike(unittest.TestCase):
    def test_each_commit_is_a_row(self):
        self.assertEqual(rows_of(*commits((3, 4, 5), 3)), ["8000000c,0,3,,", "80000010,6,3,,", "80000014,0,3,,"])

    def test_a_last_branch_is_left_out(self):
        self.assertEqual(rows_of(*commits((3, 4, 0), 3)), ["8000000c,0,3,,", "80000010,6,3,,"])

    def test_branches(self):
        self.assertEqual(rows_of(*commits((0, 1), 0))[0], "80000000,4,0,,")
        self.assertEqual(rows_of(commit(0, 0), *trap("trap_user_ecall", 2), commit(5, 3))[0], "80000000,5,0,,")

    def test_the_lines_without_a_level_are_nothing(self):
        lines = [line for place in (3, 4, 5) for line in (disassembled(place), commit(place, 3))]
        self.assertEqual(rows_of(*lines), rows_of(*commits((3, 4, 5), 3)))

    def test_other_lines_are_nothing(self):
        lines = ["", "core   0: >>>>  main", "warning: some", "core", commit(3, 3), "(spike)", commit(4, 3)]
        self.assertEqual(len(rows_of(*lines)), 2)

    def test_what_a_commit_writes_is_nothing(self):
        lines = [commit(3, 1, rest="mem 0x80001000 0x12"), commit(4, 1, rest=""), commit(5, 1, rest="c768_mstatus 0x8000000a")]
        self.assertEqual([row[-4:] for row in rows_of(*lines)], [",1,,"] * 3)

    def test_an_exception_with_its_value(self):
        lines = [commit(3, 0), *trap("trap_load_page_fault", 4, 0x1234), commit(5, 1)]
        self.assertEqual(rows_of(*lines), ["8000000c,0,0,,", "80000010,1,0,d,1234", "80000014,0,1,,"])

    def test_an_exception_without_a_value(self):
        lines = [disassembled(1), commit(1, 1), disassembled(2), *trap("trap_supervisor_ecall", 2), disassembled(5), commit(5, 3)]
        self.assertEqual(rows_of(*lines), ["80000004,0,1,,", "80000008,1,1,9,0", "80000014,0,3,,"])

    def test_an_exception_at_the_end(self):
        self.assertEqual(rows_of(commit(3, 0), *trap("trap_load_access_fault", 4, 16))[-1], "80000010,1,0,5,10")

    def test_interrupts(self):
        lines = [commit(3, 0), *trap("interrupt #7", 4), commit(5, 3)]
        self.assertEqual(rows_of(*lines)[1], "80000010,2,0,7,")

    def test_a_fetch_that_faults_behind_a_jump_to_the_same_place(self):
        lines = [commit(7, 0), *trap("trap_instruction_page_fault", 7, at(7)), commit(5, 3)]
        self.assertEqual(rows_of(*lines)[:2], ["8000001c,0,0,,", "8000001c,1,0,c,8000001c"])

    def test_exceptions_without_a_name(self):
        lines = [commit(3, 0), *trap("trap #24", 4, 0), commit(5, 3)]
        self.assertEqual(rows_of(*lines)[1], "80000010,1,0,18,0")

    def test_an_exception_that_is_not_known_ends_the_log(self):
        run = Run(IMAGE, [*commits((3, 4), 0), *trap("trap_of_some_kind", 5), commit(5, 3)], form=spike)
        self.assertEqual((len(run.rows()), run.harts.are_whole()), (1, False))
        self.assertIn(": trap_of_some_kind has no cause here; ", run.summary())

    def test_a_trap_before_one_that_is_not_known_has_its_row(self):
        lines = [*commits((3, 4), 0), *trap("trap_breakpoint", 5, 8), *trap("trap_of_some_kind", 5), commit(5, 3)]
        run = Run(IMAGE, lines, form=spike)
        self.assertEqual(run.rows()[2:], ["80000014,1,0,3,8"])
        self.assertIn(": 3 rows, 2 retirements, 1 traps; ", run.summary())

    def test_the_causes_are_those_of_the_architecture(self):
        """By the table of mcause in the Privileged Architecture."""
        want = {"instruction_address_misaligned": 0, "illegal_instruction": 2, "breakpoint": 3, "store_access_fault": 7}
        want |= {"user_ecall": 8, "supervisor_ecall": 9, "machine_ecall": 11, "instruction_page_fault": 12, "store_page_fault": 15}
        for name, cause in want.items():
            self.assertEqual(spike.CAUSES[f"trap_{name}".encode()], cause)
        self.assertEqual(sorted(spike.CAUSES.values()), [0, 1, 2, 3, 4, 5, 6, 7, 8, 9, 11, 12, 13, 15])

    def test_an_interrupt_behind_mret(self):
        back = [commit(6, 3), *trap("interrupt #7", 3), *commits((5, 6), 3), commit(3, 0)]
        self.assertEqual(rows_of(*back)[1], "8000000c,2,0,7,")

    def test_a_call_behind_mret_has_the_level_of_its_cause(self):
        lines = [commit(6, 3), *trap("trap_user_ecall", 2), commit(5, 3)]
        self.assertEqual(rows_of(*lines)[1], "80000008,1,0,8,0")

    def test_a_fault_behind_mret_that_is_put_right(self):
        lines = [commit(6, 3), *trap("trap_load_page_fault", 3, 64), *commits((5, 6), 3), commit(3, 0)]
        self.assertEqual(rows_of(*lines)[1], "8000000c,1,0,d,40")

    def test_harts(self):
        lines = commits((3, 4), 3, 0) + commits((3, 4), 3, 1) + trap("trap_breakpoint", 5, 8, 0) + commits((5,), 3, 12)
        run = Run(IMAGE, lines, form=spike)
        self.assertEqual(run.names(), ["hart00.csv", "hart01.csv", "hart12.csv"])
        self.assertEqual((run.rows()[-1], len(run.rows("hart01.csv"))), ("80000014,1,3,3,8", 2))

    def test_leaving_the_image(self):
        run = Run(IMAGE, [*commits((3, 4), 3), "core   0: 3 0x0000000080010000 (0x00000013)"], form=spike)
        self.assertEqual((len(run.rows()), run.harts.found[0].why_ended), (2, "left the image at 80010000"))

    def test_the_boot_rom_is_left_out(self):
        rom = "core   0: 3 0x0000000000001000 (0x00000297) x5  0x0000000000001000"
        self.assertEqual(rows_of(rom, rom, commit(3, 3)), [f"{BASE + 12:x},0,3,,"])
