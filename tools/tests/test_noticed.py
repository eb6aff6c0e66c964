"""Recordings that are no good: each is named with its cause, and has status 1."""
import os
import tempfile
import unittest

from support import (
    BASE, LOOP, MACHINE, MRET, NOP, RECORDED, USER, Run, at, exception, first_illegal, image_of, interrupt, reading, record,
    recorded, trace, traces,
)

from recording import noticed, qemu

# 0 to 4: NOP; 5: JAL to itself; 6: MRET; 7: ECALL; 8: C.JAL of RV32 and a halfword of zeros; 9: NOP
IMAGE = image_of(NOP, NOP, NOP, NOP, NOP, LOOP, MRET, 0x73, 0x2001, NOP)
VERSIONS = "7.2", "10.0"


def warnings_of(*lines, **how):
    return Run(IMAGE, lines, **how).warnings


def flagged(places, cflags, level=USER):
    """Lines of 7.2 with other flags at their end."""
    return [line.replace("/ff000201]", f"/{cflags:08x}]") for line in traces(places, level)]


def later(line, cflags=0xFF020201, flags=0x02024000):
    """A line of 7.2 in the form of 10.0."""
    head, _, tail = line.partition("[0000000000000000/")
    return f"{head}[00000000/{tail[:16]}/{flags | int(tail[24], 16):08x}/{cflags:08x}] "


class Flags(unittest.TestCase):
    def test_single_steps_are_not_warned_of(self):
        self.assertEqual(warnings_of(*traces((0, 1, 2), USER)), [])

    def test_blocks(self):
        for cflags in (0xFF000200, 0xFF000000, 0xFF000210):
            self.assertEqual(warnings_of(*flagged((0, 3, 4), cflags)), [qemu.BLOCKS_TEXT])

    def test_threads(self):
        self.assertEqual(warnings_of(*flagged((0, 1, 2), 0xFF080201)), [qemu.THREADS_TEXT])

    def test_counted_instructions(self):
        self.assertEqual(warnings_of(*flagged((0, 1, 1, 2), 0xFF020201)), [qemu.ICOUNT_TEXT])

    def test_the_same_of_the_later_form(self):
        for cflags, want in (
            (0xFF020201, []), (0xFF020200, [qemu.BLOCKS_TEXT]), (0xFF028201, [qemu.THREADS_TEXT]), (0xFF022201, [qemu.ICOUNT_TEXT]),
        ):
            lines = [later(line, cflags) for line in traces((0, 1, 2), USER)]
            self.assertEqual(warnings_of(*lines), want)

    def test_each_is_said_once(self):
        lines = flagged((0, 1), 0xFF0A0200) + flagged((2, 3), 0xFF0A0210)
        self.assertEqual(warnings_of(*lines), [qemu.BLOCKS_TEXT, qemu.THREADS_TEXT, qemu.ICOUNT_TEXT])


class Levels(unittest.TestCase):
    """The levels that the later form shows."""

    def levels(self, *flags):
        lines = [trace(6, MACHINE), *(later(trace(place, 0), flags=bits) for place, bits in enumerate(flags))]
        run = Run(IMAGE, [later(lines[0], flags=0x02C24000), *lines[1:]])
        self.assertEqual(run.warnings, [])
        return [row.split(",")[2] for row in run.rows()[1:]]

    def test_user_memory_open_at_supervisor_level(self):
        self.assertEqual(self.levels(0x82424001, 0x82424002, 0x82424001), ["1", "1"])

    def test_machine_level_that_loads_as_a_lower_one_does(self):
        self.assertEqual(self.levels(0x02C24003, 0x82C24001, 0x82C24000, 0x02C24003), ["3", "3", "3"])


class Missing(unittest.TestCase):
    def test_a_handler_without_a_trap(self):
        [text] = warnings_of(*traces((0, 1), USER), *traces((3, 4), MACHINE))
        self.assertEqual(text, f"hart 0: {at(3):x} does not follow the instruction at {at(1):x}{qemu.NO_TRAPS}")

    def test_a_handler_right_behind_the_instruction(self):
        [text] = warnings_of(*traces((0, 1), USER), *traces((2, 3), MACHINE))
        self.assertIn("a line shows level 3, and the log has 0; no other is named" + qemu.NO_TRAPS, text)

    def test_an_instruction_that_does_not_follow_where_there_are_traps(self):
        lines = [*traces((0, 1), USER), exception(8, 2), *traces((0, 3, 4), MACHINE)]
        self.assertEqual(warnings_of(*lines), [f"hart 0: {at(3):x} does not follow the instruction at {at(0):x}{noticed.OTHER_WORDS}"])

    def test_a_trap_that_does_not_follow(self):
        lines = [*traces((0, 1), USER), interrupt(7, 4), *traces((0, 1), MACHINE)]
        self.assertEqual(warnings_of(*lines), [f"hart 0: {at(4):x} does not follow the instruction at {at(1):x}{noticed.OTHER_WORDS}"])

    def test_each_hart_has_one(self):
        lines = [trace(place, USER, hart) for place in (0, 3, 0, 3) for hart in (1, 0)]
        self.assertEqual([text[:7] for text in warnings_of(*lines)], ["hart 0:", "hart 1:"])

    def test_an_instruction_twice(self):
        [text] = warnings_of(*traces((0, 1, 1, 2), USER))
        self.assertEqual(text, f"hart 0: the instruction at {at(1):x} is announced twice: leave -icount out")

    def test_a_jump_to_itself_is_no_instruction_twice(self):
        self.assertEqual(warnings_of(*traces((5, 5, 5), USER)), [])

    def test_a_call_that_goes_on(self):
        [text] = warnings_of(*traces((7, 8), USER))
        self.assertEqual(text, f"hart 0: the instruction at {at(7):x} {qemu.CALLS}")

    def test_a_call_of_a_program_of_user_level(self):
        run = Run(IMAGE, traces((7, 8), USER), is_user=True)
        self.assertEqual((run.warnings, run.rows()), ([], [f"{at(7):x},0,0,,"]))
        self.assertEqual(run.image.content[28:32], b"\x13\0\0\0")

    def test_a_program_of_user_level_that_goes_elsewhere(self):
        self.assertEqual(
            warnings_of(*traces((0, 3), USER), is_user=True),
            [f"hart 0: {at(3):x} does not follow the instruction at {at(0):x}{noticed.OTHER_WORDS}"],
        )


class Rv32(unittest.TestCase):
    """Lines of `qemu-system-riscv32`, version 7.2: all addresses have eight digits."""

    def lines(self, lines):
        return [line.replace("0000000000000000", "00000000").replace("/00000000", "/").replace("0x00000000", "0x") for line in lines]

    def test_traps_with_eight_digits(self):
        lines = self.lines(traces((0, 1), USER)) + ["riscv_cpu_do_interrupt: hart:0, async:1, cause:00000007, epc:0x80000008, tval:0x00000000, desc="]
        run = Run(IMAGE, lines + self.lines(traces((3, 4), MACHINE)))
        self.assertEqual(run.rows()[2:], ["80000008,2,0,7,", "8000000c,0,3,,"])
        self.assertEqual(run.warnings, [])

    def test_the_interrupts_mark_in_the_cause_is_left_out(self):
        lines = self.lines(traces((0, 1), USER)) + ["riscv_cpu_do_interrupt: hart:0, async:1, cause:80000007, epc:0x80000008, tval:0x00000000, desc="]
        self.assertEqual(Run(IMAGE, lines).rows()[2], "80000008,2,0,7,")

    def test_jump_and_link(self):
        lines = self.lines([*traces((8,), USER), trace(9, USER), trace(5, USER), trace(5, USER)])
        [text] = warnings_of(*lines)
        self.assertEqual(text, f"hart 0: the instruction at {at(8):x} {noticed.JUMP_AND_LINK}")

    def test_jump_and_link_of_the_later_form(self):
        lines = [later(line, flags=0x01014000) for line in traces((8, 9), USER)]
        self.assertEqual(warnings_of(*lines), [f"hart 0: the instruction at {at(8):x} {noticed.JUMP_AND_LINK}"])

    def test_the_same_word_of_rv64(self):
        self.assertEqual(warnings_of(trace(8, USER), trace(at(8) + 2, USER)), [])


class Recorded(unittest.TestCase):
    """Recordings of `programs/record-forms`, those of each version alike."""

    def record(self, name, version, image):
        """Status, output and errors, and of each log whether it is legal."""
        program = reading.Program(BASE, recorded(image))
        with tempfile.TemporaryDirectory() as folder:
            given = recorded(f"{name}_{version}.log.xz")
            ran = record("qemu", f"{BASE:x}", os.path.join(RECORDED, image), "-", folder, given=given)
            logs = []
            for log in sorted(os.listdir(folder)):
                with open(os.path.join(folder, log)) as file:
                    logs.append(first_illegal(program, file.read()) is None)
        return ran.returncode, ran.stdout.decode(), ran.stderr.decode(), logs

    def check(self, name, want, image="page.bin"):
        for version in VERSIONS:
            with self.subTest(version=version):
                status, _, text, _ = self.record(name, version, image)
                self.assertEqual((status, text), (1, "".join(f"record: {line}\n" for line in want)))

    def test_good_ones(self):
        for name in ("page", "page32"):
            for version in VERSIONS:
                status, text, errors, logs = self.record(name, version, name + ".bin")
                self.assertEqual((status, errors, logs), (0, "", [True, True]), text)
                self.assertEqual(text.count(", 1 traps; "), 2)

    def test_useless_ones_are_not_legal(self):
        """Lines of threads may be in order, and here the last instruction is the one that is announced twice."""
        for name in ("blocks", "no_int"):
            for version in VERSIONS:
                self.assertIn(False, self.record(name, version, "page.bin")[3], name)

    def test_blocks(self):
        self.check("blocks", [qemu.BLOCKS_TEXT])

    def test_threads(self):
        self.check("threads", [qemu.THREADS_TEXT])

    def test_counted_instructions(self):
        self.check("icount", [qemu.ICOUNT_TEXT])

    def test_no_traps(self):
        place = BASE + 0x36
        self.check("no_int", [f"hart {hart}: the instruction at {place:x} {qemu.CALLS}" for hart in (0, 1)])

    def test_no_instructions(self):
        self.check("no_exec", [f"- has no line of an instruction: qemu writes them with {qemu.FORM}"])

    def test_a_program_of_user_level_recorded_as_a_system(self):
        with tempfile.TemporaryDirectory() as folder:
            image = os.path.join(folder, "user.bin")
            with open(image, "wb") as file:
                file.write(recorded("user.elf")[0xB0:0xD8])
            for version in VERSIONS:
                logs = os.path.join(folder, version)
                os.mkdir(logs)
                ran = record("qemu", "100b0", image, "-", logs, given=recorded(f"user_{version}.log.xz"))
                self.assertEqual(ran.returncode, 1)
                self.assertIn(qemu.CALLS, ran.stderr.decode())


class Kernel(unittest.TestCase):
    """The kernel `programs/sv39.c`, whose programs of user level stand outside the image."""

    def test_inside(self):
        for version in VERSIONS:
            with tempfile.TemporaryDirectory() as folder:
                image, given = os.path.join(RECORDED, "sv39.bin"), recorded(f"sv39_{version}.log.xz")
                ran = record("qemu", "--inside", f"{BASE:x}", image, "-", folder, given=given)
                self.assertEqual((ran.returncode, ran.stderr), (0, b""))
                with open(os.path.join(folder, "hart00.csv")) as file:
                    text = file.read()
            self.compare(text, given.decode())
            self.assertIsNone(first_illegal(reading.Program(BASE, recorded("sv39.bin")), text))
            outside = self.outside(given.decode())
            self.assertIn(f", {outside} instructions outside\n", ran.stdout.decode())

    def compare(self, text, given):
        """All traps are in the log, since all handlers are inside: place, cause and, of each from user level, its level."""
        rows = [row.split(",") for row in text.splitlines()[1:]]
        found = [(row[0], row[3], row[1]) for row in rows if row[1] in "12"]
        want = []
        for line in given.splitlines():
            if line.startswith("riscv_cpu_do_interrupt"):
                fields = dict(field.split(":") for field in line.split(": ")[1].split(", ")[:5])
                want.append((f"{int(fields['epc'], 16):x}", f"{int(fields['cause'], 16):x}", "21"[fields["async"] == "0"]))
        self.assertEqual(found, want)
        self.assertGreater(len(want), 50)
        for row in rows:
            if row[1] in "12":
                self.assertEqual(row[2] == "0", row[0].startswith("4000"), row)
            else:
                self.assertTrue(row[0].startswith("8000"))

    def outside(self, given):
        """How many instructions retire at 40000000 and above: announced, and neither stopped nor trapping themselves."""
        count, last = 0, None
        for line in given.splitlines():
            if line.startswith("Trace"):
                count += last is not None
                address = int(line.split("/")[1], 16)
                last = address if 0x40000000 <= address < BASE else None
            elif line.startswith("Stopped"):
                last = None
            elif line.startswith("riscv_cpu_do_interrupt") and last is not None and f"epc:0x{last:016x}" in line:
                last = None
        return count
