"""Logs of other sources. The files of `logs` are of one run, whose log is worked out by hand here; the runs that QEMU recorded are
written in the lines of other sources, and have to become the logs that `tools/record qemu` makes of them."""
import os
import subprocess
import tempfile
import unittest

import other_logs
from support import (
    BASE, BEQ_8, ECALL, HERE, LOOP, MRET, NOP, RECORDED, RET, TRACEBENCH, InFolder, Run, at, first_illegal, image_of, reading, record, recorded,
    spike,
)

# 0: BEQ to 2; 1: NOP; 2: ECALL; 3: NOP; 4: JALR; 5 and 6, the handler: NOP, MRET; 7: JAL to itself
IMAGE = image_of(BEQ_8, NOP, ECALL, NOP, RET, NOP, MRET, LOOP)
LOG = """80000000,5,0,, 80000008,1,0,8,0 80000014,0,3,, 80000018,3,3,, 8000000c,0,0,, 80000010,2,0,7, 80000014,0,3,, 80000018,3,3,,
80000010,6,0,, 8000001c,0,0,, 8000001c,0,0,,""".split()
NO_CAUSE = [row.replace("2,0,7,", "1,0,0,0") for row in LOG]  # nothing says the interrupt's
MINE = "--columns", "pc=PC,privilege=Prv,trap=Exc,cause=MCause,tval=MTval"
OF_USER = "--privilege", "0"
LEGAL_ALL = "behind_mret behind_sret behind_trap nested delegated sleeps two four".split()


class Sources(InFolder):
    def setUp(self):
        super().setUp()
        self.image = self.file("image.bin", IMAGE)

    def ran(self, form, text, *options, image=None, is_legal=True):
        """Status, warnings and the logs {name: rows} of a log's text."""
        with tempfile.TemporaryDirectory(dir=self.folder) as logs:
            ran = record(form, *options, f"{BASE:x}", image or self.image, "-", logs, given=text.encode())
            made, illegal = {}, []
            for name in sorted(os.listdir(logs)):
                with open(os.path.join(logs, name)) as file:
                    made[name] = file.read()
                if TRACEBENCH and is_legal:
                    words = [TRACEBENCH, "check", "--base", f"{BASE:x}", image or self.image, os.path.join(logs, name)]
                    illegal += [subprocess.run(words, capture_output=True, text=True).stdout] * bool(subprocess.call(words, stdout=-3))
        self.assertEqual(illegal, [])
        said = [line.removeprefix("record: ") for line in ran.stderr.decode().splitlines()]
        return ran.returncode, said, {name: text.splitlines()[1:] for name, text in made.items()}

    def made(self, form, name, *options):
        with open(os.path.join(HERE, "logs", name)) as file:
            status, said, logs = self.ran(form, file.read(), *options)
        rows = logs["hart00.csv"]
        self.assertIsNone(first_illegal(reading.Program(BASE, IMAGE), "\n".join([reading.HEADER, *rows])))
        return status, said, rows


class Files(Sources):
    def test_all_is_there(self):
        for form, name, *options in (
            ("csv", "mine.txt", *MINE), ("csv", "rvfi.csv"), ("csv", "rvvi.csv"), ("cva6", "cva6.log"), ("spike", "spike.log"),
        ):
            with self.subTest(name):
                self.assertEqual(self.made(form, name, *options), (0, [], LOG))

    def test_ibex(self):
        status, said, rows = self.made("ibex", "ibex.log", *OF_USER)
        self.assertEqual((status, rows), (1, NO_CAUSE))
        self.assertEqual(said[0], "line 8: nothing says the cause of the trap at 80000010: cause 0 is written")
        self.assertIn("Ibex's tracer has no traps", said[1])

    def test_spike_with_l_alone(self):
        status, said, rows = self.made("spike", "spike_begun.log", *OF_USER)
        self.assertEqual((status, rows), (1, LOG))
        self.assertEqual(said[0], "line 5: nothing says the privilege of the handler at 80000014: machine level is written")
        self.assertEqual(said[1], "line 7: nothing says the privilege after the return to 8000000c: 0 is written")
        self.assertIn("no privileges: what is inferred may be wrong; run Spike with -l --log-commits", said[-1])

    def test_spike_with_commits_alone(self):
        status, said, rows = self.made("spike", "spike_commits.log")
        self.assertEqual((status, rows), (1, NO_CAUSE))
        self.assertEqual(said[0], "line 6: nothing says the cause of the trap at 80000010: cause 0 is written")
        self.assertIn("no traps: what is inferred may lack some; run Spike with -l --log-commits", said[1])

    def test_spike_names_its_own_tool(self):
        lines = [f"core   0: 0 0x{at(place):016x} (0x00000013) " for place in (0, 5)]
        for text in Run(IMAGE, lines, form=spike).warnings:
            self.assertNotIn("QEMU", text)
            self.assertIn("run Spike with -l --log-commits", text)


class OfQemu(Sources):
    """The runs of `recorded`, whose traps are what the programs' own handlers saw (`test_recorded.py`)."""

    def compare(self, name, form, write, *options, each_hart=False):
        image, lines = os.path.join(RECORDED, name.partition("_7")[0] + ".bin"), recorded(name + ".log.xz")
        with tempfile.TemporaryDirectory() as logs:
            record("qemu", *options, f"{BASE:x}", image, "-", logs, given=lines)
            want = {}
            for file in sorted(os.listdir(logs)):
                with open(os.path.join(logs, file)) as log:
                    want[file] = log.read().splitlines()[1:]
        events = [*other_logs.events_of(lines.split(b"\n"))]
        harts = sorted({event[0] for event in events}) if each_hart else [None]
        for hart in harts:
            some = [event for event in events if hart in (None, event[0])]
            of_hart = () if hart is None else ("--hart", str(hart))
            with self.subTest(name=name, hart=hart):
                status, said, logs = self.ran(form, "\n".join(write(some)), *options, *of_hart, image=image)
                self.assertEqual((status, said), (0, []))
                self.assertEqual(logs, want if hart is None else {f"hart{hart:02}.csv": want[f"hart{hart:02}.csv"]})

    def test_tables(self):
        for name in [*LEGAL_ALL, "faults"]:
            self.compare(name, "csv", other_logs.as_table)

    def test_rvfi(self):
        for name in LEGAL_ALL:
            self.compare(name, "csv", other_logs.as_rvfi, each_hart=True)

    def test_cva6(self):
        for name in LEGAL_ALL:
            self.compare(name, "cva6", other_logs.as_cva6, each_hart=True)

    def test_a_part_of_what_ran(self):
        self.compare("sv39_7.2", "csv", other_logs.as_table, "--inside")
        self.compare("sv39_7.2", "cva6", other_logs.as_cva6, "--inside")

    def test_spike_with_one_kind_of_lines_is_legal(self):
        for name in LEGAL_ALL:
            lines = recorded(name + ".log.xz").split(b"\n")
            for has_begun in (True, False):
                text = "\n".join(other_logs.as_spike(other_logs.events_of(lines), has_begun, not has_begun))
                status, said, logs = self.ran("spike", text, image=os.path.join(RECORDED, name + ".bin"))
                self.assertEqual(status, 1)
                self.assertIn("run Spike with -l --log-commits", said[-1])
                self.assertTrue(all(len(rows) > 100 for rows in logs.values()))


class Tables(Sources):
    def rows(self, *lines, options=(), want=0, is_legal=True):
        status, said, logs = self.ran("csv", "\n".join(lines) + "\n", *options, is_legal=is_legal)
        self.assertEqual(status, want, said)
        return logs["hart00.csv"], said

    def test_separators_prefixes_blanks_and_quotes(self):
        for sign in (",", ";", "\t", "|", "  "):
            lines = [sign.join(fields) for fields in (("PC", "Mode"), ("0x8000_000C", "M"), ('"80000010"', "3"), ("64'h80000014", "m"))]
            self.assertEqual(self.rows(*lines)[0], ["8000000c,0,3,,", "80000010,6,3,,", "80000014,0,3,,"])

    def test_calls_without_a_trap_column(self):
        self.assertEqual(self.rows("pc,priv", "80000008,0", "80000014,3"), (["80000008,1,0,8,0", "80000014,0,3,,"], []))

    def test_a_call_that_has_no_row(self):
        self.assertEqual(self.rows("pc,priv", "80000000,1", "80000014,1"), (["80000000,5,1,,", "80000008,1,1,9,0", "80000014,0,1,,"], []))

    def test_a_last_call(self):
        self.assertEqual(self.rows("pc,priv", "80000008,3")[0], ["80000008,1,3,b,0"])

    def test_an_interrupt_at_the_place_of_the_last_instruction_or_of_its_handler(self):
        for place in ("8000000c", "80000014"):
            rows, _ = self.rows("pc,priv,trap,cause", "8000000c,0,0,", f"{place},0,interrupt,7", "80000014,3,0,")
            self.assertEqual(rows, ["8000000c,0,0,,", "80000010,2,0,7,", "80000014,0,3,,"])

    def test_an_interrupt_by_the_highest_bit_of_its_cause(self):
        for cause in ("0x8000000000000007", "80000007"):
            rows, _ = self.rows("pc,priv,trap,cause,text", "8000000c,0,0,,nop", f'8000000c,0,1,{cause},"lw a0, 0(a1)"', "80000014,3,0,,nop")
            self.assertEqual(rows, ["8000000c,0,0,,", "80000010,2,0,7,", "80000014,0,3,,"])

    def test_an_instruction_that_has_a_row_of_its_own_before_its_trap(self):
        rows, _ = self.rows("pc,priv,trap,cause,tval", "8000000c,0,0,,", "8000000c,0,1,d,40", "80000014,3,0,,")
        self.assertEqual(rows, ["8000000c,1,0,d,40", "80000014,0,3,,"])

    def test_decimal_causes_and_a_column_of_interrupts(self):
        rows, _ = self.rows("pc,priv,trap,interrupt,cause", "8000000c,0,0,0,0", "80000010,0,1,1,11", "80000014,3,0,0,0",
                            options=("--decimal", "cause"))
        self.assertEqual(rows[1], "80000010,2,0,b,")

    def test_no_column_of_privileges(self):
        rows, said = self.rows("pc", "8000000c", "80000014", "80000018", "80000010", options=OF_USER, want=1)
        self.assertEqual(rows, ["8000000c,0,0,,", "80000010,1,0,0,0", "80000014,0,3,,", "80000018,3,3,,", "80000010,6,0,,"])
        self.assertEqual(said, ["line 3: nothing says the cause of the trap at 80000010: cause 0 is written"])
        rows, said = self.rows("pc", "80000018", "8000000c", want=1)
        self.assertEqual(said, ["line 3: nothing says the privilege after the return to 8000000c: 3 is written"])

    def test_a_branch_before_a_trap(self):
        image = image_of(BEQ_8, NOP, NOP, NOP, NOP, NOP, MRET, LOOP)
        with open(self.image, "wb") as file:
            file.write(image)
        rows, said = self.rows("pc,priv,trap,cause", "80000000,3,0,", "80000014,3,interrupt,7", "80000014,3,0,", want=1)
        self.assertEqual(rows, ["80000000,4,3,,", "80000004,2,3,7,", "80000014,0,3,,"])
        self.assertEqual(said, ["line 3: nothing says whether the branch before the trap was taken: not taken is written"])

    def test_a_trap_behind_a_register_jump_ends_the_log(self):
        rows, said = self.rows("pc,priv", "8000000c,0", "80000010,0", "80000014,3", want=1)
        self.assertEqual(rows, ["8000000c,0,0,,", "80000010,6,0,,"])
        self.assertEqual(said, ["line 4: a trap came before 80000014, and nothing says at which address it was taken"])

    def test_a_cause_of_another_level(self):
        _, said = self.rows("pc,priv,trap,cause", "8000000c,3,0,", "80000010,3,1,8", "80000014,3,0,", want=1)
        self.assertEqual(said, ["line 3: the cause says that the call at 80000010 is of level 0, and the rows before it have 3"])

    def test_a_handler_that_is_missing(self):
        _, said = self.rows("pc,priv,trap,cause", "80000008,0,1,8", "8000000c,0,0,", want=1, is_legal=False)
        self.assertEqual(said, ["line 3: level 0 follows a trap from level 0, and no handler is of that level: rows are missing"])

    def test_many_warnings(self):
        _, said = self.rows("pc,priv", *["8000000c,3", "80000014,3", "80000018,3"] * 9, want=1)
        self.assertEqual((len(said), said[-1]), (6, "4 more of: nothing says the cause of the trap at A: cause 0 is written"))

    def test_rows_out_of_order(self):
        for orders in (("9", "10"), ("9", "a")):
            lines = [f"{place},3,{order}" for place, order in zip(("8000000c", "80000010"), orders)]
            self.assertEqual(self.rows("pc,priv,order", *lines)[1], [])
        _, said = self.rows("pc,priv,order", "8000000c,3,1", "80000010,3,3", want=1)
        self.assertEqual(said, ["line 3: order 3 comes after 1: rows are missing, or are not in order"])

    def test_harts(self):
        _, _, logs = self.ran("csv", "hart pc priv\n0 8000000c 3\n1 8000000c 3\n")
        self.assertEqual([*logs], ["hart00.csv", "hart01.csv"])
        _, _, logs = self.ran("csv", "pc priv\n8000000c 3\n", "--hart", "12")
        self.assertEqual([*logs], ["hart12.csv"])

    def test_what_cannot_be_read(self):
        for text, want, *options in (
            ("", "the log is empty: its first line has the names of the columns"),
            ("a,b\n", "line 1: no column of addresses: say which by --columns pc=NAME; there are a, b"),
            ("a,b\n", "line 1: no column c; there are a, b", "--columns", "pc=c"),
            ("pc,priv\n8000000c\n", "line 2: 1 fields, not 2"),
            ("pc,priv\n8000000c,2\n", "line 2: privilege 2 is none of 0, 1, 3, U, S, M"),
            ("pc,priv\nmain,3\n", "line 2: pc is no number: main"),
            ("pc,priv\n80000001,3\n", "line 2: pc is odd"),
        ):
            self.assertEqual(self.ran("csv", text, *options)[:2], (2, [f"-: {want}"]))
        status, said, _ = self.ran("csv", "pc\n", "--columns", "at=pc")
        self.assertEqual(status, 2)
        self.assertTrue(said[0].startswith("--columns at=pc: FIELD=NAME is wanted, with a field of pc, privilege, "), said)


if __name__ == "__main__":
    unittest.main()
