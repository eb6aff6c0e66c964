"""`tools/verdict`, over a stand-in for the program that does one thing wrong, and over the program itself where TRACEBENCH names it."""
import os
import subprocess
import sys
import tempfile
import textwrap
import unittest

from support import BASE, RECORDED, TOOLS, TRACEBENCH, InFolder, record, recorded

HEADER = "addr,itype,priv,cause,tval\n"
LOGS = [HEADER + "80000000,0,3,,\n80000004,0,3,,\n80000008,0,3,,\n", HEADER + "80000000,0,0,,\n80000004,0,3,,\n"]

STAND_IN = '''\
    #!{python}
    """Answers as tracebench does: a capture is the text that it is decoded to."""
    import sys
    command, words = sys.argv[1], sys.argv[2:]
    logs = [word for word in words if word.endswith(".csv")]
    wrong = {wrong!r}
    open({calls!r}, "a").write(" ".join(sys.argv[1:]) + "\\n")
    if wrong == command + " fails":
        sys.stderr.write("tracebench: out of memory\\n")
        sys.exit(3)
    if command == "check":
        texts = [open(log).read() for log in logs]
        lines = [f"{{log}}: legal, {{text.count(chr(10)) - 1}} events" for log, text in zip(logs, texts)]
        if wrong == "illegal":
            lines[-1] = f"{{logs[-1]}}: row 2: WrongPrivilege\\n  80000000: something follows"
        if wrong == "illegal at 1":
            lines[-1] = f"{{logs[-1]}}: row 1: OffProgram"
        if wrong == "long logs" and "--long" not in words:
            sys.stderr.write(f"tracebench: {{logs[0]}}: more than 16777216 rows\\n")
            sys.exit(2)
        if wrong == "long logs":
            lines[0] = f"{{logs[0]}}: legal, 16777217 events"
        if wrong == "just short logs":
            lines[0] = f"{{logs[0]}}: legal, 16777216 events"
        if wrong == "no image":
            sys.stderr.write("tracebench: image.bin: cannot be read\\n")
            sys.exit(3)
        print("\\n".join(lines))
        sys.exit(2 if wrong and wrong.startswith("illegal") else 0)
    if command == "encode":
        text = "".join(f"hart {{hart}}\\n" + open(log).read() for hart, log in enumerate(logs))
        sys.stdout.write(text)
    if command == "decode":
        text = open(words[-1]).read()
        if wrong == "a digit":
            text = text[:-5] + "1" + text[-4:]
        if wrong == "early":
            text = text.replace("80000000", "80000002", 1) + "80000000,0,3,,\\n" * 20000
        if wrong == "short":
            text = text[:-15]
        if wrong == "long":
            text += "hart 2\\n"
        if wrong == "a hart":
            text = text[: text.index("hart 1")]
        sys.stdout.write(text)
        if wrong in ("short", "a hart", "status"):
            sys.stderr.write("tracebench: hart 1: no closing packet\\n")
            sys.exit(1)
    if command == "measure":
        print("hart,packets\\n0,5\\n1,5\\nall,10")
    if command == "bench":
        for hart, log in enumerate(logs):
            print(f"hart {{hart}}: 2 events, 5 packets, 12 payload bytes, decoded 2, whole")
        print("result: not whole" if wrong == "not whole" else "result: whole")
        sys.exit(1 if wrong == "not whole" else 0)
'''


class StandIn(InFolder):
    def setUp(self):
        super().setUp()
        self.calls = self.path("calls")
        self.image = self.file("image.bin", "raw")
        self.paths = [self.file(f"hart{hart:02}.csv", text) for hart, text in enumerate(LOGS)]

    def run_with(self, wrong=None, words=(), logs=None):
        program = self.file("program", textwrap.dedent(STAND_IN).format(python=sys.executable, wrong=wrong, calls=self.calls))
        os.chmod(program, 0o755)
        given = [*words, "--program", program, "80000000", self.image, *(self.paths if logs is None else logs)]
        return subprocess.run([os.path.join(TOOLS, "verdict"), *given], capture_output=True, text=True)

    def commands(self):
        with open(self.calls) as file:
            return [line.split() for line in file]

    def test_all_is_as_it_should_be(self):
        ran = self.run_with()
        want = f"hart 0: {self.paths[0]}, 3 rows\nhart 1: {self.paths[1]}, 2 rows\n"
        want += "check: 2 logs legal, 5 rows\nperiod 1024: capture of 143 bytes; decoded to the same bytes; "
        want += "whole over threads, 10 packets, 24 payload bytes; 38.400 bits a row\n"
        want += "hart,packets\n0,5\n1,5\nall,10\nverdict: good\n"
        self.assertEqual((ran.returncode, ran.stdout, ran.stderr), (0, want, ""))

    def test_each_command_is_run_at_each_period(self):
        ran = self.run_with(words=["--periods", "1,16", "--full"])
        lines = [line.split(":")[0] for line in ran.stdout.splitlines() if ":" in line]
        self.assertEqual(lines, ["hart 0", "hart 1", "check", "period 1", "period 16", "verdict"])
        calls = self.commands()
        each = ["encode", "decode", "bench", "measure"]
        self.assertEqual([call[0] for call in calls], ["check", *each, *each])
        self.assertEqual(calls[0][1:], ["--base", "80000000", "--explain", self.image, *self.paths])
        for place, period in ((1, "1"), (3, "1"), (4, "1"), (5, "16"), (7, "16"), (8, "16")):
            call = calls[place]
            self.assertEqual(call[1:7], ["--base", "80000000", "--period", period, "--full", self.image])
            self.assertEqual(call[7:], self.paths)

    def test_pieces_are_handed_on_to_each_command(self):
        also = [f"20000000={self.file('rom=1.bin', 'raw')}", f"1000={self.file('ram.bin', 'raw')}"]
        ran = self.run_with(words=["--also", also[0], f"--also={also[1]}"])
        self.assertEqual((ran.returncode, ran.stderr), (0, ""))
        calls = self.commands()
        self.assertEqual([call[0] for call in calls], ["check", "encode", "decode", "bench", "measure"])
        for call in calls:
            self.assertEqual(call[1:7], ["--base", "80000000", "--also", also[0], "--also", also[1]])
            self.assertEqual(call.count(self.image), 1)

    def test_a_piece_that_is_an_elf_file_is_refused(self):
        elf = self.file("program.elf", "\x7fELF")
        ran = self.run_with(words=["--also", f"20000000={elf}"])
        want = f"verdict: {elf} is an ELF file; tools/record --image FILE writes the raw image of one\n"
        self.assertEqual((ran.returncode, ran.stdout, ran.stderr), (2, "", want))

    def test_long_is_handed_on_to_those_that_take_it(self):
        ran = self.run_with(words=["--long", "--full"])
        self.assertEqual((ran.returncode, ran.stderr), (0, ""))
        check, encode, decode, bench, measure = self.commands()
        self.assertEqual(check[1:], ["--base", "80000000", "--explain", "--long", self.image, *self.paths])
        for call in encode, measure:
            self.assertEqual(call[1:], ["--base", "80000000", "--period", "1024", "--full", "--long", self.image, *self.paths])
        self.assertNotIn("--long", decode + bench)

    def test_a_long_log_goes_over_no_threads(self):
        ran = self.run_with("long logs", words=["--long"])
        want = f"hart 0: {self.paths[0]}, 16777217 rows\nhart 1: {self.paths[1]}, 2 rows\n"
        want += "check: 2 logs legal, 16777219 rows\nperiod 1024: capture of 143 bytes; decoded to the same bytes; "
        want += "no threads, since bench takes 16777216 rows of a log at most\n"
        want += "hart,packets\n0,5\n1,5\nall,10\nverdict: good\n"
        self.assertEqual((ran.returncode, ran.stdout, ran.stderr), (0, want, ""))
        self.assertEqual([call[0] for call in self.commands()], ["check", "encode", "decode", "measure"])

    def test_a_log_just_as_long_as_bench_takes_goes_over_threads(self):
        ran = self.run_with("just short logs", words=["--long"])
        self.assertIn("; whole over threads, 10 packets, ", ran.stdout)

    def test_a_long_log_wants_the_flag(self):
        ran = self.run_with("long logs")
        want = f"verdict: tracebench: {self.paths[0]}: more than 16777216 rows; tools/verdict --long takes it\n"
        self.assertEqual((ran.returncode, ran.stdout, ran.stderr), (2, "", want))

    def test_an_illegal_log(self):
        ran = self.run_with("illegal")
        want = f"{self.paths[1]}: row 2: WrongPrivilege\n  80000000: something follows\n"
        want += "  row 1: 80000000,0,0,,\n  row 2: 80000004,0,3,,\n"
        want += "verdict: bad, 1 of 2 logs not legal; none is encoded\n"
        self.assertEqual((ran.returncode, ran.stdout, ran.stderr), (1, want, ""))
        self.assertEqual([call[0] for call in self.commands()], ["check"])

    def test_a_first_row_has_none_before_it(self):
        ran = self.run_with("illegal at 1")
        self.assertIn("row 1: OffProgram\n  row 1: 80000000,0,0,,\nverdict: bad, ", ran.stdout)

    def test_an_elf_file_is_no_image(self):
        self.image = self.file("program.elf", "\x7fELF and so on")
        ran = self.run_with()
        want = f"verdict: {self.image} is an ELF file; tools/record --image FILE writes the raw image of one\n"
        self.assertEqual((ran.returncode, ran.stdout, ran.stderr), (2, "", want))
        self.assertFalse(os.path.exists(self.calls))

    def wrong(self, wrong, text):
        ran = self.run_with(wrong)
        self.assertEqual((ran.returncode, ran.stderr), (1, ""))
        self.assertIn(text, ran.stdout)
        self.assertTrue(ran.stdout.endswith("verdict: bad at period 1024\n"))

    def test_another_digit(self):
        self.wrong("a digit", f"; {self.paths[1]} differs at row 2; whole over")

    def test_a_digit_before_more_than_a_pipe_holds(self):
        self.wrong("early", f"; {self.paths[0]} differs at row 1; whole over")

    def test_rows_that_are_missing(self):
        self.wrong("short", f"; {self.paths[1]} differs at row 2 (tracebench: hart 1: no closing packet);")

    def test_a_hart_that_is_missing(self):
        self.wrong("a hart", "; hart 1 is missing (tracebench: hart 1: no closing packet);")

    def test_more_than_the_logs(self):
        self.wrong("long", f"; behind {self.paths[1]} more is decoded;")

    def test_the_same_bytes_with_another_status(self):
        self.wrong("status", "; status 1;")

    def test_a_run_over_threads_that_is_not_whole(self):
        self.wrong("not whole", "; decoded to the same bytes; not whole over threads, ")

    def test_a_command_that_fails(self):
        for command in ("encode", "bench", "measure"):
            ran = self.run_with(command + " fails")
            self.assertEqual((ran.returncode, ran.stderr), (3, "verdict: tracebench: out of memory\n"))

    def test_what_check_cannot_read(self):
        ran = self.run_with("no image")
        self.assertEqual((ran.returncode, ran.stdout, ran.stderr), (3, "", "verdict: tracebench: image.bin: cannot be read\n"))

    def test_more_logs_than_threads(self):
        logs = [self.file(f"many{hart:02}.csv", LOGS[0]) for hart in range(65)]
        ran = self.run_with(logs=logs)
        self.assertEqual(ran.returncode, 0)
        self.assertIn("; no threads, since bench takes 64 logs at most\nhart,packets\n", ran.stdout)

    def test_words(self):
        for words in (["--periods", "0"], ["--periods", "65536"], ["--periods", "x"], ["--periods", ""]):
            ran = self.run_with(words=words)
            self.assertEqual((ran.returncode, ran.stdout), (2, ""))
            self.assertNotIn("Traceback", ran.stderr)
        self.assertEqual(self.run_with(logs=[]).returncode, 2)

    def test_a_program_that_is_not_there(self):
        ran = self.run_with(words=[], logs=["--program", self.path("none"), "x.csv"])
        self.assertEqual((ran.returncode, ran.stdout), (3, ""))
        self.assertIn("none: No such file", ran.stderr)


@unittest.skipUnless(TRACEBENCH, "TRACEBENCH does not name the program")
class WithTheProgram(unittest.TestCase):
    RUNS = (
        ("four.log.xz", "four.bin", 4, []),
        ("behind_trap.log.xz", "behind_trap.bin", 1, []),
        ("faults.log.xz", "faults.bin", 1, []),
        ("page_10.0.log.xz", "page.bin", 2, []),
        ("sv39_7.2.log.xz", "sv39.bin", 1, ["--inside"]),
    )

    def test_recorded_runs(self):
        for recording, name, harts, flags in self.RUNS:
            with tempfile.TemporaryDirectory() as folder:
                image = os.path.join(RECORDED, name)
                record("qemu", *flags, f"{BASE:x}", image, "-", folder, given=recorded(recording))
                logs = [os.path.join(folder, f"hart{hart:02}.csv") for hart in range(harts)]
                for mode in ([], ["--full"]):
                    words = ["--periods", "1,7,1024", *mode, f"{BASE:x}", image, *logs]
                    ran = subprocess.run([os.path.join(TOOLS, "verdict"), *words], capture_output=True, text=True)
                    self.assertEqual((ran.returncode, ran.stderr), (0, ""), ran.stdout)
                    self.assertEqual(ran.stdout.count("; decoded to the same bytes; whole over threads, "), 3)
