"""`tools/record` as a program: its words, what it tests before it reads, its statuses and its text."""
import contextlib
import io
import os
import resource
import subprocess
import sys
from unittest import mock

from support import MACHINE, MRET, NOP, TOOLS, USER, InFolder, image_of, interrupt, record, script, trace, traces

IMAGE = image_of(*[NOP] * 7, MRET)
LINES = "".join(line + "\n" for line in traces((0, 1, 2), USER))


class Command(InFolder):
    def setUp(self):
        super().setUp()
        self.image = self.file("program.bin", IMAGE)
        self.recording = self.file("qemu.log", LINES.encode())
        self.logs = os.path.join(self.folder, "logs")
        os.mkdir(self.logs)

    def run_with(self, form="qemu", base="80000000", image=None, recording=None, folder=None, more=(), given=b""):
        words = [form, *more, base, image or self.image, recording or self.recording, folder or self.logs]
        return record(*words, given=given)

    def refused(self, want, **how):
        """The recording is not read, one line says why, and nothing is written."""
        ran = self.run_with(recording=how.pop("recording", "/dev/full"), **how)
        self.assertEqual((ran.returncode, ran.stdout), (2, b""), ran.stderr)
        self.assertEqual(ran.stderr.decode().count("\n"), 1)
        self.assertIn(want, ran.stderr.decode())
        self.assertEqual(os.listdir(self.logs), [])

    def test_a_whole_run(self):
        ran = self.run_with()
        want = b"hart 0: 2 rows, 2 retirements, 0 traps; last at 80000004: end of the recording; 0 levels guessed\n"
        self.assertEqual((ran.returncode, ran.stdout, ran.stderr), (0, want, b""))
        with open(os.path.join(self.logs, "hart00.csv")) as file:
            self.assertEqual(file.read(), "addr,itype,priv,cause,tval\n80000000,0,0,,\n80000004,0,0,,\n")

    def test_standard_input(self):
        ran = self.run_with(recording="-", given=LINES.encode())
        self.assertEqual((ran.returncode, ran.stdout), (0, self.summary_of_file()))

    def summary_of_file(self):
        other = os.path.join(self.folder, "other")
        os.mkdir(other)
        return self.run_with(folder=other).stdout

    def test_a_fifo(self):
        fifo = os.path.join(self.folder, "fifo")
        os.mkfifo(fifo)
        words = ["qemu", "80000000", self.image, fifo, self.logs]
        with subprocess.Popen([sys.executable, os.path.join(TOOLS, "record"), *words], stdout=subprocess.PIPE) as reader:
            with open(fifo, "w") as writer:
                writer.write(LINES)
            self.assertEqual(reader.communicate()[0], self.summary_of_file())

    def test_a_base_with_a_prefix(self):
        self.assertEqual(self.run_with(base="0x80000000").returncode, 0)

    def test_pieces_is_taken(self):
        self.assertEqual(self.run_with(more=["--pieces"]).returncode, 0)

    def rows_with(self, *flags):
        """How many rows each log has where a log has at most two rows, and a long one at most four; the recording has six."""
        given = "".join(trace(place, USER) + "\n" for place in range(7)).encode()
        program = script(os.path.join(TOOLS, "record"))
        words = ["record", "qemu", *flags, "80000000", self.image, self.file("seven.log", given), self.logs]
        limits = mock.patch.multiple(program, ROW_LIMIT=2, LONG_ROW_LIMIT=4)
        with limits, mock.patch.object(sys, "argv", words), contextlib.redirect_stdout(io.StringIO()):
            status = program.main()
        counts = []
        for name in sorted(os.listdir(self.logs)):
            with open(os.path.join(self.logs, name)) as file:
                counts.append(len(file.readlines()) - 1)
        return status, counts

    def test_a_log_has_as_many_rows_as_it_may(self):
        self.assertEqual(self.rows_with(), (1, [2]))

    def test_a_long_log_has_more(self):
        self.assertEqual(self.rows_with("--long"), (1, [4]))

    def test_pieces_are_as_long_as_a_log_may_be(self):
        self.assertEqual(self.rows_with("--pieces"), (0, [2, 2, 2]))

    def test_pieces_may_be_long_logs(self):
        self.assertEqual(self.rows_with("--long", "--pieces"), (0, [4, 2]))

    def test_harts_are_summed_up_in_order(self):
        lines = "".join(trace(place, USER, hart) + "\n" for place in (0, 1) for hart in (10, 2, 0))
        text = self.run_with(recording="-", given=lines.encode()).stdout.decode()
        self.assertEqual([line.split(":")[0] for line in text.splitlines()], ["hart 0", "hart 2", "hart 10"])

    def test_a_log_that_is_cut_is_status_1(self):
        lines = LINES + trace(0x90000000, USER) + "\n"
        ran = self.run_with(recording="-", given=lines.encode())
        self.assertEqual((ran.returncode, b": left the image at 90000000;" in ran.stdout), (1, True))

    def test_a_recording_without_an_instruction_is_status_1(self):
        ran = self.run_with(recording="-", given=b"hello\n")
        self.assertEqual((ran.returncode, ran.stdout), (1, b""))
        self.assertIn(b"- has no line of an instruction: qemu writes them with -d exec,int,nochain, and -singlestep or", ran.stderr)

    def test_a_warning_is_a_line_of_standard_error(self):
        lines = LINES + trace(3, MACHINE) + "\n" + trace(4, MACHINE) + "\n"
        ran = self.run_with(recording="-", given=lines.encode())
        self.assertEqual((ran.returncode, ran.stderr.count(b"\n")), (1, 1))
        self.assertTrue(ran.stderr.startswith(b"record: hart 0: at 8000000c a line shows level 3"))

    def test_no_words_are_usage_and_status_2(self):
        for words in ((), ("qemu",), ("qemu", self.image, self.recording), ("qemu", *"abcde")):
            ran = record(*words)
            self.assertEqual((ran.returncode, ran.stdout), (2, b""))
            self.assertTrue(ran.stderr.startswith(b"usage: tools/record"))
            self.assertNotIn(b"Traceback", ran.stderr)

    def test_help(self):
        ran = record("--help")
        self.assertEqual((ran.returncode, ran.stderr), (0, b""))
        words = (b"BASE", b"IMAGE", b"LOG", b"FOLDER", b"--pieces", b"--long", b"--inside", b"--user", b"--image FILE", b"qemu", b"spike", b"status: 0")
        for word in words:
            self.assertIn(word, ran.stdout)

    def test_an_unknown_simulator(self):
        self.assertEqual(self.run_with(form="gdb").returncode, 2)

    def test_flags_may_stand_anywhere(self):
        words = ["--pieces", "qemu", "80000000", "--inside", self.image, self.recording, self.logs]
        ran = record(*words)
        self.assertEqual((ran.returncode, os.listdir(self.logs)), (0, ["hart00_0001.csv"]), ran.stderr)

    def test_the_image_is_written_where_that_is_asked_for(self):
        copy = os.path.join(self.folder, "copy.bin")
        ran = self.run_with(more=["--image", copy])
        self.assertEqual(ran.stdout.splitlines()[0].decode(), f"image: base 80000000, 32 bytes; written to {copy}")
        with open(copy, "rb") as file:
            self.assertEqual(file.read(), IMAGE)
        self.assertFalse(os.path.exists(copy + ".symbols"))

    def test_a_program_of_user_level(self):
        image, copy = self.file("user.bin", image_of(NOP, 0x73, NOP)), os.path.join(self.folder, "copy.bin")
        ran = self.run_with(image=image, more=["--user", "--image", copy])
        self.assertEqual((ran.returncode, ran.stderr), (0, b""))
        with open(copy, "rb") as file:
            self.assertEqual(file.read(), image_of(NOP, NOP, NOP))

    def test_a_program_of_user_level_without_a_place_for_the_image(self):
        ran = self.run_with(more=["--user"])
        self.assertEqual((ran.returncode, ran.stdout), (2, b""))
        self.assertIn(b"--user, of qemu alone, changes the image: say by --image FILE where it is written", ran.stderr)

    def test_an_image_that_cannot_be_written_is_status_3(self):
        copy = os.path.join(self.folder, "none", "copy.bin")
        ran = self.run_with(more=["--image", copy])
        self.assertEqual((ran.returncode, ran.stderr), (3, f"record: {copy}: No such file or directory\n".encode()))

    def test_a_raw_image_without_a_base(self):
        ran = record("qemu", self.image, self.recording, self.logs)
        self.assertEqual((ran.returncode, ran.stdout), (2, b""))
        self.assertEqual(ran.stderr, f"record: {self.image} is a raw image, which needs a base before it\n".encode())

    def test_images(self):
        self.refused("No such file", image=os.path.join(self.folder, "none.bin"))
        self.refused("Is a directory", image=self.folder)
        self.refused("image is empty", image=self.file("empty.bin", b""))
        self.refused("image is larger than 16777216 bytes", image=self.file("large.bin", bytes((1 << 24) + 1)))
        self.refused("image runs past the last address", base="ffffffffffffffe0")

    def test_the_largest_image_is_taken(self):
        large = self.file("large.bin", IMAGE + bytes((1 << 24) - len(IMAGE)))
        self.assertEqual(self.run_with(image=large).returncode, 0)

    def test_bases(self):
        for base in ("program.bin", "", "0x", "8000_0000", "12345678123456781", "+80000000"):
            self.refused(f"{base}: base is not a hexadecimal number", base=base)
        self.refused("80000001: base is odd", base="80000001")

    def test_folders(self):
        self.refused("no such folder", folder=os.path.join(self.folder, "none"))
        self.refused("no such folder", folder=self.image)

    def test_a_folder_with_logs(self):
        self.file("logs/hart03.csv", b"")
        ran = self.run_with()
        self.assertEqual((ran.returncode, os.listdir(self.logs)), (2, ["hart03.csv"]))
        self.assertIn(b"hart03.csv is there already: name a folder that has no logs", ran.stderr)

    def test_recordings(self):
        self.refused("No such file", recording=os.path.join(self.folder, "none.log"))
        self.refused("Is a directory", recording=self.folder)

    def test_a_read_that_fails_is_status_3(self):
        ran = self.run_with(recording="/proc/self/mem")
        self.assertEqual((ran.returncode, ran.stdout), (3, b""))
        self.assertEqual(ran.stderr, b"record: the recording or a log: Input/output error\n")

    def test_a_write_that_fails_is_status_3(self):
        def limit():
            resource.setrlimit(resource.RLIMIT_FSIZE, (100000, 100000))

        words = [sys.executable, os.path.join(TOOLS, "record"), "qemu", "80000000", self.image, "-", self.logs]
        lines = 30000 * (trace(0, USER) + "\n" + trace(1, USER) + "\n")
        ran = subprocess.run(words, input=lines.encode(), capture_output=True, preexec_fn=limit)
        self.assertEqual(ran.returncode, 3)
        self.assertIn(b"File too large", ran.stderr)
        self.assertNotIn(b"Traceback", ran.stderr)

    def test_bytes_that_are_no_text(self):
        given = bytes(range(256)) * 4096 + b"\n" + LINES.encode() + b"\xff\xfe\n"
        self.assertEqual(self.run_with(recording="-", given=given).stdout, self.summary_of_file())


class Costs(InFolder):
    """A long recording in which two of ten rows are interrupts behind returns: at most 200 MB, and 150,000 rows a second of
    processor time, at the best of a few tries on a machine that does other things too."""

    def setUp(self):
        super().setUp()
        self.image = self.file("program.bin", IMAGE)

    def cost(self, name, block, count, more=()):
        """Rows, seconds and kilobytes of a recording that has a block so many times."""
        logs = os.path.join(self.folder, name)
        os.mkdir(logs)
        words = [sys.executable, os.path.join(TOOLS, "record"), "qemu", *more, "80000000", self.image, "-", logs]
        with subprocess.Popen(words, stdin=subprocess.PIPE, stdout=subprocess.PIPE) as ran:
            for _ in range(count):
                ran.stdin.write(block)
            ran.stdin.close()
            summary = ran.stdout.read().decode()
            _, ran.returncode, used = os.wait4(ran.pid, 0)
        rows = int(summary.split()[2]) if summary else 0
        return rows, used.ru_utime + used.ru_stime, used.ru_maxrss

    def test_time_and_memory(self):
        loop = traces((0, 1, 2, 3), USER) + [interrupt(7, 4)] + traces((6, 7), MACHINE) + [interrupt(3, 4)]
        loop += traces((6, 7), MACHINE) + traces((4, 5), USER)
        block = "".join(line + "\n" for line in 1000 * loop).encode()
        fastest = 0
        for attempt in range(5):
            rows, seconds, kilobytes = self.cost(f"logs{attempt}", block, 20)
            self.assertGreater(rows, 230_000)
            self.assertLess(kilobytes, 200_000)
            fastest = max(fastest, rows / seconds)
            if fastest > 150_000:
                break
        self.assertGreater(fastest, 150_000)

    def test_outside_is_not_slower(self):
        """Lines outside the image take at most twice the time of lines inside, each at the best of some tries."""
        inside = "".join(line + "\n" for line in 1000 * traces((0, 1, 2, 3, 4, 5, 6), USER)).encode()
        best = {"inside": 1000.0, "outside": 1000.0}
        for attempt in range(5):
            for name, block in (("inside", inside), ("outside", inside.replace(b"/0000000080", b"/0000000090"))):
                _, seconds, _ = self.cost(f"{name}{attempt}", block, 20, ["--inside"])
                best[name] = min(best[name], seconds)
            if best["outside"] < 2 * best["inside"]:
                break
        self.assertLess(best["outside"], 2 * best["inside"])

    def test_a_line_without_end_takes_no_memory(self):
        rows, _, kilobytes = self.cost("logs", bytes(1 << 20), 300)
        self.assertEqual(rows, 0)
        self.assertLess(kilobytes, 200_000)
