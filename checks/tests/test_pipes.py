"""Logs that `compare` reads from pipes: each once, from the front to its end, one after another. What it prints is what
the reading of checks/fuzz says of the same bytes in files. And lines that `capture` writes as they come."""
import os
import select
import subprocess
import threading
import unittest

from common import BASE, TRACEBENCH, InFolder, image_of, reading
import cases
import comparisons

NOP, BACK = 0x13, 0xFFDFF06F  # JAL x0, 4 bytes back
IMAGE = image_of(NOP, BACK)
PROGRAM = reading.Program(BASE, IMAGE)
ROUND = [("retire", BASE, 0, 3), ("retire", BASE + 4, 0, 3)]
PERIOD = 8
LONG = 3_000 * ROUND  # more text than a pipe holds
TRAP = ("trap", BASE, 3, False, 2, 0)
SECONDS = 60


def text(events):
    return reading.log_text(events).encode()


def capture(logs):
    """A capture of these logs, one hart after the other."""
    made = cases.header(reading.DIFFERENTIAL, PERIOD, len(logs))
    for hart, events in enumerate(logs):
        packets = cases.packets(PROGRAM, events, PERIOD, reading.DIFFERENTIAL)
        made += b"".join(cases.message(hart, *it) for it in enumerate(map(cases.payload_of, packets)))
    return made


@unittest.skipUnless(TRACEBENCH, "no built tracebench is there")
class Pipes(InFolder):
    def setUp(self):
        super().setUp()
        self.written = []
        self.file("image", IMAGE)

    def write_in_turn(self, pipes):
        """Writes each content into the FIFO of its name, from a thread, one after another: each is opened after the one
        before was taken to its end. Those that were are in `written`."""
        for name in pipes:
            os.mkfifo(self.path(name))

        def write():
            for name, content in pipes.items():
                with open(self.path(name), "wb", buffering=0) as file:
                    while content:
                        content = content[file.write(content) :]
                self.written.append(name)

        thread = threading.Thread(target=write, daemon=True)
        thread.start()
        return thread

    def compare(self, made, logs, pipes=(), given=b"", asked="capture"):
        """Compares a capture with logs: those at the places of `pipes` are FIFOs, `given` is standard input. What is
        printed has to be what the reading says."""
        self.file("capture", made)
        texts = list(map(text, logs))
        names = [f"log{hart}.csv" for hart in range(len(logs))]
        for name, content in zip(names, texts):
            if content == given:
                os.symlink("/dev/stdin", self.path(name))
            elif name not in pipes:
                self.file(name, content)
        writer = self.write_in_turn({name: content for name, content in zip(names, texts) if name in pipes})
        words = [TRACEBENCH, "compare", "--base", f"{BASE:x}", "image", asked, *names]
        ran = subprocess.run(words, cwd=self.folder, input=given, capture_output=True, timeout=SECONDS)
        writer.join(SECONDS)
        status, printed, error = comparisons.compare(PROGRAM, None, made, texts)
        wanted = f"tracebench: {error}\n" if error else ""
        self.assertEqual((ran.returncode, ran.stdout.decode(), ran.stderr.decode()), (status, printed, wanted))
        self.assertEqual(self.written, [name for name in names if name in pipes])
        return status, printed

    def test_one_after_another(self):
        logs = [LONG, ROUND, [], LONG + [TRAP], LONG]
        status, _ = self.compare(capture(logs), logs, [f"log{hart}.csv" for hart in range(5)])
        self.assertEqual(status, 0)

    def test_among_files(self):
        logs = [ROUND, LONG, LONG + [TRAP], ROUND]
        status, _ = self.compare(capture(logs), logs, ["log1.csv", "log3.csv"])
        self.assertEqual(status, 0)

    def test_standard_input(self):
        status, _ = self.compare(capture([LONG]), [LONG], given=text(LONG))
        self.assertEqual(status, 0)

    def test_standard_input_behind_a_pipe(self):
        logs = [LONG + [TRAP], LONG, LONG + ROUND]
        status, _ = self.compare(capture(logs), logs, ["log0.csv", "log2.csv"], given=text(LONG))
        self.assertEqual(status, 0)

    def test_the_capture_from_standard_input(self):
        made = capture([LONG, ROUND])
        status, _ = self.compare(made, [LONG, ROUND], ["log0.csv", "log1.csv"], given=made, asked="/dev/stdin")
        self.assertEqual(status, 0)

    def test_to_the_end_behind_a_difference(self):
        """The first log differs in its first row, the second is longer than the capture, the third shorter."""
        logs = [[ROUND[1]] + LONG, LONG + LONG, LONG[:-2]]
        status, printed = self.compare(capture([LONG, LONG, LONG]), logs, [f"log{hart}.csv" for hart in range(3)])
        verdicts = [line.split(", ")[-1] for line in printed.splitlines() if ": row " not in line]
        self.assertEqual(verdicts, ["differs at row 1", "beginning", f"differs at row {len(LONG) - 1}", "result: not whole"])
        self.assertEqual(status, 1)

    def test_behind_a_fault_of_the_capture(self):
        made = capture([LONG, LONG])
        status, _ = self.compare(made[: len(made) // 4], [LONG, LONG], ["log0.csv", "log1.csv"])
        self.assertEqual(status, 1)

    def test_an_illegal_row_ends_it(self):
        """Its log is read to its end, and no later one is opened."""
        logs = [[ROUND[1]] + LONG + [ROUND[1]], LONG]
        pipes = ["log0.csv"]
        os.mkfifo(self.path("later"))
        os.symlink("later", self.path("log1.csv"))
        made = capture([LONG, LONG])
        self.file("capture", made)
        writer = self.write_in_turn({"log0.csv": text(logs[0])})
        words = [TRACEBENCH, "compare", "--base", f"{BASE:x}", "image", "capture", "log0.csv", "log1.csv"]
        ran = subprocess.run(words, cwd=self.folder, stdin=subprocess.DEVNULL, capture_output=True, timeout=SECONDS)
        writer.join(SECONDS)
        self.assertEqual((ran.returncode, ran.stdout), (2, b""))
        self.assertEqual(ran.stderr, b"tracebench: log0.csv: row %d: WrongNext\n" % (len(LONG) + 2))
        self.assertEqual(self.written, pipes)

    def reads(self, file, count):
        """The next bytes of a pipe, which have to come in time."""
        came = b""
        while len(came) < count:
            self.assertTrue(select.select([file], [], [], SECONDS)[0], f"only {came} came")
            more = os.read(file.fileno(), count - len(came))
            self.assertNotEqual(more, b"", f"only {came} came")
            came += more
        return came

    def test_messages_come_while_lines_do(self):
        """The message of each line comes out while the pipe of the lines is open. A line that is not complete waits."""
        header = cases.header(reading.DIFFERENTIAL, 1024, 1)
        words = [TRACEBENCH, "capture", "--harts", "1", "--skip", "/dev/stdin"]
        pipes = {"stdin": subprocess.PIPE, "stdout": subprocess.PIPE, "stderr": subprocess.PIPE}
        with subprocess.Popen(words, bufsize=0, **pipes) as run:
            for given, wanted in (
                (b"0 1f\n", header + cases.message(0, 0, b"\x1f")),
                (b"0 x\n0 12\n0 73000", cases.message(0, 1, b"\x12")),
                (b"00020\n0 4", cases.message(0, 2, bytes.fromhex("7300000020"))),
            ):
                run.stdin.write(given)
                self.assertEqual(self.reads(run.stdout, len(wanted)), wanted)
            self.assertIsNone(run.poll())
            run.stdin.write(b"f")
            run.stdin.close()
            self.assertEqual(run.stdout.read(), cases.message(0, 3, b"\x4f"))
            self.assertEqual(run.stderr.read(), b"tracebench: /dev/stdin: lines skipped: 1\n")
            self.assertEqual(run.wait(SECONDS), 1)

    def test_a_bad_line_ends_it(self):
        """It ends while the pipe of the lines is open, and the messages before it are there."""
        words = [TRACEBENCH, "capture", "--v1", "/dev/stdin"]
        pipes = {"stdin": subprocess.PIPE, "stdout": subprocess.PIPE, "stderr": subprocess.PIPE}
        with subprocess.Popen(words, bufsize=0, **pipes) as run:
            run.stdin.write(b"0 1f\n0 1\n0 4f\n")
            self.assertEqual(run.wait(SECONDS), 2)
            self.assertEqual(run.stdout.read(), cases.message(0, 0, b"\x1f"))
            self.assertEqual(run.stderr.read(), b"tracebench: /dev/stdin: line 2: bytes are not 1 to 18\n")


if __name__ == "__main__":
    unittest.main()
