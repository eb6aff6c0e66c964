"""The line on a terminal that says how far the bench is with its logs or its capture (`--progress`)."""
import os
import pty
import select
import signal
import subprocess
import threading
import time
import unittest

from common import TRACEBENCH, InFolder, image_of, reading

NOP, BACK = 0x13, 0xFFDFF06F  # JAL x0, 4 bytes back
HEADER = reading.HEADER + "\n"
ROUND = "80000000,0,3,,\n80000004,0,3,,\n"
BLANKS = "\r" + 26 * " " + "\r"
ROUNDS = 500_000
# Runs over a capture, and whether they name an image.
OVER_CAPTURES = (
    (["dump"], False),
    (["dump", "--search"], False),
    (["decode"], True),
    (["decode", "--lossy"], True),
    (["list"], True),
    (["salvage"], True),
    (["salvage", "--summary"], True),
)


@unittest.skipUnless(TRACEBENCH, "no built tracebench is there")
class Terminal(InFolder):
    def setUp(self):
        super().setUp()
        self.file("image.bin", image_of(NOP, BACK))

    def start(self, *words, err, out=subprocess.DEVNULL):
        """Begins a run of the bench in the folder, with this standard error."""
        base = [] if words[0] in ("dump", "audit") else ["--base", "80000000"]
        words = [TRACEBENCH, words[0], *base, *words[1:]]
        return subprocess.Popen(words, cwd=self.folder, stdin=subprocess.DEVNULL, stdout=out, stderr=err)

    def put_capture(self, name, rounds):
        """Puts the capture of a log of so many rounds, with a message at least for each."""
        self.file("log", (HEADER + rounds * ROUND).encode())
        with open(self.path(name), "wb") as file:
            self.assertEqual(self.start("encode", "image.bin", "log", err=subprocess.DEVNULL, out=file).wait(), 0)

    def shares(self, text):
        """The shares that the line said, one after another, and what came once it was erased."""
        said, rest = self.parted(text)
        shares = [int(words.removesuffix(" percent")) for words in said]
        self.assertEqual(said, [f"{share} percent" for share in shares])
        self.assertEqual(shares, sorted(shares))
        self.assertTrue(0 <= shares[0] and shares[-1] <= 100, shares)
        return shares, rest

    def write_slowly(self, name, pieces, pause):
        """Writes pieces into a FIFO of this name, one after another, from a thread."""
        os.mkfifo(self.path(name))

        def write():
            with open(self.path(name), "wb", buffering=0) as file:
                for piece in pieces:
                    file.write(piece.encode())
                    time.sleep(pause)

        thread = threading.Thread(target=write, daemon=True)
        thread.start()
        self.addCleanup(thread.join, 10)

    def on_terminal(self, *words, is_out_there=False, is_held=False):
        """What a run writes on a terminal, and its status. Where that is asked for it is held again and again, until it
        has written something, so that it takes longer than a line needs.
        """
        ours, theirs = pty.openpty()
        run = self.start(*words, err=theirs, out=theirs if is_out_there else subprocess.DEVNULL)
        os.close(theirs)
        text = b""
        while True:
            if is_held and not text:
                run.send_signal(signal.SIGSTOP)
                time.sleep(0.12)
                run.send_signal(signal.SIGCONT)
                if not select.select([ours], [], [], 0.002)[0]:
                    continue
            try:
                more = os.read(ours, 65536)
            except OSError:  # the other side is closed
                break
            if not more:
                break
            text += more
        os.close(ours)
        return text.decode(), run.wait()

    def parted(self, text):
        """What the line said, one after another, and what came once it was erased."""
        self.assertEqual(text.count(BLANKS), 1, text)
        line, rest = text.split(BLANKS)
        self.assertTrue(line.startswith("\r"), text)
        return line[1:].split("\r"), rest

    def test_a_pipe_has_its_bytes(self):
        pieces = [HEADER] + 4 * [100 * ROUND]
        self.write_slowly("log", pieces, 0.25)
        text, status = self.on_terminal("check", "--progress", "image.bin", "log")
        said, rest = self.parted(text)
        # The header may be read before a line is due. The last number comes once more where the end is read late.
        wanted = [f"{sum(map(len, pieces[:count]))} bytes" for count in range(2, 6)]
        self.assertEqual([words for words in dict.fromkeys(said) if words != f"{len(HEADER)} bytes"], wanted)
        self.assertEqual((rest, status), ("", 0))

    def test_files_have_their_share(self):
        log = (HEADER + 2_000_000 * ROUND).encode()
        for name in ("one", "two"):
            self.file(name, log)
        for subcommand in ("check", "encode", "measure", "bench"):
            with self.subTest(subcommand):
                text, status = self.on_terminal(subcommand, "--progress", "image.bin", "one", "two", is_held=True)
                shares, rest = self.shares(text)
                self.assertLess(shares[0], 90)  # of both files together, and not of one
                self.assertEqual((rest, status), ("", 0))

    def test_captures_have_the_share_of_their_messages(self):
        self.put_capture("capture", ROUNDS)
        for words, has_image in OVER_CAPTURES:
            with self.subTest(words):
                files = ["image.bin", "capture"] if has_image else ["capture"]
                text, status = self.on_terminal(*words, "--progress", *files, is_held=True)
                shares, rest = self.shares(text)
                self.assertLess(shares[0], 100)
                self.assertEqual((rest, status), ("", 0))

    def test_audit_has_the_share_of_received(self):
        self.put_capture("capture", ROUNDS)
        words = ["audit", "--progress", "capture", "capture"]
        text, status = self.on_terminal(*words, is_held=True, is_out_there=True)
        shares, rest = self.shares(text)
        self.assertLess(shares[0], 100)
        self.assertTrue(rest.startswith("hart 0: ") and rest.endswith("result: whole\r\n"), rest)
        self.assertEqual(status, 0)

    def test_it_is_erased_before_the_fault_of_a_capture(self):
        self.put_capture("capture", ROUNDS)
        size = os.path.getsize(self.path("capture"))
        os.truncate(self.path("capture"), size - 1)
        words = ["decode", "--progress", "image.bin", "capture"]
        text, status = self.on_terminal(*words, is_held=True)
        _, rest = self.shares(text)
        self.assertRegex(rest, r"^tracebench: message \d+: the capture ends inside a message\r\n$")
        self.assertEqual(status, 1)

    def test_replay_has_it_too(self):
        self.write_slowly("log", [HEADER] + 3 * [ROUND], 0.25)
        self.file("schedule", b"")
        text, _ = self.on_terminal("replay", "--progress", "image.bin", "schedule", "log")
        self.assertIn(f"\r{len(HEADER + ROUND)} bytes", text)
        self.assertEqual(self.parted(text)[0][-1], f"{len(HEADER + 3 * ROUND)} bytes")

    def test_it_is_erased_before_a_fault(self):
        self.write_slowly("log", [HEADER, ROUND, "x,0,3,,\n", ROUND], 0.25)
        text, status = self.on_terminal("check", "--progress", "image.bin", "log")
        said, rest = self.parted(text)
        self.assertIn(f"{len(HEADER + ROUND)} bytes", said)
        self.assertEqual((rest, status), ("tracebench: log: row 3: not a number\r\n", 2))

    def test_it_is_erased_before_the_output(self):
        self.write_slowly("log", [HEADER, ROUND, ROUND], 0.25)
        text, status = self.on_terminal("check", "--progress", "image.bin", "log", is_out_there=True)
        self.assertEqual((self.parted(text)[1], status), ("log: legal, 4 events\r\n", 0))

    def test_at_most_ten_times_a_second(self):
        self.write_slowly("log", [HEADER] + 100 * [ROUND], 0.01)
        begun = time.monotonic()
        text, _ = self.on_terminal("check", "--progress", "image.bin", "log")
        said, _ = self.parted(text)
        self.assertLessEqual(len(said), 10 * (time.monotonic() - begun) + 1)
        self.assertGreater(len(said), 3)

    def test_a_short_run_has_none(self):
        self.file("log", (HEADER + ROUND).encode())
        self.assertEqual(self.on_terminal("check", "--progress", "image.bin", "log"), ("", 0))
        self.put_capture("capture", 100)
        self.assertEqual(self.on_terminal("dump", "--progress", "capture"), ("", 0))

    def test_without_the_option_there_is_none(self):
        self.write_slowly("log", [HEADER, ROUND, ROUND], 0.25)
        self.assertEqual(self.on_terminal("check", "image.bin", "log"), ("", 0))

    def test_no_terminal_has_none(self):
        self.write_slowly("log", [HEADER, ROUND, ROUND], 0.25)
        run = self.start("check", "--progress", "image.bin", "log", err=subprocess.PIPE, out=subprocess.PIPE)
        self.assertEqual((*run.communicate(), run.returncode), (b"log: legal, 4 events\n", b"", 0))

    def test_no_terminal_has_none_of_captures(self):
        self.put_capture("capture", ROUNDS)
        for words, has_image in OVER_CAPTURES:
            with self.subTest(words):
                files = ["image.bin", "capture"] if has_image else ["capture"]
                run = self.start(*words, "--progress", *files, err=subprocess.PIPE)
                self.assertEqual((run.communicate()[1], run.returncode), (b"", 0))

    def test_what_is_written_is_the_same(self):
        self.file("log", (HEADER + 1000 * ROUND).encode())
        self.put_capture("capture", 1000)
        over_logs = (["check"], ["check", "--explain"], ["encode"], ["encode", "--hex"], ["measure"], ["bench"])
        all_runs = [(words, ["image.bin", "log"]) for words in over_logs]
        all_runs += [(words, ["image.bin", "capture"][1 - has_image :]) for words, has_image in OVER_CAPTURES]
        all_runs += [(["audit"], ["capture", "capture"])]
        for words, files in all_runs:
            runs = []
            for more in ([], ["--progress"]):
                ours, theirs = pty.openpty()
                run = self.start(*words, *more, *files, err=theirs, out=subprocess.PIPE)
                os.close(theirs)
                runs.append((run.communicate()[0], run.returncode))
                os.close(ours)
            self.assertEqual(runs[0], runs[1], words)


if __name__ == "__main__":
    unittest.main()
