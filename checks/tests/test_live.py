"""The reading of `audit --live`, over paths worked by hand. And the program over pipes: a few bytes at once, and a fault."""
import contextlib
import os
import random
import select
import subprocess
import threading
import unittest

from common import TRACEBENCH, InFolder
import live_audits
import wire

SECONDS = 60


def capture(*messages):
    """A capture of version 1 of these harts and numbers. A number's payload is the number's low byte."""
    return b"".join(wire.message(hart, number, bytes([number & 0xFF])) for hart, number in messages)


def one(*numbers):
    """The same of hart 0 alone."""
    return capture(*((0, number) for number in numbers))


def two(*numbers):
    """The same of harts 0 and 1 in turn."""
    return capture(*((hart, number) for number in numbers for hart in (0, 1)))


def lines(sent, received, window, **asked):
    """The lines up to the first row."""
    status, text, error = live_audits.audit(sent, received, window, **asked)
    single = text.splitlines()
    return single[: next((at for at, line in enumerate(single) if " sent, " in line), len(single))]


class Reading(unittest.TestCase):
    def test_as_late_as_the_window_is_long(self):
        came = one(0, 1, 3, 4, 5, 2, 6, 7)
        self.assertEqual(lines(one(*range(8)), came, 3), ["message 2: hart 0 number 3: skips 1", "message 5: hart 0 number 2: late by 3"])

    def test_one_message_later(self):
        status, text, error = live_audits.audit(one(*range(8)), one(0, 1, 3, 4, 5, 6, 2, 7), 3)
        self.assertEqual(text.splitlines(), [
            "message 2: hart 0 number 3: skips 1",
            "hart 0: number 2 lost",
            "message 6: hart 0 number 2: too late",
            "hart 0: 8 sent, 8 came, 1 lost, 0 repeated, 0 late, 0 changed, 0 strange, 1 too late, not whole",
            "hart 0: lost in 1 runs, the longest of 1",
            "first: message 2",
            "result: not whole"])
        self.assertEqual((status, error), (1, None))

    def test_a_bit_of_a_number(self):
        """It is decided when the next message of its hart is taken."""
        far = 3 | 1 << 40
        self.assertEqual(lines(one(*range(8)), one(0, 1, 2, far, 4, 5, 6, 7), 3), [
            f"message 3: hart 0 number {far}: stranger", "message 4: hart 0 number 4: skips 1", "hart 0: number 3 lost"])

    def test_an_outage(self):
        """Two messages of a hart that are beyond and near each other: SENT is read on. The line of a run has one number, one,
        two, four, and the rest."""
        self.assertEqual(lines(two(*range(30)), two(0, 1, *range(17, 30)), 3), [
            *(f"hart {hart}: {what} lost" for what in ("number 2", "number 3", "numbers 4 to 5", "numbers 6 to 9") for hart in (0, 1)),
            "message 4: hart 0 number 17: skips 15", "message 5: hart 1 number 17: skips 15",
            "hart 0: numbers 10 to 16 lost", "hart 1: numbers 10 to 16 lost"])

    def test_two_that_are_beyond_and_far_from_each_other(self):
        """No outage: both are strangers, and the front stays."""
        self.assertEqual(lines(one(*range(30)), one(0, 12, 20, 1, 2), 3)[:2], ["message 1: hart 0 number 12: stranger", "message 2: hart 0 number 20: stranger"])

    def test_whole_harts(self):
        """SENT is not in the order in which it was sent: hart 1's messages show an outage, and hart 0's are too late."""
        sent = capture(*((hart, number) for hart in (0, 1) for number in range(8)))
        said = lines(sent, two(*range(8)), 2)
        self.assertEqual([line for line in said if "too late" in line], [f"message {2 * number}: hart 0 number {number}: too late" for number in range(2, 8)])

    def test_what_waits_to_the_end(self):
        """Each hart's messages come, in another order of harts than in SENT: all is whole."""
        sent = capture(*((0, number) for number in range(8)), (1, 0))
        status, text, error = live_audits.audit(sent, capture((1, 0), *((0, number) for number in range(8))), 2)
        self.assertEqual((status, text.splitlines()[-1], lines(sent, sent, 2)), (0, "result: whole", []))

    def test_damage_in_an_outage(self):
        """What follows a run of bytes is beyond the view. Two messages of one hart that are near each other are found."""
        sent, cut = one(*range(40)), one(20)[:7]
        said = lines(sent, one(0, 1) + cut + one(*range(21, 40)), 2)
        self.assertEqual([line for line in said if "lost" not in line], ["bytes: 7 at 00000018", "message 2: hart 0 number 21: skips 19"])

    def test_a_fault_of_sent(self):
        """It ends the run where it is read: the lines of the part before it stay."""
        self.assertEqual(live_audits.audit(one(0, 1, 2, 4, 5), one(1, 2, 3, 4), 1), (
            2, "message 0: hart 0 number 1: skips 1\nhart 0: number 0 lost\n", "sent: message 3: gap, expected number 3"))

    def test_a_fault_that_is_not_come_to_yet(self):
        """What came first does not ask for it; the end of RECEIVED does."""
        self.assertEqual(live_audits.audit(one(*range(9), 20), one(1), 1), (
            2, "message 0: hart 0 number 1: skips 1\n" + "".join(f"hart 0: {what} lost\n" for what in ("number 0", "number 2", "number 3", "numbers 4 to 5")),
            "sent: message 9: gap, expected number 9"))


@unittest.skipUnless(TRACEBENCH, "no built tracebench is there")
class Pipes(InFolder):
    """The program over two pipes: SENT is a FIFO, RECEIVED standard input."""

    @contextlib.contextmanager
    def run_live(self, window):
        """The program, and SENT, to be written."""
        os.mkfifo(self.path("sent"))
        words = [TRACEBENCH, "audit", "--live", "--window", str(window), "sent", "/dev/stdin"]
        pipes = {"stdin": subprocess.PIPE, "stdout": subprocess.PIPE, "stderr": subprocess.PIPE}
        with subprocess.Popen(words, cwd=self.folder, bufsize=0, **pipes) as run:
            try:
                with open(self.path("sent"), "wb", buffering=0) as sent:
                    yield run, sent
            finally:
                run.kill()

    def comes(self, file, wanted):
        """The next bytes of a pipe have to be these, and have to come in time."""
        came = b""
        while len(came) < len(wanted):
            self.assertTrue(select.select([file], [], [], SECONDS)[0], f"only {came} came")
            more = os.read(file.fileno(), len(wanted) - len(came))
            self.assertNotEqual(more, b"", f"only {came} came")
            came += more
        self.assertEqual(came, wanted)

    def test_bytes_as_they_come(self):
        """Both come in pieces of a few bytes: the lines are those of files."""
        throw = random.Random(1)
        came = [(hart, number) for number in range(200) for hart in range(3) if throw.random() < 0.9]
        for at in range(0, len(came) - 6, 50):
            came[at], came[at + 6] = came[at + 6], came[at]
        contents = capture(*((hart, number) for number in range(200) for hart in range(3))), capture(*came)

        def write(file, content):
            while content:
                count = throw.choice((1, 2, 3, 11, 13, 40))
                file.write(content[:count])
                content = content[count:]
            file.close()

        status, text, _ = live_audits.audit(*contents, 8)
        with self.run_live(8) as (run, sent):
            for it in zip((sent, run.stdin), contents):
                threading.Thread(target=write, args=it, daemon=True).start()
            self.comes(run.stdout, text.encode())
            self.assertEqual((run.wait(SECONDS), run.stdout.read(), run.stderr.read()), (status, b"", b""))

    def test_a_line_while_the_path_runs(self):
        """The line of a lost message comes while both pipes are open, and no more is written to them."""
        with self.run_live(1) as (run, sent):
            sent.write(one(*range(8)))
            run.stdin.write(one(0, 2, 3, 4, 5))
            self.comes(run.stdout, b"message 1: hart 0 number 2: skips 1\nhart 0: number 1 lost\n")
            self.assertIsNone(run.poll())

    def test_a_fault_of_sent_ends_it(self):
        """It ends while both pipes are open, and the lines before it are there."""
        with self.run_live(1) as (run, sent):
            sent.write(one(0, 1, 2, 4, 5))
            run.stdin.write(one(1, 2, 3, 4))
            self.assertEqual(run.wait(SECONDS), 2)
            self.assertEqual(run.stdout.read(), b"message 0: hart 0 number 1: skips 1\nhart 0: number 0 lost\n")
            self.assertEqual(run.stderr.read(), b"tracebench: sent: message 3: gap, expected number 3\n")


if __name__ == "__main__":
    unittest.main()
