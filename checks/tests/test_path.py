"""The paths of `examples/path`. What comes of UDP is what was sent, each hart's messages in order, and some are lost. The link
passes on, loses and holds back what it is asked for."""
import os
import subprocess
import sys
import tempfile
import unittest

import common
import live_audits
import wire

SCRIPT = os.path.join(common.TOP, "examples/path/udp_queue.py")
LINK = os.path.join(common.TOP, "examples/path/noisy_link.py")
SENT = {hart: [wire.message(hart, number, wire.sync(0x80000000)) for number in range(3000)] for hart in range(4)}


def capture_with(header):
    """The capture of SENT, with this header."""
    return header + b"".join(b"".join(messages) for messages in SENT.values())


def sent_over(capture, *options):
    """The capture that comes of one that is sent, and the last line of standard error."""
    with tempfile.TemporaryDirectory() as folder:
        sent, received = os.path.join(folder, "sent"), os.path.join(folder, "received")
        with open(sent, "wb") as file:
            file.write(capture)
        words = [sys.executable, SCRIPT, *options, sent, received]
        ran = subprocess.run(words, capture_output=True, text=True, check=True)
        with open(received, "rb") as file:
            return file.read(), ran.stderr


def messages_in(capture):
    """The messages of each hart, in the order in which they came."""
    harts = {hart: [] for hart in SENT}
    for _, message in wire.messages(capture):
        harts[message[0]].append(message)
    return harts


class Path(unittest.TestCase):
    def test_all_comes_through_a_large_buffer(self):
        came, said = sent_over(capture_with(b""), "--buffer", "4000000", "--pause", "0")
        self.assertEqual((messages_in(came), said), (SENT, "12000 messages sent, 12000 came\n"))

    def test_a_small_buffer_loses_messages(self):
        slow = ["--buffer", "4096", "--burst", "100", "--pause", "0.05", "--rate", "5000"]
        came, said = sent_over(capture_with(wire.header(4)), *slow)
        self.assertTrue(came.startswith(wire.header(4)))
        harts = messages_in(came[len(wire.header(4)):])
        count = sum(map(len, harts.values()))
        self.assertEqual(said, f"12000 messages sent, {count} came\n")
        self.assertLess(count, 12000)
        for hart, messages in harts.items():
            rest = iter(SENT[hart])
            self.assertTrue(all(message in rest for message in messages), "out of order")

    def test_a_capture_that_is_cut_is_refused(self):
        with self.assertRaises(subprocess.CalledProcessError):
            sent_over(capture_with(b"")[:-1])


# SENT with the harts in turn, and what it is as a capture of version 1.
IN_TURN = [(hart, number) for number in range(3000) for hart in SENT]
LINKED = b"".join(SENT[hart][number] for hart, number in IN_TURN)


def linked(capture, *options):
    """What comes out of the link."""
    return subprocess.run([sys.executable, LINK, *options], input=capture, capture_output=True, check=True).stdout


def said_of(came, window=65536):
    """The words that follow each message's number, and how many numbers are lost, in a live audit."""
    lines = live_audits.audit(LINKED, came, window)[1].splitlines()
    lost = next(line for line in lines if line.startswith("all: ")).split(", ")[2]
    return [line.split(": ")[2] for line in lines if line.startswith("message ")], lost


class Link(unittest.TestCase):
    def test_all_passes(self):
        for header in b"", wire.header(4):
            self.assertEqual(linked(header + LINKED, "--lose", "0", "--hold", "0"), header + LINKED)

    def test_some_are_lost(self):
        said, lost = said_of(linked(LINKED, "--lose", "0.01", "--hold", "0"))
        self.assertTrue(said and all(word.startswith("skips ") for word in said))
        self.assertTrue(lost != "0 lost")

    def test_some_are_held_back(self):
        """At most 40 others arrive before one, and some of those that are held meanwhile later still. None is lost."""
        came = linked(LINKED, "--lose", "0", "--hold", "0.02", "--most", "40")
        said, lost = said_of(came, 50)
        self.assertEqual((lost, {word.split()[0] for word in said}), ("0 lost", {"skips", "late"}))
        self.assertIn("too late", said_of(came, 20)[0])

    def test_it_is_out(self):
        came = linked(LINKED, "--lose", "0", "--hold", "0", "--out", "0.001", "--outage", "40")
        said, lost = said_of(came)
        self.assertTrue(said and len(said) % 4 == 0 and set(said) == {"skips 10"})
        self.assertEqual(lost, f"{10 * len(said)} lost")

    def test_a_seed_decides_it(self):
        came = [linked(LINKED, "--lose", "0.01", "--seed", seed) for seed in "112"]
        self.assertEqual(came[0], came[1])
        self.assertNotEqual(came[0], came[2])

    def test_messages_pass_at_once(self):
        message = SENT[0][0]
        with subprocess.Popen([sys.executable, LINK], bufsize=0, stdin=subprocess.PIPE, stdout=subprocess.PIPE) as run:
            for _ in range(3):
                run.stdin.write(message)
                self.assertEqual(run.stdout.read(len(message)), message)

    def test_a_capture_that_is_cut_is_refused(self):
        with self.assertRaises(subprocess.CalledProcessError):
            linked(LINKED[:-1])
