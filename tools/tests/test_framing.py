"""`tools/wrap` and `tools/unwrap`: frames whose bytes are worked out here, captures there and back, and files that are damaged."""
import os
import random
import subprocess
import sys
import unittest

from support import TOOLS, TOP, TRACEBENCH, InFolder

import wire

FORMATS = os.path.join(TOP, "examples/framing")
HAS = {name: subprocess.run([sys.executable, "-c", f"import {name}"], capture_output=True).returncode == 0 for name in ("construct", "dpkt")}
SERIAL = bytes.fromhex("01001f" "05017300000020" "01000a")
SERIAL_LINES = "0 1f\n1 7300000020\n0 0a\n"


def tool(name, *words, given=b""):
    ran = subprocess.run([sys.executable, os.path.join(TOOLS, name), *words], input=given, capture_output=True)
    return ran.returncode, ran.stdout, ran.stderr.decode()


def form(name):
    return os.path.join(FORMATS, f"{name}.py")


@unittest.skipUnless(HAS["construct"], "python3-construct is not there")
class Framings(InFolder):
    def unwrapped(self, name, data, *words):
        return tool("unwrap", *words, form(name), self.file("frames", data))

    def test_frames_of_a_serial_link(self):
        self.assertEqual(self.unwrapped("serial", SERIAL)[:2], (0, SERIAL_LINES.encode()))

    def test_frames_from_a_pipe(self):
        self.assertEqual(tool("unwrap", form("serial"), "-", given=SERIAL)[:2], (0, SERIAL_LINES.encode()))

    def test_packets_of_the_encapsulation(self):
        # Header bytes: length 1, flow 2, extend 1 is 1 + 2 * 32 + 128; length 5 is 05.
        data = bytes.fromhex("c1" "0201" "1f" "00" "0000" "05" "0000" "7300000020")
        status, lines, said = self.unwrapped("encapsulated", data, "--set", "source_bytes=2")
        self.assertEqual((status, lines, said), (0, b"258 1f\n0 7300000020\n", "unwrap: 2 messages, 1 frames without one\n"))

    def test_times_of_the_encapsulation(self):
        data = bytes.fromhex("01" "03" "e803" "1f")
        words = "--set", "time_bytes=2"
        self.assertEqual(self.unwrapped("encapsulated", data, *words)[1], b"3 1f\n")
        self.assertEqual(self.unwrapped("encapsulated", data, "--times", *words)[1], b"3 1f @1000\n")

    def test_where_it_stops(self):
        status, lines, said = self.unwrapped("serial", SERIAL[:-1])
        self.assertEqual((status, lines), (1, b"0 1f\n1 7300000020\n"))
        self.assertIn("frame 2 at 0000000a: ", said)

    def test_each_beginning_has_the_frames_that_are_whole(self):
        for count in range(len(SERIAL) + 1):
            whole = sum(end <= count for end in (3, 10, 13))
            status, lines, _ = self.unwrapped("serial", SERIAL[:count])
            self.assertEqual((status, lines.decode()), (int(count not in (0, 3, 10, 13)), "".join(SERIAL_LINES.splitlines(True)[:whole])))

    def test_there_and_back(self):
        draw = random.Random(7)
        for name, numbered, sources in (("serial", False, 256), ("encapsulated", False, 256), ("datagrams", True, 1024)):
            if name == "datagrams" and not HAS["dpkt"]:
                continue
            sent = [(draw.randrange(sources), place, draw.randbytes(draw.randint(1, 18))) for place in range(200)]
            capture = self.file("sent.capture", wire.header(1024) + b"".join(wire.message(*it) for it in sent))
            status, data, said = tool("wrap", form(name), capture)
            self.assertEqual((status, said), (0, ""))
            want = "".join(f"{hart}{f' {number}' if numbered else ''} {payload.hex()}\n" for hart, number, payload in sent)
            self.assertEqual(self.unwrapped(name, data)[:2], (0, want.encode()), name)

    @unittest.skipUnless(HAS["dpkt"], "python3-dpkt is not there")
    def test_datagrams_to_another_port_are_passed_over(self):
        capture = self.file("sent.capture", wire.message(5, 0, b"\x1f"))
        data = tool("wrap", form("datagrams"), capture)[1]
        self.assertEqual(self.unwrapped("datagrams", data)[1], b"5 0 1f\n")
        self.assertEqual(self.unwrapped("datagrams", data, "--set", "port=9")[:2], (0, b""))

    @unittest.skipUnless(HAS["dpkt"], "python3-dpkt is not there")
    def test_what_is_no_recorded_network(self):
        status, _, said = self.unwrapped("datagrams", SERIAL)
        self.assertEqual((status, said.startswith("unwrap: 0 messages"), "no .pcap file" in said), (2, True, True))

    def test_a_hart_that_the_frame_cannot_have(self):
        capture = self.file("sent.capture", wire.message(0, 0, b"\x1f") + wire.message(256, 0, b"\x1f"))
        status, data, said = tool("wrap", form("serial"), capture)
        self.assertEqual((status, data), (2, b"\x01\0\x1f"))
        self.assertIn("wrap: message 1: it has no frame: ", said)

    def test_a_capture_that_is_cut(self):
        capture = self.file("sent.capture", wire.header(1) + wire.message(0, 0, b"\x1f\x00")[:-1])
        self.assertEqual(tool("wrap", form("serial"), capture), (2, b"", "wrap: message 0: the capture ends inside a message, or the message has no payload\n"))

    def test_a_format_of_ones_own(self):
        text = "from construct import *\nframe = Struct('source' / Int8ub, 'payload' / Bytes(2))\ndef hart(frame):\n    return frame.source - 16 if frame.source >= 16 else None\n"
        own = self.file("own.py", text)
        self.assertEqual(tool("unwrap", own, "-", given=bytes.fromhex("101f00" "031f00" "11aabb"))[:2], (0, b"0 1f00\n1 aabb\n"))

    def test_formats_that_declare_nothing(self):
        for text, said in (("", "it declares no `frame`"), ("frame = 3", "it declares no `frame`"), ("frame =", "SyntaxError"), ("import nothing_of_the_kind", "ModuleNotFoundError")):
            status, _, error = tool("unwrap", self.file("own.py", text), "-")
            self.assertEqual((status, said in error), (2, True), error)
        self.assertEqual(tool("unwrap", self.path("none.py"), "-")[0], 3)

    def test_settings(self):
        for text in ("source_bytes", "source_bytes=x", "2=3", "=4"):
            self.assertEqual(tool("unwrap", "--set", text, form("serial"), "-")[0], 2, text)

    @unittest.skipUnless(TRACEBENCH, "the program is not built")
    def test_what_capture_makes_of_the_lines(self):
        sent = os.path.join(TOP, "examples/audit/sent.capture")
        lines = self.unwrapped("serial", tool("wrap", form("serial"), sent)[1])[1]
        made = subprocess.run([TRACEBENCH, "capture", "--period", "2", "--harts", "2", "/dev/stdin"], input=lines, capture_output=True)
        with open(sent, "rb") as file:
            self.assertEqual(made.stdout, file.read())


if __name__ == "__main__":
    unittest.main()
