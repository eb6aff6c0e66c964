"""`checks/yardstick` over the files of `examples`: it prints what the bench prints. It needs `rustc`."""
import os
import shutil
import struct
import subprocess
import tempfile
import unittest

from common import CHECKS, TOP

EXAMPLES = os.path.join(TOP, "examples")
TWO = "two_harts/image.bin", "two_harts/hart00.csv", "two_harts/hart01.csv"


def content(name):
    with open(os.path.join(EXAMPLES, name), "rb") as file:
        return file.read()


@unittest.skipUnless(shutil.which("rustc"), "no rustc")
class Yardstick(unittest.TestCase):
    @classmethod
    def setUpClass(cls):
        folder = tempfile.TemporaryDirectory()
        cls.addClassCleanup(folder.cleanup)
        cls.program = os.path.join(folder.name, "yardstick")
        options = ["--edition", "2021", "-O", "-C", "codegen-units=1"]
        words = ["rustc", *options, os.path.join(CHECKS, "yardstick/main.rs"), "-o", cls.program]
        subprocess.run(words, check=True)

    def ran(self, *words, folder=""):
        ran = subprocess.run([self.program, *words], cwd=os.path.join(EXAMPLES, folder), capture_output=True)
        return ran.returncode, ran.stdout, ran.stderr

    def prints(self, want, command, *files):
        self.assertEqual(self.ran(command, "--base", "80000000", *files), (0, content(want), b""))

    def test_one_log(self):
        self.prints("loop/log.capture", "encode", "loop/image.bin", "loop/log.csv")
        self.prints("loop/decode.txt", "decode", "loop/image.bin", "loop/log.capture")

    def test_two_logs(self):
        self.prints("two_harts/both.capture", "encode", *TWO)
        self.prints("two_harts/decode_both.txt", "decode", "two_harts/image.bin", "two_harts/both.capture")
        self.prints("two_harts/bench.txt", "bench", *TWO)

    def test_check(self):
        for name in ("first", "loop", "returns"):
            ran = self.ran("check", "--base", "80000000", "image.bin", "log.csv", folder=name)
            self.assertEqual(ran, (0, content(f"{name}/check.txt"), b""))

    def test_dump(self):
        for name in ("first/dump.txt", "loop/dump.txt", "returns/dump.txt"):
            self.assertEqual(self.ran("dump", name.replace("dump.txt", "log.capture")), (0, content(name), b""))
        self.assertEqual(self.ran("dump", "two_harts/both.capture"), (0, content("two_harts/dump_both.txt"), b""))

    def test_audit(self):
        sent, received = "audit/sent.capture", "audit/received.capture"
        self.assertEqual(self.ran("audit", sent, received), (1, content("audit/audit_received.txt"), b""))
        status, text, _ = self.ran("audit", sent, sent)
        self.assertEqual((status, text.splitlines()[-1]), (0, b"result: whole"))

    def test_measure(self):
        status, text, _ = self.ran("measure", "--base", "80000000", *TWO)
        self.assertEqual((status, len(text.splitlines())), (0, 4))
        self.assertIn(text, content("c/expected_all_harts.txt"))

    def test_an_illegal_log(self):
        self.assertEqual(self.ran("encode", "--base", "0", *TWO)[:2], (1, b""))
        self.assertEqual(self.ran("check", "--base", "0", *TWO[:2])[:2], (1, f"{TWO[1]}: row 1: illegal\n".encode()))

    def test_numbers(self):
        numbers = 0, 9, 10, 99_999_999, 100_000_000, 10**16 - 1, 10**16, 2**64 - 1
        messages = b"".join(struct.pack("<HQBB", 7, number, 1, 0x1F) for number in numbers)
        with tempfile.NamedTemporaryFile() as file:
            file.write(b"\xff\xffrvtrace2\0\0" + struct.pack("<HH", 1024, 8) + messages)
            file.flush()
            _, text, _ = self.ran("dump", file.name)
        self.assertEqual(text.decode().splitlines()[1:], [f"7 {number} open" for number in numbers])


if __name__ == "__main__":
    unittest.main()
