"""The line on a terminal that says how far the reading is."""
import io
import os
import tempfile
import unittest

from support import record

from recording.progress import CLEARED, Progress


class Terminal(io.StringIO):
    def isatty(self):
        return True


class Lines(unittest.TestCase):
    def setUp(self):
        self.file = tempfile.NamedTemporaryFile()
        self.addCleanup(self.file.close)
        self.file.write(bytes(4_000_000))
        self.file.flush()
        self.time = 0.0

    def progress(self, out, recording=None):
        return Progress(recording or self.file, out, lambda: self.time)

    def test_a_file_has_a_bar(self):
        out = Terminal()
        self.progress(out).read(1_000_000, lambda: 7)
        self.assertEqual(out.getvalue(), CLEARED + "[" + 7 * "#" + 23 * " " + "] 25%, 1 MB, 7 rows")

    def test_at_most_ten_times_a_second(self):
        out = Terminal()
        progress = self.progress(out)
        for _ in range(1000):
            progress.read(10, lambda: 0)
            self.time += 0.01
        self.assertLessEqual(out.getvalue().count(CLEARED), 101)
        self.assertGreater(out.getvalue().count(CLEARED), 80)

    def test_it_is_taken_away(self):
        out = Terminal()
        progress = self.progress(out)
        progress.read(10, lambda: 0)
        progress.clear()
        self.assertTrue(out.getvalue().endswith(CLEARED))

    def test_a_pipe_has_no_bar(self):
        out = Terminal()
        reader, writer = os.pipe()
        with open(reader, "rb") as recording, open(writer, "wb"):
            self.progress(out, recording).read(2_000_000, lambda: 7)
        self.assertEqual(out.getvalue(), CLEARED + "2 MB, 7 rows")

    def test_no_terminal_has_nothing(self):
        out = io.StringIO()
        progress = self.progress(out)
        progress.read(10, lambda: self.fail("rows are not asked for"))
        progress.clear()
        self.assertEqual(out.getvalue(), "")

    def test_the_program_writes_none_to_a_pipe(self):
        with tempfile.TemporaryDirectory() as folder:
            ran = record("qemu", "80000000", os.path.join(os.path.dirname(__file__), "recorded/page.bin"), "-", folder, given=b"")
        self.assertNotIn(CLEARED.encode(), ran.stderr)
