"""A line on a terminal that says how far the reading is."""
import os
import stat
import sys
import time

SHORTEST = 0.1  # seconds between two writes
WIDTH = 30  # of the bar
CLEARED = "\r\x1b[K"


class Progress:
    """How much of a recording was read. It is shown where standard error is a terminal; a recording that is no file has
    no bar, since its length is not known."""

    def __init__(self, recording, out=None, clock=time.monotonic):
        self.out = sys.stderr if out is None else out
        self.is_shown = self.out.isatty()
        self.clock, self.next = clock, 0
        self.bytes = 0
        found = os.fstat(recording.fileno())
        self.size = found.st_size if stat.S_ISREG(found.st_mode) else 0

    def read(self, count, rows):
        """So many more bytes were read, and `rows()` says how many rows there are."""
        self.bytes += count
        if self.is_shown and self.clock() >= self.next:
            self.out.write(CLEARED + self.text(rows()))
            self.out.flush()
            self.next = self.clock() + SHORTEST

    def text(self, rows):
        text = f"{self.bytes / 1e6:.0f} MB, {rows} rows"
        if not self.size:
            return text
        done = min(self.bytes / self.size, 1)
        return f"[{'#' * int(done * WIDTH):{WIDTH}}] {done:.0%}, {text}"

    def clear(self):
        """Takes the line away, so that another text can stand there."""
        if self.is_shown:
            self.out.write(CLEARED)
            self.out.flush()
