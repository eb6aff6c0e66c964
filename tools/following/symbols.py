"""Names of places: the functions of a file of symbols, as `nm` prints them (docs/FORMATS.md, "Symbols")."""
import re
from bisect import bisect_right

from recording.unusable import Unusable

LINE = re.compile(rb"([0-9a-fA-F]{1,16}) (?:(?:[0-9a-fA-F]{8}|[0-9a-fA-F]{16}) )?[tTwW] ([^$\r\n][^\r\n]*)")


class Symbols:
    """The functions of a program, each from its address to the next. Without symbols a function is where a call leads."""

    def __init__(self, text=b""):
        found = {}
        for line in text.split(b"\n"):
            if row := LINE.fullmatch(line.rstrip(b"\r")):
                found[int(row[1], 16)] = row[2].decode("utf-8", "replace")
        self.starts = sorted(found)
        self.names = [found[start] for start in self.starts]

    def function_at(self, address):
        """The address at which the function of a place begins; None where no symbol is at or below it."""
        place = bisect_right(self.starts, address) - 1
        return self.starts[place] if place >= 0 else None

    def name_of(self, start):
        place = bisect_right(self.starts, start) - 1
        has_name = place >= 0 and self.starts[place] == start
        return self.names[place] if has_name else f"{start:x}"

    def end_of(self, start):
        """Where the next function begins; None after the last."""
        place = bisect_right(self.starts, start)
        return self.starts[place] if place < len(self.starts) else None


def read(path):
    with open(path, "rb") as file:
        found = Symbols(file.read())
    if not found.starts:
        raise Unusable(f"{path}: no symbol of code: give it what nm prints")
    return found
