"""The rows that `tracebench decode` prints, or a log: each line with its hart and its row."""
import re

from recording.files import HEADER
from recording.unusable import Unusable

HART = re.compile(rb"hart (\d+)")
PART = re.compile(rb"(gap|stretch|bad|doubtful|alone|copies|late|bytes|strangers): .*")


def lines_of(path, stream, hart):
    """The lines of a file: (hart, line) for a row, (hart, None, text) where messages are missing before what follows, and (hart, None,
    None) for the first line of a log. Before a line `hart H` the hart is `hart`."""
    for number, line in enumerate(stream, 1):
        line = line.rstrip(b"\r\n")
        if line[:1].isdigit():
            yield hart, line
        elif found := HART.fullmatch(line):
            hart = int(found[1])
        elif line + b"\n" == HEADER:
            yield hart, None, None
        elif found := PART.fullmatch(line):
            if found[1] in (b"gap", b"bad", b"doubtful"):
                yield hart, None, line.decode()
        elif b"," in line:
            yield hart, line
        elif line:
            raise Unusable(f"{path}: line {number}: neither a row nor a line of `decode`")


def row_of(line):
    """Address, type, privilege and cause of a row, the last None where it has none."""
    try:
        address, itype, level, cause, _ = line.split(b",")
        return int(address, 16), int(itype, 16), int(level, 16), int(cause, 16) if cause else None
    except ValueError:
        raise Unusable(f"{line.decode(errors='replace')}: no row of a log") from None
