"""What `compare` says of the log of each hart."""
import re

from recording.unusable import Unusable

HART = re.compile(r"hart (\d+): (\d+) events, (\d+) packets, (\d+) payload bytes, decoded (\d+), (.+)")
RESULT = re.compile(r"result: (whole|not whole)")
STOP = re.compile(r"stop: .+")
ROW = re.compile(r"hart \d+: row \d+: .+")


def read(path):
    """The harts of a comparison, {hart: (events, decoded, verdict)}, and its result."""
    harts, result = {}, None
    with open(path, encoding="utf-8", errors="replace") as file:
        for place, line in enumerate(file, 1):
            line = line.rstrip("\r\n")
            if row := HART.fullmatch(line):
                harts[int(row[1])] = int(row[2]), int(row[5]), row[6]
            elif row := RESULT.fullmatch(line):
                result = row[1]
            elif not STOP.fullmatch(line) and not ROW.fullmatch(line):
                raise Unusable(f"{path}: line {place}: no line of `compare`")
    if result is None:
        raise Unusable(f"{path}: no line of the result: give it what `compare` prints")
    return harts, result
