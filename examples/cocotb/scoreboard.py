#!/usr/bin/python3
"""A scoreboard for a simulated encoder: each payload is decoded as it comes, and has to settle what the core retired.

    scoreboard.py LIBRARY IMAGE BASE

LIBRARY is the shared object, with a slash in its path. IMAGE has a program's bytes in hexadecimal, as $readmemh reads
them, and BASE is the address of the first. Standard input has the lines of a simulator, `retired ADDRESS ITYPE PRIVILEGE`
and `payload BYTES`, all in hexadecimal; others are passed over. Status: 0 where all that retired is decoded, else 1.
"""
import os
import re
import sys
from collections import deque

sys.path.append(os.path.join(os.path.dirname(os.path.abspath(__file__)), "../python"))

import tracebench

CLOSED = 3


class Wrong(AssertionError):
    """A payload settles what did not retire, or something that retired is not decoded."""


class Scoreboard:
    def __init__(self, library, program):
        self.library, self.program, self.decoder = library, program, library.decoder()
        self.waiting, self.events, self.payloads = deque(), 0, 0

    def retired(self, address, itype, privilege):
        """An instruction that the core retires, before a payload of the same cycle."""
        self.waiting.append(tracebench.Event(address=address, itype=itype, privilege=privilege))
        self.events += 1

    def sent(self, payload):
        """A payload that the encoder sends."""
        self.payloads += 1
        try:
            settled = self.library.feed(self.program, self.decoder, payload)
        except tracebench.Refused as refused:
            raise Wrong(f"payload {self.payloads}: status {refused.status}") from refused
        for event in settled:
            was = self.waiting.popleft() if self.waiting else None
            if bytes(event) != bytes(was or b""):
                raise Wrong(f"payload {self.payloads}: decoded {event}, retired {was}")

    def ended(self):
        """The end of the run."""
        if self.decoder.phase != CLOSED or self.waiting:
            raise Wrong(f"after payload {self.payloads}: phase {self.decoder.phase}, {len(self.waiting)} not decoded")


def program_at(path, base):
    """The program of a file as $readmemh reads it."""
    with open(path, encoding="utf-8") as file:
        return tracebench.Program((base, bytes.fromhex(re.sub(r"//.*", "", file.read()))))


def main():
    if len(sys.argv) != 4:
        sys.exit("usage: scoreboard.py LIBRARY IMAGE BASE")
    board = Scoreboard(tracebench.Library(sys.argv[1]), program_at(sys.argv[2], int(sys.argv[3], 16)))
    try:
        for kind, *words in (line.split() for line in sys.stdin if line.startswith(("retired ", "payload "))):
            if kind == "retired":
                board.retired(*(int(word, 16) for word in words))
            else:
                board.sent(bytes.fromhex(words[0]))
        board.ended()
    except Wrong as wrong:
        sys.exit(str(wrong))
    print(f"{board.events} retired, {board.payloads} payloads, all decoded")


if __name__ == "__main__":
    main()
