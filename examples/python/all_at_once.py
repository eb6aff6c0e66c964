#!/usr/bin/python3
"""Encodes a log and decodes it with many events and many payloads at a call, into arrays that are too small for all of
them: what was not taken is handed in again. The version of the library is that of the header.

    all_at_once.py LIBRARY IMAGE

LIBRARY is the shared object, with a slash in its path.
"""
import ctypes
import sys
from itertools import accumulate
from typing import List

import tracebench
from tracebench import Event, Packet

BASE = 0x80000000
VERSION = "1.0.0"

# The log of hart 1 of examples/two_harts: an uninferable jump leads back to the second instruction.
ROWS = [(0, 0), (4, 0), (8, 6), (4, 0)]

TEXTS = {tracebench.DONE: "all is done", tracebench.TOO_SMALL: "the buffer is too small"}


def push(library: tracebench.Library, program: tracebench.Program, events: List[Event]) -> List[Packet]:
    """The packets of the log. The first call has no room for one, and the others have room for two."""
    encoder, opening = library.encoder(1024, tracebench.DIFFERENTIAL)
    packets, at, room = [opening], 0, 0
    while at < len(events):
        rest, part = (Event * (len(events) - at))(*events[at:]), (Packet * room)()
        status, taken, count = library.push_all(program, encoder, rest, part)
        print(f"push: {taken} events, {count} packets, {TEXTS[status]}")
        packets += part[:count]
        at, room = at + taken, 2
    return packets + library.finish(program, encoder)


def feed(library: tracebench.Library, program: tracebench.Program, payloads: List[bytes],
         events: List[Event]) -> None:
    """Feeds payloads. The first call has room for one event, and the next one for the others."""
    decoder, settled = library.decoder(), b""
    while payloads:
        size = len(settled) // ctypes.sizeof(Event)
        part = (Event * (len(events) - size if size else 1))()
        ends = (ctypes.c_size_t * len(payloads))(*accumulate(map(len, payloads)))
        status, taken, count = library.feed_all(program, decoder, b"".join(payloads), ends, part)
        print(f"feed: {taken} payloads, {count} events, {TEXTS[status]}")
        settled += bytes(part)[: count * ctypes.sizeof(Event)]
        payloads = payloads[taken:]
    print(f"as it was: {int(settled == b''.join(map(bytes, events)))}")
    print(f"phase {decoder.phase}")


def main() -> None:
    if len(sys.argv) != 3:
        sys.exit("usage: all_at_once.py LIBRARY IMAGE")
    library = tracebench.Library(sys.argv[1])
    with open(sys.argv[2], "rb") as file:
        program = tracebench.Program((BASE, file.read()))
    print(f"version: {int(library.version() == VERSION)}")
    events = [Event(tracebench.RETIREMENT, itype, 3, 0, 0, BASE + place, 0) for place, itype in ROWS]
    packets = push(library, program, events)
    feed(library, program, list(map(library.pack, packets)), events)


if __name__ == "__main__":
    main()
