#!/usr/bin/python3
"""Encodes the logs of two harts, dumps and decodes the capture, loses a message of it, audits and decodes what came.

    round_trip.py LIBRARY IMAGE LOG LOG

LIBRARY is the shared object, with a slash in its path.
"""
import sys

import tracebench

BASE = 0x80000000


def content(path):
    with open(path, "rb") as file:
        return file.read()


def show_logs(library, program, capture):
    """Prints the log of each hart of a capture, and how decoding ended."""
    texts, closed, ended = library.decode_all(program, 2, capture)
    for hart, text in enumerate(texts):
        end = f"closed {int(closed[hart])}, ends at message {ended.place} with status {ended.fault}"
        print(f"hart {hart} of {ended.harts}: {end}\n{text.decode()}", end="")


def show_audit(library, sent, received):
    """Prints what became of the messages of each hart."""
    found = library.audit_all(sent, received)
    for hart, row in enumerate(found.rows):
        counts = f"{row.tally.sent} sent, {row.tally.came} came, {row.tally.lost} lost, whole {row.tally.whole}"
        print(f"hart {hart} of {found.ended.harts}: {counts}, strangers {found.ended.strangers}")


def without_second(capture):
    """A capture with a header of 16 bytes, without its second message. A message has 11 bytes before its payload, the
    last of which is the payload's length."""
    second = 16 + 11 + capture[16 + 10]
    third = second + 11 + capture[second + 10]
    return capture[:second] + capture[third:]


def main():
    if len(sys.argv) != 5:
        sys.exit("usage: round_trip.py LIBRARY IMAGE LOG LOG")
    library = tracebench.Library(sys.argv[1])
    image, first, second = map(content, sys.argv[2:])
    program = tracebench.Program((BASE, image))
    print(f"check: status 0, row {library.check(program, first)}")
    capture = library.encode(program, [first, second], 1024, tracebench.DIFFERENTIAL, tracebench.VERSION_TWO)
    print(f"capture of {len(capture)} bytes")
    text, ended = library.dump(capture)
    print(f"{text.decode()}bad {ended.bad}, ends at message {ended.place} with status {ended.fault}")
    show_logs(library, program, capture)
    received = without_second(capture)
    print("without the second message")
    show_audit(library, capture, received)
    show_logs(library, program, received)
    payload = library.pack(tracebench.Packet(kind=tracebench.SYNC, privilege=3, address=BASE))
    print(f"pack: status 0, {len(payload)} bytes")
    print(f"unpack: status 0, address {library.unpack(payload).address:x}")


if __name__ == "__main__":
    main()
