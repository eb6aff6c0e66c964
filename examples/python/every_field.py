#!/usr/bin/python3
"""Prints each struct that the calls write or read, field by field and by name. Any two fields of one struct that have
one type hold different numbers in some line. So a number in the place of another field changes what is printed.

    every_field.py LIBRARY

LIBRARY is the shared object, with a slash in its path.
"""
import sys

import tracebench
from tracebench import DecoderState, Event, Refused

BASE = 0x80000000

# A branch to itself.
IMAGE = bytes.fromhex("63000000")
PROGRAM = tracebench.Program((BASE, IMAGE))

# Payloads of packets of each kind.
PAYLOADS = (
    "6303000020 f72302000020 a76240000020 f74540000020 f7000010000000000000000000000040 "
    "1f01 0a00000000000000fc 9140 8102"
)

HEADER = b"addr,itype,priv,cause,tval\n"
BRANCH = b"80000000,5,3,,\n"

# What a path did to messages: a hart, a number and a payload each.
SENT = "0 0 a, 0 1 b, 0 2 c, 0 3 d, 1 0 a, 0 4 e, 0 5 f, 0 6 g, 0 7 h"
CAME = (
    "0 0 a, 0 2 c, 0 1 b, 9 0 a, 0 0 a, 0 3 d, 0 3 d, 1 0 a, 0 5 x, "
    "0 4 e, 0 1 b, 9 0 a, 2 0 a, 0 6 x, 1 1 a, 0 0 a, 0 4 e"
)


def show(*structs):
    for each in structs:
        print(each)


def show_packets(library):
    """Packets of each kind: a payload is unpacked, and the packet packed again."""
    for payload in map(bytes.fromhex, PAYLOADS.split()):
        packet = library.unpack(payload)
        show(packet)
        assert library.pack(packet) == payload


def show_encoder(library):
    """What an encoder keeps, and the packets of branches, an exception and an interrupt in full-address mode."""
    branch = Event(itype=5, privilege=3, address=BASE)
    exception = Event(kind=tracebench.TRAP_TAKEN, privilege=3, cause=13, address=BASE, tval=0x1234)
    interrupt = Event(kind=tracebench.TRAP_TAKEN, privilege=3, cause=7, interrupt=1, address=BASE + 256)
    state, opening = library.encoder(1024, tracebench.FULL)
    show(opening, state)
    for event in (branch, branch, branch, exception, interrupt):
        show(*library.push(PROGRAM, state, event), state)
    show(*library.finish(PROGRAM, state))


def show_decoder(library):
    """What a decoder keeps, after packets and while packets are passed over."""
    state = library.decoder()
    show(state)
    for payload in ("1f", "6300000020", "0d01"):
        show(*library.feed(PROGRAM, state, bytes.fromhex(payload)), state)
    state = DecoderState(phase=2, mode=tracebench.FULL)
    show(*library.feed(PROGRAM, state, bytes.fromhex("0a")), state)


def show_log_place(library):
    """The place of a log that is refused."""
    logs = [HEADER + BRANCH, HEADER + BRANCH + b"80000001,5,3,,\n"]
    try:
        library.encode(PROGRAM, logs, 1024, tracebench.FULL, tracebench.VERSION_ONE)
    except Refused as refused:
        print(f"LogPlace {{ log: {refused.log}, row: {refused.row} }}")


def capture_of(*messages):
    """A capture of version 1 of messages, each a hart, a number and a payload."""
    capture = b""
    for hart, number, payload in messages:
        capture += hart.to_bytes(2, "little") + number.to_bytes(8, "little") + bytes([len(payload)]) + payload
    return capture


def show_ends(library):
    """How a dump and a decoding of captures end that are damaged."""
    show(library.dump(capture_of((0, 0, b"\x1f"), (0, 1, b"\0")) + b"\0")[1])
    first = [(0, number, bytes.fromhex(payload)) for number, payload in enumerate(("1f", "6300000020", "05", "4f"))]
    capture = capture_of(*first, (1, 0, b"\x1f"), (1, 2, b"\x05"))
    texts, closed, ended = library.decode_all(PROGRAM, 3, capture)
    show(ended, tracebench.HartEnd(len(texts[0]), closed[0]))


def show_path(library):
    """A path that loses, repeats, delays and changes messages."""
    sent, came = (
        capture_of(*((int(hart), int(number), byte.encode()) for hart, number, byte in map(str.split, rows.split(","))))
        for rows in (SENT, CAME)
    )
    show(library.audit_all(sent, came + b"\0").rows[0].tally)


def main():
    if len(sys.argv) != 2:
        sys.exit("usage: every_field.py LIBRARY")
    library = tracebench.Library(sys.argv[1])
    for part in (show_packets, show_encoder, show_decoder, show_log_place, show_ends, show_path):
        part(library)


if __name__ == "__main__":
    main()
