#!/usr/bin/python3
"""Encodes and decodes a log step by step, of a program that jumps from a boot ROM to RAM: an image in two pieces. Then
it says that the log is not one of the ROM alone.

    pieces.py LIBRARY

LIBRARY is the shared object, with a slash in its path.
"""
import sys

import tracebench

ROM, RAM = 0x1000, 0x80000000
NOP, RET = bytes.fromhex("13000000"), bytes.fromhex("67800000")
PROGRAM = tracebench.Program((ROM, NOP + RET), (RAM, NOP))

# A jump from the ROM to the RAM.
ROWS = [(ROM, 0), (ROM + 4, 6), (RAM, 0)]
TEXTS = {tracebench.OFF_PROGRAM: "OffProgram"}


def main():
    if len(sys.argv) != 2:
        sys.exit("usage: pieces.py LIBRARY")
    library = tracebench.Library(sys.argv[1])
    events = [tracebench.Event(itype=itype, privilege=3, address=address) for address, itype in ROWS]
    settled, decoder = [], library.decoder()
    encoder, opening = library.encoder(1024, tracebench.DIFFERENTIAL)

    def feed(packets):
        for packet in packets:
            come = library.feed(PROGRAM, decoder, library.pack(packet))
            settled.extend(come)
            print(f"packet of kind {packet.kind}: {len(come)} events")

    feed([opening])
    for event in events:
        feed(library.push_checked(PROGRAM, encoder, event))
    feed(library.finish(PROGRAM, encoder))
    for event in settled:
        print(f"{event.address:x},{event.itype},{event.privilege}")
    print(f"as it was: {int(list(map(bytes, settled)) == list(map(bytes, events)))}")
    try:
        library.check_events(tracebench.Program((ROM, NOP + RET)), (tracebench.Event * 3)(*events))
    except tracebench.Refused as refused:
        print(f"the ROM alone: row {refused.row}: {TEXTS.get(refused.status)}")


if __name__ == "__main__":
    main()
