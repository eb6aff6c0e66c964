#!/usr/bin/python3
"""Encodes a log and decodes it step by step: each event is pushed as it comes, each packet is packed and its payload
fed to a decoder, and the events that come out are those that went in.

    step_by_step.py LIBRARY IMAGE

LIBRARY is the shared object, with a slash in its path.
"""
import sys

import tracebench

BASE = 0x80000000

# The log of hart 1 of examples/two_harts: an uninferable jump leads back to the second instruction.
ROWS = [(0, 0), (4, 0), (8, 6), (4, 0)]


def main():
    if len(sys.argv) != 3:
        sys.exit("usage: step_by_step.py LIBRARY IMAGE")
    library = tracebench.Library(sys.argv[1])
    with open(sys.argv[2], "rb") as file:
        program = tracebench.Program((BASE, file.read()))
    events = [tracebench.Event(itype=itype, privilege=3, address=BASE + place) for place, itype in ROWS]
    settled, decoder = [], library.decoder()
    encoder, opening = library.encoder(1024, tracebench.DIFFERENTIAL)

    def feed(packets):
        for packet in packets:
            come = library.feed(program, decoder, library.pack(packet))
            settled.extend(come)
            print(f"packet of kind {packet.kind}: {len(come)} events")

    feed([opening])
    for event in events:
        feed(library.push(program, encoder, event))
    feed(library.finish(program, encoder))
    for event in settled:
        print(f"{event.address:x},{event.itype},{event.privilege}")
    print(f"as it was: {int(list(map(bytes, settled)) == list(map(bytes, events)))}")
    print(f"phase {decoder.phase}")


if __name__ == "__main__":
    main()
