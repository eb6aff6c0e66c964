#!/usr/bin/python3
"""As step_by_step.py, with the events of the log in one array of NumPy, and those that come out in another.

    array_steps.py LIBRARY IMAGE

LIBRARY is the shared object, with a slash in its path. The image is mapped, and not read.
"""
import mmap
import sys

import numpy

import arrays
import tracebench

BASE = 0x80000000

# The log of hart 1 of examples/two_harts: an uninferable jump leads back to the second instruction.
ROWS = [(0, 0), (4, 0), (8, 6), (4, 0)]


def log() -> arrays.Array:
    events: arrays.Array = numpy.zeros(len(ROWS), arrays.EVENT)
    events["address"], events["itype"] = numpy.array(ROWS, numpy.uint64).T
    events["address"] += numpy.uint64(BASE)
    events["privilege"] = 3
    return events


def main() -> None:
    if len(sys.argv) != 3:
        sys.exit("usage: array_steps.py LIBRARY IMAGE")
    library = tracebench.Library(sys.argv[1])
    with open(sys.argv[2], "rb") as file:
        program = tracebench.Program((BASE, mmap.mmap(file.fileno(), 0, access=mmap.ACCESS_READ)))
    events, decoder = log(), library.decoder()
    encoder, opening = library.encoder(1024, tracebench.DIFFERENTIAL)
    packets = [opening, *map(packet_of, arrays.push(library, program, encoder, events))]
    packets += library.finish(program, encoder)
    settled = []
    for packet in packets:
        settled.append(arrays.feed(library, program, decoder, library.pack(packet)))
        print(f"packet of kind {packet.kind}: {len(settled[-1])} events")
    came = numpy.concatenate(settled)
    for event in came:
        print(f"{event['address']:x},{event['itype']},{event['privilege']}")
    print(f"as it was: {int(numpy.array_equal(came, events))}")
    print(f"phase {decoder.phase}")


def packet_of(row: numpy.void) -> tracebench.Packet:
    """The packet of an element of an array."""
    return tracebench.Packet.from_buffer_copy(row.tobytes())


if __name__ == "__main__":
    main()
