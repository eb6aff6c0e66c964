"""Events and packets as arrays of NumPy, over tracebench.py. Arrays are read and written where they are, in one piece.

    events = numpy.zeros(2, arrays.EVENT)
    events["privilege"], events["address"] = 3, [0x80000000, 0x80000004]
    packets = arrays.push(library, program, state, events)
"""
import ctypes
from typing import Any, Sequence

import numpy
import numpy.typing

from tracebench import DONE, TOO_SMALL, DecoderState, EncoderState, Event, Lender, Library, Packet, Program, Refused

Array = numpy.typing.NDArray[Any]

# The elements of the arrays, with the fields of the structs.
EVENT: "numpy.dtype[Any]" = numpy.dtype(Event)
PACKET: "numpy.dtype[Any]" = numpy.dtype(Packet)


def push(library: Library, program: Program, state: EncoderState, events: Array) -> Array:
    """The packets that are due after events, which are taken in their order. Where one is refused, none is taken, and
    `row` of the fault counts it from 1."""
    if events.dtype != EVENT:
        raise TypeError(f"events of {events.dtype}, not arrays.EVENT")
    packets, after = numpy.zeros(2 * len(events), PACKET), EncoderState.from_buffer_copy(state)
    status, taken, count = library.push_all(program, after, events, packets)
    if status != DONE:
        raise Refused(status, row=taken + 1)
    ctypes.pointer(state)[0] = after
    return packets[:count]


def feed(library: Library, program: Program, state: DecoderState, payload: Lender) -> Array:
    """The events that the next payload settles. `state` then has taken this payload too."""
    events, count = library.settled(program, state, payload)
    return numpy.frombuffer(memoryview(events), EVENT, count)


def feed_all(library: Library, program: Program, state: DecoderState, payloads: Sequence[Lender]) -> Array:
    """The events that the next payloads settle, one after the other. Where one is refused, none is taken, and `row` of
    the fault counts it from 1. If the array is too small, the call is repeated with one that is twice as large."""
    joined, room = b"".join(payloads), 64 * len(payloads) + 64
    ends = numpy.cumsum([memoryview(payload).nbytes for payload in payloads], dtype=numpy.uint64)
    while True:
        events, after = numpy.zeros(room, EVENT), DecoderState.from_buffer_copy(state)
        status, taken, count = library.feed_all(program, after, joined, ends, events)
        if status == DONE:
            ctypes.pointer(state)[0] = after
            return events[:count]
        if status != TOO_SMALL:
            raise Refused(status, row=taken + 1)
        room *= 2
