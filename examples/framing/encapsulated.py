"""Trace in the packets of the unformatted trace and diagnostic data encapsulation: a header byte with the payload's length in its
5 low bits, the flow in the next 2 and the bit `extend` above, then a source, then a time where there is one, then the payload.

Widths in bytes: --set source_bytes=N (1), --set time_bytes=N (0). A packet of length 0 carries nothing.
"""
from construct import BitsInteger, BitStruct, Bytes, BytesInteger, Computed, Rebuild, Struct, this


def number(width):
    return BytesInteger(width, swapped=True) if width else Computed(0)


head = BitStruct("extend" / BitsInteger(1), "flow" / BitsInteger(2), "length" / BitsInteger(5))
frame = Struct(
    "head" / Rebuild(head, lambda this: {"extend": 0, "flow": 0, "length": len(this.payload)}),
    "source" / number(given.get("source_bytes", 1)),
    "time" / number(given.get("time_bytes", 0)),
    "payload" / Bytes(this.head.length),
)


def fields(hart, number, payload):
    return {"source": hart, "time": 0, "payload": payload}
