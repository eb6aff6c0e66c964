"""Packets, messages and headers as bytes, worked out from docs/FORMATS.md for the checks."""

DIFFERENTIAL, FULL = 0, 1


def spell(fields, more=0):
    """The shortest bytes of a packet's fields, each a pair of width and value, or up to so many bytes more."""
    number = width = 0
    for bits, value in fields:
        number |= int(value) << width
        width += bits
    signed = number - (number >> (width - 1) << width)
    count = 1
    while not -(1 << (8 * count - 1)) <= signed < 1 << (8 * count - 1):
        count += 1
    return signed.to_bytes(min(count + more, 18), "little", signed=True)


def support(enabled, status, options=0):
    return spell([(2, 3), (2, 3), (1, enabled), (1, 0), (2, status), (5, options)])


OPEN = support(1, 0, DIFFERENTIAL)
OPEN_FULL = support(1, 0, FULL)
ENDED_REP = support(0, 1)
ENDED_NTR = support(0, 3)


def sync(address, branch=1):
    """A sync packet at machine level; `branch` is 0 where a branch stands there that was taken."""
    return spell([(2, 3), (2, 0), (1, branch), (2, 3), (63, address >> 1)])


def plain_address(difference, taken=0):
    """An address packet with plain bits, behind so many taken branches; the difference's top bit is 0."""
    tail = [(63, difference >> 1), (1, 0), (1, 0), (1, 0)]
    if not taken:
        return spell([(2, 2)] + tail)
    width = next(w for w in (1, 3, 7, 15, 31) if taken <= w)
    return spell([(2, 1), (5, taken), (width, 0)] + tail)


FULL_MAP = spell([(2, 1), (5, 0), (31, 0)])  # 31 taken branches


def message(hart, number, payload):
    return hart.to_bytes(2, "little") + number.to_bytes(8, "little") + bytes([len(payload) & 0xFF]) + payload


def messages(capture, at=0):
    """Each message of a capture from a place on, with its place."""
    while at < len(capture):
        end = at + 11 + capture[at + 10]
        yield at, capture[at:end]
        at = end


def capture(harts, **settings):
    """A capture of version 2 of these payloads of each hart."""
    made = [message(hart, *it) for hart, own in enumerate(harts) for it in enumerate(own)]
    return header(len(harts), **settings) + b"".join(made)


def header(harts=1, period=1024, mode=DIFFERENTIAL):
    """The header of a capture of version 2; its numbers may be out of range."""
    return b"\xff\xffrvtrace2\0" + bytes([mode]) + period.to_bytes(2, "little") + harts.to_bytes(2, "little")
