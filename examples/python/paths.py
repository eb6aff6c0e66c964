"""Makes a capture of lines, reads its header and its messages, and writes what a path made of them, message by message:
some are lost, late, repeated, changed or of a hart that is none, and five bytes are of no message. Prints what
`tracebench audit` and `tracebench audit --unnumbered` find of that path, each by one call: each struct field by field
and by name.

    python3 paths.py LIBRARY
"""
import sys

import tracebench
from tracebench import Header, Refused, SentPlace

HEADER = 16

# What was sent: messages of one byte, of two harts.
LINES = b"0 61\n1 41\n0 62\n1 42\n0 63\n1 43\n0 64\n0 65\n0 66\n0 67\n0 68\n0 69\n0 6a\n0 6b\n0 6c\n"

# What came of it: up to five bytes of no message, and after them. Each has its hart, its number and its payload.
FIRST_CAME = "0 0 a,1 0 A,0 1 b,1 1 B,0 3 d,0 7 h,0 2 c,2 0 a,0 0 a,1 1 B"
THEN_CAME = "0 8 i,0 9 x,0 10 k,0 10 k,1 1 B,0 11 l,1 2 x,2 1 a"
# Its last message is not the next of its hart.
GAP = "0 0 a,1 0 A,0 1 b,1 3 D"


def show(*items):
    print(*items, sep="\n")


def lined(library, text):
    return library.capture_of_lines(text, 5, tracebench.FULL, tracebench.VERSION_TWO)


def read_capture(library, capture):
    """Prints the header and each message of a capture."""
    header, at = library.read_header(capture)
    show(header)
    while True:
        message, taken = library.read_message(capture[at:])
        if message is None:
            return
        print(f"Message {{ number: {message.number}, payload_length: {message.payload_length}, hart: {message.hart}, "
              f"payload: {message.payload_bytes().hex()} }}")
        at += taken


def written(library, messages):
    parts = (message.split() for message in messages.split(","))
    return b"".join(library.write_message(int(hart), int(number), payload.encode()) for hart, number, payload in parts)


def received(library):
    """What came, after a header of its own."""
    header = library.write_header(Header(tracebench.DIFFERENTIAL, 7, 3))
    return header + written(library, FIRST_CAME) + b"\xee" * 5 + written(library, THEN_CAME)


def audit(library, sent, came, whole=False):
    """Audits a path, by numbers and by payloads alone. Prints all that is found, or the ends."""
    for found in (library.audit_all(sent, came), library.audit_all(sent, came, tracebench.UNNUMBERED)):
        for array in found[:-1] if whole else ():
            show(*array)
        show(found.ended)


def main():
    if len(sys.argv) != 2:
        sys.exit("usage: paths.py LIBRARY")
    library = tracebench.Library(sys.argv[1])
    sent = lined(library, LINES)
    read_capture(library, sent)
    try:
        lined(library, b"0 61\n0 1 62\n")
    except Refused as refused:
        print(f"line {refused.row}: status {refused.status}")
    came = received(library)
    audit(library, sent, came, True)
    # RECEIVED has no header; SENT has none, and the period of RECEIVED's is 0; and all came.
    audit(library, sent, came[HEADER:])
    audit(library, sent[HEADER:], sent[:12] + bytes(2) + sent[14:HEADER])
    audit(library, sent, sent)
    sent = written(library, GAP)
    try:
        library.audit_all(sent, sent)
    except Refused as refused:
        print(SentPlace(refused.row, refused.expected))


if __name__ == "__main__":
    main()
