"""Prints what examples/c/all_harts.c prints.

    python3 all_harts.py LIBRARY IMAGE LOG LOG
"""
import sys
from pathlib import Path

import tracebench

BASE = 0x80000000
SYMBOLS = b"0000000080000000 T start\n000000008000000c t loop\n"
OUTSIDE = b"addr,itype,priv,cause,tval\n70000000,0,3,,\n"
WHY = {tracebench.OFF_PROGRAM: "OffProgram"}


def main() -> None:
    library = tracebench.Library(sys.argv[1])
    image, *logs = (Path(path).read_bytes() for path in sys.argv[2:5])
    program = tracebench.Program((BASE, image))
    capture = library.encode(program, logs, 1024, tracebench.DIFFERENTIAL, tracebench.VERSION_TWO)
    texts, closed, _ = library.decode_all(program, 1, capture)
    for hart, text in enumerate(texts):
        print(f"hart {hart}\n{text.decode()}", end="" if closed[hart] else f"hart {hart}: no closing packet\n")
    print(library.list(program, 1, capture, SYMBOLS)[0].decode(), end="")
    print(library.measure(program, logs, 1024, tracebench.DIFFERENTIAL).decode(), end="")
    print(library.compare(program, 1, capture, logs)[0].decode(), end="")
    text, ended = library.explain(program, OUTSIDE)
    print(f"row {ended.row}: {WHY[ended.fault]}\n{text.decode()}", end="")


main()
