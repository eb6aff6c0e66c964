"""Prints the frames of a dump of `frames`, as `record-all` keeps them."""
import struct
import sys

HARTS, FRAMES, WORDS = 4, 512, 4
MACHINE, SUPERVISOR = 3, 1
of_handler = struct.Struct(f"<{1 + FRAMES * WORDS}Q")
content = open(sys.argv[1], "rb").read()
for place in range(2 * HARTS):
    hart, handler = place // 2, (MACHINE, SUPERVISOR)[place % 2]
    count, *words = of_handler.unpack_from(content, place * of_handler.size)
    for at in range(0, min(count, FRAMES) * WORDS, WORDS):
        print(f"{hart:x} {handler}", *(f"{word:x}" for word in words[at : at + WORDS]))
