"""Pieces of the image beside the first: `--also B2=FILE`, and the segments of an ELF file."""
import re

from recording.image import LARGEST_IMAGE
from recording.unusable import Unusable

MOST_BYTES = 67_108_864  # of all pieces
MOST_PIECES = 1024


def number_of(base):
    if not re.fullmatch(r"(0[xX])?[0-9a-fA-F]{1,16}", base):
        raise Unusable(f"{base}: base is not a hexadecimal number")
    return int(base, 16)


def parted(argument):
    """Base and file of an argument `B2=FILE`, whose first `=` parts the two."""
    base, sign, path = argument.partition("=")
    return number_of(base if sign else argument), path


def overlap(base, content, other, other_content):
    """Whether a byte of one piece has the address of a byte of the other."""
    return max(base, other) < min(base + len(content), other + len(other_content))


def test_piece(base, content, path, before):
    """A piece may be added to those before it, each a base and bytes."""
    if base % 2:
        raise Unusable(f"{path}: base is odd")
    if len(content) > LARGEST_IMAGE:
        raise Unusable(f"{path}: more than {LARGEST_IMAGE} bytes")
    if base + len(content) >= 1 << 64:
        raise Unusable(f"{path}: runs past the last address")
    if any(overlap(base, content, *other) for other in before):
        raise Unusable(f"{path}: overlaps")
    if len(content) + sum(len(other) for _, other in before) > MOST_BYTES:
        raise Unusable(f"{path}: more than {MOST_BYTES} bytes in all")
    if len(before) >= MOST_PIECES:
        raise Unusable(f"more than {MOST_PIECES} pieces")
