"""What a recording is made of: the image, the folder for the logs, and the lines."""
import glob
import os

from recording import elf
from recording.image import LARGEST_IMAGE, Image
from recording.pieces import number_of, parted, test_piece
from recording.unusable import Unusable

BLOCK = 1 << 16
LONGEST_LINE = 1 << 16


def image_at(base, path, is_user=False, also=()):
    """The image in a raw file, at a base that is a number of a log, and in other raw files, each given as `B2=FILE`. An ELF
    file has its own bases, so `base` is None there."""
    start = None if base is None else number_of(base)
    files = [parted(argument) for argument in also]
    first, *segments = pieces_in(path, base, start)
    test_image(*first, path)
    pieces = [first]
    for at, content, name in others(path, segments, files):
        test_piece(at, content, name, pieces)
        pieces.append((at, content))
    return Image(*first, is_user, pieces[1:])


def pieces_in(path, base, start):
    """Base and bytes of a raw image, whose base is the number `start`; of an ELF file those of each piece."""
    content = content_of(path)
    if elf.is_elf(content):
        if base is not None:
            raise Unusable(f"{path} is an ELF file, which has its own base: leave {base} out, or give the raw image")
        return elf.pieces_in(path)
    if base is None:
        raise Unusable(f"{path} is a raw image, which needs a base before it")
    if start % 2:
        raise Unusable(f"{base}: base is odd")
    return [(start, content)]


def test_image(base, content, path):
    """The first piece has bytes, and not too many."""
    if not content:
        raise Unusable(f"{path}: image is empty")
    if len(content) > LARGEST_IMAGE:
        raise Unusable(f"{path}: image is larger than {LARGEST_IMAGE} bytes")
    if base + len(content) >= 1 << 64:
        raise Unusable(f"{path}: image runs past the last address")


def others(path, segments, files):
    """Base, bytes and file of each piece behind the first: of the image's file, and of other files, each read in its turn."""
    for base, content in segments:
        yield base, content, path
    for base, name in files:
        content = content_of(name)
        if elf.is_elf(content):
            raise Unusable(f"{name} is an ELF file, and --also takes raw bytes")
        yield base, content, name


def content_of(path):
    """The bytes of a file, as many as an image may have and one."""
    try:
        with open(path, "rb") as file:
            return file.read(LARGEST_IMAGE + 1)
    except OSError as error:
        raise Unusable(f"{path}: {error.strerror}")


def test_folder(folder, hart=None):
    """The logs go to a folder that is there and has no logs, where `hart` is a number none of that hart."""
    if not os.path.isdir(folder):
        raise Unusable(f"{folder}: no such folder")
    if not os.access(folder, os.W_OK | os.X_OK):
        raise Unusable(f"{folder}: no file can be made in it")
    if old := sorted(glob.glob(os.path.join(glob.escape(folder), "hart[0-9][0-9]*.csv" if hart is None else f"hart{hart:02}[._]*"))):
        raise Unusable(f"{old[0]} is there already: name a folder that has no logs")


def opened(path):
    """The recording, unbuffered; `-` is standard input."""
    try:
        return open(0 if path == "-" else path, "rb", buffering=0)
    except OSError as error:
        raise Unusable(f"{path}: {error.strerror}")


def blocks(stream):
    """Lists of the lines of a recording, each with how many bytes were read for it. A line is never as long as
    `LONGEST_LINE`; what is, is left out."""
    rest = b""
    while data := stream.read(BLOCK):
        lines = (rest + data).split(b"\n")
        rest = lines.pop()
        if len(rest) > LONGEST_LINE:
            rest = b""
        yield lines, len(data)
    yield [rest], 0
