"""The image as it is written for the bench: a file for each piece, and the arguments that name them."""
import shlex

from recording import elf


def files_of(image, path):
    """The pieces that have bytes, that of the base first, each with the file that it is written to."""
    kept = [piece for piece in image.pieces if piece.content]
    return [(piece, f"{path}.{piece.base:x}" if piece is not image.first else path) for piece in kept]


def arguments(image, path):
    """What `tracebench` and `tools/verdict` take as the image that is written to a file and those beside it."""
    base, *also = files_of(image, path)
    names = "".join(f"--also {piece.base:x}={shlex.quote(name)} " for piece, name in also)
    return f"--base {base[0].base:x} {names}{shlex.quote(path)}"


def write(image, path, elf_file):
    """Writes the pieces to a file and those beside it, and the symbols of an ELF file where that is not None. Returns a line
    for each piece, and where there are several one with the arguments that name them."""
    lines = []
    for piece, name in files_of(image, path):
        with open(name, "wb") as file:
            file.write(piece.content)
        lines.append(f"{line_of(image, piece)}; written to {name}")
    if elf_file is not None:
        with open(path + ".symbols", "w") as file:
            file.write(elf.symbols_in(elf_file))
        lines[0] += f", symbols to {path}.symbols"
    return lines + ([f"image: the arguments are {arguments(image, path)}"] if len(lines) > 1 else [])


def line_of(image, piece):
    """The line of a piece."""
    return f"image: {'base' if piece is image.first else 'also'} {piece.base:x}, {len(piece.content)} bytes"
