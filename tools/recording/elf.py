"""ELF files: the pieces that their loadable segments make, and their symbols. `pyelftools` reads them."""
from contextlib import contextmanager

from recording.image import LARGEST_IMAGE
from recording.pieces import MOST_BYTES
from recording.unusable import Unusable, lacking

EXECUTABLE = 1  # the flag of a segment
ALLOCATED, CODE = 2, 4  # flags of a section
MAGIC = b"\x7fELF"
LEFT_OUT = "STT_SECTION", "STT_FILE"  # kinds of symbols that name nothing of the program


def is_elf(content):
    return content.startswith(MAGIC)


@contextmanager
def opened(path):
    """The file as `pyelftools` has it."""
    try:
        from elftools.common.exceptions import ELFError
        from elftools.elf.elffile import ELFFile
    except ImportError:
        raise Unusable(
            f"{path} is an ELF file, and {lacking('elftools', 'python3-pyelftools')}; without it, the raw image is what this "
            f"writes: riscv64-unknown-elf-objcopy -O binary {path} {path}.bin"
        )
    with open(path, "rb") as file:
        try:
            yield ELFFile(file)
        except ELFError as error:
            raise Unusable(f"{path} is no whole ELF file: {error}")


def start_of(elf):
    """Where the program begins: at its first section that is loaded. None where there is no section."""
    loaded = [part for part in elf.iter_sections() if part["sh_flags"] & ALLOCATED and part["sh_type"] != "SHT_NOBITS"]
    return min((part["sh_addr"] for part in loaded if part["sh_size"]), default=None)


def segments_of(elf):
    """Address, bytes and flags of each segment that is loaded and has bytes in the file. What lies before the program is left
    out: the headers of the file, which may be loaded too."""
    headers, start = elf["e_phoff"] + elf["e_phnum"] * elf["e_phentsize"], start_of(elf)
    segments = []
    for part in elf.iter_segments("PT_LOAD"):
        address = part["p_vaddr"]
        cut = max(headers - part["p_offset"], 0) if start is None else max(start - address, 0)
        if cut < part["p_filesz"]:
            segments.append((address + cut, part.data()[cut:], part["p_flags"]))
    return sorted(segments)


def joined(segments):
    """Address and bytes of pieces: segments that touch are in one, where the later bytes count if two have the same address."""
    pieces = []
    for address, data, _ in segments:
        if pieces and address <= pieces[-1][0] + len(pieces[-1][1]):
            base, content = pieces[-1]
            content[address - base : address - base + len(data)] = data
        else:
            pieces.append((address, bytearray(data)))
    return pieces


def cut(pieces):
    """The pieces, each in parts that are not larger than a piece may be, and without a first byte at an odd address: no
    instruction has it, since none begins there."""
    for base, content in pieces:
        odd = base % 2
        for at in range(odd, len(content), LARGEST_IMAGE):
            yield base + at, bytes(content[at : at + LARGEST_IMAGE])


def pieces_in(path):
    """Base and bytes of each piece in an ELF file, that with the entry point first: all that is loaded, or where that is too
    large, what may be executed."""
    with opened(path) as elf:
        if elf["e_machine"] != "EM_RISCV" or not elf.little_endian:
            raise Unusable(f"{path} is an ELF file of another machine than RISC-V")
        if elf["e_type"] != "ET_EXEC":
            raise Unusable(f"{path} has no fixed address: link it with -static -no-pie, or give the base and the raw image")
        segments, entry = segments_of(elf), elf["e_entry"]
    for kept in (segments, [part for part in segments if part[2] & EXECUTABLE]):
        pieces = [*cut(joined(kept))]
        if pieces and sum(len(content) for _, content in pieces) <= MOST_BYTES:
            return sorted(pieces, key=lambda piece: not piece[0] <= entry < piece[0] + len(piece[1]))
    raise Unusable(f"{path}: its segments do not lie within {MOST_BYTES} bytes: give the base and the raw image of a part")


def letter_of(elf, symbol):
    """The letter by which `nm` says what a symbol is; None for one that names nothing of the program."""
    section = symbol["st_shndx"]
    if not symbol.name or symbol.name.startswith("$") or symbol["st_info"]["type"] in LEFT_OUT or section == "SHN_UNDEF":
        return None
    is_code = isinstance(section, int) and elf.get_section(section)["sh_flags"] & CODE
    letter = "A" if section == "SHN_ABS" else "T" if is_code else "D"
    return letter.lower() if symbol["st_info"]["bind"] == "STB_LOCAL" else letter


def symbols_in(path):
    """The names of an ELF file as `nm` prints them, by their addresses."""
    with opened(path) as elf:
        table = elf.get_section_by_name(".symtab")
        found = []
        for symbol in table.iter_symbols() if table else ():
            if letter := letter_of(elf, symbol):
                found.append((symbol["st_value"], symbol.name, letter))
    return "".join(f"{address:016x} {letter} {name}\n" for address, name, letter in sorted(found))
