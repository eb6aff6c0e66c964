"""The lines of source of an ELF file, by its DWARF line table. `pyelftools` reads it."""
import os

from recording import elf


def read(path):
    """(address, end, file, line) of each range of addresses that has a line, by address, and {address: (file, line)} of the first line
    of each address; both empty where there are none."""
    with elf.opened(path) as file:
        if not file.has_dwarf_info():
            return [], {}
        dwarf, found, first = file.get_dwarf_info(), set(), {}
        for unit in dwarf.iter_CUs():
            program = dwarf.line_program_for_CU(unit)
            if program is not None:
                for start, end, *line in of_unit(unit, program):
                    first.setdefault(start, tuple(line))
                    if end > start:
                        found.add((start, end, *line))
        return sorted(found), first


def of_unit(unit, program):
    names, before = {}, None
    for entry in program.get_entries():
        state = entry.state
        if state is None:
            continue
        if before is not None and before.line:
            if before.file not in names:
                names[before.file] = file_of(unit, program, before.file)
            yield before.address, state.address, names[before.file], before.line
        before = None if state.end_sequence else state


def file_of(unit, program, number):
    """The path of a file of a unit, by its number there."""
    header = program.header
    first = 0 if header["version"] >= 5 else 1
    entry = header["file_entry"][number - first]
    folder = text(unit.get_top_DIE().attributes["DW_AT_comp_dir"].value) if "DW_AT_comp_dir" in unit.get_top_DIE().attributes else ""
    if first == 0 or entry.dir_index:
        folder = os.path.join(folder, text(header["include_directory"][entry.dir_index - first]))
    return os.path.normpath(os.path.join(folder, text(entry.name)))


def text(name):
    return name.decode("utf-8", "replace") if isinstance(name, bytes) else name
