"""The lines of Spike's log, `-l --log-commits`. They are read as Spike's documentation and sources show them; no Spike was tried.

    core   0: 3 0x0000000080000004 (0x00000073) x5  0x0000000000000001
    core   0: exception trap_machine_ecall, epc 0x0000000080000004
    core   0:           tval 0x0000000000000000
    core   0: exception interrupt #7, epc 0x0000000080000008

The first is an instruction that retired, with its level before the address. `-l` adds the lines of traps, and one for each
instruction without the level (`core   0: 0x... (0x...) addi ...`), which says nothing more.
"""
import re

ANNOUNCES = False  # an instruction that has a line retired
LAST_RETIRED = True
WIDTH = len("core   0: 3 0x0000000080000000 (")  # of what says hart, level and address

INSTRUCTION = re.compile(rb"core +(\d+): (\d) 0x([0-9a-f]{16}) \(0x")
TRAP = re.compile(rb"core +(\d+): exception (\w+|interrupt #\d+|trap #\d+), epc 0x([0-9a-f]{16})")
VALUE = re.compile(rb"core +(\d+): +tval 0x([0-9a-f]{16})")
FORM = "-l --log-commits"
CALLS = "does not retire, but goes on without a trap: run Spike with -l --log-commits"
NO_TRAPS = "; no trap is in the log: run Spike with -l --log-commits, unless the image has other words than ran"
TWICE = ""
EXPLAINS_ALL = EXPLAINS_TWICE = frozenset()

CAUSES = {
    b"trap_instruction_address_misaligned": 0,
    b"trap_instruction_access_fault": 1,
    b"trap_illegal_instruction": 2,
    b"trap_breakpoint": 3,
    b"trap_load_address_misaligned": 4,
    b"trap_load_access_fault": 5,
    b"trap_store_address_misaligned": 6,
    b"trap_store_access_fault": 7,
    b"trap_user_ecall": 8,
    b"trap_supervisor_ecall": 9,
    b"trap_machine_ecall": 11,
    b"trap_instruction_page_fault": 12,
    b"trap_load_page_fault": 13,
    b"trap_store_page_fault": 15,
}


def wanted(lines):
    """The lines but those of `-l` that have no level."""
    return [line for line in lines if line[10:12] != b"0x"]


def keys(lines):
    """What says of each line which instruction retired, of which hart and at what level. A longer number of a hart is no key."""
    return [line[:WIDTH] if line[WIDTH - 2 : WIDTH] == b" (" else line for line in lines]


def instruction(line):
    """Hart, address, level, False since no line says RV32, and None; None alone if the line is of no instruction that retired."""
    found = INSTRUCTION.match(line)
    return (int(found[1]), int(found[3], 16), int(found[2]), False, None) if found else None


def faults(_):
    return ()


def other(line, harts):
    """Takes a line that announces no instruction."""
    if found := TRAP.match(line):
        name, epc = found[2], int(found[3], 16)
        is_interrupt = name.startswith(b"interrupt")
        cause = int(name.split(b"#")[1]) if b"#" in name else CAUSES.get(name)
        hart = harts.at(int(found[1]))
        if cause is None:
            hart.end(f"{name.decode()} has no cause here")
        else:
            hart.trap(is_interrupt, cause, epc)
    elif found := VALUE.match(line):
        harts.at(int(found[1])).value_of_trap(int(found[2], 16))
