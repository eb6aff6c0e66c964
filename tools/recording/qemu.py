"""The lines of QEMU's log, `-singlestep -d exec,int,nochain`, as versions 7.2 and 10.0 print them.

A line `Trace H: HOST [CS_BASE/PC/FLAGS/CFLAGS]` announces the instruction at PC. It retires unless `Stopped execution`
comes after it, or an exception whose `epc` is PC. Version 7.2 prints CS_BASE and PC with as many digits as an address has,
version 10.0 with 8 and 16. CFLAGS says how QEMU ran.
"""
import re

ANNOUNCES = True  # a line of an instruction may be followed by one that says that it did not retire
LAST_RETIRED = False  # nothing shows that the last instruction retired
FORM = "-d exec,int,nochain, and -singlestep or one-insn-per-tb=on"  # what makes QEMU write such lines

INSTRUCTION = re.compile(
    rb"Trace (\d+): \S+ \[([0-9a-f]{8}|[0-9a-f]{16})/([0-9a-f]{1,16})/([0-9a-f]{8})/([0-9a-f]{2,8})?"
)
STOPPED = b"Stopped execution of TB chain before"
NUMBER = rb"([0-9a-f]{16}|[0-9a-f]{8})"
TRAP = re.compile(
    rb"riscv_cpu_do_interrupt: hart:(\d+), async:([01]), "
    rb"cause:" + NUMBER + rb", epc:0x" + NUMBER + rb", tval:0x" + NUMBER
)
LEVELS = 0, 1, 1, 3  # by the two lowest bits of FLAGS; 2 is supervisor level with user memory open
COUNT = 0x1FF  # of CFLAGS: how many instructions a block may have
THREADS = {False: 0x80000, True: 0x8000}  # of CFLAGS, in the later form or not: the harts run in threads
ICOUNT = {False: 0x20000, True: 0x2000}
BLOCKS_TEXT = "QEMU's lines stand for blocks of instructions: run it with -singlestep, from 8.1 on with one-insn-per-tb=on"
THREADS_TEXT = "QEMU ran its harts in threads, whose lines mix: run it with -accel tcg,thread=single"
ICOUNT_TEXT = "QEMU counted instructions, and so announces some twice: leave -icount out"

CALLS = (
    "does not retire, but goes on without a trap: run QEMU with -d exec,int,nochain and without semihosting; a program under "
    "qemu-riscv64 wants --user and --image FILE here"
)
NO_TRAPS = "; no trap is in the recording: run QEMU with -d exec,int,nochain, unless the image has other words than ran"
TWICE = ": leave -icount out"
EXPLAINS_ALL = {BLOCKS_TEXT}  # what makes nothing of all else that is noticed
EXPLAINS_TWICE = {ICOUNT_TEXT}


def wanted(lines):
    return lines


def keys(lines):
    """What says of each line which instruction it announces, of which hart and at what level: all of it."""
    return lines


def instruction(line):
    """Hart, address, level, whether the hart is of RV32, and what says how QEMU ran; None for any other line."""
    found = INSTRUCTION.match(line)
    if not found:
        return None
    hart, cs_base, address, flags, cflags = found.groups()
    is_later = len(cs_base) == 8 and len(address) == 16
    bits = int(flags, 16)
    level = LEVELS[bits & 3]
    if is_later:
        level = 3 if bits >> 22 & 3 == 3 else level  # the two lowest bits have the level of loads and stores
        is_rv32 = bits >> 16 & 3 == 1
    else:
        is_rv32 = len(address) == 8
    return int(hart), int(address, 16), level, is_rv32, (is_later, cflags)


def faults(how):
    """What is wrong with how QEMU ran, as texts."""
    is_later, cflags = how
    if cflags is None:
        return
    flags = int(cflags, 16)
    if flags & COUNT != 1:
        yield BLOCKS_TEXT
    if flags & THREADS[is_later]:
        yield THREADS_TEXT
    if flags & ICOUNT[is_later]:
        yield ICOUNT_TEXT


def other(line, harts):
    """Takes a line that announces no instruction."""
    if line.startswith(STOPPED):
        if harts.current:
            harts.current.withdraw()
    elif found := TRAP.match(line):
        cause, epc, value = (int(found[group], 16) for group in (3, 4, 5))
        harts.at(int(found[1])).trap(found[2] == b"1", cause & (1 << 4 * len(found[3]) - 1) - 1, epc, value)
