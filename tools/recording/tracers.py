"""The files that CVA6's and Ibex's tracers write, and Spike's log where it has one of its two kinds of lines alone.

No core was run: the lines of CVA6 and Ibex are read as their sources and documents show them. `docs/guide/my-cores-log.md` has what
is assumed.
"""
import re

from recording import spike
from recording.rows import EXCEPTION, INTERRUPT, Row

LEVELS = {"U": 0, "S": 1, "M": 3}


class Cva6:
    """`trace_hart_0.log`: time, cycle, privilege, address, a digit, the instruction, what it is; and lines of exceptions, whose
    value is in the line after."""

    FORM = "the file that instr_tracer writes"
    IS_RV32, HAS_TRAPPED, HAS_SUPERVISOR, ADVICE = False, False, True, None
    INSTRUCTION = re.compile(r"\s*\d+\s*[munpf]?s\s+\d+\s+([USM])\s+([0-9a-f]+)\s+[01]\s+[0-9a-f]+\b")
    TRAP = re.compile(r"\s*Exception @\s*[^,]*,\s*PC:\s*([0-9a-f]+),\s*Cause:\s*([^,]+?)\s*,?\s*(?:tval:\s*([0-9a-f]+))?\s*")
    VALUE = re.compile(r"\s*tval:\s*([0-9a-f]+)\s*")
    CAUSES = {
        "instruction address misaligned": 0, "instruction access fault": 1, "illegal instruction": 2, "breakpoint": 3,
        "load address misaligned": 4, "load access fault": 5, "store address misaligned": 6, "store access fault": 7,
        "environment call umode": 8, "environment call smode": 9, "environment call mmode": 11,
        "instruction page fault": 12, "load page fault": 13, "store page fault": 15,
        **{f"{level} {kind} interrupt": 1 << 63 | number + base for base, level in ((1, "supervisor"), (3, "machine"))
           for number, kind in ((0, "software"), (4, "timer"), (8, "external"))},
    }

    def rows(self, lines):
        trap = None
        for number, line in lines:
            if trap is not None:
                if found := self.VALUE.fullmatch(line):
                    trap.value = int(found[1], 16)
                yield trap
                trap = None
            if found := self.INSTRUCTION.match(line):
                yield Row(number, int(found[2], 16), LEVELS[found[1]])
            elif found := self.TRAP.fullmatch(line):
                cause = self.CAUSES.get(" ".join(found[2].lower().split()))
                event = INTERRUPT if "interrupt" in found[2].lower() else EXCEPTION
                trap = Row(number, int(found[1], 16), None, event, cause, int(found[3] or "0", 16))
        if trap is not None:
            yield trap


class Ibex:
    """`trace_core_00000000.log`: time, cycle, address and instruction, then what it is. No line says a privilege or a trap, and an
    instruction that trapped has a line as any other."""

    FORM = "the file that ibex_tracer writes"
    IS_RV32, HAS_TRAPPED, HAS_SUPERVISOR = True, True, False
    ADVICE = "the file of Ibex's tracer has no traps: what is inferred may lack some, those right after a return or a register jump"
    INSTRUCTION = re.compile(r"\s*\d+\s+\d+\s+([0-9a-f]{8})\s+(?:[0-9a-f]{8}|[0-9a-f]{4})\b")

    def rows(self, lines):
        for number, line in lines:
            if found := self.INSTRUCTION.match(line):
                yield Row(number, int(found[1], 16))


class Spike:
    """Spike's log with `-l` alone, whose lines have no level, or with `--log-commits` alone, which has no traps."""

    IS_RV32, HAS_SUPERVISOR = False, True
    COMMIT = re.compile(r"core +(\d+): (\d) 0x([0-9a-f]{8,16}) \(0x")
    BEGUN = re.compile(r"core +(\d+): 0x([0-9a-f]{8,16}) \(0x")

    def __init__(self, has_commits):
        self.has_commits = has_commits
        self.HAS_TRAPPED = not has_commits
        lacking = "traps: what is inferred may lack some" if has_commits else "privileges: what is inferred may be wrong"
        self.ADVICE = f"Spike's log has no {lacking}; run Spike with -l --log-commits"
        self.FORM = spike.FORM

    def rows(self, lines):
        trap = None
        for number, line in lines:
            if trap is not None:
                if found := spike.VALUE.match(line.encode()):
                    trap.value = int(found[2], 16)
                yield trap
                trap = None
            if self.has_commits:
                if found := self.COMMIT.match(line):
                    yield Row(number, int(found[3], 16), int(found[2]), hart=int(found[1]))
            elif found := self.BEGUN.match(line):
                yield Row(number, int(found[2], 16), hart=int(found[1]))
            elif found := spike.TRAP.match(line.encode()):
                name, epc = found[2], int(found[3], 16)
                cause = int(name.split(b"#")[1]) if b"#" in name else spike.CAUSES.get(name)
                trap = Row(number, epc, None, INTERRUPT if name.startswith(b"interrupt") else EXCEPTION, cause, 0, int(found[1]))
        if trap is not None:
            yield trap


def spike_form(lines):
    """How Spike's log is read, by its first lines: the module where it has both kinds of lines, else the rows of the one kind."""
    texts = [line.decode("ascii", "replace") for line in lines]
    has_commits, has_begun = any(map(Spike.COMMIT.match, texts)), any(map(Spike.BEGUN.match, texts))
    return spike if has_commits == has_begun else Spike(has_commits)
