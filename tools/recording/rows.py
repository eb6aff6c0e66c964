"""Rows of a log that a core, a test bench or a simulator keeps of itself: an address each, and what else its columns say. What they
do not say is inferred from the image and the next row, and what cannot be inferred is warned of with the line of the row."""
from collections import deque
from dataclasses import dataclass, replace

from recording.files import ROW_LIMIT
from recording.hart import AT_OR_BEHIND, KEPT_TRAPS, Hart
from recording.harts import KEPT_ROWS, Harts
from recording.image import COMPRESSED_EBREAK, EBREAK, ECALL, Outside, is_jump_and_link_of_rv32, retires
from recording.levels import LEVEL_OF_ECALL, MACHINE, SUPERVISOR, USER

CAUSE_OF_ECALL = {level: cause for cause, level in LEVEL_OF_ECALL.items()}
ILLEGAL, BREAKPOINT = 2, 3  # causes
RETIRED, EXCEPTION, INTERRUPT = 0, 1, 2
MOST_SAID = 5  # lines of one kind of warning
NO_CAUSE = "nothing says the cause of the trap at {:x}: cause 0 is written"
NO_PLACE = "a trap came before {:x}, and nothing says at which address it was taken"
NO_BRANCH = "nothing says whether the branch before the trap was taken: not taken is written"
NO_LEVEL = "nothing says the privilege after the return to {:x}: {} is written"
OTHER_CAUSE = "the cause says that the call at {:x} is of level {}, and the rows before it have {}"
TO_MACHINE = "nothing says the privilege of the handler at {:x}: machine level is written"
BELOW = "level {} follows a trap from level {}, and no handler is of that level: rows are missing"
OTHER_ORDER = "order {} comes after {}: rows are missing, or are not in order"


def parts_of(cause):
    """Whether a cause register shows an interrupt, by its highest bit of 64 or of 32, and the cause without that bit."""
    top = cause & 1 << 63 or (cause & 1 << 31 if cause >> 32 == 0 else 0)
    return bool(top), cause - top


@dataclass(slots=True)
class Row:
    """What a line says: `number` is the line's, `event` one of RETIRED, EXCEPTION and INTERRUPT, and `is_handler` whether it is the
    first of a trap's handler. Of a trap `pc` is where it was taken. `after` is where the instruction leads without a trap. What
    no column says is None. `causes` are cause and value of the last trap to a level, as the handler's first row reads them. `order` is
    the row's number, read as a hexadecimal one and as a decimal one."""

    number: int
    pc: int
    level: int | None = None
    event: int = RETIRED
    cause: int | None = None
    value: int | None = None
    hart: int = 0
    is_handler: bool = False
    after: int | None = None
    order: tuple | None = None
    causes: dict | None = None


class Form:
    """What `Hart` asks of a form. The line that announces an instruction is its address here."""

    ANNOUNCES, LAST_RETIRED = False, True  # `Flow` withdraws an instruction that traps
    EXPLAINS_ALL = EXPLAINS_TWICE = frozenset()
    CALLS, NO_TRAPS, TWICE = "does not retire, but goes on without a trap", "; no trap is in the log", ""

    def __init__(self, advice):
        self.FORM = advice

    @staticmethod
    def instruction(address):
        return None, address


class Inferred(Harts):
    """The harts of such a log. `source` is the module or object whose `rows` read it, and `level` is that of a row where neither a
    column nor a row before it says one."""

    def __init__(self, image, source, folder, warn, has_pieces=False, has_inside=False, row_limit=ROW_LIMIT, level=MACHINE):
        super().__init__(image, Form(source.FORM), folder, warn, has_pieces, has_inside, row_limit)
        self.source, self.first_level, self.said = source, level, {}
        self.flows = {}

    def take_row(self, row):
        flow = self.flows.get(row.hart)
        if flow is None:
            flow = self.flows[row.hart] = Flow(self, self.at(row.hart))
        self.current = flow.hart
        if not flow.hart.why_ended:
            flow.take(row)
        if len(flow.hart.rows) > KEPT_ROWS:
            flow.hart.flush()

    def warn_of(self, row, text, *values):
        """Warns of what cannot be inferred at a row: the first of each kind with their lines, the others are counted."""
        count = self.said[text] = self.said.get(text, 0) + 1
        if count <= MOST_SAID:
            self.noticed.say(f"line {row.number}: {text.format(*values)}")

    def finish(self):
        for flow in self.flows.values():
            flow.finish()
        for text, count in self.said.items():
            if count > MOST_SAID:
                self.noticed.say(f"{count - MOST_SAID} more of: {text.replace('{:x}', 'A').replace('{}', 'N')}")
        if self.source.ADVICE and (self.noticed.has_traps or any(flow.has_returned for flow in self.flows.values())):
            self.noticed.say(self.source.ADVICE)
        super().finish()


class Flow:
    """One hart, row by row. `last` is the row of the instruction that its `Hart` holds, and `trap` a trap whose cause the next row
    may say."""

    def __init__(self, harts, hart: Hart):
        self.harts, self.hart, self.image = harts, hart, harts.image
        self.known = {}
        self.last = self.trap = self.order = None
        self.after_trap = self.has_returned = False
        self.level = harts.first_level
        self.levels = deque(maxlen=KEPT_TRAPS)  # of the traps that are not returned from, with where they were taken

    def instruction(self, pc, level):
        found = self.known.get((pc, level))
        if found is None:
            is_inside = pc in self.image
            found = self.image.instruction(self.hart, pc, level) if is_inside else Outside(self.hart, level)
            if is_inside:
                self.known[pc, level] = found
            if is_inside and self.harts.source.IS_RV32 and is_jump_and_link_of_rv32(self.image.word(pc)):
                self.harts.noticed.jump_and_link(self.hart.number, pc)
        return found

    def take(self, row):
        if row.order is not None:
            if self.order is not None and all(number - 1 not in self.order for number in row.order):
                self.harts.warn_of(row, OTHER_ORDER, row.order[0], self.order[0])
            self.order = row.order
        if row.event == RETIRED and self.follows(row):
            return None
        if row.event == EXCEPTION and self.is_of_last(row):
            return self.withdraw(row)
        self.arrive(row)
        if self.hart.why_ended:
            return None
        if row.event != RETIRED and not self.shows_level(row):
            return self.begin_trap(row)
        self.announce(row)
        return self.withdraw(row) if row.event == EXCEPTION else None

    def follows(self, row):
        """Takes a row to which the one before leads at the same level, as most do; returns False where it is none."""
        held, level = self.hart.held, self.level if row.level is None else row.level
        if row.is_handler or self.trap is not None or held is None or not held.is_inside or held.highest is not None:
            return False
        instruction = self.known.get((row.pc, level))
        if instruction is None or not instruction.is_inside or held.level != level or not held.leads_to(row.pc):
            return False
        self.hart.follow((held.row_before(row.pc),), instruction, row.pc)
        self.last = row
        return True

    def is_of_last(self, row):
        """Whether the row is of an exception of the instruction before, which the log has as a row of its own."""
        is_same = self.harts.source.HAS_TRAPPED and self.last is not None and self.last.pc == row.pc
        return is_same and not self.leads_to(row.pc)

    def shows_level(self, row):
        """Whether a trap is of an instruction whose level the row shows."""
        return row.event == EXCEPTION and row.level is not None and (self.harts.has_inside or row.pc in self.image)

    def end_without_place(self, row):
        """The log ends before a row, since nothing says where the trap before it was taken."""
        self.harts.warn_of(row, NO_PLACE, row.pc)
        self.hart.end(f"a trap came before {row.pc:x}, and nothing says where")

    def withdraw(self, row):
        """The last instruction did not retire, but trapped."""
        self.hart.withdraw()
        self.begin_trap(row)

    def leads_to(self, pc):
        held = self.hart.held
        return held is None or not held.is_inside or held.leads_to(pc)

    def announce(self, row):
        level, trap = self.level_of(row), self.hart.trapped
        if trap is not None and level < max(trap.level or USER, SUPERVISOR):
            self.harts.warn_of(row, BELOW, level, trap.level or USER)
        self.hart.announce(self.instruction(row.pc, level), row.pc, row.pc)
        self.last, self.level, self.after_trap = row, level, False
        self.has_returned |= self.hart.held is not None and self.hart.held.highest is not None

    def level_of(self, row):
        """The level of an instruction: its column's, else by the event before."""
        if row.level is not None:
            return row.level
        held = self.hart.held
        if self.after_trap:
            if self.harts.source.HAS_SUPERVISOR:
                self.harts.warn_of(row, TO_MACHINE, row.pc)
            return MACHINE
        if held is None or held.highest is None:
            return self.level
        epc, level = self.levels.pop() if self.levels else (None, None)
        is_known = epc is not None and row.pc - epc in AT_OR_BEHIND and level <= held.highest
        if is_known and not self.harts.source.HAS_SUPERVISOR:
            return level
        self.harts.warn_of(row, NO_LEVEL, row.pc, min(self.harts.first_level, held.highest))
        return min(self.harts.first_level, held.highest)

    def arrive(self, row):
        """The next event is at a row: what came before it, and no row says, is inferred."""
        held = self.hart.held
        if self.trap is not None:
            return self.end_trap(row)
        if self.last is None or held is None:
            return None
        if not held.is_inside:
            if row.is_handler:
                self.infer(held, row)
        elif self.never_retires():
            self.withdraw(replace(self.last, event=EXCEPTION))
        elif row.event == INTERRUPT and not held.leads_to(row.pc):
            row.pc = self.place_after(held, row)
        elif row.is_handler or not held.leads_to(row.pc) or self.rises(held, row):
            self.infer(held, row)
        return self.end_trap(row) if self.trap is not None else None

    def never_retires(self):
        return not retires(self.image.word(self.last.pc))

    def place_after(self, held, row):
        """Where an instruction leads, which is the exception program counter of a trap after it."""
        places = [self.last.after] if self.last.after is not None else [at for at in (held.next, held.target) if at is not None]
        if len(places) > 1:
            self.harts.warn_of(row, NO_BRANCH)
        return places[0]

    def rises(self, held, row):
        """Whether the row's level is one that nothing but a trap leads to here."""
        if row.level is None or row.event != RETIRED:
            return False
        return row.level != self.level if held.highest is None else row.level > held.highest

    def infer(self, held, row):
        """A trap that has no row came before this one: where it was taken."""
        if self.last.after is None and (not held.is_inside or held.leads_anywhere()):
            if held.is_inside:
                self.hart.rows.append(held.row)
            return self.end_without_place(row)
        places = {held.next, held.target} - {None} if self.last.after is None else {self.last.after}
        faulty = [at for at in places if at in self.image and not retires(self.image.word(at))]
        place = faulty[0] if len(faulty) == 1 else self.place_after(held, row)
        self.begin_trap(Row(row.number, place, self.last.level))

    def begin_trap(self, row):
        self.trap = row

    def cause_by_word(self, row):
        """The cause of a trap at an instruction that never retires; None at any other."""
        level = self.level if row.level is None else row.level
        if row.pc not in self.image:
            return None
        word = self.image.word(row.pc)
        if word == ECALL:
            return CAUSE_OF_ECALL[level]
        return BREAKPOINT if word in (EBREAK, COMPRESSED_EBREAK) else None if retires(word) else ILLEGAL

    def end_trap(self, after):
        """Takes the trap, before a row, which is None at the end: cause and value are its own, the handler's, or the word's."""
        row, self.trap = self.trap, None
        is_interrupt, cause, value = row.event == INTERRUPT, row.cause, row.value
        if cause is None and after is not None and after.causes:
            cause, value = after.causes.get(MACHINE if after.level is None else after.level, (None, None))
        shows_interrupt, cause = (False, None) if cause is None else parts_of(cause)
        if shows_interrupt and row.event == EXCEPTION and row.cause is None:
            return self.end_two(row, after, cause)
        if cause is None and not is_interrupt:
            cause = self.cause_by_word(row)
        if cause is None:
            self.harts.warn_of(after or row, NO_CAUSE, row.pc)
        self.give(row, is_interrupt or shows_interrupt, cause or 0, value or 0)

    def end_two(self, row, after, cause):
        """An exception, and an interrupt before the first instruction of its handler, of which alone the cause is known."""
        own = self.cause_by_word(row)
        if own is None:
            self.harts.warn_of(after, NO_CAUSE, row.pc)
        self.give(row, False, own or 0, 0)
        if row.after is None:
            return self.end_without_place(after)
        self.give(Row(after.number, row.after), True, cause, 0)

    def give(self, row, is_interrupt, cause, value):
        """Gives a trap to the hart."""
        level = LEVEL_OF_ECALL.get(cause) if not is_interrupt else None
        hart, shown = self.hart, row.level if row.event == EXCEPTION else None
        hart.trap(is_interrupt, cause, row.pc, 0 if is_interrupt else value)
        if hart.trapped is None:
            return
        if hart.trapped.level is None and shown is not None and hart.trapped.before.lowest <= shown <= hart.trapped.before.highest:
            hart.trapped.level = shown
        if level is not None and hart.trapped.level != level:
            self.harts.warn_of(row, OTHER_CAUSE, row.pc, level, hart.trapped.level)
        if row.level is None:
            self.levels.append((row.pc, self.level if level is None else level))
        self.last, self.after_trap = None, True

    def finish(self):
        """The log ends. An instruction that never retires has trapped, though no row of its handler shows it."""
        held = self.hart.held
        if self.trap is None and self.last is not None and held is not None and held.is_inside and self.never_retires():
            self.withdraw(replace(self.last, event=EXCEPTION))
        if self.trap is not None and not self.hart.why_ended:
            self.end_trap(None)
