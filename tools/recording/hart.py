"""One hart: rows out of the instructions that a recording announces of it and the traps that it takes."""
from collections import deque

from recording.levels import LEVEL_OF_ECALL, MACHINE, SUPERVISOR, USER, Before, Trap
from recording.open_traps import Open, OpenTraps

UNKNOWN = Before(USER, MACHINE)
NO_ROW = b""  # of an instruction outside the image
AT_OR_BEHIND = (0, 2, 4)  # where the handler of a trap returns to, less the trap's place
KEPT_TRAPS = 1000  # that are not returned from, of a hart


class Hart:
    """The rows of one hart. `form` is the module that reads the lines, `has_inside` says whether what is outside the image
    is left out, `files` is where rows go, and `noticed` is told what the user should see."""

    def __init__(self, number, image, form, has_inside, files, noticed):
        self.number, self.image, self.form, self.has_inside = number, image, form, has_inside
        self.files, self.noticed = files, noticed
        self.rows = []  # not yet given to `files`
        self.held = None  # the last instruction, which has no row before the next event is known
        self.line = None  # the line that announced it
        self.trapped = None  # a trap that has no row yet
        self.level = None  # of the last event
        self.before = UNKNOWN  # where the next event may be at another level; else None
        self.depth = 0  # how many traps are not returned from
        self.taken = deque(maxlen=KEPT_TRAPS)  # places and levels of the last of these
        self.opened = OpenTraps()
        self.traps = 0
        self.last = None  # the last event that is inside, an instruction or a trap
        self.is_outside = True  # something outside came after it
        self.way_out = None  # where the hart goes on outside
        self.times_left = self.outside = 0
        self.has_begun = False
        self.why_ended = None

    def place(self):
        """The address of the held instruction."""
        return self.held.address if self.held.is_inside else self.form.instruction(self.line)[1]

    def follow(self, rows, instruction, line):
        """Takes the rows of a stretch and the instruction of a line after it, all inside the image or all outside."""
        self.rows += rows
        if not instruction.is_inside:
            self.leave()
        if not self.why_ended:
            self.hold(instruction, line)

    def hold(self, instruction, line):
        """The instruction of a line is the last, and those before it have their rows."""
        self.held, self.line, self.level, self.before = instruction, line, instruction.level, None

    def announce(self, instruction, line, address):
        """Takes an instruction that is about to retire, at the level that its line shows."""
        level = self.agreed_level(instruction, address)
        self.reach(address, level)
        if self.is_outside and instruction.is_inside and not self.why_ended:
            self.come_back(address, level)
        if self.why_ended:
            return
        if level != instruction.level:
            instruction = self.image.instruction(self, address, level) if instruction.is_inside else instruction
        if instruction.is_inside:
            self.begin()
        elif not self.is_outside:
            self.way_out = address
            if not self.has_inside:
                return self.end(f"left the image at {address:x}")
        self.hold(instruction, line)
        self.level = level

    def begin(self):
        """An instruction of the image: the first row of the log is that of the first such."""
        if not self.has_begun:
            self.has_begun, self.outside = True, 0
            self.rows.clear()

    def agreed_level(self, instruction, address):
        """The level of an instruction: what its line shows after a return, a trap or something outside, else that of the
        event before."""
        held, shown = self.held, instruction.level
        may_change = held is not None and (held.highest is not None or not held.is_inside)
        follows = None if may_change or self.before or self.trapped else self.level
        level = follows if follows is not None else shown if shown in (USER, SUPERVISOR, MACHINE) else SUPERVISOR
        if level != shown:
            self.noticed.level(self.number, address, shown, level)
        return level

    def withdraw(self):
        """The instruction that was announced last is not retired, and nothing is known yet of why."""
        self.held = None

    def trap(self, is_interrupt, cause, epc, value=0):
        """Takes a trap; its value may come later, by `value_of_trap`."""
        self.noticed.has_traps = True
        if self.why_ended:
            return
        trap = Trap(is_interrupt, cause, epc, value)
        shown = None if is_interrupt else LEVEL_OF_ECALL.get(cause)
        if self.form.ANNOUNCES and not is_interrupt and self.held is not None and self.place() == epc:
            self.withdraw()
        else:
            trap.same = self.reach(epc, shown)
        if not self.has_begun:
            self.before = UNKNOWN
        elif not self.why_ended:
            trap.level, trap.before = shown if self.before else self.level, self.before
            self.trapped = trap

    def value_of_trap(self, value):
        """The value of the trap that was taken last."""
        if self.trapped:
            self.trapped.value = value

    def reach(self, address, level):
        """The next event stands at an address, at a level, which is None where nothing shows it: so the event before is decided.
        Returns the open trap whose level is that of the next event and not seen yet; None if there is none."""
        if self.trapped:
            self.settle(address, level)
        held = self.held
        if held is None:
            return None
        if not held.is_inside:
            self.pass_by(address)
            return None
        self.held, self.last = None, held
        self.rows.append(held.row_before(address))
        if held.highest is not None:
            return self.go_back(held.highest, address, level)
        if not held.leads_to(address):
            self.noticed.stray(self.number, held, address)
        return None

    def pass_by(self, address):
        """The held instruction, outside the image, retires. It may be a return, where it is above user level and does not
        lead to the instruction behind it."""
        self.rows.append(NO_ROW)
        if self.held.level != USER and address - self.place() not in AT_OR_BEHIND:
            self.before = UNKNOWN
        self.held = None
        self.leave()

    def leave(self):
        """The hart is outside the image. After an instruction that leads to one place no other event can have a row."""
        if self.is_outside:
            return
        self.is_outside = True
        self.times_left += 1
        if not self.last.leads_anywhere():
            self.end(f"left the image at {self.way_out:x}")

    def come_back(self, address, level):
        """The next event that is inside, after something outside, is at an address; its level is None where nothing shows
        it. Where a trap led outside, this goes back from it: returns as `go_back` does."""
        self.is_outside = False
        if self.last is None:
            return None
        found = self.go_back(MACHINE, address, level) if self.last.is_trap else None
        lowest, highest = self.last.levels_behind()
        if level is not None and not lowest <= level <= highest:
            self.end_at(address, level)
        return found

    def end_at(self, address, level):
        """The last row does not lead to this level, so the log ends before an event at an address."""
        self.end(f"came back at {address:x} at level {level}, where no row may follow")

    def go_back(self, highest, address, level):
        """A return, which leads to no level above `highest`, leads to an address: sets the level of the open trap that it goes
        back from, or returns the trap where the level is not known yet."""
        found = self.opened.take(address, self.depth, level)
        epc, level_of_trap = self.taken.pop() if self.taken else (None, None)
        is_nested = epc is not None and address - epc in AT_OR_BEHIND
        self.depth = max(self.depth - 1, 0)
        self.before = Before(USER, highest, level_of_trap=level_of_trap if is_nested else None)
        if level is None:
            return found
        if not is_nested:
            found = found or self.opened.last_at(address, level)
        self.set_level(found, level)
        return None

    def set_level(self, found, level):
        """Sets the level of an open trap, if there is one, in its rows."""
        if found and found.level != level:
            found.level = level
            for place in found.places:
                self.files.set_digit(place, level)

    def is_left_out(self, trap, handler):
        """Whether a trap is outside, its place and `handler`, the address of its handler, which is None if not known."""
        return self.has_inside and trap.epc not in self.image and (handler is None or handler not in self.image)

    def settle(self, handler, level_of_handler):
        """Writes the row of the trap that has none yet; address and level of its handler are None where not known."""
        trap, self.trapped = self.trapped, None
        if self.is_left_out(trap, handler):
            self.before, self.way_out = UNKNOWN, trap.epc
            return self.leave()
        if self.is_outside:
            trap.same = self.come_back(trap.epc, trap.level)
            if self.why_ended:
                return
            if trap.level is None:
                trap.before = self.before.within(*self.last.levels_behind())
                if level_of_handler is not None and trap.before.lowest > level_of_handler:
                    return self.end_at(trap.epc, level_of_handler)
        level = trap.likely_level(level_of_handler) if trap.level is None else trap.level
        self.write(trap, level, level_of_handler)

    def write(self, trap, level, level_of_handler):
        """Writes the row of a trap, at a level."""
        self.before = Before(max(level, SUPERVISOR), MACHINE, is_trap=True)
        self.rows.append(trap.row(level))
        self.flush()
        if self.why_ended:
            return
        self.traps += 1
        self.depth += 1
        self.taken.append((trap.epc, level))
        self.last, trap.written = trap, level
        if trap.level is None:
            self.open(trap, level, MACHINE if level_of_handler is None else level_of_handler)

    def open(self, trap, level, level_of_handler):
        """Keeps the last row, that of a trap at a likely level, until its level is seen."""
        place = trap.place_of_level(self.files.place_of_last())
        found = Open(self.depth, [place], level, trap.before.lowest, min(trap.before.highest, level_of_handler))
        if trap.same and trap.same.allows(level):
            self.set_level(trap.same, level)
            found.places = [*trap.same.places, place]
            found.lowest, found.highest = max(found.lowest, trap.same.lowest), min(found.highest, trap.same.highest)
        self.opened.add(trap.epc, found)

    def flush(self):
        """Gives the rows to `files`."""
        rows = list(filter(None, self.rows))
        self.outside += len(self.rows) - len(rows)
        self.files.write(rows)
        self.rows.clear()
        if self.files.is_full and not self.why_ended:
            self.why_ended = "row limit"
            self.held = None

    def end(self, why):
        """The log of this hart ends here."""
        if self.trapped:
            self.settle(None, None)
        self.flush()
        self.held = None
        self.why_ended = self.why_ended or why

    def finish(self):
        """The recording ends. An instruction that was only announced may not have retired, and nothing shows of a branch that
        retired last where it led: such a row is left out."""
        if self.form.LAST_RETIRED and self.held is not None and self.held.is_inside and self.held.is_certain():
            self.rows.append(self.held.row)
        self.end("end of the recording" if self.has_begun else "never came to the image")
        self.files.close()
