"""Levels, and what is known of the level that a trap was taken from before its handler goes back."""

USER, SUPERVISOR, MACHINE = 0, 1, 3
LEVEL_OF_ECALL = {8: USER, 9: SUPERVISOR, 11: MACHINE}  # by its cause


class Before:
    """What stands before an event whose level need not be that of the event before: the lowest and the highest that it may be,
    whether that is a trap, and the level of the trap that a return goes back from, where that is known."""

    def __init__(self, lowest, highest, is_trap=False, level_of_trap=None):
        self.lowest, self.highest, self.is_trap, self.level_of_trap = lowest, highest, is_trap, level_of_trap

    def within(self, lowest, highest):
        """The same, where the level is not below `lowest` and not above `highest` either."""
        return Before(max(self.lowest, lowest), min(self.highest, highest), self.is_trap, self.level_of_trap)


class Trap:
    """A trap that has no row yet: `level` is None where it is not known, `before` what stands before it then, and `same` the open
    trap whose handler went back to its place, so that both have the same level. `written` is the level that its row has."""

    is_trap = True

    def __init__(self, is_interrupt, cause, epc, value):
        self.is_interrupt, self.cause, self.epc, self.value = is_interrupt, cause, epc, value
        self.level, self.before, self.same, self.written = None, None, None, None

    def leads_anywhere(self):
        return True

    def levels_behind(self):
        """The lowest and the highest level of an event behind it, by the rules of logs."""
        return max(self.written, SUPERVISOR), MACHINE

    def row(self, level):
        if self.is_interrupt:
            return b"%x,2,%d,%x,\n" % (self.epc, level, self.cause)
        return b"%x,1,%d,%x,%x\n" % (self.epc, level, self.cause, self.value)

    def place_of_level(self, place):
        """The place of the level's digit in the row that begins at a place."""
        piece, offset = place
        return piece, offset + len(b"%x,1," % self.epc)

    def likely_level(self, handler):
        """The level to write until a return shows it, as far as the log stays legal. Behind a return it is that of the trap
        that it goes back from. Taking a trap to machine level masks interrupts, so one right behind a trap comes from
        supervisor level. Else it is the handler's, where that is known."""
        level = self.before.level_of_trap
        if level is None:
            level = SUPERVISOR if handler is None or self.is_interrupt and self.before.is_trap else handler
        highest = self.before.highest if handler is None else min(self.before.highest, handler)
        return max(self.before.lowest, min(highest, level))
