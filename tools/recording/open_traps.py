"""The traps of one hart whose level is not seen yet.

No line of a recording says which level an interrupt was taken from. Behind a return from a trap, and behind another trap, the
event before does not say it either. It shows once the handler goes back to where the trap was taken: the instruction there has
the level. A trap and the return that goes back from it stand at the same depth, as long as traps and returns nest.
"""

MOST_KEPT = 10_000  # places of one hart, so that a run of any length takes no more memory


class Open:
    """A trap whose level is not seen yet, and those before it at the same address with nothing retired between them: the
    places of their digits, the level that is written there, and the lowest and the highest with which the log is legal."""

    def __init__(self, depth, places, level, lowest, highest):
        self.depth, self.places, self.level, self.lowest, self.highest = depth, places, level, lowest, highest

    def allows(self, level):
        """Whether it may have a level, None where that is not known."""
        return level is None or self.lowest <= level <= self.highest


class OpenTraps:
    """The open traps of one hart, each at the address that it was taken at."""

    def __init__(self):
        self.at = {}
        self.kept = 0
        self.given_up = 0

    def add(self, address, found):
        """Keeps an open trap that was taken at `address`."""
        self.at.setdefault(address, []).append(found)
        self.kept += len(found.places)
        while self.kept > MOST_KEPT:
            self.give_up_oldest()

    def give_up_oldest(self):
        first = next(iter(self.at))
        oldest = self.at[first][0]
        oldest.places.pop(0)
        self.given_up += 1
        self.kept -= 1
        if not oldest.places:
            self.remove(first, oldest)

    def remove(self, address, found):
        self.at[address].remove(found)
        self.kept -= len(found.places)
        if not self.at[address]:
            del self.at[address]

    def take(self, address, depth, level):
        """The trap that a return at this depth to this address and level goes back from, which is kept no more; None if there
        is none."""
        for found in reversed(self.at.get(address, ())):
            if found.depth == depth and found.allows(level):
                self.remove(address, found)
                return found
        return None

    def last_at(self, address, level):
        """The last trap at this address, which stays open: where traps and returns do not nest, a return at another depth
        that goes there at a level shows its level too, if less surely."""
        return next((found for found in reversed(self.at.get(address, ())) if found.allows(level)), None)

    def guessed(self):
        """How many traps no return at their depth went back from."""
        return self.given_up + self.kept
