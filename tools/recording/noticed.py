"""What a recording shows of a run that was not recorded as it has to be: each with what to do, and once."""

from recording.image import NOWHERE

OTHER_WORDS = ": the image has other words than ran (another build, code that changed), or lines are missing"
JUMP_AND_LINK = "is C.JAL of RV32, which the bench takes for C.ADDIW: build without compressed instructions, -march=rv32ima"


class Noticed:
    """The warnings of a recording. `warn` is called with the text of each."""

    def __init__(self, form, warn, is_user):
        self.form, self.warn, self.is_user = form, warn, is_user
        self.count = 0
        self.how = set()  # what was said of how the simulator ran
        self.faults = set()  # what was wrong with that
        self.strays, self.levels = {}, {}  # of each hart the first place that does not follow, and the first level
        self.has_traps = self.has_jump_and_link = False

    def say(self, text):
        self.count += 1
        self.warn(text)

    def ran(self, how):
        """What a line says of how the simulator ran."""
        if how is None or how in self.how:
            return
        self.how.add(how)
        for text in self.form.faults(how):
            if text not in self.faults:
                self.faults.add(text)
                self.say(text)

    def jump_and_link(self, number, address):
        if not self.has_jump_and_link:
            self.has_jump_and_link = True
            self.say(f"hart {number}: the instruction at {address:x} {JUMP_AND_LINK}")

    def stray(self, number, before, address):
        """An event stands at an address to which the instruction before does not lead."""
        if number not in self.strays:
            self.strays[number] = before, address

    def level(self, number, address, shown, level):
        """A line shows another level than the log has."""
        if number not in self.levels:
            self.levels[number] = address, shown, level

    def why_stray(self, before, address):
        """The text of an event that does not follow the instruction before; None where another warning explains it."""
        if before.next == NOWHERE:
            return f"the instruction at {before.address:x} {self.form.CALLS}"
        if before.address == address:
            twice = f"the instruction at {address:x} is announced twice{self.form.TWICE}"
            return None if self.faults & self.form.EXPLAINS_TWICE else twice
        if self.has_jump_and_link:
            return None
        end = OTHER_WORDS if self.has_traps or self.is_user else self.form.NO_TRAPS
        return f"{address:x} does not follow the instruction at {before.address:x}{end}"

    def finish(self):
        """The recording ends. Lines that stand for blocks explain all that follows of them."""
        if self.faults & self.form.EXPLAINS_ALL:
            return
        for number, (before, address) in sorted(self.strays.items()):
            if text := self.why_stray(before, address):
                self.say(f"hart {number}: {text}")
        if self.strays and not self.has_traps:
            return
        for number, (address, shown, level) in sorted(self.levels.items()):
            end = "" if self.has_traps or self.is_user else self.form.NO_TRAPS
            text = f"at {address:x} a line shows level {shown}, and the log has {level}; no other is named"
            self.say(f"hart {number}: {text}{end}")
