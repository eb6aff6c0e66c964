"""The stack of functions of one hart, row by row: calls push, returns unwind to the call that they go back to, jumps into another
function take its caller's place, and traps push a frame that their return unwinds to."""
from following.calls import BRANCH, CALL, FROM_TRAP, PLAIN, RETURN, SWAP, kind_of
from recording.image import behind

MOST_FRAMES = 1000  # of a stack: a call above takes the place of the function that made it
AT_OR_BEHIND = (0, 2, 4)  # where a handler returns to, less the trap's place
GOES_ON = PLAIN, BRANCH


class Frame:
    """A function that is not returned from, from row `row` on, or a trap: `back` is where its return leads, `name` what it is."""

    __slots__ = ("function", "back", "name", "is_trap", "row", "node")

    def __init__(self, function, back, name, is_trap, row):
        self.function, self.back, self.name, self.is_trap, self.row, self.node = function, back, name, is_trap, row, None


class Place:
    """An address of the program: its function, what its instruction does, and how long it is. `itype` is that of the row, and `count`
    how many such rows there are."""

    __slots__ = ("address", "function", "kind", "length", "itype", "count")

    def __init__(self, program, symbols, address, itype):
        word = program.word(address)
        self.address, self.itype, self.count = address, itype, 0
        self.function, self.kind = symbols.function_at(address), kind_of(word)
        self.length = behind(address, word) - address


class Stack:
    """What a hart's rows do. `out` is told of each frame that begins and ends and of each trap, with its row."""

    def __init__(self, hart, symbols, out):
        self.hart, self.symbols, self.out = hart, symbols, out
        self.frames = []
        self.rows = 0
        self.before = None  # the place of the row before
        self.has_trapped = False  # the row before is a trap

    def retire(self, place):
        """Takes a row that is a retirement."""
        before = self.before
        if before is None or before.kind not in GOES_ON or place.function not in (None, self.frames[-1].function):
            self.arrive(place.address, place.function)
        self.before = place
        self.rows += 1

    def trap(self, address, itype, cause):
        """Takes a row that is a trap."""
        if self.before is not None and self.before.kind not in GOES_ON:
            self.arrive(address, self.symbols.function_at(address))
        name = f"{'exception' if itype == 1 else 'interrupt'} {cause:x}"
        self.out.trap(self, name, address)
        self.push(None, address, name, True)
        self.before, self.has_trapped = None, True
        self.rows += 1

    def gap(self, text):
        """Rows are missing here: nothing is known of the stack."""
        self.pop_to(0)
        self.before, self.has_trapped = None, False
        if text:
            self.out.gap(self, text)

    def arrive(self, address, function):
        """An event is at an address of a function: what the one before did to the stack."""
        before = self.before
        if before is None:
            if self.has_trapped or not self.frames:
                self.enter(address, function, None)
            self.has_trapped = False
        elif before.kind == CALL:
            back = before.address + before.length
            if address != back or not self.has_lost_call(before):
                self.enter(address, function, back)
        elif before.kind == RETURN:
            self.go_back(address, function)
        elif before.kind == SWAP:
            self.pop_to(max(len(self.frames) - 1, self.base()))
            self.enter(address, function, before.address + before.length)
        elif before.kind == FROM_TRAP:
            self.leave_trap(address, function)
        elif not self.frames or function is not None and function != self.frames[-1].function:
            self.replace(address, function)

    def has_lost_call(self, place):
        """Whether what a call led to has no rows, since it is outside the image: the next row is where it returns to."""
        return place.itype == 6

    def base(self):
        """How many frames are below those of the last trap, that of the trap counted."""
        return next((at for at in range(len(self.frames), 0, -1) if self.frames[at - 1].is_trap), 0)

    def go_back(self, address, function):
        """A return: to the last call that it can be of, else, as `longjmp` does, to a function that is not returned from."""
        base = self.base()
        for at in range(len(self.frames) - 1, base - 1, -1):
            if self.frames[at].back == address:
                self.pop_to(at)
                if not self.frames[base:]:
                    self.enter(address, function, None)
                return
        for at in range(len(self.frames) - 1, base - 1, -1):
            if self.frames[at].function == function and function is not None:
                return self.pop_to(at + 1)
        self.pop_to(base)
        self.enter(address, function, None)

    def leave_trap(self, address, function):
        """A return from a trap: to where the last one was taken, else to something that is not on the stack."""
        base = self.base()
        if not base:
            self.pop_to(0)
        else:
            epc = self.frames[base - 1].back
            self.pop_to(base - 1)
            if address - epc in AT_OR_BEHIND and self.frames and self.frames[-1].function == function:
                return
            self.pop_to(self.base())
        self.enter(address, function, None)

    def enter(self, address, function, back):
        if len(self.frames) >= MOST_FRAMES:
            return self.replace(address, function)
        start = address if function is None else function
        self.push(start, back, self.symbols.name_of(start), False)

    def replace(self, address, function):
        """A jump into another function, which returns to where this one would have."""
        back = None
        if self.frames and not self.frames[-1].is_trap:
            back = self.frames[-1].back
            self.pop_to(len(self.frames) - 1)
        self.enter(address, function, back)

    def push(self, function, back, name, is_trap):
        frame = Frame(function, back, name, is_trap, self.rows)
        self.out.begin(self, frame)
        self.frames.append(frame)

    def pop_to(self, count):
        """Ends the frames but the lowest so many."""
        while len(self.frames) > count:
            self.out.end(self, self.frames.pop())
