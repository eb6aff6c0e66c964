"""Trace events as Chrome and Perfetto read them: a track for each hart, a slice for each frame of its stack, and traps as instants. A
row is a microsecond."""
import json


class Traced:
    """Writes events as they come. Those of rows from `first` to `last` are written, `last` None where there is no end; what is on the
    stack then begins at `first`, or ends behind `last`."""

    def __init__(self, file, title, first=None, last=None):
        self.file, self.first, self.last = file, first or 0, last
        self.has_begun = False  # of the hart whose rows come
        self.open = 0  # its slices that have begun and not ended
        self.file.write('{"traceEvents":[\n')
        self.write({"ph": "M", "pid": 0, "name": "process_name", "args": {"name": title}}, "")

    def write(self, event, before=",\n"):
        self.file.write(before + json.dumps(event, separators=(",", ":")))

    def slice(self, phase, hart, row, **more):
        self.write({"ph": phase, "pid": 0, "tid": hart, "ts": row, **more})

    def hart(self, stack):
        self.has_begun, self.open = False, 0
        self.write({"ph": "M", "pid": 0, "tid": stack.hart, "name": "thread_name", "args": {"name": f"hart {stack.hart}"}})

    def is_shown(self, stack, frames, least):
        """Whether what happens now is written, where these frames are on the stack. It begins at row `least` at the earliest."""
        if not self.has_begun and stack.rows >= least:
            self.has_begun = True
            for frame in frames:
                self.show(stack.hart, frame, self.first)
        if self.last is not None and stack.rows > self.last:
            while self.open:
                self.open -= 1
                self.slice("E", stack.hart, self.last + 1)
            return False
        return self.has_begun

    def show(self, hart, frame, row):
        self.open += 1
        self.slice("B", hart, row, name=frame.name, cat="trap" if frame.is_trap else "function")

    def begin(self, stack, frame):
        if self.is_shown(stack, stack.frames, self.first):
            self.show(stack.hart, frame, stack.rows)

    def end(self, stack, frame):
        if self.is_shown(stack, (*stack.frames, frame), self.first + 1):
            self.open -= 1
            self.slice("E", stack.hart, stack.rows)

    def trap(self, stack, name, address):
        if self.is_shown(stack, stack.frames, self.first):
            self.slice("i", stack.hart, stack.rows, s="t", name=name, args={"epc": f"{address:x}"})

    def gap(self, stack, text):
        if self.is_shown(stack, stack.frames, self.first):
            self.slice("i", stack.hart, stack.rows, s="t", name=text)

    def messages(self, listed):
        """Writes a track of each hart for its messages: a slice for the rows that each settles, by a table of `list`."""
        self.write({"ph": "M", "pid": 1, "name": "process_name", "args": {"name": "messages"}})
        named = set()
        for hart, name, first, last in listed:
            begin, end = max(first - 1, self.first), last if self.last is None else min(last, self.last + 1)
            if begin >= end:
                continue
            if hart not in named:
                named.add(hart)
                self.write({"ph": "M", "pid": 1, "tid": hart, "name": "thread_name", "args": {"name": f"hart {hart}"}})
            self.write({"ph": "B", "pid": 1, "tid": hart, "ts": begin, "name": name, "cat": "message"})
            self.write({"ph": "E", "pid": 1, "tid": hart, "ts": end})

    def close(self):
        self.file.write("\n]}\n")
