"""Where each hart was over its rows: the function that has most rows of each bin. A bin's width doubles as rows come, so that a hart of
any length has between half of `MOST_BINS` and all of them."""
from collections import Counter

MOST_BINS = 480
HEADS = "hart,first,last,function,rows"


class Strip:
    """Counts the rows of each function in each bin of a hart. A trap is the function that its handler is of."""

    def __init__(self):
        self.harts = {}

    def hart(self, stack):
        self.bins, self.width, self.since = self.harts.setdefault(stack.hart, ([Counter()], [1])) + (0,)

    def count(self, stack):
        """The rows since the last change are of what is on the stack."""
        name, row = next((frame.name for frame in reversed(stack.frames) if not frame.is_trap), "none"), self.since
        while row < stack.rows:
            place = row // self.width[0]
            if place >= MOST_BINS:
                self.double()
                continue
            while place >= len(self.bins):
                self.bins.append(Counter())
            end = min(stack.rows, (place + 1) * self.width[0])
            self.bins[place][name] += end - row
            row = end
        self.since = stack.rows

    def double(self):
        """Joins bins in pairs."""
        self.bins[:] = [sum(self.bins[at:at + 2], Counter()) for at in range(0, len(self.bins), 2)]
        self.width[0] *= 2

    def begin(self, stack, frame):
        self.count(stack)

    def end(self, stack, frame):
        stack.frames.append(frame)
        self.count(stack)
        stack.frames.pop()

    def trap(self, stack, name, address):
        """A trap begins a frame too."""

    def gap(self, stack, text):
        """A gap ends all frames."""

    def write(self, file):
        file.write(HEADS + "\n")
        for hart, (bins, width) in sorted(self.harts.items()):
            for place, counts in enumerate(bins):
                if counts:
                    name, rows = counts.most_common(1)[0]
                    first = place * width[0]
                    quoted = name.replace('"', '""')
                    file.write(f'{hart},{first},{first + sum(counts.values()) - 1},"{quoted}",{rows}\n')
