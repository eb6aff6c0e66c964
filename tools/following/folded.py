"""Folded stacks, as flame graphs are made of: a line for each stack with how many rows it has."""

MOST_STACKS = 200_000  # that are told apart; the rows of more count for what is below them


class Folded:
    """Counts the rows of each stack. A stack is a node: the number of the one below it and a name."""

    def __init__(self):
        self.nodes = {}
        self.below, self.names, self.counts = [None], [None], [0]
        self.current, self.since = 0, 0

    def hart(self, stack):
        self.current, self.since = self.node(0, f"hart {stack.hart}"), 0

    def node(self, below, name):
        found = self.nodes.get((below, name))
        if found is None:
            if len(self.names) >= MOST_STACKS:
                return below
            found = self.nodes[below, name] = len(self.names)
            self.below.append(below)
            self.names.append(name)
            self.counts.append(0)
        return found

    def count(self, stack):
        self.counts[self.current] += stack.rows - self.since
        self.since = stack.rows

    def begin(self, stack, frame):
        self.count(stack)
        frame.node, self.current = self.current, self.node(self.current, frame.name)

    def end(self, stack, frame):
        self.count(stack)
        self.current = frame.node

    def trap(self, stack, name, address):
        """A trap begins a frame too."""

    def gap(self, stack, text):
        """A gap ends all frames."""

    def write(self, file):
        for node, count in enumerate(self.counts):
            if count:
                names, at = [], node
                while at:
                    names.append(self.names[at].replace(";", ":").replace("\n", " "))
                    at = self.below[at]
                file.write(f"{';'.join(reversed(names))} {count}\n")
