"""Coverage of functions and branches: as LCOV where lines of source are known, else as a table."""
from collections import defaultdict

from following.calls import BRANCH, kind_of
from recording.image import behind

TAKEN, NOT_TAKEN = 5, 4
HEADS = "kind,address,name,rows,entered,taken,not_taken,bytes,bytes_run"


class Covered:
    """Counts by address, which the image bounds: rows, branches taken and not, and how often a function was entered."""

    def __init__(self, program, symbols):
        self.program, self.symbols = program, symbols
        self.entered = defaultdict(int)
        self.rows, self.taken, self.not_taken = defaultdict(int), defaultdict(int), defaultdict(int)

    def hart(self, stack):
        """All harts are counted together."""

    def begin(self, stack, frame):
        if not frame.is_trap:
            self.entered[frame.function] += 1

    def end(self, stack, frame):
        """A frame counts where it begins."""

    def trap(self, stack, name, address):
        """A trap is no function."""

    gap = end

    def take(self, places):
        """Takes the counts of places."""
        for place in places:
            self.rows[place.address] += place.count
            if place.itype in (TAKEN, NOT_TAKEN):
                (self.taken if place.itype == TAKEN else self.not_taken)[place.address] += place.count
            place.count = 0

    def words(self, start, end):
        """The instructions from one address to another: address, word and the address behind each."""
        while start < end and start in self.program:
            word = self.program.word(start)
            after = behind(start, word)
            yield start, word, after
            start = after

    def functions(self):
        """The functions of the program, each with its end: those of the symbols, or without them where calls led."""
        starts = sorted(self.symbols.starts or self.entered)
        for start, following in zip(starts, starts[1:] + [None]):
            piece = self.program.piece_at(start)
            if piece is not None:
                yield start, piece.end() if following is None else min(following, piece.end())

    def write_table(self, file):
        file.write(HEADS + "\n")
        for start, end in self.functions():
            name = self.symbols.name_of(start).replace('"', '""')
            rows = run = 0
            branches = []
            for address, word, after in self.words(start, end):
                rows += self.rows.get(address, 0)
                run += after - address if self.rows.get(address) else 0
                if kind_of(word) == BRANCH:
                    branches.append(address)
            file.write(f'function,{start:x},"{name}",{rows},{self.entered.get(start, 0)},,,{end - start},{run}\n')
            for address in branches:
                taken, not_taken = self.taken.get(address, 0), self.not_taken.get(address, 0)
                file.write(f'branch,{address:x},"{name}",{taken + not_taken},,{taken},{not_taken},,\n')

    def write_lcov(self, file, lines, first):
        """`lines` are (address, end, file, line) of the source, by address, and `first` the file and the line that an address has
        first."""
        of_file, functions = defaultdict(lambda: defaultdict(int)), defaultdict(list)
        branches = defaultdict(list)
        for start in self.symbols.starts:
            if start in first:
                path, line = first[start]
                functions[path].append((line, start))
        for start, end, path, line in lines:
            for address, word, _ in self.words(start, end):
                of_file[path][line] = max(of_file[path][line], self.rows.get(address, 0))
                if kind_of(word) == BRANCH:
                    branches[path].append((line, address))
        for path in sorted(of_file):
            file.write(f"SF:{path}\n")
            self.write_functions(file, functions[path])
            self.write_branches(file, branches[path])
            counts = of_file[path]
            for line in sorted(counts):
                file.write(f"DA:{line},{counts[line]}\n")
            file.write(f"LF:{len(counts)}\nLH:{sum(1 for count in counts.values() if count)}\nend_of_record\n")

    def write_functions(self, file, found):
        for line, start in found:
            file.write(f"FN:{line},{self.symbols.name_of(start)}\n")
        for _, start in found:
            file.write(f"FNDA:{self.entered.get(start, 0)},{self.symbols.name_of(start)}\n")
        file.write(f"FNF:{len(found)}\nFNH:{sum(1 for _, start in found if self.entered.get(start))}\n")

    def write_branches(self, file, found):
        hit = 0
        for line, address in sorted(found):
            counts = [side.get(address, 0) for side in (self.taken, self.not_taken)]
            for side, count in enumerate(counts):
                file.write(f"BRDA:{line},{address},{side},{count if sum(counts) else '-'}\n")
                hit += bool(count)
        file.write(f"BRF:{2 * len(found)}\nBRH:{hit}\n")
