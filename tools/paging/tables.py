"""Tables of CSV, read in blocks of lines, so that one of any length takes the memory of a block."""
import csv
import io
import re

import numpy
import pandas

from recording.unusable import Unusable

BLOCK = 1 << 24  # bytes read at once
NONE = -1  # a number where nothing is
MOST = (1 << 63) - 2  # the last number of a message in order; greater numbers count as this
MARKS = {  # the columns that only a table of this kind has
    "audit --format csv": {"fate", "verdict"},
    "salvage --format csv": {"kind", "second", "closed", "reason"},
    "list --format csv": {"packet", "added", "waits"},
    "measure": {"retirements", "payload_bytes"},
    "decode": {"addr", "itype", "priv"},
    "tools/timeline --strip": {"first", "last", "function", "rows"},
    "tools/timeline --coverage": {"entered", "taken", "not_taken"},
}


class Block:
    """Some rows of a table, of which the first stands in line `first` of the file."""

    def __init__(self, path, first, frame):
        self.path, self.first, self.frame = path, first, frame

    def numbers(self, name):
        """A column of numbers, each by all of its digits, NONE where nothing is."""
        texts, codes = self.texts(name), self.codes(name)
        if not all(map(is_number, texts)):
            is_wrong = numpy.array([not is_number(text) for text in texts] + [False])
            self.refuse(is_wrong[codes], f"{name} is not a number")
        return numpy.array([*map(number_of, texts), NONE], numpy.int64)[codes]

    def places(self, name):
        """A column of offsets, which are hexadecimal, NONE where nothing is."""
        texts, codes = self.texts(name), self.codes(name)
        if not all(map(is_offset, texts)):
            is_wrong = numpy.array([not is_offset(text) for text in texts] + [False])
            self.refuse(is_wrong[codes], f"{name} is no offset")
        return numpy.array([*(int(text, 16) for text in texts), NONE], numpy.int64)[codes]

    def words(self, name, known):
        """A column of words, each as its place in those that are known, NONE where it is none of them."""
        places = [known.index(word) if word in known else NONE for word in self.texts(name)]
        return numpy.array(places + [NONE], numpy.int64)[self.codes(name)]

    def texts(self, name):
        """The texts that a column has."""
        return list(self.frame[name].cat.categories)

    def codes(self, name):
        """Of each row the place of its text among those of the column, the last place where nothing is."""
        return self.frame[name].cat.codes.to_numpy()

    def refuse(self, is_wrong, why):
        """Says why the first row that is wrong cannot be used, if one is."""
        if is_wrong.any():
            raise Unusable(f"{self.path}: line {self.first + int(is_wrong.argmax())}: {why}")


class Source:
    """A file that is read once, and its first line."""

    def __init__(self, path):
        self.path, self.file = path, open(path, "rb")
        self.line = self.file.readline()

    def __str__(self):
        return self.path

    def columns(self):
        """The columns that the first line has."""
        return self.line.decode("utf-8", "replace").rstrip("\r\n").split(",")


def blocks(source, maker, words, numbers, show=None, may_quote=False):
    """The blocks of a table that `maker` writes, which has to have these columns of words and of numbers. `show` is
    told of each block how many bytes and rows were read."""
    with source.file as file:
        path, columns = source.path, [*words, *numbers]
        header = header_of(path, source.line, maker, columns)
        told = show(file) if show else None
        first = 2
        while text := file.read(BLOCK):
            text += file.readline()
            if not text.endswith(b"\n"):
                raise Unusable(f"{path}: line {first + text.count(bytes([10]))}: the file ends inside a line")
            block = Block(path, first, frame(path, first, text, header, columns, may_quote))
            first += len(block.frame)
            if told:
                told(len(text), first - 2)
            yield block


def header_of(path, line, maker, wanted):
    """The columns of a table."""
    if not line:
        raise Unusable(f"{path}: empty: give it what `{maker}` writes")
    try:
        header = line.decode("ascii").rstrip("\r\n").split(",")
    except UnicodeDecodeError:
        raise Unusable(f"{path}: no text: give it what `{maker}` writes") from None
    lacking = [name for name in wanted if name not in header]
    kind = kind_of(header)
    if lacking and kind not in (None, maker):
        raise Unusable(f"{path}: a table of `{kind}`: give it what `{maker}` writes")
    if len(lacking) == len(wanted):
        raise Unusable(f"{path}: line 1: no table of `{maker}`: it has none of its columns")
    if lacking:
        raise Unusable(f"{path}: line 1: the column {lacking[0]} is lacking: give it what `{maker}` writes")
    return header


def kind_of(header):
    """Which command writes a table of these columns, None where that is not known."""
    return next((kind for kind, marks in MARKS.items() if marks <= set(header)), None)


def frame(path, first, text, header, columns, may_quote):
    """The rows of a block of lines, each with as many fields as the header. Each column has its texts once, so that no
    number is rounded."""
    lines = text.count(b"\n")
    if may_quote or text.count(b",") == lines * (len(header) - 1):
        try:
            found = pandas.read_csv(
                io.BytesIO(text), header=None, names=header, usecols=columns, dtype="category", engine="c", low_memory=False,
                skip_blank_lines=False, keep_default_na=False, na_values=[""], encoding_errors="replace",
                index_col=False, quoting=csv.QUOTE_MINIMAL if may_quote else csv.QUOTE_NONE,
            )
            if len(found) == lines:
                return found
        except (ValueError, OverflowError):
            pass
    raise Unusable(f"{path}: {first_fault(first, text, header, may_quote)}")


def first_fault(first, text, header, may_quote):
    """Which line of a block is the first that is no row, and why."""
    for place, line in enumerate(text.decode("utf-8", "replace").splitlines(), first):
        fields = next(csv.reader([line]), []) if may_quote else line.split(",")
        if len(fields) != len(header):
            return f"line {place}: {len(fields)} fields, not {len(header)}"
    return f"lines {first} to {first + text.count(bytes([10])) - 1}: not a table"


def is_number(field):
    return field.isascii() and field.isdigit()


def is_offset(field):
    return len(field) <= 15 and bool(re.fullmatch("[0-9a-f]+", field))


def number_of(digits):
    """The number that these digits are, MOST where it is greater."""
    return int(digits) if len(digits) < 19 else min(int(digits.lstrip("0")[:20] or "0"), MOST)
