"""Logs that are tables: a first line with the columns' names, then a row for each event. Which column says what is by name."""
import csv
import re

from recording.rows import EXCEPTION, INTERRUPT, RETIRED, Row, parts_of
from recording.unusable import Unusable

FIELDS = {  # what a column may say, and the names that it goes by
    "pc": ("pc", "addr", "address", "pc_rdata", "rvfi_pc_rdata"),
    "privilege": ("privilege", "priv", "prv", "mode", "rvfi_mode"),
    "trap": ("trap", "exception", "rvfi_trap"),
    "interrupt": ("interrupt",),
    "cause": ("cause",),
    "tval": ("tval", "value"),
    "handler": ("handler", "intr", "rvfi_intr"),
    "next": ("next", "pc_wdata", "rvfi_pc_wdata"),
    "hart": ("hart", "rvfi_hart"),
    "order": ("order", "rvfi_order"),
    "valid": ("valid", "rvfi_valid"),
    **{name: (f"csr_{name}", f"csr_{name}_rdata", f"rvfi_csr_{name}_rdata") for name in ("mcause", "mtval", "scause", "stval")},
}
OWN = "pc", "next", "order"  # fields that nearly each line has of its own
MOST_KNOWN = 1 << 16
DECIMAL = ("hart",)
LEVELS = {"u": 0, "user": 0, "s": 1, "supervisor": 1, "m": 3, "machine": 3, "0": 0, "1": 1, "3": 3, "00": 0, "01": 1, "11": 3}
TRAPS = {"": RETIRED, "exception": EXCEPTION, "interrupt": INTERRUPT}
OF_HANDLER = {3: ("mcause", "mtval"), 1: ("scause", "stval")}


class Columns:
    """A table's rows. `given` is {field: column}, and `decimal` the fields whose numbers are decimal."""

    FORM = "a line of columns, then a row for each instruction"
    IS_RV32, HAS_TRAPPED, HAS_SUPERVISOR, ADVICE = False, True, False, None

    def __init__(self, given=None, decimal=()):
        self.given, self.decimal, self.known = given or {}, {*DECIMAL, *decimal}, {}

    def rows(self, lines):
        """The rows of numbered lines."""
        separator, places, count = None, None, 0
        for number, line in lines:
            if not line.strip() or line.lstrip().startswith("#"):
                continue
            if places is None:
                separator = next((sign for sign in ",;\t|" if sign in line), None)
                names = parted(line, separator)
                places, count = self.places(number, names), len(names)
                continue
            fields = parted(line, separator)
            if len(fields) != count:
                raise Unusable(f"line {number}: {len(fields)} fields, not {count}")
            row = self.row(number, fields, places)
            if row is not None:
                yield row
        if places is None:
            raise Unusable("the log is empty: its first line has the names of the columns")

    def places(self, number, names):
        """The place of each field's column."""
        known = {name.lower(): place for place, name in enumerate(names)}
        places = {}
        for field, usual in FIELDS.items():
            if field in self.given and self.given[field].lower() not in known:
                raise Unusable(f"line {number}: no column {self.given[field]}; there are {', '.join(names)}")
            for name in (self.given[field],) if field in self.given else usual:
                if name.lower() in known:
                    places.setdefault(field, known[name.lower()])
        if "pc" not in places:
            raise Unusable(f"line {number}: no column of addresses: say which by --columns pc=NAME; there are {', '.join(names)}")
        return places

    def row(self, number, fields, places):
        """The row of a line's fields; None where it is not valid. What many lines share is read once."""
        pc, after, order = (fields[places[name]] if name in places else "" for name in OWN)
        rest = tuple(fields[place] for name, place in places.items() if name not in OWN)
        shared = self.known.get(rest)
        if shared is None:
            if len(self.known) >= MOST_KNOWN:
                self.known.clear()
            shared = self.known[rest] = self.shared(number, {name: fields[place] for name, place in places.items()})
        is_valid, level, event, cause, value, hart, is_handler, causes = shared
        if not is_valid:
            return None
        pc = self.number(number, "pc", pc)
        if pc is None or pc % 2:
            raise Unusable(f"line {number}: pc is {'odd' if pc else 'empty'}")
        after = self.number(number, "next", after) if after else None
        return Row(number, pc, level, event, cause, value, hart, is_handler, after, order_of(order) if order else None, causes)

    def shared(self, number, found):
        """What the fields of a line say, but for those of its own."""
        if found.get("valid", "1") in ("0", ""):
            return False, *[None] * 7
        event = self.event(number, found)
        level = found.get("privilege", "").lower()
        if level and level not in LEVELS:
            raise Unusable(f"line {number}: privilege {level} is none of 0, 1, 3, U, S, M")
        get = lambda field: self.number(number, field, found.get(field, ""))
        is_handler = bool(get("handler"))
        causes = {at: (get(cause), get(value)) for at, (cause, value) in OF_HANDLER.items()} if is_handler else None
        cause, value = (None, None) if event == RETIRED else (get("cause"), get("tval"))
        if cause is not None and parts_of(cause)[0]:
            event, cause = INTERRUPT, parts_of(cause)[1]
        return True, LEVELS.get(level), event, cause, value, get("hart") or 0, is_handler, causes

    def event(self, number, found):
        """What a row is: `trap` is 0, 1 or a word, and `interrupt` not 0 where a trap is an interrupt."""
        word = found.get("trap", "").lower()
        event = TRAPS[word] if word in TRAPS else EXCEPTION if self.number(number, "trap", word) else RETIRED
        return INTERRUPT if self.number(number, "interrupt", found.get("interrupt", "")) else event

    def number(self, line, field, text):
        """A number as it comes, hexadecimal if its field is not decimal; None where nothing is."""
        if not text.strip("-"):
            return None
        try:
            return int(text.rpartition("'h")[2], 10 if field in self.decimal else 16)
        except ValueError:
            raise Unusable(f"line {line}: {field} is no number: {text}") from None


def order_of(text):
    """What the number of a row may be: no log says whether it is hexadecimal."""
    readings = [int(text, base) for base, digits in ((16, "[0-9a-fA-F]+"), (10, "[0-9]+")) if re.fullmatch(digits, text)]
    return tuple(readings) or None


def parted(line, separator):
    """The fields of a line, without blanks and quotes around them."""
    fields = next(csv.reader([line], delimiter=separator)) if separator and '"' in line else line.split(separator)
    return [field.strip().strip("\"'") for field in fields]


def words_of(text):
    """The columns of `--columns FIELD=NAME,..`."""
    given = {}
    for word in text.split(",") if text else ():
        field, sign, name = word.partition("=")
        if not sign or field not in FIELDS:
            raise Unusable(f"--columns {word}: FIELD=NAME is wanted, with a field of {', '.join(FIELDS)}")
        given[field] = name
    return given
