"""The public calls of the crates, with the names of the clauses of their contracts, read from crates/CRATE/src."""
import os
import re

import built
from built import content as text_of
from crate_list import crates

CRATES = os.path.join(built.TOP, "crates")
BLOCK = re.compile(r"(?:impl(?:<.*?>)?|(pub trait)) (\w+)(?!.* for )")
FUNCTION = re.compile(r'(    )?(pub )?fn (\w+)')


class Call:
    """A public function: the file that has it, its conditions and clauses, and whether it is a trait's method.

    `clauses` has the names of both, `nameless` is the count of clauses without one, `fields` are those of the records that
    these are, `needs` whether it has a condition."""

    def __init__(self, file, heads, of_trait, fields=()):
        self.file = file
        self.fields = set(fields)
        self.clauses = {name for _, name in heads if name}
        self.nameless = heads.count(("ensures", ""))
        self.needs = any(kind == "requires" for kind, _ in heads)
        self.of_trait = of_trait

    def is_bare(self):
        """Whether nothing is said of it."""
        return not (self.clauses or self.nameless or self.needs)


def sources(crate):
    """The texts of a crate's files, the root first, tests left out."""
    src = os.path.join(CRATES, crate, "src")
    names = sorted(name for name in os.listdir(src) if name.endswith(".rt") and name != "tests.rt")
    names.sort(key=lambda name: name not in ("lib.rt", "main.rt"))
    return {name: text_of(os.path.join(src, name)) for name in names}


def public_calls(crate):
    """The public functions of a crate by their names, methods as TYPE::NAME.

    Public is what the root re-exports, and the methods of the types and traits that it does."""
    texts = sources(crate)
    root = next(iter(texts.values()))
    names = {*re.findall(r"\w+", " ".join(re.findall(r"^pub use ([^;]*);", root, re.MULTILINE)))}
    records = records_of(crate)
    return {
        name: call
        for file, text in texts.items()
        for name, call in calls_in(file, text.split("\n"), names, records)
    }


def records_of(crate):
    """The records that contracts of a crate may cite, each with the names of its fields."""
    specs, found = os.path.join(CRATES, crate, "specs"), {}
    for name in sorted(os.listdir(specs)) if os.path.isdir(specs) else ():
        text = text_of(os.path.join(specs, name)) if name.endswith(".antt") else ""
        for record in re.finditer(r"^pub record (\w+).*?(?:\n\n|\Z)", text, re.MULTILINE | re.DOTALL):
            found[record[1]] = re.findall(r"^  pub (\w+) :", record[0], re.MULTILINE)
    return found


def calls_in(file, lines, names, records):
    """The functions of a file that are public by their own words, and whose name or owner is one of these."""
    owner = trait = None
    for place, line in enumerate(lines):
        block, function = BLOCK.match(line), FUNCTION.match(line)
        if block:
            trait, owner = block[1], block[2]
        elif line == "}":
            owner = trait = None
        elif function and (function[2] or trait) and (owner if function[1] else function[3]) in names:
            name = f"{owner}::{function[3]}" if function[1] else function[3]
            own = heads(lines[place:], function[1] or "")
            fields = [field for _, clause, record in own if not clause for field in records.get(record, ())]
            yield name, Call(file, [head[:2] for head in own], bool(trait), fields)


def heads(lines, indent):
    """The kind, the name, or none, and the first word of each condition and clause between a function's head and its body."""
    found = []
    for line in lines:
        clause = re.match(indent + r"    (ensures|requires) (?:(\w+) )?\{ ?(\w*)", line)
        if clause:
            found.append((clause[1], clause[2] or "", clause[3]))
        if line in (indent + "{", indent + "{}") or line.endswith(";") or line.endswith(" {") and not clause:
            break
    return found
