"""Whether docs/CONTRACTS.md has each call that its readers see, and no line that no clause says.

They see what the modules of the crate `etrace` re-export, and the calls of `ffi` (for C) and of `commands` (the program).
A section `## .. `etrace::MODULE`` or `## .. `CRATE`` has these calls. An item begins with the names of its calls in
bold, `**`Type::call`, `other`** ..`, and ends where the next one begins. A name with no type is of the type before it,
where the section has no such function. In the section of theorems each point is an item, whose first name is its own.
The names of clauses stand in brackets, `(`one`, `other`)`; nothing else stands so.

- A call of an item is a call of its section, and each call of the section has an item.
- A name in brackets is of a clause of the item's calls. A line without one says `no clause`, or the calls of its item
  have as many clauses without a name as there are such lines. A call without clauses is in an item that says so.
- The items of a call have the names of all of its clauses. Where one of them says `see the contract`, one is enough.
- An item of a call with a condition says what it needs.
- An item has at most six lines below its names.
"""
import os
import re

import calls

DOCUMENT = "docs/CONTRACTS.md"
SECTIONS = ("ffi", "commands")
# What `command` does for each subcommand, which the document says of `command`.
INNER = {"carry_out"}
THEOREMS = "etrace::laws"
MOST_POINTS = 6
NAMED = re.compile(r"\((`[a-z_]\w*`(?:, `[a-z_]\w*`)*)\)")
SECTION = re.compile(r"^## .*?`((?:etrace::)?\w+)`", re.MULTILINE)
HEAD = re.compile(r"\*\*(`[^*]*`)\*\*")
USES = re.compile(r"^pub use (\w+)::(?:\{([^}]*)\}|([\w ]+));", re.MULTILINE)


class Item:
    """An item of the document: its first line, its section, the names of its calls, and its lines."""

    def __init__(self, line, section, names):
        self.line = line
        self.section = section
        self.calls = names
        self.lines = []

    def text(self):
        return "\n".join(self.lines)

    def points(self):
        """Its lines, but those that begin with names of calls."""
        return [line.removeprefix("- ") for line in self.lines if line and not line.startswith("**")]

    def clauses(self):
        return {name for names in NAMED.findall(self.text()) for name in re.findall(r"\w+", names)}

    def nameless(self):
        """The points that neither name a clause nor say that there is none."""
        return [line for line in self.points() if not NAMED.search(line) and "no clause" not in line.lower()]


def named(heads, known):
    """The calls that names in bold stand for, in a section with these calls."""
    owner = None
    for name in heads:
        name = f"{owner}::{name}" if owner and "::" not in name and name not in known else name
        owner = name.split("::")[0] if "::" in name else owner
        yield name


def items(text, public):
    """The items of the document, by the calls of each section."""
    section, item, found = None, None, []
    for number, line in enumerate(text.split("\n"), 1):
        heads = [name for names in HEAD.findall(line) for name in re.findall(r"`([\w:]+)`", names)]
        theorem = re.match(r"- `(\w+)`", line) if section == THEOREMS else None
        if line.startswith("## "):
            heading = SECTION.match(line)
            section, item = heading[1] if heading and heading[1] in public else None, None
        elif section and theorem:
            item = Item(number, section, [theorem[1]])
            found.append(item)
        elif section and line.startswith("**"):
            if not item or item.points():
                item = Item(number, section, [])
                found.append(item)
            item.calls += named(heads, public[section])
        if item:
            item.lines.append(line)
    return found


def quoted(names):
    return ", ".join(f"`{name}`" for name in sorted(names))


def wrong_item(item, own):
    """What is wrong with an item, by the calls that it has of its section."""
    known = set().union(*(call.clauses | call.fields for call in own))
    if strange := item.clauses() - known:
        yield f"no clause of {quoted(item.calls)}: {quoted(strange)}"
    if len(nameless := item.nameless()) > sum(call.nameless for call in own):
        yield f"no clause is named for: {nameless[-1]}"
    if any(call.needs for call in own) and not re.search(r"\bneeds?\b", item.text(), re.IGNORECASE):
        yield f"what {quoted(item.calls)} needs is not said"
    if any(call.is_bare() for call in own) and "no clause" not in item.text():
        yield f"a call of {quoted(item.calls)} has no clause, and that is not said"
    if len(item.points()) > MOST_POINTS:
        yield f"more than {MOST_POINTS} lines"


def wrong_section(section, own, its_items):
    """Which calls of a section have no item, and which of their clauses no item has, nor of the fields of a record if it has
    some of them."""
    for name, call in own.items():
        at = [item for item in its_items if name in item.calls]
        named = set().union(*(item.clauses() for item in at))
        left = (call.clauses | call.fields if named & call.fields else call.clauses) - named
        if not at:
            yield f"{DOCUMENT}: no item for `{name}` of `{section}`"
        elif left == call.clauses and left or left and not any("see the contract" in item.text() for item in at):
            yield f"{DOCUMENT}: `{name}` of `{section}` has no word of {quoted(left)}"


def wrong(text, public):
    """What is wrong with the document, by the calls of each section."""
    found, said = items(text, public), []
    for item in found:
        own = public[item.section]
        said += [f"{DOCUMENT}:{item.line}: no call `{name}` of `{item.section}`"
                 for name in item.calls if name not in own]
        said += [f"{DOCUMENT}:{item.line}: {what}"
                 for what in wrong_item(item, [own[name] for name in item.calls if name in own])]
    for section, own in public.items():
        said += wrong_section(section, own, [item for item in found if item.section == section])
    return said


def re_exported(text):
    """The calls that a module re-exports, by the names that it gives them."""
    found = {}
    for crate, many, one in USES.findall(text):
        own = calls.public_calls(crate)
        for item in filter(None, (part.strip() for part in (many or one).split(","))):
            name, _, alias = item.partition(" as ")
            found |= {(alias or name) + call[len(name):]: own[call] for call in own if call.split("::")[0] == name}
    return found


def sections():
    """The calls of each section that the document has."""
    modules = {f"etrace::{file[:-3]}": text for file, text in calls.sources("etrace").items() if file != "lib.rt"}
    found = {name: re_exported(text) for name, text in modules.items()}
    for crate in SECTIONS:
        found[crate] = {name: call for name, call in calls.public_calls(crate).items() if name not in INNER}
    return found


def check():
    return wrong(calls.text_of(os.path.join(calls.built.TOP, DOCUMENT)), sections())
