"""What the program's command line takes, read from the crate `cli`.

A form that is not read here is an error, so that no argument is passed over.
"""
import os
import re

import calls

GRAMMAR = "crates/cli/src/grammar.rt"
RULES = "crates/cli/src/rules.rt"
TEXT = r'"((?:[^"\\]|\\.)*)"'
# How an argument is read: the kind, and the texts that go with it.
READING = re.compile(r"Reading::(\w+)\((.*)\)", re.DOTALL)
SHARED = re.compile(r"^const (\w+): Reading =\s+(.*?);", re.MULTILINE | re.DOTALL)
ARGUMENT = re.compile(rf"^pub\(crate\) const (\w+): Argument = Argument \{{\s+reading: (.*?),\s+help:\s+{TEXT},\s+\}};",
                      re.MULTILINE | re.DOTALL)
ROW = re.compile(rf"^    Subcommand \{{\s+name: {TEXT},\s+about: {TEXT},\s+example: [A-Z_]+,\s+arguments: &\[(.*?)\],\s+\}},",
                 re.MULTILINE | re.DOTALL)


class Unread(Exception):
    """A form of the crates that this reading does not know."""


class Argument:
    """An argument: an option `--NAME`, with a value where it has one, or a file. Of `is_many` there may be several."""

    def __init__(self, name, about, value=None, default=None, is_option=True, is_required=False, is_many=False):
        self.name, self.about, self.value, self.default = name, about, value, default
        self.is_option, self.is_required, self.is_many = is_option, is_required, is_many

    def spelled(self):
        """As it is written: `--base B`, `--full`, `IMAGE`, `LOG...`."""
        if not self.is_option:
            return self.name + "..." * self.is_many
        return f"--{self.name}" + (f" {self.value}" if self.value else "")

    def is_file(self):
        """Whether a path is wanted, for the argument or as the option's value."""
        return self.value == "FILE" if self.is_option else not self.words()

    def words(self):
        """The words one of which the argument WHAT is, as its help lists them."""
        return re.findall(r"\w+(?=,| or |$)", self.about.partition(": ")[2]) if self.name == "WHAT" else []


class Subcommand:
    """A subcommand: its name, what it does, and its arguments in order."""

    def __init__(self, name, about, arguments):
        self.name, self.about, self.arguments = name, about, arguments

    def options(self):
        return [argument for argument in self.arguments if argument.is_option]

    def files(self):
        return [argument for argument in self.arguments if not argument.is_option]

    def synopsis(self):
        """The command line: what may be left out is in brackets, and dots follow an option that may be repeated."""
        words = [self.name]
        for argument in self.arguments:
            needed = argument.is_required or not argument.is_option
            dots = "..." * (argument.is_option and argument.is_many)
            words.append((argument.spelled() if needed else f"[{argument.spelled()}]") + dots)
        return " ".join(words)


def content(path):
    return calls.text_of(os.path.join(calls.built.TOP, path))


def argument(name, reading, about):
    """The argument of this name that is read so."""
    form = READING.fullmatch(reading)
    if not form:
        raise Unread(f"{RULES}: {name} has a form that checks/documents/grammar.py does not read")
    kind, texts = form[1], re.findall(TEXT, form[2])
    is_option = kind not in ("File", "Files")
    return Argument(texts[0], about, texts[1] if len(texts) > 1 else None, texts[2] if len(texts) > 2 else None, is_option,
                    not is_option or kind == "Required", kind in ("Files", "Repeated"))


def arguments():
    """The arguments of all subcommands, by their names in the crate."""
    text = content(RULES)
    shared, found = dict(SHARED.findall(text)), ARGUMENT.findall(text)
    if len(found) != text.count(": Argument = Argument {"):
        raise Unread(f"{RULES}: an argument has a form that checks/documents/grammar.py does not read")
    return {name: argument(name, shared.get(reading, reading), about) for name, reading, about in found}


def subcommands():
    """The program's subcommands, in the order in which help lists them."""
    known, text = arguments(), content(GRAMMAR)
    listed = [(name, said, re.findall(r"\w+", names)) for name, said, names in ROW.findall(text)]
    if len(listed) != text.count("\n    Subcommand {"):
        raise Unread(f"{GRAMMAR}: a subcommand has a form that checks/documents/grammar.py does not read")
    return [Subcommand(name, said, [known[each] for each in names]) for name, said, names in listed]


def about():
    """What the program's help begins with."""
    return re.search(rf'Command::new\(alloc, "tracebench"\)\s+\.about\({TEXT}\)', content(GRAMMAR))[1]
