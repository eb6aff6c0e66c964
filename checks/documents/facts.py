"""Whether README, guide, help and code have statuses, limits, ranges, texts and what is left out as docs/FORMATS.md does.

That document has each of them once, in a table. README and guide may say them among other words.
"""
import glob
import os
import re

import calls
from documents import grammar

DOCUMENT = "docs/FORMATS.md"
README, GUIDE = "README.md", "docs/guide"
HELP = "crates/cli/src/help.rt"
SHARED = "Options of several subcommands"
OPTION = re.compile(r"(?:^|, )`--([\w-]+)")
# Which limits README has, by the first column of their table.
LIMITS_OF_README = ("a piece of an image", "an image", "pieces of an image", "a log",
                    "a log of `check`, `encode`, `measure`, `compare` with `--long`", "logs of a run, harts of a capture")
# The texts of faults that the program does not report: of calls of the library, and of runs that it never begins.
NOT_REPORTED = {
    "no logs", "no harts", "too many harts", "capacity is not 1 to 65536", "period is 0", "cannot be written",
}
FAULT_TEXTS = ("FaultText", "FateText", "SetupText")
# Fates, which are no faults, and what each line begins with.
OTHER_TEXTS = {"changed", "late", "in order", "tracebench: "}


def content(path):
    return calls.text_of(os.path.join(calls.built.TOP, path))


def section(title):
    """The text of a section of the document."""
    found = re.search(rf"^## {re.escape(title)}\n(.*?)(?=^## |\Z)", content(DOCUMENT), re.MULTILINE | re.DOTALL)
    return found[1] if found else ""


def rows(title):
    """The cells of the rows of a section's tables, without their heads."""
    lines = [line for line in section(title).split("\n") if line.startswith("|")]
    rules = {place for place, line in enumerate(lines) if line.startswith("|--")}
    kept = [line for place, line in enumerate(lines) if place not in rules and place + 1 not in rules]
    return [[cell.strip() for cell in line.strip("|").split(" | ")] for line in kept]


def plain(text):
    """A text in small letters, with one blank between its words and no emphasis."""
    return re.sub(r"\s+", " ", text.replace("*", "")).lower()


def statuses():
    readme, told = plain(content(README)), dict(re.findall(r"^  (\d)  (.*?)\"?;?$", content(HELP), re.MULTILINE))
    for number, text in rows("Exit statuses"):
        if told.get(number) != text:
            yield f"{HELP}: status {number} is not `{text}`"
        if plain(text) not in readme:
            yield f"{README}: status {number} is not `{text}`"


def value(crate, name):
    """The value of a constant of a crate; None where it has none of this name."""
    for text in calls.sources(crate).values():
        found = re.search(rf"const {name}: \w+ = ([^;]*);", text)
        if found:
            base, _, shift = found[1].replace("_", "").partition(" << ")
            return int(base) << int(shift or 0)
    return None


def number_of(limit):
    """The last number of a limit: of `at most 1,024 harts`, of `1 to 18 bytes`, of `below 2^63`."""
    power = re.search(r"2\^(\d+)", limit)
    return 1 << int(power[1]) if power else int(re.findall(r"\d[\d,]*", limit)[-1].replace(",", ""))


def limits():
    readme = plain(content(README))
    for what, limit, constant in (row for row in rows("Limits") if len(row) == 3):
        crate, name = constant.strip("`").split("::")
        if value(crate, name) != number_of(limit):
            yield f"{DOCUMENT}: {what}: {limit}, and {constant} is {value(crate, name)}"
        if what in LIMITS_OF_README and limit.removeprefix("at most ") not in readme:
            yield f"{README}: {what}: no word of {limit}"


def options(name):
    """The options in the section of a subcommand, each with its range and default; these may be in the shared table."""
    heads = re.findall(r"^## (.*)$", content(DOCUMENT), re.MULTILINE)
    own = rows(next((head for head in heads if f"`{name}`" in head), "none"))
    shared = {option: cells[2] for cells in rows(SHARED) for option in OPTION.findall(cells[0])}
    return [(option, cells[2] or shared.get(option, "")) for cells in own for option in OPTION.findall(cells[0])]


def spans():
    """The name, the subcommands, the range and the default of each option with a range."""
    found = {}
    for one in grammar.subcommands():
        for option, span in options(one.name):
            if "; default " in span:
                found.setdefault((option, span), []).append(one.name)
    for (option, span), subcommands in found.items():
        yield option, subcommands, *span.replace("`", "").split("; default ")


def arguments():
    pages = sorted(glob.glob(os.path.join(calls.built.TOP, GUIDE, "*.md")))
    guide = plain("\n".join(map(calls.text_of, pages)))
    taken = {(option.name, one.name): option for one in grammar.subcommands() for option in one.options()}
    for name, subcommands, between, default in spans():
        of = [taken.get((name, one)) for one in subcommands]
        if not all(it and between in it.about and default in (it.default or it.about) for it in of):
            yield f"{grammar.RULES}: the help of --{name} does not say {between}; default {default}"
        if default.isdigit() and not re.search(
                rf"--{name} \w`[^(]*\({re.escape(f'{between}; default {default}')}\)", guide):
            yield f"{GUIDE}: on no page --{name} is followed by ({between}; default {default})"


def synopses():
    """Whether the section of each subcommand has its arguments and its options as the grammar does, and no other."""
    for one in grammar.subcommands():
        if f"\ntracebench {one.synopsis()}\n" not in content(DOCUMENT):
            yield f"{DOCUMENT}: no line: tracebench {one.synopsis()}"
        told, taken = {option for option, _ in options(one.name)}, {option.name for option in one.options()}
        for name in sorted(told ^ taken):
            yield f"{DOCUMENT}: {'no option' if name in told else 'no row of'} --{name} of {one.name}"


def left_out():
    readme = plain(content(README))
    for name, _ in rows("What of E-Trace is left out"):
        if plain(name) not in readme:
            yield f"{README}: no word of what is left out: {name}"


def texts():
    """Whether the table of error lines has the texts of the definitions, and these have its texts."""
    paths = sum((glob.glob(f"{calls.CRATES}/*/specs/*{name}.antt") for name in FAULT_TEXTS), [])
    spoken = {text for path in paths for text in re.findall(r'codes "([^"\\]*[a-z][^"\\]*)"', calls.text_of(path))}
    table = [text for row in rows("Error lines") for text in re.findall(r"`([^`]*)`", row[1])]
    names = {text for text in spoken if re.fullmatch(r"[A-Z]\w*|not decoded: [A-Z]\w*", text)}
    for text in sorted(spoken - names - NOT_REPORTED - OTHER_TEXTS):
        if not any(text.strip() in line for line in table):
            yield f"{DOCUMENT}: no error line has `{text}`"
    for line in table:
        for part in re.split(r"\b(?:PATH|RECEIVED|WHY|NAME|A|B|N|E|H|M|1024|64|4294967295)\b|: ", line):
            if part.strip() and line != "clap" and not any(part.strip() in text for text in spoken):
                yield f"{DOCUMENT}: no definition has `{part.strip()}`"


def check():
    return [*statuses(), *limits(), *arguments(), *synopses(), *left_out(), *texts()]
