"""Whether the manual pages, the help and the struct of each subcommand have what the grammar has, and no more.

A page of packaging/man is a text for `scdoc`. The line `@statuses@` is the table of statuses of docs/FORMATS.md, and
`@limits@` that of its limits. `tools/release` puts them in.
"""
import glob
import os
import re

import calls
from documents import facts, grammar

FOLDER = "packaging/man"
HELP = "crates/transcripts/data/help.transcript"
STRUCTS = "crates/command_inputs/src/words.rt"
HEADER = "include/tracebench.h"
SCRIPTS = {"record": (), "verdict": (), "image": (), "timeline": (), "wrap": ("tools/framing/settings.py",),
           "unwrap": ("tools/framing/settings.py",)}  # each with the files beside it that have options of it
OTHERS = {"tracebench.1", "tracebench.3", "tracebench-log.5", "tracebench-capture.5",
          *(f"tracebench-{script}.1" for script in SCRIPTS)}
OPTION = re.compile(r"^\*--([a-z0-9-]+)\*(?: _([\w,=-]+)_)?$", re.MULTILINE)
FILE = re.compile(r"^_([A-Z]+)_(\.\.\.)?$", re.MULTILINE)
OPTION_OF_HELP = re.compile(r"^!       --([a-z0-9-]+)(?: <([\w=-]+)>)? +(.*?)(?: \[default: (\w+)\])?$", re.MULTILINE)
CALL = re.compile(r"\b(tracebench_[a-z_]+)\(")
# A call that the library has; the others are of the header alone.
OF_LIBRARY = re.compile(r"^(?:uint32_t|void) (tracebench_[a-z_]+)\(", re.MULTILINE)


def page(name):
    path = os.path.join(calls.built.TOP, FOLDER, name + ".scd")
    return calls.text_of(path) if os.path.isfile(path) else None


def section(text, title):
    found = re.search(rf"^# {title}\n(.*?)(?=^# |\Z)", text, re.MULTILINE | re.DOTALL)
    return found[1] if found else ""


def unmarked(text):
    """A line of a page without its marks for bold and underlined text."""
    return re.sub(r"[*_]", "", text).strip()


def full(text):
    """A page with the tables of docs/FORMATS.md in their places."""
    statuses = "".join(f"*{number}*\n\t{said}.\n\n" for number, said in facts.rows("Exit statuses"))
    limits = "".join(f"- {row[0]}: {row[1]}\n" for row in facts.rows("Limits") if len(row) == 3)
    limits = limits.replace("`encode --v1`", "*encode --v1*").replace("`", "*").replace("2^", "2\\^")
    return text.replace("@statuses@\n", statuses).replace("@limits@\n", limits)


def of_page(one):
    """What is wrong with the page of a subcommand."""
    name = f"tracebench-{one.name}.1"
    place, text = f"{FOLDER}/{name}.scd", page(name)
    if text is None:
        yield f"{place}: no page for the subcommand {one.name}"
        return
    if unmarked(section(text, "NAME")) != f"tracebench-{one.name} - {one.about[0].lower()}{one.about[1:]}":
        yield f"{place}: NAME does not say what the grammar does: {one.about}"
    if unmarked(section(text, "SYNOPSIS")) != f"tracebench {one.synopsis()}":
        yield f"{place}: SYNOPSIS is not: tracebench {one.synopsis()}"
    options, files = OPTION.findall(section(text, "OPTIONS")), FILE.findall(section(text, "ARGUMENTS"))
    if options != (want := [(each.name, each.value or "") for each in one.options()] + [("help", "")]):
        yield f"{place}: OPTIONS has {options}, and the grammar {want}"
    if files != (want := [(each.name, "..." * each.is_many) for each in one.files()]):
        yield f"{place}: ARGUMENTS has {files}, and the grammar {want}"
    for option, subcommands, between, default in facts.spans():
        body = re.search(rf"^\*--{option}\*.*?\n\n", text, re.MULTILINE | re.DOTALL)
        if one.name in subcommands and (not body or f"{between}; default {default}" not in unmarked(body[0])):
            yield f"{place}: --{option} does not say {between}; default {default}"
    if "@statuses@" not in section(text, "EXIT STATUS"):
        yield f"{place}: EXIT STATUS has no line @statuses@"


def of_program(subcommands):
    """What is wrong with the page of the program."""
    text = page("tracebench.1") or ""
    listed = re.findall(r"^\*tracebench-(\w+)\*\(1\)\n\t(.*)$", section(text, "SUBCOMMANDS"), re.MULTILINE)
    if listed != (want := [(one.name, one.about) for one in subcommands]):
        yield f"{FOLDER}/tracebench.1.scd: SUBCOMMANDS has {listed}, and the grammar {want}"
    for line in "@statuses@", "@limits@":
        if line not in text:
            yield f"{FOLDER}/tracebench.1.scd: no line {line}"


def of_help(subcommands):
    """What is wrong with the help, as the program's tests have it."""
    text = grammar.content(HELP)
    for one in subcommands:
        head = rf"^! {re.escape(one.about)}\n!\n! Usage: tracebench {one.name} (.*?)^! Example:"
        found = re.search(head, text, re.MULTILINE | re.DOTALL)
        if not found:
            yield f"{HELP}: no help of {one.name}"
            continue
        listed = OPTION_OF_HELP.findall(found[1])
        want = [(each.name, each.value or "", each.about, each.default or "") for each in one.options()]
        if listed != want:
            yield f"{HELP}: the help of {one.name} has {listed}, and the grammar {want}"
        files = re.findall(r"^!   <(\w+)>(?:\.\.\.)? +(.*)$", found[1], re.MULTILINE)
        if files != (want := [(each.name, each.about) for each in one.files()]):
            yield f"{HELP}: the help of {one.name} has {files}, and the grammar {want}"
    listed = re.findall(r"^!   (\w+) +\w", text.partition("! Commands:\n")[2].partition("! Options:")[0], re.MULTILINE)
    if listed != (want := [one.name for one in subcommands] + ["help"]):
        yield f"{HELP}: the program's help has {listed}, and the grammar {want}"


def of_structs(subcommands):
    """Whether the struct of each subcommand begins with its command line."""
    text = re.sub(r"\n/// ", " ", grammar.content(STRUCTS))
    said, want = re.findall(r"^ ?(?:///)? ?`([a-z]+(?: [^`]*)?)`: ", re.sub(r" `", "\n`", text), re.MULTILINE), [
        one.synopsis() for one in subcommands]
    for synopsis in sorted(set(said) ^ set(want)):
        yield f"{STRUCTS}: {'no subcommand' if synopsis in said else 'no struct'} `{synopsis}`"


def of_library():
    """Whether the page of the library has each call of the header."""
    declared = set(CALL.findall(re.sub(r"/\*.*?\*/", "", grammar.content(HEADER), flags=re.DOTALL)))
    told = set(re.findall(r"^\*(tracebench_[a-z_]+)\*$", page("tracebench.3") or "", re.MULTILINE))
    for name in sorted(declared ^ told):
        yield f"{FOLDER}/tracebench.3.scd: {'no word of' if name in declared else 'no call'} {name}"


def of_scripts():
    """Whether the pages of the scripts have their options."""
    for script, beside in SCRIPTS.items():
        name = f"tracebench-{script}.1"
        text = "".join(grammar.content(path) for path in (f"tools/{script}", *beside))
        taken = set(re.findall(r'\badd(?:_argument)?\("--([a-z-]+)"', text)) | {"help"}
        told = {option for option, _ in OPTION.findall(section(page(name) or "", "OPTIONS"))}
        if taken != told:
            yield f"{FOLDER}/{name}.scd: OPTIONS has {sorted(told)}, and tools/{script} {sorted(taken)}"


def check():
    subcommands = grammar.subcommands()
    paths = glob.glob(os.path.join(calls.built.TOP, FOLDER, "*.scd"))
    known = OTHERS | {f"tracebench-{one.name}.1" for one in subcommands}
    strange = sorted({os.path.basename(path)[:-4] for path in paths} - known)
    said = [f"{FOLDER}/{name}.scd: no subcommand has this page" for name in strange]
    said += [line for one in subcommands for line in of_page(one)]
    return [*said, *of_program(subcommands), *of_help(subcommands), *of_structs(subcommands), *of_library(),
            *of_scripts()]
