"""Whether the headers of the library for C have the version, the statuses and the texts that the crates have, and the
parameters and fields, in their order, and whether the library exports each call of `ffi` with its contract.

The text of a status is what a definition of the program has for the fault with this status, up to what is filled in. A
status that is of no fault, or of one that only the library has, has its comment in the crate as its text.
"""
import glob
import re
from itertools import zip_longest

import calls
from documents import grammar

HEADER = "include/tracebench.h"
OF_CPP = "include/tracebench.hpp"
PACKAGE = "include/tracebench.sv"
OF_PACKAGE = "include/tracebench_dpi.c"
STATUSES = "crates/ffi/src/status.rt"
FAULTS = "crates/ffi/specs/Statuses.antt"
# Where the library for C has its version, and how.
OF_LIBRARY = {"crates/ffi/src/version.rt": r'VERSION: \[u8; \d+\] = \*b"(.*)";',
              "crates/ffi/specs/VersionText.antt": r'^version_text = codes "(.*)"$'}
# A call of `ffi` and its export: the name, and all between that and the body.
CALL = re.compile(r'^pub (?:extern "C" )?fn (tracebench_\w+)(.*?)^\{$', re.MULTILINE | re.DOTALL)
# The structs and the prototypes of the header, and the structs that cross to C; a field or parameter of either.
OF_C = re.compile(r"^struct tracebench_(\w+) \{\n(.*?)^\};", re.MULTILINE | re.DOTALL)
PROTOTYPE = re.compile(r"^(?:uint32_t|void) (tracebench_\w+)\(([^{]*?)\);", re.MULTILINE | re.DOTALL)
OF_RUST = re.compile(r"^#\[repr\(C\)\](?:\n#[^\n]*)*\npub struct (\w+)(?:<.*?>)? \{\n(.*?)^\}", re.MULTILINE | re.DOTALL)
IN_C = re.compile(r"(const )?(?:struct tracebench_)?(\w+?)(?:_t)? (\*)?(\w+)(?:\[(\d+)\])?")
IN_RUST = re.compile(r"(\w+): (&(?:'\w+ )?(?:mut )?)?(\[)?(\w+)(?:<'\w+>)?(?:; (\w+))?\]?")
NUMBERS = {"u8": "uint8", "u16": "uint16", "u32": "uint32", "u64": "uint64", "size": "uint64"}
MOST_BYTES = "18"  # of a payload
# What the program says before the name of a fault of a payload.
BEFORE = {"pack": "bad packet: "}
# What has faults of an image beside its own, which keep the texts of an image.
PIECES = "piece"


def version():
    """The version of the program, without that of its toolchain."""
    return re.search(r'VERSION: &str = "(.*?)\\n', grammar.content("crates/cli/src/help.rt"))[1]


def of_version():
    told = re.search(r'^#define TRACEBENCH_VERSION "(.*)"$', grammar.content(HEADER), re.MULTILINE)
    if not told or told[1] != version():
        yield f"{HEADER}: TRACEBENCH_VERSION is not {version()}"
    for path, form in OF_LIBRARY.items():
        if re.findall(form, grammar.content(path), re.MULTILINE) != [version()]:
            yield f"{path}: the version is not {version()}"


def of_source():
    """The statuses of the library's source: their comments and numbers, by their names."""
    found = re.findall(r"^/// (.*)\npub const ([A-Z_]+): u32 = (\d+);", grammar.content(STATUSES), re.MULTILINE)
    return {name: (comment.replace("`", ""), int(number)) for comment, name, number in found}


def of_header():
    """The statuses of the header: their numbers and texts, by their names."""
    found = re.findall(r'^    STATUS\(([A-Z_]+), (\d+)u, "(.*)"\)', grammar.content(HEADER), re.MULTILINE)
    return {name: (int(number), text) for name, number, text in found}


def constants():
    """Each constant of the header, with its number."""
    found = re.findall(r"^#define TRACEBENCH_([A-Z_]+) (\d+)u", grammar.content(HEADER), re.MULTILINE)
    return {name: int(number) for name, number in found} | {name: number for name, (number, _) in of_header().items()}


def program_texts():
    """The texts of the program's faults, up to what is filled in, by the head of the definition and the fault."""
    texts = {}
    for path in glob.glob(f"{calls.CRATES}/*/specs/*FaultText.antt"):
        for head, fault, body in re.findall(r"^(\w+?)(?:_fault)?_text \(?(?:\w+\.)?([A-Z]\w*)[^=\n]*= (.*)$",
                                            calls.text_of(path), re.MULTILINE):
            parts = re.findall(r'codes "([^"]*)"', body)
            if parts and "decimal" not in body:
                texts[head, fault] = parts[-1]
            elif parts and ", " in parts[0]:
                texts[head, fault] = parts[0].split(", ")[0]
    return texts


def wanted_texts():
    """The text of each status."""
    texts, wanted = program_texts(), {}
    for head, fault, status in re.findall(r"^(\w+)_status \(?(?:\w+\.)?([A-Z]\w*)[^=\n]*= ([A-Z_]+)$",
                                          grammar.content(FAULTS), re.MULTILINE):
        if head == PIECES and status in wanted:
            continue
        if (head, fault) in texts and status in of_source():
            wanted.setdefault(status, set()).add(BEFORE.get(head, "") + texts[head, fault])
    for name, (comment, _) in of_source().items():
        first = re.split(r"[.:]", comment)[0]
        wanted.setdefault(name, {first[0].lower() + first[1:]})
    return wanted


def of_texts():
    told = {name: text for name, (_, text) in of_header().items()}
    wanted = wanted_texts()
    for name in sorted(told.keys() | wanted.keys()):
        if wanted.get(name) != {told.get(name)}:
            yield f"{HEADER}: the text of {name} is {told.get(name)}, and the crates have {wanted.get(name)}"


def of_statuses():
    source = {name: number for name, (_, number) in of_source().items()}
    header = {name: number for name, (number, _) in of_header().items()}
    for name in sorted(source.keys() | header.keys()):
        if source.get(name) != header.get(name):
            yield f"{HEADER}: {name} is {header.get(name)}, and {STATUSES} has {source.get(name)}"


def of_cpp():
    """Whether the enum of C++ has each status, under its words."""
    body = re.search(r"enum class \[\[nodiscard\]\] status : .*?\{(.*?)\};", grammar.content(OF_CPP), re.DOTALL)
    told = re.findall(r"(\w+) = TRACEBENCH_(\w+),", body[1] if body else "")
    wanted = [("".join(map(str.capitalize, name.split("_"))), name) for name in of_source()]
    if told != wanted:
        yield f"{OF_CPP}: {sorted(set(told) ^ set(wanted))} are not statuses, or are left out"


def of_package():
    """Whether the package for SystemVerilog has the constants of the header, and its imports are functions in C."""
    text = grammar.content(PACKAGE)
    lists = "".join(re.findall(r"localparam int unsigned (.*?);", text, re.DOTALL))
    told = {name: int(number) for name, number in re.findall(r"([A-Z_]+) = (\d+)", lists)}
    wanted = constants()
    for name in sorted(told.keys() | wanted.keys()):
        if told.get(name) != wanted.get(name):
            yield f"{PACKAGE}: {name} is {told.get(name)}, and {HEADER} has {wanted.get(name)}"
    imports = set(re.findall(r'^  import "DPI-C" (\w+) = ', text, re.MULTILINE))
    functions = set(re.findall(r"^[a-z].*?\b(tracebench_dpi_\w+)\(", grammar.content(OF_PACKAGE), re.MULTILINE))
    for name in sorted(imports ^ functions):
        yield f"{PACKAGE}: {name} is {'no function of' if name in imports else 'imported from no'} {OF_PACKAGE}"


def contracts(crate):
    """The parameters, the result and the clauses of each call of a crate, by its name, however they are laid out."""
    texts = (grammar.content(f"crates/{crate}/src/{name}") for name in calls.sources(crate))
    found = {name: " ".join(rest.split()) for text in texts for name, rest in CALL.findall(text)}
    return {name: rest.replace("( ", "(").replace(", )", ")") for name, rest in found.items()}


def of_exports():
    """Whether the static library exports each call of `ffi` with the same contract, and nothing else."""
    told, wanted = contracts("tracebench_c"), contracts("ffi")
    for name in sorted(told.keys() | wanted.keys()):
        if told.get(name) != wanted.get(name):
            yield f"crates/tracebench_c: {name} is not as in crates/ffi"


def in_c(text):
    """The parameters or fields of a text of C: how each is lent and how many there are, its name, and its type."""
    before = None
    for fixed, of, pointer, name, count in IN_C.findall(re.sub(r"/\*.*?\*/", "", text, flags=re.DOTALL)):
        is_length = before and name in ("length", f"{before}_length")
        yield fixed + pointer + count, "length" if is_length else name, NUMBERS.get(of, of)
        before = pointer and name


def in_rust(text):
    """The same of a text of Rust. A slice is a pointer and a length, and an allocator is nothing."""
    for name, lent, many, of, count in IN_RUST.findall(re.sub(r"///.*", "", text)):
        if of != "Global":
            how = ("*" if "mut" in lent else "const *") if lent else count.replace("MOST_BYTES", MOST_BYTES)
            yield how, name, NUMBERS.get(of, of)
        if lent and many:
            yield "", "length", "uint64"


def differing(both, pairs):
    """The calls or structs whose parameters or fields differ. Two structs at the same place are taken as one, which is
    noted in `pairs`; as a parameter they may have two names."""
    for name, (wanted, told) in sorted(both.items()):
        for mine, theirs in zip_longest(wanted, told, fillvalue=("no", "more", "")):
            of_structs = not {mine[2], theirs[2]} & {*NUMBERS.values()}
            if of_structs:
                pairs.add((mine[2], theirs[2]))
            parts = slice(0, (2 if name.startswith("struct") else 1) if of_structs else 3)
            if mine[parts] != theirs[parts]:
                yield f"{HEADER}: {name}: {' '.join(theirs).strip()}, and crates/ffi has {' '.join(mine).strip()}"


def of_layout():
    """Whether calls and structs of the header have the parameters and the fields of `ffi`, in their order."""
    texts = "".join(grammar.content(f"crates/ffi/src/{name}") for name in calls.sources("ffi"))
    header, pairs, done = grammar.content(HEADER), set(), set()
    of_calls = {name: (list(in_rust(rest[:rest.index(")")])), []) for name, rest in CALL.findall(texts)}
    for name, text in PROTOTYPE.findall(header):
        of_calls.setdefault(name, ([], []))[1].extend(in_c(text))
    yield from differing(of_calls, pairs)
    mine = {name: list(in_rust(body)) for name, body in OF_RUST.findall(texts)}
    theirs = {name: list(in_c(body)) for name, body in OF_C.findall(header)}
    while left := pairs - done:  # a struct in a struct is met by way of the other
        done |= left
        yield from differing({f"struct tracebench_{pair[1]}": (mine.get(pair[0], []), theirs.get(pair[1], []))
                              for pair in left}, pairs)
    for name in sorted({*mine, *theirs}):
        if sum(name in pair for pair in pairs) != 1:
            yield f"{HEADER}: {name} is not one struct here and one in crates/ffi"


def check():
    return [*of_layout(), *of_exports(), *of_version(), *of_statuses(), *of_texts(), *of_cpp(), *of_package()]
