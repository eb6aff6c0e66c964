"""Whether the code that documents show is a file of the crate `first_use`, which the gate proves and runs.

The documentation of the crate `etrace` has the whole file. Other documents have its `use` lines of `etrace`, and what
its function does up to the first empty line.
"""
import os
import re

import calls

FILE = "crates/first_use/src/there_and_back.rt"
ROOT = "crates/etrace/src/lib.rt"
DOCUMENTS = ("README.md", "docs/guide/library.md", "docs/ARCHITECTURE.md")
BLOCK = re.compile(r"^((?://! )?)```rust\n(.*?)^(?://! )?```$", re.MULTILINE | re.DOTALL)


def content(path):
    path = os.path.join(calls.built.TOP, path)
    return calls.text_of(path) if os.path.isfile(path) else ""


def code():
    """The lines of the file without the comment that it begins with."""
    return re.sub(r"\A(?://!.*\n)+\n", "", content(FILE)).rstrip("\n").split("\n")


def excerpt():
    """The lines that other documents have."""
    lines = code()
    body = lines[lines.index("{") + 1:]
    uses = [line for line in lines if line.startswith("use etrace")]
    return [*uses, "", *(line[4:] for line in body[:body.index("")])]


def shown(document, lines):
    """A document as it is to be: each block of code that uses `etrace` has these lines."""
    def block(found):
        if "etrace::" not in found[2]:
            return found[0]
        return "\n".join((found[1] + line).rstrip() for line in ["```rust", *lines, "```"])
    return BLOCK.sub(block, content(document))


def wanted():
    """Each document, and how it is to be."""
    return [(ROOT, shown(ROOT, code()))] + [(name, shown(name, excerpt())) for name in DOCUMENTS]


def check():
    said = [f"{name}: its code is not that of {FILE}" for name, text in wanted() if text != content(name)]
    return said + [f"{ROOT}: it shows no code"] * (not BLOCK.search(content(ROOT)))


def write():
    for name, text in wanted():
        if text != content(name):
            with open(os.path.join(calls.built.TOP, name), "w", encoding="utf-8") as file:
                file.write(text)
    return []
