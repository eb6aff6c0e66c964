"""Whether documents stay short enough to be read: their lines, the characters of a line, and of a row of a table.

A document of the list has at most so many lines, where a number stands. Blocks of code are left out.
"""
import os

import calls

MOST_LINES = {"CHANGELOG.md": None, "docs/CONTRACTS.md": 700, "docs/DECISIONS.md": 200, "docs/PERFORMANCE.md": 120,
              "docs/TESTING.md": 150, "include/tracebench.h": 800, "tools/words.md": None}
LINE, ROW = 300, 200


def wrong(document, text, most):
    """What is too long in a document."""
    lines, code = text.rstrip("\n").split("\n"), False
    if most and len(lines) > most:
        yield f"{document}: {len(lines)} lines, more than {most}"
    for number, line in enumerate(lines, 1):
        code ^= line.startswith("```")
        longest = ROW if line.startswith("|") else LINE
        if not code and len(line) > longest:
            yield f"{document}:{number}: {len(line)} characters, more than {longest}"


def check():
    return [line for document, most in MOST_LINES.items()
            for line in wrong(document, calls.text_of(os.path.join(calls.built.TOP, document)), most)]
