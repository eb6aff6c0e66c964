"""What is built, for the scripts that run it, and files for its runs."""
import argparse
import os
import re
import subprocess
from importlib import machinery, util

TOP = os.path.dirname(os.path.dirname(os.path.abspath(__file__)))
BUILT = os.path.join(TOP, "crates/tracebench/out/tracebench")
LIBRARY = os.path.join(TOP, "crates/tracebench_c/out/libtracebench_c.a")


def content(path):
    """The text of a file."""
    with open(path, encoding="utf-8") as file:
        return file.read()


def put(folder, files):
    """Writes files, of bytes each, to a folder."""
    for name, data in files.items():
        with open(os.path.join(folder, name), "wb") as file:
            file.write(data)


def there(path, parser, how):
    """The whole path of a file; where it is not there, the usage and how it is built, status 2."""
    if not os.path.isfile(path):
        parser.error(f"{os.path.abspath(path)} is not there; {how} builds it")
    return os.path.abspath(path)


def program_at(path, parser):
    """The whole path of a program, the built one where none is given."""
    return there(path or BUILT, parser, "`rt run` in crates/tracebench")


def library_at(path, parser):
    """The same of the static library for C."""
    return there(path or LIBRARY, parser, "`rt lib` in crates/tracebench_c")


def asked_program(name, about):
    """The program that a script of this name takes as its one argument."""
    parser = argparse.ArgumentParser(prog=f"checks/{name}", description=about.split("\n")[0])
    parser.add_argument("program", metavar="PROGRAM", nargs="?", help="tracebench; else that built here")
    return program_at(parser.parse_args().program, parser)


def generated(program, mix, rows):
    """The image of a stimulus of this mix, at base 80000000, and the text of a log of so many rows."""
    made = [["image"], ["log", "--events", str(rows)]]
    return [subprocess.run([program, "generate", *words, "--mix", mix], stdout=subprocess.PIPE, check=True).stdout for words in made]


def preloaded(folder, code):
    """A library of this C code, which a program loads by LD_PRELOAD before the others."""
    path = os.path.join(folder, "preloaded.so")
    subprocess.run(["cc", "-shared", "-fPIC", "-O1", "-o", path, "-x", "c", "-"], input=code.encode(), check=True)
    return path


def script(path):
    """A script as a module."""
    loader = machinery.SourceFileLoader(re.sub(r"\W", "_", os.path.basename(path)), path)
    loaded = util.module_from_spec(util.spec_from_loader(loader.name, loader))
    loader.exec_module(loaded)
    return loaded
