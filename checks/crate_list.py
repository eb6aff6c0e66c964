"""The crates of crates.txt, what each uses, and its files."""
import os

from built import TOP, content
from kept import sum_of


def crates():
    """The crates with what each uses, in the order of crates.txt."""
    lines = (line.partition(":") for line in content(f"{TOP}/crates.txt").splitlines() if line[:1] != "#")
    return {head.split()[0]: used.split() for head, _, used in lines if head.strip()}


def reached(uses, crate):
    """Every crate of the repository that a crate uses, directly or not."""
    found = set()
    for used in uses[crate]:
        if used in uses:
            found |= {used} | reached(uses, used)
    return found


def whole(uses, crate):
    """A crate and every crate of the repository that it uses, directly or not."""
    return {crate} | reached(uses, crate)


def files(crate, *parts):
    """The files of some parts of a crate, as `src`."""
    folders = (os.walk(f"{TOP}/crates/{crate}/{part}") for part in parts)
    return sorted(f"{at}/{name}" for folder in folders for at, _, names in folder for name in names)


def sum_of_code(crates, *parts):
    """A sum of the names and texts of some parts of crates."""
    found = [(file[len(TOP):], content(file)) for crate in sorted(crates) for file in files(crate, *parts)]
    return sum_of(found)
