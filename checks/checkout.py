"""Copies of this checkout, in which crates are added or changed, checked and built."""
import os
import shutil

from crate_list import TOP

# What of the folder `out` a copy has: nothing, the libraries that are built, or all.
NOTHING, LIBRARIES, ALL = "nothing", "libraries", "all"


def copied(folder, made=NOTHING):
    """Copies the crates, without the edits of the gate, to a folder that may be new."""

    def left_out(at, names):
        if os.path.basename(at) == "out" and made == LIBRARIES:
            return [name for name in names if name != "rlib"]
        return [name for name in names if name == "must-fail" or name == "out" and made == NOTHING]

    shutil.copytree(f"{TOP}/crates", f"{folder}/crates", ignore=left_out)
    for name in ("HANDLES", "crates.txt"):
        shutil.copy(f"{TOP}/{name}", folder)


def with_crate(folder, name, libraries, sources, made=NOTHING):
    """Copies the same, and adds a crate over these libraries: the files `*.in` of a folder are its sources, named without
    that ending. Returns its folder."""
    copied(folder, made)
    with open(f"{folder}/crates.txt", "a", encoding="utf-8") as file:
        file.write(f"{name}: {libraries}\n")
    left_out = lambda at, names: [name for name in names if not name.endswith(".in") and os.path.isfile(f"{at}/{name}")]
    shutil.copytree(sources, f"{folder}/crates/{name}/src", ignore=left_out,
                    copy_function=lambda path, to: shutil.copy(path, to.removesuffix(".in")))
    return f"{folder}/crates/{name}"
