"""A copy of the repository, in which the tests of a crate are built unproved.

`rt try` builds the tests, from a copy of the kit's commands: the linker there keeps the program that it links.
So a program can be run many times, each time with another body chosen. Each file with bodies declares a C function that
says whether its body is chosen; its code is in the folder `c` of the crate with the tests.
"""
import os
import re
import shutil
import subprocess
from concurrent.futures import wait

from checkout import copied
from crate_list import TOP, content
from planting.bodies import Unjudged
from planting.crates import PROGRAM, played
from planting.switches import number_at, switched

ASKED = "planted_body"

CODE = """#include <fcntl.h>
#include <stdbool.h>
#include <stdlib.h>
#include <unistd.h>

static unsigned chosen;
static int seen = -1;
static bool asked[4096];

static unsigned number_in(const char *text) {
    unsigned number = 0;
    for (; text != NULL && *text >= '0' && *text <= '9'; text++) number = 10 * number + (unsigned)(*text - '0');
    return number;
}

__attribute__((constructor)) static void begin(void) {
    const char *file = getenv("PLANTED_SEEN");
    chosen = number_in(getenv("PLANTED"));
    if (file != NULL) seen = open(file, O_WRONLY | O_CREAT | O_APPEND, 0600);
}

/* Whether the body of this number is chosen; each that is asked for is written once to the file PLANTED_SEEN. */
bool planted_body(unsigned number) {
    if (seen >= 0 && number < 4096 && !asked[number]) {
        asked[number] = true;
        if (write(seen, &number, sizeof number) != (ssize_t)sizeof number) abort();
    }
    return number == chosen;
}
"""

# The program is compiled with the checks of `rt try`, but optimised, and without a sanitizer, which slows it ten times.
# The same file also reads the names of an object file, under another name that a script does not see.
COMPILER = """#!/bin/bash
if [ "$1" = -a ]; then exec -a llvm-nm '{compiler}' "$@"; fi
for word do
    shift
    case $word in
    -O0) set -- "$@" -O1 ;;
    -fsanitize=address) ;;
    *) set -- "$@" "$word" ;;
    esac
done
exec '{compiler}' "$@"
"""

LINKER = """#!/bin/sh
set -eu
'{linker}' "$@"
while [ "$1" != -o ]; do shift; done
/bin/cp "$2" '{kept}.part'
/bin/mv '{kept}.part' '{kept}'
exit 1
"""


def kit():
    """The folder of the toolchain."""
    command = shutil.which("rt")
    if command is None:
        raise SystemExit("rt is not there")
    return os.path.dirname(os.path.dirname(os.path.realpath(command)))


def script(path, text):
    with open(path, "w", encoding="utf-8") as file:
        file.write(text)
    os.chmod(path, 0o755)


def linked(folder, to, but):
    """Links to what a folder has, but for some names."""
    os.makedirs(to)
    for name in os.listdir(folder):
        if name not in but:
            os.symlink(f"{folder}/{name}", f"{to}/{name}")


def kit_that_keeps(folder, kept):
    """A kit whose `rt try` leaves the program that it builds in a file, and then ends."""
    linked(kit(), folder, ("bin", "toolchain"))
    linked(f"{kit()}/bin", f"{folder}/bin", ("rt", "rtlib.py", "rattle"))
    for name in ("rt", "rtlib.py"):
        shutil.copy(f"{kit()}/bin/{name}", f"{folder}/bin")
    script(f"{folder}/bin/rattle", "#!/bin/sh\nexit 0\n")
    linked(f"{kit()}/toolchain", f"{folder}/toolchain", ("bin",))
    linked(f"{kit()}/toolchain/bin", f"{folder}/toolchain/bin", ("clang", "ld.lld"))
    script(f"{folder}/toolchain/bin/clang", COMPILER.format(compiler=f"{kit()}/toolchain/bin/clang"))
    script(f"{folder}/toolchain/bin/ld.lld", LINKER.format(linker=f"{kit()}/toolchain/bin/ld.lld", kept=kept))


class Copy:
    """A copy of the repository with wrong bodies behind switches."""

    def __init__(self, folder, numbered):
        self.folder, self.alone = f"{folder}/copy", {}
        self.numbered, self.begun = dict(numbered), {}
        copied(self.folder)
        for path in {body.path() for body in self.numbered.values()}:
            self.plant(path)

    def plant(self, path):
        """Puts the bodies of a file in place."""
        wanted = [(number, body) for number, body in self.numbered.items() if body.path() == path]
        text, alone = switched(content(f"{TOP}/{path}"), wanted, ASKED)
        self.set_apart(alone)
        with open(f"{self.folder}/{path}", "w", encoding="utf-8") as file:
            file.write(text)

    def set_apart(self, alone):
        """Bodies that are planted alone, with the reasons."""
        self.alone.update(alone)
        self.numbered = {number: body for number, body in self.numbered.items() if body not in alone}

    def refused_in(self, said):
        """The bodies at whose lines the compiler has errors."""
        found = {}
        for path in {body.path() for body in self.numbered.values()}:
            end = path.partition("/src/")[2]
            for line, why in re.findall(rf"(?:^|[\s/]){re.escape(end)}:(\d+):\d+:?(.*)", said):
                number = number_at(content(f"{self.folder}/{path}"), int(line), ASKED)
                if number in self.numbered and self.numbered[number].path() == path:
                    found[self.numbered[number]] = f"does not compile behind a switch:{why}"
        return found

    def begin(self, pool, all_tests):
        """Begins to build the tests of crates, side by side."""
        self.begun = {tests: pool.submit(built, self.folder, tests) for tests in all_tests}

    def built(self, tests):
        """The program of a crate's tests. What does not compile behind a switch is set apart."""
        begun = self.begun.get(tests)
        program, said = begun.result() if begun else built(self.folder, tests)
        while not program:
            refused = self.refused_in(said)
            if not refused:
                raise Unjudged(f"the tests of {tests} are not built: {said[-3000:]}")
            wait(self.begun.values())
            self.begun = {}
            self.set_apart(refused)
            for path in {body.path() for body in refused}:
                self.plant(path)
            program, said = built(self.folder, tests)
        return program


def built(copy, tests):
    """The program of a crate's tests, or None, and what was said."""
    own = f"{copy}/crates/{tests}"
    os.makedirs(f"{own}/c", exist_ok=True)
    with open(f"{own}/c/{ASKED}.c", "w", encoding="utf-8") as file:
        file.write(CODE)
    functions = [] if tests == PROGRAM or played(tests) else ["--test"]
    return kept_program(own, f"{copy}-{tests}", *functions, "--seconds", "1", RT_ALLOW_C=tests)


def kept_program(crate, made, *words, **env):
    """The program that `rt try` with these words builds of a crate, in a folder that is made, or None; and what was said."""
    kept = f"{made}/program"
    shutil.rmtree(made, ignore_errors=True)
    os.makedirs(f"{made}/tmp")
    kit_that_keeps(f"{made}/kit", kept)
    done = subprocess.run([f"{made}/kit/bin/rt", "try", *words], cwd=crate, env={**os.environ, "TMPDIR": f"{made}/tmp", **env},
                          capture_output=True, text=True, errors="replace")
    return (kept if os.path.exists(kept) else None), done.stdout + done.stderr
