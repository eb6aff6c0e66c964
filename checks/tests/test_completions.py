"""The completions for bash, zsh and fish, each by its shell: subcommands, options and files are offered, and no others.

Those of packaging/completions are loaded, or, where INSTALLED is set in the environment, those that the shell finds by
itself. What has to be offered is read from the grammar. A shell that is not there is passed over.
"""
import os
import pty
import shutil
import subprocess
import tempfile
import threading
import unittest

from common import TOP

from documents import completions, grammar

FOLDER = os.path.join(TOP, completions.FOLDER)
INSTALLED = os.environ.get("INSTALLED")
SECONDS = 60
FILES = ["image.bin", "image.csv"]
SUBCOMMANDS = grammar.subcommands()
NAMES = [one.name for one in SUBCOMMANDS] + ["help"]

BASH = """
if [ -n "$INSTALLED" ]; then
    . /usr/share/bash-completion/bash_completion
    loader=$(complete -p -D | sed 's/.* -F \\([^ ]*\\).*/\\1/')
    "$loader" tracebench
else
    . "$1"
fi
function=$(complete -p tracebench | sed 's/.* -F \\([^ ]*\\).*/\\1/')
while IFS= read -r line; do
    IFS=' ' read -ra COMP_WORDS <<<"${line//=/ = }"
    [[ $line != *' ' ]] || COMP_WORDS+=('')
    COMP_CWORD=$((${#COMP_WORDS[@]} - 1)) COMPREPLY=()
    "$function" tracebench "${COMP_WORDS[COMP_CWORD]}" "${COMP_WORDS[COMP_CWORD - 1]}"
    printf 'line\\n'
    [[ ${#COMPREPLY[@]} = 0 ]] || printf '%s\\n' "${COMPREPLY[@]}"
done <../lines >../offered
"""

# What zsh would show is what its completion hands to `compadd`. The line editor wants a terminal, which `pty` makes.
ZSH = """
autoload -Uz compinit
compinit -u -D
[[ -n $INSTALLED ]] || { autoload -Uz _tracebench; compdef _tracebench tracebench }
compadd() {
    local -a hits
    [[ -n ${@[(r)-[OAD]*]} ]] || { builtin compadd -A hits "$@"; print -rl -- $hits >>../offered }
    builtin compadd "$@"
}
each-line() {
    local line
    for line in "${(@f)$(<../lines)}"; do
        print line >>../offered
        BUFFER=$line CURSOR=$#line
        zle list-choices
    done
    exit
}
zle -N zle-line-init each-line
"""

FISH = """
test -n "$INSTALLED"; or source $argv[1]
while read --line line
    echo line
    complete -C "$line"
end <../lines >../offered
"""


def by_bash(home, settings):
    path = os.path.join(FOLDER, "tracebench.bash")
    subprocess.run(["bash", "--norc", "-c", BASH, "bash", path], **settings, timeout=SECONDS, check=True)


def by_fish(home, settings):
    script = os.path.join(home, "script")
    with open(script, "w", encoding="utf-8") as file:
        file.write(FISH)
    subprocess.run(["fish", script, os.path.join(FOLDER, "tracebench.fish")], **settings, timeout=SECONDS, check=True)


def by_zsh(home, settings):
    with open(os.path.join(home, ".zshrc"), "w", encoding="utf-8") as file:
        file.write(("" if INSTALLED else f"fpath=({FOLDER} $fpath)\n") + ZSH)
    master, slave = pty.openpty()
    streams = {"stdin": slave, "stdout": slave, "stderr": slave}
    shell = subprocess.Popen(["zsh", "-d", "-i"], **settings, **streams, start_new_session=True)
    os.close(slave)
    late = threading.Timer(SECONDS, shell.kill)
    late.start()
    try:
        while os.read(master, 1 << 16):
            pass
    except OSError:  # the end, where the shell has closed the terminal
        pass
    os.close(master)
    shell.wait()
    late.cancel()


def offered(shell, lines):
    """What a shell offers behind each line."""
    with tempfile.TemporaryDirectory() as home:
        folder = os.path.join(home, "work")
        os.makedirs(folder)
        for name in FILES:
            open(os.path.join(folder, name), "w", encoding="utf-8").close()
        with open(os.path.join(home, "lines"), "w", encoding="utf-8") as file:
            file.write("".join(line + "\n" for line in lines))
        shell(home, {"cwd": folder, "env": {**os.environ, "HOME": home, "ZDOTDIR": home}})
        with open(os.path.join(home, "offered"), encoding="utf-8") as file:
            told = file.read().splitlines()
    found = []
    for one in told:
        if one == "line":
            found.append([])
        elif one:
            found[-1].append(one.split("\t")[0].strip().rpartition("=")[2])
    return {line: sorted(words) for line, words in zip(lines, found, strict=True)}


def long_options(one):
    return [f"--{each.name}" for each in one.options()] + ["--help"]


def lines_of(one):
    """Command lines of a subcommand, and what each shell has to offer behind them."""
    start = f"tracebench {one.name} "
    first = [word for each in one.files() for word in each.words()] or FILES
    some = [word for word in first if word.startswith("im")]
    lines = {f"tracebench {one.name[:-1]}": [name for name in NAMES if name.startswith(one.name[:-1])],
             f"tracebench help {one.name}": [one.name],
             start: first, f"{start}im": some, f"{start}--": long_options(one)}
    for each in one.options():
        part = f"--{each.name[:-1]}"
        lines[start + part] = [name for name in long_options(one) if name.startswith(part)]
        lines[f"{start}--{each.name} im"] = FILES if each.is_file() else some if not each.value else []
        if each.value:
            lines |= {f"{start}--{each.name}={typed}": FILES if each.is_file() else [] for typed in ("", "im")}
    if one.files()[-1].is_many:
        lines[f"{start}image.bin check im"] = FILES
        lines[f"{start}image.bin check --"] = long_options(one)
    return lines


class Completions(unittest.TestCase):
    """Each shell offers the same, but for short options, which bash leaves out."""

    def holds(self, shell, first, options):
        wanted = {"tracebench ": NAMES + first, "tracebench -": options, "tracebench --": ["--help", "--version"],
                  "tracebench help ": NAMES[:-1], "tracebench none im": []}
        for one in SUBCOMMANDS:
            wanted |= lines_of(one)
        found = offered(shell, list(wanted))
        for line, words in wanted.items():
            with self.subTest(line=line):
                self.assertEqual(found[line], sorted(words))

    @unittest.skipUnless(shutil.which("bash"), "no bash")
    def test_bash(self):
        self.holds(by_bash, ["--help", "--version"], ["--help", "--version"])

    @unittest.skipUnless(shutil.which("zsh"), "no zsh")
    def test_zsh(self):
        self.holds(by_zsh, [], ["--help", "--version", "-V", "-h"])

    @unittest.skipUnless(shutil.which("fish"), "no fish")
    def test_fish(self):
        self.holds(by_fish, [], ["--help", "--version", "-V", "-h"])


if __name__ == "__main__":
    unittest.main()
