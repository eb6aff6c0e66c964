"""Whether the completions for bash, zsh and fish are those that the grammar makes; with --write they are made anew."""
import os
import re

import calls
from documents import grammar

FOLDER = "packaging/completions"
MADE = "made by `checks/check-docs --write completions` from the grammar in `crates/cli`"
HELP = "Print help"
HELP_OF = "Print this message or the help of the given subcommand(s)"


def quoted(text):
    """A text in single quotes, for a shell."""
    return "'" + text.replace("'", "'\\''") + "'"


def for_bash(subcommands):
    names = " ".join(each.name for each in subcommands)
    values = sorted({each.spelled().split()[0] for one in subcommands for each in one.options()
                     if each.value and not each.is_file()})
    options = "".join(
        f"    {one.name}) options=\"{' '.join([f'--{each.name}' for each in one.options()] + ['--help'])}\""
        + "".join(f" words=\"{' '.join(each.words())}\"" for each in one.files() if each.words()) + " ;;\n"
        for one in subcommands)
    return f"""# shellcheck shell=bash
# Completion of tracebench for bash, {MADE}.

_tracebench_files() {{
    compopt -o filenames 2>/dev/null
    mapfile -t COMPREPLY < <(compgen -f -- "$1")
}}

_tracebench() {{
    local current=${{COMP_WORDS[COMP_CWORD]}} previous=${{COMP_WORDS[COMP_CWORD - 1]}}
    local subcommands="{names}" options="" words=""
    if ((COMP_CWORD == 1)); then
        mapfile -t COMPREPLY < <(compgen -W "$subcommands help --help --version" -- "$current")
        return
    fi
    case ${{COMP_WORDS[1]}} in
{options}    help)
        mapfile -t COMPREPLY < <(compgen -W "$subcommands" -- "$current")
        return
        ;;
    *) return ;;
    esac
    # bash takes the sign of `--period=5` as a word of its own.
    if [[ $current == = ]]; then
        current=
    elif [[ $previous == = ]]; then
        previous=${{COMP_WORDS[COMP_CWORD - 2]}}
    fi
    case $previous in
    {' | '.join(values)}) return ;;
    esac
    case $current in
    -*) mapfile -t COMPREPLY < <(compgen -W "$options" -- "$current") ;;
    *)
        if [[ $words ]]; then
            mapfile -t COMPREPLY < <(compgen -W "$words" -- "$current")
        else
            _tracebench_files "$current"
        fi
        ;;
    esac
}}

complete -F _tracebench tracebench
"""


def zsh_argument(argument, place):
    """The form of `_arguments` for an argument, the file at this place."""
    if not argument.is_option:
        action = f"({' '.join(argument.words())})" if argument.words() else "_files"
        return quoted(f"{'*' if argument.is_many else place}:{argument.name}:{action}")
    about = re.sub(r"([\[\]:\\])", r"\\\1", argument.about)
    action = ":_files" if argument.is_file() else ": "
    if not argument.value:
        return quoted(f"--{argument.name}[{about}]")
    many = "*" * argument.is_many
    return quoted(f"{many}--{argument.name}=[{about}]:{argument.value}{action}")


def for_zsh(subcommands):
    described = "".join(f"            {quoted(one.name + ':' + one.about)}\n" for one in subcommands)
    described += f"            {quoted('help:' + HELP_OF)}\n"
    cases = ""
    for one in subcommands:
        forms = [zsh_argument(each, 0) for each in one.options()]
        forms += [zsh_argument(each, place) for place, each in enumerate(one.files(), 1)]
        forms = [f"'(- *)'{{-h,--help}}'[{HELP}]'", *forms]
        cases += f"        {one.name})\n            _arguments \\\n                "
        cases += " \\\n                ".join(forms) + "\n            ;;\n"
    return f"""#compdef tracebench
# Completion of tracebench for zsh, {MADE}.

_tracebench() {{
    local context curcontext=$curcontext state state_descr line
    local -a subcommands
    typeset -A opt_args
    _arguments -C \\
        '(- *)'{{-h,--help}}'[{HELP}]' \\
        '(- *)'{{-V,--version}}'[Print version]' \\
        '1: :->subcommand' \\
        '*:: :->arguments'
    subcommands=(
{described}    )
    case $state in
    subcommand) _describe subcommand subcommands ;;
    arguments)
        case $words[1] in
{cases}        help)
            subcommands=(${{subcommands:#help:*}})
            _describe subcommand subcommands
            ;;
        esac
        ;;
    esac
}}

_tracebench "$@"
"""


def for_fish(subcommands):
    start = "complete -c tracebench"
    first = f"{start} -n '__tracebench_given'"
    names = " ".join(one.name for one in subcommands)
    lines = [f"# Completion of tracebench for fish, {MADE}.", "",
             "# Whether the subcommand is this one; without an argument, whether none is given yet.",
             "function __tracebench_given", "    set -l words (commandline -opc)",
             '    test "$words[2]" = "$argv"', "end", "",
             f"{start} -f",
             f"{start} -s h -l help -d {quoted(HELP)}",
             f"{first} -s V -l version -d 'Print version'"]
    lines += [f"{first} -a {one.name} -d {quoted(one.about)}" for one in subcommands]
    lines += [f"{first} -a help -d {quoted(HELP_OF)}", f"{start} -n '__tracebench_given help' -a '{names}'"]
    for one in subcommands:
        given = f"{start} -n '__tracebench_given {one.name}'"
        words = [word for each in one.files() for word in each.words()]
        lines += ["", f"{given} -f -a '{' '.join(words)}'" if words else f"{given} -F"]
        for each in one.options():
            value = "" if not each.value else " -r -F" if each.is_file() else " -x"
            lines.append(f"{given} -l {each.name}{value} -d {quoted(each.about)}")
    return "\n".join(lines) + "\n"


FILES = {"tracebench.bash": for_bash, "_tracebench": for_zsh, "tracebench.fish": for_fish}


def wanted():
    """Each file, and how it is to be."""
    subcommands = grammar.subcommands()
    return [(f"{FOLDER}/{name}", made(subcommands)) for name, made in FILES.items()]


def present(path):
    path = os.path.join(calls.built.TOP, path)
    return calls.text_of(path) if os.path.isfile(path) else ""


def check():
    again = "`checks/check-docs --write completions` makes it anew"
    return [f"{path}: it is not what the grammar makes; {again}" for path, text in wanted() if text != present(path)]


def write():
    for path, text in wanted():
        with open(os.path.join(calls.built.TOP, path), "w", encoding="utf-8") as file:
            file.write(text)
    return []
