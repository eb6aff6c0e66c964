# shellcheck shell=bash
# Completion of tracebench for bash, made by `checks/check-docs --write completions` from the grammar in `crates/cli`.

_tracebench_files() {
    compopt -o filenames 2>/dev/null
    mapfile -t COMPREPLY < <(compgen -f -- "$1")
}

_tracebench() {
    local current=${COMP_WORDS[COMP_CWORD]} previous=${COMP_WORDS[COMP_CWORD - 1]}
    local subcommands="check encode dump decode replay bench audit measure list salvage capture compare generate" options="" words=""
    if ((COMP_CWORD == 1)); then
        mapfile -t COMPREPLY < <(compgen -W "$subcommands help --help --version" -- "$current")
        return
    fi
    case ${COMP_WORDS[1]} in
    check) options="--base --also --explain --symbols --long --progress --help" ;;
    encode) options="--base --also --period --full --v1 --hex --mixed --first --of --long --progress --help" ;;
    dump) options="--search --only --symbols --progress --help" ;;
    decode) options="--base --also --harts --only --lossy --progress --help" ;;
    replay) options="--base --also --period --full --capacity --progress --help" ;;
    bench) options="--base --also --period --full --capacity --progress --help" ;;
    audit) options="--packets --unnumbered --live --window --only --summary --format --progress --help" ;;
    measure) options="--base --also --period --full --long --progress --help" ;;
    list) options="--base --also --harts --only --symbols --rows --salvage --format --progress --help" ;;
    salvage) options="--base --also --harts --only --symbols --summary --format --progress --help" ;;
    capture) options="--v1 --full --period --harts --number-bits --skip --help" ;;
    compare) options="--base --also --harts --only --explain --symbols --long --progress --help" ;;
    generate) options="--seed --mix --base --hart --events --harts --messages --period --full --v1 --burst --help" words="image log capture" ;;
    help)
        mapfile -t COMPREPLY < <(compgen -W "$subcommands" -- "$current")
        return
        ;;
    *) return ;;
    esac
    # bash takes the sign of `--period=5` as a word of its own.
    if [[ $current == = ]]; then
        current=
    elif [[ $previous == = ]]; then
        previous=${COMP_WORDS[COMP_CWORD - 2]}
    fi
    case $previous in
    --also | --base | --burst | --capacity | --events | --first | --format | --hart | --harts | --messages | --mix | --mixed | --number-bits | --of | --only | --period | --seed | --window) return ;;
    esac
    case $current in
    -*) mapfile -t COMPREPLY < <(compgen -W "$options" -- "$current") ;;
    *)
        if [[ $words ]]; then
            mapfile -t COMPREPLY < <(compgen -W "$words" -- "$current")
        else
            _tracebench_files "$current"
        fi
        ;;
    esac
}

complete -F _tracebench tracebench
