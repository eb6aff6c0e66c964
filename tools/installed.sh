# shellcheck shell=sh disable=SC2154
# What tools/release-check and tools/as-installed ask of an installed tracebench. They set `top`, the repository, and
# `work`, a folder of their own, and have a function `fail`.

# The program of this name or path has its help, and prints what the guide says of a log and its capture.
use_program() {
    first=examples/first
    cp -r "$top/examples" "$work"
    (
        cd "$work" &&
            [ "$("$1" check --base 80000000 $first/image.bin $first/log.csv)" = "$first/log.csv: legal, 2 events" ] &&
            "$1" encode --base 80000000 $first/image.bin $first/log.csv >log.capture &&
            cmp log.capture $first/log.capture &&
            "$1" dump log.capture >dump.txt && cmp dump.txt $first/dump.txt &&
            "$1" decode --base 80000000 $first/image.bin log.capture >decode.txt && cmp decode.txt $first/decode.txt
    ) || fail "$1 does not print what the guide says"
    rm -r "$work/examples"
    status=0
    "$1" --help 2>"$work/help" || status=$?
    [ "$status" = 2 ] || fail "the status of $1 --help is $status"
    grep -q '^Usage: tracebench' "$work/help" || fail "$1 prints no help"
}

# The program of these words over two logs prints what each language has to print; the first word is its name.
compare() {
    name=$1
    shift
    two=$top/examples/two_harts
    "$@" "$two/image.bin" "$two/hart00.csv" "$two/hart01.csv" >"$work/printed" || fail "$name does not run"
    cmp "$work/printed" "$top/examples/c/expected.txt" || fail "$name prints otherwise"
    echo "$name: the same as examples/c/expected.txt"
}

# CMake builds the example over a target of the package; its arguments come after the target.
build_by_cmake() {
    target=$1
    shift
    mkdir "$work/$target"
    printf '%s\n' 'cmake_minimum_required(VERSION 3.13)' 'project(tried C)' 'find_package(tracebench 1 REQUIRED)' \
        "add_executable(tried $top/examples/c/round_trip.c)" \
        "target_link_libraries(tried tracebench::$target)" >"$work/$target/CMakeLists.txt"
    (cd "$work/$target" && cmake "$@" . && cmake --build .) >"$work/$target.txt" 2>&1 ||
        { cat "$work/$target.txt"; fail "CMake does not build with $target"; }
    compare "C by CMake, $target" "$work/$target/tried"
}
