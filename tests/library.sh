#!/usr/bin/env bash
# Tries the library for C: tests/library.sh [--proved | --proved-in FOLDER] [GPTIMG], where GPTIMG is the program,
# ./gptimg at the top where it is left out. It proves and builds the library first; with --proved it takes it from what
# `rt ci` proved, here or in the folder.
# The last line is 'N passed, M failed', and the status is 1 where something failed.
top=$(cd "$(dirname "$0")/.." && pwd) || exit
archive=$top/crates/gptman_c/out/libgptman_c.a
build=(rt lib)
if [ "$1" = --proved ]; then
    build=("$top/scripts/archive" "$archive")
    shift
elif [ "$1" = --proved-in ]; then
    archive=$2/crates/gptman_c/out/libgptman_c.a
    build=("$top/scripts/archive" "$archive" "$2")
    shift 2
fi
program=$(realpath "${1:-$top/gptimg}") || exit

if ! command -v cc > /dev/null || ! command -v ar > /dev/null; then
    echo "-- cc or ar is not installed: the library for C is not tried"
    echo "0 passed, 0 failed"
    exit
fi
log=$(mktemp) || exit
trap 'rm -f "$log"' EXIT
if ! (cd "$top/crates/gptman_c" && "${build[@]}") > "$log" 2>&1; then
    cat "$log"
    echo "0 passed, 1 failed"
    exit 1
fi
python3 -B "$top/tests/library" "$archive" "$program"
