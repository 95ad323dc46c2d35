#!/usr/bin/env bash
# Compares the library for C with libfdisk, libparted and libblkid, those whose headers are installed: what a
# program that lists a table of two partitions costs by each, what one costs that adds a partition, and what a stop
# in the middle of that leaves (trials/crash_states). Needs ./lib of `make lib`, cc, valgrind and strace.
# The last line is 'N passed, M failed': a list that is the same by all is passed.
cd "$(dirname "$0")/.." || exit
work=$(mktemp -d) || exit
trap 'rm -rf "$work"' EXIT
image=$work/disk.img
passed=0
failed=0

for needed in cc valgrind strace python3; do
    if ! command -v "$needed" > "$work/found"; then
        echo "-- $needed is not installed: the libraries are not compared"
        echo "0 passed, 0 failed"
        exit
    fi
done
if [ ! -f lib/libgptman.so.1 ]; then
    scripts/build_library || exit
fi

# Builds what there is for a library: its name, the folder of the programs, and further words of the compiler.
build() {
    local name=$1 folder=$2 source
    shift 2
    for source in list add grow; do
        if [ -f "$folder/$source.c" ]; then
            cc -O2 -o "$work/${source}_$name" "$folder/$source.c" "$@" 2> "$work/log" || return
        elif [ -f "$folder/${source}_$name.c" ]; then
            cc -O2 -o "$work/${source}_$name" "$folder/${source}_$name.c" "$@" 2> "$work/log" || return
        fi
    done
}

# An image with two partitions, as the crash states have it.
make_image() {
    python3 -B -c 'import sys; sys.path[:0] = ["trials/crash_states", "tests"]; import judging
open(sys.argv[1], "wb").write(judging.starts()["both good"])' "$image"
}

# The instructions of a command, and its system calls, those of the loader among them.
count() {
    make_image
    valgrind --tool=cachegrind --cache-sim=no --cachegrind-out-file=/dev/null "$@" 2>&1 > "$work/out" |
        sed -n 's/.*I *refs: *//p' | tr -d ,
    make_image
    strace -f -qq -o "$work/trace" "$@" > "$work/out" 2>&1
    wc -l < "$work/trace"
}

there=()
for name in gptman fdisk parted blkid; do
    folder=trials/libraries
    words=("-l$name")
    if [ "$name" = gptman ]; then
        folder=examples
        words=(-Iinclude -Llib -lgptman "-Wl,-rpath,$PWD/lib")
    fi
    if build "$name" "$folder" "${words[@]}"; then
        there+=("$name")
    else
        echo "-- lib$name is not installed, and left out"
    fi
done

printf '%-14s %14s %8s\n' "" instructions calls
for name in "${there[@]}"; do
    mapfile -t counted < <(count "$work/list_$name" "$image")
    printf '%-14s %14s %8s\n' "list_$name" "${counted[@]}"
    "$work/list_$name" "$image" > "$work/listed_$name"
    if cmp -s "$work/listed_$name" "$work/listed_gptman"; then
        passed=$((passed + 1))
    else
        failed=$((failed + 1))
        echo "lib$name lists something else than libgptman"
    fi
    if [ -x "$work/add_$name" ]; then
        mapfile -t counted < <(count "$work/add_$name" "$image" 26624 28671 foo)
        printf '%-14s %14s %8s\n' "add_$name" "${counted[@]}"
    fi
done
python3 -B trials/crash_states --libraries "$work" || failed=$((failed + 1))
echo "$passed passed, $failed failed"
[ "$failed" -eq 0 ]
