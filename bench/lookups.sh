#!/bin/sh
# How many names a second `edge run` looks up in directories of 100, 1,000 and 10,000 names, each a line `stat` of a name
# in a mixed order, beside `debugfs` on the same names in an ext2 image of blocks of the same size, where it is
# installed. Both look through a directory from its beginning. The time of a run on an empty script is left out.
# The images are sparse files in memory, where /dev/shm is there. Usage: bench/lookups.sh [COUNT [SIZE]], the lookups in
# the directory of 100 names (of 1,000 a tenth as many, of 10,000 a hundredth), and the bytes of a block.
set -eu

count=${1:-100000}
size=${2:-1024}
case $count in
'' | *[!0-9]* | 0* | ? | ??) echo "usage: bench/lookups.sh [COUNT [SIZE]], a number of lookups from 100 on" >&2; exit 2 ;;
esac
case $size in
1024 | 2048 | 4096) ;;
*) echo "usage: bench/lookups.sh [COUNT [SIZE]], a size of 1024, 2048 or 4096" >&2; exit 2 ;;
esac

top=$(cd "$(dirname "$0")/.." && pwd)
edge=${EDGE:-$top/build/edge}
if [ ! -x "$edge" ]; then
    echo "bench/lookups.sh: there is no build/edge: run 'make edge' first" >&2
    exit 1
fi

base=/tmp
if [ -d /dev/shm ] && [ -w /dev/shm ]; then
    base=/dev/shm
fi
work=$(mktemp -d "$base/edge.XXXXXX")
trap 'rm -rf "$work"' EXIT
trap 'exit 1' HUP INT TERM
: >"$work/empty"

# The nanoseconds of a command on a script, the least of three.
least() {
    script=$1
    shift
    best=
    for _ in 1 2 3; do
        start=$(date +%s%N)
        "$@" <"$script" >"$work/out" 2>&1
        end=$(date +%s%N)
        took=$((end - start))
        if [ -z "$best" ] || [ "$took" -lt "$best" ]; then
            best=$took
        fi
    done
}

# VERB: a script of so many lines, each of the verb and one of the names in a mixed order.
looking() {
    awk -v names="$names" -v lines="$lines" -v verb="$1" 'BEGIN {
        for (i = 0; i < lines; i++) printf "%s /d/name%05d\n", verb, (i * 7919) % names
    }'
}

# NAME COMMAND..: prints the lookups a second of a command, without the time of an empty script.
per_second() {
    name=$1
    shift
    least "$work/empty" "$@"
    none=$best
    least "$work/script" "$@"
    printf '  %-12s %9s lookups a second\n' "$name" $((lines * 1000000000 / (best - none)))
}

in_debugfs() {
    debugfs -w -f - "$work/ext2"
}

lines=$count
for names in 100 1000 10000; do
    echo "a directory of $names names, $lines lookups, blocks of $size bytes"
    rm -f "$work/image" "$work/ext2"
    "$edge" format "$work/image" -n 20000 -m 16 -b "$size" >"$work/out"
    awk -v names="$names" 'BEGIN {
        print "mkdir /d\nopen /f wc\nclose 0"
        for (i = 0; i < names; i++) printf "link /f /d/name%05d\n", i
    }' >"$work/making"
    "$edge" run "$work/image" -b "$size" <"$work/making" >"$work/out"
    looking stat >"$work/script"
    "$edge" run "$work/image" -b "$size" <"$work/script" >"$work/out"
    if [ "$(sort -u "$work/out")" != "ok 4 f 0 $((names + 1))" ] || [ "$(wc -l <"$work/out")" -ne "$lines" ]; then
        echo "bench/lookups.sh: not every name was found" >&2
        exit 1
    fi
    per_second 'edge run' "$edge" run "$work/image" -b "$size"
    if command -v debugfs >/dev/null 2>&1 && command -v mke2fs >/dev/null 2>&1; then
        truncate -s $((20000 * size)) "$work/ext2"
        mke2fs -F -q -t ext2 -b "$size" "$work/ext2"
        awk -v names="$names" -v size="$size" -v file="$work/empty" 'BEGIN {
            print "mkdir /d\nwrite " file " /f"
            for (room = size; room < 24 * names + size; room += size) print "expand_dir /d"
            for (i = 0; i < names; i++) printf "link /f /d/name%05d\n", i
        }' >"$work/making"
        in_debugfs <"$work/making" >"$work/out" 2>&1
        looking blocks >"$work/script"
        in_debugfs <"$work/script" >"$work/out" 2>&1
        if grep -q 'not found' "$work/out"; then
            echo "bench/lookups.sh: debugfs did not find every name" >&2
            exit 1
        fi
        per_second debugfs in_debugfs
    fi
    lines=$((lines / 10))
done
