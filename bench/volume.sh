#!/bin/sh
# How long `edge format`, and the mount and closing point of `edge run`, take on volumes of all sizes, the most memory
# that they take, and the calls of the image's file that they make, beside `mke2fs` on a file of the same size where it
# is installed. The images are sparse files in memory, where /dev/shm is there. Usage: bench/volume.sh [SIZE], the bytes
# of a block.
set -eu

size=${1:-512}
case $size in
512 | 1024 | 2048 | 4096) ;;
*) echo "usage: bench/volume.sh [SIZE], 512, 1024, 2048 or 4096" >&2; exit 2 ;;
esac

top=$(cd "$(dirname "$0")/.." && pwd)
edge=$top/build/edge
if [ ! -x "$edge" ]; then
    echo "bench/volume.sh: there is no build/edge: run 'make edge' first" >&2
    exit 1
fi

base=/tmp
if [ -d /dev/shm ] && [ -w /dev/shm ]; then
    base=/dev/shm
fi
work=$(mktemp -d "$base/edge.XXXXXX")
trap 'rm -rf "$work"' EXIT
trap 'exit 1' HUP INT TERM
image=$work/image
: >"$work/script"

# Runs a command on a fresh sparse file, or on the image as it is, and prints its microseconds, the best of three.
best() {
    fresh=$1
    shift
    least=
    for _ in 1 2 3; do
        if [ "$fresh" = yes ]; then
            rm -f "$image"
            truncate -s "$bytes" "$image"
        fi
        start=$(date +%s%N)
        "$@" <"$work/script" >"$work/out" 2>&1
        end=$(date +%s%N)
        took=$(((end - start) / 1000))
        if [ -z "$least" ] || [ "$took" -lt "$least" ]; then
            least=$took
        fi
    done
    echo "$least"
}

# The greatest resident memory of a command, in KiB.
peak() {
    if [ -x /usr/bin/time ] && /usr/bin/time -f %M true >/dev/null 2>&1; then
        /usr/bin/time -f %M -o "$work/peak" "$@" <"$work/script" >"$work/out" 2>&1
        cat "$work/peak"
    else
        echo unknown
    fi
}

# The calls of the image's file that a command makes, from its opening on.
calls() {
    if ! strace -o "$work/calls" "$@" <"$work/script" >"$work/out" 2>/dev/null; then
        echo 'calls not counted'
        return
    fi
    sed '1,/^openat(.*\/image"/d' "$work/calls" >"$work/after"
    echo "$(grep -c '^pread64(' "$work/after" || true) reads," \
        "$(grep -c '^pwrite64(' "$work/after" || true) writes," \
        "$(grep -cE '^(fsync|fdatasync)\(' "$work/after" || true) syncs"
}

line() {
    printf '  %-12s %8s us %8s KiB   %s\n' "$@"
}

for blocks in 64 3843 3844 100000 4194304; do
    inodes=8
    if [ "$blocks" -gt 4000 ]; then
        inodes=4096
    fi
    if [ "$blocks" = 4194304 ]; then
        inodes=65536
    fi
    bytes=$((blocks * size))
    echo "$blocks blocks of $size bytes, $inodes inodes"
    set -- "$edge" format "$image" -n "$blocks" -m "$inodes" -b "$size"
    took=$(best yes "$@")
    memory=$(peak "$@")
    line 'edge format' "$took" "$memory" "$(calls "$@")"
    set -- "$edge" run "$image" -b "$size"
    took=$(best no "$@")
    memory=$(peak "$@")
    line 'edge run' "$took" "$memory" "$(calls "$@")"
    if command -v mke2fs >/dev/null 2>&1 && [ "$bytes" -ge 65536 ] && [ "$size" -ge 1024 ]; then
        set -- mke2fs -F -q -b "$size" "$image"
    elif command -v mke2fs >/dev/null 2>&1 && [ "$bytes" -ge 65536 ]; then
        set -- mke2fs -F -q -b 1024 "$image"
    else
        continue
    fi
    took=$(best yes "$@")
    line mke2fs "$took" "$(peak "$@")" "$(calls "$@")"
done
