#!/bin/sh
# Three kinds of work through `edge run`, each beside a plain loop in C that makes the least calls of the host for the
# same: the writes of the blocks that change, a sync, the write of a metaroot, a sync, at each point.
#
# - records of 64 bytes at the end of a file, each made durable by `fsync` (blocks of 512 bytes)
# - 64 MiB written in a row in pieces of 4,096 bytes, with one point at the end (blocks of 4,096 bytes)
# - 10,000 names made, half of them renamed, and a third unlinked, with a point each 100 (blocks of 4,096 bytes)
#
# The images are files in memory, where /dev/shm is there, so a sync costs a call and no wait for a medium.
# Usage: bench/work.sh [PART], from 1 to 33: of the work one PART-th is done.
set -eu

part=${1:-1}
case $part in
[1-9] | [12][0-9] | 3[0-3]) ;;
*) echo "usage: bench/work.sh [PART], a number from 1 to 33" >&2; exit 2 ;;
esac

top=$(cd "$(dirname "$0")/.." && pwd)
edge=${EDGE:-$top/build/edge}
if [ ! -x "$edge" ]; then
    echo "bench/work.sh: there is no build/edge: run 'make edge' first" >&2
    exit 1
fi

base=/tmp
if [ -d /dev/shm ] && [ -w /dev/shm ]; then
    base=/dev/shm
fi
work=$(mktemp -d "$base/edge.XXXXXX")
trap 'rm -rf "$work"' EXIT
trap 'exit 1' HUP INT TERM

# FILE SIZE BLOCKS POINTS WRITES: at each of so many points so many blocks, a sync, one block, a sync.
cat >"$work/floor.c" <<'END_OF_C'
#include <fcntl.h>
#include <stdlib.h>
#include <string.h>
#include <unistd.h>
int main(int count, char **words) {
    if (count != 6) return 1;
    int file = open(words[1], O_RDWR | O_CREAT, 0600);
    int size = atoi(words[2]), blocks = atoi(words[3]), points = atoi(words[4]), writes = atoi(words[5]);
    char *block = malloc(size);
    long next = 3;
    memset(block, 7, size);
    for (int point = 0; point < points; point++) {
        for (int k = 0; k < writes; k++, next = next + 1 < blocks ? next + 1 : 3)
            if (pwrite(file, block, size, (off_t)size * next) != size) return 1;
        if (fsync(file)) return 1;
        if (pwrite(file, block, size, (off_t)size * (1 + point % 2)) != size || fsync(file)) return 1;
    }
    return 0;
}
END_OF_C
if command -v cc >/dev/null 2>&1; then
    cc -O2 -o "$work/floor" "$work/floor.c"
fi

# The milliseconds of a command on the script, the least of three, each on a fresh volume where one is asked for.
least() {
    best=
    for _ in 1 2 3; do
        rm -f "$work/image"
        "$edge" format "$work/image" -n "$blocks" -m "$inodes" -b "$size" >"$work/out"
        start=$(date +%s%N)
        "$@" <"$work/script" >"$work/out"
        end=$(date +%s%N)
        took=$(((end - start) / 1000000))
        if [ -z "$best" ] || [ "$took" -lt "$best" ]; then
            best=$took
        fi
    done
}

# The calls of the image's file that a command makes, where there is a tracer.
calls() {
    rm -f "$work/image"
    "$edge" format "$work/image" -n "$blocks" -m "$inodes" -b "$size" >"$work/out"
    if ! strace -o "$work/calls" -e trace=pread64,pwrite64,fsync,fdatasync "$@" <"$work/script" >"$work/out" 2>/dev/null; then
        echo 'calls not counted'
        return
    fi
    echo "$(grep -c '^pread64(' "$work/calls" || true) reads," \
        "$(grep -c '^pwrite64(' "$work/calls" || true) writes," \
        "$(grep -cE '^(fsync|fdatasync)\(' "$work/calls" || true) syncs"
}

# WHAT SIZE BLOCKS INODES POINTS WRITES: the script, on a volume of so many blocks of this size and so many inodes, beside
# the floor of so many points with so many writes.
measure() {
    echo "$1"
    size=$2 blocks=$3 inodes=$4
    set -- "$size" "$blocks" "$5" "$6"
    least "$edge" run "$work/image" -b "$size"
    if grep -q '^no \|^bad' "$work/out" || [ "$(wc -l <"$work/out")" -ne "$(wc -l <"$work/script")" ]; then
        echo "bench/work.sh: not every line was answered with ok" >&2
        exit 1
    fi
    printf '  %-16s %8s ms   %s\n' 'edge run' "$best" "$(calls "$edge" run "$work/image" -b "$size")"
    if [ -x "$work/floor" ]; then
        least "$work/floor" "$work/image" "$@"
        printf '  %-16s %8s ms   %s\n' 'plain loop in C' "$best" "$(calls "$work/floor" "$work/image" "$@")"
    fi
}

# A record changes a block of the file and its inode. Behind the direct blocks a pointer node changes with them; the least
# is told without it.
records=$((20000 / part))
awk -v records="$records" 'BEGIN {
    record = sprintf("%064d", 0)
    gsub(/0/, "5a", record)
    print "open /log wca"
    for (i = 0; i < records; i++) print "write 0 " record "\nfsync 0"
}' >"$work/script"
measure "$records records of 64 bytes, a point each" 512 3800 8 "$records" 2

pieces=$((16384 / part))
awk -v pieces="$pieces" 'BEGIN {
    print "open /bulk wc"
    for (i = 0; i < pieces; i++) print "fill 0 4096 5a"
}' >"$work/script"
measure "$((pieces * 4096)) bytes in pieces of 4,096, one point" 4096 20000 8 1 "$((pieces + pieces / 1019 + 2))"

# Each name that is made changes an inode; each 100 names a block of the directory and its inode, or two where names of a
# block move to another.
names=$((10000 / part))
awk -v names="$names" 'BEGIN {
    print "mkdir /d"
    for (i = 0; i < names; i++) {
        printf "open /d/%05d wc\nclose 0\n", i
        if (i % 100 == 99) print "transact"
    }
    for (i = 0; i < names; i += 2) {
        printf "rename /d/%05d /d/moved%05d\n", i, i
        if (i % 200 == 198) print "transact"
    }
    for (i = 1; i < names; i += 3) {
        printf "unlink /d/%s%05d\n", i % 2 ? "" : "moved", i
        if (i % 300 == 298) print "transact"
    }
}' >"$work/script"
points=$(grep -c transact "$work/script" || true)
measure "$names names made, half renamed, a third unlinked, $points points" 4096 32000 10100 "$points" "$((names / points + 2))"
