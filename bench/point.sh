#!/bin/sh
# How many transaction points a second a store takes over a file in memory, beside a plain loop in C of the same writes and
# flushes on such a file, in the same run: with nothing changed, one block written and two flushes, and after 64 bytes of
# a file have changed, three blocks and two flushes. They are steps of `edge_point_rows`.
# Usage: bench/point.sh [POINTS], the number of points.
set -eu

points=${1:-100000}
case $points in
'' | *[!0-9]* | 0*) echo "usage: bench/point.sh [POINTS], a number of points from 1 on" >&2; exit 2 ;;
esac

top=$(cd "$(dirname "$0")/.." && pwd)
rows=$top/crates/edge_point_rows/out/edge_point_rows
if [ ! -x "$rows" ]; then
    echo "bench/point.sh: there is no $rows: run 'rt run' in crates/edge_point_rows first" >&2
    exit 1
fi

work=$(mktemp -d -p /dev/shm)
trap 'rm -rf "$work"' EXIT
trap 'exit 1' HUP INT TERM

cat >"$work/floor.c" <<'END'
#include <fcntl.h>
#include <stdlib.h>
#include <string.h>
#include <unistd.h>
int main(int count, char **words) {
    if (count != 5) return 1;
    int file = open(words[1], O_RDWR);
    int size = atoi(words[2]), writes = atoi(words[3]), points = atoi(words[4]);
    char *block = malloc(size);
    memset(block, 7, size);
    for (int point = 0; point < points; point++) {
        for (int k = 0; k < writes; k++)
            if (pwrite(file, block, size, (off_t)size * (20 + 2 * k + point % 2)) != size) return 1;
        if (fsync(file)) return 1;
        if (pwrite(file, block, size, (off_t)size * (1 + point % 2)) != size || fsync(file)) return 1;
    }
}
END
if command -v cc >/dev/null 2>&1; then
    cc -O2 -o "$work/floor" "$work/floor.c"
fi

# The nanoseconds of a run, the least of three, of a command on a line of input.
least() {
    best=
    for _ in 1 2 3; do
        begin=$(date +%s%N)
        echo "$line" | "$@" >"$work/out"
        end=$(date +%s%N)
        took=$((end - begin))
        if [ -z "$best" ] || [ "$took" -lt "$best" ]; then
            best=$took
        fi
    done
}

# NAME SIZE STEPS WRITES: the points a second of steps over a fresh volume, without the time of a run with no point.
measure() {
    made="volume $2 64 8 4 32; run file, fill 3 0 64 07, point; host $work/image"
    line="$made $3 0"
    least "$rows"
    none=$best
    line="$made $3 $points"
    least "$rows"
    printf '  %-32s %9s points a second' "$1" $((points * 1000000000 / (best - none)))
    if [ -x "$work/floor" ]; then
        least "$work/floor" "$work/image" "$2" "$4" "$points"
        printf ', a plain loop in C %9s' $((points * 1000000000 / best))
    fi
    echo
}

echo "$points points each, the best of three"
for size in 512 4096; do
    measure "nothing changed, $size" "$size" points 0
    measure "64 bytes changed, $size" "$size" 'rounds 3' 2
done
