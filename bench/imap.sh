#!/bin/sh
# What it costs to take blocks of a volume of 2^22 blocks of 512 bytes of which FREE are free: each the next free one
# from the last on, found in 1,057 pairs of imap nodes through a cache of 32 blocks. The free ones lie apart, or are the
# last blocks, or are so behind as many almost free ones that lie apart. It is a statement of `edge_part_rows`, over a
# disk in memory that counts its calls.
# Usage: bench/imap.sh [FREE [TAKES]], the free blocks and how many are taken.
set -eu

free=${1:-4194}
takes=${2:-4000}
case $free$takes in
'' | *[!0-9]* | 0*) echo "usage: bench/imap.sh [FREE [TAKES]], two numbers from 1 on" >&2; exit 2 ;;
esac

top=$(cd "$(dirname "$0")/.." && pwd)
rows=$top/crates/edge_part_rows/out/edge_part_rows
if [ ! -x "$rows" ]; then
    echo "bench/imap.sh: there is no $rows: run 'rt run' in crates/edge_part_rows first" >&2
    exit 1
fi

# The nanoseconds of a run with so many takes, and its answer in `answer`.
run() {
    begin=$(date +%s%N)
    answer=$(echo "imap_search $1 4194304 $free $2" | "$rows" | tail -n 1)
    end=$(date +%s%N)
    took=$((end - begin))
}

for layout in spread run behind; do
    run "$layout" 0
    none=$took
    run "$layout" "$takes"
    echo "$layout:$answer, $(((took - none) / 1000000)) ms"
done
