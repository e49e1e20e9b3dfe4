#!/bin/sh
# How many bytes of a script a second `edge run` reads and answers, beside `wc -l` and `xxd -r -p` on the
# same bytes in the same run: on short lines, and on lines that spell 4,096 bytes in hexadecimal digits.
# Usage: bench/script.sh [COUNT], the number of short lines; of long ones there are a hundredth as many.
set -eu

count=${1:-1000000}
case $count in
'' | *[!0-9]* | 0* | ?) echo "usage: bench/script.sh [COUNT], a number of lines from 100 on" >&2; exit 2 ;;
esac

top=$(cd "$(dirname "$0")/.." && pwd)
edge=$top/build/edge
if [ ! -x "$edge" ]; then
    echo "bench/script.sh: there is no build/edge: run 'make edge' first" >&2
    exit 1
fi

work=$(mktemp -d)
trap 'rm -rf "$work"' EXIT
trap 'exit 1' HUP INT TERM
cp "$top/crates/edge/data/tiny.img" "$work/image"

# Bytes a second of a command on the script, in the best of three runs.
per_second() {
    best=
    for _ in 1 2 3; do
        start=$(date +%s%N)
        "$@" <"$work/script" >/dev/null
        end=$(date +%s%N)
        took=$((end - start))
        if [ -z "$best" ] || [ "$took" -lt "$best" ]; then
            best=$took
        fi
    done
    echo $((bytes * 1000000000 / best))
}

# A script of so many lines, each with this reply.
measure() {
    lines=$1
    line=$2
    wanted=$3
    yes "$line" | head -n "$lines" >"$work/script"
    bytes=$(wc -c <"$work/script")
    "$edge" run "$work/image" <"$work/script" >"$work/out"
    if [ "$(sort -u "$work/out")" != "$wanted" ] || [ "$(wc -l <"$work/out")" -ne "$lines" ]; then
        echo "bench/script.sh: not every line was answered '$wanted'" >&2
        exit 1
    fi
    echo "$lines lines '$(printf %.20s "$line")', $bytes bytes"
    echo "  edge run       $(per_second "$edge" run "$work/image") bytes a second"
    echo "  wc -l          $(per_second wc -l) bytes a second"
    echo "  xxd -r -p      $(per_second xxd -r -p) bytes a second"
}

measure "$count" 'read 0 4096' 'no 9'
measure "$((count / 100))" "write 0 $(yes 9f | head -n 4096 | tr -d '\n')" 'no 9'
