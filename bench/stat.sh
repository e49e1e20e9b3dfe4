#!/bin/sh
# How many lines a second `edge run` answers, beside `wc -l` on the same script in the same run, and
# how much memory it takes at most. Usage: bench/stat.sh [COUNT], the number of lines of a script.
set -eu

count=${1:-1000000}
case $count in
'' | *[!0-9]* | 0*) echo "usage: bench/stat.sh [COUNT], a number of lines from 1 on" >&2; exit 2 ;;
esac

top=$(cd "$(dirname "$0")/.." && pwd)
edge=$top/build/edge
if [ ! -x "$edge" ]; then
    echo "bench/stat.sh: there is no build/edge: run 'make edge' first" >&2
    exit 1
fi

work=$(mktemp -d)
trap 'rm -rf "$work"' EXIT
trap 'exit 1' HUP INT TERM
cp "$top/crates/edge/data/tiny.img" "$work/image"

# Lines a second of a command on a script, in the best of three runs.
per_second() {
    script=$1
    shift
    best=
    for _ in 1 2 3; do
        start=$(date +%s%N)
        "$@" <"$script" >"$work/out"
        end=$(date +%s%N)
        took=$((end - start))
        if [ -z "$best" ] || [ "$took" -lt "$best" ]; then
            best=$took
        fi
    done
    echo $((count * 1000000000 / best))
}

# The greatest resident memory of the program on a script, in KiB.
peak() {
    if [ -x /usr/bin/time ] && /usr/bin/time -f %M true >/dev/null 2>&1; then
        /usr/bin/time -f %M -o "$work/peak" "$edge" run "$work/image" <"$1" >"$work/out"
        cat "$work/peak"
        return
    fi
    "$edge" run "$work/image" <"$1" >"$work/out" &
    most=unknown
    while seen=$(sed -n 's/^VmHWM:[^0-9]*\([0-9]*\).*/\1/p' "/proc/$!/status" 2>/dev/null) && [ -n "$seen" ]; do
        most=$seen
    done
    wait $!
    echo "$most"
}

# How many calls of the host match a pattern, from the opening of the image on.
calls() {
    sed '1,/^openat(.*\/image"/d' "$work/calls" | grep -c "$1" || true
}

measure() {
    line=$1
    wanted=$2
    yes "$line" | head -n "$count" >"$work/script"
    "$edge" run "$work/image" <"$work/script" >"$work/out"
    if [ "$(sort -u "$work/out")" != "$wanted" ] || [ "$(wc -l <"$work/out")" -ne "$count" ]; then
        echo "bench/stat.sh: not every line was answered '$wanted'" >&2
        exit 1
    fi
    echo "$count lines '$line'"
    echo "  edge run       $(per_second "$work/script" "$edge" run "$work/image") lines a second"
    echo "  wc -l          $(per_second "$work/script" wc -l) lines a second"
    echo "  peak memory    $(peak "$work/script") KiB"
    head -n 1000 "$work/script" >"$work/short"
    if strace -o "$work/calls" "$edge" run "$work/image" <"$work/short" >"$work/out" 2>/dev/null; then
        lines=$(wc -l <"$work/short")
        echo "  host's calls   $(calls '^write(1,') writes of replies, $(calls '^read(0,') reads of the script and" \
            "$(calls '^pread64(') reads of the image, of $lines lines"
    fi
}

measure 'stat /' 'ok 2 d 0 1'
measure 'xxxxxxx' 'bad'
