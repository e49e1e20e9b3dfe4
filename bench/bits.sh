#!/bin/sh
# How long a search through 2^22 used bits takes, a count of as many, and a check word of a block of 4,096 bytes, each
# beside a plain loop in C over the same bits in the same run. They are statements of `edge_part_rows`.
# Usage: bench/bits.sh [TIMES], the number of calls.
set -eu

times=${1:-2000}
case $times in
'' | *[!0-9]* | 0*) echo "usage: bench/bits.sh [TIMES], a number of calls from 1 on" >&2; exit 2 ;;
esac

top=$(cd "$(dirname "$0")/.." && pwd)
rows=$top/crates/edge_part_rows/out/edge_part_rows
if [ ! -x "$rows" ]; then
    echo "bench/bits.sh: there is no $rows: run 'rt run' in crates/edge_part_rows first" >&2
    exit 1
fi

work=$(mktemp -d)
trap 'rm -rf "$work"' EXIT
trap 'exit 1' HUP INT TERM

# The least nanoseconds a call of a command on a line of input, of three runs, without those of a run with no call.
per_call() {
    line=$1
    shift
    least=
    for _ in 1 2 3; do
        printf '%s %s\n' "$line" 0 >"$work/none"
        printf '%s %s\n' "$line" "$times" >"$work/all"
        begin=$(date +%s%N)
        "$@" <"$work/none" >"$work/out"
        middle=$(date +%s%N)
        "$@" <"$work/all" >"$work/out"
        end=$(date +%s%N)
        took=$((((end - middle) - (middle - begin)) / times))
        if [ -z "$least" ] || [ "$took" -lt "$least" ]; then
            least=$took
        fi
    done
    echo "$least"
}

cat >"$work/floor.c" <<'END'
#include <stdint.h>
#include <stdio.h>
#include <stdlib.h>
#include <string.h>
int main(void) {
    char call[32];
    unsigned len, clear, times, last = 0;
    if (scanf("bits %31s %u %u %u", call, &len, &clear, &times) != 4) return 1;
    unsigned words = (len + 63) / 64;
    uint64_t *bits = malloc(8 * words);
    memset(bits, 0xff, 8 * words);
    if (clear < len) bits[clear / 64] &= ~(1ull << clear % 64);
    for (unsigned turn = 0; turn < times; turn++) {
        volatile uint64_t *first = bits;
        uint64_t kept = *first;
        if (call[0] == 'f') {
            for (last = 0; last < words && bits[last] == ~0ull; last++) {}
        } else if (call[0] == 'c' && call[1] == 'o') {
            last = 0;
            for (unsigned w = 0; w < words; w++) last += __builtin_popcountll(bits[w]);
        } else {
            const unsigned char *bytes = (const unsigned char *)bits;
            uint32_t word = ~0u;
            for (unsigned k = 0; k < len / 8; k++) {
                word ^= bytes[k];
                for (int step = 0; step < 8; step++) word = word >> 1 ^ (-(word & 1) & 0xedb88320);
            }
            last = ~word;
        }
        *first = kept;
    }
    printf("%u\n", last);
}
END
if command -v cc >/dev/null 2>&1; then
    cc -O2 -o "$work/floor" "$work/floor.c"
fi

measure() {
    printf '  %-40s %10s ns a call' "$1" "$(per_call "$2" "$rows")"
    if [ -x "$work/floor" ]; then
        printf ', a plain loop in C %10s ns' "$(per_call "$2" "$work/floor")"
    fi
    echo
}

echo "$times calls each, the best of three"
measure 'search of 2^22 bits (first_zero_from)' 'bits first_zero_from 4194304 4194303'
measure 'the same in two bitmaps (free_in)' 'bits free_in 4194304 4194303'
measure 'count of 2^22 bits (count)' 'bits count 4194304 0'
measure 'the same in two bitmaps (counts_in)' 'bits counts_in 4194304 0'
measure 'check word of 4,096 bytes (check_word)' 'bits check_word 32768 32768'
