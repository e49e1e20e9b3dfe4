#!/bin/sh
# Says which lines are too long: above 100 characters in source, above 160 in definitions. Imports and attributes are
# as `rt fmt` writes them, on one line.
set -eu
cd "$(dirname "$0")/.."

long() {
    find crates -name out -prune -o -path "$1" -type f -print | sort | python3 -c '
import sys
most = int(sys.argv[1])
for path in sys.stdin.read().split():
    for at, line in enumerate(open(path, encoding="utf-8"), 1):
        line = line.rstrip("\n")
        if len(line) > most and not line.lstrip().startswith(("ghost use ", "use ", "#[")):
            print(f"{path}:{at}: {len(line)} characters, {most} at most")
' "$2"
}

wrong=$(long 'crates/*/src/*.rt' 100; long 'crates/*/specs/*.antt' 160)
if [ -n "$wrong" ]; then
    echo "$wrong" >&2
    exit 1
fi
echo "lines.sh: no line is too long"
