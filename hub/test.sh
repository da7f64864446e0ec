#!/bin/sh
# test.sh COMMAND JOURNAL..: plays each journal, a file NAMEin, and compares what is printed with NAMEout.
set -eu
command=$1
shift
out=$(mktemp)
trap 'rm -f "$out"' EXIT

same() {
    if diff "$1" "$out" > /dev/null; then
        echo "$2: as expected"
    else
        diff "$1" "$out" | head -n 10
        echo "$2: not as expected"
        exit 1
    fi
}

for journal in "$@"; do
    $command "$journal" > "$out"
    same "${journal%in}out" "$journal"
done

# 8,192 bytes are a line, 8,193 are too many, be it a comment; the last line has no end.
printf '%-8192s\n%-8193s\n%-8193s\n%-8192s\n%-8192s' table table '#' '#' 'date 1970 1 26' | $command > "$out"
printf '0 0 0 136680\n? 2\n? 3\n0 25\n' | same - 'long lines'
