#!/usr/bin/env bash
# Prints how long it takes to read and to write a core of version 2 with audit and guards, 524,288 chunks of the class
# of 8 bytes and 500,000 audits of six frames each (some 51 MB), and one of 2,097,152 such chunks without guards (some
# 25 MB): the processor time of each, as a ninth of nine more times.
set -eu
crate=$(cd "$(dirname "$0")/.." && pwd)/crates/core_bench
(cd "$crate" && rt run -- audited) >/dev/null 2>&1 || { echo "core_bench was not built: rt run in $crate" >&2; exit 1; }

# The processor time that the words take, in seconds: of the program, and of the system for it.
processor() {
    local TIMEFORMAT='%3U %3S'
    { time "$crate/out/core_bench" "$1" >/dev/null; } 2>&1
}

for core in audited plain; do
    for work in read write; do
        word=$core
        if [ "$work" = write ]; then word=${core}_write; fi
        one=$(processor "$word")
        ten=$(processor "${word}_ten")
        awk -v core="$core" -v work="$work" -v one="$one" -v ten="$ten" 'BEGIN {
            split(one, a, " "); split(ten, b, " ")
            printf "%s a core, %s: %.3f seconds\n", work, core, (b[1] + b[2] - a[1] - a[2]) / 9
        }'
    done
done
