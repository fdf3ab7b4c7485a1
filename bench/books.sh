#!/usr/bin/env bash
# Prints how long the books of a run take to make 131,072 calls, of buffers of 1 to 512 bytes of which 64 live, with
# every debug option, and to picture some 500,000 free chunks at places that are found to fit: the processor time of
# each, as a ninth of nine more times.
set -eu
top=$(cd "$(dirname "$0")/.." && pwd)
crate=$top/crates/books_bench
bench=$crate/out/books_bench
(cd "$crate" && rt run -- slabs) >/dev/null 2>&1 || { echo "books_bench was not built: rt run in $crate says why" >&2; exit 1; }

# The processor time that a command takes, in seconds: of the program, and of the system for it.
processor() {
    local TIMEFORMAT='%3U %3S'
    { time "$@" >/dev/null; } 2>&1
}

# What one more time of a work takes, by the times of one and of ten.
more() {
    echo "$1 $2" | awk '{ printf "%.4f", ($3 + $4 - $1 - $2) / 9 }'
}

for work in calls picture; do
    count=$("$bench" "$work" | cut -d ' ' -f 2)
    seconds=$(more "$(processor "$bench" "$work")" "$(processor "$bench" "${work}_ten")")
    echo "$work, $count: $seconds seconds"
done
