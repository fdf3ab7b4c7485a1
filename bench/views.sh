#!/usr/bin/env bash
# Prints how long views take over cores of version 2 that fill the arena: one with audit and guards, 524,288 chunks and
# 500,000 audits, and one of 2,097,152 chunks without guards, all in the slabs' lists and then all allocated. Each call is
# timed as a ninth of nine more, by processor time, with that of a plain program behind it where there is a cargo:
# making a view, a million addresses looked up, and what is leaked, damaged and in use.
set -eu
top=$(cd "$(dirname "$0")/.." && pwd)
for crate in core_bench view_bench; do
    (cd "$top/crates/$crate" && rt run) >/dev/null 2>&1 || { echo "$crate was not built: rt run in crates/$crate says why" >&2; exit 1; }
done
plain=
if command -v cargo >/dev/null; then
    (cd "$top/bench/plain" && cargo build --release --offline) >/dev/null 2>&1 && plain=$top/bench/plain/target/release/plain
fi
cores=$(mktemp -d)
trap 'rm -rf "$cores"' EXIT

# The processor time that a command takes, in seconds: of the program, and of the system for it.
processor() {
    local TIMEFORMAT='%3U %3S'
    { time "$@" >/dev/null; } 2>&1
}

# What one more time of a work takes, by the times of one and of ten.
more() {
    echo "$1 $2" | awk '{ printf "%.4f", ($3 + $4 - $1 - $2) / 9 }'
}

for core in audited plain allocated; do
    file=$cores/$core
    "$top/crates/core_bench/out/core_bench" "${core}_bytes" >"$file"
    bench=("$top/crates/view_bench/out/view_bench" "$file")
    read=$(more "$(processor "${bench[@]}" read)" "$(processor "${bench[@]}" read_ten)")
    for work in buffers find classes findings groups; do
        time=$(more "$(processor "${bench[@]}" "$work")" "$(processor "${bench[@]}" "${work}_ten")")
        # the views of `buffers` each read their core anew
        if [ "$work" = buffers ]; then time=$(awk -v a="$time" -v b="$read" 'BEGIN { printf "%.4f", a - b }'); fi
        other=
        if [ -n "$plain" ]; then
            other=$(more "$(processor "$plain" "$work" <"$file")" "$(processor "$plain" "${work}_ten" <"$file")")
            other=", plainly $other"
        fi
        echo "$work, $core: $time seconds$other"
    done
done
