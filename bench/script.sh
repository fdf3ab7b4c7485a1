#!/usr/bin/env bash
# Prints how long it takes to read a script of version 2 with 131,072 calls and a stack of two frames each (some 4 MiB),
# to write it, and to draw one of 65,536 calls: the processor time of each, as a ninth of nine more times, and the bytes
# of text a second. Behind the time of reading stands that of a plain program, where there is a cargo.
set -eu
top=$(cd "$(dirname "$0")/.." && pwd)
crate=$top/crates/script_bench
bench=$crate/out/script_bench
(cd "$crate" && rt run -- bytes) >/dev/null 2>&1 || { echo "script_bench was not built: rt run in $crate says why" >&2; exit 1; }
plain=
if command -v cargo >/dev/null && (cd "$top/bench/plain" && cargo build --release --offline) >/dev/null 2>&1; then
    plain=$top/bench/plain/target/release/plain
fi
text=$(mktemp)
trap 'rm -f "$text"' EXIT

# The processor time that a command takes, in seconds: of the program, and of the system for it.
processor() {
    local TIMEFORMAT='%3U %3S'
    { time "$@" >/dev/null; } 2>&1
}

# What one more time of a work takes, by the times of one and of ten.
more() {
    echo "$1 $2" | awk '{ printf "%.4f", ($3 + $4 - $1 - $2) / 9 }'
}

bytes_of() {
    "$bench" "$1" | cut -d ' ' -f 2
}

# The script that the crate reads, as a text.
awk 'BEGIN {
    print "umem 2 cpus 4 threads 4\nphase"
    for (call = 0; call < 131072; call++)
        printf "0 %s $%d 24 @ 401200,401000\n", call % 2 ? "free" : "alloc", int(call / 2) % 512
}' >"$text"

long=$(bytes_of bytes)
drawn=$(bytes_of drawn_bytes)
for work in read write make; do
    bytes=$long
    if [ "$work" = make ]; then bytes=$drawn; fi
    seconds=$(more "$(processor "$bench" "$work")" "$(processor "$bench" "${work}_ten")")
    other=
    if [ -n "$plain" ] && [ "$work" = read ]; then
        other=$(more "$(processor "$plain" read_script <"$text")" "$(processor "$plain" read_script_ten <"$text")")
        other=", plainly $other seconds"
    fi
    awk -v work="$work" -v bytes="$bytes" -v seconds="$seconds" -v other="$other" 'BEGIN {
        rate = seconds > 0 ? bytes / seconds : 0
        printf "%s a script of %d bytes: %.4f seconds, %.0f bytes a second%s\n", work, bytes, seconds, rate, other
    }'
done
