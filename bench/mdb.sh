#!/usr/bin/env bash
# Prints how long `umem mdb` takes over a core of version 2 with audit and guards, 524,288 chunks of the class of
# 8 bytes and 500,000 audits of six frames each (some 51 MB): without a command, for one of each, and for 60,000
# addresses that are looked up. Each time is the processor time of the built program, the least of three, with that of a
# plain program behind it where there is a cargo.
set -eu
top=$(cd "$(dirname "$0")/.." && pwd)
umem=$top/crates/umem/out/umem
bench=$top/crates/core_bench
(cd "$bench" && rt run) >/dev/null 2>&1 || { echo "core_bench was not built: rt run in $bench says why" >&2; exit 1; }
plain=
if command -v cargo >/dev/null && (cd "$top/bench/plain" && cargo build --release --offline) >/dev/null 2>&1; then
    plain=$top/bench/plain/target/release/plain
fi
folder=$(mktemp -d)
trap 'rm -rf "$folder"' EXIT

# The processor time of `mdb` of a program over commands, in seconds, of the program and of the system for it: the least
# of three times.
least() {
    local TIMEFORMAT='%3U %3S'
    for _ in 1 2 3; do
        { time "$1" mdb "$folder/core" <"$2" >/dev/null 2>&1; } 2>&1
    done | awk '{ time = $1 + $2; if (NR == 1 || time < least) least = time } END { printf "%.3f", least }'
}

# A line of what commands take.
measure() {
    local name=$1 other=
    if [ -n "$plain" ]; then other=", plainly $(least "$plain" "$2") seconds"; fi
    echo "$name: $(least "$umem" "$2") seconds$other"
}

"$bench/out/core_bench" audited_bytes >"$folder/core"
cat >"$folder/all.mdb" <<'END'
::umem_cache
::umem_verify
::umem_log
::umem_contents
::umausers
::umausers -e
100010::whatis
::findleaks
::walk umem
::walk freemem
30000000::walk umem
30000000::walk freemem
END
awk 'BEGIN { for (line = 0; line < 60000; line++) printf "0x%06x::whatis\n", 1048576 + line * 16661 % 16777216 }' \
    >"$folder/whatis.mdb"

# The first call builds the program where that is wanted.
"$top/bin/umem" mdb "$folder/core" </dev/null
measure "mdb, no command" /dev/null
measure "mdb, all commands" "$folder/all.mdb"
measure "mdb, 60000 addresses looked up" "$folder/whatis.mdb"
