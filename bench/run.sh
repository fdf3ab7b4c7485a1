#!/usr/bin/env bash
# Prints how long `umem run` takes over scripts that are drawn here, each with as many calls as there may be in its
# version. The plain ones allocate and free buffers of 1 to 512 bytes, of which 64 live; the mixed ones have stacks,
# declared caches, stores, words that are linked and loaded, zeroed buffers and sizes of all classes, on four CPUs. One
# more run is audited and leaves a core. Each time is the processor time of the built program, the least of three, with
# that of a plain program behind it where there is a cargo.
set -eu
top=$(cd "$(dirname "$0")/.." && pwd)
umem=$top/crates/umem/out/umem
plain=
if command -v cargo >/dev/null && (cd "$top/bench/plain" && cargo build --release --offline) >/dev/null 2>&1; then
    plain=$top/bench/plain/target/release/plain
fi
folder=$(mktemp -d)
trap 'rm -rf "$folder"' EXIT

# The processor time of a command, in seconds, of the program and of the system for it: the least of three times.
least() {
    local TIMEFORMAT='%3U %3S'
    for _ in 1 2 3; do
        { time "$@" >/dev/null 2>&1; } 2>&1
    done | awk '{ time = $1 + $2; if (NR == 1 || time < least) least = time } END { printf "%.3f", least }'
}

# A line of what `run` of a script takes.
measure() {
    local name=$1 other=
    shift
    if [ -n "$plain" ]; then other=", plainly $(least "$plain" run "$@") seconds"; fi
    echo "$name: $(least "$umem" run "$@") seconds$other"
}

# A script of so many calls in which a buffer is freed and another one allocated in its slot.
draw_plain() {
    awk -v version="$1" -v calls="$2" '
        function draw(most) { state = state * 16807 % 2147483647; return state % most }
        function alloc(slot) { size[slot] = 1 + draw(512); printf "0 alloc $%d %d\n", slot, size[slot] }
        BEGIN {
            state = 1
            printf "umem %d cpus 1 threads 1\nphase\n", version
            for (call = 0; call < 64; call++) alloc(call)
            for (; call < calls; call += 2) {
                slot = draw(64)
                printf "0 free $%d %d\n", slot, size[slot]
                alloc(slot)
            }
        }'
}

# A script of so many calls of four threads, each in slots that are its own or that no other thread uses.
draw_mixed() {
    awk -v version="$1" -v calls="$2" '
        function draw(most) { state = state * 16807 % 2147483647; return state % most }
        function slot_name(slot) { return (version == 2 && slot % 8 >= 4 ? "%" : "$") slot }
        function step(text) {
            printf "%d %s", thread, text
            if (draw(2)) printf " @ %x,%x,%x", 4198400 + 16 * draw(64), 4202496 + 16 * draw(8), 4206592
            print ""
        }
        function alloc(slot, kind) {
            kind = draw(4)
            cache[slot] = kind == 0 ? "cache" draw(8) : ""
            size[slot] = kind == 0 ? 8 : 1 + draw(2 ^ (3 + draw(10)))
            if (kind == 0) step("cache_alloc " slot_name(slot) " " cache[slot])
            else step((kind == 1 ? "zalloc " : "alloc ") slot_name(slot) " " size[slot])
        }
        function free(slot) {
            if (cache[slot] != "") step("cache_free " slot_name(slot) " " cache[slot])
            else step("free " slot_name(slot) " " size[slot])
            size[slot] = 0
        }
        function use(slot, kind) {
            kind = draw(3)
            if (kind == 0 || size[slot] < 8) step("store " slot_name(slot) " 0 " sprintf("%02x", draw(256)))
            else if (kind == 1) step("link " slot_name(slot) " 0 " slot_name(4 * draw(48) + thread))
            else step("load " slot_name(256 + thread) " " slot_name(slot) " 0")
        }
        BEGIN {
            state = 1
            printf "umem %d cpus 4 threads 4\n", version
            for (number = 0; number < 8; number++)
                printf "cache cache%d %d %d%s\n", number, 8 + 40 * number, 8 * 2 ^ (number % 4),
                    version == 2 && number % 2 ? " a5" : ""
            for (call = 0; call < calls; call++) {
                if (call % 1024 == 0) print "phase"
                thread = draw(4)
                slot = 4 * draw(48) + thread
                if (call % 16384 == 16383) print "0 reap"
                else if (!size[slot]) alloc(slot)
                else if (draw(3)) free(slot)
                else use(slot)
            }
        }'
}

draw_plain 1 65536 >"$folder/plain_1.umem"
draw_plain 2 131072 >"$folder/plain_2.umem"
draw_mixed 1 65536 >"$folder/mixed_1.umem"
draw_mixed 2 131072 >"$folder/mixed_2.umem"

# The first run builds the program where that is wanted.
"$top/bin/umem" run "$folder/plain_1.umem" >/dev/null
measure "run, 65536 calls of version 1" "$folder/plain_1.umem"
measure "run, 131072 calls of version 2" "$folder/plain_2.umem"
measure "run, 65536 mixed calls of version 1" "$folder/mixed_1.umem"
measure "run, 131072 mixed calls of version 2" "$folder/mixed_2.umem"
measure "run, 65536 calls of version 1, audited, with a core" "$folder/plain_1.umem" \
    --debug default --logging transaction --core "$folder/core"
