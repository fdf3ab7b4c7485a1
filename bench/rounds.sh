#!/usr/bin/env bash
# Prints how long a million puts and takes of rounds at random take over 1,024 slabs of 512 rounds.
set -eu
crate=$(cd "$(dirname "$0")/.." && pwd)/crates/memory_bench
(cd "$crate" && rt run -- slabs) >/dev/null 2>&1

TIMEFORMAT='a million puts and takes: %R seconds'
time "$crate/out/memory_bench" slabs >/dev/null
