#!/usr/bin/env bash
# Prints how long a million stores and loads of words take over 1,024 mapped runs, how long it takes to map and unmap
# a run of 1,024 pages 32,768 times, and how long to give 100,000 spans back and take them again in a full arena of
# 1,024 spans.
set -eu
crate=$(cd "$(dirname "$0")/.." && pwd)/crates/memory_bench
(cd "$crate" && rt run -- space few_maps arena) >/dev/null 2>&1

TIMEFORMAT='a million stores and loads: %R seconds'
time "$crate/out/memory_bench" space >/dev/null
TIMEFORMAT='32,768 maps of 1,024 pages: %R seconds'
time "$crate/out/memory_bench" maps >/dev/null
TIMEFORMAT='100,000 spans: %R seconds'
time "$crate/out/memory_bench" arena >/dev/null
