#!/usr/bin/env bash
# Runs each example and compares what it prints with the output beside it. Options stand in NAME.args, where there are
# any. Where there are commands, in NAME.mdb, the run leaves a core, and they are answered over it. Prints a line for
# each example that differs, and ends with 1 then.
set -u
here=$(cd "$(dirname "$0")" && pwd)
umem=$here/../bin/umem
cores=$(mktemp -d)
trap 'rm -rf "$cores"' EXIT
failed=0

differs() {
    echo "$1 prints something else"
    failed=1
}

for script in "$here"/*.umem; do
    name=${script%.umem}
    example=$(basename "$name")
    core=$cores/$example.core
    options=()
    if [ -f "$name.args" ]; then read -r -a options <"$name.args"; fi
    if [ -f "$name.mdb" ]; then options+=(--core "$core"); fi
    "$umem" run "$script" "${options[@]}" | cmp -s - "$name.out" || differs "$example"
    if [ -f "$name.mdb" ]; then
        "$umem" mdb "$core" <"$name.mdb" | cmp -s - "$name.answers" || differs "$example.mdb"
    fi
done
exit $failed
