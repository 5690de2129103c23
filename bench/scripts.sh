#!/usr/bin/env bash
# Time and memory of 'cops run' over scripts, in ratio to a program in plain Rust that answers the same.
# Usage: scripts.sh [times [case ..]]. Both programs run in turn, so many times each (3), and the least time and the
# least memory of each count. Time is that of the processor, for the user and the system; memory is the most that was resident.
# PROGRAM is 'cops', if it stands already; ROOM is a folder for what is built and written, if it shall be kept.
set -eu
here=$(cd "$(dirname "$0")" && pwd)
times=${1:-3}
shift || true
cases=("$@")
if [ ${#cases[@]} -eq 0 ]; then
    cases=(many_keys few_keys long_lists many_gets two_data_centres many_tenants collected beside alone lives lives_beside)
fi
room=${ROOM:-}
if [ -z "$room" ]; then
    room=$(mktemp -d)
    trap 'rm -rf "$room"' EXIT
fi
mkdir -p "$room"

program=${PROGRAM:-}
if [ -z "$program" ]; then
    (cd "$here/../crates/cops_cli" && "${RT:-rt}" run -- run <"$here/../demo/tenants.script") >"$room/build.log" 2>&1 || {
        tail -40 "$room/build.log"
        exit 1
    }
    program=$here/../crates/cops_cli/out/cops_cli
fi
(cd "$here/plain" && cargo build --quiet --release --offline --target-dir "$room/target")
plain=$room/target/release/plain
workload=$room/target/release/workload

# Runs a program over the script and adds a line with its seconds and kilobytes to a file.
measure() {
    local rows=$1
    shift
    command time -a -o "$rows" -f '%U %S %M' "$@" run <"$room/script" >/dev/null
}

# The least of the seconds, and the least of the kilobytes.
least() {
    awk '{ time = $1 + $2
           if (NR == 1 || time < seconds) seconds = time
           if (NR == 1 || $3 < memory) memory = $3 }
         END { print seconds, memory }' "$1"
}

echo '| Script | Lines | Time | Memory |'
echo '|---|---|---|---|'
for case in "${cases[@]}"; do
    "$workload" "$case" >"$room/script"
    cmp <("$program" run <"$room/script") <("$plain" run <"$room/script")
    rm -f "$room/of_cops" "$room/of_plain"
    for ((run = 0; run < times; run++)); do
        measure "$room/of_cops" "$program"
        measure "$room/of_plain" "$plain"
    done
    echo "$case $(wc -l <"$room/script") $(least "$room/of_cops") $(least "$room/of_plain")" |
        awk '{ printf "| %s | %d | %.2f | %.2f |\n", $1, $2, $3 / $5, $4 / $6 }'
done
rm -f "$room/script"
