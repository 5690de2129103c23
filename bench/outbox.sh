#!/usr/bin/env bash
# How long calls at an outbox take a tenant while 0, 1,000 and 100,000 entries of another wait: medians in nanoseconds for each
# call, and their ratios to the first in the same run.
# Usage: outbox.sh [times [calls]], the number of measurements whose median is printed, and of the calls in each.
# The program is proved and built apart from the repository (room.sh).
set -eu
. "$(dirname "$0")/room.sh"
times=${1:-11}
calls=${2:-1000000}
lay_out outbox_program cops_types cops_outbox
for function in filled turns; do
    mkdir -p "$program/proofs/$function"
    sed "s/FUNCTION/$function/" "$here/outbox_program_loops.antt.txt" >"$program/proofs/$function/Invariants.antt"
done
build 10 10
rm -f "$room/figures"
for _ in $(seq "$times"); do
    for others in 0 1000 100000; do
        echo "$others $("$program/out/outbox_program" "$others" "$calls")" >>"$room/figures"
    done
done
echo "others waiting: nanoseconds for front_of, waiting, push and ack; ratios to none waiting"
for others in 0 1000 100000; do
    for column in 2 3 4; do
        awk -v others="$others" -v column="$column" '$1 == others { print $column }' "$room/figures" | sort -n | sed -n "$(((times + 1) / 2))p"
    done | paste -s -d ' '
done | awk -v calls="$calls" '
    NR == 1 { for (i = 1; i <= 3; i++) first[i] = $i }
    {
        others = NR == 1 ? 0 : NR == 2 ? 1000 : 100000
        printf "%6d: %.1f %.1f %.1f; %.2f %.2f %.2f\n", others, $1 / calls, $2 / calls, $3 / calls, $1 / first[1], $2 / first[2], $3 / first[3]
    }'
