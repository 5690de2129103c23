#!/usr/bin/env bash
# Puts and gets per second of one node, in ratio to the node of the plain program in the same run.
# Usage: node.sh [times [calls]]. Both programs run in turn, so many times each (5), and the least time of each counts.
# One tenant makes so many puts (a million) and as many gets, and then eight tenants mixed.
# The node's program is proved and built apart from the repository (room.sh).
set -eu
. "$(dirname "$0")/room.sh"
times=${1:-5}
calls=${2:-1000000}
lay_out node_program cops_types cops_node uuid
build 1 1000
build_plain

# The least nanoseconds of a program's puts or gets.
least() {
    awk -v call="$2" '$1 == call { if (least == "" || $2 < least) least = $2 } END { print least }' "$1"
}

echo '| Tenants | Calls | `cops` | Plain | Ratio |'
echo '|---|---|---|---|---|'
for tenants in 1 8; do
    rm -f "$room/of_cops" "$room/of_plain"
    for ((run = 0; run < times; run++)); do
        "$program/out/node_program" "$tenants" "$calls" >>"$room/of_cops"
        "$room/target/release/node" "$tenants" "$calls" >>"$room/of_plain"
    done
    # The same answers.
    cmp <(awk '{ print $1, $3 }' "$room/of_cops") <(awk '{ print $1, $3 }' "$room/of_plain")
    for call in put get; do
        echo "$tenants $call $(least "$room/of_cops" "$call") $(least "$room/of_plain" "$call")" |
            awk -v calls="$calls" '{ printf "| %d | %ss | %d | %d | %.2f |\n", $1, $2, calls / $3 * 1e9, calls / $4 * 1e9, $3 / $4 }'
    done
done
