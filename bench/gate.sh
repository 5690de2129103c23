#!/usr/bin/env bash
# Turns per second at one gate, and their ratios to a std::sync::Mutex and to plain ticket locks in the same run.
# Usage: gate.sh [times], the number of measurements whose median is printed.
# The gate's program is proved and built apart from the repository (room.sh).
set -eu
. "$(dirname "$0")/room.sh"
lay_out gate_program cops_types cops_gate
mkdir -p "$program/proofs/one"
cp "$here/gate_program_one.antt.txt" "$program/proofs/one/Invariants.antt"
build 1 1000 0
rustc --edition 2021 -O -o "$room/locks" "$here/locks.rs"
"$room/locks" "$program/out/gate_program" "${1:-9}"
