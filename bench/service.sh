#!/usr/bin/env bash
# Million turns per second that threads make through the seats of a cluster, beside a std::sync::Mutex for each node.
# Usage: service.sh [times], the number of measurements whose median is printed (7).
# The program of seats is proved and built apart from the repository (room.sh).
set -eu
. "$(dirname "$0")/room.sh"
lay_out service_program cops_types cops_node cops_service
mkdir -p "$program/proofs/main" "$program/proofs/one"
cp "$here/service_program_main.antt.txt" "$program/proofs/main/Invariants.antt"
cp "$here/service_program_one.antt.txt" "$program/proofs/one/Invariants.antt"
build 1 1 1000 0 0
rustc --edition 2021 -O -o "$room/mutexes" "$here/mutexes.rs"
"$room/mutexes" "$program/out/service_program" "${1:-7}"
