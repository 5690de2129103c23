#!/usr/bin/env bash
# How long calls of a store take: in ratio to a plain Rust HashMap of chains, with many versions of one key, and beside
# other tenants' records.
# Usage: store.sh [times], the number of measurements whose median is printed.
# The program is proved and built apart from the repository (room.sh).
set -eu
. "$(dirname "$0")/room.sh"
lay_out store_program cops_types cops_store
for pair in fill:i collect:i collect_little:i collect_all:slot; do
    mkdir -p "$program/proofs/${pair%:*}"
    sed -e "s/FUNCTION/${pair%:*}/" -e "s/LOOP/${pair#*:}/g" "$here/store_program_tenants.antt.txt" >"$program/proofs/${pair%:*}/Invariants.antt"
done
build 0 1000
rustc --edition 2021 -O -o "$room/maps" "$here/maps.rs"
"$room/maps" "$program/out/store_program" "${1:-5}"
