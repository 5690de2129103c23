#!/usr/bin/env bash
# Million calls per second that threads make at the nodes of a cluster through their seats, beside a std::sync::Mutex around each node of
# the plain program; and beside both, the same calls made by one thread at nodes alone, without gates and without locks.
# Usage: turns.sh [times [thousands]]. All four are measured in turn, so many times each (5), and medians are printed, of ratios too.
# All threads of a run make so many thousand puts together (400), or four times as many gets of the latest version. Each calls for a tenant
# of its own, who has put 500 keys at each node before; a thread stays at one node, or goes on to the next after each call. A put has a
# value of 32 bytes, four dependencies and one nearest; a call is made, and its reply given back, within the time that counts. The
# replies to all four are compared.
# The program of seats is proved and built apart from the repository (room.sh).
set -eu
. "$(dirname "$0")/room.sh"
lay_out turns_program cops_types cops_node cops_service uuid
build put 1 1 1000 0 seats
build_plain
python3 "$here/turns.py" "$program/out/turns_program" "$room/target/release/turns" "${1:-5}" "${2:-400}"
