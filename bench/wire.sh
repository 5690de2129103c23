#!/usr/bin/env bash
# Messages per second of processor time that are decoded, encoded and answered on a connection, in ratio to plain Rust in the same run.
# Usage: wire.sh [times [thousands]]. Both programs run in turn, so many times each (9); so many thousand messages are served (300), and
# twenty times as many decoded and encoded. The median of the differences to runs over none counts.
# Messages are puts of 32 bytes, and get transactions of 4 keys. A decoder gets them in pieces of 4,096 bytes; a connection answers them at
# one node, behind a greeting, with a context for each eight, that is created before and deleted behind them.
# The program is proved and built apart from the repository (room.sh).
set -eu
. "$(dirname "$0")/room.sh"
times=${1:-9}
thousands=${2:-300}
lay_out wire_program cops_types cops_node cops_wire uuid
build decode put 0
build_plain
python3 - "$program/out/wire_program" "$room/target/release/frames" "$times" "$thousands" <<'END'
import resource
import statistics
import subprocess
import sys

ours, plain, times, thousands = sys.argv[1], sys.argv[2], int(sys.argv[3]), int(sys.argv[4])


def seconds(program, what, kind, count):
    """Processor time of a run, and what it prints."""
    before = resource.getrusage(resource.RUSAGE_CHILDREN)
    told = subprocess.run([program, what, kind, count], check=True, capture_output=True).stdout
    after = resource.getrusage(resource.RUSAGE_CHILDREN)
    return after.ru_utime + after.ru_stime - before.ru_utime - before.ru_stime, told


print("| What | Messages | `cops` | Plain | Ratio |\n|---|---|---|---|---|")
for what in "decode", "encode", "serve":
    count = thousands if what == "serve" else thousands * 20
    for kind in "put", "get":
        taken = {ours: [], plain: []}
        for _ in range(times):
            told = set()
            for program in ours, plain:
                idle, _ = seconds(program, what, kind, "0")
                busy, line = seconds(program, what, kind, str(count))
                taken[program].append(busy - idle)
                told.add(line)
            if len(told) > 1:
                sys.exit(f"{what} {kind}: {told}")
        rates = {program: count * 1000 / statistics.median(of) for program, of in taken.items()}
        print(f"| {what} | {kind}s | {rates[ours]:,.0f} | {rates[plain]:,.0f} | {rates[plain] / rates[ours]:.2f} |", flush=True)
END
