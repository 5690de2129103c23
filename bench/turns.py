"""turns.py SEATS MUTEXES TIMES THOUSANDS: the table of turns.sh. The programs are that of seats and the plain one."""

import statistics
import subprocess
import sys

seats, mutexes, times, thousands = sys.argv[1], sys.argv[2], int(sys.argv[3]), int(sys.argv[4])
# What is measured: each program, and how it makes the calls.
SIDES = (seats, "seats"), (mutexes, "mutexes"), (seats, "alone"), (mutexes, "alone")
WAYS = (1, 0, "at the node"), (4, 0, "at one node"), (4, 1, "goes round"), (16, 0, "at one node"), (16, 1, "goes round")


def run(program, how, what, threads, nodes, calls, stride):
    """Million calls a second, and the number that depends on all replies."""
    words = [program, what, *map(str, (threads, nodes, calls, stride)), how]
    nanos, told = subprocess.run(words, check=True, capture_output=True, text=True).stdout.split()
    return threads * calls * 1000 / int(nanos), told


print("| Calls | Nodes | Each thread | Threads | Seats | Mutexes | Ratio | `cops` alone | Plain alone | Ratio |")
print("|---|---|---|---|---|---|---|---|---|---|")
for what, total in ("put", thousands * 1000), ("get", thousands * 4000):
    for nodes, stride, way in WAYS:
        for threads in 1, 2, 4, 8:
            load = what, threads, nodes, total // threads, stride
            rounds = []
            for _ in range(times):
                told = [run(*side, *load) for side in SIDES]
                if len({number for _, number in told}) > 1:
                    sys.exit(f"{load}: {told}")
                speeds = [speed for speed, _ in told]
                rounds.append((*speeds[:2], speeds[0] / speeds[1], *speeds[2:], speeds[2] / speeds[3]))
            medians = [statistics.median(column) for column in zip(*rounds)]
            print(f"| {what}s | {nodes} | {way} | {threads} |", " | ".join(f"{median:.2f}" for median in medians), "|", flush=True)
