#!/usr/bin/env python3
"""The speed of one build in ratio to another, by pairs of short runs, so that a busy machine disturbs both alike.

pairs.py turns OLD NEW PAIRS [ROW] [--ms 90] [--json FILE]
pairs.py serve OLD NEW PAIRS [ROW] [--ms 90] [--json FILE] [--server-cores LIST --client-cores LIST]

OLD and NEW are two builds of the program of seats (turns.sh), or of cops. A pair is a run of each, of so many milliseconds; which
comes first changes from pair to pair. Its ratio is the speed of NEW in ratio to OLD. Each row has so many pairs, a number that is
given before: no row stops early, and no pair is left out. Rows take turns, 20 pairs at a time. ROW: only rows whose names end so.
It prints each row's median, and its 95% interval by order statistics, which holds for any distribution.
With one connection, where the system puts server and client moves the speed by a tenth; the lists of cores hold them (taskset).
Of the plain program it takes load and workload: cargo build --release in bench/plain.
"""
import argparse
import json
import math
import os
import socket
import statistics
import subprocess
import sys

HERE = os.path.dirname(os.path.abspath(__file__))
CLIENTS = f"{HERE}/plain/target/release"
LIMIT = 0.95
BLOCK = 20


def output(words):
    return subprocess.run([*map(str, words)], check=True, stdout=subprocess.PIPE, text=True).stdout


class Turns:
    """A row of turns.py. Its runs are of the program of seats, which tells the nanoseconds of all calls."""

    def __init__(self, call, nodes, stride, threads):
        self.call, self.nodes, self.stride, self.threads = call, nodes, stride, threads
        self.name = f"{call}s, {nodes} nodes, {'round' if stride else 'one'}, {threads} threads"
        self.first_calls = 4_000 if call == "put" else 16_000
        self.replies = {}

    @classmethod
    def rows(cls, _):
        ways = ((1, 0), (4, 0), (4, 1), (16, 0), (16, 1))
        return [cls(call, *way, threads) for call in ("put", "get") for way in ways for threads in (1, 4, 8)]

    def open(self, programs):
        self.programs = programs

    def speed(self, side, calls):
        each = max(1, round(calls / self.threads))
        nanoseconds, replies = output([self.programs[side], self.call, self.threads, self.nodes, each, self.stride, "seats"]).split()
        if self.replies.setdefault(each, replies) != replies:
            sys.exit(f"{self.name}: the replies differ")
        return self.threads * each / int(nanoseconds) * 1e9

    def close(self):
        pass


class Serve:
    """A load of serve.py. Both servers run, and each run is of the client at one of them."""

    def __init__(self, kind, depth, connections, given):
        self.kind, self.depth, self.connections = kind, depth, connections
        self.name = f"{kind}, depth {depth}, {connections} connections"
        self.first_calls = 2_000
        self.server, self.client = held(given.server_cores), held(given.client_cores)

    @classmethod
    def rows(cls, given):
        kinds = ("puts", "gets of 1 key", "gets of 4 keys")
        return [cls(kind, depth, connections, given) for kind in kinds for depth in (1, 16) for connections in (1, 4, 16)]

    def load(self, side, requests, fill):
        reads = ["--reads", 0] if self.kind == "puts" else ["--reads", 100, "--fill", fill, "--get-keys", self.kind.split()[2]]
        words = [*self.client, f"{CLIENTS}/load", self.ports[side], "--keys", 1000, "--value", 64, "--tenants", 4]
        line = output([*words, "--connections", self.connections, "--depth", self.depth, "--requests", requests, *reads]).split()
        return float(line[line.index("per_second") + 1])

    def open(self, programs):
        head = output([f"{CLIENTS}/workload", "serve", "--tenants", 4]).encode()
        self.ports, self.running = [], []
        for program in programs:
            with socket.socket() as listener:
                listener.bind(("127.0.0.1", 0))
                port = listener.getsockname()[1]
            words = [*self.server, program, "serve", f"127.0.0.1:{port}", "--workers", str(self.connections), "--connections", "4294967295"]
            running = subprocess.Popen(words, stdin=subprocess.PIPE, stdout=subprocess.DEVNULL, stderr=subprocess.DEVNULL)
            running.stdin.write(head)
            running.stdin.flush()
            self.ports.append(port)
            self.running.append(running)
        # (the client waits until the port listens, and then puts each key once)
        for side in (0, 1):
            self.load(side, 500, 1)

    def speed(self, side, calls):
        return self.load(side, max(1, round(calls / self.connections)), 0)

    def close(self):
        for it in self.running:
            it.kill()
            it.wait()
            it.stdin.close()


def held(cores):
    return ["taskset", "-c", cores] if cores else []


def calls_of(row, seconds):
    """So many calls take both programs about that long, in the mean."""
    calls = row.first_calls
    for share in (0.4, 1, 1):
        # (one run that something else disturbed doesn't move the median)
        speed = statistics.median(row.speed(side, calls) for side in (0, 1, 1, 0))
        calls = max(speed * seconds * share, 1)
    return calls


def interval(ratios):
    """The 95% interval of the median: the kth ratio from below to the kth from above. None of fewer than 6 pairs."""
    count, ordered = len(ratios), sorted(ratios)
    ways, k = 0, 0
    while k < count and (ways + math.comb(count, k)) / 2**count <= 0.025:
        ways += math.comb(count, k)
        k += 1
    return (ordered[k - 1], ordered[count - k]) if k else (0.0, math.inf)


def measure(rows, programs, given):
    """The ratios of each row."""
    calls, ratios = {}, {it.name: [] for it in rows}
    for first in range(0, given.pairs, BLOCK):
        for row in rows:
            row.open(programs)
            try:
                if row.name not in calls:
                    calls[row.name] = calls_of(row, given.ms / 1000)
                for number in range(first, min(first + BLOCK, given.pairs)):
                    speeds = {side: row.speed(side, calls[row.name]) for side in ((0, 1) if number % 2 == 0 else (1, 0))}
                    ratios[row.name].append(speeds[1] / speeds[0])
            finally:
                row.close()
            print(f"{row.name}: {len(ratios[row.name])} pairs", file=sys.stderr, flush=True)
            if given.json:
                with open(given.json, "w", encoding="ascii") as file:
                    json.dump(ratios, file)
    return ratios


def main():
    parser = argparse.ArgumentParser(description=__doc__, formatter_class=argparse.RawDescriptionHelpFormatter)
    parser.add_argument("what", choices=("turns", "serve"))
    parser.add_argument("old")
    parser.add_argument("new")
    parser.add_argument("pairs", type=int)
    parser.add_argument("row", nargs="?", default="")
    parser.add_argument("--ms", type=float, default=90)
    parser.add_argument("--json")
    parser.add_argument("--server-cores")
    parser.add_argument("--client-cores")
    given = parser.parse_args()
    programs = [os.path.abspath(it) for it in (given.old, given.new)]
    rows = [it for it in {"turns": Turns, "serve": Serve}[given.what].rows(given) if it.name.endswith(given.row)]
    above = 0
    for name, ratios in measure(rows, programs, given).items():
        low, high = interval(ratios)
        above += low > LIMIT
        print(f"{name}: {statistics.median(ratios):.3f}, {low:.3f} to {high:.3f} ({len(ratios)} pairs)")
    print(f"{above} of {len(rows)} intervals are above {LIMIT}")


if __name__ == "__main__":
    main()
