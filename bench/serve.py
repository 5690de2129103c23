#!/usr/bin/env python3
"""Requests a second and latencies of `serve`, beside the plain program and redis-server. `serve.sh` says how it is called."""
import argparse
import os
import socket
import statistics
import subprocess
import sys
import tempfile
import time

KEYS = 1000
# What the command of the load client begins with.
HOLD = []
TICK = os.sysconf("SC_CLK_TCK")


def median(values):
    return statistics.median(values)


def connect(port):
    """A connection to the port, once something listens there."""
    until = time.monotonic() + 10
    while True:
        try:
            return socket.create_connection(("127.0.0.1", port))
        except OSError:
            if time.monotonic() > until:
                raise
            time.sleep(0.01)


def free_port():
    with socket.socket() as listener:
        listener.bind(("127.0.0.1", 0))
        return listener.getsockname()[1]


def processor_seconds(pid):
    with open(f"/proc/{pid}/stat", encoding="ascii") as file:
        fields = file.read().rpartition(")")[2].split()
    return (int(fields[11]) + int(fields[12])) / TICK


def told(line):
    """Requests, requests a second and the three percentiles in microseconds, as the load client prints them."""
    words = line.split()
    named = dict(zip(words[::2], map(float, words[1::2])))
    return named["requests"], [named[it] for it in ("per_second", "p50_us", "p99_us", "p999_us")]


class Service:
    """A running `serve` of one of the two programs. It takes one connection more than the loads make, which ends it."""

    def __init__(self, program, head, workers, connections, keeps_input=False):
        self.port = free_port()
        words = [*program.split(), "serve", f"127.0.0.1:{self.port}", "--workers", str(workers), "--connections", str(connections + 1)]
        self.said = tempfile.TemporaryFile()
        with open(head, "rb") as it:
            given = subprocess.PIPE if keeps_input else it
            self.running = subprocess.Popen(words, stdin=given, stdout=subprocess.DEVNULL, stderr=self.said)
            if keeps_input:
                self.running.stdin.write(it.read())
                self.running.stdin.flush()

    def end(self):
        connect(self.port).close()
        with self.said:
            if self.running.wait(120) != 0:
                self.said.seek(0)
                sys.exit(f"the service ended with a fault:\n{self.said.read().decode(errors='replace')}")


def load_words(room, port, options):
    return [*HOLD, f"{room}/load", str(port), "--keys", str(KEYS), "--value", "64", *map(str, options)]


def serve_once(room, program, connections, depth, kind):
    service = Service(program, f"{room}/head", connections, connections)
    reads = ["--reads", 0] if kind == "puts" else ["--reads", 100, "--fill", 1, "--get-keys", kind.split()[1]]
    requests = (20_000 if depth == 1 else 60_000) // connections + 2_000
    words = load_words(room, service.port, ["--connections", connections, "--tenants", 4, "--depth", depth, "--requests", requests, *reads])
    line = subprocess.run(words, check=True, capture_output=True, text=True).stdout
    seconds = processor_seconds(service.running.pid)
    service.end()
    made, figures = told(line)
    if "--fill" in reads:
        made += connections * KEYS
    return [*figures, seconds / made * 1e6]


def redis_once(connections, depth, kind):
    port = free_port()
    words = ["redis-server", "--port", str(port), "--save", "", "--appendonly", "no", "--bind", "127.0.0.1"]
    server = subprocess.Popen(words, stdout=subprocess.DEVNULL)
    connect(port).close()
    client = ["redis-benchmark", "-p", str(port), "-r", str(KEYS), "-d", "64", "--threads", str(min(connections, 4))]
    subprocess.run([*client, "-q", "-n", "20000", "-P", "16", "-t", "set"], check=True, stdout=subprocess.DEVNULL)
    before = processor_seconds(server.pid)
    # (with threads it looks only each quarter of a second whether it has all replies, so a run has to take many of these)
    requests = (100_000 if depth == 1 else 600_000) * (1 if connections == 1 else 5)
    calls = {"puts": ["-t", "set"], "gets 1": ["-t", "get"], "gets 4": ["MGET", *["key:__rand_int__"] * 4]}
    words = [*client, "-c", str(connections), "-P", str(depth), "-n", str(requests), *calls[kind]]
    text = subprocess.run(words, check=True, capture_output=True, text=True).stdout.replace("\r", "\n")
    seconds = processor_seconds(server.pid) - before
    server.terminate()
    server.wait()
    rate, below = 0.0, []
    for line in text.splitlines():
        if "throughput summary" in line:
            rate = float(line.split()[2])
        if "% <= " in line and "cumulative" in line:
            below.append((float(line.split("%")[0]), float(line.split()[2])))
    at = lambda percent: next((ms for share, ms in below if share >= percent), below[-1][1]) * 1000
    return [rate, at(50), at(99), at(99.9), seconds / requests * 1e6]


def rows(arguments, room):
    print("| Requests | Depth | Connections | `cops` a second | Plain | redis | Ratio | p50 µs | p99 µs | p99.9 µs | Ratios | Processor µs a request | Ratio |")
    print("|---|---|---|---|---|---|---|---|---|---|---|---|---|")
    for kind in ("puts", "gets 1", "gets 4"):
        for depth in (1, 16):
            for connections in (1, 4, 16):
                ours, plain, redis = [], [], []
                for number in range(arguments.times):
                    turns = [(ours, arguments.program), (plain, arguments.plain)]
                    # (each begins every other round)
                    for runs, program in turns if number % 2 == 0 else turns[::-1]:
                        runs.append(serve_once(room, program, connections, depth, kind))
                    if arguments.redis:
                        redis.append(redis_once(connections, depth, kind))
                middle = [[median(it[place] for it in runs) if runs else 0 for place in range(5)] for runs in (ours, plain, redis)]
                ratio = [median(a[place] / max(b[place], 1e-9) for a, b in zip(ours, plain)) for place in range(5)]
                latencies = " | ".join(" / ".join(f"{it[place]:.0f}" for it in middle) for place in (1, 2, 3))
                print(
                    f"| {kind} | {depth} | {connections} | {middle[0][0]:.0f} | {middle[1][0]:.0f} | {middle[2][0]:.0f} | {ratio[0]:.2f} | {latencies} "
                    f"| {ratio[1]:.2f} {ratio[2]:.2f} {ratio[3]:.2f} | {middle[0][4]:.1f} / {middle[1][4]:.1f} / {middle[2][4]:.1f} | {ratio[4]:.2f} |",
                    flush=True,
                )


def beside_once(room, program, flooded):
    """The latencies of one tenant's puts at depth 1, alone or beside a neighbour who floods another worker."""
    service = Service(program, f"{room}/head", 2, 1 + flooded)
    flood = None
    if flooded:
        words = load_words(room, service.port, ["--connections", 1, "--first-tenant", 1, "--depth", 64, "--reads", 0, "--requests", 1_000_000])
        flood = subprocess.Popen(words, stdout=subprocess.DEVNULL)
        time.sleep(0.1)
    words = load_words(room, service.port, ["--connections", 1, "--depth", 1, "--reads", 50, "--requests", 10_000])
    _, figures = told(subprocess.run(words, check=True, capture_output=True, text=True).stdout)
    if flood:
        if flood.poll() is not None:
            print("(the flood ended too early)", file=sys.stderr)
        flood.wait()
    service.end()
    return figures


def beside(arguments, room):
    print("| Program | p50 µs alone | flooded | p99 alone | flooded | Ratio of p99 |")
    print("|---|---|---|---|---|---|")
    for name, program in (("`cops`", arguments.program), ("plain", arguments.plain)):
        alone, flooded = [], []
        for _ in range(arguments.times):
            alone.append(beside_once(room, program, False))
            flooded.append(beside_once(room, program, True))
        ratio = median(b[2] / a[2] for a, b in zip(alone, flooded))
        of = lambda runs, place: f"{median(it[place] for it in runs):.0f}"
        print(f"| {name} | {of(alone, 1)} | {of(flooded, 1)} | {of(alone, 2)} | {of(flooded, 2)} | {ratio:.2f} |", flush=True)


def admission_of(head):
    """The line that admits one more tenant, with the quotas of the first tenant of a head."""
    with open(head, encoding="ascii") as file:
        words = next(line.split() for line in file if line.startswith("tenant "))
    return " ".join(["+", "late", "f" * 32, *words[3:]])


def come_and_go(service, head, lives, seconds):
    """The operator admits and closes a tenant so often, evenly over so many seconds. Returns how many lines were not followed."""
    pair = f"{admission_of(head)}\n- late\n".encode()
    batches = lives // 10
    for _ in range(batches):
        service.running.stdin.write(pair * 10)
        service.running.stdin.flush()
        time.sleep(seconds / batches)
    until, said = time.monotonic() + 30, b""
    while said.count(b"\n- ") < 2 * lives and time.monotonic() < until:
        time.sleep(0.05)
        said = os.pread(service.said.fileno(), os.fstat(service.said.fileno()).st_size, 0)
    return 2 * lives - said.count(b"- admitted late\n") - said.count(b"- closed late\n")


def lives_once(room, program, lives, seconds):
    """The latencies of one tenant's requests at depth 1, alone or while the operator admits and closes another one, evenly over so
    many seconds. Returns also how long the requests took."""
    service = Service(program, f"{room}/head", 2, 1, keeps_input=True)
    words = load_words(room, service.port, ["--connections", 1, "--depth", 1, "--reads", 50, "--requests", 300_000])
    began = time.monotonic()
    with subprocess.Popen(words, stdout=subprocess.PIPE, text=True) as load:
        if lives and (lost := come_and_go(service, f"{room}/head", lives, seconds)):
            print(f"({lost} lines of the operator were not followed)", file=sys.stderr)
        if lives and load.poll() is not None:
            print("(the load ended too early)", file=sys.stderr)
        line, _ = load.communicate()
    took = time.monotonic() - began
    service.end()
    return told(line)[1], took


def lives(arguments, room):
    print("| Tenants | p50 µs | p99 | p99.9 |")
    print("|---|---|---|---|")
    alone, beside = [], []
    # (the lines come over less time than the fastest run without them took)
    seconds = lives_once(room, arguments.program, 0, 0)[1] * 0.7
    for number in range(arguments.times):
        turns = [(alone, 0), (beside, arguments.lives)]
        for runs, count in turns if number % 2 == 0 else turns[::-1]:
            figures, took = lives_once(room, arguments.program, count, seconds)
            runs.append(figures)
            seconds = min(seconds, took * 0.7)
    for name, runs in (("stay", alone), (f"{arguments.lives} admissions and closes", beside)):
        print(f"| {name} | " + " | ".join(f"{median(it[place] for it in runs):.0f}" for place in (1, 2, 3)) + " |")
    print(f"| ratio | " + " | ".join(f"{median(b[place] / a[place] for a, b in zip(alone, beside)):.2f}" for place in (1, 2, 3)) + " |", flush=True)


def main():
    parser = argparse.ArgumentParser()
    parser.add_argument("program")
    parser.add_argument("plain")
    parser.add_argument("clients", help="where load and workload are")
    parser.add_argument("--times", type=int, default=5)
    parser.add_argument("--redis", action="store_true")
    parser.add_argument("--lives", type=int, default=10_000, help="how often a tenant comes and goes")
    parser.add_argument("--only", choices=("rows", "beside", "lives"))
    parser.add_argument("--client-cores", help="the cores that hold the load client (taskset); PROGRAM may begin with taskset too")
    arguments = parser.parse_args()
    if arguments.client_cores:
        HOLD.extend(["taskset", "-c", arguments.client_cores])
    with tempfile.TemporaryDirectory() as room:
        os.symlink(os.path.abspath(f"{arguments.clients}/load"), f"{room}/load")
        with open(f"{room}/head", "wb") as head:
            subprocess.run([f"{arguments.clients}/workload", "serve", "--tenants", "4"], check=True, stdout=head)
        parts = {"rows": rows, "beside": beside, "lives": lives}
        for part in [arguments.only] if arguments.only else parts:
            parts[part](arguments, room)
            print()


main()
