#!/usr/bin/env python3
"""What one process holds: bytes for a version, an audit row, a queued entry, a session, a context, a tenant.

Usage: bench/scale.py PROGRAM [WORD ..]. It runs `PROGRAM WORD .. run` over two scripts for each of these, one of which
has twice as many as the other, and divides what the second takes more (greatest resident memory) by how many more it
has. The last column is the processor time of one of them, by the same two runs. It needs GNU time. docs/SCALE.md has
figures."""

import subprocess
import sys
import tempfile

MOST = 4294967295
KEYS = [f"key{number:08}" for number in range(10000)]
SMALL, LARGE = "v" * 32, "v" * 1024


def head(data_centres=1, shards=1, tenants=1):
    yield f"cluster {data_centres} {shards} 5000 1"
    for number in range(tenants):
        yield f"tenant t{number} {number + 1:032x} 0 {MOST} {MOST} {MOST} {MOST} 1024 {MOST} {MOST}"
    yield "begin"


def opened(*sessions):
    for session in sessions:
        yield f"t0 open {session} 0"
        yield f"t0 ctx {session}"


def put(session, context, key, value):
    yield f"t0 put {session} {context} {key} {value}"
    yield f"t0 done {session} 0"


def puts(count, value=SMALL, data_centres=1, after=()):
    """Puts without dependencies, each in a context of its own, and lines after each."""
    yield from head(data_centres)
    yield "t0 open a 0"
    for number in range(count):
        yield "t0 ctx a"
        yield from put("a", number + 1, KEYS[number % len(KEYS)], value)
        yield f"t0 drop a {number + 1}"
        yield from after


def queued(count):
    yield from puts(count, data_centres=2)


def carried(count):
    yield from puts(count, data_centres=2, after=("t0 carry c 0 0 1", "t0 done c 0"))


def collected(count):
    """The same puts over 8 keys, each an hour after the one before, and each followed by a collection."""
    yield from head()
    yield "t0 open a 0"
    for number in range(count):
        moment = 3600000 * (number + 1)
        yield "t0 ctx a"
        yield f"t0 put a {number + 1} {KEYS[number % 8]} {SMALL}"
        yield f"t0 done a {moment}"
        yield f"t0 drop a {number + 1}"
        yield f"t0 collect 0 0 {moment}"


def large(count):
    yield from puts(count, LARGE)


def dependent(count, keys):
    """Puts in one context over so many keys, each of which depends on all of them."""
    yield from head()
    yield from opened("a")
    for number in range(count):
        yield from put("a", 1, KEYS[number % keys], SMALL)


def gets(count, key):
    yield from head()
    yield from opened("a")
    yield from put("a", 1, KEYS[0], SMALL)
    for _ in range(count):
        yield f"t0 get a 1 {key}"
        yield "t0 done a 0"


def sessions(count):
    yield from head()
    for number in range(count):
        yield f"t0 open s{number} 0"


def contexts(count):
    yield from head()
    yield "t0 open a 0"
    for _ in range(count):
        yield "t0 ctx a"


def tenants(count, data_centres, shards):
    yield from head(data_centres, shards, count)


CASES = (
    ("a version of 32 bytes, with no dependencies", puts, 200000),
    ("the same, and waiting for another data centre", queued, 200000),
    ("the same, and carried to another data centre", carried, 100000),
    ("the same, collected later, with the collection", collected, 100000),
    ("a version of 1,024 bytes, with no dependencies", large, 100000),
    ("a version of 32 bytes, with 8 dependencies", lambda count: dependent(count, 8), 200000),
    ("a version of 32 bytes, with 100 dependencies", lambda count: dependent(count, 100), 50000),
    ("an audit row: a get that finds 32 bytes", lambda count: gets(count, KEYS[0]), 200000),
    ("an audit row: a get that finds nothing", lambda count: gets(count, KEYS[1]), 200000),
    ("a session", sessions, 50000),
    ("an empty context", contexts, 100000),
    ("a tenant, on 1 node", lambda count: tenants(count, 1, 1), 32),
    ("a tenant, on 128 nodes", lambda count: tenants(count, 8, 16), 32),
    ("a tenant, on 512 nodes", lambda count: tenants(count, 8, 64), 32),
)


def measure(program, lines):
    """Bytes of memory at most, and seconds of the processor, by GNU time."""
    with tempfile.TemporaryFile() as script, tempfile.NamedTemporaryFile("r") as figures:
        for line in lines:
            script.write(line.encode() + b"\n")
        script.seek(0)
        words = ["/usr/bin/time", "-o", figures.name, "-f", "%M %U %S", *program, "run"]
        subprocess.run(words, stdin=script, stdout=subprocess.DEVNULL, check=True)
        memory, *seconds = figures.read().split()
    return int(memory) * 1024, sum(float(second) for second in seconds)


def main():
    program = sys.argv[1:]
    memory, _ = min(measure(program, head()) for _ in range(3))
    print("| Of each | Bytes | Processor microseconds |")
    print("|---|---|---|")
    print(f"| the process, with one tenant on one node | {memory:,} | |")
    memory, _ = min(measure(program, tenants(64, 8, 64)) for _ in range(3))
    print(f"| the process, with 64 tenants on 512 nodes | {memory:,} | |")
    for title, lines, count in CASES:
        runs = [[measure(program, lines(number)) for _ in range(3)] for number in (count, 2 * count)]
        (less, short), (more, long) = ([min(column) for column in zip(*run)] for run in runs)
        time = f"{1e6 * (long - short) / count:.1f}" if count > 1000 else ""
        print(f"| {title} | {(more - less) / count:,.0f} | {time} |", flush=True)


if __name__ == "__main__":
    main()
