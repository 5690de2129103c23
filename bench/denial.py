#!/usr/bin/env python3
"""Measures what clients and tenants can hold back who want to.

usage: bench/denial.py PROGRAM

It prints, for a service of two workers: the time and memory of 10,000 connections one after another; the memory that a
frame of 4,000,000 bytes takes which comes byte by byte; that of replies which nobody reads; and how long another client
waits meanwhile. Then, for scripts, the time of lines whose names share a hash in a table with no seed.
"""

import pathlib
import statistics
import subprocess
import sys
import time

ROOT = pathlib.Path(__file__).resolve().parents[1]
sys.dont_write_bytecode = True
sys.path[:0] = [str(ROOT / "tests" / "program" / "hostile"), str(ROOT / "tests" / "program" / "service"), str(ROOT / "clients" / "python")]

import collisions  # noqa: E402
import service  # noqa: E402
from cops_client.frames import CreateContext, GetTrans, Handle, Hello, Put  # noqa: E402
from service import Service, Tenant, frames, head, read_some, talk  # noqa: E402

ACME, BETA = Tenant("acme", 1), Tenant("beta", 2)
HELLO = frames([Hello(ACME.token, 0)])
CONVERSATION = frames([Hello(BETA.token, 0), CreateContext(), Put(Handle(1), b"x", b"10"), GetTrans(Handle(1), (b"x",))])


def waits(held: Service, times: int = 200) -> str:
    """How long beta's connections take, from the first byte to the end."""
    taken = []
    for _ in range(times):
        began = time.monotonic()
        talk(held.stream(), [CONVERSATION])
        taken.append(1e6 * (time.monotonic() - began))
    return f"beta's connections take {statistics.median(taken):.0f} us, the longest of {times} {max(taken):.0f}"


def service_of(connections: int) -> Service:
    return Service(head([ACME, BETA]), workers=2, connections=connections)


def one_after_another() -> None:
    count = 10_000
    with service_of(count) as held:
        began, sizes = time.monotonic(), []
        for number in range(count):
            with held.stream() as stream:
                stream.sendall(HELLO)
                read_some(stream, 5)
            if number % (count // 4) == count // 4 - 1:
                sizes.append(held.memory())
        print(f"{count} connections one after another: {time.monotonic() - began:.2f} s; resident after each quarter: {sizes}")
        held.audit()


def byte_by_byte(seconds: int) -> None:
    with service_of(600) as held:
        print("alone:", waits(held, 199))
        before = held.memory()
        with held.stream() as stream:
            stream.sendall(HELLO + (4_000_000).to_bytes(4, "big") + b"\4")
            for _ in range(seconds):
                time.sleep(1)
                stream.sendall(b"\0")
            print(f"a length of 4,000,000 and a byte a second for {seconds} s: {held.memory() - before} bytes more;", waits(held))
            stream.sendall(bytes(3_900_000))
            time.sleep(0.5)
            print(f"3,900,000 bytes of it: {held.memory() - before} bytes more;", waits(held, 100))
        print("gone:", waits(held, 99), f"{held.memory() - before} bytes more")


def unread() -> None:
    """Replies as large as they get, to short requests: 32 results, each with the longest value and 1,000 long dependencies."""
    longest = [f"{number:064}".encode() for number in range(990)]
    keys = [b"%c" % (97 + number) for number in range(26)] + [b"%d" % number for number in range(6)]
    with service_of(300) as held:
        stream = held.stream()
        stream.sendall(HELLO + frames([CreateContext()]))
        read_some(stream, 19)
        for key, value in [*((key, b"") for key in longest), *((key, bytes(4_096)) for key in keys)]:
            stream.sendall(frames([Put(Handle(1), key, value)]))
            read_some(stream, 4 + 1 + 1 + len(key) + 8)
        stream.sendall(frames([CreateContext()]))
        read_some(stream, 14)
        before = held.memory()
        get = frames([GetTrans(Handle(2), tuple(keys))])
        began = time.monotonic()
        stream.sendall(get)
        size = int.from_bytes(read_some(stream, 4), "big")
        read_some(stream, size)
        print(f"a request of {len(get)} bytes is answered by {size + 4} in {1e3 * (time.monotonic() - began):.1f} ms")
        stream.settimeout(0.5)
        sent, most = 0, 0
        try:
            while sent < 1 << 30:
                sent += stream.send(get * 100)
                most = max(most, held.memory() - before)
        except TimeoutError:
            pass
        for _ in range(20):
            time.sleep(0.05)
            most = max(most, held.memory() - before)
        print(f"such replies that nobody reads: {most} bytes more;", waits(held, 100))
        stream.close()
        print("gone:", waits(held, 100), f"{held.memory() - before} bytes more")


def script_time(names: list[str], lines: int) -> float:
    """Opens sessions of these names, and then lets another tenant take a step of its own so often. Seconds."""
    text = collisions.script(ACME, names, BETA, lines)
    began = time.monotonic()
    subprocess.run([*service.PROGRAM, "run"], input=text, stdout=subprocess.DEVNULL, check=True)
    return time.monotonic() - began


def colliding() -> None:
    count, lines = 100_000, 200_000
    for kind, names in (("other", collisions.other_names(count)), ("colliding", collisions.colliding_names(count, 14))):
        opened, stepped = script_time(names, 0), script_time(names, lines)
        print(f"{count} {kind} names: opened in {1e3 * opened:.1f} ms; {lines} lines of another tenant in {1e3 * (stepped - opened):.1f} ms")


def main() -> int:
    if len(sys.argv) < 2:
        print(__doc__.strip(), file=sys.stderr)
        return 2
    service.PROGRAM[:] = [str(pathlib.Path(sys.argv[1]).resolve()), *sys.argv[2:]]
    one_after_another()
    byte_by_byte(60)
    unread()
    colliding()
    return 0


if __name__ == "__main__":
    sys.exit(main())
