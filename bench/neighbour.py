#!/usr/bin/env python3
"""What a tenant's lines cost beside another tenant's queued and stale entries, in ratio to their cost alone.

Usage: bench/neighbour.py [--keys N] [--lines N] [--write FOLDER] PROGRAM [WORD ..]. It runs `PROGRAM WORD .. run` under
valgrind over four scripts: the head alone, with the tenant, with the neighbour, and with both. The neighbour puts each
of so many keys (100,000) twice, and nobody carries or collects for it: so half of its puts are stale, each under a
garbage-collection entry of its own, and all are queued. The tenant then puts, reads, carries and collects over 200
keys. The figures are instructions, so a busy machine doesn't matter. With --write the scripts are kept."""

import argparse
import os
import re
import subprocess
import tempfile

MOST = 4294967295
VALUE = "v" * 32


def head():
    yield "cluster 2 1 5000 1"
    for number, name in enumerate(("acme", "beta")):
        yield f"tenant {name} {number + 1:032x} 0 {MOST} {MOST} {MOST} {MOST} 1024 {MOST} {MOST}"
    yield "begin"


def neighbour(keys):
    """Two puts of each key, in contexts of eight puts each."""
    yield "beta open b 0"
    context = 0
    for number in range(2 * keys):
        if number % 8 == 0:
            if context:
                yield f"beta drop b {context}"
            context += 1
            yield "beta ctx b"
        yield f"beta put b {context} key{number % keys:08} {VALUE}"
        yield "beta done b 0"


def tenant(lines):
    """Rounds of nine lines, and two collections after every hundred."""
    yield "acme open a 0"
    for number in range(lines // 9):
        key, moment = f"key{number * 7919 % 200:08}", number + 1
        yield "acme ctx a"
        yield f"acme put a {number + 1} {key} {VALUE}"
        yield f"acme done a {moment}"
        yield f"acme carry c 0 0 1"
        yield f"acme done c {moment}"
        yield f"acme get a {number + 1} {key} key{number % 200:08}"
        yield f"acme done a {moment}"
        yield f"acme show a {number + 1}"
        yield f"acme drop a {number + 1}"
        if number % 100 == 99:
            yield f"acme collect 0 0 {moment}"
            yield f"acme collect 1 0 {moment}"


def scripts(keys, lines):
    return {
        "head": [*head()],
        "alone": [*head(), *tenant(lines)],
        "neighbour": [*head(), *neighbour(keys)],
        "both": [*head(), *neighbour(keys), *tenant(lines)],
    }


def instructions(program, script, name, folder):
    """The program's instructions over the script, and the lines that it answers the tenant with."""
    path = f"{folder}/{name}.script"
    with open(path, "w", encoding="ascii") as file:
        file.writelines(f"{line}\n" for line in script)
    words = ["valgrind", "--tool=callgrind", f"--callgrind-out-file={folder}/{name}.callgrind", *program, "run"]
    with open(path, "rb") as file:
        ran = subprocess.run(words, stdin=file, stdout=subprocess.PIPE, stderr=subprocess.PIPE, check=True)
    count = re.search(rb"Collected : (\d+)", ran.stderr)
    return int(count[1]), [line for line in ran.stdout.splitlines() if line.startswith(b"acme ")]


def main():
    words = argparse.ArgumentParser(description=__doc__.splitlines()[0])
    words.add_argument("--keys", type=int, default=100000)
    words.add_argument("--lines", type=int, default=90000)
    words.add_argument("--write", metavar="FOLDER")
    words.add_argument("program", nargs="+")
    given = words.parse_args()
    with tempfile.TemporaryDirectory() as passing:
        folder = given.write or passing
        os.makedirs(folder, exist_ok=True)
        made = scripts(given.keys, given.lines).items()
        found = {name: instructions(given.program, lines, name, folder) for name, lines in made}
    if found["alone"][1] != found["both"][1]:
        raise SystemExit("the tenant's replies differ")
    count = {name: it[0] for name, it in found.items()}
    alone, beside = count["alone"] - count["head"], count["both"] - count["neighbour"]
    replies = len(found["alone"][1])
    print(f"{replies} replies, {given.keys} stale and {2 * given.keys} queued entries of the neighbour")
    print(f"instructions alone {alone}, beside the neighbour {beside}, in ratio {beside / alone:.5f}")


if __name__ == "__main__":
    main()
