#!/usr/bin/env python3
"""Prints the functions whose proofs took longest, in seconds, with the parts that took most of them.

tools/proof_times.py [--most N] [CRATE ..]

It reads when the files in a crate's out/incremental were written: each took the time since the one before. This holds for a
proof from nothing by one job (`rt check --jobs 1`). What several jobs prove side by side is mixed up, but the sum is right.
A large crate is proved by copies of the prover in turn: what a copy loads first counts for the first module that it writes.

The parts are the prover's modules: `Lts` types the body's borrows and drops, `Proof` and `Answers` have its goals. If `Lts` is
dear, values that own memory live across many exits: lend them to a function that has the exits.
"""
import argparse
import os
import re
import sys
from collections import Counter, defaultdict

sys.dont_write_bytecode = True
sys.path.insert(0, os.path.dirname(os.path.realpath(__file__)))
from prover import ROOT, crates_of_the_repository

# A module of a function's proof: the function's path, and the part.
MODULE = re.compile(r"Rattle-\w+-(?:proofs|specs)\.(?:contracts\.|declared\.)?([\w+.]*[\w+])\.([A-Z][A-Za-z]*)[-\d]*(?:\..*)?$")


def written(folder):
    """The modules of a proof that was kept, each with the seconds since the one before."""
    kept = f"{folder}/out/incremental"
    for build in os.listdir(kept) if os.path.isdir(kept) else []:
        times = sorted((it.stat().st_mtime, it.name[: -len(".oantt")]) for it in os.scandir(f"{kept}/{build}") if it.name.endswith(".oantt"))
        yield from ((time - before, name) for (before, _), (time, name) in zip(times, times[1:]))


def dearest(folder):
    """The functions of a proved crate: seconds, path, and the seconds of each part."""
    functions = defaultdict(Counter)
    for seconds, name in written(folder):
        module = MODULE.match(name)
        if module:
            functions[module[1]][module[2]] += seconds
    return sorted(((sum(parts.values()), path, parts) for path, parts in functions.items()), key=lambda it: -it[0])


def line(crate, seconds, path, parts):
    dear = " ".join(f"{part} {its:.1f}" for part, its in parts.most_common(3) if its >= 0.1 * seconds)
    return f"{seconds:8.1f}  {crate} {path.replace('.', '::')}: {dear}"


def main():
    parser = argparse.ArgumentParser(usage="tools/proof_times.py [--most N] [CRATE ..]")
    parser.add_argument("--most", type=int, default=30)
    parser.add_argument("crates", nargs="*", metavar="CRATE")
    given = parser.parse_args()
    crates = given.crates or [*crates_of_the_repository()]
    found = [(seconds, crate, path, parts) for crate in crates for seconds, path, parts in dearest(f"{ROOT}/crates/{crate}")]
    for seconds, crate, path, parts in sorted(found, key=lambda it: -it[0])[: given.most]:
        print(line(crate, seconds, path, parts))
    return 0


if __name__ == "__main__":
    sys.exit(main())
