"""Scripts whose names share a hash in a table with the toolchain's fixed state."""

from __future__ import annotations

import os
import pathlib
import subprocess
import tempfile

from service import Tenant, head

HERE = pathlib.Path(__file__).resolve().parent


def colliding_names(count: int, bits: int) -> list[str]:
    """For a table of up to 2^bits groups, each of some ten entries."""
    with tempfile.TemporaryDirectory() as folder:
        compiler, program = os.environ.get("CC", "cc"), f"{folder}/collide"
        subprocess.run([compiler, "-O2", "-o", program, str(HERE / "collide.c")], check=True)
        written = subprocess.run([program, str(count), str(bits)], stdout=subprocess.PIPE, check=True, text=True)
    return written.stdout.split()


def other_names(count: int) -> list[str]:
    return [f"n{number:07}" for number in range(count)]


def script(tenant: Tenant, names: list[str], other: Tenant, lines: int) -> bytes:
    """The tenant opens sessions of these names, and then another one takes steps of a hundred of its own."""
    text = [head([tenant, other]).rstrip("\n")]
    text += [f"{tenant.name} open {name} 0" for name in names]
    text += [f"{other.name} open b{number} 0" for number in range(100)]
    text += [f"{other.name} step b{number % 100} 0" for number in range(lines)]
    return ("\n".join(text) + "\n").encode()
