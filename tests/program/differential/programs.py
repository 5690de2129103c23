"""Runs programs over files, many times a second."""

from __future__ import annotations

import os
import pathlib
import signal
import subprocess
import tempfile
from dataclasses import dataclass

#: The longest time of one run, in seconds.
RUN_TIME = 20


class TooLong(Exception):
    pass


def _ring(number: int, frame: object) -> None:
    raise TooLong


@dataclass(frozen=True)
class Outcome:
    """What a run left."""

    status: int
    output: bytes
    faults: bytes


class Programs:
    """Runs commands in a folder of its own, one at a time."""

    def __init__(self, folder: pathlib.Path) -> None:
        names = ("input", "output", "faults")
        self._files = [os.open(folder / name, os.O_RDWR | os.O_CREAT | os.O_TRUNC, 0o600) for name in names]
        signal.signal(signal.SIGALRM, _ring)

    def run(self, command: list[str], text: bytes, variables: dict[str, str] | None = None) -> Outcome:
        """The program over some input, to its end, with these variables alone. TooLong if it doesn't come to one."""
        for file in self._files:
            os.ftruncate(file, 0)
            os.lseek(file, 0, os.SEEK_SET)
        _write_all(self._files[0], text)
        os.lseek(self._files[0], 0, os.SEEK_SET)
        places = [(os.POSIX_SPAWN_DUP2, file, stream) for stream, file in enumerate(self._files)]
        process = os.posix_spawn(command[0], command, variables or {}, file_actions=places)
        signal.alarm(RUN_TIME)
        try:
            status = os.waitstatus_to_exitcode(os.waitpid(process, 0)[1])
        except TooLong:
            os.kill(process, signal.SIGKILL)
            os.waitpid(process, 0)
            raise
        finally:
            signal.alarm(0)
        return Outcome(status, *map(_all_of, self._files[1:]))


def _write_all(file: int, text: bytes) -> None:
    while text:
        text = text[os.write(file, text) :]


def _all_of(file: int) -> bytes:
    read, size = b"", os.fstat(file).st_size
    while len(read) < size:
        read += os.pread(file, size - len(read), len(read))
    return read


def memory_folder() -> str | None:
    """Where files are made: in memory if that can be had."""
    return "/dev/shm" if os.access("/dev/shm", os.W_OK) else None


def working_folder() -> tempfile.TemporaryDirectory[str]:
    return tempfile.TemporaryDirectory(prefix="cops_random_", dir=memory_folder())


def build_plain(root: pathlib.Path) -> list[str]:
    """Builds the plain program if it isn't built, and gives its command."""
    folder = root / "bench" / "plain"
    subprocess.run(["cargo", "build", "--quiet", "--release", "--offline", "--bin", "plain"], cwd=folder, check=True)
    return [str(folder / "target" / "release" / "plain")]
