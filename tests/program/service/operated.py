"""A service whose operator reads its standard error and writes to its standard input."""

from __future__ import annotations

import re
import resource
import time
from typing import Callable

from service import MOST, PROGRAM, SERVICE_TIME, Service

LISTENS = re.compile(r"cops: listening on (\S+):(\d+)\n")
SERVED = re.compile(r"cops: served (\d+) connections, (\d+) requests, (\d+) refused\n")
#: A service that can't accept connections for a time may say so afterwards.
ACCEPTS_AGAIN = re.compile(r"cops: accepting again after \d+ failures\n")


def wait_until(holds: Callable[[], bool], what: str, seconds: float = SERVICE_TIME) -> float:
    """Waits until something holds, and gives the seconds that this took."""
    began = time.monotonic()
    while not holds():
        if time.monotonic() - began > seconds:
            raise AssertionError(f"not within {seconds} s: {what}")
        time.sleep(0.005)
    return time.monotonic() - began


class Operated(Service):
    """The program at a port that the system chooses, which it says. It ends by the line `end`."""

    def __init__(
        self, text: str, workers: int, *options: str, program: list[str] = PROGRAM, host: str = "127.0.0.1", descriptors: int = 0
    ) -> None:
        super().__init__(text, workers, MOST, program)
        self._words = [f"{host}:0", "--workers", str(workers), *options]
        self._descriptors = descriptors

    def _start(self) -> None:
        how = {"preexec_fn": self._limit} if self._descriptors else {}
        self._launch(*self._words, **how)
        wait_until(lambda: LISTENS.search(self.said()) is not None or self._process.poll() is not None, "it listens")
        listens = LISTENS.match(self.said())
        assert listens is not None, self.said()
        self.host, self.port = listens[1], int(listens[2])

    def _limit(self) -> None:
        resource.setrlimit(resource.RLIMIT_NOFILE, (self._descriptors, self._descriptors))

    def is_running(self) -> bool:
        return self._process.poll() is None

    def end(self) -> str:
        """Asks the service to end, waits until it does and gives the audit."""
        self.write(b"end\n")
        return self.ended()

    def ended(self) -> str:
        """Waits for the end of a service that was asked for it, and gives the audit."""
        outcome = self.status(), self.faults()
        assert outcome == (0, ""), outcome
        return self.written().decode()

    def served(self) -> tuple[int, int, int]:
        """How many connections, requests and refusals it counted, once it has ended."""
        found = SERVED.search(self.said())
        assert found is not None, self.said()
        return int(found[1]), int(found[2]), int(found[3])
