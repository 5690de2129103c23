"""python -m cops_client HOST PORT TOKEN DC: one connection, and a command a line on standard input."""

from __future__ import annotations

import sys
import uuid

from .client import connect
from .faults import CopsError
from .lines import HELP, Lines

USAGE = f"""\
usage: python -m cops_client HOST PORT TOKEN DC

TOKEN is the tenant's, in any form of a UUID; DC the number of a data centre, from 0.
Then a command a line on standard input, each answered on standard output:

{HELP}

Status 0 at the end of input; 1 if the connection isn't available, is refused or ends; 2 for another command line."""


def _words(words: list[str]) -> tuple[str, int, uuid.UUID, int] | None:
    try:
        host, port, token, data_centre = words
        place = int(data_centre)
        return (host, int(port), uuid.UUID(token), place) if 0 <= place <= 255 else None
    except ValueError:
        return None


def main() -> int:
    if sys.argv[1:] in (["--help"], ["-h"]):
        print(USAGE)
        return 0
    words = _words(sys.argv[1:])
    if words is None:
        print(USAGE, file=sys.stderr)
        return 2
    try:
        with connect(*words) as connection:
            _talk(Lines(connection))
    except (CopsError, OSError, OverflowError) as error:
        print(f"cops_client: {error}", file=sys.stderr)
        return 1
    return 0


def _talk(lines: Lines) -> None:
    asks = sys.stdin.isatty()
    while True:
        if asks:
            print("> ", end="", flush=True)
        line = sys.stdin.readline()
        if not line or line.strip() == "quit":
            return
        reply = lines.answer(line)
        if reply:
            print(reply, flush=True)


if __name__ == "__main__":
    sys.exit(main())
