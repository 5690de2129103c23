"""A good script and its audit, and the hostile lines of the files beside this one."""

from __future__ import annotations

import pathlib
import re

HERE = pathlib.Path(__file__).resolve().parent

HEAD = [
    b"cluster 2 2 5000 1",
    b"tenant acme 00000000-0000-0000-0000-000000000001 0 100 10000 10 4 20 8 1000",
    b"tenant beta 00000000-0000-0000-0000-000000000002 0 100 10000 10 4 20 8 1000",
    b"begin",
]
#: An audit's.
AUDIT_HEAD = [b"layout 2", *HEAD]
#: What the hostile lines find: acme's session a with context 1, which has seen x, and beta with the same.
FRONT = [
    b"acme open a 0",
    b"acme ctx a",
    b"beta open a 0",
    b"beta ctx a",
    b"acme put a 1 x 10",
    b"acme done a 0",
    b"beta put a 1 x 99",
    b"beta done a 0",
]
#: What they change nothing of.
BACK = [
    b"beta get a 1 x",
    b"beta done a 1",
    b"acme put a 1 y 20",
    b"acme done a 1",
    b"acme show a 1",
    b"acme open b 1",
    b"acme ctx b",
    b"acme carry c 0 0 1",
    b"acme done c 2",
    b"acme get b 1 x y",
    b"acme done b 3",
    b"acme collect 0 0 9",
]
SCRIPT = b"\n".join([*HEAD, *FRONT, *BACK]) + b"\n"
TENANTS = ["acme", "beta"]
#: The ten words of tenants who may come, with tokens of nobody before them.
GAMA = b"gama 00000000-0000-0000-0000-000000000003 0 100 10000 10 4 20 8 1000"
ACME = HEAD[1].removeprefix(b"tenant ")
#: Tenants come and go: gama's slot is acme's in the end, and acme's the third.
LIVES = [
    *HEAD,
    *FRONT,
    b"+ " + GAMA,
    b"gama open a 0",
    b"gama ctx a",
    b"gama put a 1 x 7",
    b"gama done a 0",
    b"- gama",
    b"gama step a 0",
    b"- acme",
    b"+ " + GAMA.replace(b"gama ", b"acme "),
    b"acme open a 0",
    b"acme ctx a",
    b"acme get a 1 x",
    b"acme done a 1",
    b"+ acme" + GAMA[4:],
    b"+ " + GAMA.replace(b"3 0 100", b"4 0 100"),
    b"gama open a 1",
    b"- zeta",
    b"-",
    b"beta get a 1 x",
    b"beta done a 1",
]


def written(text: str) -> bytes:
    """The bytes of a line as these files write it."""
    bytes_of = lambda part: re.sub(rb"\\x(..)", lambda found: bytes([int(found[1], 16)]), part)  # noqa: E731
    line = text.encode()
    return bytes_of(re.sub(rb"\{([^{}]+)\*(\d+)\}", lambda found: found[1] * int(found[2]), line))


def lines_of(file: str) -> list[str]:
    text = (HERE / file).read_text(encoding="ascii")
    return [line for line in text.split("\n")[:-1] if line and not line.startswith("#")]


def event_lines() -> list[tuple[bytes, bytes]]:
    """Lines after the head, each with its reply."""
    pairs = [line.split(" | ", 1) for line in lines_of("lines")]
    return [(reply.encode(), written(line)) for reply, line in pairs]


def head_lines() -> list[bytes]:
    return [written(line) for line in lines_of("heads")]


def record_lines() -> list[bytes]:
    return [written(line) for line in lines_of("records")]


def changes(text: bytes, place: int) -> list[bytes]:
    """The text with the byte at a place changed in two ways, which others share with other places, and left out or put in
    twice."""
    ways = [1, 0x20, 0x80, 0, 0x0A, 0x0D, text[place] ^ 0x20, text[place] ^ 0x30, text[place] ^ 0xFF]
    others = [text[place] ^ ways[place % len(ways)], text[place] ^ ways[(place + 4) % len(ways)]]
    changed = [text[:place] + bytes([other]) + text[place + 1 :] for other in others if other != text[place]]
    return [*changed, text[:place] + text[place + place % 2 :] if place % 2 else text[: place + 1] + text[place:]]
