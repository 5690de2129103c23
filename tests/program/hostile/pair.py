"""The program under test and the plain one, over texts and over devices that fail."""

from __future__ import annotations

import pathlib

from programs import Outcome, Programs

PROGRAM: list[str] = []
PLAIN: list[str] = []

_parts: dict[str, object] = {}
_held = [0]


def prepare(folder: pathlib.Path) -> None:
    _parts["runner"], _parts["shim"] = Programs(folder), str(folder / "fail.so")


def held() -> int:
    """How many cases were held so far."""
    return _held[0]


def hold() -> None:
    _held[0] += 1


def failing(kind: str, **how: int) -> dict[str, str]:
    """The variables under which calls of this kind fail."""
    return {"LD_PRELOAD": str(_parts["shim"]), "FAILING_KIND": kind, **{f"FAILING_{key.upper()}": str(how[key]) for key in how}}


def program(words: list[str], text: bytes, variables: dict[str, str] | None = None) -> Outcome:
    hold()
    return _parts["runner"].run([*PROGRAM, *words], text, variables)  # type: ignore[attr-defined]


def plain(words: list[str], text: bytes) -> Outcome:
    return _parts["runner"].run([*PLAIN, *words], text)  # type: ignore[attr-defined]


class Different(AssertionError):
    pass


def both(words: list[str], text: bytes) -> Outcome:
    """The outcome of both programs, which has to be one."""
    ours, theirs = program(words, text), plain(words, text)
    if ours != theirs:
        raise Different(f"{words} over {shown(text)}\ngives {ours}\nand by the plain program {theirs}")
    return ours


def shown(text: bytes) -> str:
    return repr(text) if len(text) < 4_000 else f"{text[:1000]!r} .. {text[-1000:]!r}"
