"""The line interface: a command a line, a reply a line."""

from __future__ import annotations

from typing import Callable

from .client import Connection, Context, Saw, Wrote
from .faults import Fault
from .frames import Pair, Read

HELP = """\
context               a new context
contexts              the numbers of the open contexts
put N KEY VALUE       stores a value in context N
get N KEY ..          reads keys in context N, all at once
history N             what context N did and saw, and its past
drop N                deletes context N
help                  this
quit                  ends; so does the end of input"""


def text_of(value: bytes) -> str:
    """A value as a word: as it is if its bytes are printable and no space, else in hexadecimal after 0x."""
    if value and all(0x21 <= byte <= 0x7E for byte in value) and not value.startswith(b"0x"):
        return value.decode("ascii")
    return "0x" + value.hex()


def _read(read: Read) -> str:
    value = "none" if read.value is None else text_of(read.value)
    return f"{read.key.decode()}={value}@{read.version}"


def _reads(reads: tuple[Read, ...]) -> str:
    return " ".join(map(_read, reads))


class Lines:
    """Answers lines over one connection."""

    def __init__(self, connection: Connection) -> None:
        self._connection = connection
        self._contexts: dict[int, Context] = {}
        self._commands: dict[str, Callable[[list[str]], str | None]] = {
            "context": self._context,
            "contexts": self._list,
            "put": self._put,
            "get": self._get,
            "history": self._history,
            "drop": self._drop,
            "help": lambda words: HELP if not words else None,
        }

    def answer(self, line: str) -> str:
        """The reply to a line. ConnectionEnded, ProtocolError and OSError end the talk."""
        words = line.split()
        if not words:
            return ""
        command = self._commands.get(words[0])
        try:
            reply = command(words[1:]) if command else None
        except Fault as fault:
            return str(fault)
        return f"what is '{line.strip()}'? try: help" if reply is None else reply

    def _named(self, word: str) -> Context | str:
        """The context of a number, or what is said if there is none here."""
        context = self._contexts.get(int(word)) if word.isdecimal() else None
        return context or f"no context {word}; try: context"

    def _context(self, words: list[str]) -> str | None:
        if words:
            return None
        context = self._connection.context()
        self._contexts[context.number] = context
        return f"context {context.number}"

    def _list(self, words: list[str]) -> str | None:
        if words:
            return None
        return " ".join(["contexts", *map(str, sorted(self._contexts))])

    def _put(self, words: list[str]) -> str | None:
        if len(words) != 3:
            return None
        context = self._named(words[0])
        if isinstance(context, str):
            return context
        stored = context.put(words[1], words[2])
        return f"stored {stored.key.decode()} {stored.version}"

    def _get(self, words: list[str]) -> str | None:
        if len(words) < 2:
            return None
        context = self._named(words[0])
        return context if isinstance(context, str) else _reads(context.get(*words[1:]))

    def _history(self, words: list[str]) -> str | None:
        if len(words) != 1:
            return None
        context = self._named(words[0])
        if isinstance(context, str):
            return context
        lines = []
        for operation in context.history:
            match operation:
                case Wrote(key, value, version):
                    lines.append(f"wrote {key.decode()}={text_of(value)}@{version}")
                case Saw(reads):
                    lines.append(f"saw {_reads(reads)}")
        past = [str(Pair(key, version)) for key, version in sorted(context.past.items())]
        return "\n".join([*lines, f"past {','.join(past) or '-'}"])

    def _drop(self, words: list[str]) -> str | None:
        if len(words) != 1:
            return None
        context = self._named(words[0])
        if isinstance(context, str):
            return context
        context.delete()
        del self._contexts[context.number]
        return "dropped"
