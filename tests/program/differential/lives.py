"""The tenants of a script, told by the script alone: who is open at which line, and which lines each life of a name has.

It knows nothing of the replies to tenants. It knows all replies to the host, whose reply each line gets and who is open at
the end.
"""

from __future__ import annotations

import re
from dataclasses import dataclass, field

from cops_client.layout import CLOCK_BITS

LONGEST_LINE = 8_192
MOST_SLOTS = 64
MOST_QUOTA = 4_294_967_295
#: What the numbers of a tenant's line may be at most, in order: the clock, then the quotas.
GREATEST = [(1 << CLOCK_BITS) - 1, MOST_QUOTA, MOST_QUOTA, MOST_QUOTA, MOST_QUOTA, 1_024, MOST_QUOTA, MOST_QUOTA]

_NAME = re.compile(rb"[a-z0-9_]{1,16}\Z")
_NUMBER = re.compile(rb"(0|[1-9][0-9]{0,19})\Z")
_PARTS = rb"[0-9a-f]{8}-[0-9a-f]{4}-[0-9a-f]{4}-[0-9a-f]{4}-[0-9a-f]{12}"
_TOKEN = re.compile(rb"([0-9a-f]{32}|P|\{P\}|urn:uuid:P)\Z".replace(b"P", _PARTS), re.IGNORECASE)


@dataclass
class Life:
    """From one admission of a name to its close, or to the end."""

    name: bytes
    #: The ten words in their one form, as a head has them behind `tenant`.
    words: bytes
    token: bytes
    lines: list[bytes] = field(default_factory=list)
    #: The places of its lines among all lines after the head.
    places: list[int] = field(default_factory=list)


def life_of(words: list[bytes]) -> Life | None:
    """The life that ten words begin; None if they are of no form."""
    if len(words) != 10 or not _NAME.match(words[0]) or not _TOKEN.match(words[1]):
        return None
    for word, greatest in zip(words[2:], GREATEST):
        if not _NUMBER.match(word) or int(word) > greatest:
            return None
    digits = words[1].lower().removeprefix(b"urn:uuid:").translate(None, b"{}-")
    token = b"-".join(digits[start:end] for start, end in ((0, 8), (8, 12), (12, 16), (16, 20), (20, 32)))
    return Life(words[0], b" ".join([words[0], token, *words[2:]]), token)


class Lives:
    """The lives of a script whose head is good."""

    def __init__(self, text: bytes) -> None:
        lines = text.split(b"\n")
        if not lines[-1]:
            lines.pop()
        begin = lines.index(b"begin")
        self.shape = lines[0]
        self.slots: list[Life | None] = [None] * MOST_SLOTS
        #: All lives, by the order of their admissions.
        self.all: list[Life] = []
        for slot, line in enumerate(lines[1:begin]):
            self._open(slot, line.split(b" ")[1:])
        #: For each line after the head its whole reply if it goes to the host, and else the name before it.
        self.told = [self._told(place, line) for place, line in enumerate(lines[begin + 1 :])]

    def of(self, name: bytes) -> list[Life]:
        return [life for life in self.all if life.name == name]

    def audit_head(self) -> list[bytes]:
        """The lines before the records of the audit: the tenants who are open at the end, in the order of their slots."""
        return [b"layout 2", self.shape, *(b"tenant " + life.words for life in self.slots if life), b"begin"]

    def alone(self, life: Life) -> bytes:
        """A script whose only tenant has this one life."""
        return b"\n".join([self.shape, b"tenant " + life.words, b"begin", *life.lines]) + b"\n"

    def _open(self, slot: int, words: list[bytes]) -> Life:
        life = life_of(words)
        assert life is not None, words
        self.slots[slot] = life
        self.all.append(life)
        return life

    def _told(self, place: int, line: bytes) -> bytes:
        first, *words = line.split(b" ")
        if first in (b"+", b"-"):
            return b"- " + self._host(first, words, len(line) > LONGEST_LINE)
        for life in self.slots:
            if life and life.name == first:
                life.lines.append(line)
                life.places.append(place)
                return first
        return b"- E02"

    def _host(self, sign: bytes, words: list[bytes], is_over_long: bool) -> bytes:
        if sign == b"-":
            if is_over_long or len(words) != 1 or not _NAME.match(words[0]):
                return b"E01"
            for slot, life in enumerate(self.slots):
                if life and life.name == words[0]:
                    self.slots[slot] = None
                    return b"closed " + life.name
            return b"E02"
        life = life_of(words)
        if is_over_long or life is None:
            return b"E01"
        if any(other and (other.name == life.name or other.token == life.token) for other in self.slots):
            return b"E04"
        for slot, other in enumerate(self.slots):
            if other is None:
                self._open(slot, words)
                return b"admitted " + life.name
        return b"E28"
