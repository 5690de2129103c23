"""Audit texts with something changed, for replays that differ."""

from __future__ import annotations

from random import Random

from cops_client.layout import NODE_BITS
from scripts import GREATEST_CLOCK, MOST, wrong_bytes, wrong_head

GREATEST_NODE = (1 << NODE_BITS) - 1
VERSIONS = ["0.0", "1.0", "1.1", "2.0", "1", "01.0", "1.0.0", f"1.{GREATEST_NODE}", f"1.{GREATEST_NODE + 1}"]
VERSIONS += [f"{GREATEST_CLOCK - 1}.0", f"{GREATEST_CLOCK}.0", f"{GREATEST_CLOCK + 1}.0"]
#: The limits of layout 1.
VERSIONS += ["1.255", "1.256", f"{(1 << 56) - 1}.255", f"{1 << 56}.0"]
WORDS = ["-", "x", "X", "latest", "newest", "10", "1", "yes", "no", "=", "", "E12", "E17", "absent", "gone"]
WORDS += ["x:1.0", "x:1.0,x:1.0", "x:1.0,y:2.0", "y:2.0,x:1.0", "x:1.0,x:2.0"]
REPLIES = ["absent", "nothing", "notyet", "gone 0", "committed", "already", "acked", "notfront", "E12", "E16", "stored 1.0"]


def changed(numbers: Random, audit: bytes) -> bytes:
    """The text with a record, a word or some bytes changed."""
    lines = audit.decode("latin-1").splitlines()
    begin = lines.index("begin") + 1
    head, records = lines[:begin], lines[begin:]
    draw = numbers.random()
    if draw < 0.05:
        head = wrong_head(numbers, head)
    elif draw < 0.15 or not records:
        return wrong_bytes(numbers, audit)
    else:
        place = numbers.randrange(len(records))
        records[place] = changed_record(numbers, records[place])
        if draw < 0.3:
            del records[place]
        elif draw < 0.4:
            records.insert(numbers.randrange(len(records) + 1), records[place])
    return ("\n".join([*head, *records]) + "\n").encode("latin-1")


def changed_record(numbers: Random, record: str) -> str:
    words = record.split(" ")
    place = numbers.randrange(1, len(words))
    lists = [at for at, word in enumerate(words) if word == "-" or ":" in word]
    draw = numbers.random()
    if lists and draw < 0.2:
        at = numbers.choice(lists)
        words[at] = changed_list(numbers, words[at])
    elif draw < 0.3:
        words[place] = numbers.choice(VERSIONS)
    elif draw < 0.5:
        words[place] = numbers.choice(WORDS)
    elif draw < 0.6 and "=" in words:
        words[words.index("=") + 1 :] = [numbers.choice(REPLIES)]
    elif draw < 0.7:
        words[2] = str(numbers.choice([0, 1, MOST, MOST + 1, numbers.randrange(10_000)]))
    elif draw < 0.8:
        words[1] = numbers.choice(["0.0", "0.1", "1.0", "7.15", "8.0", "0", "0.0.0", "00.0"])
    elif draw < 0.9:
        del words[place]
    elif draw < 0.95:
        words.insert(place, numbers.choice(WORDS))
    else:
        words[place] += "0" * 200_000
    return " ".join(words)


def changed_list(numbers: Random, word: str) -> str:
    """A list with a pair twice, out of order, with two versions of a key, added or left out."""
    pairs = [] if word == "-" else word.split(",")
    pair = numbers.choice(pairs or ["x:1.0"])
    key, version = pair.split(":")
    draw = numbers.random()
    if draw < 0.3:
        pairs.insert(numbers.randrange(len(pairs) + 1), f"{key}:{numbers.choice([version, '1.0', '9.0'])}")
    elif draw < 0.5:
        pairs.reverse()
    elif draw < 0.7 and pairs:
        pairs.remove(pair)
    else:
        pairs.insert(numbers.randrange(len(pairs) + 1), f"{numbers.choice(['x', 'y', 'zz'])}:1.0")
    return ",".join(pairs) or "-"
