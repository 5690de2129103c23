"""One random case: a script with what its commands answer, or a service with what its connections are answered."""

from __future__ import annotations

import pathlib
from collections import Counter
from dataclasses import dataclass
from random import Random

import audits
from lives import Lives
from programs import Outcome, Programs
from scripts import ScriptMaker
from services import converse
from streams import StreamMaker

COMMANDS = ["run", "solo", "audit", "replay", "migrate", "serve"]

#: Every kind of reply and every refusal that a script can meet.
SCRIPT_REPLIES = {
    *(f"E{number:02}" for number in [1, *range(3, 19), 22, 24, 25]),
    *"opened context dropped started all working restarted stored values removed nothing waits".split(),
    "committed acked", "already notfront", "- E01", "- E02", "- E04", "- E28", "- admitted", "- closed",
}  # fmt: skip
#: For how many names of a script its lines are run alone.
MOST_ALONE = 5
#: Every kind of reply and every refusal that a stream can meet if replies don't depend on time.
STREAM_REPLIES = {
    *"81 82 83 84 85".split(),
    *(f"ff{number:02x}" for number in [1, 2, 7, 8, 9, 10, 11, 12, 13, 15, 16, 22, 24]),
}


class Difference(Exception):
    """The two programs answer otherwise, or one contradicts itself."""

    def __init__(self, what: str, files: dict[str, bytes]) -> None:
        super().__init__(what)
        self.files = files


@dataclass
class Pair:
    """The program under test, and the plain one."""

    program: list[str]
    plain: list[str]
    commands: list[str]
    runner: Programs

    def both(self, words: list[str], text: bytes) -> Outcome:
        """The outcome of both, which has to be one."""
        ours, theirs = self.each(words, text)
        if ours != theirs:
            raise self.difference(words, text, ours, theirs)
        return ours

    def both_but_for_fronts(self, words: list[str], text: bytes) -> Outcome:
        """The same, but if they end early each may have written a prefix of its own length."""
        ours, theirs = self.each(words, text)
        one_goes_on = ours.output.startswith(theirs.output) or theirs.output.startswith(ours.output)
        if (ours.status, ours.faults) != (theirs.status, theirs.faults) or not one_goes_on or ours.status == 0 and ours != theirs:
            raise self.difference(words, text, ours, theirs)
        return ours

    def each(self, words: list[str], text: bytes) -> tuple[Outcome, Outcome]:
        return self.runner.run([*self.program, *words], text), self.runner.run([*self.plain, *words], text)

    @staticmethod
    def difference(words: list[str], text: bytes, ours: Outcome, theirs: Outcome) -> Difference:
        files = {"input": text}
        for name, outcome in (("program", ours), ("plain", theirs)):
            files[name] = outcome.output + outcome.faults + b"status %d\n" % outcome.status
        return Difference(" ".join(words), files)


def kinds(output: bytes) -> Counter[str]:
    """How often each kind of reply stands in the output of a run."""
    seen: Counter[str] = Counter()
    for line in output.decode("latin-1").splitlines():
        name, word, *rest = line.split(" ")
        if name == "-":
            seen[f"- {word}"] += 1
        elif word in ("committed", "already"):
            seen[f"{word} {rest[-1]}"] += 1
        else:
            seen["values" if "=" in word else word] += 1
    return seen


def hold_script(pair: Pair, numbers: Random) -> Counter[str]:
    """A script: what is run, the replies to each name alone, the audit, and its replays. The kinds of replies."""
    maker = ScriptMaker(numbers)
    return compare_script(pair, numbers, maker.text(), maker.host.names)


def compare_script(pair: Pair, numbers: Random, text: bytes, names: list[str]) -> Counter[str]:
    run = pair.both(["run"], text) if "run" in pair.commands else None
    lives = Lives(text) if run is not None and run.status == 0 else None
    if run is not None and lives is not None:
        compare_lives(pair, numbers, text, run, lives)
    if "solo" in pair.commands:
        if lives is not None:
            names = [*{life.name.decode() for life in lives.all}, *names[:2]]
        # In the order of the names, as a set has no order that a seed gives again.
        chosen = numbers.sample(sorted(set(names)), min(len(set(names)), MOST_ALONE))
        for name in [*chosen, numbers.choice(["zeta", "Acme", "", "+", "name_of_17_bytes_"])]:
            compare_alone(pair, text, run, lives, name)
    if "audit" in pair.commands:
        audit = pair.both(["audit"], text)
        if audit.status == 0 and lives is not None:
            head = lives.audit_head()
            if audit.output.splitlines()[: len(head)] != head:
                raise Difference("an audit's head isn't who is open", {"input": text, "audit": audit.output})
        if audit.status == 0 and "replay" in pair.commands:
            compare_replays(pair, numbers, audit.output)
    return kinds(run.output) if run is not None else Counter()


def compare_lives(pair: Pair, numbers: Random, text: bytes, run: Outcome, lives: Lives) -> None:
    """Each reply is to whom it belongs, the host's are those of a table of tenants, and a life gets the replies of a
    cluster of its own."""
    replies = run.output.splitlines()
    for wanted, reply in zip(lives.told, replies):
        if reply != wanted if wanted.startswith(b"- ") else not reply.startswith(wanted + b" "):
            raise Difference("run isn't as the table of tenants", {"input": text, "told": reply, "wanted": wanted})
    if len(replies) != len(lives.told):
        raise Difference("run has more or fewer replies than lines", {"input": text, "run": run.output})
    for life in numbers.sample(lives.all, min(len(lives.all), 2)):
        alone = pair.both(["run"], lives.alone(life)).output.splitlines()
        told = [replies[place] for place in life.places]
        if alone != told:
            files = {"life": lives.alone(life), "alone": b"\n".join(alone), "told": b"\n".join(told)}
            raise Difference("a life is told otherwise alone", {"input": text, **files})


def compare_alone(pair: Pair, text: bytes, run: Outcome | None, lives: Lives | None, name: str) -> None:
    """A name alone gets its replies of the whole run, life after life; or E02 if it was never open."""
    alone = pair.both(["solo", name], text)
    if run is None or lives is None:
        return
    own = b"".join(line for line in run.output.splitlines(True) if line.startswith(name.encode() + b" "))
    wanted = Outcome(0, own, b"") if lives.of(name.encode()) else Outcome(2, b"", b"cops: E02\n")
    if alone != wanted:
        raise Difference(f"solo {name} isn't its part of run", {"input": text, "run": own, "solo": alone.output})


def compare_files_of_nobody(pair: Pair, audit: bytes) -> None:
    """An audit whose head has no tenant, and the same as a file of layout 1."""
    for file in audit, audit.split(b"\n", 1)[1]:
        pair.both(["replay", "zeta"], file)
        if "migrate" in pair.commands:
            pair.both(["migrate"], file)


def compare_replays(pair: Pair, numbers: Random, audit: bytes) -> None:
    names = [line.split(b" ")[1].decode() for line in audit.splitlines() if line.startswith(b"tenant ")]
    if not names:
        compare_files_of_nobody(pair, audit)
        return
    name = numbers.choice(names)
    count = sum(line.startswith(name.encode() + b" ") for line in audit.splitlines())
    replayed = pair.both(["replay", name], audit)
    if replayed != Outcome(0, b"same %d\n" % count, b""):
        raise Difference(f"replay {name} of its own audit", {"input": audit, "output": replayed.output})
    pair.both(["replay", name], audits.changed(numbers, audit))
    # The same records in a file of layout 1, which has no line for its layout.
    old = audit.split(b"\n", 1)[1]
    replayed = pair.both(["replay", name], old)
    pair.both(["replay", name], audits.changed(numbers, old))
    if "migrate" in pair.commands:
        compare_migrations(pair, numbers, name, old, replayed)


def compare_migrations(pair: Pair, numbers: Random, name: str, old: bytes, replayed: Outcome) -> None:
    """A file of layout 1, whole and changed: brought to today's layout it has its lines still, and is replayed as before."""
    changed = audits.changed(numbers, old)
    for text, before in ((old, replayed), (changed, pair.both(["replay", name], changed))):
        moved = pair.both_but_for_fronts(["migrate"], text)
        if moved.status == 0 and text is old and moved.output != b"layout 2\n" + old:
            raise Difference("a migration changes the text of an audit", {"input": old, "output": moved.output})
        if moved.status == 0 and pair.both(["replay", name], moved.output) != before:
            raise Difference(f"replay {name} of a migrated file", {"input": text, "output": moved.output})


def hold_service(pair: Pair, numbers: Random) -> Counter[str]:
    """A service: what each connection is answered, and both audits, each replayed by both programs."""
    maker = StreamMaker(numbers)
    ours, our_audit = converse(pair.program, maker.head, maker.connections)
    theirs, their_audit = converse(pair.plain, maker.head, maker.connections)
    seen: Counter[str] = Counter()
    for pieces, our, their in zip(maker.connections, ours, theirs):
        if our != their:
            files = {"head": maker.head.encode(), "sent": b"|".join(piece.hex().encode() for piece in pieces)}
            raise Difference("serve", {**files, "program": our.hex().encode(), "plain": their.hex().encode()})
        while their:
            size = int.from_bytes(their[:4], "big") + 4
            seen[their[4 : 6 if their[4] == 0xFF else 5].hex()] += 1
            their = their[size:]
    for audit in (our_audit, their_audit):
        for name in maker.names:
            count = sum(line.startswith(name.encode() + b" ") for line in audit.splitlines())
            if "replay" in pair.commands:
                replayed = pair.both(["replay", name], audit)
            else:
                replayed = pair.runner.run([*pair.plain, "replay", name], audit)
            if replayed != Outcome(0, b"same %d\n" % count, b""):
                raise Difference(f"replay {name} of a service", {"input": audit, "output": replayed.output})
    return seen


def smaller(pair: Pair, text: bytes, words: list[str], tries: int = 400) -> bytes:
    """A script with lines left out for which the two programs still answer otherwise."""

    def differs(lines: list[bytes]) -> bool:
        try:
            pair.both(words, b"".join(lines))
        except Difference:
            return True
        return False

    lines = text.splitlines(True)
    size = max(1, len(lines) // 2)
    while size > 0 and tries > 0:
        place = 0
        while place < len(lines) and tries > 0:
            fewer = lines[:place] + lines[place + size :]
            tries -= 1
            if differs(fewer):
                lines = fewer
            else:
                place += size
        size //= 2
    return b"".join(lines)


def keep(folder: pathlib.Path, difference: Difference) -> None:
    folder.mkdir(parents=True, exist_ok=True)
    for name, content in difference.files.items():
        (folder / name).write_bytes(content)
