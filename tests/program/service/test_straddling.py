"""Transactions that lie across puts that depend on each other, as often as can be had."""

from __future__ import annotations

import re
import threading
import unittest

from audits import check_replays, records
from cops_client.client import Connection
from cops_client.frames import (
    CreateContext,
    Created,
    GetTrans,
    Handle,
    Hello,
    Message,
    Put,
    Ready,
    Stored,
    Values,
    Version,
)
from service import Service, Tenant, frames, head, messages, read_some
from test_random import Talk, hold

ACME = Tenant("acme", 1)
FIRST = Handle(1)

#: On different shards of two. Between them a transaction reads others, which takes it time.
EARLY, LATE = b"x", b"y"
BETWEEN = tuple(b"key_%d" % number for number in range(14))
PUTS, BURST = 8_000, 500
#: How often a service is tried until puts went between the reads of some transactions in both data centres.
TRIES = 12


class Writer(Talk):
    """Puts the early key and the late one in turns, in one context, so each depends on the one before.

    Requests are spelled before, and replies are read after, so that puts follow one another as fast as they are served.
    """

    def __init__(self, service: Service) -> None:
        super().__init__(Connection(service.stream()), PUTS, ahead=BURST)
        puts = [Put(FIRST, (EARLY, LATE)[place % 2], b"%d" % (place // 2 + 1)) for place in range(PUTS)]
        self.bursts = [frames(puts[start : start + BURST]) for start in range(0, PUTS, BURST)]
        self.finished = threading.Event()

    def talk(self) -> None:
        try:
            self.write()
        finally:
            self.finished.set()

    def write(self) -> None:
        stream = self.connection._open()
        stream.sendall(frames([Hello(ACME.token, 0), CreateContext()]))
        replies = read_some(stream, len(frames([Ready(), Created(FIRST)])))
        size = len(frames([Stored(EARLY, Version(1, 0))]))
        for burst in self.bursts:
            stream.sendall(burst)
            replies += read_some(stream, BURST * size)
        given = messages(replies)
        assert given[:2] == [Ready(), Created(FIRST)] and len(given) == 2 + PUTS, len(given)
        assert all(isinstance(reply, Stored) for reply in given[2:]), given


class Reader(Talk):
    """Reads both keys, for as long as the writer puts. The late value is never ahead of the early one, and the context's
    reads never go back."""

    sent = 0
    #: The greatest early and late value so far.
    early = late = 0

    def __init__(self, service: Service, place: int, writer: Writer) -> None:
        super().__init__(service.greeted(ACME, place), 0, ahead=16)
        self.writer = writer

    def wanted(self) -> int:
        return self.sent if self.writer.finished.is_set() else self.sent + self.ahead

    def next_request(self) -> Message:
        self.sent += 1
        return CreateContext() if self.sent == 1 else GetTrans(FIRST, (EARLY, *BETWEEN, LATE))

    def check(self, request: Message, reply: Message) -> None:
        match reply:
            case Created(handle):
                assert handle == FIRST
            case Values(reads):
                early, late = (int(read.value or b"0") for read in (reads[0], reads[-1]))
                assert early >= late, f"{reads[-1]} is there without what it depends on: {reads[0]}"
                assert (early, late) >= (self.early, self.late) and late >= self.late, reads
                self.early, self.late = early, late
            case _:
                raise AssertionError(f"a transaction was answered {reply}")


class Straddling(unittest.TestCase):
    def test_no_transaction_gives_a_value_without_what_it_depends_on(self):
        """One connection puts at full speed; others read where it puts, and in the other data centre."""
        rounds: dict[int, int] = {0: 0, 1: 0}
        tries = 0
        while not all(rounds.values()) and tries < TRIES:
            tries += 1
            for record in self.records_of_a_run():
                if second := re.match(r"(\d)\.\d get \w+ \d+\.\d+ = ", record):
                    rounds[int(second[1])] += 1
        print(f"second rounds in each data centre, in {tries} runs: {rounds}")
        self.assertGreater(sum(rounds.values()), 0)

    def records_of_a_run(self) -> list[str]:
        with Service(head([ACME], data_centres=2, shards=2, restarts=15), workers=5, connections=5) as service:
            writer = Writer(service)
            hold([*(Reader(service, place, writer) for place in (0, 0, 1, 1)), writer])
            audit = service.audit()
        check_replays(self, audit, [ACME])
        return records(audit, ACME)
