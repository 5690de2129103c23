"""Thousands of random requests of several tenants at once."""

from __future__ import annotations

import random
import threading
import unittest
from collections import Counter, deque
from typing import Callable

from audits import check_replays, records
from cops_client.client import Connection
from cops_client.frames import (
    NO_VERSION,
    CreateContext,
    Created,
    DeleteContext,
    Deleted,
    GetTrans,
    Handle,
    Message,
    Put,
    Refused,
    Stored,
    Values,
    Version,
)
from cops_client.layout import CLOCK_BITS
from model import MOST_KEYS, Alone, Session
from service import Service, Tenant, head

KEYS = [b"x", b"y", b"z", b"a_1", b"a_2", b"item_000001", b"item_000002", b"k" * 15, b"k" * 16, b"m" * 63 + b"n", b"m" * 64]
BAD_KEYS = [b"", b"X", b"a b", b"m" * 65, b"\xff", b"m" * 255]
OVERRUN = 18
GREATEST_CLOCK = (1 << CLOCK_BITS) - 1
#: More than any run takes, in milliseconds.
FOR_EVER = (1 << 64) - 1


def random_value(numbers: random.Random) -> bytes:
    size = numbers.choices([numbers.randrange(40), 4_096, 4_097, 65_535], [200, 3, 2, 1])[0]
    return numbers.randbytes(size)


def random_request(numbers: random.Random, contexts: list[int], created: int, faulty: bool) -> Message:
    """A request over one of the open contexts; if it may be faulty, some are refused."""
    if not contexts or numbers.random() < 0.05:
        return CreateContext()
    handle = Handle(numbers.choice(contexts))
    keys = KEYS
    if faulty and numbers.random() < 0.08:
        number = numbers.choice([0, created + 1, numbers.randrange(created + 1), 1 << 63])
        handle = Handle(number, numbers.choice([0x43, 0x52]))
    if faulty and numbers.random() < 0.05:
        keys = KEYS + BAD_KEYS
    draw = numbers.random()
    if draw < 0.06:
        return DeleteContext(handle)
    if draw < 0.5:
        value = random_value(numbers) if faulty else numbers.randbytes(numbers.randrange(1, 24))
        return Put(handle, numbers.choice(keys), value)
    if faulty and numbers.random() < 0.05:
        count = numbers.choice([0, 2, MOST_KEYS, MOST_KEYS + 1, 255])
        many = [b"key_%d" % number for number in range(count)]
        return GetTrans(handle, tuple(many if numbers.random() < 0.7 else many + many[:1])[:255])
    return GetTrans(handle, tuple(numbers.sample(keys, numbers.randrange(1, min(6, len(keys))))))


class Talk(threading.Thread):
    """Sends requests over a connection, so many ahead of their replies, and checks each reply in turn."""

    def __init__(self, connection: Connection, count: int, ahead: int) -> None:
        super().__init__(daemon=True)
        self.connection, self.count, self.ahead = connection, count, ahead
        self.error: BaseException | None = None

    def wanted(self) -> int:
        """How many requests are sent in all."""
        return self.count

    def next_request(self) -> Message:
        raise NotImplementedError

    def check(self, request: Message, reply: Message) -> None:
        raise NotImplementedError

    def run(self) -> None:
        try:
            with self.connection:
                self.talk()
        except BaseException as error:
            self.error = error

    def talk(self) -> None:
        asked: deque[Message] = deque()
        sent = 0
        while sent < self.wanted() or asked:
            batch = [self.next_request() for _ in range(min(self.ahead - len(asked), self.wanted() - sent))]
            self.connection.send(*batch)
            sent += len(batch)
            asked.extend(batch)
            for _ in range(max(1, len(asked) // 2)):
                self.check(asked.popleft(), self.connection.receive())


class Modelled(Talk):
    """A tenant's only connection: each reply is the model's. The replies are kept."""

    def __init__(self, connection: Connection, alone: Alone, seed: str, count: int, ahead: int) -> None:
        super().__init__(connection, count, ahead)
        self.numbers = random.Random(seed)
        self.session = Session(alone)
        self.expected: deque[Message] = deque()
        self.replies: list[Message] = []

    def next_request(self) -> Message:
        request = random_request(self.numbers, list(self.session.contexts), self.session.created, faulty=True)
        self.expected.append(self.session.reply(request))
        return request

    def check(self, request: Message, reply: Message) -> None:
        expected = self.expected.popleft()
        assert reply == expected, f"{request} was answered {reply}, not {expected}"
        self.replies.append(reply)


class Puts:
    """What all connections of one tenant have stored, and what they have read; compared at the end."""

    def __init__(self) -> None:
        self.stored: dict[tuple[bytes, Version], tuple[bytes, list[tuple[bytes, Version]]]] = {}
        self.read: list[tuple[tuple[bytes, Version], bytes, list[tuple[bytes, Version]]]] = []
        self.count = 0

    def check(self, test: unittest.TestCase) -> None:
        """Each version is issued once, and each read is of a put, with its value and just what it had seen."""
        test.assertEqual(len(self.stored), self.count)
        test.assertEqual(len({version for _, version in self.stored}), self.count)
        for pair, value, dependencies in self.read:
            test.assertEqual((value, dependencies), self.stored[pair], pair)


class Watched(Talk):
    """One of several connections of a tenant: each reply is checked for causal consistency."""

    def __init__(self, connection: Connection, puts: Puts, nodes: range, seed: str, count: int, ahead: int) -> None:
        super().__init__(connection, count, ahead)
        self.numbers = random.Random(seed)
        self.puts, self.nodes = puts, nodes
        self.open: list[int] = []
        self.created = 0
        #: By context and key the greatest version that it has seen.
        self.seen: dict[int, dict[bytes, Version]] = {}
        self.overruns = 0

    def next_request(self) -> Message:
        request = random_request(self.numbers, self.open, self.created, faulty=False)
        if isinstance(request, CreateContext) and len(self.open) >= 6:
            request = DeleteContext(Handle(self.open[0]))
        if isinstance(request, CreateContext):
            self.created += 1
            self.open.append(self.created)
        elif isinstance(request, DeleteContext):
            self.open.remove(request.context.number)
        return request

    def check(self, request: Message, reply: Message) -> None:
        match request, reply:
            case CreateContext(), Created(handle):
                assert handle == Handle(len(self.seen) + 1), handle
                self.seen[handle.number] = {}
            case DeleteContext(_), Deleted():
                pass
            case Put(handle, key, value), Stored(stored, version):
                assert key == stored, (request, reply)
                self.check_put(self.seen[handle.number], key, value, version)
            case GetTrans(handle, keys), Values(_):
                self.check_values(self.seen[handle.number], keys, reply)
            case GetTrans(_, _), Refused(number) if number == OVERRUN:
                self.overruns += 1
            case _:
                raise AssertionError(f"{request} was answered {reply}")

    def check_put(self, seen: dict[bytes, Version], key: bytes, value: bytes, version: Version) -> None:
        assert version.node == self.nodes[sum(key) % len(self.nodes)], (key, version)
        assert all(version.clock > other.clock for other in seen.values()), (key, version, seen)
        self.puts.stored[key, version] = value, sorted(seen.items())
        self.puts.count += 1
        seen[key] = version

    def check_values(self, seen: dict[bytes, Version], keys: tuple[bytes, ...], values: Values) -> None:
        assert tuple(read.key for read in values.reads) == keys, (keys, values)
        returned = {read.key: read.version for read in values.reads}
        for read in values.reads:
            assert (read.value is None) == (read.version == NO_VERSION), read
            assert read.version >= seen.get(read.key, NO_VERSION), f"{read} is older than what was seen: {seen}"
            for pair in read.dependencies:
                other = returned.get(pair.key, pair.version)
                assert other >= pair.version, f"{read} depends on {pair}, and {other} was returned"
        for read in values.reads:
            if read.value is not None:
                pairs = [(pair.key, pair.version) for pair in read.dependencies]
                self.puts.read.append(((read.key, read.version), read.value, pairs))
                for key, version in [*pairs, (read.key, read.version)]:
                    seen[key] = max(version, seen.get(key, version))


def hold(talks: list[Talk]) -> None:
    """Runs all talks at once, to their ends."""
    for talk in talks:
        talk.start()
    for talk in talks:
        talk.join(60)
        if talk.error is not None:
            raise talk.error
        assert not talk.is_alive(), "a talk goes on for too long"


ALONE = [
    Tenant("acme", 1),
    Tenant("beta", 2, contexts=3, dependencies=6, versions=120),
    Tenant("gama", 3, bytes=4_000),
    Tenant("deli", 4, contexts=1, dependencies=0),
    Tenant("late", 5, first_clock=GREATEST_CLOCK - 60),
]
SHARED = [Tenant("many", 6), Tenant("more", 7)]
SHARDS = 2


class RandomRequests(unittest.TestCase):
    def modelled(self, service: Service, tenant: Tenant, data_centre: int, count: int) -> Modelled:
        connection = service.greeted(tenant, data_centre)
        alone = Alone(tenant, SHARDS, data_centre)
        return Modelled(connection, alone, f"{tenant.name} {data_centre}", count, ahead=16)

    def watched(self, service: Service, count: int, ahead: Callable[[int], int]) -> tuple[list[Watched], list[Puts]]:
        talks, all_puts = [], []
        for tenant in SHARED:
            puts = Puts()
            all_puts.append(puts)
            for number in range(4):
                data_centre = number % 2
                nodes = range(data_centre * SHARDS, (data_centre + 1) * SHARDS)
                connection, seed = service.greeted(tenant, data_centre), f"{tenant.name} {number}"
                talks.append(Watched(connection, puts, nodes, seed, count, ahead(number)))
        return talks, all_puts

    def test_tenants_of_one_connection_are_told_what_they_are_told_alone(self):
        """Such tenants, while two others flood the nodes from four connections each."""
        places = [(tenant, number % 2) for number, tenant in enumerate(ALONE)]
        text = head(ALONE + SHARED, data_centres=2, shards=SHARDS, trans_time=FOR_EVER)
        count = len(ALONE) + 4 * len(SHARED)
        with Service(text, workers=count, connections=count) as service:
            together = [self.modelled(service, tenant, data_centre, 1_000) for tenant, data_centre in places]
            watched, all_puts = self.watched(service, 500, lambda number: 32)
            hold([*together, *watched])
            audit = service.audit()
        for puts in all_puts:
            puts.check(self)
        check_replays(self, audit, ALONE + SHARED)
        refusals: Counter[int] = Counter()
        for (tenant, data_centre), before in zip(places, together):
            with Service(head([tenant], 2, SHARDS, FOR_EVER), workers=1, connections=1) as service:
                alone = self.modelled(service, tenant, data_centre, 1_000)
                hold([alone])
                service.audit()
            self.assertEqual(before.replies, alone.replies)
            refusals += Counter(reply.number for reply in before.replies if isinstance(reply, Refused))
        print("refusals:", dict(sorted(refusals.items())))
        self.assertLessEqual({1, 7, 8, 9, 10, 11, 12, 13, 15, 16, 24}, set(refusals))

    def test_answers_are_causally_consistent(self):
        """Two tenants, four connections each in two data centres, with collections and without."""
        for trans_time in (FOR_EVER, 2):
            text = head(SHARED, data_centres=2, shards=SHARDS, trans_time=trans_time, restarts=15)
            with self.subTest(trans_time=trans_time), Service(text, 8, 4 * len(SHARED)) as service:
                talks, all_puts = self.watched(service, 600, lambda number: (1, 4, 16, 32)[number])
                hold(list(talks))
                audit = service.audit()
                for puts in all_puts:
                    puts.check(self)
                    # Some were read by others than those who put them, in the other data centre.
                    self.assertGreater(len({version.node for (_, version), _, _ in puts.read}), SHARDS)
                check_replays(self, audit, SHARED)
                gets = sum(len(puts.read) for puts in all_puts)
                self.assertLess(sum(talk.overruns for talk in talks), gets // 10)
                collections = [record for tenant in SHARED for record in records(audit, tenant) if " collect = " in record]
                removes = any(not record.endswith(" = removed 0") for record in collections)
                self.assertEqual(removes, trans_time == 2)
