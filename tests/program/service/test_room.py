"""Quotas that a tenant's own puts fill. Room is made when it is due, without another put.

One key at each place is put again and again, so that a collection leaves one version of it and room for two.
"""

from __future__ import annotations

import random
import time
import unittest
from collections import Counter
from collections.abc import Sequence
from concurrent.futures import ThreadPoolExecutor
from dataclasses import dataclass, replace

import service
from audits import check_replays
from cops_client.client import Connection, Context
from cops_client.faults import Fault
from cops_client.frames import NO_VERSION, Put, Refused, Stored, Version
from operated import Operated, wait_until
from service import Tenant, head

VERSION_QUOTA, BYTE_QUOTA, OUTBOX_FULL = 12, 13, 14
VALUE = b"v" * 9
#: Milliseconds, and what a busy machine may add, in seconds.
TRANS_TIME = 50
SLACK = 0.5
OUTBOX = 4
#: How long all tenants write before they rest, in seconds.
BURST = 0.4


class Writer:
    """A tenant's connection in one data centre, which puts one key at full speed."""

    def __init__(self, running: Operated, tenant: Tenant, data_centre: int) -> None:
        self.connection = running.greeted(tenant, data_centre)
        self.handle = self.connection.context().handle
        self.stored = 0
        self.last = NO_VERSION
        self.refused: Counter[int] = Counter()

    def put(self, times: int = 1) -> list[bool]:
        """Whether each put was stored."""
        self.connection.send(*[Put(self.handle, b"x", VALUE)] * times)
        return [self._reply() for _ in range(times)]

    def _reply(self) -> bool:
        match self.connection.receive():
            case Stored(_, version):
                self.stored, self.last = self.stored + 1, version
                return True
            case Refused(number):
                self.refused[number] += 1
                return False
            case other:
                raise AssertionError(f"a put was answered {other}")

    def write(self) -> None:
        until = time.monotonic() + BURST
        while time.monotonic() < until:
            self.put(50)


class Mixed(Writer):
    """Puts and reads several keys in one data centre, in contexts that see what others put."""

    KEYS = ("x", "y", "z", "w")

    def __init__(self, running: Operated, tenant: Tenant, data_centre: int) -> None:
        super().__init__(running, tenant, data_centre)
        self.tenant = tenant
        self.numbers = random.Random(f"{tenant.name} {data_centre}")
        #: The greatest version that was stored of each key.
        self.greatest: dict[str, Version] = {}

    def write(self) -> None:
        until = time.monotonic() + service.SECONDS / 3
        while time.monotonic() < until:
            with self.connection.context() as context:
                for _ in range(20):
                    self.act(context)

    def act(self, context: Context) -> None:
        try:
            if self.numbers.random() < 0.5:
                key = self.numbers.choice(self.KEYS)
                version = context.put(key, VALUE).version
                self.greatest[key] = max(version, self.greatest.get(key, version))
            else:
                context.get(*self.numbers.sample(self.KEYS, 2))
        except Fault as fault:
            self.refused[fault.number] += 1

    def sees(self, greatest: dict[str, Version]) -> bool:
        """Whether these are the versions that a new context reads."""
        with self.connection.context() as context:
            return all(context.get(key)[0].version == greatest.get(key, NO_VERSION) for key in self.KEYS)


def write_at_once(writers: Sequence[Writer]) -> None:
    with ThreadPoolExecutor(len(writers)) as pool:
        for written in [pool.submit(writer.write) for writer in writers]:
            written.result()


def sees(connection: Connection, version: Version) -> bool:
    """Whether this is the version of the key that a new context reads."""
    with connection.context() as context:
        return context.get("x")[0].version == version


@dataclass(frozen=True)
class Row:
    """A record of the audit."""

    node: str
    moment: int
    call: str
    reply: str


def rows(audit: str, tenant: Tenant) -> list[Row]:
    lines = audit.splitlines()
    own = [line for line in lines[lines.index("begin") + 1 :] if line.startswith(f"{tenant.name} ")]
    parts = [(line.split(" ", 4), line.rsplit(" = ", 1)) for line in own]
    return [Row(words[1], int(words[2]), words[3], reply) for words, (_, reply) in parts]


def check_collections(test: unittest.TestCase, audit: str, tenant: Tenant, trans_time: int) -> int:
    """At each node there is one collection a `trans_time` at most, beside one for each refused call and one at the end."""
    found = rows(audit, tenant)
    for node in {row.node for row in found}:
        own = [row for row in found if row.node == node]
        collections = sum(row.call == "collect" for row in own)
        refused = sum(row.reply in ("E12", "E13") for row in own)
        whole = (max(row.moment for row in own) - min(row.moment for row in own)) // trans_time
        test.assertLessEqual(collections, whole + refused + 2, node)
    return sum(row.call == "collect" for row in found)


class Room(unittest.TestCase):
    def hold(self, narrow: Tenant) -> None:
        """Two tenants write in one data centre each. A third writes in both, and what is carried takes his room too, until
        his queues are empty: two entries a collection."""
        there, both = replace(narrow, name="beta", number=2), replace(narrow, name="gama", number=3)
        tenants = [narrow, there, both]
        places = [(narrow, 0), (there, 1), (both, 0), (both, 1)]
        with Operated(head(tenants, 2, 1, TRANS_TIME), len(places)) as running:
            writers = [Writer(running, tenant, data_centre) for tenant, data_centre in places]
            until = time.monotonic() + service.SECONDS
            while time.monotonic() < until:
                write_at_once(writers)
                time.sleep(TRANS_TIME / 1000 + SLACK)
                self.assertEqual([writer.put() for writer in writers[:2]], [[True], [True]])
                time.sleep(OUTBOX // 2 * TRANS_TIME / 1000)
                self.assertEqual([writer.put() for writer in writers[2:]], [[True], [True]])
            for writer in writers:
                writer.connection.close()
            audit = running.end()
        for writer in writers:
            self.assertLessEqual(set(writer.refused), {VERSION_QUOTA, BYTE_QUOTA, OUTBOX_FULL})
        self.assertGreater(sum(writers[0].refused.values()), 0)
        for tenant in tenants:
            count = check_collections(self, audit, tenant, TRANS_TIME)
            puts = sum(writer.stored for writer, (owner, _) in zip(writers, places) if owner == tenant)
            found = rows(audit, tenant)
            self.assertEqual(sum(row.call == "put" and row.reply.startswith("stored ") for row in found), puts)
            refused = sum((writer.refused for writer, (owner, _) in zip(writers, places) if owner == tenant), Counter[int]())
            print(f"{tenant.name}: {puts} puts stored, refused {dict(refused)}, {count} collections, {len(found)} records")
        check_replays(self, audit, tenants)

    def test_after_a_rest_the_next_put_is_stored(self):
        self.hold(Tenant("acme", 1, versions=3, outbox=OUTBOX))

    def test_after_a_rest_the_next_put_is_stored_within_the_quota_of_bytes(self):
        self.hold(Tenant("acme", 1, bytes=3 * len(b"x" + VALUE), outbox=OUTBOX))

    def test_full_data_centres_agree_afterwards(self):
        """Entries wait for others and are refused, in three data centres of two shards. Then nobody puts."""
        sizes = [{"versions": 7, "outbox": 4}, {"versions": 9, "outbox": 2}, {"bytes": 80, "outbox": 3}]
        tenants = [Tenant(name, number, **size) for number, (name, size) in enumerate(zip(("acme", "beta", "gama"), sizes), 1)]
        with Operated(head(tenants, 3, 2, TRANS_TIME, 5), 9) as running:
            writers = [Mixed(running, tenant, data_centre) for tenant in tenants for data_centre in range(3)]
            write_at_once(writers)
            for tenant in tenants:
                own = [writer for writer in writers if writer.tenant == tenant]
                greatest: dict[str, Version] = {}
                for key in Mixed.KEYS:
                    greatest[key] = max(writer.greatest.get(key, NO_VERSION) for writer in own)
                took = wait_until(lambda: all(writer.sees(greatest) for writer in own), f"{tenant.name}'s data centres agree")
                refused = sum((writer.refused for writer in own), Counter[int]())
                print(f"{tenant.name}: refused {dict(refused)}, agreed after {took:.2f} s")
                self.assertGreater(sum(refused.values()), 0)
            time.sleep(TRANS_TIME / 1000 + SLACK)
            self.assertEqual([writer.put() for writer in writers[::3]], [[True]] * 3)
            for writer in writers:
                writer.connection.close()
            check_replays(self, running.end(), tenants)

    def test_a_refused_put_is_stored_once_the_older_versions_may_go(self):
        acme = Tenant("acme", 1, versions=3)
        with Operated(head([acme], 1, 1, 300), 1) as running:
            writer = Writer(running, acme, 0)
            self.assertEqual(writer.put(4), [True, True, True, False])
            self.assertEqual(writer.refused, {VERSION_QUOTA: 1})
            time.sleep(0.4 + SLACK)
            self.assertEqual(writer.put(), [True])
            writer.connection.close()
            audit = running.end()
        self.assertEqual(sum(int(row.reply.removeprefix("removed ")) for row in rows(audit, acme) if row.call == "collect"), 2)
        check_replays(self, audit, [acme])

    def test_one_rest_is_enough(self):
        """With a longer `trans_time`, beside which the slack is short."""
        acme = Tenant("acme", 1, versions=3)
        with Operated(head([acme], 1, 1, 1_000), 1) as running:
            writer = Writer(running, acme, 0)
            self.assertEqual(writer.put(4), [True, True, True, False])
            time.sleep(1 + SLACK)
            self.assertEqual(writer.put(3), [True, True, False])
            writer.connection.close()
            running.end()

    def test_there_are_few_collections(self):
        """Puts at full speed with room for all of them."""
        acme = Tenant("acme", 1)
        with Operated(head([acme], 2, 1, TRANS_TIME), 2) as running:
            writer = Writer(running, acme, 0)
            write_at_once([writer])
            with running.greeted(acme, 1) as connection:
                wait_until(lambda: sees(connection, writer.last), "all is carried")
            time.sleep(TRANS_TIME / 1000 + SLACK)
            writer.connection.close()
            audit = running.end()
        count = check_collections(self, audit, acme, TRANS_TIME)
        self.assertGreater(count, 1)
        # All but the last version are gone in both data centres.
        removed = Counter[str]()
        for row in rows(audit, acme):
            if row.call == "collect":
                removed[row.node] += int(row.reply.removeprefix("removed "))
        self.assertEqual(removed, {"0.0": writer.stored - 1, "1.0": writer.stored - 1})
        check_replays(self, audit, [acme])

    def test_nothing_is_collected_while_nothing_is_due(self):
        acme = Tenant("acme", 1)
        with Operated(head([acme], 2, 1, service.MOST), 1) as running:
            writer = Writer(running, acme, 0)
            writer.put(500)
            writer.connection.close()
            audit = running.end()
        self.assertEqual(check_collections(self, audit, acme, service.MOST), 0)

    def test_a_stream_is_carried_once_its_destination_has_room(self):
        """Both data centres are filled at once, so entries are refused on their way; then nobody puts."""
        acme = Tenant("acme", 1, versions=3, outbox=OUTBOX)
        with Operated(head([acme], 2, 1, 300), 2) as running:
            writers = [Writer(running, acme, data_centre) for data_centre in (0, 1)]
            write_at_once(writers)
            self.assertGreater(min(writer.refused[VERSION_QUOTA] + writer.refused[OUTBOX_FULL] for writer in writers), 0)
            last = max(writer.last for writer in writers)
            # Each collection makes room for two entries, and an entry that was refused may rest for a second.
            most = 0.3 * (2 + OUTBOX) + 1 + SLACK
            agree = lambda: all(sees(writer.connection, last) for writer in writers)  # noqa: E731
            took = wait_until(agree, "both data centres have the last version", most)
            print(f"both data centres agreed after {took:.2f} s")
            # The other stream ends with an older version, which no get shows: it has the same time.
            time.sleep(most - took + SLACK)
            for writer in writers:
                writer.connection.close()
            audit = running.end()
        stored = [row for row in rows(audit, acme) if row.call == "put" and row.reply.startswith("stored ")]
        carried = [row for row in rows(audit, acme) if row.call == "commit" and row.reply == "committed"]
        self.assertEqual(len(carried), len(stored))
        check_replays(self, audit, [acme])
