"""What is put in one data centre comes to the others, in order."""

import time
import unittest

from audits import check_replays, records
from cops_client.client import connect
from service import Service, Tenant, head

ACME, BETA = Tenant("acme", 1), Tenant("beta", 2)

#: Longest time, in seconds, until a put is seen elsewhere.
SEEN_WITHIN = 1.0


class Replication(unittest.TestCase):
    def seen(self, connection, key: str, version) -> float:
        """The seconds until a new context reads this version of the key or a later one."""
        began = time.monotonic()
        while True:
            with connection.context() as context:
                read = context.get(key)[0]
            passed = time.monotonic() - began
            if read.version >= version:
                return passed
            self.assertLess(passed, SEEN_WITHIN, f"{key} {version} isn't seen")
            time.sleep(0.001)

    def test_puts_are_seen_in_the_other_data_centres_within_a_second(self):
        longest = 0.0
        with Service(head([ACME, BETA], data_centres=3, shards=2), workers=4, connections=4) as service:
            here, there, elsewhere = (service.greeted(ACME, data_centre) for data_centre in range(3))
            beside = service.greeted(BETA, 1)
            for number in range(30):
                for source, targets in ((here, (there, elsewhere)), (there, (elsewhere, here))):
                    with source.context() as context:
                        stored = context.put(f"key_{number % 7}", f"value {number}")
                    longest = max([longest, *(self.seen(target, f"key_{number % 7}", stored.version) for target in targets)])
            with beside.context() as context:
                self.assertEqual({read.value for read in context.get(*(f"key_{n}" for n in range(7)))}, {None})
            for connection in (here, there, elsewhere, beside):
                connection.close()
            audit = service.audit()
        print(f"longest until a put was seen: {1000 * longest:.1f} ms")
        check_replays(self, audit, [ACME, BETA])
        self.assertFalse([record for record in records(audit, BETA) if " commit " in record])

    def test_a_value_is_seen_only_with_what_it_depends_on(self):
        """x on one shard and y on the other, y put after x in one context: elsewhere a y is never without its x."""
        rounds, newest = 60, -1
        with Service(head([ACME], data_centres=2, shards=2), workers=2, connections=2) as service:
            with service.greeted(ACME, 0) as here, service.greeted(ACME, 1) as there:
                for number in range(rounds):
                    with here.context() as context:
                        context.put("x", str(number))
                        context.put("y", str(number))
                    until = time.monotonic() + SEEN_WITHIN
                    while True:
                        with there.context() as context:
                            y, x = context.get("y", "x")
                        if y.value is not None:
                            self.assertGreaterEqual(int(x.value), int(y.value))
                            self.assertGreaterEqual(int(y.value), newest)
                            newest = int(y.value)
                        if newest == number:
                            break
                        self.assertLess(time.monotonic(), until, f"y of round {number} isn't seen")
            check_replays(self, service.audit(), [ACME])

    def test_both_data_centres_agree_on_the_last_writer(self):
        with Service(head([ACME], data_centres=2), workers=2, connections=2) as service:
            with service.greeted(ACME, 0) as here, service.greeted(ACME, 1) as there:
                for number in range(20):
                    stored = []
                    for connection, value in ((here, "here"), (there, "there")):
                        with connection.context() as context:
                            stored.append((context.put("x", f"{value} {number}").version, f"{value} {number}".encode()))
                    version, value = max(stored)
                    for connection in (here, there):
                        self.seen(connection, "x", version)
                        with connection.context() as context:
                            self.assertEqual(context.get("x")[0].value, value)
            check_replays(self, service.audit(), [ACME])


class Greeting(unittest.TestCase):
    def test_connect_greets_in_the_data_centre_that_it_names(self):
        with Service(head([ACME], data_centres=2), workers=1, connections=2) as service:
            service.stream().close()
            with connect("127.0.0.1", service.port, ACME.token, 1) as connection, connection.context() as context:
                self.assertEqual(context.put("x", "10").version.node, 1)
            service.made_by_others(1)
            check_replays(self, service.audit(), [ACME])
