"""Tenants that come and go while the service runs."""

from __future__ import annotations

import socket
import threading
import unittest
import uuid

import service as settings
from audits import check_replays, records
from cops_client.client import Connection
from cops_client.faults import UnknownTenant
from cops_client.frames import CreateContext, Created, DeleteContext, GetTrans, Handle, Hello, Message, Put, Ready, Refused, encode
from hosting import Hosted, admission
from model import SYNTAX, UNKNOWN_TENANT, Alone, replies
from operated import wait_until
from service import Service, Tenant, frames, head, messages, read_to_end, talk

ACME, BETA, GAMA, DELTA = Tenant("acme", 1), Tenant("beta", 2), Tenant("gama", 3), Tenant("delta", 4)
FIRST = Handle(1)
#: Nothing is collected while a test runs.
LONG = 1_000_000_000


def load_tests(loader: unittest.TestLoader, tests: unittest.TestSuite, pattern: str) -> unittest.TestSuite:
    """There are none where the tenants are fixed."""
    return unittest.TestSuite() if settings.FORM else tests


def heads_names(audit: str) -> list[str]:
    """The tenants of an audit's head, in order."""
    lines = audit.splitlines()
    return [line.split(" ")[1] for line in lines[: lines.index("begin")] if line.startswith("tenant ")]


class Lines(unittest.TestCase):
    """Each line of the host gets its reply, in order."""

    def test_admissions_and_closes(self):
        with Hosted(head([ACME]), 2) as service:
            lines = [
                (admission(BETA), "admitted beta"),
                (admission(BETA), "E04"),
                ("- gama", "E02"),
                (admission(GAMA).replace(GAMA.token.hex(), BETA.token.hex()), "E04"),
                (admission(GAMA).replace(GAMA.token.hex(), uuid.UUID(bytes=BETA.token).urn), "E04"),
                (admission(GAMA).replace(GAMA.token.hex(), "{" + str(uuid.UUID(bytes=GAMA.token)) + "}"), "admitted gama"),
                ("- beta", "closed beta"),
                ("- beta", "E02"),
                ("- acme", "closed acme"),
                (admission(Tenant("acme", 2)), "admitted acme"),
            ]
            self.assertEqual(service.told([line.encode() for line, _ in lines]), [reply for _, reply in lines])
            audit = service.end()
        self.assertEqual(heads_names(audit), ["acme", "gama"])

    def test_lines_without_a_form(self):
        beta = admission(BETA)
        words = beta.split(" ")
        lines = [
            *(b"+", b"-", b"- ", b"+ ", b"- beta ", b"-  beta", b" - beta", b"- Beta", b"END", b"end ", b"stop", b"beta"),
            *(beta.replace("+ ", "").encode(), beta.encode() + b" 1", " ".join(words[:-1]).encode(), beta.replace(" ", "  ", 1).encode()),
            *(" ".join([*words[:3], clock, *words[4:]]).encode() for clock in ("-1", "01", "281474976710656", "x")),
            *(" ".join([*words[:at], "4294967296", *words[at + 1 :]]).encode() for at in range(4, 11)),
            " ".join([*words[:8], "1025", *words[9:]]).encode(),
            *(b"- " + b"b" * 17, b"\xff\xfe", b"e" * 256, b"e" * 257, b"- " + b"b" * 1_000_000, beta.encode() + b" " * 10_000),
        ]
        with Hosted(head([ACME]), 2) as service:
            self.assertEqual(service.told(lines), ["E01"] * len(lines))
            self.assertEqual(service.told([b"\n\n- beta"]), ["E02"])
            service.admit(BETA)
            check_replays(self, service.end(), [ACME, BETA])

    def test_the_longest_admission(self):
        name = "a" * 16
        words = [name, uuid.UUID(bytes=GAMA.token).urn, "281474976710654", *["4294967295"] * 4, "1024", *["4294967295"] * 2]
        with Hosted(head([ACME]), 2) as service:
            self.assertEqual(service.tell("+ " + " ".join(words)), f"admitted {name}")
            with service.greeted(GAMA):
                pass
            service.end()

    def test_the_last_line_may_lack_its_newline(self):
        with Hosted(head([ACME]), 2) as service:
            service.write(admission(BETA).encode())
            service.close_input()
            wait_until(lambda: service.replies() == ["admitted beta"], "the line is followed")
            with service.greeted(BETA) as connection, connection.context() as context:
                context.put("x", "10")
            self.assertTrue(service.is_running())

    def test_many_lines_at_once(self):
        count = 3_000
        with Hosted(head([ACME]), 2) as service:
            lines = [admission(BETA).encode(), b"- beta"] * count
            self.assertEqual(service.told(lines), ["admitted beta", "closed beta"] * count)
            check_replays(self, service.end(), [ACME])


class Room(unittest.TestCase):
    def test_64_are_open(self):
        tenants = [Tenant(f"t{number}", number) for number in range(1, 65)]
        late = Tenant("late", 100)
        with Hosted(head(tenants), 2) as service:
            self.assertEqual(service.tell(admission(late)), "E28")
            # A name that is taken comes first.
            self.assertEqual(service.tell(admission(tenants[3])), "E04")
            service.close(tenants[40])
            service.admit(late)
            self.assertEqual(service.tell(admission(tenants[40])), "E28")
            with service.greeted(late) as connection, connection.context() as context:
                context.put("x", "10")
            audit = service.end()
        names = [tenant.name for tenant in tenants]
        names[40] = "late"
        self.assertEqual(heads_names(audit), names)
        check_replays(self, audit, [late, tenants[0], tenants[63]])

    def test_all_are_closed(self):
        with Hosted(head([ACME, BETA]), 2) as service:
            with service.greeted(ACME) as connection, connection.context() as context:
                context.put("x", "10")
            service.close(ACME)
            service.close(BETA)
            audit = service.end()
        self.assertEqual((heads_names(audit), audit.splitlines()[-1]), ([], "begin"))

    def test_a_head_without_tenants(self):
        with Hosted(head([]), 2) as service:
            service.admit(ACME)
            with service.greeted(ACME) as connection, connection.context() as context:
                context.put("x", "10")
            audit = service.end()
        self.assertEqual(len(records(audit, ACME)), 1)
        check_replays(self, audit, [ACME])


class Greetings(unittest.TestCase):
    def greeting(self, service: Hosted, tenant: Tenant) -> list[Message]:
        return messages(talk(service.stream(), [frames([Hello(tenant.token, 0)])]))

    def test_from_the_admission_to_the_close(self):
        with Hosted(head([ACME], 2, 3), 2) as service:
            for _ in range(20):
                self.assertEqual(self.greeting(service, BETA), [Refused(UNKNOWN_TENANT)])
                service.admit(BETA)
                self.assertEqual(self.greeting(service, BETA), [Ready()])
                service.close(BETA)
            self.assertEqual(self.greeting(service, BETA), [Refused(UNKNOWN_TENANT)])
            check_replays(self, service.end(), [ACME])

    def test_a_connection_that_greets_after_the_admission(self):
        """It was accepted before."""
        with Hosted(head([ACME]), 2) as service, service.stream() as stream:
            service.admit(BETA)
            connection = Connection(stream)
            connection.send(Hello(BETA.token, 0))
            self.assertEqual(connection.receive(), Ready())
            connection.close()
            service.end()


class Closed(unittest.TestCase):
    """A connection belongs to the life that it greeted."""

    def test_a_client_goes_on_after_its_close(self):
        with Hosted(head([ACME, BETA]), 4) as service:
            with service.greeted(BETA) as connection:
                context = connection.context()
                context.put("x", "10")
                service.close(BETA)
                for _ in range(3):
                    self.assertRaises(UnknownTenant, context.put, "x", "11")
                    self.assertRaises(UnknownTenant, context.get, "x")
                # Another tenant gets the slot: nothing of one comes to the other.
                service.admit(GAMA)
                with service.greeted(GAMA) as other, other.context() as fresh:
                    self.assertIsNone(fresh.get("x")[0].value)
                    self.assertRaises(UnknownTenant, context.put, "x", "12")
                    self.assertRaises(UnknownTenant, context.get, "x")
                    fresh.put("x", "20")
                    self.assertRaises(UnknownTenant, context.get, "x")
                    self.assertEqual(fresh.get("x")[0].value, b"20")
                self.assertRaises(UnknownTenant, context.delete)
                self.assertRaises(UnknownTenant, connection.context)
            audit = service.end()
        self.assertEqual(heads_names(audit), ["acme", "gama"])
        self.assertFalse([record for record in records(audit, GAMA) if "3130" in record or "3132" in record])
        check_replays(self, audit, [ACME, GAMA])

    def test_a_token_is_used_again(self):
        """By the same tenant in a second life, and by another one."""
        again = Tenant("gama", BETA.number)
        with Hosted(head([ACME, BETA]), 4) as service:
            with service.greeted(BETA) as connection:
                context = connection.context()
                context.put("x", "10")
                for tenant in (BETA, again):
                    service.close(BETA)
                    service.admit(tenant)
                    self.assertRaises(UnknownTenant, context.get, "x")
                    with service.greeted(tenant) as second, second.context() as fresh:
                        self.assertIsNone(fresh.get("x")[0].value)
                        fresh.put("x", "20")
                    self.assertRaises(UnknownTenant, context.put, "x", "11")
            audit = service.end()
        self.assertEqual(heads_names(audit), ["acme", "gama"])
        self.assertEqual(sum(" put " in record for record in records(audit, again)), 1)
        check_replays(self, audit, [ACME, again])


class Raw(Connection):
    """A connection on which frames are sent in pieces."""

    def write(self, piece: bytes) -> None:
        self._write(piece)

    def rest(self) -> list[Message]:
        """Ends its own side, and gives all that is still answered."""
        self._open().shutdown(socket.SHUT_WR)
        return messages(read_to_end(self._open()))


class Refusals(unittest.TestCase):
    """After the close of its life each request of a connection is refused, also one that reaches no node."""

    REQUESTS: list[Message] = [
        CreateContext(),
        DeleteContext(FIRST),
        Put(FIRST, b"x", b"10"),
        GetTrans(FIRST, (b"x",)),
        # Syntax, BadKey and NoContext aren't looked for.
        Put(FIRST, b"", b"10"),
        GetTrans(FIRST, ()),
        DeleteContext(Handle(9)),
    ]

    def begun(self, service: Hosted, tenant: Tenant, more: bytes = b"") -> Raw:
        """A connection that is greeted as a tenant and has a context. The request for it comes with more bytes."""
        connection = Raw(service.stream())
        connection.send(Hello(tenant.token, 0))
        self.assertEqual(connection.receive(), Ready())
        connection.write(encode(CreateContext()) + more)
        self.assertEqual(connection.receive(), Created(FIRST))
        return connection

    def assert_refused(self, connection: Raw) -> None:
        """One after another, and all at once."""
        for request in self.REQUESTS:
            connection.send(request)
            self.assertEqual(connection.receive(), Refused(UNKNOWN_TENANT))
        many = self.REQUESTS * 300
        connection.send(*many)
        self.assertEqual([connection.receive() for _ in many], [Refused(UNKNOWN_TENANT)] * len(many))

    def test_each_request(self):
        with Hosted(head([ACME, BETA]), 4) as service:
            with self.begun(service, BETA) as connection:
                service.close(BETA)
                self.assert_refused(connection)
                # Another tenant gets the slot, and then a second life of the same one.
                for tenant in (GAMA, BETA):
                    service.admit(tenant)
                    self.assert_refused(connection)
                    with self.begun(service, tenant) as other:
                        self.assert_refused(connection)
                        other.send(Put(FIRST, b"x", b"20"))
                        self.assertNotIsInstance(other.receive(), Refused)
                    service.close(tenant)
            audit = service.end()
        self.assertEqual(heads_names(audit), ["acme"])
        check_replays(self, audit, [ACME])

    def test_a_frame_that_is_cut_by_the_close(self):
        with Hosted(head([ACME, BETA]), 4) as service:
            for request in self.REQUESTS:
                frame = encode(request)
                for cut in range(1, len(frame)):
                    with self.begun(service, BETA, frame[:cut]) as connection:
                        service.close(BETA)
                        connection.write(frame[cut:])
                        self.assertEqual(connection.receive(), Refused(UNKNOWN_TENANT))
                        self.assert_refused(connection)
                    service.admit(BETA)
            check_replays(self, service.end(), [ACME, BETA])

    def test_a_neighbours_close(self):
        """It refuses nobody else."""
        with Hosted(head([ACME, BETA]), 4) as service, self.begun(service, ACME) as connection:
            for number in range(20):
                service.close(BETA)
                for request in (Put(FIRST, b"x", b"%d" % number), GetTrans(FIRST, (b"x",))):
                    connection.send(request)
                    self.assertNotIsInstance(connection.receive(), Refused)
                service.admit(BETA)
            connection.close()
            check_replays(self, service.end(), [ACME, BETA])

    def test_the_end_of_a_refused_connection(self):
        """It is as that of one that is served."""
        with Hosted(head([ACME, BETA]), 4) as service:
            for last, refusals in ((b"", []), (encode(Hello(BETA.token, 0)), [SYNTAX]), (b"\0\0\0\1\x63", [SYNTAX]), (b"\0\0", [SYNTAX])):
                with self.begun(service, BETA) as connection:
                    service.close(BETA)
                    connection.write(encode(CreateContext()) + last)
                    self.assertEqual(connection.rest(), [Refused(it) for it in (UNKNOWN_TENANT, *refusals)])
                service.admit(BETA)
            # A client need not wait for Ready.
            with Raw(service.stream()) as connection:
                connection.send(Hello(BETA.token, 0), CreateContext())
                self.assertEqual([connection.receive(), connection.receive()], [Ready(), Created(FIRST)])
            service.end()


class Beside(unittest.TestCase):
    """A hundred lives in one slot, while two other tenants are served."""

    ROUNDS = 100

    def conversation(self, tenant: Tenant) -> list[list[Message]]:
        """What a tenant says in each round."""
        rounds: list[list[Message]] = [[Hello(tenant.token, 0), CreateContext()]]
        for number in range(self.ROUNDS):
            key = b"k%d" % (number % 7)
            rounds.append([Put(FIRST, key, b"%d" % number), GetTrans(FIRST, (key, b"x")), GetTrans(FIRST, (b"k0", b"k1"))])
        return rounds

    def spoken(self, connection: Connection, said: list[Message]) -> list[Message]:
        for message in said:
            connection.send(message)
        return [connection.receive() for _ in said]

    def speak(self, service: Service, tenant: Tenant, got: dict[str, list[Message]], turn: threading.Barrier) -> None:
        """All that a tenant says, a round at a time."""
        try:
            heard: list[Message] = []
            with Connection(service.stream()) as connection:
                for said in self.conversation(tenant):
                    turn.wait(settings.REPLY_TIME)
                    heard += self.spoken(connection, said)
            got[tenant.name] = heard
        except BaseException:
            turn.abort()
            raise

    def life(self, service: Hosted) -> None:
        """A life of gama's, whose first put is its first version each time."""
        said: list[Message] = [Hello(GAMA.token, 0), CreateContext(), GetTrans(FIRST, (b"x",)), Put(FIRST, b"x", b"10"), GetTrans(FIRST, (b"x", b"k0"))]
        service.admit(GAMA)
        wanted = replies(frames(said), {GAMA.token: Alone(GAMA, 1)})
        with Connection(service.stream()) as connection:
            self.assertEqual(self.spoken(connection, said), wanted)
            service.close(GAMA)
            self.assertEqual(self.spoken(connection, said[2:3]), [Refused(UNKNOWN_TENANT)])

    def heard(self, lives: bool) -> tuple[dict[str, list[Message]], str]:
        """What the two get, and the audit."""
        got: dict[str, list[Message]] = {}
        turn = threading.Barrier(3)
        with Hosted(head([ACME, BETA], trans_time=LONG), 4) as service:
            threads = [threading.Thread(target=self.speak, args=(service, tenant, got, turn)) for tenant in (ACME, BETA)]
            for thread in threads:
                thread.start()
            for number in range(self.ROUNDS + 1):
                turn.wait(settings.REPLY_TIME)
                if lives and number > 0:
                    self.life(service)
            for thread in threads:
                thread.join()
            audit = service.end()
        return got, audit

    def test_a_hundred_lives_in_one_slot(self):
        alone, _ = self.heard(lives=False)
        got, audit = self.heard(lives=True)
        self.assertEqual(got, alone)
        for tenant in (ACME, BETA):
            said = [message for round in self.conversation(tenant) for message in round]
            self.assertEqual(got[tenant.name], replies(frames(said), {tenant.token: Alone(tenant, 1)}))
        self.assertEqual(heads_names(audit), ["acme", "beta"])
        check_replays(self, audit, [ACME, BETA])


class Carried(unittest.TestCase):
    def test_an_admitted_tenants_puts_are_carried(self):
        with Hosted(head([ACME], 3, 2, 100), 4) as service:
            for number in range(3):
                service.admit(DELTA)
                with service.greeted(DELTA, 0) as connection, connection.context() as context:
                    context.put("x", str(number))
                    context.put("y", str(number))
                for place in (1, 2):
                    with service.greeted(DELTA, place) as connection:
                        self.assertTrue(wait_until(lambda: self.sees(connection, number), "the puts are seen elsewhere") < 10)
                if number < 2:
                    service.close(DELTA)
            audit = service.end()
        self.assertEqual(sum(record.endswith(" = committed") for record in records(audit, DELTA)), 4)
        check_replays(self, audit, [ACME, DELTA])

    def sees(self, connection: Connection, number: int) -> bool:
        with connection.context() as context:
            return [read.value for read in context.get("x", "y")] == [str(number).encode()] * 2
