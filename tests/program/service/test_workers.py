"""Connections that are served beside each other."""

import socket
import time
import unittest

from audits import check_replays, records
from cops_client.frames import CreateContext, DeleteContext, GetTrans, Handle, Hello, Message, Put
from model import Alone, replies
from service import Service, Tenant, frames, head, messages, read_some, read_to_end, talk

ACME, BETA = Tenant("acme", 1, audit=1000), Tenant("beta", 2, audit=1000)


def conversation(tenant: Tenant, value: bytes = b"10") -> list[Message]:
    """A greeting, a context, a put, a get, a delete, and a get that is refused."""
    first = Handle(1)
    get = GetTrans(first, (b"x",))
    return [Hello(tenant.token, 0), CreateContext(), Put(first, b"x", value), get, DeleteContext(first), get]


def answer(tenant: Tenant, value: bytes = b"10") -> bytes:
    return frames(replies(frames(conversation(tenant, value)), {tenant.token: Alone(tenant, 1)}))


class Workers(unittest.TestCase):
    def test_two_connections_by_turns_have_two_workers(self):
        """beta connects when acme is greeted, and acme goes on when beta has all its replies."""
        with Service(head([ACME, BETA]), workers=2, connections=2) as service:
            hello, rest = conversation(ACME)[:1], conversation(ACME)[1:]
            wanted = answer(ACME)
            with service.stream() as stream:
                stream.sendall(frames(hello))
                self.assertEqual(read_some(stream, 5), wanted[:5])
                self.assertEqual(talk(service.stream(), [frames(conversation(BETA))]), answer(BETA))
                self.assertEqual(talk(stream, [frames(rest)]), wanted[5:])
            audit = service.audit()
        for tenant in (ACME, BETA):
            calls = ["0.0 put x 3130 - - = stored 1.0", "0.0 get x latest = found 1.0 3130 -"]
            self.assertEqual(records(audit, tenant), calls)
        check_replays(self, audit, [ACME, BETA])

    def test_connections_that_say_nothing_hold_one_worker_each(self):
        """One never greets, one stops inside a frame, one after its greeting; a fourth worker serves all others."""
        count = 20
        with Service(head([ACME, BETA]), workers=4, connections=3 + count) as service:
            hello = frames(conversation(ACME)[:1])
            silent = [service.stream() for _ in range(3)]
            silent[1].sendall(hello + frames(conversation(ACME)[1:2])[:3])
            silent[2].sendall(hello)
            for stream in silent[1:]:
                self.assertEqual(read_some(stream, 5), answer(ACME)[:5])
            beta = Alone(BETA, 1)
            for number in range(count):
                sent = frames(conversation(BETA, b"%d" % number))
                self.assertEqual(messages(talk(service.stream(), [sent])), replies(sent, {BETA.token: beta}))
            for stream, end in zip(silent, ["00000002ff01", "00000002ff01", ""]):
                stream.shutdown(socket.SHUT_WR)
                self.assertEqual(read_to_end(stream).hex(), end)
                stream.close()
            audit = service.audit()
        puts = [record for record in records(audit, BETA) if " put " in record]
        self.assertEqual(len(puts), count)
        self.assertEqual(records(audit, ACME), [])
        check_replays(self, audit, [ACME, BETA])

    def test_a_connection_waits_for_a_worker_and_is_then_served(self):
        with Service(head([ACME, BETA]), workers=1, connections=2) as service:
            with service.stream() as first:
                first.sendall(frames(conversation(ACME)[:1]))
                self.assertEqual(read_some(first, 5), answer(ACME)[:5])
                second = service.stream()
                second.sendall(frames(conversation(BETA)))
                second.settimeout(0.2)
                with self.assertRaises(TimeoutError):
                    second.recv(1)
                second.settimeout(10)
            self.assertEqual(talk(second, []), answer(BETA))
            check_replays(self, service.audit(), [ACME, BETA])

    def test_a_connection_that_is_reset_ends_alone(self):
        with Service(head([ACME, BETA]), workers=1, connections=3) as service:
            for part in (conversation(ACME)[:1], conversation(ACME)[:3]):
                stream = service.stream()
                stream.sendall(frames(part)[:-1])
                time.sleep(0.02)
                # A reset in place of an end.
                stream.setsockopt(socket.SOL_SOCKET, socket.SO_LINGER, b"\1\0\0\0\0\0\0\0")
                stream.close()
            self.assertEqual(talk(service.stream(), [frames(conversation(BETA))]), answer(BETA))
            check_replays(self, service.audit(), [ACME, BETA])
