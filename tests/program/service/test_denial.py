"""Clients that take what they can: each holds back no more than its own worker, and nothing once it has gone."""

import socket
import time
import unittest

from audits import check_replays
from cops_client.frames import CreateContext, GetTrans, Handle, Hello, Put
from model import Alone, replies
from service import REPLY_TIME, Service, Tenant, frames, head, messages, talk

ACME, BETA = Tenant("acme", 1), Tenant("beta", 2)
HELLO = frames([Hello(ACME.token, 0)])
#: A connection of beta's, from its greeting to its end.
CONVERSATION = frames([Hello(BETA.token, 0), CreateContext(), Put(Handle(1), b"x", b"10"), GetTrans(Handle(1), (b"x",))])


class Denial(unittest.TestCase):
    def setUp(self) -> None:
        self.beta = {BETA.token: Alone(BETA, 1)}

    def converse(self, service: Service, times: int = 1) -> None:
        """Connections of beta's, one after another, each answered as if nobody else were there."""
        for _ in range(times):
            answered = messages(talk(service.stream(), [CONVERSATION]))
            self.assertEqual(answered, replies(CONVERSATION, self.beta))

    def both_workers_serve(self, service: Service) -> None:
        """Two connections by turns, which one worker alone couldn't serve."""
        with service.greeted(BETA):
            self.converse(service)

    def test_a_client_that_never_reads_its_replies_holds_one_worker(self):
        with Service(head([ACME, BETA]), workers=2, connections=13) as service:
            stream = service.stream()
            stream.sendall(HELLO + frames([CreateContext(), Put(Handle(1), b"x", bytes(4_096))]))
            get = frames([GetTrans(Handle(1), (b"x",))]) * 1_000
            stream.settimeout(0.5)
            sent = 0
            with self.assertRaises(TimeoutError):
                while sent < 1 << 30:
                    sent += stream.send(get)
            self.converse(service, 10)
            stream.close()
            self.both_workers_serve(service)
            check_replays(self, service.audit(), [ACME, BETA])

    def test_a_client_that_sends_a_long_frame_byte_by_byte_holds_one_worker(self):
        with Service(head([ACME, BETA]), workers=2, connections=13) as service:
            before = 0
            with service.stream() as stream:
                stream.sendall(HELLO + (4_000_000).to_bytes(4, "big"))
                for _ in range(10):
                    stream.sendall(b"\4")
                    self.converse(service)
                    before = before or service.memory()
                # What was said to come takes no memory before it comes.
                self.assertLess(service.memory() - before, 3_000_000)
            self.both_workers_serve(service)
            check_replays(self, service.audit(), [ACME, BETA])

    def test_many_connections_one_after_another_leave_nothing(self):
        count = 500
        with Service(head([ACME, BETA]), workers=2, connections=3 * count + 2) as service:
            sizes = []
            for _ in range(3):
                for number in range(count):
                    with service.stream() as stream:
                        # Some greet, some are no greeting, some say nothing, some are reset.
                        stream.sendall((HELLO, HELLO[:7], b"", b"\0\0\0\0")[number % 4])
                        if number % 3 == 0:
                            stream.setsockopt(socket.SOL_SOCKET, socket.SO_LINGER, b"\1\0\0\0\0\0\0\0")
                sizes.append(service.memory())
            until = time.monotonic() + REPLY_TIME
            self.both_workers_serve(service)
            self.assertLess(time.monotonic(), until)
            self.assertLess(sizes[2] - sizes[0], 2_000_000, sizes)
            check_replays(self, service.audit(), [ACME, BETA])
