"""Sockets that fail under the service, and a head or an audit that can't be read or written.

A connection that fails gets a prefix of its replies, and never one to a request that didn't come whole. Other connections
are served as if nothing had been.
"""

import errno
import socket
import time
import unittest

import pair
from audits import check_replays, records
from cops_client.faults import VersionQuota
from cops_client.frames import CreateContext, Created, DeleteContext, GetTrans, Handle, Hello, Message, Put, Ready, Refused, Stored
from model import SYNTAX, Alone, replies
from operated import ACCEPTS_AGAIN, Operated, wait_until
from service import ITS_OWN_LINES, PROGRAM, Service, Tenant, frames, head, messages, read_some, talk

ACME, BETA = Tenant("acme", 1), Tenant("beta", 2)
FIRST = Handle(1)
HEAD = head([ACME, BETA])
HELLO = frames([Hello(ACME.token, 0)])
#: Errors of a call for the next connection: those that pass, and those that say that the listener is gone.
PASSING = (
    errno.ECONNABORTED,
    errno.EINTR,
    errno.EAGAIN,
    errno.EMFILE,
    errno.ENFILE,
    errno.ENOBUFS,
    errno.ENOMEM,
    errno.EPROTO,
    errno.EPERM,
    errno.ENETDOWN,
    errno.EHOSTUNREACH,
    errno.ETIMEDOUT,
)
GONE = (errno.EBADF, errno.EINVAL, errno.ENOTSOCK, errno.EOPNOTSUPP)


def conversation(tenant: Tenant) -> list[Message]:
    get = GetTrans(FIRST, (b"yy", b"x", b"z"))
    return [Hello(tenant.token, 0), CreateContext(), Put(FIRST, b"x", b"10"), Put(FIRST, b"yy", b""), get, DeleteContext(FIRST), get]


def by(variables: dict[str, str]) -> list[str]:
    """The program with these variables."""
    return ["/usr/bin/env", *(f"{name}={value}" for name, value in variables.items()), *PROGRAM]


def on_sockets(kind: str, **how: int) -> list[str]:
    return by(pair.failing(kind, sockets=1, **how))


def answers_to(stream: bytes, tenant: Tenant) -> bytes:
    """The replies to the requests that are whole in a stream, without what is said of its end."""
    told = replies(stream, {tenant.token: Alone(tenant, 1)})
    whole = replies(stream + b"\0\0\0\0", {tenant.token: Alone(tenant, 1)})
    return frames(told[:-1] if told[-1] == Refused(SYNTAX) and told == whole else told)


class Sockets(unittest.TestCase):
    def test_bytes_come_and_go_one_by_one(self):
        stream = frames(conversation(ACME))
        for kind in ("read", "write"):
            for piece in (1, 2, 3, 7, 64):
                tenants = {ACME.token: Alone(ACME, 1)}
                with Service(HEAD, 1, 2, on_sockets(kind, piece=piece)) as service:
                    for sent in (stream, stream + b"\0\0\0"):
                        pair.hold()
                        self.assertEqual(messages(talk(service.stream(), [sent])), replies(sent, tenants))
                    check_replays(self, service.audit(), [ACME, BETA])

    def told_where(self, kind: str, number: int, piece: int, error: int) -> bytes:
        """What acme gets if a call fails; beta and then acme again are served as ever."""
        pair.hold()
        with Service(HEAD, 1, 3, on_sockets(kind, call=number, piece=piece, error=error)) as service:
            answered = talk(service.stream(), [frames(conversation(ACME))])
            sent = frames(conversation(BETA))
            self.assertEqual(messages(talk(service.stream(), [sent])), replies(sent, {BETA.token: Alone(BETA, 1)}))
            again = messages(talk(service.stream(), [frames(conversation(ACME)[:3])]))
            self.assertEqual(again[:2], [Ready(), Created(FIRST)])
            self.assertIsInstance(again[2], Stored)
            audit, said = self.end_of(service)
            self.assertEqual(said, "failed\n")
            check_replays(self, audit, [ACME, BETA])
        return answered

    def end_of(self, service: Service) -> tuple[str, str]:
        self.assertEqual(service.status(), 0)
        return service.written().decode(), service.faults()

    def test_each_read_fails(self):
        stream = frames(conversation(ACME))
        for piece, error in ((11, errno.ECONNRESET), (30, errno.EIO), (4_096, errno.ETIMEDOUT)):
            for number in range(1, -(-len(stream) // piece) + 1):
                with self.subTest(piece=piece, number=number):
                    answered = self.told_where("read", number, piece, error)
                    came = stream[: (number - 1) * piece]
                    # A greeting that failed may get a refusal.
                    wanted = answers_to(came, ACME) or frames([Refused(SYNTAX)])
                    self.assertTrue(wanted.startswith(answered), (wanted, answered))

    def test_each_write_fails(self):
        stream = frames(conversation(ACME))
        wanted = answers_to(stream, ACME)
        for piece in (9, 20):
            for number in range(1, 1 + len(wanted) // piece):
                with self.subTest(piece=piece, number=number):
                    answered = self.told_where("write", number, piece, errno.EPIPE)
                    self.assertTrue(wanted.startswith(answered), (wanted, answered))
                    self.assertLess(len(answered), len(wanted))

    def test_each_call_is_interrupted(self):
        stream = frames(conversation(ACME))
        wanted = answers_to(stream, ACME)
        for kind in ("read", "write"):
            for number in (1, 2, 3):
                with self.subTest(kind=kind, number=number):
                    answered = self.told_where(kind, number, 20, errno.EINTR)
                    self.assertTrue(wanted.startswith(answered) or answered == frames([Refused(SYNTAX)]))

    def test_a_connection_that_cannot_be_accepted(self):
        """It is tried again after a pause, which grows. Nothing else changes."""
        sent = frames(conversation(ACME))
        for error, count in [*((error, 1) for error in PASSING), (errno.EMFILE, 5)]:
            pair.hold()
            with self.subTest(error=errno.errorcode[error]):
                with Service(HEAD, 1, 2, on_sockets("accept", call=2, error=error, count=count)) as service:
                    tenants = {ACME.token: Alone(ACME, 1)}
                    for _ in range(2):
                        self.assertEqual(messages(talk(service.stream(), [sent])), replies(sent, tenants))
                    self.assertEqual(service.status(), 0)
                    self.assertEqual(ACCEPTS_AGAIN.sub("", service.faults()), "failed\n" * count)
                    check_replays(self, service.written().decode(), [ACME, BETA])

    def test_a_listener_that_is_gone(self):
        """The connection that is open goes on to its end, and the audit is written."""
        hello, rest = frames(conversation(ACME)[:1]), frames(conversation(ACME)[1:])
        for error in GONE:
            pair.hold()
            with self.subTest(error=errno.errorcode[error]):
                with Service(HEAD, 1, 2, on_sockets("accept", call=2, error=error)) as service:
                    stream = service.stream()
                    stream.sendall(hello)
                    self.assertEqual(read_some(stream, 5), frames([Ready()]))
                    wait_until(lambda: "failed\n" in service.said(), "the listener fails")
                    wanted = replies(hello + rest, {ACME.token: Alone(ACME, 1)})
                    self.assertEqual([Ready(), *messages(talk(stream, [rest]))], wanted)
                    self.assertEqual(service.status(), 1)
                    self.assertEqual(service.faults(), "failed\ncops: the listener failed\ncops: E26\n")
                    check_replays(self, service.written().decode(), [ACME, BETA])
                    self.assertEqual(sum(" put " in record for record in records(service.written().decode(), ACME)), 2)

    def test_descriptors_run_out(self):
        """More clients come than the process may have open files. They wait, and are served once others go."""
        with Operated(HEAD, 16, descriptors=10) as service:
            streams = [service.stream() for _ in range(14)]
            for stream in streams:
                pair.hold()
                stream.sendall(HELLO)
            served = [stream for stream in streams if self.is_greeted(stream, 0.2)]
            waiting = [stream for stream in streams if stream not in served]
            self.assertGreater(len(served), 2)
            self.assertGreater(len(waiting), 2)
            time.sleep(0.5)
            while waiting:
                served.pop(0).close()
                wait_until(lambda: any(self.is_greeted(stream, 0.01) for stream in waiting), "one of those who wait is served")
                found = [stream for stream in waiting if self.is_greeted(stream, 0.01)]
                waiting = [stream for stream in waiting if stream not in found]
                served += found
            for stream in served:
                stream.close()
            sent = frames(conversation(ACME))
            self.assertEqual(messages(talk(service.stream(), [sent])), replies(sent, {ACME.token: Alone(ACME, 1)}))
            service.write(b"end\n")
            self.assertEqual((service.status(), ACCEPTS_AGAIN.sub("", service.faults())), (0, ""))
            check_replays(self, service.written().decode(), [ACME, BETA])

    def is_greeted(self, stream: socket.socket, seconds: float) -> bool:
        """Whether the greeting is answered within a time. The answer isn't taken."""
        stream.settimeout(seconds)
        try:
            return stream.recv(5, socket.MSG_PEEK) == frames([Ready()])
        except TimeoutError:
            return False

    def test_a_clock_that_jumps(self):
        """The time of day goes a year forward and back again and again. Versions grow old all the same."""
        pair.hold()
        acme = Tenant("acme", 1, versions=2)
        with Operated(head([acme], trans_time=50), 1, program=by(pair.failing("clock", call=2))) as service:
            with service.greeted(acme) as connection, connection.context() as context:
                context.put("x", "10")
                for number in range(3):
                    context.put("x", str(number))
                    self.assertRaises(VersionQuota, context.put, "x", "30")
                    time.sleep(0.3)
            audit = service.end()
        moments = [int(line.split(" ")[2]) for line in audit.splitlines() if line.startswith("acme ")]
        self.assertLess(max(moments) - min(moments), 60_000)
        self.assertEqual(sum(" = stored " in record for record in records(audit, acme)), 4)
        check_replays(self, audit, [acme])

    def test_a_thread_that_cannot_be_started(self):
        """Each thread in turn, until a service starts fewer."""
        number = 0
        while True:
            number += 1
            outcome = pair.program(["serve", "127.0.0.1:0", "--workers", "2"], HEAD.encode() + b"end\n", pair.failing("thread", call=number))
            faults = ITS_OWN_LINES.sub("", outcome.faults.decode())
            if "failed\n" not in faults:
                break
            self.assertEqual((outcome.status, faults), (1, "failed\ncops: cannot start a thread\ncops: E26\n"))
        self.assertEqual((outcome.status, faults), (0, ""))
        self.assertGreater(number, 4)

    def test_a_head_that_cannot_be_read(self):
        for number, piece in ((1, 4_096), (2, 1), (100, 1), (len(HEAD), 1)):
            outcome = pair.program(["serve", "127.0.0.1:0", "--connections", "1"], HEAD.encode(), pair.failing("read", call=number, piece=piece))
            self.assertEqual((outcome.status, outcome.output, outcome.faults), (1, b"", b"failed\ncops: cannot read standard input\ncops: E26\n"))

    def test_an_audit_that_cannot_be_written(self):
        """A prefix of it is, and the clients were served all the same."""
        sent, written = frames(conversation(ACME)), []
        for room in (100_000, 0, 1, 60, 250, 300):
            pair.hold()
            with Service(HEAD, 1, 1, by(pair.failing("write", room=room))) as service:
                self.assertEqual(messages(talk(service.stream(), [sent])), replies(sent, {ACME.token: Alone(ACME, 1)}))
                status = service.status()
                written.append(service.written())
                if room == 100_000:
                    self.assertEqual((status, service.faults()), (0, ""))
                else:
                    self.assertEqual((status, service.faults()), (1, "failed\ncops: E27\n"))
                    # Moments differ from one service to the next, and come after the head.
                    self.assertEqual(len(written[-1]), room)
                    begin = len(written[0].split(b"begin\n")[0])
                    self.assertTrue(written[0][:begin].startswith(written[-1][:begin]))
