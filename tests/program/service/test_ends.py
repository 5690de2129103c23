"""How connections end, and how the service does."""

from __future__ import annotations

import re
import signal
import socket
import subprocess
import sys
import time
import unittest

from audits import check_replays, records
from cops_client.frames import CreateContext, Created, GetTrans, Handle, Hello, Message, Put, Ready, Refused, Stored, Version
from model import SYNTAX, UNKNOWN_TENANT
from operated import Operated, wait_until
from service import FORM, REPLY_TIME, Tenant, frames, head, messages, read_some

ACME, BETA = Tenant("acme", 1), Tenant("beta", 2)
HELLO = frames([Hello(ACME.token, 0)])
READY = frames([Ready()])
FIRST = Handle(1)
#: What a busy machine may add, in seconds.
SLACK = 4.0


def read_whole(stream: socket.socket) -> bytes:
    """All that comes until the other side ends. A reset is an error."""
    read = b""
    while piece := stream.recv(65_536):
        read += piece
    return read


def is_over(stream: socket.socket, seconds: float) -> bool:
    """Whether the other side ends within a time. What comes before is passed over."""
    until = time.monotonic() + seconds
    try:
        while (rest := until - time.monotonic()) > 0:
            stream.settimeout(rest)
            if not stream.recv(65_536):
                return True
    except ConnectionResetError:
        return True
    except TimeoutError:
        pass
    return False


class Idle(unittest.TestCase):
    """Connections that rest for longer than `--idle` are ended, and their workers serve others."""

    def check_served(self, service: Operated, seconds: float) -> None:
        """A connection of beta's is served within a time."""
        stream = service.stream()
        stream.settimeout(seconds)
        with stream:
            stream.sendall(frames([Hello(BETA.token, 0), CreateContext()]))
            self.assertEqual(messages(read_some(stream, 19)), [Ready(), Created(FIRST)])

    def vanishing(self, service: Operated, number: int) -> socket.socket:
        """A peer that says no more at some point: before its greeting, inside it, after it, or inside a request."""
        stream = service.stream()
        stream.sendall((b"", HELLO[:7], HELLO, HELLO + (100).to_bytes(4, "big") + b"\4")[number % 4])
        return stream

    def test_peers_that_vanish_leave_their_workers(self):
        with Operated(head([ACME, BETA]), 16, "--idle", "1") as service:
            peers = [self.vanishing(service, number) for number in range(16)]
            self.check_served(service, 1 + SLACK)
            self.check_served(service, SLACK)
            for peer in peers:
                self.assertTrue(is_over(peer, SLACK))
                peer.close()
            check_replays(self, service.end(), [ACME, BETA])

    def test_stopped_clients_leave_their_workers(self):
        """Processes that hold connections and are stopped, so that nothing says that they have gone."""
        text = (
            "import socket, sys, time\n"
            "streams = [socket.create_connection((sys.argv[1], int(sys.argv[2]))) for _ in range(4)]\n"
            "for stream in streams: stream.sendall(bytes.fromhex(sys.argv[3])); stream.recv(5)\n"
            "print(flush=True); time.sleep(60)\n"
        )
        with Operated(head([ACME, BETA]), 4, "--idle", "1") as service:
            command = [sys.executable, "-c", text, service.host, str(service.port), HELLO.hex()]
            with subprocess.Popen(command, stdout=subprocess.PIPE) as client:
                assert client.stdout is not None
                client.stdout.readline()
                client.send_signal(signal.SIGSTOP)
                self.check_served(service, 1 + SLACK)
                client.kill()
            check_replays(self, service.end(), [ACME, BETA])

    def test_a_frame_that_comes_byte_by_byte_is_ended(self):
        """Each byte comes in time, but not the frame."""
        for before in (b"", HELLO):
            with Operated(head([ACME, BETA]), 1, "--idle", "1") as service, service.stream() as stream:
                began = time.monotonic()
                stream.sendall(before + (4_000_000).to_bytes(4, "big"))
                over = False
                while not over and time.monotonic() - began < 1 + SLACK:
                    try:
                        stream.sendall(b"\4")
                    except (BrokenPipeError, ConnectionResetError):
                        over = True
                    over = over or is_over(stream, 0.2)
                self.assertTrue(over)
                self.assertGreater(time.monotonic() - began, 0.9)
                self.check_served(service, SLACK)
                service.end()

    def test_a_client_that_never_reads_is_ended(self):
        with Operated(head([ACME, BETA]), 1, "--idle", "1") as service:
            stream = service.stream()
            stream.sendall(HELLO + frames([CreateContext(), Put(FIRST, b"x", bytes(4_096))]))
            get = frames([GetTrans(FIRST, (b"x",))]) * 1_000
            stream.settimeout(0.3)
            with self.assertRaises(TimeoutError):
                for _ in range(100_000):
                    stream.send(get)
            # What is left to be read, then the end.
            self.check_served(service, 1 + 2 * SLACK)
            stream.settimeout(REPLY_TIME)
            self.assertTrue(is_over(stream, SLACK))
            stream.close()
            check_replays(self, service.end(), [ACME, BETA])

    def test_a_client_that_asks_in_time_goes_on(self):
        with Operated(head([ACME, BETA]), 1, "--idle", "3") as service:
            with service.greeted(ACME) as connection, connection.context() as context:
                for number in range(4):
                    time.sleep(1)
                    context.put("x", str(number))
            check_replays(self, service.end(), [ACME, BETA])

    def test_without_idle_nobody_is_ended(self):
        for options in ([], ["--idle", "0"]):
            with Operated(head([ACME, BETA]), 4, *options) as service:
                peers = [self.vanishing(service, number) for number in range(4)]
                time.sleep(1.2)
                self.assertEqual([is_over(peer, 0.1) for peer in peers], [False] * 4)
                for peer in peers:
                    peer.close()
                check_replays(self, service.end(), [ACME, BETA])


class Refusals(unittest.TestCase):
    """A connection that the service ends gets all replies first, though more has come than is read."""

    def hold(self, sent: list[Message], behind: bytes, replies: list[Message]) -> None:
        with Operated(head([ACME, BETA]), 1) as service:
            for _ in range(20):
                with service.stream() as stream:
                    stream.sendall(frames(sent) + behind)
                    # (what the service answers comes before the client reads)
                    time.sleep(0.01)
                    self.assertEqual(messages(read_whole(stream)), replies)
            check_replays(self, service.end(), [ACME])

    def test_a_greeting_with_much_behind_it(self):
        sent: list[Message] = [Hello(bytes(16), 0)]
        for behind in (frames([CreateContext()]), bytes(50_000)):
            self.hold(sent, behind, [Refused(UNKNOWN_TENANT)])

    def test_a_broken_frame_with_much_behind_it(self):
        sent: list[Message] = [Hello(ACME.token, 0), *[CreateContext()] * 60]
        for behind in (bytes(4), bytes(50_000), frames([Hello(ACME.token, 0)]) * 2_000):
            self.hold(sent, behind, [Ready(), *[Created(Handle(number)) for number in range(1, 61)], Refused(SYNTAX)])


class Ending(unittest.TestCase):
    def test_all_that_was_stored_is_in_the_audit(self):
        """Stored in one data centre and asked to end at once: it is carried, and what is due is collected."""
        count = 300
        for idle in ([], ["--idle", "1"]):
            with Operated(head([ACME, BETA], 2, 2, 0), 2, *idle) as service:
                versions = []
                with service.greeted(ACME, 1) as connection, connection.context() as context:
                    versions = [(key, context.put(key, "10").version) for key in ("x", "y") * (count // 2)]
                audit = service.end()
            found = records(audit, ACME)
            for key, version in versions:
                self.assertEqual(sum(f" put {key} " in record and record.endswith(f" = stored {version}") for record in found), 1)
            self.assertEqual(sum(record.endswith(" = committed") for record in found), count)
            self.assertTrue([record for record in found if re.search(r" = removed [1-9]", record)])
            check_replays(self, audit, [ACME, BETA])

    def test_an_open_connection_may_finish_what_it_sent(self):
        count = 500
        with Operated(head([ACME, BETA]), 2) as service:
            stream = service.stream()
            stream.sendall(HELLO + frames([CreateContext()]))
            self.assertEqual(len(read_some(stream, 19)), 19)
            stream.sendall(frames([Put(FIRST, b"x", b"10")] * count))
            service.write(b"end\n")
            time.sleep(0.1)
            with stream:
                replies = messages(read_some(stream, count * len(frames([Stored(b"x", Version(1, 0))]))))
                self.assertEqual(sum(isinstance(reply, Stored) for reply in replies), count)
            began = time.monotonic()
            audit = service.ended()
            self.assertLess(time.monotonic() - began, SLACK)
        self.assertEqual(sum(" put " in record for record in records(audit, ACME)), count)
        check_replays(self, audit, [ACME, BETA])

    def test_connections_that_rest_end_with_the_service(self):
        for options, seconds in ((["--idle", "1"], 1), ([], 5)):
            with Operated(head([ACME, BETA]), 2, *options) as service:
                with service.greeted(ACME) as connection, service.stream():
                    with connection.context() as context:
                        context.put("x", "10")
                    began = time.monotonic()
                    audit = service.end()
                    self.assertLess(time.monotonic() - began, seconds + SLACK)
            check_replays(self, audit, [ACME, BETA])

    def test_nobody_is_accepted_after_the_end(self):
        with Operated(head([ACME, BETA]), 2, "--idle", "1") as service, service.greeted(ACME):
            service.write(b"end\n")
            # Whoever comes before the line is read is still answered.
            wait_until(lambda: not self.is_answered(service), "nobody is answered any more")
            service.ended()

    def is_answered(self, service: Operated) -> bool:
        try:
            with socket.create_connection((service.host, service.port), 1) as late:
                late.sendall(HELLO)
                return late.recv(5) != b""
        except (ConnectionError, TimeoutError):
            return False

    def test_other_lines_change_nothing(self):
        lines = [b"stop", b"END", b" end", b"end ", b"end end", b"begin", b"tenant x", b"\xff\xfe", b"e" * 1_000_000]
        text = head([ACME, BETA])
        first = text.count("\n") + 1
        with Operated(text, 2) as service:
            service.write(b"\n\n" + b"\n".join(lines) + b"\n\n")
            if FORM:
                said = "".join(f"cops: line {first + 2 + place}: only 'end' may follow 'begin'\n" for place in range(len(lines)))
            else:
                said = "- E01\n" * len(lines)
            wait_until(lambda: service.faults() == said, "each line is refused")
            with service.greeted(ACME) as connection, connection.context() as context:
                context.put("x", "10")
            service.write(b"end\n")
            self.assertEqual((service.status(), service.faults()), (0, said))
            check_replays(self, service.written().decode(), [ACME, BETA])

    def test_the_end_of_input_means_nothing(self):
        with Operated(head([ACME, BETA]), 2) as service:
            service.close_input()
            time.sleep(0.2)
            with service.greeted(ACME) as connection, connection.context() as context:
                context.put("x", "10")
            self.assertTrue(service.is_running())

    def test_the_last_line_may_lack_its_newline(self):
        with Operated(head([ACME, BETA]), 2) as service:
            service.write(b"end")
            service.close_input()
            service.ended()
