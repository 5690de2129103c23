"""What the operator of a service sees on standard error."""

from __future__ import annotations

import re
import socket
import subprocess
import time
import unittest

from cops_client.frames import CreateContext, GetTrans, Handle, Hello, Put, Ready
from operated import Operated, wait_until
from service import FORM, PROGRAM, SERVICE_TIME, Service, Tenant, frames, head, messages, read_some, read_to_end, talk

ACME = Tenant("acme", 1)
HEAD = head([ACME])
HELLO = frames([Hello(ACME.token, 0)])
FIRST = Handle(1)
#: What makes a close a reset.
RESETS = socket.SOL_SOCKET, socket.SO_LINGER, b"\1\0\0\0\0\0\0\0"


def run(words: list[str], text: str = HEAD) -> subprocess.CompletedProcess[str]:
    """The program to its end, which it comes to by itself."""
    command = [*PROGRAM, "serve", *FORM, *words]
    return subprocess.run(command, input=text, capture_output=True, text=True, timeout=SERVICE_TIME)


class Lines(unittest.TestCase):
    def test_a_service_says_where_it_listens_and_what_it_served(self):
        conversation = frames([Hello(ACME.token, 0), CreateContext(), Put(FIRST, b"x", b"10"), Put(FIRST, b"X", b"10")])
        with Operated(HEAD, 2) as service:
            self.assertEqual(service.said(), f"cops: listening on 127.0.0.1:{service.port}\n")
            for _ in range(3):
                self.assertEqual(len(messages(talk(service.stream(), [conversation]))), 4)
            # One that says nothing. It has been accepted by the time that it is ended.
            talk(service.stream(), [])
            service.end()
            first, last = service.said().splitlines()
            connections, requests, refused = service.served()
        self.assertEqual((connections, requests, refused), (4, 9, 3))
        self.assertRegex(last, "^cops: served ")

    def test_a_number_of_connections_ends_it_too(self):
        with Service(HEAD, 2, 3) as service:
            for _ in range(3):
                service.stream().close()
            service.audit()
            listens = f"cops: listening on 127.0.0.1:{service.port}\n"
            self.assertEqual(service.said(), f"{listens}cops: served 3 connections, 0 requests, 0 refused\n")

    def test_another_address(self):
        try:
            socket.create_server(("::1", 0), family=socket.AF_INET6).close()
        except OSError:
            return
        with Operated(HEAD, 1, host="[::1]") as service:
            self.assertEqual(service.host, "[::1]")
            with socket.create_connection(("::1", service.port), 10) as stream:
                stream.sendall(HELLO)
                self.assertEqual(messages(read_some(stream, 5)), [Ready()])
            service.end()

    def test_an_address_where_it_cannot_listen(self):
        with socket.create_server(("127.0.0.1", 0)) as taken:
            address = f"127.0.0.1:{taken.getsockname()[1]}"
            ended = run([address])
        self.assertEqual((ended.returncode, ended.stdout, ended.stderr), (1, "", f"cops: cannot listen on {address}: Address already in use (os error 98)\ncops: E26\n"))

    def test_a_bad_head_has_no_other_line(self):
        ended = run(["127.0.0.1:0"], "cluster 1 1 5000\nbegin\n")
        self.assertEqual((ended.returncode, ended.stdout, ended.stderr), (2, "", "cops: configuration line 1\n"))

    def test_no_standard_input(self):
        command = ["/bin/sh", "-c", 'exec "$@" <&-', "sh", *PROGRAM, "serve", *FORM, "127.0.0.1:0"]
        ended = subprocess.run(command, capture_output=True, text=True, timeout=SERVICE_TIME)
        self.assertEqual((ended.returncode, ended.stdout, ended.stderr), (1, "", "cops: cannot read standard input\ncops: E26\n"))


class Verbose(unittest.TestCase):
    """With `--verbose` there is a line for each connection that ended otherwise than cleanly."""

    def hold(self, sent: bytes, reason: str, ends: bool = False, resets: bool = False, options: tuple[str, ...] = ()) -> None:
        """The reason why a connection ends that sent these bytes."""
        for verbose in (True, False):
            with Operated(HEAD, 2, *options, *["--verbose"] * verbose) as service:
                with service.greeted(ACME):
                    pass
                stream = service.stream()
                address = "{}:{}".format(*stream.getsockname())
                stream.sendall(sent)
                if ends:
                    stream.shutdown(socket.SHUT_WR)
                if resets:
                    self.assertEqual(messages(read_some(stream, 5)), [Ready()])
                    time.sleep(0.2)
                    stream.setsockopt(*RESETS)
                else:
                    read_to_end(stream)
                stream.close()
                line = f"cops: connection {address}: {reason}\n" if verbose else ""
                if verbose:
                    wait_until(lambda: service.faults() != "", "there is a line for the connection")
                service.write(b"end\n")
                self.assertEqual((service.status(), service.faults()), (0, line))
                self.assertRegex(service.said(), rf"\Acops: listening on \S+\n{re.escape(line)}cops: served 2 [^\n]+\n\Z")

    def test_a_greeting_that_is_refused(self):
        self.hold(frames([Hello(bytes(16), 0)]), "refused")

    def test_a_broken_frame(self):
        self.hold(HELLO + bytes(4), "broken frame")

    def test_an_end_inside_a_frame(self):
        self.hold(HELLO + bytes(3), "cut off", ends=True)

    def test_a_connection_that_rests(self):
        self.hold(HELLO, "idle", options=("--idle", "1"))

    def test_a_reset(self):
        self.hold(HELLO + bytes(3), "reading failed", resets=True)

    def test_a_reset_while_replies_wait(self):
        many = frames([CreateContext(), Put(FIRST, b"x", bytes(4_096))]) + frames([GetTrans(FIRST, (b"x",))]) * 4_000
        self.hold(HELLO + many, "writing failed", resets=True)
