"""A running service of the program under test, and raw connections to it."""

from __future__ import annotations

import contextlib
import os
import re
import socket
import subprocess
import tempfile
import time
from dataclasses import dataclass
from typing import IO, TypeVar

from cops_client.client import Connection
from cops_client.frames import Decoder, Hello, Message, Ready, encode

#: The program under test, with the words that come before those of a command.
PROGRAM: list[str] = []

#: The options that each service is started with.
FORM: list[str] = []

#: Longest waits, in seconds: for one reply, and for the service to begin or end.
REPLY_TIME = 30.0
SERVICE_TIME = 60.0

#: How long tests that look for what happens seldom go on, in seconds.
SECONDS = 3.0

MOST = 4_294_967_295

#: What a service says of itself on standard error: where it listens, and at its end what it served.
ITS_OWN_LINES = re.compile(r"^cops: (listening on \S+|served \d+ connections, \d+ requests, \d+ refused)\n", re.M)


@dataclass(frozen=True)
class Tenant:
    """A tenant's line of the head."""

    name: str
    number: int
    first_clock: int = 0
    versions: int = MOST
    bytes: int = MOST
    outbox: int = MOST
    contexts: int = 64
    dependencies: int = 1024
    actors: int = MOST
    audit: int = MOST

    @property
    def token(self) -> bytes:
        return self.number.to_bytes(16, "big")

    def line(self) -> str:
        token = self.token.hex()
        quotas = [self.versions, self.bytes, self.outbox, self.contexts, self.dependencies, self.actors, self.audit]
        return f"tenant {self.name} {token} {self.first_clock} {' '.join(map(str, quotas))}"


def head(tenants: list[Tenant], data_centres: int = 1, shards: int = 1, trans_time: int = 5000, restarts: int = 1) -> str:
    lines = [f"cluster {data_centres} {shards} {trans_time} {restarts}", *(tenant.line() for tenant in tenants), "begin"]
    return "\n".join(lines) + "\n"


def _free_port() -> int:
    with socket.socket() as probe:
        probe.bind(("127.0.0.1", 0))
        return probe.getsockname()[1]


def _all_of(file: IO[bytes]) -> bytes:
    return os.pread(file.fileno(), os.fstat(file.fileno()).st_size, 0)


Kind = TypeVar("Kind", bound="Service")


class Service:
    """The program serving so many connections, and then ending by itself. At the end of a `with` it is gone in any case."""

    def __init__(self, text: str, workers: int, connections: int, program: list[str] = PROGRAM) -> None:
        self._program = program
        self._head = text
        self._numbers = ["--workers", str(workers), "--connections", str(connections)]
        self._connections = connections
        self._connected = 0

    def __enter__(self: Kind) -> Kind:
        try:
            self._start()
        except BaseException:
            self.__exit__()
            raise
        return self

    def __exit__(self, *error: object) -> None:
        if self._process.poll() is None:
            self._process.kill()
        self._process.wait()
        with contextlib.suppress(BrokenPipeError):
            self.close_input()
        self._files.close()
        self._errors.close()

    def _start(self) -> None:
        self.port = _free_port()
        self._launch(f"127.0.0.1:{self.port}", *self._numbers)
        self.close_input()

    def _launch(self, *words: str, **how: object) -> None:
        """Starts the program and writes the head to its standard input."""
        self._files, self._errors = tempfile.TemporaryFile(), tempfile.TemporaryFile()
        command = [*self._program, "serve", *FORM, *words]
        self._process = subprocess.Popen(command, stdin=subprocess.PIPE, stdout=self._files, stderr=self._errors, **how)
        self.write(self._head.encode())

    def write(self, lines: bytes) -> None:
        """Writes to the service's standard input."""
        assert self._process.stdin is not None
        self._process.stdin.write(lines)
        self._process.stdin.flush()

    def close_input(self) -> None:
        assert self._process.stdin is not None
        self._process.stdin.close()

    def said(self) -> str:
        """All of standard error so far."""
        return _all_of(self._errors).decode(errors="replace")

    def faults(self) -> str:
        """What standard error has beside the lines that every service writes."""
        return ITS_OWN_LINES.sub("", self.said())

    def stream(self) -> socket.socket:
        """A connection to the service. Waits until it listens."""
        until = time.monotonic() + SERVICE_TIME
        while True:
            try:
                stream = socket.create_connection(("127.0.0.1", self.port), REPLY_TIME)
                # Where nobody listens, a connection may find itself.
                if stream.getsockname() != stream.getpeername():
                    self._connected += 1
                    stream.setsockopt(socket.IPPROTO_TCP, socket.TCP_NODELAY, 1)
                    return stream
                stream.close()
            except ConnectionRefusedError:
                pass
            if self._process.poll() is not None:
                if self._connected > 0 or time.monotonic() > until or "E26" not in self.said():
                    raise AssertionError(f"the service has ended: {self.said()}")
                # The port was taken meanwhile.
                self._start()
            if time.monotonic() > until:
                raise AssertionError("the service doesn't listen")
            time.sleep(0.01)

    def greeted(self, tenant: Tenant, data_centre: int = 0) -> Connection:
        """A client's connection, greeted."""
        connection = Connection(self.stream())
        connection.send(Hello(tenant.token, data_centre))
        reply = connection.receive()
        assert reply == Ready(), reply
        return connection

    def memory(self) -> int:
        """Resident bytes."""
        with open(f"/proc/{self._process.pid}/statm") as file:
            return int(file.read().split()[1]) * os.sysconf("SC_PAGESIZE")

    def made_by_others(self, connections: int) -> None:
        """Counts connections that weren't made by `stream`."""
        self._connected += connections

    def audit(self) -> str:
        """Waits for the end and gives what was written then. All connections have to be made and ended before."""
        assert self._connected == self._connections, f"{self._connected} of {self._connections} connections were made"
        outcome = self.status(), self.faults()
        assert outcome == (0, ""), outcome
        return self.written().decode()

    def status(self) -> int:
        """The status with which the service ends, once it does."""
        return self._process.wait(SERVICE_TIME)

    def written(self) -> bytes:
        """All of standard output so far."""
        return _all_of(self._files)


def read_to_end(stream: socket.socket) -> bytes:
    """All that comes until the other side ends or resets the connection."""
    read = b""
    while True:
        try:
            piece = stream.recv(65_536)
        except ConnectionResetError:
            return read
        if not piece:
            return read
        read += piece


def read_some(stream: socket.socket, count: int) -> bytes:
    """So many bytes, or fewer if the other side ends."""
    read = b""
    while len(read) < count:
        piece = stream.recv(count - len(read))
        if not piece:
            break
        read += piece
    return read


def talk(stream: socket.socket, pieces: list[bytes], pause: float = 0.0) -> bytes:
    """Sends the pieces and then the end, and gives all that is answered. The other side may end before."""
    try:
        for place, piece in enumerate(pieces):
            if place > 0 and pause > 0:
                time.sleep(pause)
            stream.sendall(piece)
        stream.shutdown(socket.SHUT_WR)
    except (BrokenPipeError, ConnectionResetError, OSError) as error:
        if isinstance(error, TimeoutError):
            raise
    with stream:
        return read_to_end(stream)


def messages(stream: bytes) -> list[Message]:
    """The messages of a whole stream."""
    decoder = Decoder()
    given = decoder.feed(stream)
    assert not decoder.broken and not decoder.pending, stream
    return given


def frames(sent: list[Message]) -> bytes:
    return b"".join(map(encode, sent))
