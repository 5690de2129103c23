"""Connections and contexts."""

from __future__ import annotations

import socket
import uuid
from collections import deque
from dataclasses import dataclass
from types import TracebackType
from typing import TypeVar, Union

from .faults import FAULTS, BadKey, ConnectionEnded, CopsError, Fault, ProtocolError, TooManyKeys, ValueTooLong
from .frames import (
    LONGEST_KEY_FIELD,
    LONGEST_VALUE_FIELD,
    MOST_KEYS_FIELD,
    CreateContext,
    Created,
    Decoder,
    DeleteContext,
    Deleted,
    GetTrans,
    Handle,
    Hello,
    Message,
    Put,
    Read,
    Ready,
    Refused,
    Stored,
    Values,
    Version,
    encode,
)

CHUNK = 65_536


@dataclass(frozen=True)
class Wrote:
    """A put in a context's history."""

    key: bytes
    value: bytes
    version: Version


@dataclass(frozen=True)
class Saw:
    """A get transaction in a context's history."""

    reads: tuple[Read, ...]


Operation = Union[Wrote, Saw]

_Reply = TypeVar("_Reply", bound=Message)


def _bytes(text: str | bytes) -> bytes:
    if isinstance(text, str):
        return text.encode()
    if isinstance(text, (bytes, bytearray, memoryview)):
        return bytes(text)
    raise TypeError(f"text or bytes are wanted, not {type(text).__name__}")


def connect(
    host: str, port: int, token: uuid.UUID | str | bytes, data_centre: int = 0, timeout: float | None = 10.0
) -> Connection:
    """Connects to a server and greets it as the tenant of this token, in this data centre.

    The timeout, in seconds, is that of connecting and of each reply. UnknownTenant if no tenant has the token,
    NoSuchPlace if there is no such data centre, OSError if nobody listens.
    """
    if isinstance(token, str):
        token = uuid.UUID(token)
    if isinstance(token, uuid.UUID):
        token = token.bytes
    hello = encode(Hello(token, data_centre))
    stream = socket.create_connection((host, port), timeout)
    stream.setsockopt(socket.IPPROTO_TCP, socket.TCP_NODELAY, 1)
    connection = Connection(stream)
    try:
        connection._greet(hello)
    except BaseException:
        connection.close()
        raise
    return connection


class Connection:
    """One session with a data centre. Its contexts end with it.

    One request is under way at a time, unless `send` and `receive` are used by themselves. Use it from one thread.
    """

    def __init__(self, stream: socket.socket) -> None:
        self._stream: socket.socket | None = stream
        self._decoder = Decoder()
        self._received: deque[Message] = deque()
        self._contexts: dict[int, Context] = {}

    def __enter__(self) -> Connection:
        return self

    def __exit__(self, kind: type | None, error: BaseException | None, trace: TracebackType | None) -> None:
        self.close()

    def close(self) -> None:
        """Ends the connection. To close it again changes nothing."""
        stream, self._stream = self._stream, None
        if stream is not None:
            stream.close()

    @property
    def is_open(self) -> bool:
        return self._stream is not None

    @property
    def contexts(self) -> tuple[Context, ...]:
        """The open contexts, in the order of their numbers."""
        return tuple(self._contexts.values())

    def context(self) -> Context:
        """A new context, which has seen nothing yet. TooManyContexts, OutOfMemory."""
        created = self._ask(encode(CreateContext()), Created)
        context = Context(self, created.context)
        self._contexts[created.context.number] = context
        return context

    def send(self, *messages: Message) -> None:
        """Sends messages without waiting for replies. Each has to be received, in order.

        Receive before many are under way: a server whose replies nobody reads reads no requests either, and both wait.
        """
        self._write(b"".join(map(encode, messages)))

    def receive(self) -> Message:
        """The next reply. If there is none (ConnectionEnded, ProtocolError, TimeoutError) the connection is closed."""
        while not self._received:
            if self._decoder.broken:
                self.close()
                raise ProtocolError("the server sent what is no message")
            try:
                piece = self._open().recv(CHUNK)
            except ConnectionResetError:
                piece = b""
            except BaseException:
                self.close()
                raise
            if not piece:
                self.close()
                raise ConnectionEnded("the server ended the connection")
            self._received.extend(self._decoder.feed(piece))
        return self._received.popleft()

    def _open(self) -> socket.socket:
        if self._stream is None:
            raise ConnectionEnded("the connection is closed")
        return self._stream

    def _write(self, frames: bytes) -> None:
        """Writes frames. If the server takes no more, what it wrote before is still to be read: `receive` gives it."""
        try:
            self._open().sendall(frames)
        except (BrokenPipeError, ConnectionResetError):
            pass
        except BaseException:
            self.close()
            raise

    def _greet(self, hello: bytes) -> None:
        self._ask(hello, Ready)

    def _ask(self, frame: bytes, kind: type[_Reply]) -> _Reply:
        """Sends a request and gives its reply, which is of this kind; raises the fault if it is refused."""
        self._write(frame)
        reply = self.receive()
        if isinstance(reply, kind):
            return reply
        if isinstance(reply, Refused):
            raise FAULTS[reply.number]()
        self.close()
        raise ProtocolError(f"{reply!r} is no reply to what was asked")


class Context:
    """What one client has seen and written. Its puts come after all of that, for every reader, and its gets give
    nothing older. As a context manager it is deleted at the end."""

    def __init__(self, connection: Connection, handle: Handle) -> None:
        self._connection = connection
        self.handle = handle
        #: What was done in this context, in order.
        self.history: list[Operation] = []
        #: For each key the greatest version that the context has seen, itself or by what it has seen depends on.
        self.past: dict[bytes, Version] = {}

    @property
    def number(self) -> int:
        return self.handle.number

    def __enter__(self) -> Context:
        return self

    def __exit__(self, kind: type | None, error: BaseException | None, trace: TracebackType | None) -> None:
        if not self._connection.is_open or self.number not in self._connection._contexts:
            return
        try:
            self.delete()
        except (CopsError, OSError):
            if error is None:
                raise

    def delete(self) -> None:
        """Deletes the context; the connection goes on. NoContext if it is gone already."""
        self._connection._ask(encode(DeleteContext(self.handle)), Deleted)
        del self._connection._contexts[self.number]

    def put(self, key: str | bytes, value: str | bytes) -> Stored:
        """Stores a value and gives its version, which is greater than all that the context has seen of the key.

        BadKey, ValueTooLong, NoContext, DependenciesFull, VersionQuota, ByteQuota, OutboxFull, ClockFull, AuditFull,
        OutOfMemory: nothing is stored.
        """
        key, value = _bytes(key), _bytes(value)
        if len(key) > LONGEST_KEY_FIELD:
            raise BadKey()
        if len(value) > LONGEST_VALUE_FIELD:
            raise ValueTooLong()
        stored = self._connection._ask(encode(Put(self.handle, key, value)), Stored)
        self.history.append(Wrote(key, value, stored.version))
        self._see(stored.key, stored.version)
        return stored

    def get(self, *keys: str | bytes) -> tuple[Read, ...]:
        """Reads 1 to 32 keys at once: no result is older than what another one, or the context, depends on.

        Syntax (no key), BadKey, TooManyKeys, RepeatedKey, NoContext, DependenciesFull, Overrun, AuditFull,
        OutOfMemory: the context has seen nothing new.
        """
        asked = tuple(map(_bytes, keys))
        if any(len(key) > LONGEST_KEY_FIELD for key in asked):
            raise BadKey()
        if len(asked) > MOST_KEYS_FIELD:
            raise TooManyKeys()
        reads = self._connection._ask(encode(GetTrans(self.handle, asked)), Values).reads
        self.history.append(Saw(reads))
        for read in reads:
            if read.value is not None:
                self._see(read.key, read.version)
                for pair in read.dependencies:
                    self._see(pair.key, pair.version)
        return reads

    def _see(self, key: bytes, version: Version) -> None:
        self.past[key] = max(version, self.past.get(key, version))
