"""Messages, and their one spelling as frames.

A frame is a length of four bytes and then a body of so many bytes, 1 to 4,000,000. The first byte of a body is the
message's tag. All numbers have the most significant byte first. Each message has one spelling, and a body ends where its
message ends.
"""

from __future__ import annotations

from dataclasses import dataclass
from typing import Union

from .faults import FAULTS, ProtocolError
from .layout import CLOCK_BITS, HELLO_TAG, NODE_BITS

LONGEST_BODY = 4_000_000
LONGEST_KEY_FIELD = 0xFF
LONGEST_VALUE_FIELD = 0xFFFF
MOST_KEYS_FIELD = 0xFF

#: The kind of a handle that names a context.
CONTEXT_KIND = 0x43


@dataclass(frozen=True, order=True)
class Version:
    """A clock and the number of the node that counted it, ordered by clock and then node."""

    clock: int
    node: int

    def __str__(self) -> str:
        return f"{self.clock}.{self.node}"

    @property
    def number(self) -> int:
        """The version as it stands in frames."""
        if self.clock >> CLOCK_BITS or self.node >> NODE_BITS:
            raise ValueError(f"{self} is no version")
        return self.clock << NODE_BITS | self.node

    @staticmethod
    def from_number(number: int) -> Version:
        return Version(number >> NODE_BITS, number & (1 << NODE_BITS) - 1)


#: What stands for no version.
NO_VERSION = Version(0, 0)


@dataclass(frozen=True, order=True)
class Pair:
    """A version of a key."""

    key: bytes
    version: Version

    def __str__(self) -> str:
        return f"{self.key.decode('ascii', 'backslashreplace')}:{self.version}"


@dataclass(frozen=True)
class Read:
    """What a transaction read of one key. An absent key has no value and no version."""

    key: bytes
    value: bytes | None = None
    version: Version = NO_VERSION
    #: The greatest version of each key that the put of this version had seen.
    dependencies: tuple[Pair, ...] = ()


@dataclass(frozen=True)
class Handle:
    """What names a context: a kind and a number."""

    number: int
    kind: int = CONTEXT_KIND


@dataclass(frozen=True)
class Hello:
    """The client's token, and the data centre it wants. The first message of a client, and of a client alone."""

    token: bytes
    data_centre: int


@dataclass(frozen=True)
class CreateContext:
    pass


@dataclass(frozen=True)
class DeleteContext:
    context: Handle


@dataclass(frozen=True)
class Put:
    context: Handle
    key: bytes
    value: bytes


@dataclass(frozen=True)
class GetTrans:
    """A get transaction of one or several keys."""

    context: Handle
    keys: tuple[bytes, ...]


@dataclass(frozen=True)
class Ready:
    """The answer to a greeting."""


@dataclass(frozen=True)
class Created:
    context: Handle


@dataclass(frozen=True)
class Deleted:
    pass


@dataclass(frozen=True)
class Stored:
    """The answer to a put: the version that the value has got."""

    key: bytes
    version: Version


@dataclass(frozen=True)
class Values:
    """The answer to a get transaction: a result for each key, in the order asked."""

    reads: tuple[Read, ...]


@dataclass(frozen=True)
class Refused:
    """A fault in place of an answer, by its number."""

    number: int


Request = Union[Hello, CreateContext, DeleteContext, Put, GetTrans]
Reply = Union[Ready, Created, Deleted, Stored, Values, Refused]
Message = Union[Request, Reply]

CREATE_CONTEXT_TAG = 0x02
DELETE_CONTEXT_TAG = 0x03
PUT_TAG = 0x04
GET_TRANS_TAG = 0x05
READY_TAG = 0x81
CREATED_TAG = 0x82
DELETED_TAG = 0x83
STORED_TAG = 0x84
VALUES_TAG = 0x85
REFUSED_TAG = 0xFF

ABSENT = 0
FOUND = 1


def _number(number: int, size: int) -> bytes:
    """A number in so many bytes; ValueError if it doesn't fit."""
    try:
        return number.to_bytes(size, "big")
    except OverflowError:
        raise ValueError(f"{number} doesn't fit in {size} bytes") from None


def _sized(part: bytes, size: int) -> bytes:
    return _number(len(part), size) + part


def _handle(handle: Handle) -> bytes:
    return _number(handle.kind, 1) + _number(handle.number, 8)


def _version(version: Version) -> bytes:
    return _number(version.number, 8)


def _pair(pair: Pair) -> bytes:
    return _sized(pair.key, 1) + _version(pair.version)


def _read(read: Read) -> bytes:
    if read.value is None:
        return _sized(read.key, 1) + bytes([ABSENT])
    found = bytes([FOUND]) + _sized(read.value, 2) + _version(read.version)
    pairs = [_pair(pair) for pair in read.dependencies]
    return _sized(read.key, 1) + found + _number(len(pairs), 2) + b"".join(pairs)


def encode_body(message: Message) -> bytes:
    """The body of a message's frame; ValueError if a part doesn't fit its length field."""
    match message:
        case Hello(token, data_centre):
            if len(token) != 16:
                raise ValueError("a token has 16 bytes")
            return bytes([HELLO_TAG]) + token + _number(data_centre, 1)
        case CreateContext():
            return bytes([CREATE_CONTEXT_TAG])
        case DeleteContext(context):
            return bytes([DELETE_CONTEXT_TAG]) + _handle(context)
        case Put(context, key, value):
            return bytes([PUT_TAG]) + _handle(context) + _sized(key, 1) + _sized(value, 2)
        case GetTrans(context, keys):
            parts = [_sized(key, 1) for key in keys]
            return bytes([GET_TRANS_TAG]) + _handle(context) + _number(len(keys), 1) + b"".join(parts)
        case Ready():
            return bytes([READY_TAG])
        case Created(context):
            return bytes([CREATED_TAG]) + _handle(context)
        case Deleted():
            return bytes([DELETED_TAG])
        case Stored(key, version):
            return bytes([STORED_TAG]) + _pair(Pair(key, version))
        case Values(reads):
            return bytes([VALUES_TAG]) + _number(len(reads), 1) + b"".join(map(_read, reads))
        case Refused(number):
            if number not in FAULTS:
                raise ValueError(f"no fault has the number {number}")
            return bytes([REFUSED_TAG, number])
    raise TypeError(f"{message!r} is no message")


def encode(message: Message) -> bytes:
    """The frame of a message; ValueError if a part doesn't fit its length field or the body is too long."""
    body = encode_body(message)
    if len(body) > LONGEST_BODY:
        raise ValueError("the body is too long for a frame")
    return _number(len(body), 4) + body


class _Parts:
    """A body, read from its start."""

    def __init__(self, body: bytes) -> None:
        self.body = body
        self.place = 0

    def take(self, count: int) -> bytes:
        part = self.body[self.place : self.place + count]
        if len(part) < count:
            raise ProtocolError("a body ends inside its message")
        self.place += count
        return part

    def number(self, size: int) -> int:
        return int.from_bytes(self.take(size), "big")

    def sized(self, size: int) -> bytes:
        return self.take(self.number(size))

    def handle(self) -> Handle:
        kind = self.number(1)
        return Handle(self.number(8), kind)

    def version(self) -> Version:
        return Version.from_number(self.number(8))

    def pair(self) -> Pair:
        return Pair(self.sized(1), self.version())

    def read(self) -> Read:
        key = self.sized(1)
        match self.number(1):
            case 0:
                return Read(key)
            case 1:
                value, version = self.sized(2), self.version()
                return Read(key, value, version, tuple(self.pair() for _ in range(self.number(2))))
        raise ProtocolError("a result is neither absent nor found")

    def fault(self) -> int:
        number = self.number(1)
        if number not in FAULTS:
            raise ProtocolError(f"no fault has the number {number}")
        return number


def decode(body: bytes) -> Message:
    """The message of a body; ProtocolError if it is the body of none."""
    parts = _Parts(body)
    tag = parts.number(1)
    message: Message
    if tag == HELLO_TAG:
        message = Hello(parts.take(16), parts.number(1))
    elif tag == CREATE_CONTEXT_TAG:
        message = CreateContext()
    elif tag == DELETE_CONTEXT_TAG:
        message = DeleteContext(parts.handle())
    elif tag == PUT_TAG:
        message = Put(parts.handle(), parts.sized(1), parts.sized(2))
    elif tag == GET_TRANS_TAG:
        handle = parts.handle()
        message = GetTrans(handle, tuple(parts.sized(1) for _ in range(parts.number(1))))
    elif tag == READY_TAG:
        message = Ready()
    elif tag == CREATED_TAG:
        message = Created(parts.handle())
    elif tag == DELETED_TAG:
        message = Deleted()
    elif tag == STORED_TAG:
        message = Stored(parts.sized(1), parts.version())
    elif tag == VALUES_TAG:
        message = Values(tuple(parts.read() for _ in range(parts.number(1))))
    elif tag == REFUSED_TAG:
        message = Refused(parts.fault())
    else:
        raise ProtocolError(f"no message has the tag {tag:#04x}")
    if parts.place < len(body):
        raise ProtocolError("a body goes on after its message")
    return message


class Decoder:
    """Takes a stream in pieces and gives its messages. How the stream is cut doesn't change them."""

    def __init__(self) -> None:
        #: Whether the stream holds what is no message. From there on it gives none.
        self.broken = False
        self._rest = bytearray()

    @property
    def pending(self) -> bool:
        """Whether the stream so far ends inside a frame."""
        return bool(self._rest)

    def feed(self, piece: bytes) -> list[Message]:
        """The messages that this piece completes, in order. Those before a broken place are given."""
        if self.broken:
            return []
        self._rest += piece
        messages = []
        while not self.broken and len(self._rest) >= 4:
            length = int.from_bytes(self._rest[:4], "big")
            if not 1 <= length <= LONGEST_BODY:
                self.broken = True
            elif len(self._rest) < 4 + length:
                break
            else:
                try:
                    messages.append(decode(bytes(self._rest[4 : 4 + length])))
                    del self._rest[: 4 + length]
                except ProtocolError:
                    self.broken = True
        return messages
