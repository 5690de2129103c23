"""What the service answers a tenant who has one connection at a time, all of them in one data centre.

Nothing is collected here, so the allowed time of a transaction has to be longer than the talk.
"""

from __future__ import annotations

from dataclasses import dataclass, field

from cops_client.frames import (
    CONTEXT_KIND,
    CreateContext,
    Created,
    Decoder,
    DeleteContext,
    Deleted,
    GetTrans,
    Handle,
    Hello,
    Message,
    Pair,
    Put,
    Read,
    Ready,
    Refused,
    Stored,
    Values,
    Version,
)
from cops_client.layout import CLOCK_BITS
from service import Tenant

KEY_BYTES = b"abcdefghijklmnopqrstuvwxyz0123456789_"
LONGEST_KEY = 64
LONGEST_VALUE = 4_096
MOST_KEYS = 32

SYNTAX, UNKNOWN_TENANT, NO_CONTEXT, TOO_MANY_CONTEXTS, TOO_MANY_KEYS, BAD_KEY, VALUE_TOO_LONG = 1, 2, 7, 8, 9, 10, 11
VERSION_QUOTA, BYTE_QUOTA, DEPENDENCIES_FULL, CLOCK_FULL, NO_SUCH_PLACE, REPEATED_KEY = 12, 13, 15, 16, 22, 24


class Refusal(Exception):
    def __init__(self, number: int) -> None:
        self.number = number


def is_key(key: bytes) -> bool:
    return 1 <= len(key) <= LONGEST_KEY and all(byte in KEY_BYTES for byte in key)


@dataclass
class Context:
    #: The greatest version of each key, and the pairs that nothing else of the context depends on.
    all: dict[bytes, Version] = field(default_factory=dict)
    near: set[tuple[bytes, Version]] = field(default_factory=set)

    def copy(self) -> Context:
        return Context(dict(self.all), set(self.near))

    def observe(self, read: Read) -> None:
        pairs = [(pair.key, pair.version) for pair in read.dependencies]
        self.near -= set(pairs)
        if self.all.get(read.key) != read.version:
            self.near.add((read.key, read.version))
        for key, version in [*pairs, (read.key, read.version)]:
            self.all[key] = max(version, self.all.get(key, version))


@dataclass
class Node:
    number: int
    clock: int
    versions: int = 0
    bytes: int = 0


class Alone:
    """All that one tenant has in its data centre."""

    def __init__(self, tenant: Tenant, shards: int, data_centre: int = 0) -> None:
        self.tenant = tenant
        self.data_centre = data_centre
        self.nodes = [Node(data_centre * shards + shard, tenant.first_clock) for shard in range(shards)]
        self.latest: dict[bytes, Read] = {}

    def put(self, key: bytes, value: bytes, seen: Context) -> Version:
        node = self.nodes[sum(key) % len(self.nodes)]
        clock = max([node.clock, *(version.clock for version in seen.all.values())])
        if clock + 1 >> CLOCK_BITS:
            raise Refusal(CLOCK_FULL)
        if node.versions + 1 > self.tenant.versions:
            raise Refusal(VERSION_QUOTA)
        if node.bytes + len(key) + len(value) > self.tenant.bytes:
            raise Refusal(BYTE_QUOTA)
        node.clock = clock + 1
        node.versions += 1
        node.bytes += len(key) + len(value)
        version = Version(node.clock, node.number)
        pairs = tuple(Pair(key, version) for key, version in sorted(seen.all.items()))
        self.latest[key] = Read(key, value, version, pairs)
        return version


class Session:
    """One connection of the tenant."""

    def __init__(self, alone: Alone) -> None:
        self.alone = alone
        self.contexts: dict[int, Context] = {}
        self.created = 0

    def reply(self, request: Message) -> Message:
        """The reply to a request that isn't a greeting."""
        try:
            match request:
                case CreateContext():
                    return self._create()
                case DeleteContext(handle):
                    self._context(handle)
                    del self.contexts[handle.number]
                    return Deleted()
                case Put(handle, key, value):
                    return self._put(handle, key, value)
                case GetTrans(handle, keys):
                    return self._get(handle, keys)
            raise AssertionError(f"{request} is no request")
        except Refusal as refusal:
            return Refused(refusal.number)

    def _create(self) -> Message:
        if len(self.contexts) >= self.alone.tenant.contexts:
            raise Refusal(TOO_MANY_CONTEXTS)
        self.created += 1
        self.contexts[self.created] = Context()
        return Created(Handle(self.created))

    def _context(self, handle: Handle) -> Context:
        if handle.kind != CONTEXT_KIND or handle.number not in self.contexts:
            raise Refusal(NO_CONTEXT)
        return self.contexts[handle.number]

    def _put(self, handle: Handle, key: bytes, value: bytes) -> Message:
        if not is_key(key):
            raise Refusal(BAD_KEY)
        if len(value) > LONGEST_VALUE:
            raise Refusal(VALUE_TOO_LONG)
        context = self._context(handle)
        if key not in context.all and len(context.all) >= self.alone.tenant.dependencies:
            raise Refusal(DEPENDENCIES_FULL)
        version = self.alone.put(key, value, context)
        context.all[key] = version
        context.near = {(key, version)}
        return Stored(key, version)

    def _get(self, handle: Handle, keys: tuple[bytes, ...]) -> Message:
        if not keys:
            raise Refusal(SYNTAX)
        if not all(map(is_key, keys)):
            raise Refusal(BAD_KEY)
        context = self._context(handle)
        if len(keys) > MOST_KEYS:
            raise Refusal(TOO_MANY_KEYS)
        if len(set(keys)) < len(keys):
            raise Refusal(REPEATED_KEY)
        reads = tuple(self.alone.latest.get(key, Read(key)) for key in keys)
        seen, limit = context.copy(), self.alone.tenant.dependencies
        for read in reads:
            if read.value is not None:
                seen.observe(read)
                if len(seen.all) > limit or len(seen.near) > limit:
                    raise Refusal(DEPENDENCIES_FULL)
        self.contexts[handle.number] = seen
        return Values(reads)


def replies(stream: bytes, tenants: dict[bytes, Alone]) -> list[Message]:
    """All that is answered to a whole stream of one connection, its end included. Other data centres don't exist."""
    decoder = Decoder()
    sent = decoder.feed(stream)
    if not sent:
        return [Refused(SYNTAX)]
    hello, requests = sent[0], sent[1:]
    if not isinstance(hello, Hello):
        return [Refused(SYNTAX)]
    if hello.token not in tenants:
        return [Refused(UNKNOWN_TENANT)]
    alone = tenants[hello.token]
    if hello.data_centre != alone.data_centre:
        return [Refused(NO_SUCH_PLACE)]
    session, answered = Session(alone), [Ready()]
    for request in requests:
        if not isinstance(request, (CreateContext, DeleteContext, Put, GetTrans)):
            return [*answered, Refused(SYNTAX)]
        answered.append(session.reply(request))
    if decoder.broken or decoder.pending:
        answered.append(Refused(SYNTAX))
    return answered
