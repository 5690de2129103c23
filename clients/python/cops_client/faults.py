"""What a call may raise: one exception for each fault of the store, and those of the connection itself."""

from __future__ import annotations


class CopsError(Exception):
    """Everything that this package raises of its own."""


class ProtocolError(CopsError):
    """The other side sent what is no message, or not the one that was due. The connection is of no more use."""


class ConnectionEnded(CopsError):
    """The connection is closed, by this side or the other."""


class Fault(CopsError):
    """A refusal by the store: nothing was stored, and the connection goes on unless the class says otherwise."""

    #: The number on the wire; `E07` is the text of 7.
    number: int

    def __str__(self) -> str:
        words = (type(self).__doc__ or "").split("\n")[0].rstrip(".")
        return f"E{self.number:02} {type(self).__name__}: {words}"


#: The fault of each number.
FAULTS: dict[int, type[Fault]] = {}


def _numbered(number: int):
    def register(fault: type[Fault]) -> type[Fault]:
        fault.number = number
        FAULTS[number] = fault
        return fault

    return register


@_numbered(1)
class Syntax(Fault):
    """Bytes of no form, or a get of no keys.

    After bytes of no form the server ends the connection.
    """


@_numbered(2)
class UnknownTenant(Fault):
    """No tenant has that token.

    After a greeting the tenant was closed since, and the connection goes on. If a greeting is refused, the server ends it.
    """


@_numbered(3)
class UnknownName(Fault):
    """No session or actor has that name."""


@_numbered(4)
class NameTaken(Fault):
    """An actor has that name."""


@_numbered(5)
class Busy(Fault):
    """The session has a request running."""


@_numbered(6)
class Idle(Fault):
    """No request of that number is running."""


@_numbered(7)
class NoContext(Fault):
    """No open context has that number."""


@_numbered(8)
class TooManyContexts(Fault):
    """As many contexts are open as may be."""


@_numbered(9)
class TooManyKeys(Fault):
    """More keys than a transaction takes, which is 32."""


@_numbered(10)
class BadKey(Fault):
    """These bytes are no key: 1 to 64 of a to z, 0 to 9 and _."""


@_numbered(11)
class ValueTooLong(Fault):
    """More bytes than a value has, which is 4,096."""


@_numbered(12)
class VersionQuota(Fault):
    """One more version would pass the tenant's quota of versions on that node."""


@_numbered(13)
class ByteQuota(Fault):
    """The version would pass the tenant's quota of bytes on that node."""


@_numbered(14)
class OutboxFull(Fault):
    """A queue to another data centre is full."""


@_numbered(15)
class DependenciesFull(Fault):
    """A list of the context would pass its limit."""


@_numbered(16)
class ClockFull(Fault):
    """The clock is at its last number."""


@_numbered(17)
class AuditFull(Fault):
    """The tenant's audit on that node is full."""


@_numbered(18)
class Overrun(Fault):
    """The transaction began anew too often."""


@_numbered(19)
class Torn(Fault):
    """A node answered what was not asked."""


@_numbered(20)
class IdsSpent(Fault):
    """All numbers are issued."""


@_numbered(21)
class GateSpent(Fault):
    """The node takes no more calls."""


@_numbered(22)
class NoSuchPlace(Fault):
    """No such data centre.

    The server ends the connection.
    """


@_numbered(23)
class OutOfMemory(Fault):
    """The server had no memory for it."""


@_numbered(24)
class RepeatedKey(Fault):
    """A key is asked for twice in one transaction."""


@_numbered(25)
class ActorsFull(Fault):
    """As many actors are there as may be."""


@_numbered(26)
class ReadFault(Fault):
    """The server could not read."""


@_numbered(27)
class WriteFault(Fault):
    """The server could not write."""


@_numbered(28)
class NoSlot(Fault):
    """No slot is free for a tenant, or this one has a tenant."""


@_numbered(29)
class ClockTooGreat(Fault):
    """A clock of an old audit is greater than any that can be migrated."""
