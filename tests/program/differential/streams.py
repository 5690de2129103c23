"""Random streams for a service: what several connections send, one after another."""

from __future__ import annotations

from random import Random

from cops_client.frames import (
    CreateContext,
    Created,
    Decoder,
    DeleteContext,
    Deleted,
    GetTrans,
    Handle,
    Hello,
    Message,
    Put,
    Ready,
    Refused,
    encode,
)
from scripts import BAD_KEYS, GREATEST_CLOCK, KEYS, MOST, MOST_QUOTA

BAD_HANDLES = [Handle(0), Handle(MOST), Handle(1, 0x52), Handle(1, 0), Handle(1 << 32)]
SIZES = [0, 1, 2, 7, 100, 4_095, 4_096, 4_097, 65_535]


class StreamMaker:
    """Draws the head of a service and what its connections send.

    Replies must not depend on time: a tenant's sessions are all in one data centre, nothing grows old, and no quota that
    carriers or collections touch is met.
    """

    def __init__(self, numbers: Random) -> None:
        self.numbers = numbers
        self.data_centres = numbers.choice([1, 1, 2, 3])
        self.shards = numbers.choice([1, 2, 4, 64])
        count = numbers.choice([1, 2, 3, 4])
        self.places = {number: numbers.randrange(self.data_centres) for number in range(1, count + 1)}
        self.names = [f"t{number}" for number in self.places]
        self.contexts = {number: numbers.choice([1, 4, MOST_QUOTA]) for number in self.places}
        lines = [f"cluster {self.data_centres} {self.shards} {MOST} {numbers.randrange(16)}"]
        lines += [self._tenant(number) for number in self.places]
        self.head = "\n".join([*lines, "begin"]) + "\n"
        self.keys = [key.encode() for key in numbers.sample(KEYS, numbers.choice([2, 3, 6]))]
        self.connections: list[list[bytes]] = []
        while len(self.connections) < 30:
            stream = self._changed(self._stream())
            if self._is_settled(stream):
                self.connections.append(self._pieces(stream))

    def _tenant(self, number: int) -> str:
        numbers = self.numbers
        clock = numbers.choice([0, 0, 0, GREATEST_CLOCK - 20])
        versions = numbers.choice([MOST_QUOTA, MOST_QUOTA, 12])
        size = numbers.choice([MOST_QUOTA, MOST_QUOTA, 60])
        quotas = [versions, size, MOST_QUOTA, self.contexts[number], numbers.choice([0, 1, 2, 1_024, 1_024]), 0, MOST_QUOTA]
        return f"tenant t{number} {number:032x} {clock} {' '.join(map(str, quotas))}"

    def _handle(self, contexts: list[int], created: int) -> Handle:
        numbers = self.numbers
        draw = numbers.random()
        if draw < 0.03:
            return numbers.choice(BAD_HANDLES)
        return Handle(numbers.randrange(1, created + 2) if draw < 0.06 or not contexts else numbers.choice(contexts))

    def _key(self) -> bytes:
        numbers = self.numbers
        if numbers.random() < 0.03:
            return numbers.choice([b"", b"m" * 255, *(key.encode("latin-1") for key in BAD_KEYS)])
        return numbers.choice(self.keys)

    def _request(self, contexts: list[int], created: int) -> Message:
        numbers = self.numbers
        draw = numbers.random()
        if not contexts or draw < 0.08:
            return CreateContext()
        handle = self._handle(contexts, created)
        if draw < 0.12:
            return DeleteContext(handle)
        if draw < 0.55:
            size = numbers.choice(SIZES) if numbers.random() < 0.05 else numbers.randrange(12)
            return Put(handle, self._key(), numbers.randbytes(size))
        if draw < 0.58:
            count = numbers.choice([0, 32, 33, 255])
            return GetTrans(handle, tuple(b"k%d" % number for number in range(count)))
        if draw < 0.9:
            return GetTrans(handle, tuple(numbers.sample(self.keys, numbers.randrange(1, len(self.keys) + 1))))
        return GetTrans(handle, tuple(self._key() for _ in range(numbers.randrange(1, 5))))

    def _stream(self) -> bytes:
        numbers = self.numbers
        number = numbers.choice(list(self.places))
        place = self.places[number]
        unknown = len(self.places) + 1
        if numbers.random() < 0.05:
            number, place = numbers.choice([(number, 255), (number, self.data_centres), (unknown, place), (unknown, 9)])
        sent: list[Message] = [Hello(number.to_bytes(16, "big"), place)]
        contexts: list[int] = []
        created = 0
        for _ in range(numbers.randrange(25)):
            request = self._request(contexts, created)
            sent.append(request)
            if isinstance(request, CreateContext) and len(contexts) < self.contexts.get(number, 0):
                created += 1
                contexts.append(created)
            elif isinstance(request, DeleteContext) and request.context in map(Handle, contexts):
                contexts.remove(request.context.number)
        if numbers.random() < 0.04:
            others = [Hello(number.to_bytes(16, "big"), place), Ready(), Created(Handle(1)), Deleted(), Refused(7)]
            sent.insert(numbers.randrange(len(sent) + 1), numbers.choice(others))
        return b"".join(map(encode, sent))

    def _changed(self, stream: bytes) -> bytes:
        numbers = self.numbers
        draw = numbers.random()
        place = numbers.randrange(len(stream))
        if draw < 0.5:
            return stream
        if draw < 0.65:
            return stream[:place]
        if draw < 0.8:
            return stream[:place] + bytes([stream[place] ^ 1 << numbers.randrange(8)]) + stream[place + 1 :]
        if draw < 0.87:
            return stream[:place] + stream[place + 1 :]
        if draw < 0.94:
            return stream[:place] + numbers.randbytes(numbers.randrange(1, 4)) + stream[place:]
        return stream[:place] + numbers.randbytes(numbers.randrange(200))

    def _is_settled(self, stream: bytes) -> bool:
        """Whether it greets in no other data centre than its tenant's, if replies would depend on carriers."""
        sent = Decoder().feed(stream)
        if not sent or not isinstance(sent[0], Hello):
            return True
        place = self.places.get(int.from_bytes(sent[0].token, "big"), sent[0].data_centre)
        return sent[0].data_centre in (place, *range(self.data_centres, 256))

    def _pieces(self, stream: bytes) -> list[bytes]:
        numbers = self.numbers
        if numbers.random() < 0.6 or len(stream) < 4:
            return [stream]
        cuts = sorted(numbers.sample(range(1, len(stream)), min(numbers.randrange(1, 4), len(stream) - 1)))
        return [stream[start:end] for start, end in zip([0, *cuts], [*cuts, len(stream)])]
