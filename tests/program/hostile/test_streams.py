"""Streams over TCP, beside those of tests/program/service: all tags, all lengths, and lies about what comes.

A prefix of the model's replies comes, then the refusal and the end: never a reply to a request that wasn't sent whole.
"""

import random
import unittest

import pair
from audits import check_replays
from cops_client.frames import CreateContext, DeleteContext, GetTrans, Handle, Hello, Message, Put, Ready, Refused
from model import SYNTAX, Alone, replies
from service import REPLY_TIME, Service, Tenant, frames, head, messages, read_some, read_to_end, talk

#: One with quotas that are met, in the second of two data centres.
ACME = Tenant("acme", 1, versions=2_000, contexts=2, dependencies=3)
BETA = Tenant("beta", 2)
PLACE, SHARDS = 1, 3
HELLO = frames([Hello(ACME.token, PLACE)])
FIRST, SECOND = Handle(1), Handle(2)

#: Every kind of request, refused and not; on several shards.
CONVERSATION: list[Message] = [
    Hello(ACME.token, PLACE),
    CreateContext(),
    Put(FIRST, b"x", b"10"),
    CreateContext(),
    CreateContext(),
    Put(SECOND, b"yy", b""),
    GetTrans(SECOND, (b"yy", b"x", b"z")),
    GetTrans(SECOND, (b"x", b"x")),
    Put(FIRST, b"X", b"1"),
    DeleteContext(Handle(7, 0x52)),
    DeleteContext(FIRST),
    GetTrans(FIRST, ()),
]


def framed(body: bytes) -> bytes:
    return len(body).to_bytes(4, "big") + body


class Streams(unittest.TestCase):
    def hold(self, streams: list[list[bytes]], pause: float = 0.0) -> None:
        tenants = {tenant.token: Alone(tenant, SHARDS, PLACE) for tenant in (ACME, BETA)}
        with Service(head([ACME, BETA], 2, SHARDS), workers=1, connections=len(streams)) as service:
            for pieces in streams:
                pair.hold()
                answered = talk(service.stream(), pieces, pause)
                self.assertEqual(messages(answered), replies(b"".join(pieces), tenants), pieces)
            check_replays(self, service.audit(), [ACME, BETA])

    def test_each_front(self):
        stream = frames(CONVERSATION)
        self.hold([[stream[:cut]] for cut in range(len(stream) + 1)])

    def test_single_bytes_and_each_cut_in_two(self):
        stream = frames(CONVERSATION)
        single = [stream[at : at + 1] for at in range(len(stream))]
        self.hold([single, *([stream[:cut], stream[cut:]] for cut in range(1, len(stream)))], pause=0.0005)

    def test_each_byte_is_changed(self):
        stream, streams = frames(CONVERSATION), []
        for place in range(len(stream)):
            byte = stream[place]
            others = {byte ^ 1, byte ^ 2, byte ^ 0x80, 0, 4, 0x43, 0x78, 0xFF, (byte + 1) % 256} - {byte}
            if place == len(HELLO) - 1:
                # What is carried to the other data centre, and when, no model knows.
                others -= {1 - PLACE}
            for other in sorted(others):
                streams.append([stream[:place] + bytes([other]) + stream[place + 1 :]])
        self.hold(streams)

    def test_each_tag_with_bodies_of_each_length(self):
        """Most are no message; then what came before is answered, and nothing after it."""
        numbers, before, after = random.Random(7), frames([CreateContext(), Put(FIRST, b"x", b"1")]), frames([CreateContext()])
        streams = []
        for tag in range(256):
            for size in (0, 1, 9, 12):
                body = bytes([tag]) + (b"\x43" + bytes(7) + b"\x01\x01x\0\0")[:size]
                streams.append([HELLO + before + framed(body) + after])
            streams.append([HELLO + framed(bytes([tag]) + numbers.randbytes(numbers.randrange(30))) + after])
            # And as the first message.
            streams.append([framed(bytes([tag]) + HELLO[5:]) + after])
        self.hold(streams)

    def test_counts_that_say_more_or_less_than_there_is(self):
        handle, streams = b"\x43" + bytes(7) + b"\x01", []
        keys = b"".join(bytes([size]) + b"k" * size for size in (1, 0, 64, 65, 255))
        for count in (0, 1, 2, 3, 4, 5, 6, 32, 33, 255):
            streams.append(framed(b"\x05" + handle + bytes([count]) + keys))
        for length in range(0, 256, 15):
            for given in (length - 1, length, length + 1):
                if given >= 0:
                    streams.append(framed(b"\x04" + handle + bytes([length]) + b"k" * given + b"\0\x01v"))
                    streams.append(framed(b"\x04" + handle + b"\x01k" + length.to_bytes(2, "big") + b"v" * given))
        for length in (4_095, 4_096, 4_097, 65_535):
            streams.append(framed(b"\x04" + handle + b"\x01k" + length.to_bytes(2, "big") + b"v" * length))
            streams.append(framed(b"\x04" + handle + b"\x01k" + length.to_bytes(2, "big") + b"v" * (length - 1)))
        self.hold([[HELLO + frames([CreateContext()]) + stream + frames([CreateContext()])] for stream in streams])

    def test_lengths_that_lie(self):
        """Each length with a body that is shorter, and an end or more behind it."""
        streams = []
        for length in (0, 1, 2, 9, 255, 256, 65_535, 65_536, 3_999_999, 4_000_000, 4_000_001, 1 << 24, 1 << 31, (1 << 32) - 1):
            for behind in (b"", b"\2", b"\2" * 8, frames([CreateContext(), CreateContext()])):
                streams.append(HELLO + length.to_bytes(4, "big") + behind)
                streams.append(length.to_bytes(4, "big") + behind)
        self.hold([[stream] for stream in streams])

    def test_a_length_over_the_limit_is_refused_when_its_last_byte_is_there(self):
        """And no other: a body of 4,000,000 bytes is waited for."""
        refused = frames([Refused(SYNTAX)])
        with Service(head([ACME, BETA], 2, SHARDS), workers=1, connections=4) as service:
            for length, is_refused in ((0, True), (4_000_001, True), ((1 << 32) - 1, True), (4_000_000, False)):
                pair.hold()
                with service.stream() as stream:
                    stream.sendall(HELLO + length.to_bytes(4, "big")[:3])
                    self.assertEqual(read_some(stream, 5), frames([Ready()]))
                    stream.settimeout(0.1)
                    with self.assertRaises(TimeoutError):
                        stream.recv(1)
                    stream.sendall(length.to_bytes(4, "big")[3:])
                    if is_refused:
                        stream.settimeout(REPLY_TIME)
                        self.assertEqual(read_to_end(stream), refused)
                    else:
                        with self.assertRaises(TimeoutError):
                            stream.recv(1)
            check_replays(self, service.audit(), [ACME, BETA])

    def test_garbage(self):
        numbers, streams = random.Random(8), []
        for _ in range(300):
            garbage = numbers.randbytes(numbers.choice([1, 4, 5, 22, 100, 5_000]))
            streams.append([numbers.choice([b"", HELLO, HELLO + frames([CreateContext()])]) + garbage])
        self.hold(streams)
