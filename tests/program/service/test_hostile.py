"""Streams that end early, come in pieces, or have a byte changed.

A prefix of the requests' replies comes, then the refusal and the end: never a reply to a request that wasn't sent whole.
"""

import random
import unittest

from audits import check_replays
from cops_client.frames import CreateContext, DeleteContext, GetTrans, Handle, Hello, Message, Put, Refused
from model import SYNTAX, Alone, Session, replies
from service import Service, Tenant, frames, head, messages, talk

ACME, BETA = Tenant("acme", 1), Tenant("beta", 2)
FIRST, SECOND = Handle(1), Handle(2)

#: A good conversation with each kind of request, and with replies that depend on each other.
CONVERSATION: list[Message] = [
    Hello(ACME.token, 0),
    CreateContext(),
    Put(FIRST, b"x", b"10"),
    Put(FIRST, b"yy", b""),
    CreateContext(),
    GetTrans(SECOND, (b"yy", b"x", b"z")),
    DeleteContext(FIRST),
    GetTrans(FIRST, (b"x",)),
]


class Hostile(unittest.TestCase):
    """One service for each test; connections come one after another, so that the model knows what each will find."""

    def hold(self, streams: list[list[bytes]], pause: float = 0.0) -> None:
        tenants = {tenant.token: Alone(tenant, 1) for tenant in (ACME, BETA)}
        with Service(head([ACME, BETA]), workers=1, connections=len(streams)) as service:
            for pieces in streams:
                answered = talk(service.stream(), pieces, pause)
                self.assertEqual(messages(answered), replies(b"".join(pieces), tenants), pieces)
            check_replays(self, service.audit(), [ACME, BETA])

    def test_each_front_is_answered_as_far_as_it_is_whole(self):
        stream = frames(CONVERSATION)
        self.hold([[stream[:cut]] for cut in range(len(stream) + 1)])

    def test_each_cut_in_two_changes_nothing(self):
        stream = frames(CONVERSATION)
        self.hold([[stream[:cut], stream[cut:]] for cut in range(1, len(stream))], pause=0.001)

    def test_pieces_of_each_size_change_nothing(self):
        stream = frames(CONVERSATION)
        sizes = [1, 2, 3, 5, 8, 13, 34]
        self.hold([[stream[at : at + size] for at in range(0, len(stream), size)] for size in sizes], pause=0.001)

    def test_random_pieces_change_nothing(self):
        numbers, stream, streams = random.Random(5), frames(CONVERSATION), []
        for _ in range(50):
            cuts = sorted(numbers.sample(range(1, len(stream)), numbers.randrange(1, 6)))
            streams.append([stream[start:end] for start, end in zip([0, *cuts], [*cuts, len(stream)])])
        self.hold(streams, pause=0.001)

    def test_each_byte_is_changed(self):
        """Each bit of each byte, and some whole bytes: another tenant, another key, another length, no message."""
        stream, streams = frames(CONVERSATION), []
        for place in range(len(stream)):
            others = {stream[place] ^ 1 << bit for bit in range(8)} | {0, 1, 5, 6, 7, 0x43, 0x52, 0x58, 0x81, 0xFF}
            streams += [[stream[:place] + bytes([other]) + stream[place + 1 :]] for other in others - {stream[place]}]
        self.hold(streams)

    def test_bytes_are_left_out_and_put_in(self):
        numbers, stream, streams = random.Random(6), frames(CONVERSATION), []
        for place in range(len(stream)):
            streams.append([stream[:place] + stream[place + 1 :]])
            streams.append([stream[:place] + bytes([numbers.randrange(256)]) + stream[place:]])
        self.hold(streams)

    def test_a_request_is_answered_while_the_next_is_not_whole(self):
        session, requests = Session(Alone(ACME, 1)), CONVERSATION[1:]
        stream, written, whole, ahead = frames(requests), 0, 0, 4
        with Service(head([ACME, BETA]), workers=1, connections=1) as service:
            with service.greeted(ACME) as connection:
                for request in requests:
                    whole += len(frames([request]))
                    connection._write(stream[written : whole + ahead])
                    written = whole + ahead
                    self.assertEqual(connection.receive(), session.reply(request))
            service.audit()

    def test_a_long_frame_is_refused_when_it_is_whole_and_a_long_length_at_once(self):
        hello = frames(CONVERSATION[:1])
        longest = (4_000_000).to_bytes(4, "big") + b"\x06" + bytes(3_999_999)
        big_value = frames([CreateContext(), Put(FIRST, b"x", bytes(65_535)), Put(FIRST, b"x", bytes(4_096))])
        tenants = {ACME.token: Alone(ACME, 1)}
        with Service(head([ACME]), workers=1, connections=3) as service:
            for sent in (hello + longest, hello + b"\0\x3d\x09\x01" + longest, hello + big_value):
                answered = messages(talk(service.stream(), [sent]))
                self.assertEqual(answered, replies(sent, tenants))
            self.assertEqual(replies(hello + longest, tenants)[-1], Refused(SYNTAX))
            check_replays(self, service.audit(), [ACME])
