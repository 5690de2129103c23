"""Encoding and decoding, by bytes that were worked out by hand."""

import itertools
import random
import unittest

from cops_client.faults import FAULTS, ProtocolError
from cops_client.frames import (
    LONGEST_BODY,
    NO_VERSION,
    CreateContext,
    Created,
    Decoder,
    DeleteContext,
    Deleted,
    GetTrans,
    Handle,
    Hello,
    Pair,
    Put,
    Read,
    Ready,
    Refused,
    Stored,
    Values,
    Version,
    decode,
    encode,
)

ACME = bytes.fromhex("00000000000000000000000000000001")
FIRST = Handle(1)
ONE = Version(1, 0)

#: A whole conversation: a greeting, a context, a put, a get, a delete, and a get that is refused.
CONVERSATION = [
    ("00000012 07 00000000000000000000000000000001 00", Hello(ACME, 0)),
    ("00000001 81", Ready()),
    ("00000001 02", CreateContext()),
    ("0000000a 82 43 0000000000000001", Created(FIRST)),
    ("00000010 04 43 0000000000000001 01 78 0002 3130", Put(FIRST, b"x", b"10")),
    ("0000000b 84 01 78 0000000000010000", Stored(b"x", ONE)),
    ("0000000d 05 43 0000000000000001 01 01 78", GetTrans(FIRST, (b"x",))),
    ("00000013 85 01 01 78 01 0002 3130 0000000000010000 0000", Values((Read(b"x", b"10", ONE),))),
    ("0000000a 03 43 0000000000000001", DeleteContext(FIRST)),
    ("00000001 83", Deleted()),
    ("0000000d 05 43 0000000000000001 01 01 78", GetTrans(FIRST, (b"x",))),
    ("00000002 ff 07", Refused(7)),
]

#: Messages that are refused, but are messages.
REFUSED = [
    ("00000010 04 52 0000000000000001 01 78 0002 3130", Put(Handle(1, 0x52), b"x", b"10")),
    ("0000000b 05 43 0000000000000001 00", GetTrans(FIRST, ())),
    ("0000000d 05 43 0000000000000001 01 01 58", GetTrans(FIRST, (b"X",))),
    ("00000002 ff 01", Refused(1)),
    ("00000002 ff 0a", Refused(10)),
]

#: An empty value, and how it is read.
EMPTY_VALUE = [
    ("0000000e 04 43 0000000000000001 01 78 0000", Put(FIRST, b"x", b"")),
    ("00000011 85 01 01 78 01 0000 0000000000010000 0000", Values((Read(b"x", b"", ONE),))),
]

#: Results with dependencies, and an absent key.
RESULTS = [
    ("00000005 85 01 01 78 00", Values((Read(b"x"),))),
    (
        "00000021 85 02 01 78 00 01 79 01 0002 3230 0000000000020001 0001 02 7a7a 0000000000050000",
        Values((Read(b"x"), Read(b"y", b"20", Version(2, 1), (Pair(b"zz", Version(5, 0)),)))),
    ),
]

#: What is no message, however it goes on.
BROKEN = [
    "00000000",
    "003d0901",
    "ffffffff",
    "00000001 06",
    "00000001 00",
    "00000001 80",
    "00000011 04 43 0000000000000001 01 78 0002 3130 00",
    "0000000f 04 43 0000000000000001 01 78 0002 31",
    "00000002 81 00",
    "00000002 ff 00",
    "00000003 ff 01 01",
    "00000005 85 01 01 78 02",
    "00000011 07 00000000000000000000000000000001",
    "00000012 01 00000000000000000000000000000001 00",
]


def spelled(text: str) -> bytes:
    return bytes.fromhex(text)


class Frames(unittest.TestCase):
    def test_each_message_has_its_bytes_and_is_read_from_them(self):
        for text, message in CONVERSATION + REFUSED + EMPTY_VALUE + RESULTS:
            with self.subTest(text):
                self.assertEqual(encode(message), spelled(text))
                self.assertEqual(decode(spelled(text)[4:]), message)

    def test_a_conversation_is_the_same_however_it_is_cut(self):
        stream = b"".join(spelled(text) for text, _ in CONVERSATION)
        messages = [message for _, message in CONVERSATION]
        for size in range(1, len(stream) + 1):
            decoder = Decoder()
            given = [message for at in range(0, len(stream), size) for message in decoder.feed(stream[at : at + size])]
            self.assertEqual(given, messages, size)
            self.assertFalse(decoder.broken or decoder.pending, size)

    def test_each_front_of_a_conversation_gives_the_messages_that_are_whole(self):
        stream, ends = b"", [0]
        for text, _ in CONVERSATION:
            stream += spelled(text)
            ends.append(len(stream))
        for cut in range(len(stream) + 1):
            decoder = Decoder()
            whole = sum(end <= cut for end in ends) - 1
            self.assertEqual(decoder.feed(stream[:cut]), [message for _, message in CONVERSATION[:whole]], cut)
            self.assertEqual((decoder.broken, decoder.pending), (False, cut not in ends), cut)

    def test_what_is_no_message_breaks_the_stream_for_good(self):
        for text in BROKEN:
            for size in (1, 3, 100):
                with self.subTest(text, size=size):
                    decoder, stream, given = Decoder(), spelled(CONVERSATION[1][0]) + spelled(text), []
                    for at in range(0, len(stream), size):
                        given += decoder.feed(stream[at : at + size])
                    self.assertEqual(given, [Ready()])
                    self.assertTrue(decoder.broken)
                    self.assertEqual(decoder.feed(spelled(CONVERSATION[1][0])), [])
                    self.assertTrue(decoder.broken)

    def test_a_bad_length_is_seen_once_its_bytes_are_there_and_a_bad_body_once_it_is_whole(self):
        decoder = Decoder()
        decoder.feed(spelled("003d09"))
        self.assertFalse(decoder.broken)
        decoder.feed(spelled("01"))
        self.assertTrue(decoder.broken)
        decoder = Decoder()
        decoder.feed(spelled("00000011 06 43 0000000000000001 01 78 0002 3130"))
        self.assertFalse(decoder.broken)
        decoder.feed(b"\0")
        self.assertTrue(decoder.broken)

    def test_each_byte_of_a_message_counts(self):
        for text, message in CONVERSATION + REFUSED + EMPTY_VALUE + RESULTS:
            frame = spelled(text)
            for place, other in itertools.product(range(len(frame)), range(256)):
                if other == frame[place]:
                    continue
                decoder = Decoder()
                given = decoder.feed(frame[:place] + bytes([other]) + frame[place + 1 :])
                self.assertNotIn(message, given, (text, place, other))
                for changed in given:
                    self.assertEqual(decode(encode(changed)[4:]), changed)

    def test_random_bytes_are_read_to_one_spelling_or_not_at_all(self):
        numbers = random.Random(1)
        read = 0
        for _ in range(20_000):
            body = bytes([numbers.choice([1, 2, 3, 4, 5, 7, 0x82, 0x84, 0x85, 0xFF])])
            body += bytes(numbers.choice([0, 0, 1, 1, 2, 0x43, 0x78]) for _ in range(numbers.randrange(24)))
            try:
                message = decode(body)
            except ProtocolError:
                continue
            read += 1
            self.assertEqual(encode(message)[4:], body)
        self.assertGreater(read, 100)

    def test_parts_that_fit_no_field_are_not_encoded(self):
        for message in (
            Hello(ACME[1:], 0),
            Hello(ACME, 256),
            DeleteContext(Handle(1 << 64)),
            Put(FIRST, b"k" * 256, b""),
            Put(FIRST, b"k", b"v" * 65_536),
            GetTrans(FIRST, (b"k",) * 256),
            Stored(b"x", Version(1 << 48, 0)),
            Stored(b"x", Version(0, 65_536)),
            Refused(0),
            Refused(200),
        ):
            with self.subTest(message=repr(message)[:60]), self.assertRaises(ValueError):
                encode(message)
        fits = encode(Put(FIRST, b"k" * 255, b"v" * 65_535))
        self.assertEqual(decode(fits[4:]), Put(FIRST, b"k" * 255, b"v" * 65_535))

    def test_a_body_too_long_is_not_encoded(self):
        pairs = (Pair(b"k" * 64, ONE),) * 65_535
        with self.assertRaises(ValueError):
            encode(Values((Read(b"x", b"", ONE, pairs),)))
        self.assertEqual(LONGEST_BODY, 4_000_000)


class Versions(unittest.TestCase):
    def test_versions_are_ordered_by_clock_and_then_node(self):
        self.assertEqual(str(Version(1, 0)), "1.0")
        self.assertEqual(Version(1, 0).number, 65_536)
        self.assertEqual(Version.from_number(0x20001), Version(2, 1))
        self.assertLess(Version(1, 9), Version(2, 0))
        self.assertLess(Version(1, 0), Version(1, 1))
        self.assertEqual(NO_VERSION.number, 0)

    def test_the_faults_are_numbered_without_a_gap(self):
        self.assertEqual(sorted(FAULTS), list(range(1, len(FAULTS) + 1)))
        self.assertTrue(str(FAULTS[7]()).startswith("E07 NoContext: "))
