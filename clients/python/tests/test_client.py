"""Connections, contexts and the line interface, against a server that knows what to answer."""

import socket
import threading
import unittest
import uuid

import cops_client
from cops_client import FAULTS, ConnectionEnded, Pair, ProtocolError, Read, Saw, Version, Wrote
from cops_client.client import Connection
from cops_client.frames import CreateContext, Created, Handle
from cops_client.lines import HELP, Lines, text_of

from .scripted import Scripted, frames

CREATE = ("00000001 02", "0000000a 82 43 0000000000000001")
PUT = ("00000010 04 43 0000000000000001 01 78 0002 3130", "0000000b 84 01 78 0000000000010000")
GET = ("0000000d 05 43 0000000000000001 01 01 78", "00000013 85 01 01 78 01 0002 3130 0000000000010000 0000")
DELETE = ("0000000a 03 43 0000000000000001", "00000001 83")
#: y depends on a version of x that is newer than the one above.
GET_Y = (
    "0000000f 05 43 0000000000000001 02 01 79 01 7a",
    "00000020 85 02 01 79 01 0002 3230 0000000000050001 0001 01 78 0000000000030000 01 7a 00",
)


class Contexts(unittest.TestCase):
    def test_a_context_puts_gets_and_is_deleted_at_its_end(self):
        with Scripted(CREATE, PUT, GET, DELETE) as connection:
            with connection.context() as context:
                self.assertEqual(connection.contexts, (context,))
                self.assertEqual(context.number, 1)
                self.assertEqual(context.put("x", "10"), cops_client.Stored(b"x", Version(1, 0)))
                self.assertEqual(context.get(b"x"), (Read(b"x", b"10", Version(1, 0)),))
            self.assertEqual(connection.contexts, ())

    def test_history_and_past_are_what_the_context_did_and_saw(self):
        with Scripted(CREATE, PUT, GET_Y) as connection:
            context = connection.context()
            context.put("x", "10")
            reads = context.get("y", "z")
            found = Read(b"y", b"20", Version(5, 1), (Pair(b"x", Version(3, 0)),))
            self.assertEqual(reads, (found, Read(b"z")))
            self.assertEqual(context.history, [Wrote(b"x", b"10", Version(1, 0)), Saw(reads)])
            self.assertEqual(context.past, {b"x": Version(3, 0), b"y": Version(5, 1)})

    def test_each_refusal_is_its_exception_and_changes_nothing(self):
        for number, fault in FAULTS.items():
            refused = (PUT[0], f"00000002 ff {number:02x}")
            with Scripted(CREATE, refused, GET) as connection:
                context = connection.context()
                with self.assertRaises(fault) as raised:
                    context.put("x", "10")
                self.assertEqual(raised.exception.number, number)
                self.assertEqual((context.history, context.past), ([], {}))
                self.assertEqual(len(context.get("x")), 1)

    def test_a_value_is_text_or_bytes(self):
        with Scripted(CREATE, PUT) as connection:
            context = connection.context()
            for value in (5, None, [49, 48]):
                with self.assertRaises(TypeError):
                    context.put("x", value)
            self.assertEqual(context.put(memoryview(b"x"), bytearray(b"10")), cops_client.Stored(b"x", Version(1, 0)))

    def test_a_refused_context_is_none(self):
        with Scripted(("00000001 02", "00000002 ff 08")) as connection:
            with self.assertRaises(cops_client.TooManyContexts):
                connection.context()
            self.assertEqual(connection.contexts, ())

    def test_what_fits_no_frame_is_refused_without_asking(self):
        with Scripted(CREATE, PUT) as connection:
            context = connection.context()
            with self.assertRaises(cops_client.BadKey):
                context.put("k" * 256, "")
            with self.assertRaises(cops_client.ValueTooLong):
                context.put("k", "v" * 65_536)
            with self.assertRaises(cops_client.TooManyKeys):
                context.get(*["k"] * 256)
            context.put("x", "10")

    def test_an_error_inside_a_context_comes_out_as_it_is(self):
        with Scripted(CREATE, (DELETE[0], "00000002 ff 07")) as connection:
            with self.assertRaises(KeyError):
                with connection.context():
                    raise KeyError
        with Scripted(CREATE, ends=True) as connection:
            with self.assertRaises(ConnectionEnded):
                with connection.context() as context:
                    context.get("x")
            self.assertFalse(connection.is_open)


class Connections(unittest.TestCase):
    def test_a_reply_of_another_kind_ends_the_connection(self):
        with Scripted(("00000001 02", "00000001 83")) as connection:
            with self.assertRaises(ProtocolError):
                connection.context()
            with self.assertRaises(ConnectionEnded):
                connection.context()

    def test_bytes_of_no_message_end_the_connection_after_the_replies_before_them(self):
        with Scripted(("00000001 02 00000001 02", CREATE[1] + " 00000001 06")) as connection:
            connection.send(CreateContext(), CreateContext())
            self.assertEqual(connection.receive(), Created(Handle(1)))
            with self.assertRaises(ProtocolError):
                connection.receive()
            self.assertFalse(connection.is_open)

    def test_an_end_inside_a_reply_is_an_end(self):
        with Scripted(("00000001 02", CREATE[1][:-2]), ends=True) as connection:
            with self.assertRaises(ConnectionEnded):
                connection.context()

    def test_a_refusal_is_read_though_the_server_took_no_more(self):
        mine, its = socket.socketpair()
        its.settimeout(5)
        connection = Connection(its)
        mine.sendall(frames(CREATE[1] + "00000002 ff 01"))
        mine.close()
        connection.send(*[CreateContext()] * 100)
        self.assertEqual(connection.receive(), Created(Handle(1)))
        with self.assertRaises(cops_client.Syntax):
            connection.context()
        with self.assertRaises(ConnectionEnded):
            connection.context()
        self.assertFalse(connection.is_open)

    def test_a_reset_is_an_end(self):
        listener = socket.create_server(("127.0.0.1", 0))
        connection = Connection(socket.create_connection(listener.getsockname(), 5))
        stream = listener.accept()[0]
        listener.close()
        # (an end in place of which a reset is sent)
        stream.setsockopt(socket.SOL_SOCKET, socket.SO_LINGER, b"\1\0\0\0\0\0\0\0")
        stream.close()
        with self.assertRaises(ConnectionEnded):
            connection.context()
        self.assertFalse(connection.is_open)

    def test_no_reply_in_time_ends_the_connection(self):
        mine, its = socket.socketpair()
        its.settimeout(0.05)
        connection = Connection(its)
        with self.assertRaises(TimeoutError):
            connection.context()
        self.assertFalse(connection.is_open)
        mine.close()

    def test_a_closed_connection_is_closed(self):
        with Scripted() as connection:
            with connection:
                pass
            connection.close()
            with self.assertRaises(ConnectionEnded):
                connection.context()


class Greetings(unittest.TestCase):
    """connect, to a listener that answers one greeting."""

    HELLO = frames("00000012 07 000000000000000000000000000000ab 03")

    def connect(self, answer: str, token: object) -> Connection:
        listener = socket.create_server(("127.0.0.1", 0))
        listener.settimeout(5)
        self.heard = b""

        def serve() -> None:
            stream = listener.accept()[0]
            stream.settimeout(5)
            while len(self.heard) < len(self.HELLO):
                self.heard += stream.recv(64)
            stream.sendall(frames(answer))
            stream.recv(1)
            stream.close()
            listener.close()

        thread = threading.Thread(target=serve, daemon=True)
        thread.start()
        self.addCleanup(thread.join, 5)
        return cops_client.connect("127.0.0.1", listener.getsockname()[1], token, 3, timeout=5)

    def test_a_token_is_taken_in_each_form(self):
        text = "00000000-0000-0000-0000-0000000000ab"
        for token in (text, uuid.UUID(text), uuid.UUID(text).bytes):
            with self.connect("00000001 81", token) as connection:
                self.assertTrue(connection.is_open)
            self.assertEqual(self.heard, self.HELLO)

    def test_a_refused_greeting_is_its_fault(self):
        for number in (1, 2, 22):
            with self.assertRaises(FAULTS[number]):
                self.connect(f"00000002 ff {number:02x}", "00000000-0000-0000-0000-0000000000ab")

    def test_what_is_no_token_is_not_sent(self):
        with self.assertRaises(ValueError):
            cops_client.connect("127.0.0.1", 1, "no token")
        with self.assertRaises(ValueError):
            cops_client.connect("127.0.0.1", 1, b"short")


class LineInterface(unittest.TestCase):
    def test_each_line_has_its_reply(self):
        refused = ("00000010 04 43 0000000000000001 01 58 0002 3130", "00000002 ff 0a")
        with Scripted(CREATE, PUT, refused, GET_Y, DELETE) as connection:
            lines = Lines(connection)
            for line, reply in [
                ("context", "context 1"),
                ("contexts", "contexts 1"),
                ("put 1 x 10", "stored x 1.0"),
                ("put 1 X 10", "E10 BadKey: These bytes are no key: 1 to 64 of a to z, 0 to 9 and _"),
                ("get 1 y z", "y=20@5.1 z=none@0.0"),
                ("history 1", "wrote x=10@1.0\nsaw y=20@5.1 z=none@0.0\npast x:3.0,y:5.1"),
                ("get 2 x", "no context 2; try: context"),
                ("", ""),
                ("get 1", "what is 'get 1'? try: help"),
                ("put 1 x", "what is 'put 1 x'? try: help"),
                ("fly", "what is 'fly'? try: help"),
                ("drop 1", "dropped"),
                ("history 1", "no context 1; try: context"),
                ("contexts", "contexts"),
                ("help", HELP),
            ]:
                self.assertEqual(lines.answer(line + "\n"), reply, line)

    def test_a_value_is_shown_as_one_word(self):
        for value, text in [(b"10", "10"), (b"", "0x"), (b"a b", "0x612062"), (b"\xff", "0xff"), (b"0x1", "0x307831")]:
            self.assertEqual(text_of(value), text)
