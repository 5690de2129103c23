"""Worked conversations, byte for byte.

A file of the folder `conversations` has what it shows, a head, and then what the client sends (`>`) and what has to come
next from the server (`<`), in hexadecimal. `> end` is where the client ends its side. After the last line the server ends,
of itself if the client hasn't ended.
"""

import pathlib
import re
import socket
import unittest

from service import Service, read_some, read_to_end

HERE = pathlib.Path(__file__).resolve().parent
FOLDER = HERE / "conversations"
PAGE = HERE.parents[2] / "docs" / "FRAMES.md"


class Conversations(unittest.TestCase):
    def test_each_conversation_is_answered_byte_for_byte(self):
        files = sorted(FOLDER.iterdir())
        self.assertGreater(len(files), 10)
        for file in files:
            with self.subTest(file.name):
                lines = file.read_text().splitlines()
                place = lines.index("begin") + 1
                self.hold("\n".join(lines[1:place]) + "\n", lines[place:])

    def test_the_conversations_of_the_page_on_frames_are_held(self):
        page = PAGE.read_text()
        head = re.search(r"^```head\n(.*?)^```$", page, re.M | re.S)
        conversations = re.findall(r"^```conversation\n(.*?)^```$", page, re.M | re.S)
        self.assertEqual(len(conversations), 6)
        for text in conversations:
            with self.subTest(text):
                self.hold(head[1], text.splitlines())

    def hold(self, head: str, lines: list[str]) -> None:
        with Service(head, workers=1, connections=1) as service:
            with service.stream() as stream:
                for line in lines:
                    kind, text = line[0], line[2:]
                    if text == "end":
                        stream.shutdown(socket.SHUT_WR)
                    elif kind == ">":
                        stream.sendall(bytes.fromhex(text))
                    else:
                        wanted = bytes.fromhex(text)
                        self.assertEqual(read_some(stream, len(wanted)).hex(), wanted.hex())
                self.assertEqual(read_to_end(stream), b"")
            self.assertTrue(service.audit().startswith("layout 2\ncluster 1 1 5000 1\ntenant acme "))
