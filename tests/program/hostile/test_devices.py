"""Standard input and output that fail.

What was written is a prefix of the right text, and the fault comes only if the device failed: E26 for a read, E27 for a
write.
"""

import errno
import os
import subprocess
import unittest

import pair
from pair import failing, plain, program
from programs import Outcome
from texts import LIVES, SCRIPT

READ_FAULT, WRITE_FAULT = b"cops: E26\n", b"cops: E27\n"
#: What the shim says when a call fails.
FAILED = b"failed\n"


def cases() -> list[tuple[list[str], bytes]]:
    """Each command, and what it reads."""
    audit = plain(["audit"], SCRIPT).output
    # An audit of small versions is one of layout 1 too, but for the line that names its layout.
    old = audit.removeprefix(b"layout 2\n")
    of_scripts = [(["run"], SCRIPT), (["solo", "acme"], SCRIPT), (["audit"], SCRIPT), (["solo", "acme"], b"\n".join(LIVES))]
    return [*of_scripts, (["replay", "acme"], audit), (["migrate"], old)]


class Devices(unittest.TestCase):
    def whole(self, words: list[str], text: bytes) -> Outcome:
        outcome = plain(words, text)
        self.assertEqual((outcome.status, outcome.faults), (0, b""))
        return outcome

    def is_front(self, outcome: Outcome, whole: Outcome, fault: bytes) -> None:
        self.assertEqual((outcome.status, outcome.faults), (1, FAILED + fault))
        self.assertTrue(whole.output.startswith(outcome.output), outcome)

    def fail_in_turn(self, kind: str, fault: bytes, pieces: list[int], error: int) -> int:
        """Each call of a kind fails in turn, until a run makes fewer. How many failed."""
        failed = 0
        for words, text in cases():
            whole = self.whole(words, text)
            for piece in pieces:
                number = 1
                while True:
                    with self.subTest(words=words, piece=piece, number=number):
                        outcome = program(words, text, failing(kind, call=number, error=error, piece=piece))
                        if FAILED not in outcome.faults:
                            self.assertEqual(outcome, whole)
                            break
                        self.is_front(outcome, whole, fault)
                        if kind == "write":
                            # All before it was taken, and nothing after it.
                            size = len(outcome.output)
                            self.assertTrue(size % piece == 0 or piece > size)
                    number += 1
                failed += number - 1
        return failed

    def test_each_read_fails(self):
        size = len(SCRIPT)
        # Reads of all that there is, of a few bytes, and of one byte each.
        self.assertGreater(self.fail_in_turn("read", READ_FAULT, [4_096, 29], errno.EIO), 4 * size // 29)
        self.assertGreater(self.fail_in_turn("read", READ_FAULT, [1_000], errno.EISDIR), 4)

    def test_each_read_of_one_byte_fails(self):
        words, text = ["run"], SCRIPT
        whole = self.whole(words, text)
        for number in range(1, len(text) + 2):
            outcome = program(words, text, failing("read", call=number, piece=1))
            self.is_front(outcome, whole, READ_FAULT)
        self.assertEqual(program(words, text, failing("read", call=len(text) + 2, piece=1)), whole)

    def test_each_read_fails_before_a_name_is_found_unknown(self):
        """Whether a name was ever open is known at the end of the input, so an earlier failure is reported and no other."""
        words, text = ["solo", "zeta"], SCRIPT
        unknown = Outcome(2, b"", b"cops: E02\n")
        for piece in (4_096, 29):
            number = 1
            while True:
                outcome = program(words, text, failing("read", call=number, error=errno.EIO, piece=piece))
                if FAILED not in outcome.faults:
                    break
                self.assertEqual(outcome, Outcome(1, b"", FAILED + READ_FAULT))
                number += 1
            self.assertEqual(outcome, unknown)
            self.assertGreater(number, len(text) // piece + 1)

    def test_each_write_fails(self):
        self.assertGreater(self.fail_in_turn("write", WRITE_FAULT, [65_536, 100, 7], errno.EIO), 4)
        self.assertGreater(self.fail_in_turn("write", WRITE_FAULT, [100], errno.EPIPE), 4)

    def test_output_that_takes_so_many_bytes(self):
        for words, text in cases():
            whole = self.whole(words, text)
            sizes = range(len(whole.output)) if words != ["audit"] else range(0, len(whole.output), 3)
            for room in sizes:
                with self.subTest(words=words, room=room):
                    outcome = program(words, text, failing("write", room=room))
                    self.is_front(outcome, whole, WRITE_FAULT)
                    self.assertEqual(len(outcome.output), room)
            self.assertEqual(program(words, text, failing("write", room=len(whole.output))), whole)

    def test_bytes_come_and_go_one_by_one(self):
        for words, text in cases():
            whole = self.whole(words, text)
            for kind in ("read", "write"):
                for piece in (1, 2, 3, 7, 4_095):
                    with self.subTest(words=words, kind=kind, piece=piece):
                        self.assertEqual(program(words, text, failing(kind, piece=piece)), whole)

    def test_each_read_and_write_is_interrupted(self):
        """An interrupted call is asked again, or is a failure; then what was written is a front."""
        for words, text in cases():
            whole = self.whole(words, text)
            for kind, fault in (("read", READ_FAULT), ("write", WRITE_FAULT)):
                for piece in (4_096, 100):
                    for number in range(1, 30):
                        with self.subTest(words=words, kind=kind, number=number):
                            outcome = program(words, text, failing(kind, call=number, error=errno.EINTR, piece=piece))
                            if outcome.status == 0:
                                self.assertEqual(outcome.output, whole.output)
                                self.assertIn(outcome.faults, (b"", FAILED))
                            else:
                                self.is_front(outcome, whole, fault)

    def run_over(self, words: list[str], text: bytes, **files: object) -> subprocess.Popen[bytes]:
        pair.hold()
        started = subprocess.Popen([*pair.PROGRAM, *words], stdin=subprocess.PIPE, stderr=subprocess.PIPE, **files)
        assert started.stdin is not None
        try:
            started.stdin.write(text)
            started.stdin.close()
        except BrokenPipeError:
            pass
        return started

    def ends(self, started: "subprocess.Popen[bytes]", status: int, faults: bytes) -> None:
        with started:
            assert started.stderr is not None
            self.assertEqual((started.stderr.read(), started.wait(20)), (faults, status))

    def test_a_full_device(self):
        for words, text in cases():
            with open("/dev/full", "wb") as full:
                self.ends(self.run_over(words, text, stdout=full), 1, WRITE_FAULT)

    def test_no_standard_output(self):
        for words, text in cases():
            command = ["/bin/sh", "-c", 'exec "$@" >&-', "sh", *pair.PROGRAM, *words]
            pair.hold()
            outcome = subprocess.run(command, input=text, capture_output=True, timeout=20)
            self.assertEqual((outcome.returncode, outcome.stderr), (1, WRITE_FAULT))

    def test_no_standard_input(self):
        for words, _ in cases():
            command = ["/bin/sh", "-c", 'exec "$@" <&-', "sh", *pair.PROGRAM, *words]
            pair.hold()
            outcome = subprocess.run(command, capture_output=True, timeout=20)
            self.assertEqual((outcome.returncode, outcome.stdout, outcome.stderr), (1, b"", READ_FAULT))

    def test_a_folder_as_input(self):
        for words, _ in cases():
            folder = os.open("/", os.O_RDONLY)
            pair.hold()
            outcome = subprocess.run([*pair.PROGRAM, *words], stdin=folder, capture_output=True, timeout=20)
            os.close(folder)
            self.assertEqual((outcome.returncode, outcome.stdout, outcome.stderr), (1, b"", READ_FAULT))

    def test_a_reader_that_goes(self):
        """A pipe with more to come than it holds, whose reader takes so many bytes and goes."""
        text = SCRIPT + b"acme show a 1\n" * 20_000
        whole = self.whole(["run"], text)
        for count in (0, 1, 500, 4_096, 100_000):
            with self.subTest(count=count):
                incoming, outgoing = os.pipe()
                started = self.run_in_background(text, outgoing)
                read = b""
                while len(read) < count:
                    read += os.read(incoming, count - len(read))
                os.close(incoming)
                self.assertTrue(whole.output.startswith(read))
                self.ends(started, 1, WRITE_FAULT)

    def run_in_background(self, text: bytes, output: int) -> "subprocess.Popen[bytes]":
        """Starts `run` with the text in a file, so that nobody waits for it to be read."""
        pair.hold()
        with open(os.memfd_create("text"), "w+b") as file:
            file.write(text)
            file.seek(0)
            started = subprocess.Popen([*pair.PROGRAM, "run"], stdin=file, stdout=output, stderr=subprocess.PIPE)
        os.close(output)
        return started
