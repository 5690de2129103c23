"""Hostile lines, and texts that are cut or have a byte changed."""

import unittest

from pair import both, plain
from programs import Outcome
from texts import AUDIT_HEAD, BACK, FRONT, HEAD, SCRIPT, TENANTS, changes, event_lines, head_lines, record_lines

NEWLINE = b"\n"


def text_of(lines: list[bytes]) -> bytes:
    return NEWLINE.join(lines) + NEWLINE


def commands() -> list[list[str]]:
    return [["run"], ["audit"], *(["solo", tenant] for tenant in TENANTS)]


class Lines(unittest.TestCase):
    def setUp(self) -> None:
        self.good = plain(["run"], SCRIPT).output.splitlines()
        self.audit = plain(["audit"], SCRIPT).output

    def check(self, outcome: Outcome, replies: list[bytes]) -> None:
        self.assertEqual(outcome, Outcome(0, text_of(replies), b""))

    def test_each_line_alone(self):
        """It gets its reply, and no other line gets another than without it."""
        front, back = self.good[: len(FRONT)], self.good[len(FRONT) :]
        for reply, line in event_lines():
            with self.subTest(line=line[:80]):
                text = text_of([*HEAD, *FRONT, line, *BACK])
                self.check(both(["run"], text), [*front, reply, *back])
                whole = both(["run"], text).output.splitlines()
                for tenant in TENANTS:
                    own = [it for it in whole if it.startswith(tenant.encode() + b" ")]
                    self.check(both(["solo", tenant], text), own)
                if not reply.startswith(b"acme removed"):
                    self.assertEqual(both(["audit"], text).output, self.audit)

    def test_each_line_at_the_end_without_a_newline(self):
        for reply, line in event_lines():
            if line:
                with self.subTest(line=line[:80]):
                    text = text_of([*HEAD, *FRONT]) + line
                    self.check(both(["run"], text), [*self.good[: len(FRONT)], reply])

    def test_all_lines_together(self):
        """One after another, and in the other order; nothing that is refused leaves anything."""
        pairs = event_lines()
        for order in (pairs, pairs[::-1]):
            text = text_of([*HEAD, *FRONT, *(line for _, line in order), *BACK])
            front, back = self.good[: len(FRONT)], self.good[len(FRONT) :]
            self.check(both(["run"], text), [*front, *(reply for reply, _ in order), *back])
            for words in commands():
                both(words, text)

    def test_each_line_in_place_of_each_line_of_the_head(self):
        good = (b"begin", b"tenant zeta ")
        lines = head_lines() + [line for _, line in event_lines() if line != good[0] and not line.startswith(good[1])]
        for line in lines:
            for place in range(len(HEAD)):
                if line != HEAD[place]:
                    with self.subTest(line=line[:80], place=place):
                        outcome = both(["run"], text_of([*HEAD[:place], line, *HEAD[place + 1 :], *FRONT]))
                        bad = b"cops: configuration line %d\n" % (place + 1)
                        # A good line that comes too early makes the next one bad, or the end of the input.
                        later = b"cops: configuration line %d\n" % (place + 2)
                        self.assertIn(outcome.faults, (bad, later))
                        self.assertEqual((outcome.status, outcome.output), (2, b""))

    def test_each_line_put_into_the_head_by_each_command(self):
        for line in head_lines():
            text = text_of([*HEAD[:2], line, *HEAD[2:], *FRONT])
            for words in [["run"], ["audit"], ["solo", "acme"]]:
                with self.subTest(line=line[:80], words=words):
                    self.assertEqual(both(words, text), Outcome(2, b"", b"cops: configuration line 3\n"))
            with self.subTest(line=line[:80], words="replay"):
                # The line of the layout counts. Layout 1 takes some of these lines.
                audit = text_of([*AUDIT_HEAD[:3], line, *AUDIT_HEAD[3:]])
                self.assertEqual(both(["replay", "acme"], audit), Outcome(2, b"", b"cops: configuration line 4\n"))
                both(["replay", "acme"], text)

    def test_each_line_before_an_audit(self):
        """Only the line of the layout may stand there, and once."""
        lines = [line for line in head_lines() if line != AUDIT_HEAD[0]]
        for line in [*lines, b"layout 1", b"layout 2 ", b" layout 2", b"layout 02", b"layout 3", b"Layout 2", b"layout"]:
            for front in ([line], [line, AUDIT_HEAD[0]]):
                with self.subTest(line=line[:80], front=front):
                    bad = Outcome(2, b"", b"cops: configuration line 1\n")
                    self.assertEqual(both(["replay", "acme"], text_of([*front, *HEAD])), bad)
        twice = text_of([AUDIT_HEAD[0], *AUDIT_HEAD])
        self.assertEqual(both(["replay", "acme"], twice), Outcome(2, b"", b"cops: configuration line 2\n"))
        for words in commands():
            self.assertEqual(both(words, text_of([*AUDIT_HEAD, *FRONT])), bad)

    def test_a_head_without_tenants(self):
        """Each line but the host's then names none, and no name is taken."""
        head = [HEAD[0], HEAD[-1]]
        pairs = [(reply, line) for reply, line in event_lines() if reply != b"- E04"]
        lines = [line for _, line in pairs]
        replies = [b"- E01" if reply == b"- E01" else b"- E02" for reply, _ in pairs]
        self.check(both(["run"], text_of([*head, *lines])), replies)
        self.check(both(["audit"], text_of([*head, *lines])), [AUDIT_HEAD[0], *head])
        unknown = Outcome(2, b"", b"cops: E02\n")
        for words in ["solo", "acme"], ["replay", "acme"]:
            self.assertEqual(both(words, text_of(head)), unknown)
        self.assertEqual(both(["replay", "acme"], text_of([AUDIT_HEAD[0], *head])), unknown)
        self.check(both(["migrate"], text_of(head)), [AUDIT_HEAD[0], *head])

    def test_heads_cut_at_every_byte(self):
        head = text_of(HEAD)
        for cut in range(len(head)):
            for words in [["run"], ["audit"], ["solo", "acme"], ["replay", "acme"]]:
                with self.subTest(cut=cut, words=words):
                    outcome = both(words, head[:cut])
                    if cut + 1 < len(head):
                        self.assertEqual((outcome.status, outcome.output), (2, b""))
        head = text_of(AUDIT_HEAD)
        for cut in range(len(head) - 1):
            with self.subTest(cut=cut, words="replay"):
                outcome = both(["replay", "acme"], head[:cut])
                self.assertEqual((outcome.status, outcome.output), (2, b""))

    def test_scripts_cut_at_every_byte(self):
        """The replies to whole lines are a prefix of all replies. The line that was cut is answered by itself."""
        wanted = text_of(self.good)
        for cut in range(len(text_of(HEAD)), len(SCRIPT)):
            outcome = both(["run"], SCRIPT[:cut])
            whole = SCRIPT[:cut].count(NEWLINE) - len(HEAD)
            self.assertEqual(outcome.output.splitlines()[:whole], self.good[:whole])
            self.assertTrue(wanted.startswith(text_of(outcome.output.splitlines()[:whole]) if whole else b""))
            self.assertEqual((outcome.status, outcome.faults), (0, b""))

    def test_each_byte_of_a_script_is_changed(self):
        """What is changed is acme's, so beta gets the same replies, as long as the head is good."""
        commands_by_turns = commands()
        for place in range(len(SCRIPT)):
            for number, text in enumerate(changes(SCRIPT, place)):
                with self.subTest(place=place, number=number):
                    both(commands_by_turns[(place + number) % len(commands_by_turns)], text)

    def test_each_record_alone(self):
        """It is the first difference wherever it stands, and none of beta's."""
        records = self.audit.splitlines()[len(AUDIT_HEAD) :]
        own = [record for record in records if record.startswith(b"acme ")]
        for line in record_lines():
            for place in (0, 1, len(own)):
                with self.subTest(line=line[:80], place=place):
                    text = text_of([*AUDIT_HEAD, *records[:place], line, *records[place:]])
                    self.check(both(["replay", "acme"], text), [b"differs %d" % (place + 1)])
                    # In layout 1 too it is none, or a clock in it is too great.
                    outcome = both(["replay", "acme"], text_of(text.splitlines()[1:]))
                    self.assertIn(outcome.faults, (b"", b"cops: E29\n"))
            with self.subTest(line=line[:80]):
                self.check(both(["replay", "acme"], text_of([*AUDIT_HEAD, *records]) + line), [b"differs %d" % (len(own) + 1)])
                self.check(both(["replay", "beta"], text), [b"same %d" % (len(records) - len(own))])

    def test_lines_of_nobody_in_an_audit(self):
        """Lines whose first word is another's are none of acme's records."""
        records = self.audit.splitlines()[len(AUDIT_HEAD) :]
        own = [record for record in records if record.startswith(b"acme ")]
        for reply, line in event_lines():
            if reply.startswith(b"- "):
                with self.subTest(line=line[:80]):
                    text = text_of([*AUDIT_HEAD, line, *records, line])
                    self.check(both(["replay", "acme"], text), [b"same %d" % len(own)])

    def test_audits_cut_at_every_byte(self):
        begin = len(text_of(AUDIT_HEAD))
        records = self.audit[begin:].splitlines(True)
        for cut in range(begin, len(self.audit)):
            for tenant in TENANTS:
                outcome = both(["replay", tenant], self.audit[:cut])
                name = tenant.encode() + b" "
                whole = [it for it in self.audit[begin:cut].splitlines(True) if it.startswith(name) and it in records]
                last = self.audit[begin:cut].split(NEWLINE)[-1]
                if not last.startswith(tenant.encode()):
                    self.check(outcome, [b"same %d" % len(whole)])

    def test_each_byte_of_an_audit_is_changed(self):
        for place in range(len(self.audit)):
            for number, text in enumerate(changes(self.audit, place)):
                with self.subTest(place=place, number=number):
                    both(["replay", TENANTS[(place + number) % 2]], text)

    def test_no_input_at_all(self):
        for words in [*commands(), ["replay", "acme"], ["replay", "zeta"], ["solo", "zeta"]]:
            for text in (b"", b"\n", b"\0", b"\n\n\n\n"):
                with self.subTest(words=words, text=text):
                    self.assertEqual(both(words, text), Outcome(2, b"", b"cops: configuration line 1\n"))
