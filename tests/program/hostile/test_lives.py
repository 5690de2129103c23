"""Tenants who come and go at any line, and texts of such lines that are cut or have a byte changed."""

import unittest

from pair import both, plain
from programs import Outcome
from texts import ACME, AUDIT_HEAD, BACK, FRONT, GAMA, HEAD, LIVES, SCRIPT, TENANTS, changes, head_lines

NEWLINE = b"\n"
EVENTS = [*FRONT, *BACK]
#: A short life, and its replies.
LIFE = [b"gama open a 0", b"gama ctx a", b"gama put a 1 x 7", b"gama done a 0", b"gama get a 1 x y", b"gama done a 1"]
TOLD = [b"opened", b"context 1", b"started", b"stored x 1.0", b"started", b"x=7@1.0 y=none@0.0"]
UNKNOWN = Outcome(2, b"", b"cops: E02\n")
MOST = 64


def text_of(lines: list[bytes]) -> bytes:
    return NEWLINE.join(lines) + NEWLINE


def words_of(number: int, name: bytes = b"") -> bytes:
    """The ten words of one of many tenants."""
    return b"%s %032x 0 100 10000 10 4 20 8 1000" % (name or b"t%d" % number, number + 1)


class Lives(unittest.TestCase):
    def setUp(self) -> None:
        self.good = plain(["run"], SCRIPT).output.splitlines()
        self.audit = plain(["audit"], SCRIPT).output.splitlines()

    def check(self, outcome: Outcome, replies: list[bytes]) -> None:
        self.assertEqual(outcome, Outcome(0, text_of(replies) if replies else b"", b""))

    def told(self, words: list[str], lines: list[bytes]) -> list[bytes]:
        outcome = both(words, text_of(lines))
        self.assertEqual((outcome.status, outcome.faults), (0, b""))
        return outcome.output.splitlines()

    def test_a_life_at_each_line(self):
        """Nobody else's replies show it, and an audit has it only if it hasn't ended."""
        told = [b"- admitted gama", *(b"gama " + it for it in TOLD)]
        for place in range(len(EVENTS) + 1):
            for is_closed in (False, True):
                with self.subTest(place=place, is_closed=is_closed):
                    end = [b"- gama"] if is_closed else []
                    lines = [*HEAD, *EVENTS[:place], b"+ " + GAMA, *LIFE, *end, *EVENTS[place:]]
                    ended = [b"- closed gama"] if is_closed else []
                    self.check(both(["run"], text_of(lines)), [*self.good[:place], *told, *ended, *self.good[place:]])
                    for tenant in TENANTS:
                        own = [it for it in self.good if it.startswith(tenant.encode() + b" ")]
                        self.check(both(["solo", tenant], text_of(lines)), own)
                    self.check(both(["solo", "gama"], text_of(lines)), [b"gama " + it for it in TOLD])
                    audit = self.told(["audit"], lines)
                    records = self.audit[len(AUDIT_HEAD) :]
                    if is_closed:
                        self.assertEqual(audit, self.audit)
                    else:
                        head = [*AUDIT_HEAD[:-1], b"tenant " + GAMA, b"begin"]
                        self.assertEqual(audit[: len(head) + len(records)], head + records)
                        self.check(both(["replay", "gama"], text_of(audit)), [b"same 3"])

    def test_one_of_the_head_goes_at_each_line(self):
        """Its lines are then nobody's, and the other tenant gets the same replies. When it comes back it has nothing."""
        again = [line.replace(b"gama ", b"acme ") for line in LIFE]
        for place in range(len(EVENTS) + 1):
            with self.subTest(place=place):
                lines = [*HEAD, *EVENTS[:place], b"- acme", *EVENTS[place:], b"+ " + ACME, *again]
                rest = [b"- E02" if line.startswith(b"acme ") else reply for line, reply in zip(EVENTS[place:], self.good[place:])]
                replies = [*self.good[:place], b"- closed acme", *rest, b"- admitted acme", *(b"acme " + it for it in TOLD)]
                self.check(both(["run"], text_of(lines)), replies)
                for tenant in TENANTS:
                    self.check(both(["solo", tenant], text_of(lines)), [it for it in replies if it.startswith(tenant.encode() + b" ")])
                audit = self.told(["audit"], lines)
                self.assertEqual(audit[: len(AUDIT_HEAD)], AUDIT_HEAD)
                self.check(both(["replay", "acme"], text_of(audit)), [b"same 3"])
                self.check(both(["replay", "beta"], text_of(audit)), [b"same 2"])

    def test_who_takes_a_slot_knows_nothing_of_the_one_before(self):
        """Whoever had the slot, and whatever was in it."""
        told = [b"gama " + it for it in TOLD]
        for place in range(len(EVENTS) + 1):
            with self.subTest(place=place):
                lines = [*HEAD, *EVENTS[:place], b"- acme", b"+ " + GAMA, *LIFE]
                self.check(both(["run"], text_of(lines)), [*self.good[:place], b"- closed acme", b"- admitted gama", *told])
                self.check(both(["solo", "gama"], text_of(lines)), told)
                audit = self.told(["audit"], lines)
                self.assertEqual(audit[: len(AUDIT_HEAD)], [*AUDIT_HEAD[:2], b"tenant " + GAMA, *AUDIT_HEAD[3:]])

    def test_each_way_to_spell_a_token(self):
        digits = b"0123456789abcdefABCDEF0123456789"
        parts = b"-".join([digits[:8], digits[8:12], digits[12:16], digits[16:20], digits[20:]])
        forms = [digits, parts, b"{" + parts + b"}", b"urn:uuid:" + parts, digits.lower(), parts.upper()]
        rest = b" 0 100 10000 10 4 20 8 1000"
        for form in forms:
            for other in forms:
                with self.subTest(form=form, other=other):
                    lines = [*HEAD, b"+ gama " + form + rest, b"+ zeta " + other + rest]
                    self.check(both(["run"], text_of(lines)), [b"- admitted gama", b"- E04"])
                    self.assertEqual(self.told(["audit"], lines)[4], b"tenant gama " + parts.lower() + rest)

    def test_numbers_at_their_limits(self):
        limits = [281474976710655, *[4294967295] * 4, 1024, 4294967295, 4294967295]
        for place, limit in enumerate(limits):
            words = [b"gama", b"%032x" % 9, *[b"0"] * len(limits)]
            for number, reply in ((limit, b"- admitted gama"), (limit + 1, b"- E01")):
                with self.subTest(place=place, number=number):
                    words[2 + place] = b"%d" % number
                    self.check(both(["run"], text_of([*HEAD, b"+ " + b" ".join(words)])), [reply])

    def test_what_no_head_takes_is_no_admission(self):
        for line in head_lines():
            if line.startswith(b"tenant") and not line.startswith(b"tenant acme"):
                with self.subTest(line=line[:80]):
                    lines = [*HEAD, *FRONT, b"+" + line.removeprefix(b"tenant"), *BACK]
                    replies = [*self.good[: len(FRONT)], b"- E01", *self.good[len(FRONT) :]]
                    self.check(both(["run"], text_of(lines)), replies)

    def test_every_slot_is_taken_and_given_again(self):
        """The 65th is refused. Whoever goes, the next one takes that slot, and of two free slots the lesser."""
        everybody = [b"+ " + words_of(number) for number in range(MOST)]
        full = [HEAD[0], b"begin", *everybody]
        admitted = [b"- admitted t%d" % number for number in range(MOST)]
        head = [b"tenant t%d 00000000-0000-0000-0000-%012x 0 100 10000 10 4 20 8 1000" % (it, it + 1) for it in range(MOST)]
        late = b"tenant late 00000000-0000-0000-0000-0000000000ff 0 100 10000 10 4 20 8 1000"
        admission = b"+ " + words_of(254, b"late")
        self.check(both(["run"], text_of([*full, admission, b"+ " + words_of(254, b"t0")])), [*admitted, b"- E28", b"- E04"])
        self.check(both(["run"], text_of([*full, b"+ late" + words_of(7)[2:], b"+ late"])), [*admitted, b"- E04", b"- E01"])
        for gone in range(MOST):
            for other in {gone, min(gone + 1, MOST - 1), MOST - 1}:
                with self.subTest(gone=gone, other=other):
                    closes = [b"- t%d" % it for it in sorted({gone, other}, reverse=True)]
                    wanted = [it if place != other else late for place, it in enumerate(head)] if gone == other else None
                    wanted = wanted or [*head[:gone], late, *(it for place, it in enumerate(head) if place > gone and place != other)]
                    audit = self.told(["audit"], [*full, *closes, admission])
                    self.assertEqual(audit, [b"layout 2", HEAD[0], *wanted, b"begin"])

    def test_a_name_that_was_never_open(self):
        """The end of the input refuses it, whatever came before."""
        for lines in ([*HEAD], [*HEAD, *EVENTS], LIVES, [HEAD[0], b"begin"], [HEAD[0], b"begin", b"zeta open a 0", b"+ zeta", b"- zeta"]):
            for name in ("zeta", "Zeta", "", "+", "acme ", "a" * 17, "\x7f"):
                with self.subTest(lines=len(lines), name=name):
                    self.assertEqual(both(["solo", name], text_of(lines)), UNKNOWN)
        refused = [*HEAD, b"+ zeta" + ACME[4:], b"zeta open a 0", b"- zeta"]
        self.assertEqual(both(["solo", "zeta"], text_of(refused)), UNKNOWN)
        self.check(both(["solo", "zeta"], text_of([*refused, b"+ zeta" + GAMA[4:]])), [])
        self.check(both(["solo", "acme"], text_of([*HEAD, b"- acme", b"acme open a 0"])), [])
        for name in ("zeta", "acme"):
            self.assertEqual(both(["solo", name], text_of([*HEAD[:3]])), Outcome(2, b"", b"cops: configuration line 4\n"))

    def test_scripts_of_lives_cut_at_every_byte(self):
        text = text_of(LIVES)
        whole = self.told(["run"], LIVES)
        names = ["acme", "beta", "gama", "zeta"]
        for cut in range(len(text_of(HEAD)), len(text)):
            outcome = both(["run"], text[:cut])
            count = text[:cut].count(NEWLINE) - len(HEAD)
            self.assertEqual(outcome.output.splitlines()[:count], whole[:count])
            both(["solo", names[cut % len(names)]], text[:cut])
            if cut % 3 == 0:
                both(["audit"], text[:cut])

    def test_each_byte_of_a_script_of_lives_is_changed(self):
        text = text_of(LIVES)
        commands = [["run"], ["audit"], ["solo", "acme"], ["solo", "gama"], ["solo", "zeta"]]
        for place in range(len(text)):
            for number, changed in enumerate(changes(text, place)):
                with self.subTest(place=place, number=number):
                    both(commands[(place + number) % len(commands)], changed)
