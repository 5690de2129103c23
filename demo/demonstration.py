"""What demo/run prints, in sections, and whether each of its claims holds."""

import hashlib

import neighbours
from scripts import HERE, Script, answers, replies_to

TENANT = neighbours.TENANT
NEIGHBOUR = neighbours.NEIGHBOUR
BUILT = HERE.parent / "out" / "cops"
# How many lines of two long runs are shown.
SHOWN = 7


class Section:
    """A text, and the claims in it: each a sentence and whether it holds."""

    def __init__(self, title):
        self.lines = [title, ""]
        self.claims = []

    def say(self, line=""):
        self.lines.append(line.rstrip())

    def claim(self, sentence, holds):
        self.claims.append((sentence, holds))
        self.say(sentence if holds else f"WRONG: {sentence}")

    def columns(self, widths, cells):
        self.say("".join(f"{cell:<{width}}" for width, cell in zip(widths, cells)))

    def heads(self, widths, cells):
        self.columns(widths, cells)
        self.columns(widths, ["-" * (width - 2) for width in widths])

    @property
    def text(self):
        return "\n".join(self.lines) + "\n"


def program_of(words):
    """The program and its first words, as the command line names them."""
    return list(words) or [str(BUILT)]


def is_own(line):
    return line.split(" ")[0] == TENANT


def fingerprint(lines):
    return hashlib.sha256("".join(line + "\n" for line in lines).encode()).hexdigest()[:16]


def rows(left, right):
    """Two runs beside each other, as (line, reply in the one, reply in the other). The tenant's lines are in both."""
    left, right = list(left), list(right)
    while left or right:
        while left and not is_own(left[0][0]):
            yield *left.pop(0), None
        while right and not is_own(right[0][0]):
            line, reply = right.pop(0)
            yield line, None, reply
        if left:
            (line, one), (_, other) = left.pop(0), right.pop(0)
            yield line, one, other


def without_name(reply):
    return "" if reply is None else reply.split(" ", 1)[1]


def side_by_side(program, script):
    """The end of two runs beside each other: the neighbour as in the script, and meddling."""
    section = Section("1. Two runs side by side, their last lines")
    meddling = neighbours.meddling(script)
    usual, changed = (answers(program, ["run"], one) for one in (script, meddling))
    widths = (34, 26, 26)
    section.heads(widths, ["line", "beta does little", "beta meddles"])
    for line, one, other in [*rows(zip(script.lines, usual), zip(meddling.lines, changed))][-SHOWN:]:
        indent = "" if is_own(line) else "    "
        section.columns(widths, [indent + line, *(indent + without_name(reply) for reply in (one, other))])
    section.say()
    one, other = replies_to(TENANT, usual), replies_to(TENANT, changed)
    for what, told in (("does little", one), ("meddles", other)):
        section.say(f"beta {what + ':':<13}acme gets {len(told)} lines, SHA-256 {fingerprint(told)}..")
    section.claim("Not a byte of acme's replies differs.", one == other)
    return section


def every_way(program, script):
    """The neighbour's part changed in every way, and how much of the tenant's replies differs."""
    section = Section("2. The neighbour changed in every way")
    wanted = replies_to(TENANT, answers(program, ["run"], script))
    widths = (44, 9, 14, 15)
    section.heads(widths, ["beta", "scripts", "beta refused", "acme's differ"])
    alone = answers(program, ["solo", TENANT], script)
    section.columns(widths, ["cops solo acme", "1", "0", f"{differing(wanted, alone)}"])
    wrong = differing(wanted, alone)
    for title, way in neighbours.WAYS:
        scripts, refused, differ = 0, 0, 0
        for changed in way(script):
            told = answers(program, ["run"], changed)
            scripts += 1
            refused += sum(is_refusal(reply) for reply in told if not is_own(reply))
            differ += differing(wanted, replies_to(TENANT, told))
        section.columns(widths, [title, f"{scripts:,}", f"{refused:,}", f"{differ:,}"])
        wrong += differ
        section.claims.append((f"acme's replies stay if beta {title}.", differ == 0))
    section.say()
    section.claim("Not a byte of acme's replies differs in any of them.", wrong == 0)
    return section


def is_refusal(reply):
    word = reply.split(" ")[1]
    return len(word) == 3 and word[0] == "E" and word[1:].isdigit()


def differing(one, other):
    """How many lines differ between two lists of replies."""
    return sum(a != b for a, b in zip(one, other)) + abs(len(one) - len(other))


def straddled(program, script):
    """A transaction that two puts fall into, beside single gets at the same moments."""
    section = Section("3. A get transaction that straddles two puts")
    told = answers(program, ["run"], script)
    widths = (8, 24, 38, 30)
    section.heads(widths, ["moment", "alice puts", "eve: get acl photos", "bob: get acl, get photos"])
    ended = {"alice": [], "eve": [], "bob": []}
    for line, reply in zip(script.lines, told):
        words = line.split(" ")
        if words[1] not in ("step", "done"):
            continue
        ended[words[2]].append(without_name(reply))
        cells = [without_name(reply) if words[2] == session else "" for session in ended]
        section.columns(widths, [words[3], *cells])
    section.say()
    values = dict(word.split("=") for word in ended["eve"][-1].split(" "))
    singles = dict(word.split("=") for reply in ended["bob"] for word in reply.split(" "))
    needed = dict(pair.split(":") for pair in without_name(told[-1]).split(" ")[1].split(","))
    section.claim(
        f"eve's photo is {values['photos'].split('@')[0]}, and her list is the one that it depends on, acl {needed['acl']}.",
        values["acl"].split("@")[1] == needed["acl"] and values["photos"].split("@")[1] == needed["photos"],
    )
    section.claim(
        f"bob has the new photo and the old list, by which it is {singles['acl'].split('@')[0]}.",
        singles["acl"].split("@")[1] != needed["acl"] and singles["photos"].split("@")[1] == needed["photos"],
    )
    return section


def demonstrate(program):
    """All sections, one after the other."""
    tenants = Script.read("tenants.script")
    yield side_by_side(program, tenants)
    yield every_way(program, tenants)
    yield straddled(program, Script.read("straddle.script"))
