"""Lines of the host, by which tenants come and go: good ones, and for every refusal some that meet it."""

from __future__ import annotations

from random import Random

from lives import GREATEST, LONGEST_LINE, MOST_SLOTS

#: Lines that begin as a host's do, but whose first word is another.
NO_HOST = ["+zeta", "-zeta", "++ zeta", "-- zeta", " + zeta", " - zeta", "+\t", "-\t", "+\tzeta", "+-", "-+ zeta", "\xad zeta"]


def admission(line: str) -> str:
    """The host's line for a tenant's line of a head."""
    return "+" + line.removeprefix("tenant")


def unformed_admission(numbers: Random, good: str) -> str:
    """A good admission made into a line of no form."""
    words = good.split(" ")
    draw = numbers.randrange(9)
    if draw == 0:
        return numbers.choice(["+", "+ ", "+  ", "+ + ", good[:2] + " " + good[2:], "+ zeta", "+ tenant" + good[1:]])
    if draw == 1:
        del words[numbers.randrange(1, len(words))]
    elif draw == 2:
        words.insert(numbers.randrange(1, len(words) + 1), numbers.choice(["0", "1", "zeta", ""]))
    elif draw == 3:
        at = numbers.randrange(len(GREATEST))
        words[3 + at] = str(GREATEST[at] + 1)
    elif draw == 4:
        at = numbers.randrange(3, len(words))
        words[at] = numbers.choice(["0" + words[at], "+" + words[at], "-1", "1.0", "x", "9" * 30])
    elif draw == 5:
        words[1] = numbers.choice(["Zeta", "name_of_17_bytes_", "z\x00", "z-", "+", "-", "zet\xe4", "{zeta}"])
    elif draw == 6:
        words[2] = numbers.choice([words[2][:-1], words[2] + "0", "g" * 32, "{" + words[2], "urn:uuid:" + "0" * 32, "-"])
    elif draw == 7:
        return good + numbers.choice([" ", "  ", "\r", "\t", "\x00", " begin"])
    else:
        words[numbers.randrange(1, len(words))] += "0" * numbers.choice([LONGEST_LINE - len(good), LONGEST_LINE - len(good) + 1])
    return " ".join(words)


def unformed_close(numbers: Random, name: str) -> str:
    size = LONGEST_LINE - len(name) - 2
    others = ["-", "- ", "-  ", f"-  {name}", f"- {name} ", f"- {name} {name}", f"- {name}\r", f"- {name}\x00", f"- {name} 0"]
    others += [f"- {name.upper()}", "- name_of_17_bytes_", "- -", "- +", f"- {name}{'x' * size}", f"- {name}{' ' * (size + 1)}"]
    return numbers.choice(others)


class Host:
    """Draws the host's lines of one script, and knows who is open, as far as that can be known without answering them."""

    def __init__(self, numbers: Random, names: list[str], is_full: bool) -> None:
        self.numbers = numbers
        #: How many of a script's lines are the host's.
        self.share = numbers.choice([0.1, 0.3]) if is_full else numbers.choice([0.0, 0.02, 0.05, 0.1, 0.3])
        #: The names that some life has or had or will have, and the number of each open name's token.
        self.names = [*names, "newcomer", "name_of_16_bytes", "0", "_"]
        self.tokens = {name: number for number, name in enumerate(names, 1)}
        self.last_token = len(names)

    def is_next(self) -> bool:
        return self.numbers.random() < self.share

    def is_admission(self) -> bool:
        """Whether a tenant comes; more often if few are open."""
        return self.numbers.random() < (0.8 if len(self.tokens) < 2 else 0.5)

    def newcomer(self) -> tuple[str, int, bool]:
        """A name and the number of a token, mostly of nobody who is open; and whether they are admitted."""
        numbers = self.numbers
        draw = numbers.random()
        free = [name for name in self.names if name not in self.tokens]
        if self.tokens and (draw < 0.12 or not free):
            # A name, a token or both of somebody who is open.
            name = numbers.choice(list(self.tokens))
            token = self.tokens[numbers.choice([name, *self.tokens])]
            ways = [(name, self.fresh_token()), (name, token)]
            if free:
                ways.append((numbers.choice(free), token))
            return *numbers.choice(ways), False
        name = numbers.choice(free)
        token = self.fresh_token()
        if len(self.tokens) < MOST_SLOTS:
            self.tokens[name] = token
            return name, token, True
        return name, token, False

    def fresh_token(self) -> int:
        """One that nobody who is open has; often one that somebody had."""
        had = [number for number in range(1, self.last_token + 1) if number not in self.tokens.values()]
        if had and self.numbers.random() < 0.5:
            return self.numbers.choice(had)
        self.last_token += 1
        return self.last_token

    def leaver(self) -> tuple[str, bool]:
        """A name, mostly of an open tenant; and whether it is closed."""
        numbers = self.numbers
        absent = [*(name for name in self.names if name not in self.tokens), "zeta"]
        if not self.tokens or numbers.random() < 0.15:
            return numbers.choice(absent), False
        name = numbers.choice(list(self.tokens))
        del self.tokens[name]
        return name, True
