"""Random scripts: heads and lines, most of them good, and for every refusal some that meet it."""

from __future__ import annotations

import uuid
from dataclasses import dataclass, field
from random import Random

from cops_client.layout import CLOCK_BITS
from hosts import NO_HOST, Host, admission, unformed_admission, unformed_close

MOST = (1 << 64) - 1
MOST_QUOTA = 4_294_967_295
GREATEST_CLOCK = (1 << CLOCK_BITS) - 1
LONGEST_LINE = 8_192

SESSIONS = ["a", "b", "c", "session_of_16_by"]
CARRIERS = ["k", "l", "m"]
KEYS = ["x", "y", "z", "ab", "ba", "item_000001", "item_000002", "k" * 15, "k" * 16, "m" * 63 + "0", "m" * 64]
BAD_KEYS = ["X", "x.y", "m" * 65, "\r", "x\r", "\x00", "\xff", "x\t", "-", "@"]
BAD_NUMBERS = ["", "00", "01", "+1", "-1", "1.0", "0x1", "a", str(MOST + 1), "9" * 30, "1\r", "\xb9"]
BAD_LINES = [
    "", " ", "  ", *NO_HOST, "zeta open a 0", "acme", "acme ", " acme open a 0", "acme  open a 0",
    "acme fly", "acme open", "acme open a", "acme open a 0 ", "acme open a 0 0", "acme open A 0", "acme ctx a 1",
    "acme ctx", "acme put a 1 x", "acme put a 1 x 10 20", "acme get a 1", "acme get a 1 ", "acme get a 1 x ",
    "acme get a 1 x  y", "acme show a", "acme drop a", "acme carry k 0 0", "acme carry k 0 0 1 1", "acme collect 0 0",
    "acme collect 0 0 0 0", "acme step a", "acme done a", "acme done a 0 0", "acme put a 1 x \x7f", "acme put a 1 x \xe9",
    "acme open name_of_17_bytes_ 0", "Acme open a 0", "acme\topen a 0", "begin", "cluster 1 1 0 0", "acme open a\x000",
]  # fmt: skip

#: What a tenant's words after the token are, in this order.
QUOTAS = ["versions", "bytes", "outbox", "contexts", "deps", "actors", "audit"]


@dataclass
class Session:
    data_centre: int
    contexts: list[int] = field(default_factory=list)
    created: int = 0
    #: How many steps its request has still to go, as far as that is known.
    steps: int = 0


@dataclass
class Tenant:
    name: str
    line: str
    now: int = 0
    sessions: dict[str, Session] = field(default_factory=dict)
    carriers: dict[str, int] = field(default_factory=dict)
    #: Where puts were begun lately: data centre and shard.
    streams: list[tuple[int, int]] = field(default_factory=list)

    def quota(self, name: str) -> int:
        return int(self.line.split(" ")[4 + QUOTAS.index(name)])


def token_text(numbers: Random, token: uuid.UUID) -> str:
    forms = [str(token), token.hex, f"{{{token}}}", f"urn:uuid:{token}", str(token).upper(), token.hex.upper()]
    return numbers.choice(forms)


def tenant_line(numbers: Random, name: str, number: int, careful: bool) -> str:
    """A tenant's line; if it is careful, with quotas that are seldom met."""
    draw = numbers.random
    clocks = [0, 0, 0, 0, 1, 7, GREATEST_CLOCK - numbers.randrange(6), numbers.randrange(GREATEST_CLOCK + 1)]
    usual = {"versions": 100, "bytes": 10_000, "outbox": 10, "contexts": 4, "deps": 20, "actors": 8, "audit": 1_000}
    small = {
        "versions": [0, 1, 2, 5],
        "bytes": [0, 5, 20, 100, 4_097],
        "outbox": [0, 1, 2],
        "contexts": [0, 1, 2],
        "deps": [0, 1, 2, 3],
        "actors": [0, 1, 2, 3],
        "audit": [0, 1, 3, 10, 40],
    }
    words = []
    for quota in QUOTAS:
        if not careful and draw() < 0.18:
            words.append(numbers.choice(small[quota]))
        elif draw() < 0.2:
            words.append(1_024 if quota == "deps" else MOST_QUOTA)
        else:
            words.append(usual[quota])
    clock = 0 if careful else numbers.choice(clocks)
    token = token_text(numbers, uuid.UUID(int=number))
    return f"tenant {name} {token} {clock} {' '.join(map(str, words))}"


class ScriptMaker:
    """Draws one script. `head` has its lines up to `begin`, `lines` what follows."""

    def __init__(self, numbers: Random, most_lines: int = 160) -> None:
        self.numbers = numbers
        self.data_centres = numbers.choice([1, 1, 2, 2, 2, 3, 8])
        self.shards = numbers.choice([1, 1, 2, 2, 3, 4, 64])
        self.trans_time = numbers.choice([0, 1, 5, 100, 5_000, 5_000, MOST])
        self.restarts = numbers.choice([0, 1, 1, 2, 15])
        self.keys = numbers.sample(KEYS, numbers.choice([1, 2, 2, 2, 3, 3, 4, 8]))
        #: How much of what is drawn is wrong.
        self.wrong = numbers.choice([0.0, 0.01, 0.03, 0.1, 0.3])
        careful = numbers.random() < 0.4
        count = 64 if numbers.random() < 0.02 else numbers.choice([0, 1, 1, 2, 2, 2, 2, 3, 3, 4])
        names = ["acme", "beta", "gama", "tenant_16_bytes_", *(f"t{number}" for number in range(60))][:count]
        self.tenants = [
            Tenant(name, tenant_line(numbers, name, number + 1, careful)) for number, name in enumerate(names)
        ]
        self.careful = careful
        self.host = Host(numbers, names, count == 64)
        #: The tenants that were open and no longer are; each with what its last life had.
        self.closed: list[Tenant] = []
        self.head = [f"cluster {self.data_centres} {self.shards} {self.trans_time} {self.restarts}"]
        self.head += [tenant.line for tenant in self.tenants]
        self.head.append("begin")
        self.lines: list[str] = []
        most = numbers.randrange(most_lines)
        while len(self.lines) < most:
            self.add()

    def text(self) -> bytes:
        """The script; now and then with bytes that are wrong somewhere, or without its last newline."""
        numbers, head, lines = self.numbers, self.head, self.lines
        if numbers.random() < 0.06:
            head = wrong_head(numbers, head)
        text = "\n".join([*head, *lines]).encode("latin-1")
        if numbers.random() > 0.1:
            text += b"\n"
        if numbers.random() < 0.05:
            text = wrong_bytes(numbers, text)
        return text

    # What is drawn for a line. Each with its chance of being wrong.

    def is_wrong(self) -> bool:
        return self.wrong > 0 and self.numbers.random() < self.wrong

    def number(self, good: int) -> str:
        if self.is_wrong():
            if self.numbers.random() < 0.3:
                return self.numbers.choice(BAD_NUMBERS)
            return str(self.numbers.choice([0, 1, 2, 7, 8, 16, good + 1, MOST, self.numbers.randrange(MOST)]))
        return str(good)

    def key(self) -> str:
        if self.is_wrong():
            return self.numbers.choice(BAD_KEYS)
        return self.numbers.choice(self.keys)

    def value(self) -> str:
        numbers = self.numbers
        draw = numbers.random()
        if draw < 0.004:
            return "v" * numbers.choice([4_095, 4_096, 4_097, 8_000, 9_000])
        if draw < 0.006:
            return numbers.choice(["", " ", "\x1f", "\x7f", "\x80"])
        if draw < 0.3:
            return "".join(chr(numbers.randrange(0x21, 0x7F)) for _ in range(numbers.randrange(1, 12)))
        return str(numbers.randrange(100))

    def moment(self, tenant: Tenant) -> str:
        """Mostly the tenant's latest or a little later; now and then one that others have left behind."""
        numbers, time = self.numbers, min(self.trans_time, 6_000)
        draw = numbers.random()
        if draw < 0.05:
            return str(numbers.randrange(tenant.now + 1))
        if draw < 0.2:
            return str(max(0, tenant.now - numbers.randrange(2 * time + 4)))
        if draw < 0.202:
            return str(numbers.choice([MOST, MOST - 1, numbers.randrange(MOST)]))
        tenant.now += numbers.choice([0, 0, 0, 1, 1, 2, 7, time // 2, time, time + 1])
        return self.number(tenant.now)

    def collect(self, tenant: Tenant) -> str:
        dc, shard = self.place()
        moment = self.moment(tenant)
        if self.numbers.random() < 0.3:
            # Just when what grew stale a little ago may go, or not yet.
            ago = self.numbers.randrange(4)
            moment = str(min(MOST, max(0, tenant.now - ago) + self.trans_time + self.numbers.randrange(2)))
        return f"collect {self.number(dc)} {self.number(shard)} {moment}"

    def session(self, tenant: Tenant, of: list[str]) -> str:
        if self.is_wrong():
            return self.numbers.choice(SESSIONS + CARRIERS + ["no_one"])
        return self.numbers.choice(of or list(tenant.sessions) or SESSIONS)

    def context(self, tenant: Tenant, name: str) -> str:
        session = tenant.sessions.get(name)
        if session is None or not session.contexts:
            return self.number(1)
        if self.is_wrong():
            return str(self.numbers.choice([0, session.created + 1, self.numbers.randrange(session.created + 1), MOST]))
        return str(self.numbers.choice(session.contexts))

    # Lines, and what they leave; as far as that can be known without answering them.

    def add(self) -> None:
        numbers = self.numbers
        if self.wrong > 0 and numbers.random() < self.wrong / 4:
            self.lines.append(self.bad_line())
            return
        if self.host.is_next() or not self.tenants:
            self.lines.append(self.host_line())
            return
        tenant = numbers.choice(self.tenants)
        if self.closed and numbers.random() < 0.03:
            # The tenant goes on as if it were still open. Its name may be open again.
            tenant = numbers.choice(self.closed)
        draw = numbers.random()
        if draw < 0.02:
            self.straddle(tenant)
        elif draw < 0.05:
            self.churn(tenant)
        else:
            self.write(tenant, self.act(tenant))

    def write(self, tenant: Tenant, act: str) -> None:
        self.lines.append(f"{tenant.name} {act}")

    def host_line(self) -> str:
        """A tenant comes or goes, or is refused it."""
        numbers = self.numbers
        is_unformed = numbers.random() < 0.1
        if self.host.is_admission():
            if is_unformed:
                return unformed_admission(numbers, admission(tenant_line(numbers, "zeta", 1_000, self.careful)))
            name, token, is_admitted = self.host.newcomer()
            line = tenant_line(numbers, name, token, self.careful)
            if is_admitted:
                self.tenants.append(Tenant(name, line))
            return admission(line)
        if is_unformed:
            return unformed_close(numbers, numbers.choice(self.host.names))
        name, is_closed = self.host.leaver()
        if is_closed:
            self.closed += [tenant for tenant in self.tenants if tenant.name == name]
            self.tenants = [tenant for tenant in self.tenants if tenant.name != name]
        return f"- {name}"

    def bad_line(self) -> str:
        numbers = self.numbers
        if numbers.random() < 0.05:
            name = numbers.choice([*(tenant.name for tenant in self.tenants), "zeta", "+", "-"])
            size = numbers.choice([LONGEST_LINE, LONGEST_LINE + 1, 2 * LONGEST_LINE]) - len(name) - 1
            return f"{name} " + numbers.choice(["v" * size, "get a 1 x " + "y" * (size - 10), " " * size])
        return numbers.choice(BAD_LINES)

    def act(self, tenant: Tenant) -> str:
        numbers = self.numbers
        draw = numbers.random()
        if not tenant.sessions or draw < 0.02:
            return self.open(tenant)
        idle = [name for name, session in tenant.sessions.items() if session.steps == 0]
        busy = [name for name, session in tenant.sessions.items() if session.steps > 0] + list(tenant.carriers)
        if busy and (draw < 0.45 or not idle):
            return self.go_on(tenant, busy)
        bare = [name for name in idle if not tenant.sessions[name].contexts]
        draw = numbers.random()
        if (bare and tenant.quota("contexts") > 0) or draw < 0.03:
            return self.create(tenant, bare or idle)
        if draw < 0.06:
            return self.drop(tenant, idle)
        if draw < 0.14:
            name = self.session(tenant, idle)
            return f"show {name} {self.context(tenant, name)}"
        if draw < 0.5:
            return self.put(tenant, idle)
        if draw < 0.75:
            return self.get(tenant, idle)
        if draw < 0.92 and (self.data_centres > 1 or self.is_wrong()):
            return self.carry(tenant)
        if draw < 0.97:
            return self.collect(tenant)
        return self.open(tenant)

    def place(self) -> tuple[int, int]:
        return self.numbers.randrange(self.data_centres), self.numbers.randrange(self.shards)

    def open(self, tenant: Tenant) -> str:
        free = [name for name in SESSIONS if name not in tenant.sessions]
        name = self.session(tenant, free)
        place = self.place()[0]
        number = self.number(place)
        if name in free and number == str(place) and len(tenant.sessions) < tenant.quota("actors"):
            tenant.sessions[name] = Session(place)
        return f"open {name} {number}"

    def create(self, tenant: Tenant, idle: list[str]) -> str:
        name = self.session(tenant, idle)
        if session := tenant.sessions.get(name):
            if len(session.contexts) < tenant.quota("contexts"):
                session.created += 1
                session.contexts.append(session.created)
        return f"ctx {name}"

    def drop(self, tenant: Tenant, idle: list[str]) -> str:
        name = self.session(tenant, idle)
        context = self.context(tenant, name)
        if session := tenant.sessions.get(name):
            session.contexts = [number for number in session.contexts if str(number) != context]
        return f"drop {name} {context}"

    def put(self, tenant: Tenant, idle: list[str]) -> str:
        name = self.session(tenant, idle)
        key = self.key()
        context = self.context(tenant, name)
        if session := tenant.sessions.get(name):
            session.steps = max(session.steps, 1)
            tenant.streams.append((session.data_centre, sum(key.encode("latin-1")) % self.shards))
        return f"put {name} {context} {key} {self.value()}"

    def get(self, tenant: Tenant, idle: list[str]) -> str:
        numbers = self.numbers
        name = self.session(tenant, idle)
        keys = numbers.sample(self.keys, numbers.randrange(1, len(self.keys) + 1))
        if numbers.random() < 0.01:
            keys = [f"key_{number}" for number in range(numbers.choice([31, 32, 33, 40]))]
        if self.is_wrong():
            keys.insert(numbers.randrange(len(keys) + 1), numbers.choice([self.key(), keys[0]]))
        context = self.context(tenant, name)
        if session := tenant.sessions.get(name):
            session.steps = max(session.steps, len(keys))
        return f"get {name} {context} {' '.join(keys)}"

    def carry(self, tenant: Tenant) -> str:
        numbers = self.numbers
        name = numbers.choice(CARRIERS)
        origin, shard = self.place()
        if tenant.streams and numbers.random() < 0.9:
            origin, shard = numbers.choice(tenant.streams[-6:])
        others = [place for place in range(self.data_centres) if place != origin] or [origin]
        tenant.carriers.setdefault(name, 0)
        return f"carry {name} {self.number(origin)} {self.number(shard)} {self.number(numbers.choice(others))}"

    def churn(self, tenant: Tenant) -> None:
        """Puts of few keys by sessions of one place, at moments that go back and forth, until quotas are met; then a
        collection just when some of it may go or not yet; and then puts again."""
        numbers = self.numbers
        ready = [name for name, session in tenant.sessions.items() if session.steps == 0 and session.contexts]
        if not ready:
            return
        place = tenant.sessions[numbers.choice(ready)].data_centre
        writers = [name for name in ready if tenant.sessions[name].data_centre == place]
        keys = numbers.sample(self.keys, min(len(self.keys), numbers.choice([1, 1, 2])))
        time = min(self.trans_time, 6_000)
        for _ in range(numbers.randrange(1, 4)):
            moments = [max(0, tenant.now + numbers.randrange(-time - 2, time + 3)) for _ in range(numbers.randrange(1, 6))]
            for moment in moments:
                writer = numbers.choice(writers)
                self.write(tenant, f"put {writer} {self.context(tenant, writer)} {numbers.choice(keys)} {self.value()}")
                self.write(tenant, f"done {writer} {moment}")
            tenant.now = max(tenant.now, *moments)
            late = min(MOST, numbers.choice(moments) + self.trans_time + numbers.randrange(3))
            shard = sum(numbers.choice(keys).encode()) % self.shards
            self.write(tenant, f"collect {place} {shard} {late}")

    def straddle(self, tenant: Tenant) -> None:
        """A transaction between whose reads a session of the same place puts what it reads, several times over, and
        collections take the versions away that it wants then."""
        numbers = self.numbers
        ready = [name for name, session in tenant.sessions.items() if session.steps == 0 and session.contexts]
        pairs = [
            (reader, writer)
            for reader in ready
            for writer in ready
            if reader != writer and tenant.sessions[reader].data_centre == tenant.sessions[writer].data_centre
        ]
        if not pairs or len(self.keys) < 2:
            return
        reader, writer = numbers.choice(pairs)
        keys = numbers.sample(self.keys, numbers.randrange(2, len(self.keys) + 1))
        place = tenant.sessions[reader].data_centre
        self.write(tenant, f"get {reader} {self.context(tenant, reader)} {' '.join(keys)}")
        for _ in range(numbers.randrange(1, len(keys))):
            self.write(tenant, f"step {reader} {tenant.now}")
        for key in [*keys, *numbers.choices(keys, k=numbers.randrange(4))]:
            self.write(tenant, f"put {writer} {self.context(tenant, writer)} {key} {self.value()}")
            moment = self.moment(tenant) if numbers.random() < 0.1 else str(tenant.now)
            self.write(tenant, f"done {writer} {moment}")
            if numbers.random() < 0.1:
                self.add()
        if numbers.random() < 0.6:
            # What is collected here is so by a moment that the reader hasn't come to.
            late = min(tenant.now + self.trans_time + 1, MOST)
            for key in keys:
                self.write(tenant, f"collect {place} {sum(key.encode()) % self.shards} {late}")
        for _ in range(numbers.randrange(2 * len(keys) + 2)):
            self.write(tenant, f"step {reader} {tenant.now}")
        tenant.sessions[reader].steps = numbers.randrange(2)

    def go_on(self, tenant: Tenant, busy: list[str]) -> str:
        numbers = self.numbers
        name = self.session(tenant, busy)
        done = numbers.random() < 0.4
        if session := tenant.sessions.get(name):
            # A second round, or a new attempt, takes more.
            session.steps = 0 if done else max(session.steps - 1, int(numbers.random() < 0.3))
        elif name in tenant.carriers:
            # It pulls, checks, commits and acknowledges.
            tenant.carriers[name] += 1
            if done or tenant.carriers[name] > 3:
                del tenant.carriers[name]
        return f"{'done' if done else 'step'} {name} {self.moment(tenant)}"


def wrong_head(numbers: Random, head: list[str]) -> list[str]:
    """A head with a word or a line changed, so that it is mostly bad somewhere."""
    head = list(head)
    place = numbers.randrange(len(head))
    draw = numbers.random()
    if draw < 0.2:
        del head[place:]
    elif draw < 0.25:
        # No tenant, which is no fault of a head.
        del head[1:-1]
    elif draw < 0.35:
        head.insert(place, numbers.choice([*head, "", "begin ", "tenant", "cluster 1 1 1 1", "layout 2", "x" * 9_000]))
    elif draw < 0.45:
        del head[place]
    else:
        words = head[place].split(" ")
        at = numbers.randrange(len(words))
        others = ["0", "9", "17", "16", "8", "1025", "1024", str(MOST_QUOTA + 1), str(GREATEST_CLOCK + 1), str(MOST), "acme"]
        words[at] = numbers.choice([*others, *BAD_NUMBERS, "name_of_17_bytes_", "Acme", "urn:uuid:0", "0" * 32])
        head[place] = numbers.choice([" ", " ", " ", "  "]).join(words)
    return head


def wrong_bytes(numbers: Random, text: bytes) -> bytes:
    """Some bytes changed, left out or put in, anywhere."""
    changed = bytearray(text)
    for _ in range(numbers.randrange(1, 4)):
        if not changed:
            break
        place = numbers.randrange(len(changed))
        draw = numbers.random()
        if draw < 0.5:
            changed[place] = numbers.choice([0, 9, 10, 13, 32, 0x2D, 0x30, 0x41, 0x61, 0x7F, 0xFF, numbers.randrange(256)])
        elif draw < 0.75:
            del changed[place]
        else:
            changed.insert(place, numbers.choice([10, 32, 0x30, numbers.randrange(256)]))
    return bytes(changed)
