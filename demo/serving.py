"""The first promise over TCP: one tenant's requests beside a neighbour who floods the same nodes."""

import collections
import contextlib
import hashlib
import multiprocessing
import socket
import subprocess
import sys
import tempfile
import time

from demonstration import Section
from scripts import HERE

sys.path.insert(0, str(HERE.parent / "clients" / "python"))

from cops_client.frames import CreateContext, DeleteContext, GetTrans, Handle, Hello, Put, Refused, decode, encode

TOKENS = {"acme": f"{1:032x}", "beta": f"{2:032x}"}
# Nothing is collected while this runs: when a collection comes is a matter of time.
CLUSTER = f"cluster 1 4 {10**12} 3"
QUOTAS = {"acme": "100 1000000 10 4 20 8 1000000", "beta": f"{2**32 - 1} {2**32 - 1} 10 4 1024 8 {2**32 - 1}"}
FLOODS = 3
KEYS = [f"k{number}" for number in range(8)]


class Connection:
    """A connection that a greeting opened. It gives replies as the bytes of their frames."""

    def __init__(self, port, tenant, seconds=20):
        end = time.monotonic() + seconds
        while True:
            try:
                self.socket = socket.create_connection(("127.0.0.1", port), timeout=seconds)
                break
            except ConnectionRefusedError:
                if time.monotonic() > end:
                    raise
                time.sleep(0.02)
        self.socket.setsockopt(socket.IPPROTO_TCP, socket.TCP_NODELAY, 1)
        self.reader = self.socket.makefile("rb")
        self.greeting = self.ask(encode(Hello(bytes.fromhex(TOKENS[tenant]), 0)))

    def send(self, frames):
        self.socket.sendall(frames)

    def reply(self):
        length = self.reader.read(4)
        body = self.reader.read(int.from_bytes(length, "big"))
        if len(length) < 4 or len(body) < int.from_bytes(length, "big"):
            raise ConnectionError("the connection ended before the reply")
        return length + body

    def ask(self, frame):
        self.send(frame)
        return self.reply()

    def close(self):
        self.reader.close()
        self.socket.close()


def put(context, key, value):
    return encode(Put(Handle(context), key.encode(), value.encode()))


def get(context, keys):
    return encode(GetTrans(Handle(context), tuple(key.encode() for key in keys)))


def requests():
    """What acme asks, one after the other. He has 100 versions on each node, and asks for more."""
    yield encode(CreateContext())
    last = 1
    for number in range(600):
        name = KEYS[number * 5 % 8]
        yield put(last, name, f"value{number}")
        yield get(last, [KEYS[(number + step) % 8] for step in range(1 + number % 4)])
        if number % 50 == 49:
            yield encode(CreateContext())
            yield encode(DeleteContext(Handle(last)))
            last += 1
    yield put(last, "K", "a key that is none")
    yield put(last, "k", "v" * 5000)
    yield put(99, "k", "no such context")
    yield get(last, ["k", "k"])
    yield get(last, [])
    yield get(last, [f"k{number}" for number in range(33)])


def flood(port, stop, answered):
    """Puts and gets of the same keys, 16 under way at a time, until it is told to stop."""
    connection = Connection(port, "beta")
    connection.ask(encode(CreateContext()))
    batch = [put(1, KEYS[number % 8], "b" * 100) if number % 2 else get(1, KEYS[:4]) for number in range(16)]
    while not stop.is_set():
        connection.send(b"".join(batch))
        for _ in batch:
            connection.reply()
        answered.value += len(batch)
    connection.close()


def free_port():
    with contextlib.closing(socket.socket()) as taken:
        taken.bind(("127.0.0.1", 0))
        return taken.getsockname()[1]


class Served:
    """A run of `serve`: the replies to acme, how many beta got while acme asked, and the audit."""

    def __init__(self, program, tenants, floods):
        port = free_port()
        head = "".join(line + "\n" for line in [CLUSTER, *(tenant_line(name) for name in tenants), "begin"])
        words = ["serve", f"127.0.0.1:{port}", "--workers", str(1 + FLOODS), "--connections", str(1 + floods)]
        with tempfile.TemporaryFile() as given, tempfile.TemporaryFile() as audit, tempfile.TemporaryFile() as said:
            given.write(head.encode())
            given.seek(0)
            with subprocess.Popen(program + words, stdin=given, stdout=audit, stderr=said) as server:
                self.replies, self.others = asked(port, floods)
                self.status = server.wait(60)
            if self.status != 0:
                said.seek(0)
                sys.stderr.write(said.read().decode(errors="replace"))
            audit.seek(0)
            replay = subprocess.run(program + ["replay", "acme"], stdin=audit, capture_output=True, check=False)
            self.replay = replay.stdout.decode().split(" ")[0]


def tenant_line(name):
    return f"tenant {name} {TOKENS[name]} 0 {QUOTAS[name]}"


def asked(port, floods):
    """acme's replies, one for each request, and how many replies beta had in the meantime."""
    stop = multiprocessing.Event()
    counts = [multiprocessing.Value("q", 0) for _ in range(floods)]
    neighbours = [multiprocessing.Process(target=flood, args=(port, stop, count)) for count in counts]
    for neighbour in neighbours:
        neighbour.start()
    while any(count.value == 0 and neighbour.is_alive() for count, neighbour in zip(counts, neighbours)):
        time.sleep(0.01)
    before = sum(count.value for count in counts)
    connection = Connection(port, "acme")
    replies = [connection.ask(request) for request in requests()]
    others = sum(count.value for count in counts) - before
    connection.close()
    stop.set()
    for neighbour in neighbours:
        neighbour.join(20)
    return replies, others


def kinds(replies):
    """How many replies of each kind there are."""
    messages = (decode(reply[4:]) for reply in replies)
    counts = collections.Counter(
        f"E{message.number:02}" if isinstance(message, Refused) else type(message).__name__.lower() for message in messages
    )
    return ", ".join(f"{count:,} {kind}" for kind, count in sorted(counts.items()))


def served(program):
    """acme's requests over TCP, alone and beside a neighbour, quiet or not."""
    section = Section("4. The same over TCP, beside a neighbour under load")
    runs = (
        ("acme is the only tenant", Served(program, ["acme"], 0)),
        ("beta rests", Served(program, ["acme", "beta"], 0)),
        (f"beta floods the nodes over {FLOODS} connections", Served(program, ["acme", "beta"], FLOODS)),
        ("beta stands first in the head, and floods them", Served(program, ["beta", "acme"], FLOODS)),
    )
    first = runs[0][1]
    section.say(f"acme asks {len(first.replies):,} times over one connection. The replies:")
    section.say(f"{kinds(first.replies)}.")
    section.say()
    widths = (50, 12, 22, 14)
    section.heads(widths, ["", "bytes", "SHA-256", "its audit"])
    for title, run in runs:
        told = b"".join(run.replies)
        section.columns(widths, [title, f"{len(told):,}", f"{hashlib.sha256(told).hexdigest()[:16]}..", f"replays {run.replay}"])
    section.say()
    busy = [run for _, run in runs[2:]]
    section.claim(
        "While acme asked, beta got more replies than acme.", all(run.others > len(run.replies) for run in busy)
    )
    section.claim("Not a byte of acme's replies differs.", all(run.replies == first.replies for _, run in runs))
    section.claims.append(("Each run ends with status 0.", all(run.status == 0 for _, run in runs)))
    section.claims.append(("Each audit of acme replays as the same.", all(run.replay == "same" for _, run in runs)))
    return section
