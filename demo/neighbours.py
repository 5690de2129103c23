"""The ways in which a neighbour's part of a script is changed. The tenant's own lines and their order stay."""

import itertools
import random

TENANT = "acme"
NEIGHBOUR = "beta"
LAST_MOMENT = 2**64 - 1
# A put of one of the tenant's own keys, and a collection long after everything.
MEDDLING = (
    f"{NEIGHBOUR} put b 1 acl everyone",
    f"{NEIGHBOUR} done b 900000",
    f"{NEIGHBOUR} collect 0 0 990000",
)


def own(script):
    return script.lines_of(TENANT)


def opened(script):
    """The neighbour's first lines, which open a session with a context."""
    return script.lines_of(NEIGHBOUR)[:2]


def before_each(script, lines):
    """The neighbour opens a session, and then has these lines before each of the tenant's."""
    mixed = opened(script)
    for line in own(script):
        mixed += [*lines, line]
    return script.with_lines(mixed)


def meddling(script):
    """One line of the neighbour before each third line of the tenant."""
    mixed, theirs = opened(script), itertools.cycle(MEDDLING)
    for number, line in enumerate(own(script)):
        mixed += [next(theirs), line] if number % 3 == 0 else [line]
    return script.with_lines(mixed)


def quotas_of(line, quotas):
    """The head line of a tenant with other quotas."""
    return " ".join(line.split(" ")[:4] + [str(quota) for quota in quotas])


def silent(script):
    yield script.with_lines(own(script))


def absent(script):
    yield script.with_lines(own(script)).with_tenants([script.tenant(TENANT)])


def first(script):
    yield script.with_lines(script.lines_of(NEIGHBOUR) + own(script))


def last(script):
    yield script.with_lines(own(script) + script.lines_of(NEIGHBOUR))


def everywhere(script):
    """Every way to lay three lines of the neighbour between the tenant's."""
    lines = own(script)
    count = len(lines) + len(MEDDLING)
    for places in itertools.combinations(range(count), len(MEDDLING)):
        theirs, mine = iter(MEDDLING), iter(lines)
        mixed = [next(theirs) if place in places else next(mine) for place in range(count)]
        yield script.with_lines(opened(script) + mixed)


def busy(script):
    yield before_each(script, MEDDLING)


def latest(script):
    yield before_each(
        script,
        [
            f"{NEIGHBOUR} put b 1 acl everyone",
            f"{NEIGHBOUR} done b {LAST_MOMENT}",
            *(f"{NEIGHBOUR} collect {dc} {shard} {LAST_MOMENT}" for dc in range(2) for shard in range(2)),
        ],
    )


def carried(script):
    """The neighbour's own carriers run between the tenant's lines, in both directions."""
    lines = [f"{NEIGHBOUR} put b 1 photos tree", f"{NEIGHBOUR} done b 10"]
    for origin, destination in ((0, 1), (1, 0)):
        for shard in range(2):
            lines += [f"{NEIGHBOUR} carry c {origin} {shard} {destination}", f"{NEIGHBOUR} done c 10"]
    yield before_each(script, lines)


def full(script):
    """The neighbour uses all of its quotas up, and goes on."""
    lines = opened(script)
    for number in range(300):
        lines += [f"{NEIGHBOUR} put b 1 k{number} {'v' * 60}", f"{NEIGHBOUR} done b {number}"]
    lines += [f"{NEIGHBOUR} collect 0 0 {moment}" for moment in range(1200)]
    lines += [f"{NEIGHBOUR} open s{number} 0" for number in range(20)]
    lines += [f"{NEIGHBOUR} ctx b" for _ in range(20)]
    for line in own(script):
        lines += [line, f"{NEIGHBOUR} put b 1 acl everyone", f"{NEIGHBOUR} done b 0"]
    yield script.with_lines(lines)


def poor(script):
    """The neighbour has no quotas at all."""
    tenants = [script.tenant(TENANT), quotas_of(script.tenant(NEIGHBOUR), [0] * 7)]
    yield before_each(script, MEDDLING).with_tenants(tenants)


def rich(script):
    """The neighbour has the greatest quotas."""
    quotas = [2**32 - 1] * 4 + [1024] + [2**32 - 1] * 2
    tenants = [script.tenant(TENANT), quotas_of(script.tenant(NEIGHBOUR), quotas)]
    yield before_each(script, MEDDLING).with_tenants(tenants)


def old(script):
    """The neighbour's clocks begin just before their end."""
    words = script.tenant(NEIGHBOUR).split(" ")
    words[3] = str(2**48 - 3)
    yield before_each(script, MEDDLING).with_tenants([script.tenant(TENANT), " ".join(words)])


def renamed(script):
    """The neighbour has another name and token, and stands before the tenant in the head."""
    words = script.tenant(NEIGHBOUR).split(" ")
    words[1:3] = ["zeta", "f" * 32]
    lines = [line.replace(NEIGHBOUR, "zeta", 1) for line in before_each(script, MEDDLING).lines]
    yield script.with_lines(lines).with_tenants([" ".join(words), script.tenant(TENANT)])


def malformed(script):
    yield before_each(
        script,
        [
            NEIGHBOUR,
            f"{NEIGHBOUR} ",
            f"{NEIGHBOUR} fly",
            f"{NEIGHBOUR} put b 1 acl",
            f"{NEIGHBOUR} put b 1 ACL everyone",
            f"{NEIGHBOUR} step b 18446744073709551616",
            f"{NEIGHBOUR} put b 1 acl {'v' * 9000}",
            f"{NEIGHBOUR} get b 1 {' '.join(f'k{number}' for number in range(33))}",
            f"{NEIGHBOUR} open {TENANT} 7",
            "",
            f"not_{TENANT} put writer 1 acl everyone",
        ],
    )


def crowd(script):
    """62 more neighbours do what the first does."""
    names = [NEIGHBOUR, *(f"n{number}" for number in range(62))]
    tenants = [script.tenant(TENANT)]
    for number, name in enumerate(names):
        words = script.tenant(NEIGHBOUR).split(" ")
        words[1:3] = [name, f"{number + 2:032x}"]
        tenants.append(" ".join(words))
    lines = []
    for line in before_each(script, MEDDLING).lines:
        is_own = line.split(" ")[0] == TENANT
        lines += [line] if is_own else [line.replace(NEIGHBOUR, name, 1) for name in names]
    yield script.with_lines(lines).with_tenants(tenants)


def pick(source, things):
    return things[int(source.random() * len(things))]


def any_lines(source):
    """Some request, carrier or collection of the neighbour. Not each has an effect."""
    session = pick(source, ["b", "b", "b", "c"])
    context = pick(source, [1, 1, 1, 1, 1, 1, 1, 2])
    key = pick(source, ["acl", "photos", "x", "y"])
    dc, shard = (int(source.random() * 2) for _ in range(2))
    moment = pick(source, [0, 10, 14, 5000, 6000, 900000, LAST_MOMENT])
    acts = pick(
        source,
        [
            [f"put {session} {context} {key} v{moment}", f"done {session} {moment}"],
            [f"put {session} {context} {key} v{moment}", f"done {session} {moment}"],
            [f"get {session} {context} acl photos", f"done {session} {moment}"],
            [f"get {session} {context} photos x y", f"step {session} {moment}", f"step {session} {moment}"],
            [f"carry k {dc} {shard} {1 - dc}", f"done k {moment}"],
            [f"collect {dc} {shard} {moment}"],
            [f"open c {dc}", "ctx c"],
            [f"ctx {session}"],
            [f"drop {session} {1 + context}"],
            [f"show {session} {context}"],
        ],
    )
    return [f"{NEIGHBOUR} {act}" for act in acts]


def drawn(script):
    """200 scripts in which what the neighbour does is drawn: up to ten of these before each of the tenant's lines."""
    script = next(rich(script))
    for seed in range(200):
        source = random.Random(seed)
        lines = opened(script)
        for line in own(script):
            for _ in range(int(source.random() * 11)):
                lines += any_lines(source)
            lines.append(line)
        yield script.with_lines(lines)


WAYS = (
    ("does nothing", silent),
    ("isn't there", absent),
    ("acts before acme", first),
    ("acts after acme", last),
    ("sends three lines at all places", everywhere),
    ("puts acme's keys and collects", busy),
    ("does it at the last moment", latest),
    ("replicates both ways", carried),
    ("uses its quotas up", full),
    ("has no quotas", poor),
    ("has the greatest quotas", rich),
    ("has clocks near their end", old),
    ("has another name, token and place", renamed),
    ("sends malformed lines", malformed),
    ("comes 63 times", crowd),
    ("acts at random", drawn),
)
