"""The calls of one tenant in an audit, as `cops audit` writes it, and an order of all of them.

An audit has each node's calls in their order. Nodes know nothing of each other's order; what is known across them is
that moments don't fall, and that an entry is pulled before it is committed and committed before it is acknowledged.
"""

import dataclasses
import heapq


@dataclasses.dataclass(eq=False)
class Call:
    """A line of the audit. `words` are the call's, `reply` the reply's."""

    dc: int
    shard: int
    moment: int
    words: list
    reply: list
    before: list = dataclasses.field(default_factory=list)

    @property
    def verb(self):
        return self.words[0]

    @property
    def key(self):
        return self.words[1]

    @property
    def is_refused(self):
        return self.reply[0][0] == "E"

    @property
    def stored(self):
        """The pair that this call stored at its node, if it did."""
        if self.verb == "put" and self.reply[0] == "stored":
            return self.key, self.reply[1]
        if self.verb == "commit" and self.reply[0] == "committed":
            return self.key, self.words[2]
        return None

    @property
    def found(self):
        """The pair that this call read, if it did."""
        return (self.key, self.reply[1]) if self.verb == "get" and self.reply[0] == "found" else None

    @property
    def near(self):
        """The near pairs that this put sends."""
        return pairs_of(self.words[4]) if self.verb == "put" else []

    @property
    def pulled(self):
        """The entry that this call pulled, if it did: key, version and near pairs."""
        if self.verb != "pull" or self.reply[0] != "entry":
            return None
        return self.reply[1], self.reply[2], pairs_of(self.reply[5])

    @property
    def value(self):
        """The value that is put, committed or found."""
        word = {"put": self.words[2:3], "commit": self.words[3:4], "get": self.reply[2:3]}.get(self.verb, [])
        return bytes.fromhex(word[0]).decode("ascii", "replace") if word and word[0] != "-" else ""


def pairs_of(word):
    return [] if word == "-" else [tuple(pair.split(":")) for pair in word.split(",")]


@dataclasses.dataclass
class Audit:
    data_centres: int
    shards: int
    tenant: str
    calls: list


def read(text, tenant=None):
    """The calls of the tenant of this name, or of the first one."""
    lines = text.splitlines()
    begin = lines.index("begin")
    data_centres, shards = next([int(word) for word in line.split()[1:3]] for line in lines if line.startswith("cluster "))
    name = tenant or next(line.split(" ")[1] for line in lines if line.startswith("tenant "))
    calls = []
    for line in lines[begin + 1 :]:
        words = line.split(" ")
        if words[0] != name:
            continue
        dc, shard = words[1].split(".")
        end = words.index("=")
        calls.append(Call(int(dc), int(shard), int(words[2]), words[3:end], words[end + 1 :]))
    return Audit(data_centres, shards, name, calls)


def trips(audit):
    """The calls of each carrier: a pull, checks, a commit and an acknowledgement, as far as it came."""
    taken = set()

    def next_call(dc, words, after):
        wanted = [c for c in audit.calls if c.dc == dc and c.words == words and c.moment >= after and id(c) not in taken]
        return min(wanted, key=lambda c: c.moment, default=None)

    for pull in sorted((c for c in audit.calls if c.pulled), key=lambda c: c.moment):
        key, version, near = pull.pulled
        to = int(pull.words[1])
        wanted = [(to, ["check", *pair]) for pair in near]
        wanted += [(to, ["commit", *pull.reply[1:]]), (pull.dc, ["ack", str(to), version])]
        trip = [pull]
        for dc, words in wanted:
            call = next_call(dc, words, trip[-1].moment)
            if call is None or trip[-1].reply == ["no"] or trip[-1].is_refused:
                break
            taken.add(id(call))
            trip.append(call)
        yield trip


def ordered(audit):
    """All calls in one order that fits what is known. Calls of which nothing is known lie by moment and node."""
    nodes = {}
    for call in audit.calls:
        nodes.setdefault((call.dc, call.shard), []).append(call)
    for calls in nodes.values():
        for one, other in zip(calls, calls[1:]):
            other.before.append(one)
    for trip in trips(audit):
        for one, other in zip(trip, trip[1:]):
            other.before.append(one)
    for call in audit.calls:
        call.before += causes(audit, call)
    return sorted_by_causes(audit.calls)


def causes(audit, call):
    """What a put depends on, and the read that names the version which a second round asks for."""
    if call.verb == "put":
        return [one for pair in call.near if (one := source(audit, call.dc, pair))]
    if call.verb == "get" and call.words[2] != "latest":
        named = [
            c for c in audit.calls
            if c.dc == call.dc and c.moment <= call.moment and c.found and (call.key, call.words[2]) in pairs_of(c.reply[3])
        ]
        return [max(named, key=lambda c: c.moment)] if named else []
    return []


def source(audit, dc, pair):
    """The call that stored the pair in the data centre."""
    return next((call for call in audit.calls if call.dc == dc and call.stored == pair), None)


def sorted_by_causes(calls):
    places = {id(call): place for place, call in enumerate(calls)}
    waiting = {id(call): len({id(one) for one in call.before}) for call in calls}
    after = {}
    for call in calls:
        for one in {id(one): one for one in call.before}.values():
            after.setdefault(id(one), []).append(call)
    ready = [(call.moment, places[id(call)], call) for call in calls if waiting[id(call)] == 0]
    heapq.heapify(ready)
    while ready:
        _, _, call = heapq.heappop(ready)
        yield call
        for other in after.get(id(call), []):
            waiting[id(other)] -= 1
            if waiting[id(other)] == 0:
                heapq.heappush(ready, (other.moment, places[id(other)], other))
