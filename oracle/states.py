"""A model of the program `states`: the node of nodes.py, and how it lies in its arrays and its two stores.

What a call answers is nodes.py's word. This file adds what a trace cannot show: the values
beside a refusal, where in the body it stands (places.py), the room of the buffer, stores of any length (40, 41), the rings in which ids
and messages stand, so that every number can be set (kind 8) and every sum told (kind 11),
and the scope's sentence "Well formed (42)", clause by clause. The layout is the one of
crates/seen/specs/State.antt and crates/mcache/specs/State.antt. After each call the rows are
read back and held against what nodes.py keeps; the topics are cut out of the messages where the
table of their places says.

A step is a call, its numbers and then its bytes: ("set", ttl, max_seen, history_len,
max_messages), ("flagged", ttl, max_seen, history_len, max_messages, flags), whose line says
`set`, ("admit", now, index, verified, body), ("beat", now), ("advertise", room, windows, topic),
("ask", room, body), ("serve", room, body), ("lend", seen length, cache length), ("hurt", what,
place, value), ("contains", id), ("lookup", id), ("state", b""), ("why", windows, id, topic); and with an edition, 0 or 1, ("admit_in", edition, now, index,
verified, body), ("ask_in", edition, room, body), ("serve_in", edition, room, the second body, body), whose lines say `admit`, `ask` and `serve`. `expected` takes an
input as bytes and gives the lines of the run.
`node_bytes` and `from_bytes` are a node as the bytes that hosts keep, after
crates/stored/specs/Layout.antt.
"""

import functools
import itertools
import struct

import nodes
from nodes import MAX_FLAGS, MAX_HISTORY, MAX_MESSAGE, MAX_MESSAGES, MAX_NAME, MAX_SEEN, MAX_TOPICS, ROOM, TOP, Refused, shown
from places import EDITIONS, GROUPS, OF_GROUPS, V1_1, find, with_place
from records import Records

MAX_CONTENT = 65600
MAX_MADE = 65600
ROW = 129
MAX_SEEN_ID = 129
MAX_ID = 2 * MAX_NAME
SLOTS = MAX_MESSAGES * MAX_TOPICS
SEEN_BYTES = 258 * ROW
CACHE_BYTES = 65 * MAX_MESSAGE

# Of each call: its kind, how many bytes its numbers have, and whether bytes follow them.
FORM = {"set": (1, (8, 2, 2, 2), False), "admit": (2, (8, 2, 1), True), "beat": (3, (8,), False), "advertise": (4, (4, 2), True),
        "ask": (5, (4,), True), "serve": (6, (4,), True), "lend": (7, (4, 4), False), "hurt": (8, (1, 4, 8), False), "contains": (9, (), True),
        "lookup": (10, (), True), "state": (11, (), True), "why": (12, (2,), 2), "flagged": (21, (8, 2, 2, 2, 2), False),
        "admit_in": (22, (1, 8, 2, 1), True), "ask_in": (25, (1, 4), True), "serve_in": (26, (1, 4), 4)}
RECORDS = Records(FORM, MAX_CONTENT)
record, records = RECORDS.record, RECORDS.records

# What a step of kind 8 sets.
TTL, MAX_IDS, CLOCK, SEEN_START, SEEN_COUNT, EXPIRY, SEEN_LEN, HISTORY_LEN, MAX_HELD, NEXT, START, COUNT, ARRIVAL, WINDOW, LEN, ID_LEN, IDS, \
    SEEN_BYTE, CACHE_BYTE, TOPIC_COUNT, TOPIC_START, TOPIC_LEN, FLAGS = range(23)

# Every refusal that the program can show.
LENT = {40, 41, 42}
BODY = set(range(1, 8)) | {10, 11, *OF_GROUPS}
REFUSALS = {"set": {40}, "admit": LENT | BODY | nodes.ADMISSION, "beat": LENT | {31}, "advertise": LENT | {29, 12}, "ask": LENT | BODY | {12},
            "serve": LENT | BODY | {12}, "contains": {41, 42, 33}, "lookup": {41, 42}, "why": LENT | {29}}

# The clauses of 42, in the order of the sentence.
CLAUSES = ["seen start", "seen count", "seen length", "start", "count", "message length", "id length", "max_seen", "history_len 0",
           "history_len above 16", "max_messages", "flags", "seen id twice", "cached id twice", "expiry falls", "window too old", "window rises",
           "arrival not consecutive", "arrival not on to the next", "message not admissible", "message of another id", "topic count",
           "topic start", "topic length"]


def placed(cap, start, i):
    """The place of the i-th row from the oldest: after the last place comes the first."""
    return start + i if i < cap - start else i - (cap - start)


class Rows:
    """A ring: `count` of the places are in use, from `start` on."""

    def __init__(self):
        self.start = self.count = 0

    def places(self, cap):
        return [placed(cap, self.start, i) for i in range(self.count)]

    def drop(self, cap, k):
        self.start, self.count = placed(cap, self.start, k), self.count - k

    def fits(self, cap):
        return self.start <= cap and self.count <= cap


class Seen(Rows):
    def __init__(self):
        super().__init__()
        self.expiry, self.len = [0] * MAX_SEEN, [0] * MAX_SEEN

    def id_at(self, store, p):
        return bytes(store[p * ROW:p * ROW + self.len[p]])

    def broken(self, cap, store):
        """The clauses that a seen part alone does not meet; what stands in the rows is looked at where the rows are there."""
        if self.start > cap:
            yield "seen start"
        if self.count > cap:
            yield "seen count"
        if cap > MAX_SEEN or not self.fits(cap):
            return
        places = self.places(cap)
        if any(self.len[p] > MAX_SEEN_ID for p in places):
            yield "seen length"
        elif len({self.id_at(store, p) for p in places}) < len(places):
            yield "seen id twice"

    def append(self, cap, store, name, expiry):
        p = placed(cap, self.start, self.count)
        self.count += 1
        self.expiry[p], self.len[p] = expiry, len(name)
        store[p * ROW:p * ROW + len(name)] = name


class Cache(Rows):
    def __init__(self, history_len, max_messages, flags):
        super().__init__()
        self.history_len, self.max_messages, self.next, self.flags = history_len, max_messages, 0, flags
        self.arrival, self.window, self.len, self.id_len = ([0] * MAX_MESSAGES for _ in range(4))
        self.ids = bytearray(MAX_MESSAGES * MAX_ID)
        self.topic_count, self.topic_start, self.topic_len = [0] * MAX_MESSAGES, [0] * SLOTS, [0] * SLOTS

    def id_at(self, p):
        return bytes(self.ids[p * MAX_ID:p * MAX_ID + self.id_len[p]])

    def message_at(self, store, p):
        return bytes(store[p * MAX_MESSAGE:p * MAX_MESSAGE + self.len[p]])

    def slots(self, p):
        return range(p * MAX_TOPICS, p * MAX_TOPICS + self.topic_count[p])

    def topics_at(self, store, p):
        """The topics of a message, cut out where the table says."""
        raw = self.message_at(store, p)
        return [raw[self.topic_start[k]:self.topic_start[k] + self.topic_len[k]] for k in self.slots(p)]

    def broken(self, store):
        cap = self.max_messages
        if self.history_len < 1:
            yield "history_len 0"
        if self.history_len > MAX_HISTORY:
            yield "history_len above 16"
        if cap > MAX_MESSAGES:
            yield "max_messages"
        if self.flags > MAX_FLAGS:
            yield "flags"
        if self.start > cap:
            yield "start"
        if self.count > cap:
            yield "count"
        if cap > MAX_MESSAGES or not self.fits(cap):
            return
        places = self.places(cap)
        ages, numbers = [self.window[p] for p in places], [self.arrival[p] for p in places]
        if any(age >= self.history_len for age in ages):
            yield "window too old"
        if any(older < newer for older, newer in zip(ages, ages[1:])):
            yield "window rises"
        if any((older + 1) % 2**64 != newer for older, newer in zip(numbers, numbers[1:])):
            yield "arrival not consecutive"
        if numbers and (numbers[-1] + 1) % 2**64 != self.next:
            yield "arrival not on to the next"
        if any(self.id_len[p] > MAX_ID for p in places):
            yield "id length"
        elif len({self.id_at(p) for p in places}) < len(places):
            yield "cached id twice"
        if any(self.len[p] > MAX_MESSAGE for p in places):
            yield "message length"
            return
        found = [taken(self.message_at(store, p), self.flags) for p in places]
        if None in found:
            yield "message not admissible"
        if any(one and self.id_len[p] <= MAX_ID and one[0] != self.id_at(p) for one, p in zip(found, places)):
            yield "message of another id"
        yield from self.misplaced(store, [p for one, p in zip(found, places) if one])

    def misplaced(self, store, places):
        """The clauses on the topics of messages that may be taken. A slot past the count is not looked at."""
        told = {p: topic_places(self.message_at(store, p), self.flags) for p in places}
        if any(self.topic_count[p] != len(told[p]) for p in places):
            yield "topic count"
        kept = [(self.topic_start[k], self.topic_len[k], *one) for p in places if self.topic_count[p] == len(told[p])
                for k, one in zip(self.slots(p), told[p])]
        if any(start != right for start, _, right, _ in kept):
            yield "topic start"
        if any(size != right for _, size, _, right in kept):
            yield "topic length"

    def put(self, store, name, raw):
        """A message more, the newest; the oldest goes where there is no room."""
        cap = self.max_messages
        if cap:
            self.drop(cap, max(0, self.count + 1 - cap))
            p = placed(cap, self.start, self.count)
            self.count += 1
            self.arrival[p], self.window[p], self.len[p], self.id_len[p] = self.next, 0, len(raw), len(name)
            self.ids[p * MAX_ID:p * MAX_ID + len(name)] = name
            store[p * MAX_MESSAGE:p * MAX_MESSAGE + len(raw)] = raw
            kept = topic_places(raw, self.flags)
            self.topic_count[p] = len(kept)
            for k, one in zip(self.slots(p), kept):
                self.topic_start[k], self.topic_len[k] = one
        self.next = (self.next + 1) % 2**64

    def shift(self):
        """Every place grows older, those not in use too."""
        leave = itertools.takewhile(lambda p: self.window[p] + 1 >= self.history_len, self.places(self.max_messages))
        self.drop(self.max_messages, len(list(leave)))
        self.window = [min(age + 1, 255) for age in self.window]


@functools.lru_cache(4096)
def topic_places(raw, flags=0):
    """Where the topics of a message that may be taken stand in it, as (start, length): its fields 4 with a length, in their order, none in a group."""
    return [(nodes.number_at(raw, place)[1], len(content)) for field, wire, place, content in nodes.fields(raw, flags & GROUPS) if (field, wire) == (4, 2)]


@functools.lru_cache(4096)
def taken(raw, flags=0):
    """(id, topics) of a cached message that admission takes with the host's word under some flags, else None."""
    try:
        return nodes.admission((raw, nodes.read(raw, "message", flags & GROUPS)[0]), True, flags)
    except Refused:
        return None


def total(store):
    """The sum of the sums of all fronts, wrapping; from the last byte above 0 on they are all the same."""
    some = store.rstrip(b"\x00")
    return (sum(itertools.accumulate(some)) + (len(store) - len(some)) * sum(some)) % 2**64


class Run:
    """A run: the node, the stores, how much of them is lent, and the buffer. Settings leave the bytes of all three as they are."""

    def __init__(self, steps=()):
        self.seen_store, self.cache_store, self.made = bytearray(SEEN_BYTES), bytearray(CACHE_BYTES), bytearray(MAX_MADE)
        self.begin(0, 0, 1, 0)
        for step in steps:
            self.answer(step)

    def begin(self, ttl, max_seen, history_len, max_messages, flags=0):
        nodes.Node(ttl, max_seen, history_len, max_messages, flags)  # 40
        self.ttl, self.max_seen, self.clock = ttl, max_seen, 0
        self.seen, self.cache = Seen(), Cache(history_len, max_messages, flags)
        self.seen_len, self.cache_len = max_seen * ROW, max_messages * MAX_MESSAGE

    # The lent node and its stores.

    def broken(self):
        """The clauses of 42 that the node and its stores do not meet."""
        got = list(self.seen.broken(self.max_seen, self.seen_store)) + list(self.cache.broken(self.cache_store))
        if self.max_seen > MAX_SEEN:
            got.append("max_seen")
        elif self.seen.fits(self.max_seen):
            expiries = [self.seen.expiry[p] for p in self.seen.places(self.max_seen)]
            if any(older > newer for older, newer in zip(expiries, expiries[1:])):
                got.append("expiry falls")
        return got

    def lent(self):
        """The node of nodes.py that is lent, or 40, 41, 42."""
        if self.max_seen > self.seen_len // ROW:
            raise Refused(40)
        if self.seen_len != self.max_seen * ROW or self.cache_len != self.cache.max_messages * MAX_MESSAGE:
            raise Refused(41)
        if self.broken():
            raise Refused(42)
        node = nodes.Node(self.ttl, self.max_seen, self.cache.history_len, self.cache.max_messages, self.cache.flags)
        node.clock, node.seen, node.cache = self.clock, *self.held()
        return node

    def held(self):
        """What the rows hold, in the form of nodes.py."""
        seen, cache = self.seen, self.cache
        return [(seen.id_at(self.seen_store, p), seen.expiry[p]) for p in seen.places(self.max_seen)], \
            [[cache.id_at(p), cache.message_at(self.cache_store, p), cache.topics_at(self.cache_store, p), cache.window[p]]
             for p in cache.places(cache.max_messages)]

    # The calls.

    def answer(self, step):
        """What a line says after its number and its call. A refusal 1 to 7 is one of a body that the step has, and has its place there."""
        try:
            return getattr(self, step[0])(*step[1:])
        except Refused as why:
            return with_place("refused " + " ".join(map(str, why.args)), find, *(why.body or ()))

    def set(self, *settings):
        self.begin(*settings)
        return "ok"

    flagged = set

    def admit(self, now, index, verified, body, edition=V1_1):
        node = self.lent()
        known = [name for name, *_ in node.cache]
        answer = node.admit(now, index, verified == 1, body, edition)
        self.clean(now)
        if answer == "new":
            message = nodes.Body(body, node.spoken(edition)).messages[index]
            name = nodes.admission(message, True, self.cache.flags)[0]
            if self.max_seen:
                self.seen.drop(self.max_seen, max(0, self.seen.count + 1 - self.max_seen))
                self.seen.append(self.max_seen, self.seen_store, nodes.marked(nodes.is_signed(message), name), min(now + self.ttl, TOP))
            if name not in known:
                self.cache.put(self.cache_store, name, message[0])
        self.left(node)
        return answer

    def beat(self, now):
        node = self.lent()
        node.beat(now)
        self.clean(now)
        self.cache.shift()
        self.left(node)
        return "ok"

    def clean(self, now):
        self.clock = now
        spent = itertools.takewhile(lambda p: self.seen.expiry[p] <= now, self.seen.places(self.max_seen))
        self.seen.drop(self.max_seen, len(list(spent)))

    def left(self, node):
        assert (self.clock, *self.held()) == (node.clock, node.seen, node.cache)

    def write(self, out, room):
        if len(out) > room:
            raise Refused(12, len(out))
        self.made[:len(out)] = out
        return shown(out)

    def advertise(self, room, windows, topic):
        return self.write(self.lent().advertise(windows, topic), room)

    def ask(self, room, body, edition=V1_1):
        return self.write(self.lent().ask(body, edition), room)

    def serve(self, room, body, edition=V1_1, unwanted=b""):
        reply, written, left = self.lent().serve(body, min(room, ROOM), edition, unwanted)
        return "%s %d %d" % (self.write(reply, room), written, left)

    def admit_in(self, edition, *given):
        return self.admit(*given, edition)

    def ask_in(self, edition, *given):
        return self.ask(*given, edition)

    def serve_in(self, edition, room, unwanted, body):
        return self.serve(room, body, edition, unwanted)

    def why(self, windows, name, topic):
        return self.lent().explain(windows, name, topic)

    def lend(self, seen_len, cache_len):
        self.seen_len, self.cache_len = seen_len, cache_len
        return "ok"

    def hurt(self, what, p, value):
        seen, cache = self.seen, self.cache
        if what in (SEEN_BYTE, CACHE_BYTE):
            store, lent = (self.seen_store, self.seen_len) if what == SEEN_BYTE else (self.cache_store, self.cache_len)
            if p < lent:
                store[p] = value % 256
        elif what in (EXPIRY, SEEN_LEN):
            if p < MAX_SEEN:
                (seen.expiry if what == EXPIRY else seen.len)[p] = value if what == EXPIRY else value % 256
        elif what in (ARRIVAL, WINDOW, LEN, ID_LEN, TOPIC_COUNT, TOPIC_START, TOPIC_LEN):
            row, most = {ARRIVAL: (cache.arrival, 2**64), WINDOW: (cache.window, 256), LEN: (cache.len, 65536), ID_LEN: (cache.id_len, 256),
                         TOPIC_COUNT: (cache.topic_count, 256), TOPIC_START: (cache.topic_start, 65536), TOPIC_LEN: (cache.topic_len, 65536)}[what]
            row[p % len(row)] = value % most
        elif what == IDS or what > FLAGS:
            cache.ids[p % len(cache.ids)] = value % 256
        else:
            one, name = {TTL: (self, "ttl"), MAX_IDS: (self, "max_seen"), CLOCK: (self, "clock"), SEEN_START: (seen, "start"),
                         SEEN_COUNT: (seen, "count"), HISTORY_LEN: (cache, "history_len"), MAX_HELD: (cache, "max_messages"),
                         NEXT: (cache, "next"), START: (cache, "start"), COUNT: (cache, "count"), FLAGS: (cache, "flags")}[what]
            setattr(one, name, value)
        return "ok"

    def contains(self, name):
        """The seen part alone: as many places as the store has."""
        cap = self.seen_len // ROW
        if self.seen_len % ROW or cap > MAX_SEEN:
            raise Refused(41)
        if list(self.seen.broken(cap, self.seen_store)):
            raise Refused(42)
        if len(name) > MAX_SEEN_ID:
            raise Refused(33, len(name))
        return "yes" if name in [self.seen.id_at(self.seen_store, p) for p in self.seen.places(cap)] else "no"

    def lookup(self, name):
        """The message cache alone."""
        cache = self.cache
        if self.cache_len != cache.max_messages * MAX_MESSAGE:
            raise Refused(41)
        if list(cache.broken(self.cache_store)):
            raise Refused(42)
        return "found" if name in map(cache.id_at, cache.places(cache.max_messages)) else "missing"

    def state(self, _):
        return "%d %d %d %d %d %d %d %d %d" % (
            self.clock, self.seen.start, self.seen.count, self.cache.start, self.cache.count, self.cache.next,
            total(self.seen_store[:self.seen_len]), total(self.cache_store[:self.cache_len]), total(self.made))


# --- a node as bytes -------------------------------------------------------------

# Ten numbers; expiries, arrival numbers; lengths of messages; lengths of seen ids, ages, lengths of cached ids; these ids; counts of topics, their
# starts, their lengths; the flags.
LAYOUT = struct.Struct("<10Q 256Q 64Q 64H 256B 64B 64B 8192s 64B 256H 256H Q")
NODE_SIZE = 12440
assert LAYOUT.size == NODE_SIZE


def node_bytes(run):
    seen, cache = run.seen, run.cache
    return LAYOUT.pack(run.ttl, run.max_seen, run.clock, seen.start, seen.count, cache.history_len, cache.max_messages, cache.next, cache.start,
                       cache.count, *seen.expiry, *cache.arrival, *cache.len, *seen.len, *cache.window, *cache.id_len, bytes(cache.ids),
                       *cache.topic_count, *cache.topic_start, *cache.topic_len, cache.flags)


def gateway_bytes(run):
    """A node with the stores that it is lent, one after the other."""
    return node_bytes(run) + bytes(run.seen_store[:run.seen_len] + run.cache_store[:run.cache_len])


def from_bytes(data):
    """The run of a node and its stores that stand one after the other; 41 where the stores are not as long as the node's maxima say."""
    run, numbers = Run(), iter(LAYOUT.unpack(data[:NODE_SIZE]))
    seen, cache = run.seen, run.cache
    run.ttl, run.max_seen, run.clock, seen.start, seen.count, cache.history_len, cache.max_messages, cache.next, cache.start, cache.count = \
        itertools.islice(numbers, 10)

    def some(count):
        return list(itertools.islice(numbers, count))
    seen.expiry, cache.arrival, cache.len = some(MAX_SEEN), some(MAX_MESSAGES), some(MAX_MESSAGES)
    seen.len, cache.window, cache.id_len = some(MAX_SEEN), some(MAX_MESSAGES), some(MAX_MESSAGES)
    cache.ids = bytearray(next(numbers))
    cache.topic_count, cache.topic_start, cache.topic_len = some(MAX_MESSAGES), some(SLOTS), some(SLOTS)
    cache.flags = next(numbers)
    run.seen_len, run.cache_len = run.max_seen * ROW, cache.max_messages * MAX_MESSAGE
    stores = data[NODE_SIZE:]
    if len(stores) != run.seen_len + run.cache_len:
        raise Refused(41)
    run.seen_store, run.cache_store = bytearray(stores[:run.seen_len]), bytearray(stores[run.seen_len:])
    return run


# --- the lines -----------------------------------------------------------------

# The call that a line names, where it is not the step's own.
CALLED = {"flagged": "set", "admit_in": "admit", "ask_in": "ask", "serve_in": "serve"}


def wrong(step):
    """Whether a room or a length lent is more than the program has, or an edition is none."""
    if step[0] in ("advertise", "ask", "serve"):
        return step[1] > MAX_MADE
    if step[0] in ("admit_in", "ask_in", "serve_in"):
        return step[1] not in EDITIONS or (step[0] != "admit_in" and step[2] > MAX_MADE)
    return step[0] == "lend" and (step[1] > SEEN_BYTES or step[2] > CACHE_BYTES)


def expected(data, watch=None):
    """The lines for an input; `watch` is called with the run before each step."""
    run, lines = Run(), []
    for step in RECORDS.steps(data):
        end = step if isinstance(step, str) else "bad" if wrong(step) else None
        if end is not None:
            return lines + [end] if end else lines
        if watch:
            watch(run, step)
        lines.append("%d %s %s" % (len(lines) + 1, CALLED.get(step[0], step[0]), run.answer(step)))
    return lines
