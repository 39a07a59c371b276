"""Traces for the program `trace`: fixed ones about every edge, and random ones.

A history is a list of steps (nodes.py) that begins with settings, so histories can
stand one after the other in one input. Where a step needs what another node wrote,
the model is played to it. Everything random comes from one seeded `random.Random`.
"""

import itertools

import caches
import nodes
import peers
from bodies import BROKEN, PARTS, many, other_field, random_body, tagged
from caches import LONG_TOPICS, LONGEST_TOPICS, NAME, REFUSED, TOPICS, X
from caches import clipped, fields_of, grown, loosened, message, padded, plain, some_put, unfit_puts, x_with
from nodes import MAX_CONTENT, MAX_RECORDS, TOP, Run, made, record, records
from peers import A, B, ECDSA, F, HASHED, ID, KEY, LONGEST
from places import EDITION_ROWS
from records import header
from wire import blob, damaged, then_random

ADMIT_BODY = MAX_CONTENT - 11
TTLS = [0, 0, 1, 1, 2, 5, 10, 10, 50, 100, 1000, 2**32, 2**63, TOP - 100, TOP - 1, TOP]
WINDOWS = [0, 1, 1, 1, 2, 2, 3, 4, 15, 16, 17, 255, 256, 65535, 65535]
# max_seen, history_len, max_messages; each is refused.
BAD_SETTINGS = [(4, 0, 4), (4, 17, 4), (4, 18, 4), (4, 256, 4), (4, 258, 4), (4, 65535, 4), (257, 2, 4), (258, 2, 4), (260, 2, 4), (512, 2, 4),
                (65535, 2, 4), (4, 2, 9), (4, 2, 10), (4, 2, 63), (4, 2, 64), (4, 2, 65), (4, 2, 256), (4, 2, 260), (4, 2, 264), (4, 2, 65535),
                (0, 0, 0), (257, 17, 9), (256, 16, 9), (256, 17, 8), (257, 16, 8), (65535, 65535, 65535)]


# --- what bodies are made of -------------------------------------------------------

def ihave(names, topic=b"t"):
    """An IHAVE as a field of a control; without a topic where it is None."""
    return tagged(1, (b"" if topic is None else tagged(1, topic)) + b"".join(tagged(2, name) for name in names))


def iwant(names):
    return tagged(2, b"".join(tagged(1, name) for name in names))


def control(*entries):
    return tagged(3, b"".join(entries))


def tells(*names):
    """A body whose one IHAVE names these ids."""
    return control(ihave(names))


def wants(*names):
    return control(iwant(names))


def admit(now, body, index=0, verified=1):
    return ("admit", now, index, verified, body)


def beat(now):
    return ("beat", now)


def advertise(windows, topic=b"t"):
    return ("advertise", windows, topic)


def ask(*names):
    return ("ask", tells(*names))


def serve(*names):
    return ("serve", wants(*names))


def body_of(parts):
    return tagged(2, plain(parts))


def x_body(who, seqno, *topics, data=None):
    return body_of(x_with(from_=[who], seqno=[seqno], topic=topics or [b"t"], data=[] if data is None else [data]))


def loosely(r, steps):
    """The same steps, most of the messages without a signature."""
    return [(*step[:-1], loosened(r, step[-1])) if step[0] == "admit" and r.randrange(3) else step for step in steps]


def grouped(r, step):
    """A step whose body mostly has groups; other steps as they are."""
    if step[0] not in ("admit", "ask", "serve") or r.randrange(4) == 0:
        return step
    body = caches.with_groups(r, step[-1])
    return (*step[:-1], body) if len(body) <= ADMIT_BODY else step


def named_by(pool):
    return sorted({who + seqno for who, seqno in pool})


def near(r, name):
    """An id easily taken for this one, and ids about the longest."""
    return r.choice((
        lambda: name[:-1], lambda: name + b"\x00", lambda: b"\x01" + name, lambda: name[1:], lambda: b"", lambda: name + bytes(128),
        lambda: (name * 129)[:r.choice((127, 128, 129, 130, 256, 257))], lambda: bytes(r.choice((127, 128, 129, 256))),
        lambda: blob(r, r.randrange(1, 4))))()


def some_control(r, pool, topics, entry):
    """A body that names ids: in several entries and controls, some of them twice, among fields that are skipped."""
    names, entries = named_by(pool), []
    for _ in range(r.choice((1, 1, 1, 2, 3))):
        listed = [r.choice(names) if r.randrange(6) else near(r, r.choice(names)) for _ in range(r.choice((0, 1, 2, 3, 4, 4, 6, 10)))]
        kind = entry if r.randrange(8) else r.choice(("ihave", "iwant", "graft", "prune"))
        if kind == "ihave":
            one = [tagged(2, name) for name in listed]
            one += [tagged(1, r.choice(topics))] if r.randrange(5) else []
            number = 1
        elif kind == "iwant":
            one, number = [tagged(1, name) for name in listed], 2
        else:
            one, number = [tagged(1, r.choice(topics))], 3 if kind == "graft" else 4
        if r.randrange(6) == 0:
            one.insert(r.randrange(len(one) + 1), other_field(r, PARTS[kind]))
        entries.append(tagged(number, b"".join(one)))
    if r.randrange(8) == 0:
        entries.insert(r.randrange(len(entries) + 1), other_field(r, PARTS["control"]))
    at = r.randrange(len(entries) + 1)
    if at == len(entries):
        return control(*entries)
    return control(*entries[:at]) + r.choice((b"", tagged(1, b""), tagged(2, b""), b"\x20\x00")) + control(*entries[at:])


def some_naming(r, pool, topics, entry):
    """The body of an ask or of a serve."""
    how = r.randrange(40)
    if how == 0:
        return random_body(r)
    if how == 1:
        return damaged(r, some_control(r, pool, topics, entry))
    if how == 2:
        return some_control(r, pool, topics, entry) + bytes.fromhex(r.choice(REFUSED))
    if how == 3 and r.randrange(5) == 0:
        return some_control(r, pool, topics, entry) + many(r, MAX_RECORDS - r.randrange(14))
    if how == 4 and r.randrange(5) == 0:
        n = MAX_RECORDS - 1 - r.randrange(3)
        names = [r.choice(named_by(pool)) if r.randrange(3) else b"%d" % r.randrange(400) for _ in range(n)]
        return control(ihave(names, None) if entry == "ihave" else iwant(names))
    return some_control(r, pool, topics, entry)


def some_admit(r, now, pool, topics):
    _, index, body = some_put(r, r.choice(pool), topics)
    while len(body) > ADMIT_BODY:
        _, index, body = some_put(r, r.choice(pool), topics)
    return ("admit", now, index, 0 if r.randrange(20) == 0 else 1, body)


def some_topic(r, topics):
    how = r.randrange(20)
    if how == 0:
        return r.choice(LONG_TOPICS)
    if how == 1:
        return r.choice((b"", b"t")) + r.choice(BROKEN)
    return r.choice(TOPICS + LONGEST_TOPICS) if how < 4 else r.choice(topics)


# --- random histories ----------------------------------------------------------------

def readings(r):
    """Readings that mostly rise or stand still; now and then one lies before, and now and then they leap."""
    now = r.choice((0, 0, 1, 100, 100, 1000, 2**32 - 5, 2**63 - 5, TOP - 300, TOP - 20))
    while True:
        how = r.randrange(40)
        if how < 16:
            now = clipped(now + r.choice((1, 1, 2, 3, 5, 10, 10, 50, 100)))
        elif how == 16 and r.randrange(6) == 0:
            now = clipped(now + r.choice((1000, 2**32, 2**63, TOP - now - 1 if now < TOP else 0, TOP)))
        yield clipped(now - r.choice((1, 1, 2, 10, 100, now))) if how in (17, 18) else now


def some_settings(r):
    return ("set", r.choice(TTLS), r.choice((0, 1, 1, 2, 2, 3, 4, 4, 8, 16, 255, 256)), r.choice((1, 1, 2, 2, 3, 3, 4, 8, 15, 16)),
            r.choice((0, 1, 1, 2, 2, 3, 4, 5, 7, 8, 8)))


def bad_settings(r):
    return ("set", r.choice(TTLS), *r.choice(BAD_SETTINGS))


def probes(pool, topics):
    """Steps that look: which ids are seen, which messages are held, which are told."""
    names = named_by(pool)
    return [ask(*names), serve(*names)] + [advertise(65535, topic) for topic in topics[:3]] + [advertise(1, topics[0])]


def some_topics(r):
    return r.sample(TOPICS, r.randrange(1, 4)) + ([] if r.randrange(30) else r.sample(LONGEST_TOPICS, 1))


def history(r):
    return some_calls(r, caches.names(r), some_topics(r))


def some_calls(r, pool, topics):
    """A history of messages with these ids and topics."""
    clock = readings(r)
    steps, admits = [some_settings(r)], []
    for _ in range(r.randrange(6, 40)):
        now, how = next(clock), r.randrange(100)
        if how < 45:
            again = r.choice(admits)[2:] if admits and r.randrange(4) == 0 else some_admit(r, now, pool, topics)[2:]
            admits.append(("admit", now) + again)
            steps.append(admits[-1])
        elif how < 58:
            steps.append(("beat", now))
        elif how < 70:
            steps.append(("advertise", r.choice(WINDOWS), some_topic(r, topics)))
        elif how < 83:
            steps.append(("ask", some_naming(r, pool, topics, "ihave")))
        elif how < 96:
            steps.append(("serve", some_naming(r, pool, topics, "iwant")))
        elif how < 98:
            steps.append(bad_settings(r))
        elif how == 98:
            steps += probes(pool, topics)
        elif r.randrange(3) == 0:
            steps.append(some_settings(r))
    return steps + probes(pool, topics)


def full_node(r):
    """More ids than a node sees, over many beats."""
    most, clock, topics = r.choice((63, 64, 255, 256, 256)), readings(r), r.sample(TOPICS, 2)
    pool = [(r.choice((F, F, A, HASHED)), n.to_bytes(2, "big")) for n in range(most + 12)]
    steps = [("set", r.choice((0, 100, 1000, TOP, TOP)), most, r.choice((1, 4, 16)), r.choice((1, 8, 8)))]
    for who in pool[:r.randrange(most - 2, len(pool))]:
        now = next(clock)
        steps.append(admit(now, tagged(2, message(r, fields_of(r, who, topics)))))
        if r.randrange(25) == 0:
            steps += [beat(now), ask(*named_by(r.sample(pool, 20)))]
    return steps + probes(pool, topics) + [beat(clipped(now + 1))] + probes(pool, topics)


# --- catching up -------------------------------------------------------------------------

def told(steps, call):
    """What a call answers after these steps."""
    return Run(steps).answer(call)


def one_round(giver, taker, topic, windows, now):
    """A round in which `taker` gets what it lacks, each node given by the steps that make it: (steps to play, the taker's steps then).
    The program has one node at a time, so a node is made anew where it is called again."""
    offer = made(told(giver, advertise(windows, topic)))
    request = made(told(taker, ("ask", offer)))
    answer = told(giver, ("serve", request))
    reply, served = made(answer), int(answer.split(" ")[-2])
    later = taker + [admit(now, reply, index) for index in range(served)]
    steps = giver + [advertise(windows, topic)] + taker + [("ask", offer)] + giver + [("serve", request)] + later
    return steps + [("ask", offer)], later


def both_ways(one, other, topic, windows, now):
    """A round each way, and then both nodes' advertisements: (steps, one node's steps, the other's)."""
    first, other = one_round(one, other, topic, windows, now)
    second, one = one_round(other, one, topic, windows, now)
    return first + second + [advertise(windows, topic)] + other + [advertise(windows, topic)], one, other


def catch_up(r):
    """Two nodes with messages of one set, and rounds both ways."""
    topics, ttl = some_topics(r), r.choice((50, 1000, TOP))
    pool = r.sample([(who, bytes([n])) for who in (A, F, HASHED) for n in range(6)], r.randrange(1, 9))
    size = (ADMIT_BODY // 8 - 3) if r.randrange(10) == 0 else None
    messages = []
    for who in pool:
        parts = fields_of(r, who, topics)
        messages.append(tagged(2, plain(grown(parts, size)) if size else message(r, parts)))
    both, now = [], r.choice((0, 100, 1000))
    for _ in range(2):
        history_len = r.choice((2, 3, 16))
        steps = [("set", ttl, r.choice((8, 8, 256)), history_len, 8)]
        steps += [admit(now, body) for body in r.sample(messages, r.randrange(len(messages) + 1))]
        for _ in range(r.choice((0, 0, 1, 2))):
            steps.insert(r.randrange(1, len(steps) + 1), beat(now))
        both.append(steps)
    steps = []
    for topic in topics[:2]:
        more, *both = both_ways(*both, topic, 65535, now + 1)
        steps += more
    return steps


# --- all short histories -------------------------------------------------------------------

SMALL = [("admit", 0, 1), ("admit", 1, 2), ("admit", 0, 2), ("admit", 2, 1), ("admit", -1, 3), ("beat", 0), ("beat", 1)]


def short_histories(length=4):
    """Every history of so many calls out of SMALL, whose numbers are added to the reading, for small settings; and looks after it."""
    bodies = {n: x_body(A, bytes([n])) for n in (1, 2, 3)}
    names = [A + bytes([n]) for n in bodies]
    looks = [ask(*names), serve(*names), advertise(1), advertise(2)]
    for most in ((0, 1, 1), (1, 1, 1), (1, 2, 2), (2, 1, 2), (2, 2, 1), (3, 2, 0)):
        for chosen in itertools.product(SMALL, repeat=length):
            steps, now = [("set", 2, *most)], 5
            for call, more, *which in chosen:
                now += max(0, more)
                steps.append(admit(now + min(0, more), bodies[which[0]]) if which else (call, now))
            yield steps + looks


# --- fixed histories -------------------------------------------------------------------------

NEXT = A + b"\x02"
LOOKS = [advertise(65535), ask(NAME, NEXT), serve(NAME, NEXT)]


def sample():
    """The trace of the scope."""
    x = body_of(X)
    return [("set", 1000, 4, 2, 4), admit(100, x), advertise(1), admit(100, x), beat(1100), advertise(1), admit(1099, x), admit(1100, x)]


def each_refusal():
    """Every refusal that a trace can show, once or a few times, and what is left after them."""
    x = body_of(X)
    steps = [("set", 5, 4, 2, 9), ("set", 5, 4, 0, 4), ("set", 5, 257, 2, 4), ("set", 50, 4, 2, 4), admit(10, x)] + LOOKS
    for row in [bytes.fromhex(row) for row in REFUSED] + [b"\x0a\x00" * (MAX_RECORDS + 1)]:
        steps += [admit(10, row), ("ask", row), ("serve", row)]
    steps += [admit(20, x, 1)]
    for parts in (x_with(from_=[]), x_with(from_=[b""]), x_with(from_=[b"f" * 65]), x_with(from_=[b"A"]), x_with(from_=[b"gate"]), x_with(seqno=[]),
                  x_with(seqno=[b"s" * 65]), x_with(signature=[], key=[b"k"]), x_with(signature=[]), x_with(signature=[bytes(63)]),
                  x_with(key=[b"\xff"]), x_with(from_=[b"\x00\x00"]), x_with(from_=[HASHED]), x_with(key=[F[2:]]),
                  x_with(topic=[]), x_with(topic=[b"t"] * 5), x_with(topic=[b"t" * 1025]), grown(X, 4097)):
        steps.append(admit(20, body_of(parts)))
    steps += [admit(20, x, 0, 0), admit(9, x), beat(9), advertise(1, b"t" * 1025)] + LOOKS
    return steps + [admit(10, x), beat(10), ("set", 5, 4, 2, 9)] + LOOKS


def senders(rows, *words):
    """Rows about senders and their keys (peers.py), with each word. No id is kept, so nothing is a duplicate."""
    return [("set", 10, 0, 1, 0)] + [admit(5, body_of(x_with(**change)), 0, word) for word in words or (1, 0) for change, _ in rows]


def setting_histories():
    x = body_of(X)
    yield [("set", 5, *bad) for bad in BAD_SETTINGS] + [("set", 5, 4, 2, 4)] + LOOKS
    for bad in BAD_SETTINGS:  # refused settings change nothing, accepted ones start anew
        yield [("set", 50, 4, 2, 4), admit(9, x), ("set", 7, *bad)] + LOOKS + [admit(8, x), admit(9, x)] \
            + [("set", 50, 4, 2, 4)] + LOOKS + [admit(1, x)]
    for ttl in (0, 1, TOP - 1, TOP):
        for seen, history_len, most in ((0, 1, 0), (0, 16, 8), (256, 1, 0), (256, 16, 8), (1, 1, 1), (255, 15, 7)):
            yield [("set", ttl, seen, history_len, most), admit(3, x)] + LOOKS + [admit(3, x), admit(4, x), beat(4), admit(4, x)] + LOOKS


def message_refusals():
    """Each reason, what is just taken, and two reasons at once; with the host's word and without, and at a reading before the clock."""
    for now, verified in ((10, 1), (10, 0), (9, 1), (9, 0)):
        steps = [("set", 1000, 8, 4, 4), admit(10, x_body(A, b"\x02"))]
        for parts in unfit_puts():
            steps += [admit(now, body_of(parts), 0, verified), advertise(65535)]
        yield steps + LOOKS + [beat(9), beat(10)] + LOOKS


def body_refusals():
    x, start = body_of(X), [("set", 1000, 8, 4, 4), admit(1, body_of(X))]
    steps = list(start)
    for row in map(bytes.fromhex, REFUSED):
        for body in (row, x + row, tagged(2, plain(X) + row), control(tagged(1, row)), tells(NAME) + row, control(ihave([NAME]) + row),
                     wants(NAME) + control(iwant([NAME]) + tagged(4, tagged(2, row)))):
            steps += [admit(5, body), ("ask", body), ("serve", body)]
    yield steps + LOOKS + [admit(1, x)]
    steps = start[:1]
    for body in (b"", x, x + x, bytes.fromhex("f8ffffff0f00") + x, tagged(2, b"") + x, x + tagged(2, b""), b"\x10\x00" + x + b"\x18\x00",
                 x + b"\x08" + b"\x80" * 9 + b"\x01"):
        steps += [admit(1, body, index) for index in (0, 1, 2, 3, 255, 256, 65535)]
    yield steps + LOOKS
    # As many records as a body may have, and one more.
    few = b"\x0a\x00" * (MAX_RECORDS - 2)
    steps = start[:1] + [admit(1, few + x), admit(1, few + x + b"\x0a\x00"), admit(1, few + x + x, 9), admit(1, few + x + x + b"\x0b"),
                         admit(1, tagged(2, b"\x22\x01t" * 511)), admit(1, tagged(2, b"\x22\x01t" * 512))]
    for n in (510, 511, 512):
        others = [b"%d" % k for k in range(n)]
        steps += [ask(*others), ask(*[NAME] * n), serve(*[NAME] * n), serve(*others[1:], NAME)]
    for n in (256, 257):
        steps += [("ask", b"".join(tells(b"%d" % k) for k in range(n))), ("serve", wants(NAME) * n)]
    yield steps + LOOKS
    # The longest contents.
    yield start[:1] + [
        admit(1, padded(x, ADMIT_BODY)), admit(1, padded(x, ADMIT_BODY - 1)), admit(1, b"\x0b" * ADMIT_BODY), admit(1, bytes(ADMIT_BODY)),
        ("ask", padded(tells(NAME, b"B"), MAX_CONTENT)), ("serve", padded(wants(NAME, b"B"), MAX_CONTENT)), ("ask", b"\x80" * MAX_CONTENT),
        ("serve", tagged(4, bytes(MAX_CONTENT - 4))), ("serve", tagged(4, bytes(MAX_CONTENT - 4))[:-1]),
        ask(*[bytes([n % 256, n // 256]) * 29 for n in range(511)]), ("ask", control(ihave([bytes(MAX_CONTENT - 16)], None))),
        ask(bytes(16000), bytes(16001), bytes(16000)[:600]), advertise(1, b"t" * (MAX_CONTENT - 2)),
        advertise(65535, bytes(MAX_CONTENT - 2))] + LOOKS


def clock_histories():
    x, y = body_of(X), x_body(A, b"\x02")
    # Both answers and a beat set the clock; no refusal does.
    yield [("set", 100, 4, 4, 4), admit(0, x), admit(50, x), admit(49, y), beat(49), admit(50, y), beat(60), admit(59, x), beat(59),
           admit(70, x, 0, 0), admit(70, x, 1), admit(70, b"\x80"), admit(60, x), beat(60), advertise(9), beat(0), admit(0, y)]
    yield [("set", 100, 4, 4, 4), beat(0), beat(0), beat(TOP), beat(TOP - 1), admit(TOP - 1, x), admit(TOP, x), admit(TOP, x), beat(TOP)] + LOOKS
    # An hour back: nothing that was seen comes in as new.
    h = 3600
    yield [("set", 2 * h, 4, 4, 4), admit(10 * h, x), admit(9 * h, x), admit(9 * h, y), beat(9 * h), admit(10 * h, x),
           admit(12 * h - 1, x), admit(12 * h, x), admit(12 * h, x)]
    # An expiry equal to the reading is past.
    for ttl in (0, 1, 10, TOP):
        for now in (0, 5, TOP - 11, TOP - 10, TOP - 1, TOP):
            steps = [("set", ttl, 4, 4, 4), admit(now, x)] + LOOKS + [admit(now, x)]
            for later in (max(now, clipped(now + ttl + d)) for d in (-1, 0, 1)):
                steps += [admit(later, y), ask(NAME), beat(later), ask(NAME)]
            yield steps + [admit(later, x), admit(TOP, x), admit(TOP, x), admit(TOP, y)] + LOOKS
    yield [("set", TOP, 4, 4, 4), admit(0, x), admit(1, y), beat(TOP - 1), ask(NAME, NEXT), beat(TOP), ask(NAME, NEXT)]


def store_histories():
    bodies = [x_body(A, bytes([n])) for n in range(12)]
    names = [A + bytes([n]) for n in range(12)]
    for seen in (0, 1, 2, 3, 11, 12):
        for most in (0, 1, 2, 7, 8):
            steps = [("set", 100, seen, 3, most)]
            for n, body in enumerate(bodies):
                steps += [admit(n, body), admit(n, bodies[max(0, n - 1)]), ask(*names), advertise(1)]
            yield steps + [serve(*reversed(names))] + [admit(20, body) for body in bodies[:4]] + [ask(*names), serve(*names)]
    every = [F + n.to_bytes(2, "big") for n in range(258)]
    for seen in (255, 256):
        yield [("set", 1000, seen, 16, 8)] + [admit(n, x_body(F, name[len(F):])) for n, name in enumerate(every)] \
            + [ask(*every), serve(*every), admit(258, x_body(F, b"\x00\x01")), admit(258, x_body(F, b"\x01\x00")), ask(*every),
               beat(1100), ask(*every), beat(5000), ask(*every), admit(5000, x_body(F, b"\x01\x00"))]
    for history_len in (1, 2, 3, 15, 16):
        steps = [("set", 1000, 256, history_len, 8)]
        for n in range(20):
            steps += [admit(n, x_body(A, bytes([n]))), beat(n)]
            steps += map(advertise, (0, 1, 2, history_len - 1, history_len, 65535))
        yield steps + [serve(*[A + bytes([n]) for n in range(20)])]
    # Held though no longer seen: new, and the old bytes stay, in their window. Seen though no longer held: not asked for.
    old, new = x_body(A, b"\x01", data=b"old"), x_body(A, b"\x01", b"u", data=b"new")
    looks = [ask(NAME), serve(NAME), advertise(1), advertise(2), advertise(9, b"u")]
    yield [("set", 10, 4, 4, 4), admit(0, old), beat(10)] + looks + [admit(10, new)] + looks + [beat(11)] * 2 + looks \
        + [beat(12)] + looks + [admit(12, new)] + looks
    yield [("set", 100, 4, 1, 4), admit(0, old)] + looks + [beat(1)] + looks + [admit(1, new)] + looks + [beat(100), admit(100, new)] + looks
    # An id split where no peer id ends.
    yield [("set", 100, 4, 4, 4), admit(0, x_body(A, b"bc")), admit(0, x_body(A + b"b", b"c")), admit(0, x_body(A[:-1], A[-1:] + b"bc")), serve(A + b"bc"),
           ask(A + b"bc", A + b"b", b"bc", A + b"bcd", A)]
    # Places that are used again, by shorter and by longer messages.
    for most in (1, 2, 8):
        steps = [("set", 100, 4, 4, most)]
        for n, size in enumerate((4096, 4095, 200, 100, 4096, 80, 4096, 81, 82, 83, 4096, 84)):
            steps += [admit(n, body_of(grown(x_with(seqno=[bytes([n])]), size))), serve(*names[max(0, n - 2):n + 1])]
        yield steps
    largest = [body_of(grown(x_with(seqno=[bytes([n])]), 4096)) for n in range(9)]
    yield [("set", 100, 16, 4, 8)] + [admit(0, body) for body in largest] + [serve(*names), serve(*reversed(names)), advertise(1)]
    yield [("set", 100, 16, 4, 8)] + [admit(0, body_of(grown(X, size))) for size in (4097, 4098, 8192, 32000)] + LOOKS
    # The longest ids.
    who, seqno = LONGEST, b"s" * 64
    yield [("set", 100, 16, 4, 8), admit(0, x_body(who, seqno)), admit(0, x_body(who, seqno[1:])), admit(0, x_body(who, seqno)),
           ask(who + seqno, who + seqno[1:], who + seqno[2:], who + seqno + b"s", bytes(1000), who + seqno + b"s"),
           serve(who + seqno + b"s", who + seqno, who + seqno[1:], who, bytes(1000)), advertise(1)]


def naming_bodies():
    """Bodies that name ids, for a node that has seen the first three."""
    a, n1, n2, n3, no, other = x_body(A, b"\x01"), NAME, NEXT, A + b"\x03", b"B\x01", b"B\x02"
    yield from (b"", control(), control(ihave([])), control(iwant([])), tells(b""), wants(b""), tells(no), wants(no), tells(n1), wants(n1))
    # Twice, in several entries and in several controls.
    yield from (tells(no, no), wants(n1, n1), tells(no, other, no, n1, other), wants(n2, n1, no, n2, n3, n1))
    yield from (control(ihave([no]), ihave([other, no], b"u"), ihave([b"C"], None)), control(iwant([n2]), iwant([n1, n2]), iwant([])))
    yield from (tells(no) + tells(other, no) + wants(n1) + tells(b"C"), wants(n3) + tells(no) + wants(n1, n3) + control() + wants(n2))
    yield from (control(iwant([n1, no]), ihave([other, n1])), control(ihave([no]), iwant([n2]), ihave([no, b"C"]), iwant([n1])))
    # About the longest ids, and ids easily taken for one that is seen.
    long = [bytes(129), b"\x01" * 129, n1 + bytes(129 - len(n1)), bytes(1000)]
    yield from (tells(*long), wants(*long), tells(*long, *long, no), wants(*long, n1, *long), tells(bytes(127), bytes(128), bytes(129), bytes(128)))
    for make in (tells, wants):
        yield make(n1[:1], n1 + b"\x00", b"\x01" + n1, n1[1:])
    # Fields that are skipped, unknown or of another type; a topic twice, empty, long or after the ids; other entries beside.
    yield b"\x28\x01" + control(b"\x2a\x01\xff", b"\x08\x07", tagged(1, b"\x3d" + bytes(4) + tagged(2, no) + b"\x10\x05" + tagged(1, b"t") * 2))
    yield b"\x19" + bytes(8) + control(b"\x15" + bytes(4), tagged(2, b"\x12\x01\xff" + tagged(1, n1) + b"\x08\x01" + tagged(1, n2)))
    yield tagged(1, b"\x08\x01\x12\x01t") + a + control(
        tagged(3, b"\x0a\x01t"), ihave([no]), tagged(4, b"\x0a\x01t\x12\x02\x0a\x00\x18\x05"), iwant([n1]))
    yield from (control(ihave([no], b"")), control(ihave([no], b"t" * 2000)), control(tagged(1, tagged(2, no) + tagged(1, b"t") + tagged(2, other))))
    yield from (a + a, b"\x1d" + bytes(4), control(tagged(2, tagged(2, b"\xff") + tagged(1, n1))))
    # Topics that are not UTF-8.
    yield from (control(ihave([no], b"\xff")), control(tagged(3, tagged(1, b"\xc0\x80")), iwant([n1])))


def naming_histories():
    a, b, c = x_body(A, b"\x01"), x_body(A, b"\x02"), x_body(A, b"\x03", b"u")
    for most in (8, 2, 0):
        steps = [("set", 100, 16, 4, most), admit(0, a), admit(0, b), admit(0, c), beat(1)]
        for body in naming_bodies():
            steps += [("ask", body), ("serve", body)]
        yield steps
    # Ids in byte order, a prefix first.
    names = [(B, b"\x00"), (LONGEST, b"\xff"), (A, b"b\x00"), (A, b"b"), (A, b"bc"), (A, b"\x80"), (ECDSA, b"\x00"), (F, b"\xff")]
    yield [("set", 100, 16, 4, 8)] + [admit(0, x_body(*who)) for who in names] + list(map(advertise, (0, 1, 2, 256, 65535)))
    # Topics: repeated, prefixes of one another, the longest, not UTF-8, too long.
    steps = [("set", 100, 16, 4, 8), admit(0, x_body(F, b"1", b"t", b"to", b"t", b"")), admit(0, x_body(F, b"2", b"top", "\u20ac".encode())),
             admit(0, x_body(F, b"3", *LONGEST_TOPICS[:2])), admit(0, x_body(F, b"4", LONGEST_TOPICS[2], b"t\x00"))]
    for topic in TOPICS + LONGEST_TOPICS + LONG_TOPICS + BROKEN + [b"t\xff", b"\xe2\x82", b"T"]:
        steps += [advertise(1, topic), advertise(0, topic)]
    yield steps
    # Of several messages in a body each has its own fields; of a field that is given twice the last counts.
    several = a + tagged(2, b"") + b + tagged(2, tagged(1, b"Z") + plain(x_with(seqno=[b"\x04"])) + tagged(3, b"\x05") + tagged(4, b"u"))
    yield [("set", 100, 16, 4, 8)] + [admit(0, several, n) for n in (0, 1, 2, 3, 4)] \
        + [advertise(1), advertise(1, b"u"), serve(A + b"\x05", A + b"\x04", b"Z\x04", NEXT, NAME), ask(A + b"\x05", A + b"\x04")]
    # A message is kept with the fields that are skipped.
    spoken = tagged(2, b"\x7a\x02ab" + plain(X) + b"\x08\x01\x1d" + bytes(4) + b"\x29" + bytes(8) + tagged(6, KEY))
    yield [("set", 100, 16, 4, 8), admit(0, spoken), serve(NAME), advertise(1), admit(0, a)]


def catch_up_histories():
    messages = [x_body(B, bytes([n]), b"t", data=b"notice %d" % n) for n in range(8)]

    def node(*numbers, ttl=1000, seen=8, history_len=3, most=8):
        return [("set", ttl, seen, history_len, most)] + [admit(100 + n, messages[n]) for n in numbers]

    def rounds(one, other):
        return both_ways(one, other, b"t", 16, 200)[0]

    for one, other in (((0, 1, 2, 3, 4, 5, 6, 7), ()), ((), ()), ((1, 3, 5, 7), (0, 2, 4, 6)), ((0, 1, 2), (2, 3)), ((0, 1), (0, 1))):
        yield rounds(node(*one), node(*other))
    # A node too small for all: rounds that never end.
    yield rounds(node(0, 1, 2, 3), node(most=2))
    yield rounds(node(0, 1, 2, 3), node(seen=2))
    yield rounds(node(0, 1, 2, 3, seen=0), node(most=0))
    # A message that left the windows, and one that is no longer seen.
    yield rounds(node(0, 1) + [beat(150)] * 3 + [admit(160, messages[2])], node(2))
    yield rounds(node(0, 1, ttl=50), node(1, ttl=50) + [beat(190)])


def named():
    yield sample()
    yield each_refusal()
    for part in (setting_histories, message_refusals, body_refusals, clock_histories, store_histories, naming_histories, catch_up_histories):
        yield from part()


def declined_histories():
    """Bodies with the field that edition 1.2 adds to a control: a trace reads 1.1, and skips it whatever it holds."""
    x, steps = body_of(X), [("set", 1000, 4, 2, 4)]
    for text, *_ in EDITION_ROWS:
        row = bytes.fromhex(text)
        steps += [admit(100, row + x), admit(100, x + row), ("ask", tells(NAME, b"B") + row), ("serve", row + wants(NAME)), advertise(1)]
    steps += [("serve", wants(NAME) + control(tagged(5, tagged(1, NAME)))), ("serve", control(tagged(5, tagged(1, NAME)), iwant([NAME])))]
    for n in (511, 512, 513):
        many_ids = control(tagged(5, b"\x0a\x00" * n))
        steps += [admit(100, x + many_ids), ("ask", many_ids + tells(b"B")), ("serve", many_ids + wants(NAME))]
    yield steps


def some_history(r):
    how = r.randrange(150)
    return full_node(r) if how == 0 else catch_up(r) if how < 12 else history(r)


def histories(r, count):
    return then_random(r, count, (named(), short_histories(), declined_histories()), some_history)


# --- runs that end early -------------------------------------------------------------------------

def spoiling(r):
    """Bytes that end a run: a record of no kind, too short, too long, with another word than 0 and 1, or above the longest content."""
    how = r.randrange(5)
    if how == 0:
        n = r.choice((0, 1, 2, 8, 11, 14, 30))
        return header(n, r.choice((0, 7, 8, 255, 256, 257, 258, 0x0100 + r.randrange(8), 0x0600, 65535))) + blob(r, n)
    if how == 1:
        kind, sizes, _ = r.choice([form for form in nodes.FORM.values() if form[1]])
        n = r.randrange(sum(sizes))
        return header(n, kind) + bytes(n)
    if how == 2:
        kind, sizes, _ = r.choice([form for form in nodes.FORM.values() if not form[2]])
        n = sum(sizes) + r.choice((1, 1, 2, 8, 256))
        return header(n, kind) + b"\x01\x00" * (n // 2) + bytes(n % 2)
    if how == 3:
        body = r.choice((b"", body_of(X)))
        return header(11 + len(body), 2) + bytes(10) + bytes([r.choice((2, 3, 127, 128, 255, r.randrange(2, 256)))]) + body
    return header(MAX_CONTENT + r.choice((1, 1, 2, 32768, 65536, 2**31, 2**32 - 1 - MAX_CONTENT)), r.randrange(9))[:r.choice((4, 5, 6, 6))]


def ending(r):
    """An input of a few steps that mostly ends early."""
    steps = history(r)[:r.choice((1, 2, 4, 8, 16))]
    how = r.randrange(6)
    if how == 0:  # a call before settings, or after refused ones
        return records([bad_settings(r) for _ in range(r.randrange(3))] + steps[1:] + [("beat", 0)])
    if how == 1:  # cut
        data = records(steps)
        return data[:r.choice((r.randrange(len(data)), len(data) - 1))]
    if how == 2:
        return damaged(r, records(steps))
    at = r.randrange(len(steps) + 1)
    return records(steps[:at]) + spoiling(r) + records(steps[at:])


def endings():
    """(what it is, input, text): fixed runs. The texts are written here."""
    most, begun, ok = MAX_CONTENT, record(("set", 10, 4, 2, 4)), "1 set ok\n"
    refused, x = record(("set", 10, 4, 0, 4)), body_of(X)
    yield "nothing", b"", ""
    for n in range(1, 6):
        yield "header cut after %d bytes" % n, begun[:n], "bad\n"
        yield "second header cut after %d bytes" % n, begun + begun[:n], ok + "bad\n"
    for n in range(6, 20):
        yield "settings cut after %d bytes" % n, begun[:n], "bad\n"
    for n in (4, 5, 6):
        yield "too long, %d bytes of the header" % n, header(most + 1, 1)[:n], "long\n"
        yield "too long after one, %d bytes of the header" % n, begun + header(2**32 - 1, 6)[:n], ok + "long\n"
        yield "largest length, %d bytes of the header" % n, header(most, 1)[:n], "bad\n"
    yield "three bytes of a length that is too long", (most + 1).to_bytes(4, "little")[:3], "bad\n"
    yield "too long, with its content", begun + header(most + 1, 5) + bytes(most + 1) + begun, ok + "long\n"
    yield "too long, of no kind", header(most + 1, 65535), "long\n"
    yield "too long, before settings", header(most + 1, 3) + bytes(9), "long\n"
    for length in (most + 1, 65536, 65537, 2**24, 2**31, 2**32 - 1):
        for kind in range(8):
            yield "length %d, kind %d" % (length, kind), begun + header(length, kind) + bytes(40), ok + "long\n"
    yield "the longest contents", begun + b"".join(header(most, kind) + bytes(most) for kind in (2, 4, 5, 6)), \
        ok + "2 admit refused 6\n3 advertise refused 29\n4 ask refused 6\n5 serve refused 6\n"
    for kind in (1, 3):
        yield "the longest content of kind %d" % kind, begun + header(most, kind) + bytes(most), ok + "bad\n"
    for kind in (2, 4, 5, 6):
        yield "the longest content of kind %d, cut" % kind, begun + header(most, kind) + bytes(most - 1), ok + "bad\n"
    for kind in (0, 7, 8, 255, 256, 257, 258, 262, 0x0500, 65535):
        for n in (0, 2, 14):
            yield "kind %d with %d bytes" % (kind, n), begun + header(n, kind) + bytes(n) + begun, ok + "bad\n"
            yield "kind %d with %d bytes first" % (kind, n), header(n, kind) + bytes(n) + begun, "bad\n"
    for call, (kind, sizes, rest) in nodes.FORM.items():
        least = sum(sizes)
        for n in range(least):
            yield "%s with %d bytes" % (call, n), begun + header(n, kind) + bytes(n) + begun, ok + "bad\n"
        for n in (least + 1, least + 2, least + 256) if not rest else ():
            yield "%s with %d bytes" % (call, n), begun + header(n, kind) + bytes(n) + begun, ok + "bad\n"
            yield "%s with %d bytes first" % (call, n), header(n, kind) + bytes(n) + begun, "bad\n"
        whole = header(least, kind) + bytes(least)
        if call != "set":
            yield "%s first" % call, whole + begun, "bad\n"
            yield "%s after refused settings" % call, refused + whole + begun, "1 set refused 40\nbad\n"
            yield "%s after settings with nine messages" % call, record(("set", 10, 4, 2, 9)) + whole, "1 set refused 40\nbad\n"
    for word in range(2, 256):
        yield "word %d" % word, begun + header(11 + len(x), 2) + bytes(10) + bytes([word]) + x + begun, ok + "bad\n"
    yield "the least contents", begun + b"".join(header(n, kind) + bytes(n) for n, kind in ((11, 2), (8, 3), (2, 4), (0, 5), (0, 6))), \
        ok + "2 admit refused 20\n3 beat ok\n4 advertise 0\n5 ask 0\n6 serve 0 0 0\n"
    yield "refused settings alone", refused * 3, "1 set refused 40\n2 set refused 40\n3 set refused 40\n"
    yield "refused settings between", begun + refused + records([beat(5), beat(4)]), ok + "2 set refused 40\n3 beat ok\n4 beat refused 31\n"
    yield "all zero", bytes(60), "bad\n"
    yield "bad in a text", b"set 1000 4 2 4\n", "long\n"
    yield "the scope's sample", records(sample()), \
        "1 set ok\n2 admit new\n3 advertise 48 1a2e0a2c0a01741227%s01\n4 admit dup\n5 beat ok\n6 advertise 0\n7 admit refused 31\n8 admit new\n" % ID.hex()
    rows = peers.ROWS + peers.MORE_ROWS
    for word, answer in ((1, str), (0, peers.without_word)):
        yield "senders, word %d" % word, records(senders(rows, word)), \
            ok + "".join("%d admit %s\n" % (n, " ".join(answer(told).split(" ")[:2])) for n, (_, told) in enumerate(rows, 2))
    served = "0a26%s1a01012201742a40" % ID.hex() + "00" * 64
    yield "each answer", records([
        ("set", 10, 4, 2, 4), admit(5, x), ask(NAME, b"B", b"B"), serve(b"B", NAME, NAME), ("serve", tells(NAME)), ("ask", wants(b"B")), beat(14),
        ask(NAME), beat(15), ask(NAME), serve(NAME), beat(14)]), \
        "1 set ok\n2 admit new\n3 ask 7 1a0512030a0142\n4 serve 114 1270%s 1 0\n5 serve 0 0 0\n6 ask 0\n7 beat ok\n8 ask 0\n9 beat ok\n" \
        "10 ask 45 1a2b12290a27%s01\n11 serve 0 0 0\n12 beat refused 31\n" % (served, ID.hex())
