"""A model of the program `why`, and histories for it: fixed ones about every edge, and random ones.

The program plays the calls of `trace`, line for line, and two more: `why` asks of an id,
a topic and some windows whether the id is in the advertisement, and why it is not;
`gateway` takes a node with its stores, as a host saves them, in the place of the node.
What a call answers is the word of nodes.py; a saved node is read by states.py.

A step is one of nodes.py, or ("why", windows, id, topic), or ("gateway", node and
stores). `expected` takes an input as bytes and gives the lines of the run. A history is
a list of steps that begins with settings, as in traces.py. Everything random comes from
one seeded `random.Random`.
"""

import functools
import itertools

import caches
import nodes
import state_histories
import states
import traces
from bodies import BROKEN, tagged
from caches import LONG_TOPICS, LONGEST_TOPICS, NAME, TOPICS, X
from nodes import MAX_CONTENT, TOP
from peers import A, B, F, HASHED, HASHES, KEY, LONGEST, SENDERS, identity, key_bytes
from records import Records, header
from state_histories import Play, cut_why, id_of, named_message, some_why, why
from states import CLOCK, COUNT, FLAGS, MAX_HELD, MAX_IDS, MAX_MESSAGE, NODE_SIZE, ROW, gateway_bytes
from traces import NEXT, admit, advertise, beat, body_of, x_body
from wire import then_random

MAX_GATEWAY = 307608
FORM = {**nodes.FORM, "why": (12, (2,), 2), "gateway": (13, (), True)}
RECORDS = Records(FORM, MAX_CONTENT, {13: MAX_GATEWAY})
record, records = RECORDS.record, RECORDS.records

# Every refusal that the two calls more can show.
REFUSALS = {"why": {29}, "gateway": {41, 42}}


class Run(nodes.Run):
    records = RECORDS

    def ends_at(self, step):
        return len(step[1]) < NODE_SIZE if step[0] == "gateway" else super().ends_at(step)

    def played(self, call, *given):
        if call == "gateway":
            self.node = states.from_bytes(*given).lent()
            return "ok"
        # A saved node may have a lower ttl than its ids were taken with: then an id that is taken is over before those that are held.
        if call != "set" and any(older[1] > newer[1] for older, newer in zip(self.node.seen, self.node.seen[1:])):
            raise nodes.Refused(42)
        if call == "why":
            return self.node.explain(*given)
        return super().played(call, *given)


expected = functools.partial(nodes.expected, begun=Run)


# --- questions -----------------------------------------------------------------------

def asked(names, topics, windows):
    """For each topic and number of windows the advertisement, and then `why` of each id."""
    return [step for topic in topics for n in windows for step in [advertise(n, topic)] + [why(n, name, topic) for name in names]]


def mistaken(name):
    """Ids that are easily taken for this one, and ids that no message has."""
    return [name[:-1], name + b"\x00", b"\x01" + name, name[1:], b"", bytes(128), bytes(129), (name + bytes(128))[:128], (name + bytes(129))[:129]]


def all_windows(history_len):
    return [*range(history_len + 2), 65535]


def questions(r, steps, pool=(), topics=()):
    """What is asked after some steps: of every id that is cached, of others in play, and of some that are near; of topics that are carried, of their
    beginnings, and of others."""
    node = Run(steps).node
    held = [name for name, *_ in node.cache]
    names = sorted({*held, *traces.named_by(pool)}) or [NAME]
    names += [traces.near(r, r.choice(names)), r.choice(mistaken(r.choice(names))), b"\x01" + r.choice(names), b""]
    carried = sorted({topic for entry in node.cache for topic in entry[2]})
    some = r.sample(carried, min(len(carried), 3)) + r.sample(topics, min(len(topics), 1)) + [r.choice(carried)[:-1] if carried else b"t"]
    some.append(r.choice(r.choice((TOPICS, TOPICS, LONGEST_TOPICS, LONG_TOPICS, BROKEN))))
    windows = all_windows(node.history_len)
    return asked(names, some[:1], windows) + asked(names, some[1:], r.sample(windows, 3))


# --- random histories ------------------------------------------------------------------

def history(r):
    """A history of `trace`, with questions in it and after it."""
    pool, topics, steps = caches.names(r), traces.some_topics(r), []
    for step in traces.some_calls(r, pool, topics):
        steps.append(step)
        if r.randrange(3) == 0:
            steps.append(some_why(r, pool, topics))
    return steps + questions(r, steps, pool, topics)


def spoilt(r, data):
    """A saved node, most often as it is; or cut, longer, or with other bytes, mostly of its numbers."""
    how = r.randrange(8)
    if how == 0:
        return data[:max(NODE_SIZE, len(data) - r.choice((1, 1, 2, ROW, MAX_MESSAGE, len(data))))]
    if how == 1:
        return (data + bytes(r.choice((1, 1, 2, ROW, MAX_MESSAGE))))[:MAX_GATEWAY]
    if how < 4:
        data = bytearray(data)
        for _ in range(r.choice((1, 1, 2))):
            at = r.choice((r.randrange(80), r.randrange(NODE_SIZE), r.randrange(len(data))))
            data[at] = r.choice((data[at] ^ 1, data[at] ^ 128, 0, 255, r.randrange(256)))
    return bytes(data)


def saved_history(r):
    """A saved node of a random state, taken or refused, and what it says; then calls on it, and the same again."""
    run = Play(*state_histories.history(r)).run
    steps = [traces.some_settings(r), admit(0, named_message(1)), ("gateway", spoilt(r, gateway_bytes(run)[:MAX_GATEWAY]))]
    steps += questions(r, steps)
    now = Run(steps).node.clock
    steps += [admit(now, named_message(r.randrange(4), b"t", b"u")), beat(now)][:r.choice((0, 1, 2))]
    return steps + questions(r, steps)


def some_history(r):
    return saved_history(r) if r.randrange(12) == 0 else history(r)


# --- fixed histories -----------------------------------------------------------------------

def window_histories():
    """Messages of every age, and every number of windows."""
    for history_len in (1, 2, 3, 16):
        for beats in range(history_len + 1):
            yield [("set", 100, 4, history_len, 4), admit(1, x_body(A, b"\x01", b"t"))] + [beat(1)] * beats + asked(
                [NAME, NEXT, *mistaken(NAME)], [b"t", b"u", b""], [*all_windows(history_len), 255, 256, 257])
    for history_len in (4, 8, 16):
        steps = [("set", 100, 64, history_len, 8)]
        for n in range(8):
            steps += [admit(1, x_body(A, bytes([n]), *(b"t", b"u", b"v")[n % 3:])), beat(1)]
        yield steps + asked([id_of(n) for n in range(9)], [b"t", b"u", b"v", b"w"], all_windows(history_len))


def topic_histories():
    """Topics that are repeated, empty, prefixes of one another, the longest, not UTF-8, and too long."""
    bodies = [x_body(F, b"1", b"t", b"to", b"t", b""), x_body(F, b"2", b"top", "\u20ac".encode()), x_body(F, b"3", *LONGEST_TOPICS[:2]),
              x_body(F, b"4", LONGEST_TOPICS[2], b"t\x00"), x_body(F, b"5", b"t", b"t", b"t", b"u")]
    names = [F + b"%d" % n for n in range(7)]
    every = TOPICS + LONGEST_TOPICS + LONG_TOPICS + BROKEN + [b"t\xff", b"\xe2\x82", b"T"]
    yield [("set", 100, 16, 4, 8)] + [admit(0, body) for body in bodies] + asked(names, every, (0, 1)) + [beat(1)] + asked(names, every, (0, 1, 2))
    # The longest content, and topics far above the longest.
    yield [("set", 100, 16, 4, 8), admit(0, bodies[0])] + [why(1, name, b"t" * (MAX_CONTENT - 4 - len(name))) for name in (names[1], b"", b"none")] \
        + asked([names[1], bytes(MAX_CONTENT - 5)], [b"t"], (1,)) + [why(1, bytes(MAX_CONTENT - 4), b"")]
    for raw, kept in caches.TOPIC_MESSAGES:
        yield [("set", 100, 16, 4, 8), admit(0, tagged(2, raw))] + asked(
            [NAME], [b"", b"t", b"u", *[raw[start:start + size] for start, size in kept], *[raw[start:start + size + 1] for start, size in kept]], (0, 1))


def id_histories():
    """Ids of every length about the longest, prefixes, marks, senders of every sort, and ids split where no peer id ends."""
    who, seqno = LONGEST, b"s" * 64
    whole = who + seqno
    yield [("set", 100, 16, 4, 8), admit(0, x_body(who, seqno)), admit(0, x_body(who, seqno[1:])), admit(0, x_body(F, b"s"))] + asked(
        [whole, whole[:-1], whole[1:], whole + b"s", who + seqno[2:], F + b"s", *mistaken(whole), *[bytes(n) for n in (127, 128, 129, 130, 256, 1000)]],
        [b"t", b"u"], (0, 1, 5))
    yield [("set", 100, 4, 4, 4), admit(0, x_body(A, b"bc")), admit(0, x_body(A + b"b", b"c")), admit(0, x_body(B, b"bc"))] + asked(
        [A + b"bc", A + b"b", b"bc", A + b"bcd", b"\x01" + A + b"bc", b"\x01\x01" + A + b"bc", A, B + b"bc", B + b"b", A + B + b"bc"], [b"t"], (0, 1))
    # Senders of every sort; a sender that is not taken has no id here.
    senders = SENDERS + HASHES
    bodies = [body_of(caches.x_with(from_=[who], key=[KEY] if who in HASHES else [])) for who in senders]
    for some in (slice(0, 7), slice(3, 10)):
        yield [("set", 100, 16, 4, 8)] + [admit(0, body) for body in bodies[some]] + [admit(0, x_body(b"gate", b"\x01"))] + asked(
            [who + b"\x01" for who in senders + [b"gate"]] + senders[:2], [b"t", b"u"], (0, 1))
    # An id that has another in it.
    inner = identity(key_bytes(1, NAME[:30]))
    yield [("set", 100, 4, 4, 4), admit(0, x_body(inner, b"\x01"))] + asked([inner + b"\x01", NAME, inner, NAME[:30]], [b"t"], (0, 1)) \
        + [admit(0, x_body(A, b"\x01", b"u"))] + asked([inner + b"\x01", NAME], [b"t", b"u"], (0, 1))


def left_histories():
    """Messages that left: by max_messages, by their windows, with their node; and what is seen says nothing."""
    bodies = [x_body(A, bytes([n])) for n in range(12)]
    names = [id_of(n) for n in range(13)]
    for seen, most in itertools.product((0, 1, 12), (0, 1, 2, 8)):
        steps = [("set", 100, seen, 3, most)]
        for n, body in enumerate(bodies):
            steps += [admit(n, body)] + asked(names[max(0, n - most - 1):n + 2], [b"t"], (0, 1)) + ([beat(n)] if n % 4 == 3 else [])
        yield steps + asked(names, [b"t", b"u"], (0, 1, 2, 3, 4))
    # Held though no longer seen: the old topics and the old window count. Seen though no longer held.
    old, new = x_body(A, b"\x01", data=b"old"), x_body(A, b"\x01", b"u", data=b"new")
    looks = asked([NAME, b"\x01" + NAME], [b"t", b"u"], (0, 1, 2, 3, 9))
    yield [("set", 10, 4, 4, 4), admit(0, old), beat(10)] + looks + [admit(10, new)] + looks + [beat(11)] * 2 + looks + [beat(12)] + looks \
        + [admit(12, new)] + looks
    yield [("set", 100, 4, 1, 4), admit(0, old)] + looks + [beat(1)] + looks + [admit(1, new)] + looks + [beat(100), admit(100, new)] + looks
    # Refused calls change nothing, and settings start anew.
    yield [("set", 10, 4, 4, 4), admit(5, old), beat(4), admit(4, new), admit(5, old, 1), ("set", 10, 4, 0, 4)] + looks + [("set", 10, 4, 4, 4)] + looks


def full_play():
    """256 ids and 64 messages, four of an age, with topics of every number."""
    play = Play(("set", 1000, 256, 16, 64))
    for n in range(259):
        play.add(admit(n, x_body(F, n.to_bytes(2, "big"), *[b"%d" % (n % 3), b"t", b"", b"u"][:1 + n % 4])), *([beat(n)] if n % 4 == 3 else []))
    return play


def gateway_histories():
    """Saved nodes: taken, cut, longer, hurt. One that is refused leaves the node that was there."""
    held = [named_message(n, b"t", b"u") for n in (1, 9)]
    start = [("set", 50, 4, 2, 4), admit(5, held[0]), beat(6), admit(7, held[1])]
    names = [id_of(n) for n in range(10)] + [HASHED + b"\x01"] + [who + bytes([n]) for who in state_histories.BARE_SENDERS for n in (2, 3, 4)]
    few = asked(names, [b"t"], (0, 1))
    looks = few + asked(names, [b"t", b"u", b"topic", b""], (4,))
    bare = [caches.loose(body) for body in held]
    for play in (state_histories.turned(), state_histories.straight(), state_histories.topical(), state_histories.empty(), Play(("set", 1, 0, 1, 0)),
                 Play(("set", 1, 256, 16, 64)), Play(("set", TOP, 0, 16, 3), admit(TOP, held[0])), state_histories.mixed(), state_histories.loose(),
                 Play(("flagged", 9, 2, 3, 2, 1), admit(1, bare[0], 0, 0)), state_histories.skipping()):
        whole = gateway_bytes(play.run)
        yield start + [("gateway", whole)] + looks + [admit(20, held[0]), beat(20), admit(TOP, held[1])] + looks + [("gateway", whole)] + looks + start + looks
        # Which messages need a signature, the saved node says; settings of a trace allow none without.
        yield start + [("gateway", whole)] + [admit(20, body, 0, word) for body in bare + held for word in (0, 1)] + looks + start[:1] \
            + [admit(20, body) for body in bare + held] + looks
        others = [whole[:NODE_SIZE], whole[:NODE_SIZE + 1], whole[:-1], whole + b"\x00", whole + bytes(ROW), whole + bytes(MAX_MESSAGE),
                  whole[:-ROW], whole[:-MAX_MESSAGE], bytes(len(whole)), b"\xff" * len(whole)]
        yield start + [step for other in others if NODE_SIZE <= len(other) <= MAX_GATEWAY for step in [("gateway", other), *few]]
    full = full_play()
    yield start + [("gateway", gateway_bytes(full.run))] + asked(
        [F + n.to_bytes(2, "big") for n in range(190, 261)] + [F + b"\x00\x00"], [b"t", b"0", b"u", b"v"], (0, 1, 15, 16))
    # Each clause of 42 broken, and states that look odd and are well formed.
    for make, find in state_histories.BROKEN_FINDERS + state_histories.ODD_FINDERS:
        steps = list(start)
        for hurts in find(make()):
            play = make().add(*(hurts[1] if isinstance(hurts, tuple) else hurts))
            steps += [("gateway", gateway_bytes(play.run))] + few
        yield steps
    # Maxima that the stores do not have, some whose products do not fit a number; a clock and counts that are others.
    steps = list(start)
    for what, value in [(MAX_IDS, value) for value in (0, 3, 5, 256, 257, 516 * pow(129, -1, 2**64) % 2**64, 2**63, TOP)] \
            + [(MAX_HELD, value) for value in (0, 2, 4, 64, 65, 2**52, 2**52 + 3, 2**63 + 3, TOP)] + [(CLOCK, TOP), (COUNT, 0), (COUNT, 4)] + [(FLAGS, value) for value in (0, 1, 2, 3, 4, 5, 65535, TOP)]:
        play = state_histories.turned()
        whole = gateway_bytes(play.run)
        steps += [("gateway", states.node_bytes(play.add(state_histories.hurt(what, value)).run) + whole[NODE_SIZE:])] + few
    yield steps


def of_file(rest):
    """Histories of a node and its stores that a host saved: as they are, cut, longer and hurt."""
    start = [("set", 50, 4, 2, 4), admit(5, named_message(1))]
    run = Run(start + [("gateway", rest)])
    names = [name for name, *_ in run.node.cache]
    topics = sorted({topic for entry in run.node.cache for topic in entry[2]})
    looks = asked(names + mistaken(names[0] if names else NAME) + [NAME], topics[:3] + [b"none"], (0, 1, 65535))
    yield start + [("gateway", rest)] + looks + [beat(TOP)] + looks
    for other in (rest[:-1], rest + b"\x00", rest[:NODE_SIZE], rest[:32] + bytes([rest[32] ^ 1]) + rest[33:], rest[:40] + b"\x00" + rest[41:]):
        if len(other) <= MAX_GATEWAY:
            yield start + [("gateway", other)] + looks


def named():
    for part in (window_histories, topic_histories, id_histories, left_histories, gateway_histories):
        yield from part()


def histories(r, count):
    return then_random(r, count, (named(),), some_history)


# --- runs that end early, and answers that are written down ------------------------------------

def endings():
    """(what it is, input, text). The texts are written here."""
    most, begun, ok = MAX_CONTENT, record(("set", 10, 4, 2, 4)), "1 set ok\n"
    x, empty_node = body_of(X), bytes(NODE_SIZE)
    fresh = gateway_bytes(Play(("set", 10, 4, 2, 4)).run)
    yield "each answer", records([
        ("set", 10, 4, 2, 4), admit(5, x), why(1, NAME), why(1, NEXT), why(1, NAME, b"u"), why(0, NAME), why(0, NAME, b"u"), why(0, NEXT), beat(6),
        why(0, NAME), why(1, NAME), why(1, NAME, b"u"), why(2, NAME), why(3, NAME), why(65535, NAME), beat(7), why(2, NAME), why(65535, NAME)]), \
        "1 set ok\n2 admit new\n3 why listed\n4 why missing\n5 why topic\n6 why window 0\n7 why topic\n8 why missing\n9 beat ok\n" \
        "10 why window 1\n11 why window 1\n12 why topic\n13 why listed\n14 why listed\n15 why listed\n16 beat ok\n17 why missing\n18 why missing\n"
    yield "ids", records([
        ("set", 10, 4, 2, 4), admit(5, x), why(1, b""), why(1, bytes(128)), why(1, bytes(129)), why(1, b"\x01" + NAME), why(1, A), why(1, NAME + b"\x00"),
        admit(5, x_body(LONGEST, b"s" * 64)), why(1, LONGEST + b"s" * 64), why(1, LONGEST + b"s" * 65), why(1, LONGEST + b"s" * 63)]), \
        "1 set ok\n2 admit new\n3 why missing\n4 why missing\n5 why missing\n6 why missing\n7 why missing\n8 why missing\n9 admit new\n10 why listed\n" \
        "11 why missing\n12 why missing\n"
    yield "topics", records([
        ("set", 10, 4, 2, 4), admit(5, x), admit(5, x_body(A, b"\x02", b"", b"t" * 1024)), why(1, NAME, b"t" * 1024), why(1, NAME, b"t" * 1025),
        why(1, NEXT, b"t" * 1024), why(1, b"", b"t" * 1025), why(1, NAME, b"\xff"), why(1, b"none", b"\xff"), why(1, NAME, b""), why(1, NEXT, b""),
        why(1, NAME, b"\xff" * 1025), why(1, NAME, b"tt"), why(1, NEXT, b"t" * 1023)]), \
        "1 set ok\n2 admit new\n3 admit new\n4 why topic\n5 why refused 29\n6 why listed\n7 why refused 29\n8 why topic\n9 why missing\n10 why topic\n" \
        "11 why listed\n12 why refused 29\n13 why topic\n14 why topic\n"
    # Expired and seen again: the cache alone is asked.
    yield "seen says nothing", records([("set", 10, 4, 2, 4), admit(5, x), beat(15), why(2, NAME), beat(15), why(2, NAME), admit(15, x), why(1, NAME)]), \
        "1 set ok\n2 admit new\n3 beat ok\n4 why listed\n5 beat ok\n6 why missing\n7 admit new\n8 why listed\n"
    least = header(4, 12) + bytes(4)
    yield "why first", least + begun, "bad\n"
    yield "why after refused settings", record(("set", 10, 4, 0, 4)) + least, "1 set refused 40\nbad\n"
    yield "why with nothing", begun + least, ok + "2 why missing\n"
    for n in range(4):
        yield "why with %d bytes" % n, begun + header(n, 12) + bytes(n) + begun, ok + "bad\n"
    for size, rest in ((1, 0), (2, 1), (3, 2), (256, 255), (65535, 100), (65535, most - 4)):
        yield "an id of %d bytes in %d" % (size, rest), begun + cut_why(size, rest) + begun, ok + "bad\n"
    for size in (1, 2, 3, 256, most - 4):
        yield "an id of %d bytes, and no topic" % size, begun + record(why(1, bytes(size), b"")) + begun, ok + "2 why missing\n3 set ok\n"
    yield "the longest content", begun + record(why(1, b"", b"t" * (most - 4))) + begun, ok + "2 why refused 29\n3 set ok\n"
    for kind in (0, 1, 2, 3, 4, 5, 6, 7, 11, 12, 14, 256 + 12, 256 + 13, 65535):
        yield "too long, kind %d" % kind, begun + header(most + 1, kind) + bytes(most + 1) + begun, ok + "long\n"
        yield "too long, kind %d, cut" % kind, begun + header(MAX_GATEWAY, kind) + bytes(9), ok + "long\n"
    for kind in (0, 7, 8, 9, 10, 11, 14, 15, 255, 256 + 12, 256 + 13, 0x0c00, 65535):
        for n in (0, 4, 14):
            yield "kind %d with %d bytes" % (kind, n), begun + header(n, kind) + bytes(n) + begun, ok + "bad\n"
    for n in (4, 5, 6):
        yield "longer than a gateway, %d bytes of the header" % n, begun + header(MAX_GATEWAY + 1, 13)[:n], ok + "long\n"
        yield "as long as a gateway, %d bytes of the header" % n, begun + header(MAX_GATEWAY, 13)[:n], ok + "bad\n"
    yield "longer than a gateway, with its content", begun + header(MAX_GATEWAY + 1, 13) + bytes(MAX_GATEWAY + 1) + begun, ok + "long\n"
    for n in (0, 1, 4, NODE_SIZE - 1):
        yield "gateway with %d bytes" % n, begun + header(n, 13) + bytes(n) + begun, ok + "bad\n"
        yield "gateway with %d bytes first" % n, header(n, 13) + bytes(n) + begun, "bad\n"
    yield "gateway cut", begun + header(len(fresh), 13) + fresh[:-1], ok + "bad\n"
    yield "gateway of zeros", begun + record(("gateway", empty_node)) + record(why(0, NAME)), ok + "2 gateway refused 42\n3 why missing\n"
    yield "gateway of zeros first", record(("gateway", empty_node)) + record(why(0, NAME)), "1 gateway refused 42\nbad\n"
    yield "gateway of zeros, and one more", record(("gateway", empty_node + b"\x00")) + begun, "1 gateway refused 41\n2 set ok\n"
    yield "the longest content of a gateway", begun + record(("gateway", bytes(MAX_GATEWAY))), ok + "2 gateway refused 41\n"
    yield "a fresh gateway first", record(("gateway", fresh)) + records([why(0, NAME), admit(5, x), why(0, NAME), why(1, NAME), beat(4)]), \
        "1 gateway ok\n2 why missing\n3 admit new\n4 why window 0\n5 why listed\n6 beat refused 31\n"
    held = gateway_bytes(Play(("set", 10, 4, 2, 4), admit(5, x), beat(6)).run)
    yield "a gateway with a message", record(("gateway", held)) + records([
        why(1, NAME), why(2, NAME), why(2, NAME, b"u"), ("gateway", held[:-1]), why(1, NAME), ("gateway", held[:40] + b"\x11" + held[41:]), why(1, NAME),
        ("gateway", fresh), why(1, NAME)]), \
        "1 gateway ok\n2 why window 1\n3 why listed\n4 why topic\n5 gateway refused 41\n6 why window 1\n7 gateway refused 42\n8 why window 1\n" \
        "9 gateway ok\n10 why missing\n"
