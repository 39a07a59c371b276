"""Histories of both caches for the program `caches`, and the lines that the Rust's answers make.

A step is a call, its numbers and then its bytes: ("seen", rows), ("insert", now,
ttl, max, id), ("clean", now), ("next",), ("contains", id), ("cache", history_len,
max_messages, next arrival number), ("flagged", history_len, max_messages, next arrival
number, flags), whose line says `cache`, ("put", index, body), ("put_in", edition, index,
body), whose line says `put`, ("shift",), ("gossip", windows, topic), ("get", id). A history is a list of steps that starts its parts
itself, so histories can stand one after the other in one input.

`expected` takes an input as bytes. What the caches hold, and what a body says or
why it is refused (1 to 7), is the Rust's answer; where in the body, places.py has
found; in edition 1.2 and where groups are skipped, which the Rust does not have, both are groups.py's. A message that has groups is
put into the Rust's cache without them, and told with them. The limits that the Rust does not
have (10, 11, 20 to 30, 33, 40) are the scope's and stand here, as does the form
of the records; what a sender and its key must be (34 to 36) stands in peers.py.
Everything random comes from one seeded `random.Random`.
"""

import groups
import nodes
import peers
from bodies import BROKEN, MAX_RECORDS, PARTS, RPC, chain, declining_body, group, grouped_body, many, other_field, random_message, refusal, some_chain, some_group, tagged, within
from oracle import hexed, parse_decode
from peers import A, B, ECDSA, F, HASHES, KEYLESS, KEYS, LONGEST, NO_KEYS, NO_PEERS, RSA, SENDERS, identity, key_bytes, mismatch, peer_of
from places import EDITION_ROWS, EDITIONS, GROUP_ROWS, GROUPS, MORE_GROUP_ROWS, MORE_ROWS, OF_GROUPS, ROWS, V1_1, V1_2, find, skips_groups, with_place
from records import Records
from wire import MAX_BODY, MAX_CONTENT, TOP, blob, damaged, edge_field, header, then_random, varint

# Of each call: its kind, how many bytes its numbers have, and whether bytes follow them.
FORM = {"seen": (1, (2,), False), "insert": (2, (8, 8, 2), True), "clean": (3, (8,), False), "next": (4, (), False),
        "contains": (5, (), True), "cache": (6, (2, 2, 8), False), "put": (7, (2,), True), "shift": (8, (), False),
        "gossip": (9, (2,), True), "get": (10, (), True), "flagged": (16, (2, 2, 8, 2), False), "put_in": (17, (1, 2), True)}
# The call that a line names, where it is not the step's own.
CALLED = {"flagged": "cache", "put_in": "put"}
RECORDS = Records(FORM, MAX_CONTENT)
record, records = RECORDS.record, RECORDS.records
MAX_ROWS = 256
MAX_SEEN_ID = 129
MAX_HISTORY = 16
MAX_MESSAGES = 64
MAX_PART = 64  # of from, and of seqno
SIGNATURE = 64
MAX_TOPICS = 4
MAX_TOPIC = 1024
MAX_MESSAGE = 4096
MAX_FLAGS = nodes.MAX_FLAGS

# Every refusal that the program can show.
REFUSALS = {"insert": {33, 40}, "contains": {33}, "cache": {40}, "gossip": {29},
            "put": {1, 2, 3, 4, 5, 6, 7, *OF_GROUPS, 10, 11, 20, 21, 22, 23, 24, 25, 26, 28, 29, 30, 34, 35, 36}}


# --- records -------------------------------------------------------------------

def flags_of(step):
    return step[4] if step[0] == "flagged" else 0


def legal(step):
    return 1 <= step[1] <= MAX_HISTORY and step[2] <= MAX_MESSAGES and flags_of(step) <= MAX_FLAGS


def steps_of(data):
    """The steps of an input, and the line that ends it: "", "bad" or "long"."""
    steps, begun = [], set()
    for step in RECORDS.steps(data):
        if isinstance(step, str):
            return steps, step
        if (step[0] == "seen" and step[1] > MAX_ROWS) or (step[0] == "put_in" and step[1] not in EDITIONS):
            return steps, "bad"
        begins = CALLED.get(step[0], step[0])
        if begins == "seen" or (begins == "cache" and legal(step)):
            begun.add(begins)
        if begins != "cache" and ("seen" if FORM[step[0]][0] <= 5 else "cache") not in begun:
            return steps, "bad"
        steps.append(step)
    return steps, ""


# --- the lines, from the Rust's answers ------------------------------------------

def unfit(message, flags=0):
    """Why the Rust's message may not be put: the scope's 21 to 30 without 27, and 34 to 36, or None. Where unsigned messages are allowed, one that has neither
    signature nor key may."""
    sender, key = (None if message[name] is None else bytes.fromhex(message[name]) for name in ("from", "key"))
    size = {name: None if message[name] is None else len(message[name]) // 2 for name in ("raw", "from", "seqno", "signature")}
    topics = [len(topic) // 2 for topic in message["topic_ids"]]
    if size["from"] is None:
        return "refused 21"
    if not 1 <= size["from"] <= MAX_PART:
        return "refused 22 %d" % size["from"]
    if peer_of(sender) is None:
        return "refused 34"
    if size["seqno"] is None or not 1 <= size["seqno"] <= MAX_PART:
        return "refused 23"
    if size["signature"] is None and key is not None:
        return "refused 24"
    if size["signature"] is None and not nodes.allows_unsigned(flags):
        return "refused 25"
    if size["signature"] not in (None, SIGNATURE):
        return "refused 26 %d" % size["signature"]
    if unlike := size["signature"] is not None and mismatch(sender, key):
        return "refused %d" % unlike
    if not 1 <= len(topics) <= MAX_TOPICS:
        return "refused 28 %d" % len(topics)
    for n in topics:
        if n > MAX_TOPIC:
            return "refused 29 %d" % n
    return "refused 30 %d" % size["raw"] if size["raw"] > MAX_MESSAGE else None


def put_of(step):
    """(edition, index, body) of a put; None of another step."""
    return {"put": (V1_1, *step[1:]), "put_in": step[1:]}.get(step[0])


class Put:
    """What is made of a put, all texts: why it is refused, or None; the message's id and its bytes; and the body, the index and the bytes by which the Rust's cache
    knows it."""

    def __init__(self, refused, message=None, body=None, index=0, known=None):
        self.refused = refused
        if not refused:
            self.id, self.raw, self.body, self.index, self.known = message["from"] + message["seqno"], message["raw"], body, index, known or message["raw"]


def as_the_rust_has_it(message):
    """A message of groups.py in the form of the Rust's answer."""
    def shown(value):
        return None if value is None else value.hex()
    return {"raw": message.raw.hex(), "topic_ids": [topic.hex() for topic in message.each("topic")],
            **{name: shown(message.last(name)) for name in ("from", "data", "seqno", "signature", "key")}}


def without_groups(message):
    """The known fields of a message alone."""
    return b"".join(tagged({"from": 1, "data": 2, "seqno": 3, "topic": 4, "signature": 5, "key": 6}[name], value) for name, value in message.fields)


def judged(edition, index, body, told, flags):
    """What is made of a put, from the oracle's answer to `decode`. What 1.2 accepts the Rust does, too, and a message is the same in both editions; where groups are
    skipped, the Rust is not asked what a body says."""
    dialect = edition | flags & GROUPS
    try:
        rpc = None if dialect == V1_1 else groups.read(body, dialect)
        refused = None if rpc else with_place(refusal(body, told), find, body)
    except groups.Refused as why:
        refused = str(why)
    if refused:
        return Put(refused)
    read = rpc.each("publish") if skips_groups(dialect) else []
    messages = list(map(as_the_rust_has_it, read)) if skips_groups(dialect) else parse_decode(told)[3]["publish"]
    if index >= len(messages):
        return Put("refused 20 %d" % len(messages))
    if refused := unfit(messages[index], flags):
        return Put(refused)
    if not skips_groups(dialect):
        return Put(None, messages[index], body, index)
    bare = without_groups(read[index])
    return Put(None, messages[index], tagged(2, bare), 0, bare.hex())


def without_rust(step, rows, put):
    """The answer to a step that the Rust is not asked, or None. `put` is what `judged` made of its body."""
    call = step[0]
    if (call == "insert" and step[3] > rows) or (call in ("cache", "flagged") and not legal(step)):
        return "refused 40"
    if call in ("insert", "contains") and len(step[-1]) > MAX_SEEN_ID:
        return "refused 33 %d" % len(step[-1])
    if call == "gossip" and len(step[2]) > MAX_TOPIC:
        return "refused 29 %d" % len(step[2])
    return put.refused if put else None


def commands(step, put):
    """What the oracle is asked for a step."""
    call = step[0]
    if call in ("cache", "flagged"):
        # From 0 on the unchanged file answers, else the copy whose arrival number can be set.
        return ["mc_new %d %d" % step[1:3] + (" %d" % step[3] if step[3] else "")]
    if put:
        return ["mc_get " + put.id, "mc_put %s %d" % (hexed(put.body), put.index)]
    if call == "clean":
        return ["seen_gc %d" % step[1], "seen_dump"]
    if call == "insert":
        return ["seen_insert %s %d %d %d" % (hexed(step[4]), *step[1:4])]
    if call == "gossip":
        return ["mc_gossip %s %d" % (hexed(step[2]), step[1])]
    if call in ("contains", "get"):
        return [{"contains": "seen_contains ", "get": "mc_get "}[call] + hexed(step[1])]
    return [{"seen": "seen_new", "next": "seen_next_expiry", "shift": "mc_shift"}[call]]


def answer(step, told, put, kept):
    """What the oracle told of a step, as the program says it. `kept` has the last put that was stored under each id."""
    call, words = step[0], told[0].split(" ")
    if call in ("seen", "cache", "flagged", "shift", "insert", "contains"):
        assert told[0] in {"insert": ("fresh", "held"), "contains": ("yes", "no")}.get(call, ("ok",)), told
        return told[0]
    if call == "clean":
        assert told[0] == "ok" and told[1].startswith("ok "), told
        return told[1].split(" ")[1]
    if call == "next":
        assert words[0] == "some" or told == ["none"], told
        return words[-1]
    if put:
        assert told[1] == "ok " + put.id, told
        if words[0] == "some":
            return "held"
        assert told[0] == "none", told
        kept[put.id] = put
        return "stored"
    if call == "gossip":
        if told == ["bad topic utf8"]:
            return "0"
        assert words[0] == "ok" and int(words[1]) == len(words) - 2, told
        return " ".join(words[1:2] + ["=" + name for name in words[2:]])
    if told == ["none"]:
        return "-"
    put = kept[step[1].hex()]
    assert words == ["some", put.known], told
    return "=" + put.raw


def expected(oracle, data):
    """The lines for an input."""
    steps, end = steps_of(data)
    given = list({step[-1] for step in steps if put_of(step)})
    decoded = dict(zip(given, oracle.batch("decode " + hexed(body) for body in given)))
    rows, flags, asked = 0, 0, []
    for step in steps:
        put = judged(*put_of(step), decoded[step[-1]], flags) if put_of(step) else None
        rows = step[1] if step[0] == "seen" else rows
        flags = flags_of(step) if step[0] in ("cache", "flagged") and legal(step) else flags
        known = without_rust(step, rows, put)
        asked.append((step, put, known, [] if known else commands(step, put)))
    answers = iter(oracle.batch(command for *_, each in asked for command in each))
    lines, kept = [], {}
    for n, (step, put, known, each) in enumerate(asked, 1):
        told = [next(answers) for _ in each]
        lines.append("%d %s %s" % (n, CALLED.get(step[0], step[0]), known or answer(step, told, put, kept)))
    return lines + [end] if end else lines


# --- what seen histories are made of ----------------------------------------------

STARTS = [0, 0, 1, 100, 100, 1000, 2**32 - 5, 2**63 - 5, TOP - 40, TOP - 3, TOP]
TTLS = [0, 0, 1, 1, 2, 5, 5, 10, 10, 100, 2**32, 2**63, TOP - 100, TOP - 1, TOP]
LONG_IDS = [130, 130, 131, 255, 256, 257, 384, 385, 1000]


def clipped(n):
    return max(0, min(TOP, n))


def clock(r):
    """Readings that go up, stand still, step back and now and then leap."""
    now = r.choice(STARTS)
    while True:
        yield now
        how = r.randrange(20)
        if how < 9:
            now = clipped(now + r.choice((1, 1, 2, 3, 5, 10, 100)))
        elif how < 12:
            now = clipped(now - r.choice((1, 1, 2, 5, 10, 100)))
        elif how == 12 and r.randrange(3) == 0:
            now = r.choice(STARTS + [TOP - 1, r.getrandbits(64)])


def seen_ids(r):
    """Ids easily taken for one another: prefixes, ids a byte apart, ids with zeros after them, about the longest."""
    base = blob(r, MAX_SEEN_ID + 1)
    pool = [base[:n] for n in r.sample((0, 1, 2, 3, 4, 8, 64, 127, 128, 129), r.randrange(1, 5))]
    for _ in range(r.randrange(1, 5)):
        one = r.choice(pool)
        pool.append(r.choice((
            lambda: (one + b"\x00")[-MAX_SEEN_ID:],
            lambda: one[:-1] + blob(r, 1),
            lambda: blob(r, 1) + one[1:],
            lambda: blob(r, r.choice((1, 1, 2, 3))),
            lambda: base[:r.randrange(MAX_SEEN_ID + 1)]))())
    return base, pool


def seen_probes(r, pool, now):
    """Steps that look: each id, the front, and what cleaning up leaves."""
    steps = [("next",)] + [("contains", one) for one in r.sample(pool, min(len(pool), 5))]
    return steps + [("clean", now), ("next",)]


def seen_history(r):
    rows = r.choice((0, 1, 1, 2, 2, 2, 3, 3, 4, 5, 8, 16, 255, 256))
    base, pool = seen_ids(r)
    readings, ttl, most, ends = clock(r), r.choice(TTLS), r.choice((rows, r.randrange(rows + 1))), [0]
    steps, now = [("seen", rows)], 0
    for _ in range(r.randrange(6, 45)):
        now = next(readings)
        how = r.randrange(40)
        if how < 22:
            if how == 0:
                ttl = r.choice(TTLS)
            limit = r.choice((0, 1, rows // 2, max(0, most - 1), rows, rows + 1, rows + 256, 65535)) if r.randrange(6) == 0 else most
            one = base + blob(r, r.choice(LONG_IDS) - len(base)) if r.randrange(30) == 0 else r.choice(pool)
            steps.append(("insert", now, ttl, min(65535, limit), one))
            ends.append(clipped(now + ttl))
        elif how < 28:
            steps.append(("clean", r.choice((now, clipped(r.choice(ends) + r.choice((-1, 0, 0, 1)))))))
        elif how < 33:
            steps.append(("next",))
        elif how < 39:
            steps.append(("contains", base + blob(r, r.choice(LONG_IDS) - len(base)) if r.randrange(12) == 0 else r.choice(pool)))
        elif r.randrange(4) == 0:
            rows = r.choice((0, 1, 2, 3, rows))
            steps.append(("seen", rows))
            most = min(most, rows)
    return steps + seen_probes(r, pool, now)


def full_seen(r):
    """As many ids as a large store has, and more."""
    rows = r.choice((63, 64, 127, 128, 255, 256, 256))
    most = r.choice((rows, rows, rows - 1))
    pool = [r.choice((b"", b"i", b"id")) + n.to_bytes(2, "big") for n in range(rows + 20)]
    readings, ttl = clock(r), r.choice(TTLS)
    steps = [("seen", rows)]
    for one in pool[:r.randrange(rows - 2, len(pool))]:
        now = next(readings)
        steps.append(("insert", now, ttl, most, one))
        if r.randrange(40) == 0:
            steps += [("clean", clipped(now - 3)), ("next",), ("contains", r.choice(pool))]
    return steps + [("insert", now, ttl, rows // 2, b"last")] + seen_probes(r, pool, now)


# --- what cache histories are made of -----------------------------------------------

TOPICS = [b"t", b"to", b"top", b"topic", b"topics", b"u", b"", b"\x00", b"t\x00", "\u20ac".encode(), "\U0010ffff".encode()]
LONGEST_TOPICS = [b"t" * 1023, b"t" * 1024, "\u00e9".encode() * 512]
LONG_TOPICS = [b"t" * 1025, "\u00e9".encode() * 513, b"t" * 1280, b"t" * 2048, b"t" * 1024 + b"\xff"]
ARRIVALS = [0, 0, 0, 1, 7, 255, 2**32 - 1, 2**63, TOP - 20, TOP - 5, TOP - 2, TOP - 2, TOP - 1, TOP - 1, TOP, TOP]
WINDOWS = [0, 1, 1, 2, 2, 3, 4, 5, 15, 16, 17, 255, 256, 65535]
BAD_SETTINGS = [(0, 4), (17, 4), (18, 0), (255, 1), (256, 4), (257, 64), (65535, 1), (1, 65), (16, 65), (2, 66), (2, 255), (2, 256),
                (3, 257), (4, 65535), (0, 0), (0, 65), (17, 65)]


def some_sender(r):
    """A sender that may be taken, with a key beside it where its own is not in it."""
    how = r.randrange(12)
    if how < 5:
        return A
    if how == 5:
        return identity(key_bytes(1, blob(r, 32)))
    if how == 6:
        return identity(key_bytes(r.randrange(4), blob(r, r.choice((0, 1, 2, 33, 37, 38)))))
    return r.choice(r.choice((SENDERS, SENDERS, HASHES, [B, F])))


def names(r):
    """Pairs of from and seqno: of few senders, with ids that are prefixes of one another. No id is that of two senders: no peer id is a prefix of another."""
    base = r.choice((b"abcdef", bytes(6), blob(r, 6))) + blob(r, MAX_PART - 6)
    senders = [some_sender(r) for _ in range(r.choice((1, 1, 2, 3)))]
    pool = [(some_sender(r), blob(r, r.choice((1, 1, 8)))) for _ in range(r.randrange(3))]
    for size in r.choices((1, 1, 2, 2, 3, 4, 5), k=r.randrange(2, 6)) + ([] if r.randrange(8) else [20, 63, 64]):
        pool.append((r.choice(senders), base[:size]))
    return pool + [(who, base[:1]) for who in senders[:r.choice((0, 1, 3))]]


def without(parts, *fields):
    return [part for part in parts if part[0] not in fields]


def grown(parts, size):
    """With data, so that the message has so many bytes."""
    parts = without(parts, 2)
    return parts + [(2, bytes(max(0, size - len(plain(parts)) - 3)))]


# Bodies of the scope that are refused, 1 to 7.
REFUSED = ["80", "08" + "80" * 9 + "02", "8000", "0a0508", "0b", "00", "8080808010", "0a031201ff"]

# What makes a message unfit, by the refusal: other fields, each (number, content), for those that it has.
FAULTS = {
    21: lambda r, parts: without(parts, 1),
    22: lambda r, parts: without(parts, 1) + [(1, bytes(r.choice((0, 0, 65, 65, 66, 256, 257, 320))))],
    23: lambda r, parts: without(parts, 3) + [(3, bytes(n)) for n in [r.choice((None, 0, 65, 66, 256, 257, 320))] if n is not None],
    34: lambda r, parts: without(parts, 1) + [(1, r.choice((r.choice(NO_PEERS), blob(r, r.choice((1, 2, 34, 38, 45, 64))))))],
    24: lambda r, parts: without(parts, 5, 6) + [(6, r.choice((blob(r, r.choice((0, 1, 36))), r.choice(KEYS))))],
    25: lambda r, parts: without(parts, 5, 6),
    26: lambda r, parts: without(parts, 5) + [(5, bytes(r.choice((0, 1, 63, 65, 128, 256, 320))))],
    35: lambda r, parts: without(parts, 6) + [(6, r.choice((r.choice(NO_KEYS), damaged(r, r.choice(KEYS)), blob(r, r.choice((1, 4, 36))))))],
    36: lambda r, parts: unmatched(r, parts),
    28: lambda r, parts: without(parts, 4) + [(4, r.choice(TOPICS))] * r.choice((0, 0, 5, 5, 6, 9, 256, 257, 260)),
    29: lambda r, parts: without(parts, 4) + [(4, r.choice(TOPICS + LONGEST_TOPICS + LONG_TOPICS[:4])) for _ in range(r.randrange(3))]
        + [(4, r.choice(LONG_TOPICS[:4]))],
    30: lambda r, parts: grown(parts, r.choice((4097, 4097, 4098, 5000, 8192))),
}


def unmatched(r, parts):
    """Another key, or none to be had: a sender whose digest is none, with a key or without; one that is hashed, without."""
    how = r.randrange(4)
    if how == 0:
        return without(parts, 6) + [(6, r.choice((*KEYS, key_bytes(r.randrange(4), blob(r, 32)))))]
    return without(parts, 1, 6) + [(1, r.choice(HASHES if how == 1 else KEYLESS))] + ([(6, r.choice(KEYS))] if how == 2 else [])


def some_key(r, sender):
    """The keys that a message of this sender has: one where it is hashed; else sometimes its own."""
    how, digest = peer_of(sender)
    return [r.choice(KEYS)] if how == "sha256" else [digest] if r.randrange(4) == 0 else []


def fields_of(r, who, topics):
    """The fields of a message that may be put, as (number, content)."""
    parts = [(1, who[0]), (3, who[1]), (5, blob(r, 1) * SIGNATURE)]
    parts += [(4, r.choice(topics)) for _ in range(r.choice((1, 1, 1, 2, 2, 3, 4)))]
    if r.randrange(3):
        parts.append((2, blob(r, r.randrange(6))))
    return parts + [(6, key) for key in some_key(r, who[0])]


def plain(parts):
    return b"".join(tagged(*part) for part in parts)


def message(r, parts):
    """The bytes of a message, its fields in any order, some with fields that are skipped or with a field twice."""
    out = [tagged(*part) for part in parts]
    r.shuffle(out)
    if r.randrange(6) == 0:
        out.insert(r.randrange(len(out) + 1), other_field(r, PARTS["message"]))
    if r.randrange(20) == 0:
        out.insert(r.choice((0, 0, len(out))), tagged(r.choice((1, 2, 3, 5, 6)), blob(r, r.choice((0, 1, 2, 64, 65)))))
    return b"".join(out)


def topic_message(r, who):
    """A message with none to five topics, among them empty and repeated ones, beside fields 4 of other types and fields that hold one; some as long as
    a message may be, some with an empty topic at the end."""
    pool = r.sample(TOPICS, 2) + [b"", b"t"] + ([] if r.randrange(8) else LONGEST_TOPICS[1:2])
    out = [tagged(1, who[0]), tagged(3, who[1]), tagged(5, blob(r, 1) * SIGNATURE)] + [tagged(6, key) for key in some_key(r, who[0])]
    topics = [tagged(4, r.choice(pool)) for _ in range(r.choice((0, 1, 1, 2, 2, 3, 3, 4, 4, 4, 5)))]
    out = r.sample(out + topics, len(out) + len(topics)) if r.randrange(2) else out[:2] + topics + out[2:]
    for _ in range(r.choice((0, 0, 1, 1, 2))):
        out.insert(r.randrange(len(out) + 1), r.choice((
            b"\x20\x05", b"\x20\xff\x01", b"\x25\x22\x01t\x00", b"\x21\x22\x01t\x22\x01t\x22\x00", tagged(2, tagged(4, b"t")), tagged(2, tagged(4, b"")),
            tagged(21, tagged(4, b"t")), tagged(21, tagged(4, b"t") * 3 + tagged(4, b"")), tagged(15, b""))))
    size = MAX_MESSAGE - sum(map(len, out)) - 4
    if r.randrange(12) == 0 and size > 127:
        out.insert(r.randrange(len(out) + 1), tagged(15, bytes(size + 1 - r.choice((0, 0, 0, 1)))))
    return b"".join(out + ([tagged(4, b"")] if r.randrange(6) == 0 else []))


def padded(body, size):
    """A field more that is skipped, so that the body has so many bytes."""
    n = size - len(body) - 4
    return body + varint(15 * 8 + 2) + varint(n) + bytes(n)


def around(r):
    """Something that is no message."""
    return within(r, {1: "sub", 3: "control"}, False)


def cut(data, dialect=V1_1):
    """The fields of a body or of a message, as (number, wire type, its bytes), and last what cannot be read, as (0, 0, bytes)."""
    at = 0
    try:
        for field, wire, place, content in nodes.fields(data, dialect):
            end = place + len(content) if wire in (1, 3, 5) else nodes.number_at(data, place)[1] + (len(content) if wire == 2 else 0)
            yield field, wire, data[at:end]
            at = end
    except nodes.Refused:
        pass
    yield 0, 0, data[at:]


def bare(raw, *fields):
    """A message without its fields of these numbers: its signature and its key."""
    return b"".join(piece for field, wire, piece in cut(raw) if (field, wire) not in [(one, 2) for one in fields or (5, 6)])


def loose(body):
    """A body whose messages have neither signature nor key."""
    return b"".join(tagged(2, bare(next(nodes.fields(piece))[3])) if (field, wire) == (2, 2) else piece for field, wire, piece in cut(body))


def loosened(r, body):
    """A body whose messages mostly have no signature: and no key either, or one that was left; or a signature of no bytes. Some have a sender that needs a
    key, or has none."""
    out = b""
    for field, wire, piece in cut(body):
        how = r.randrange(12)
        if (field, wire) == (2, 2) and how < 9:
            raw = next(nodes.fields(piece))[3]
            raw = bare(raw, 1) + tagged(1, r.choice(KEYLESS + HASHES)) if r.randrange(10) == 0 else raw
            piece = tagged(2, bare(raw) if how < 7 else bare(raw, 5) if how == 7 else bare(raw, 5) + tagged(5, b""))
        out += piece
    return out


def with_groups(r, body):
    """A body with groups between its fields, and between those of its messages; now and then one that is spoilt, or as deep as may be."""
    def among(pieces):
        for piece in pieces:
            for _ in range(r.choice((0, 0, 1, 1, 2))):
                yield some_chain(r) if r.randrange(30) == 0 else some_group(r, r.choice((0, 1, 2)), r.randrange(40) == 0, PARTS)
            yield piece
    out = []
    for field, wire, piece in cut(body):
        if (field, wire) == (2, 2):
            piece = tagged(2, b"".join(among(inner for *_, inner in cut(next(nodes.fields(piece))[3]))))
        out.append(piece)
    return b"".join(among(out))


def some_put(r, who, topics):
    """A put: mostly a message that may be put, alone or among others; or one with faults, or another body."""
    parts = fields_of(r, who, topics)
    for fault in r.sample(list(FAULTS), r.choice((1, 1, 2, 3))) if r.randrange(6) == 0 else ():
        parts = FAULTS[fault](r, parts)
    longest = r.randrange(60) == 0
    one, index = plain(grown(parts, r.choice((4095, 4096, 4096)))) if longest else message(r, parts), 0
    body = tagged(2, one)
    how = r.randrange(40)
    if how < 6:
        others = [r.choice((lambda: random_message(r), lambda: tagged(2, message(r, fields_of(r, who, topics)))))()
                  for _ in range(r.randrange(1, 4))]
        index = r.randrange(len(others) + 1)
        others.insert(index, body)
        body = b"".join(other + (around(r) if r.randrange(4) == 0 else b"") for other in others)
        if r.randrange(8) == 0:
            index = r.choice((len(others), len(others) + 1, 255, 256 + index, 65535))
    elif how == 6:
        body = around(r) + body
        index = r.choice((0, 0, 0, 1, 256))
    elif how == 7:
        body = damaged(r, body)
    elif how == 8:
        body = r.choice((
            lambda: within(r, RPC, True),
            lambda: tagged(2, one + edge_field(r)),
            lambda: body + tagged(2, edge_field(r)),
            lambda: body + bytes.fromhex(r.choice(REFUSED))))()
    elif how == 9 and r.randrange(6) == 0:
        body += many(r, MAX_RECORDS - 1 - sum(field == 4 for field, _ in parts) + r.choice((-1, 0, 0, 1, 1, 2, 300)))
    elif how == 10 and r.randrange(60) == 0:
        body = padded(body, r.choice((MAX_BODY - 1, MAX_BODY, MAX_BODY + 1, MAX_CONTENT - 2)))
    return ("put", index, body)


def some_gossip(r, topics):
    how = r.randrange(16)
    if how == 0:
        return ("gossip", r.choice(WINDOWS), r.choice(LONG_TOPICS))
    if how == 1:
        return ("gossip", r.choice(WINDOWS), r.choice((b"", b"t")) + r.choice(BROKEN))
    if how == 2:
        return ("gossip", r.choice(WINDOWS), r.choice(TOPICS + LONGEST_TOPICS))
    return ("gossip", r.choice(WINDOWS), r.choice(topics))


def some_get(r, pool):
    who = r.choice(pool)
    name = who[0] + who[1]
    if r.randrange(6) == 0:
        name = r.choice((b"", name[:-1], name + b"\x00", name + blob(r, 1), name + bytes(129), bytes(1000)))
    return ("get", name)


def cache_probes(r, pool, topics):
    """Steps that look: the ids, and the topics in all windows and in few."""
    ids = sorted({who[0] + who[1] for who in pool})
    steps = [("get", name) for name in r.sample(ids, min(len(ids), 4))]
    steps += [("gossip", 65535, topic) for topic in topics[:3]]
    return steps + [("gossip", r.choice((1, 2, 3)), topics[0])]


def some_settings(r, bad=False):
    history = r.choice((1, 1, 2, 2, 3, 3, 4, 5, 8, 15, 16))
    most = r.choice((0, 1, 1, 2, 2, 3, 3, 4, 5, 8, 63, 64))
    if bad:
        history, most = r.choice(BAD_SETTINGS)
    return ("cache", history, most, r.choice(ARRIVALS))


def cache_history(r):
    pool, topics = names(r), r.sample(TOPICS, r.randrange(1, 5)) + ([] if r.randrange(30) else r.sample(LONGEST_TOPICS, 1))
    steps = [some_settings(r, True)] if r.randrange(10) == 0 else []
    steps.append(some_settings(r))
    puts = []
    for _ in range(r.randrange(6, 40)):
        how = r.randrange(60)
        if how < 28:
            steps.append(r.choice(puts) if puts and r.randrange(6) == 0 else some_put(r, r.choice(pool), topics))
            puts.append(steps[-1])
        elif how < 37:
            steps += [("shift",)] * r.choice((1, 1, 1, 1, 1, 2, 3, min(16, steps[0][1]), 17 if how == 36 else 1))
        elif how < 48:
            steps.append(some_gossip(r, topics))
        elif how < 58:
            steps.append(some_get(r, pool))
        else:
            steps.append(some_settings(r, how == 58 or r.randrange(3) > 0))
    return steps + cache_probes(r, pool, topics)


def flagged_history(r):
    """A history of the message cache with flags among its settings, in which many messages have no signature. Unknown flags change nothing."""
    steps = []
    for step in cache_history(r):
        if step[0] == "cache":
            steps.append(("flagged", *step[1:], r.choice((0, 1, 1, 1))))
            steps += [("flagged", *step[1:], r.choice((4, 5, 256, 257, 65535)))] if r.randrange(4) == 0 else []
        else:
            steps.append((*step[:2], loosened(r, step[2])) if step[0] == "put" and r.randrange(4) else step)
    return steps


def full_cache(r):
    """As many messages as a large cache takes, and more, over many windows."""
    history, most = r.choice((1, 4, 15, 16, 16)), r.choice((31, 32, 63, 64, 64))
    topics = r.sample(TOPICS, 2)
    pool = [(r.choice((F, F, A, B)), n.to_bytes(r.choice((1, 2)), "big")) for n in range(most + 20)]
    steps = [("cache", history, most, r.choice(ARRIVALS + [TOP - 60]))]
    for who in pool[:r.randrange(most - 2, len(pool))]:
        steps.append(("put", 0, tagged(2, message(r, fields_of(r, who, topics)))))
        if r.randrange(r.choice((5, 20))) == 0:
            steps.append(("shift",))
        if r.randrange(20) == 0:
            steps += [some_get(r, pool), some_gossip(r, topics)]
    steps += cache_probes(r, pool, topics)
    return steps + [("shift",)] * r.randrange(18) + cache_probes(r, pool, topics)


# --- histories and inputs -------------------------------------------------------------

def merged(r, one, two):
    """The steps of both, each in its order: the parts leave each other alone."""
    one, two, steps = list(one), list(two), []
    while one or two:
        steps.append((one if r.randrange(len(one) + len(two)) < len(one) else two).pop(0))
    return steps


def history(r):
    how = r.randrange(300)
    if how == 0:
        return full_seen(r)
    if how == 1:
        return full_cache(r)
    if how < 90:
        return seen_history(r)
    return cache_history(r) if how < 200 else merged(r, seen_history(r), cache_history(r))


def editioned(r, step):
    """A put in some edition, often with the field that 1.2 adds in its body; other steps as they are."""
    if step[0] != "put" or len(step[2]) > MAX_BODY - 200 or r.randrange(3) == 0:
        return step
    how, body = r.randrange(6), step[2]
    if how < 2:
        body = body + declining_body(r) if how else declining_body(r) + body
    elif how == 2:
        body += bytes.fromhex(r.choice(EDITION_ROWS)[0])
    elif how == 3:
        body += tagged(3, tagged(5, b"\x0a\x00" * r.choice((1, 2, 500, 509, 510, 511))))
    return ("put_in", r.choice(EDITIONS), step[1], body)


def grouped_history(r):
    """A history of the message cache whose settings mostly skip groups, and whose bodies mostly have some; many messages have no signature."""
    steps = []
    for step in flagged_history(r) if r.randrange(2) else cache_history(r):
        if step[0] in ("cache", "flagged"):
            step = ("flagged", *step[1:4], flags_of(step) | GROUPS * (r.randrange(6) > 0))
        elif step[0] == "put" and len(step[2]) < MAX_BODY - 2000 and r.randrange(5):
            step = (*step[:2], with_groups(r, step[2]) if r.randrange(12) else r.choice((step[2] + grouped_body(r), bytes.fromhex(r.choice(GROUP_ROWS + MORE_GROUP_ROWS)[0]) + step[2])))
            step = step if len(step[2]) < MAX_CONTENT - 3 else ("shift",)
        steps.append(step)
    return steps


def some_history(r):
    how = r.randrange(8)
    steps = flagged_history(r) if how < 2 else grouped_history(r) if how < 4 else history(r)
    return [editioned(r, step) for step in steps] if r.randrange(4) == 0 else steps


def spoiling(r):
    """Bytes that end a run: a record of no kind, too short, too long, with too many rows, or above the longest content."""
    how = r.randrange(5)
    if how == 0:
        n = r.choice((0, 1, 2, 8, 12, 18, 30))
        return header(n, r.choice((0, 11, 12, 255, 256, 257, 258, 0x0100 + r.randrange(11), 0x0A00, 65535))) + blob(r, n)
    if how == 1:
        kind, sizes, _ = r.choice([form for form in FORM.values() if form[1]])
        n = r.randrange(sum(sizes))
        return header(n, kind) + bytes(n)
    if how == 2:
        kind, sizes, _ = r.choice([form for form in FORM.values() if not form[2]])
        n = sum(sizes) + r.choice((1, 1, 2, 8, 256))
        return header(n, kind) + bytes([1, 0] * (n // 2) + [0] * (n % 2))
    if how == 3:
        return record(("seen", r.choice((257, 258, 512, 513, 65535))))
    return header(MAX_CONTENT + r.choice((1, 1, 2, 65536, 2**31, 2**32 - 1 - MAX_CONTENT)), r.randrange(13))[:r.choice((4, 5, 6, 6))]


def ending(r):
    """An input of a few steps that mostly ends early."""
    steps = some_history(r)[:r.choice((1, 2, 4, 8, 16))]
    if r.randrange(3) == 0:
        steps += some_history(r)[:6]
    how = r.randrange(7)
    if how == 0:  # a part without its start, or with a refused one
        begins = r.choice(("seen", "cache"))
        steps = [step for step in steps if CALLED.get(step[0], step[0]) != begins or (begins == "cache" and not legal(step))]
        return records(steps + [("next",), ("shift",)])
    if how == 1:  # a call of the part that may not have been started
        return records(steps + r.choice(([("contains", b"a")], [("get", b"a")], [("insert", 1, 1, 0, b"")], [("put", 0, b"")])))
    if how == 2:  # cut
        data = records(steps)
        return data[:r.choice((r.randrange(len(data)), max(0, len(data) - 1)))]
    if how == 3:
        return damaged(r, records(steps))
    at = r.randrange(len(steps) + 1)
    return records(steps[:at]) + spoiling(r) + records(steps[at:])


# --- fixed histories --------------------------------------------------------------------

# The message of the scope's trace, and its id.
X = [(1, A), (3, b"\x01"), (4, b"t"), (5, bytes(SIGNATURE))]
NAME = A + b"\x01"
# The same without its signature.
U = without(X, 5)

# U with fields that have the numbers of a signature and of a key, and other types: it has neither.
OTHER_TYPES = [plain(U) + bytes.fromhex(text) for text in ("2801", "3001", "2d00000000", "310000000000000000")]


def put_step(parts, index=0):
    return ("put", index, tagged(2, plain(parts)))


def x_with(**other):
    """X with other contents of a field, none or several: x_with(from_=[B])."""
    fields = {"from_": 1, "data": 2, "seqno": 3, "topic": 4, "signature": 5, "key": 6}
    other = {fields[name]: contents for name, contents in other.items()}
    return sorted([part for part in X if part[0] not in other] + [(field, one) for field in other for one in other[field]],
                  key=lambda part: part[0])


def x_named(who, seqno, *topics):
    return put_step(x_with(from_=[who], seqno=[seqno], topic=topics or [b"t"]))


# Messages with the id of X, and where the topics of each stand in it: (start, length), counted from its own start.
TOPIC_MESSAGES = [
    (plain(X), [(45, 1)]),
    (bytes.fromhex("22002200") + plain(X), [(2, 0), (4, 0), (49, 1)]),
    (bytes.fromhex("2005") + plain(X), [(47, 1)]),
    (bytes.fromhex("aa0103220174") + plain(X), [(51, 1)]),
    (plain(x_with(topic=[b"t", b"t", b"u", b""])), [(45, 1), (48, 1), (51, 1), (54, 0)]),
    (plain(x_with(topic=[b"t" * MAX_TOPIC])), [(46, MAX_TOPIC)]),
    (plain(without(X, 4) + [(2, bytes(MAX_MESSAGE - 114)), (4, b"")]), [(MAX_MESSAGE, 0)]),
]


def looks(names, topics, *windows):
    return [("get", name) for name in names] + [("gossip", n, topic) for topic in topics for n in windows]


def seen_named():
    def insert(now, ttl, most, name):
        return ("insert", now, ttl, most, name)

    full = b"x" * MAX_SEEN_ID
    for rows in (0, 1, 2, 256):
        yield [("seen", rows), ("next",), ("clean", TOP), ("contains", b""), insert(5, 5, 0, b"a"), insert(5, 5, 0, b"a"), ("next",),
               insert(5, 5, rows, b"a"), insert(6, 5, rows, b"a"), insert(6, 5, rows, b"b"), ("next",), insert(7, 5, rows + 1, b"a"),
               insert(7, 5, 65535, full + b"x"), insert(7, 5, rows, full + b"x"), ("contains", full + b"x"), ("contains", b"a"),
               ("contains", b"b"), ("clean", 9), ("clean", 10), ("clean", 11), ("next",)]
    lengths = (0, 1, 128, 129, 130, 131, 255, 256, 257, 385, 1000)
    yield [("seen", 8)] + [insert(0, 9, 8, (full * 8)[:n]) for n in lengths] + [("contains", (full * 8)[:n]) for n in lengths] \
        + [insert(1, 9, 8, (full * 8)[:n]) for n in lengths] + [("contains", b"x" * 2), ("contains", b"x" * 127), ("clean", 9), ("next",)]
    yield [("seen", 1), insert(1, 1, 1, bytes(MAX_CONTENT - 18)), ("contains", bytes(MAX_CONTENT)), ("next",)]
    # A clock that steps back leaves a later expiry in front.
    yield [("seen", 4), insert(100, 10, 4, b"a"), insert(50, 10, 4, b"b"), ("next",), ("clean", 60), ("clean", 109), ("next",),
           insert(60, 10, 4, b"b"), ("clean", 110), ("next",), insert(60, 10, 4, b"b")]
    # No ttl, and the largest readings: an entry stays until it is cleaned up.
    yield [("seen", 4), insert(7, 0, 4, b"a"), insert(7, 0, 4, b"a"), ("next",), ("clean", 6), ("clean", 7), insert(7, 0, 4, b"a"),
           insert(TOP - 1, 1, 4, b"b"), insert(TOP - 1, 2, 4, b"c"), insert(TOP, TOP, 4, b"d"), ("clean", 7), ("next",),
           ("clean", TOP - 1), ("next",), ("clean", TOP), ("next",), insert(0, TOP, 4, b"e"), insert(1, TOP, 4, b"f"), ("next",)]
    # A held id evicts nothing, whatever the maximum is then; a fresh one with 0 empties the cache.
    yield [("seen", 4)] + [insert(n, 9, 4, b"%d" % n) for n in range(5)] + [insert(9, 9, 1, b"2"), insert(9, 9, 0, b"1")] \
        + [("contains", b"%d" % n) for n in range(5)] + [("next",), insert(9, 9, 3, b"5"), ("next",), insert(9, 9, 1, b"6"), ("next",)] \
        + [("contains", b"%d" % n) for n in range(7)] + [insert(9, 9, 0, b"7"), ("contains", b"6"), ("contains", b"7"), ("next",), ("clean", 0)]
    # Rows that are used again, by shorter ids.
    yield [("seen", 2)] + [insert(n, 9, 2, full[:n]) for n in (129, 128, 2, 1, 0)] + [("contains", full[:n]) for n in (0, 1, 2, 128, 129)]
    yield [("seen", 256)] + [insert(n, 9, 256, b"%d" % n) for n in range(258)] \
        + [("contains", b"%d" % n) for n in (0, 1, 2, 3, 255, 256, 257)] + [("next",), ("clean", 20), insert(0, 0, 257, b""), ("next",)]


def unfit_puts():
    """Each refusal of a message, what is just taken, and two reasons at once."""
    for name in ("from_", "seqno"):
        for lengths in ((), (0,), (1,), (64,), (65,), (256,), (257,), (65, 1), (1, 65), (1, 0)):
            yield x_with(**{name: [b"n" * n for n in lengths]})
    yield x_with(from_=[LONGEST], seqno=[b"s" * 64])
    for lengths in ((), (0,), (63,), (65,), (320,), (63, 64), (64, 63)):
        yield x_with(signature=[bytes(n) for n in lengths])
    for key in ([], [b""], [b"key"]):
        yield x_with(signature=[], key=key)
        yield x_with(key=key)
    for n in (0, 1, 2, 3, 4, 5, 6, 256, 257):
        yield x_with(topic=[b"t"] * n)
    for lengths in ((1024,), (1025,), (1, 1025), (1, 1026, 1025), (1025, 1026), (1024, 1024, 1024), (1024, 1024, 1024, 1024), (1025,) * 4):
        yield x_with(topic=[b"t" * n for n in lengths])
    for n in (4095, 4096, 4097, 8192):
        yield grown(X, n)
    yield x_with(from_=[], seqno=[])
    yield x_with(from_=[bytes(65)], seqno=[])
    yield x_with(seqno=[bytes(65)], signature=[])
    yield x_with(signature=[], key=[b"k"], topic=[])
    yield x_with(signature=[], topic=[])
    yield x_with(signature=[bytes(63)], topic=[])
    yield x_with(topic=[b"t" * 1025] * 5)
    yield grown(x_with(topic=[b"t" * 1025]), 4097)
    yield from unfit_senders()


def unfit_senders():
    """The rows about senders and their keys, and whatever else is no peer id or no key."""
    for change, _ in peers.ROWS + peers.MORE_ROWS:
        yield x_with(**change)
    for who in NO_PEERS + KEYLESS:
        yield x_with(from_=[who])
    for key in NO_KEYS + KEYS:
        yield x_with(key=[key])
        yield x_with(from_=[HASHES[0]], key=[key])


def cache_named():
    x = put_step(X)[2]
    for history, most in BAD_SETTINGS:
        yield [("cache", history, most, 0)]
    for history in (1, 2, 3, 15, 16):
        yield [("cache", history, MAX_MESSAGES, TOP), put_step(X)] + [("shift",)] * (history - 1) + looks([NAME], [b"t"], history - 1, history) \
            + [("shift",)] + looks([NAME], [b"t"], history, 65535)
    for most in (0, 1, 2, 64):
        yield [("cache", 3, most, 0), put_step(X), put_step(X), x_named(A, b"\x02"), put_step(X), x_named(A, b"\x03")] \
            + looks([NAME, A + b"\x02", A + b"\x03"], [b"t"], 1)
    # Refused puts change nothing; each message that is taken is looked at.
    yield [("cache", 2, 4, 0), put_step(X)] + [step for parts in unfit_puts() for step in (put_step(parts), ("gossip", 1, b"t"))]
    yield [("cache", 2, 4, 0), put_step(x_with(data=[b"first"])), put_step(x_with(data=[b"second"], topic=[b"u"]))] \
        + looks([NAME], [b"t", b"u"], 1)
    many_records = b"\x0a\x00" * (MAX_RECORDS - 2)
    yield [("cache", 2, 4, 0)] + [("put", index, body) for body in (b"", x, x + x) for index in (0, 1, 2, 255, 256, 65535)] \
        + [("put", 0, part) for row in REFUSED for part in (bytes.fromhex(row), x + bytes.fromhex(row), tagged(2, plain(X) + bytes.fromhex(row)))] \
        + [("put", 0, bytes.fromhex("f8ffffff0f00") + x), ("put", 0, x[:-1]), ("put", 1, tagged(2, b"") + x), ("put", 0, tagged(2, b"") + x),
           ("put", 0, many_records + x), ("put", 0, b"\x0a\x00" + many_records + x), ("put", 9, many_records + x + x),
           ("put", 9, many_records + x + x + b"\x0b"), ("put", 0, padded(x, MAX_BODY)), ("put", 0, padded(x, MAX_BODY + 1)),
           ("put", 9, b"\x0b" * (MAX_CONTENT - 2))] + looks([NAME], [b"t"], 1)
    # Prefixes, the order of bytes, and splits at which no peer id ends.
    yield [("cache", 2, 8, TOP - 2)] + [x_named(*who) for who in (
        (A, b"bc"), (A + b"b", b"c"), (A[:-1], A[-1:] + b"bc"), (A, b"b"), (B, b"\x00"), (F, b"\xff"), (A, b"b\x00"), (A, b"bcd"), (ECDSA, b"\x00"),
        (RSA, b"\x80"))] \
        + looks([A + b"b", A + b"bc", A + b"bcd", A + b"b\x00", A, b"", A + b"bcde", B + b"\x00", b"x" * 128, b"x" * 129, b"x" * 1000], [b"t"], 0, 1, 2)
    longest = LONGEST + b"s" * MAX_PART
    yield [("cache", 2, 2, 0), x_named(LONGEST, longest[44:]), x_named(LONGEST, longest[44:-1])] \
        + looks([longest, longest[:-1], longest[:-2], longest + b"s", longest + bytes(20), longest + bytes(256), longest * 3], [b"t"], 1)
    # Senders of every sort, with their keys beside them and without.
    yield [("cache", 2, 64, 0)] + [step for who in SENDERS for step in (put_step(x_with(from_=[who])), put_step(x_with(from_=[who], seqno=[b"2"], key=[who[2:]])))] \
        + [put_step(x_with(from_=[who], key=keys)) for who in HASHES for keys in ([], [KEYS[0]], [KEYS[1]])] \
        + looks([who + seqno for who in SENDERS + HASHES for seqno in (b"\x01", b"2")], [b"t"], 1)
    # Places that are used again, by shorter messages.
    yield [("cache", 2, 2, 0)] + [step for n, size in enumerate((4096, 4095, 200, 100, 4096)) for step in
                                  (put_step(grown(x_with(seqno=[b"%d" % n]), size)), ("get", A + b"%d" % n), ("get", A + b"%d" % max(0, n - 1)))]
    # Arrival numbers over the wrap; the oldest go first.
    for arrival in (0, TOP - 1, TOP):
        yield [("cache", 3, 3, arrival)] + [step for n in range(7) for step in (x_named(F, b"%d" % n), ("gossip", 3, b"t"))] \
            + [("shift",), x_named(F, b"5"), x_named(F, b"0"), ("gossip", 1, b"t")] + [("shift",), ("gossip", 3, b"t")] * 2
    # Windows; a held id stays in its own.
    yield [("cache", 3, 8, 0)] + [step for n in range(4) for step in [x_named(F, b"%d" % n), x_named(F, b"0")]
                                  + looks([F + b"0"], [b"t"], 0, 1, 2, 3, 4, 256, 65535) + [("shift",)]] + [x_named(F, b"0"), ("gossip", 1, b"t")]
    # Topics: repeated, prefixes of one another, the longest, not UTF-8, too long.
    yield [("cache", 2, 4, 7), x_named(F, b"1", b"t", b"to", b"t", b""), x_named(F, b"2", b"top", "\u20ac".encode()),
           x_named(F, b"3", b"t" * 1024)] + looks([], TOPICS + LONGEST_TOPICS + LONG_TOPICS + BROKEN + [bytes(MAX_CONTENT - 2)], 1) \
        + looks([], [b"\xe2\x82", b"t\xff"], 0)


def topic_named():
    """Where topics stand in a message: every topic that a message has, and what stands beside it."""
    for raw, places in TOPIC_MESSAGES:
        topics = {raw[start + a:start + size + b] for start, size in places for a, b in ((0, 0), (-2, 0), (-1, 0), (0, 1), (1, 0)) if size + b >= a}
        yield [("cache", 2, 2, 0), ("put", 0, tagged(2, raw))] + looks([NAME], sorted(topics | {b"t", b"u", b""}), 1)
    # A place used again, by a message with more topics or with fewer.
    for before in range(1, MAX_TOPICS + 1):
        for after in range(1, MAX_TOPICS + 1):
            yield [("cache", 2, 1, 0), x_named(F, b"0", *[b"old%d" % n for n in range(before)]),
                   x_named(F, b"1", *[b"new%d" % n for n in range(after)])] + looks([], [b"%s%d" % (one, n) for one in (b"old", b"new") for n in range(4)], 1)


def placed_named():
    """The rows about the place of a refusal, alone and behind a message that may be put."""
    x = put_step(X)[2]
    rows = [bytes.fromhex(text) for text, told in ROWS + MORE_ROWS if told]
    yield [("cache", 2, 4, 0)] + [("put", 0, body) for row in rows for body in (row, x + row)] + looks([NAME], [b"t"], 1)


def flag_named():
    """Flags among the settings; messages without a signature; both forms of a message, whose id is seen under two marks and cached once."""
    x, u, look = put_step(X), put_step(U), looks([NAME], [b"t"], 1)
    for flags in (0, 1, 4, 5, 255, 256, 257, 65535):
        yield [("cache", 2, 4, 0), x, ("flagged", 2, 4, 7, flags), u, *look, x, *look]
    for history, most in BAD_SETTINGS[:4] + BAD_SETTINGS[7:9]:
        yield [("flagged", 2, 4, 0, 1), ("flagged", history, most, 0, 1), ("flagged", history, most, 0, 4), u, *look]
    # Refused settings leave the flags that were there.
    yield [("flagged", 2, 4, 0, 1), u, ("flagged", 2, 4, 0, 4), ("cache", 0, 4, 0), put_step(without(x_with(seqno=[b"2"]), 5)), *look,
           ("flagged", 2, 4, 0, 0), ("flagged", 2, 4, 0, 5), u, x, *look, ("flagged", 2, 4, 0, 1), u, ("cache", 2, 4, 0), u, x, *look]
    for flags in (0, 1):
        yield [("flagged", 2, 4, 0, flags)] + [step for change, *_ in peers.SHORT_UNSIGNED_ROWS for step in (put_step(x_with(**change)), ("gossip", 1, b"t"))]
        yield [("flagged", 2, 64, 0, flags)] + [put_step(x_with(from_=[who], signature=[])) for who in SENDERS + HASHES + KEYLESS + NO_PEERS] \
            + [("gossip", 1, b"t")] + [("get", who + b"\x01") for who in SENDERS + HASHES + KEYLESS]
        for raw in OTHER_TYPES:
            yield [("flagged", 2, 4, 0, flags), ("put", 0, tagged(2, raw)), *look]
        # Which came first is kept; the marks are apart.
        for first, other in ((x, u), (u, x)):
            marks = [("contains", mark + NAME) for mark in (b"\x00", b"\x01", b"")] + [("next",)]
            yield [("seen", 2), ("flagged", 2, 2, TOP, flags), first, ("insert", 1, 5, 2, b"\x00" + NAME), *marks, other, *look,
                   ("insert", 2, 5, 2, b"\x01" + NAME), *marks, ("insert", 3, 5, 2, b"\x00" + NAME), first, ("shift",), *look, other, ("clean", 6), *marks,
                   ("insert", 6, 5, 1, b"\x00" + NAME), *marks, ("shift",), *look, other, *look, ("clean", 11), *marks]


def edition_named(few=False):
    """Puts in either edition: bodies with the field that 1.2 adds, alone and beside a message; records and sizes about the limits, but for sizes where there are to be
    few bytes; a signature, which is field 5 of a message."""
    x, look = put_step(X)[2], looks([NAME], [b"t"], 1)
    for edition in EDITIONS:
        yield [("cache", 2, 4, 0)] + [("put_in", edition, 0, body) for text, *_ in EDITION_ROWS for row in [bytes.fromhex(text)] for body in (row, row + x, x + row)] + look
        yield [("cache", 2, 4, 0)] + [("put_in", edition, 0, bytes.fromhex(text)) for text, told in ROWS + MORE_ROWS if told] + [("put_in", edition, 0, x), *look]
        for ids in (508, 509, 510, 511):
            more = tagged(3, tagged(5, b"\x0a\x00" * ids))
            yield [("cache", 2, 4, 0), ("put_in", edition, 0, x + more), ("put_in", edition, 1, more + x), ("put_in", edition, 0, more + x), *look]
        for size in (MAX_BODY - 1, MAX_BODY, MAX_BODY + 1, MAX_CONTENT - 3) if not few else ():
            yield [("cache", 2, 4, 0), ("put_in", edition, 0, padded(x, size)), *look]
        yield [("flagged", 2, 4, 0, 1), ("put_in", edition, 0, tagged(2, plain(U))), ("put_in", 1 - edition, 0, x), *look, ("shift",), ("put_in", edition, 0, x), ("shift",), *look]
    yield [("cache", 2, 4, 0), ("put_in", V1_2, 0, x), ("put_in", V1_1, 0, x), *look]


# X with groups: behind its fields, before them, between them; with fields of X in them, others than its own; as deep as may be.
GROUPED = [plain(X) + group(1), group(4, tagged(4, b"u")) + plain(X), plain(X[:2]) + group(1, tagged(1, B)) + plain(X[2:]),
           plain(X) + group(536870911, plain(x_with(seqno=[b"9"], topic=[b"\xff"]))), group(2, group(2)) + plain(X) + group(3, tagged(3, b"9")), plain(X) + chain([5] * 32)]
# The same with what is refused in the message itself, and with the number.
SPOILT = [(plain(X) + b"\x0b", 16), (plain(X) + b"\x0c", 14), (b"\x0b" + plain(X) + b"\x14", 14), (plain(X) + chain([5] * 33), 15), (chain([5] * 33)[:-1] + plain(X), 15),
          (plain(X) + b"\x0b\x04\x0c", 6), (plain(X) + b"\x0b\x0e\x0c", 5), (plain(X) + b"\x0b\x80", 1)]


def group_named(few=False):
    """Puts where groups are skipped and where they are refused: the scope's rows, alone and beside a message; messages with groups; both flags; about the longest message,
    and but where there are to be few bytes about the longest body."""
    x, u, look = put_step(X)[2], put_step(U)[2], looks([NAME], [b"t", b"u"], 1)
    rows = [bytes.fromhex(text) for text, *_ in GROUP_ROWS + ([] if few else MORE_GROUP_ROWS)]
    for flags in (0, GROUPS, nodes.MAX_FLAGS):
        for edition in EDITIONS:
            yield [("flagged", 2, 4, 0, flags)] + [("put_in", edition, 0, body) for row in rows for body in ((row,) if few else (row, row + x, x + row))] + [("put_in", edition, 0, x), *look]
        for raw in GROUPED:
            yield [("flagged", 2, 4, 0, flags), ("put", 0, tagged(2, raw)), *look, ("put", 0, x), *look]
        yield [("flagged", 2, 4, 0, flags), *[("put", 0, tagged(2, raw)) for raw, _ in SPOILT], ("put", 0, tagged(2, plain(U) + group(5, tagged(5, bytes(SIGNATURE))))), *look]
        yield [("flagged", 2, 4, 0, flags), ("put", 0, group(2, x) + u), ("put", 1, group(2, x) + x), ("put", 0, group(2, x)), ("put", 0, group(2, x) + x + group(1)), *look]
        for size in (MAX_MESSAGE - 1, MAX_MESSAGE, MAX_MESSAGE + 1):
            yield [("flagged", 2, 4, 0, flags), ("put", 0, tagged(2, plain(X) + group(1, tagged(2, bytes(size - 112 - 5))))), ("gossip", 1, b"t")]
        for size in (MAX_BODY - 1, MAX_BODY, MAX_BODY + 1) if not few else ():
            yield [("flagged", 2, 4, 0, flags), ("put", 0, x + b"\x0b" + b"\x08\x00" * ((size - 116) // 2) + b"\x08"[:size % 2] + b"\x0c"), *look]
    # Settings anew: the mode is that of the last that were taken.
    grouped = ("put", 0, tagged(2, GROUPED[0]))
    yield [("cache", 2, 4, 0), grouped, ("flagged", 2, 4, 0, GROUPS), grouped, ("flagged", 2, 4, 0, 6), put_step(X), *look, ("cache", 0, 4, 0), *look, ("cache", 2, 4, 0), grouped, *look]


def named():
    """The edges of every call, each refusal, and both parts beside each other."""
    yield from seen_named()
    yield from cache_named()
    held = [("get", NAME), ("contains", NAME), ("next",), ("gossip", 1, b"t")]
    yield [("cache", 0, 0, 0), ("seen", 2), ("cache", 2, 2, 5), ("insert", 1, 2, 2, NAME), put_step(X)] + held + [("cache", 17, 2, 0)] + held \
        + [("cache", 2, 65, 0)] + held + [("seen", 1)] + held + [("insert", 3, 4, 1, NAME), ("cache", 1, 1, 0)] + held \
        + [put_step(X), ("seen", 0), ("shift",)] + held


def histories(r, count):
    return then_random(r, count, (named(), topic_named(), placed_named(), flag_named(), edition_named(), group_named()), some_history)
