"""Lists to write an RPC from, for the program `inspect`, and the line that the Rust's answer makes.

A row is (kind, start, end, number, fields): a number or None, and five fields, each (start, end) or None. Lists are (rows, bytes); a case is
(call, room, rows, bytes, index), with "write" or "tosign" as its call. `judged` says why a case is refused, or what is asked of the Rust: it is the model of
the refusals, from the scope's sentences, with the admission of nodes.py and the peer ids and keys of peers.py. What is written where nothing is refused comes
from the Rust's `Rpc::encode` and `sign_bytes`. Everything random comes from one seeded `random.Random`.
"""

import collections
import json

import nodes
import wire
from admissions import random_one
from bodies import BROKEN, PARTS, RPC, TEXTS, TURNS, counted, tagged, within
from caches import LONGEST_TOPICS, clipped, some_key, some_sender
from nodes import Refused, is_utf8
from oracle import unhexed
from peers import HASHES, ID, KEY, KEYLESS, KEYS, NO_KEYS, NO_PEERS, SENDERS, identity, key_bytes
from wire import EDGES, MAX_CONTENT, TOP, blob

MAX_ROOM = 65600
MAX_ROWS = 640
MAX_RECORDS = 512
MAX_RPC = 65536
NAMES = {1: "sub", 2: "message", 3: "topic", 8: "graft", 9: "prune", 10: "peer"}
SUB, MESSAGE, TOPIC, GRAFT, PRUNE, PEER = NAMES

# How many fields a kind has, whose topic its first one is, and what must stand before it.
FIELDS = {"sub": 1, "message": 5, "topic": 0, "graft": 1, "prune": 1, "peer": 2}
TEXT = ("sub", "graft", "prune")
AFTER = {"topic": "message", "peer": "prune"}

# Every refusal that a call can give.
REFUSALS = {"write": {42, 7, 11, 21, 22, 34, 23, 26, 35, 36, 28, 29, 30, 13, 12}, "tosign": {42, 7, 11, 20, 12}}

Row = collections.namedtuple("Row", "kind start end number fields", defaults=(0, 0, None, (None,) * 5))


def row(kind, number=None, *fields, own=(0, 0)):
    return Row(kind, *own, number, (*fields, *(None,) * (5 - len(fields))))


# --- records -------------------------------------------------------------------------------

def little(number, size):
    return number.to_bytes(size, "little")


def row_bytes(one):
    mask = sum(1 << bit for bit, part in enumerate((one.number, *one.fields)) if part is not None)
    words = [one.start, one.end] + [one.number] * (one.number is not None) + [word for place in one.fields if place is not None for word in place]
    return bytes([one.kind, mask]) + b"".join(little(word, 8) for word in words)


def content(room, rows, data):
    return little(room, 4) + little(len(rows), 2) + b"".join(map(row_bytes, rows)) + data


def record(case):
    call, room, rows, data, index = case
    return wire.record((call, content(room, rows, data), index))


def fits(rows, data):
    """Whether a record of either kind can hold the lists."""
    return len(rows) <= MAX_ROWS and 2 + len(content(0, rows, data)) <= MAX_CONTENT


# --- the model -------------------------------------------------------------------------------

def topic_place(one):
    """Where the topic of a row stands in the lent bytes, or None."""
    if one.kind == TOPIC:
        return one.start, one.end
    if NAMES[one.kind] in TEXT and one.fields[0] is not None:
        return one.start + one.fields[0][0], one.start + one.fields[0][1]
    return None


def tested(rows, data):
    """42, 7, 11."""
    before = set()
    for one in rows:
        name = NAMES.get(one.kind)
        if name is None or (name in AFTER and AFTER[name] not in before):
            raise Refused(42)
        before.add(name)
        if not one.start <= one.end <= len(data):
            raise Refused(42)
        for place in one.fields[:FIELDS[name]]:
            if place is not None and not (place[0] <= place[1] and one.start + place[1] <= len(data)):
                raise Refused(42)
    for place in map(topic_place, rows):
        if place is not None and not is_utf8(data[place[0]:place[1]]):
            raise Refused(7, place[0])
    if len(rows) > MAX_RECORDS:
        raise Refused(11, len(rows))


def said(rows, data):
    """The RPC of lists that are lent well, in the oracle's form with bytes for its texts; the raw bytes of a message are left out."""
    rpc = {"subscriptions": [], "publish": [], "control": None}
    grafts, prunes = [], []
    for one in rows:
        first, second, third, fourth, fifth = (None if place is None or n >= FIELDS[NAMES[one.kind]] else data[one.start + place[0]:one.start + place[1]]
                                               for n, place in enumerate(one.fields))
        if one.kind == SUB:
            rpc["subscriptions"].append({"subscribe": None if one.number is None else one.number != 0, "topic_id": first})
        elif one.kind == MESSAGE:
            rpc["publish"].append({"from": first, "data": second, "seqno": third, "topic_ids": [], "signature": fourth, "key": fifth})
        elif one.kind == TOPIC:
            rpc["publish"][-1]["topic_ids"].append(data[one.start:one.end])
        elif one.kind == GRAFT:
            grafts.append({"topic_id": first})
        elif one.kind == PRUNE:
            prunes.append({"topic_id": first, "peers": [], "backoff": one.number})
        else:
            prunes[-1]["peers"].append({"peer_id": first, "signed_peer_record": second})
    if grafts or prunes:
        rpc["control"] = {"ihave": [], "iwant": [], "graft": grafts, "prune": prunes}
    return rpc


def known_fields(message):
    """The fields of a message, as nodes.py has those that it reads."""
    there = [(1, message["from"]), (2, message["data"]), (3, message["seqno"])] + [(4, topic) for topic in message["topic_ids"]]
    return [(field, data) for field, data in there + [(5, message["signature"]), (6, message["key"])] if data is not None]


def raw_of(message):
    return b"".join(tagged(*part) for part in known_fields(message))


def weighed(message):
    """21 to 36, as admission has them with the host's word; an absent signature is one of no bytes."""
    known = known_fields(message)
    nodes.admission((raw_of(message), known if message["signature"] is not None else known + [(5, b"")]), True)


def size_of(rpc):
    """How many bytes an RPC has. Places overlap, so the bytes may be many more than were lent: they are not made."""
    def field(size):
        return 1 + len(wire.varint(size)) + size

    def optional(*parts):
        return sum(field(len(part)) for part in parts if part is not None)

    size = sum(field(2 * (sub["subscribe"] is not None) + optional(sub["topic_id"])) for sub in rpc["subscriptions"])
    size += sum(field(optional(*(data for _, data in known_fields(message)))) for message in rpc["publish"])
    if rpc["control"] is not None:
        inner = sum(field(optional(one["topic_id"])) for one in rpc["control"]["graft"])
        for one in rpc["control"]["prune"]:
            peers = sum(field(optional(peer["peer_id"], peer["signed_peer_record"])) for peer in one["peers"])
            inner += field(optional(one["topic_id"]) + peers + (0 if one["backoff"] is None else len(counted(3, one["backoff"]))))
        size += field(inner)
    return size


def judged(case):
    """The RPC that is written, or that has only the message to be signed, and None; or None and why not."""
    call, room, rows, data, index = case
    try:
        tested(rows, data)
        rpc = said(rows, data)
        if call == "tosign":
            if index >= len(rpc["publish"]):
                raise Refused(20, len(rpc["publish"]))
            message = rpc["publish"][index]
            return fitted(dict(rpc, subscriptions=[], publish=[message], control=None), room,
                          len(b"libp2p-pubsub:") + len(raw_of(dict(message, signature=None, key=None)))), None
        for message in rpc["publish"]:
            weighed(message)
        size = size_of(rpc)
        if size > MAX_RPC:
            raise Refused(13, size)
        return fitted(rpc, room, size), None
    except Refused as why:
        return None, "refused " + " ".join(map(str, why.args))


def fitted(rpc, room, size):
    if size > room:
        raise Refused(12, size)
    return rpc


# --- the Rust ----------------------------------------------------------------------------------

def texts(value):
    """The oracle's form of an RPC: bytes as hex."""
    if isinstance(value, dict):
        return {key: texts(one) for key, one in value.items()}
    if isinstance(value, list):
        return [texts(one) for one in value]
    return value.hex() if isinstance(value, bytes) else value


def command(rpc):
    return "encode " + json.dumps(texts(rpc), separators=(",", ":"))


def line(case, told):
    """The line after its number, from the oracle's answer to `command`."""
    _, _, encoded, signs = told.split(" ")
    made = unhexed((encoded if case[0] == "write" else signs).split("=")[1])
    assert case[0] == "tosign" or len(made) == size_of(judged(case)[0]), told
    return " ".join([case[0], str(len(made))] + [made.hex()] * (made != b""))


def answer(case, ask):
    """The line after its number; `ask` asks the oracle."""
    rpc, refused = judged(case)
    return "%s %s" % (case[0], refused) if refused else line(case, ask(command(rpc)))


def read_back(rpc):
    """What the Rust's decoder must read in the bytes of an RPC: the same, and each message's raw bytes are its fields."""
    return texts(dict(rpc, publish=[dict(message, raw=raw_of(message)) for message in rpc["publish"]]))


# --- rows of a body, as decode leaves them ----------------------------------------------------

OWN = {"sub": 1, "message": 2, "ihave": 5, "iwant": 6, "graft": 8, "prune": 9, "peer": 10}
PLACES = {"sub": (2,), "message": (1, 2, 3, 5, 6), "ihave": (1,), "iwant": (), "graft": (1,), "prune": (1,), "peer": (1, 2)}
NUMBER = {"sub": 1, "prune": 3}
LEAVES = {("message", 4): TOPIC, ("ihave", 2): 7, ("iwant", 1): 7}


def rows_of(body, name=None, base=0, end=None):
    """The rows of a body that is taken, each before what stands inside it."""
    known, end = PARTS.get(name, RPC), len(body) if end is None else end
    number, places, inside, at = None, {}, [], base
    for field, kind, _, got in nodes.fields(body[base:end]):
        start, at = spans(body, at, end)
        what = known.get(field)
        if what is None or kind != (0 if what == "number" else 2):
            continue
        if what == "number":
            number = got
        elif what in PARTS:
            inside += rows_of(body, what, start, at)
        elif (name, field) in LEAVES:
            inside.append(Row(LEAVES[name, field], start, at))
        else:
            places[field] = (start - base, at - base)
    own = [row(OWN[name], number, *(places.get(field) for field in PLACES[name]), own=(base, end))] if name in OWN else []
    return own + inside


def spans(body, at, end):
    """Where the content of the field at a place begins and ends."""
    tag, at = nodes.number_at(body[:end], at)
    if tag % 8 == 2:
        size, at = nodes.number_at(body[:end], at)
        return at, at + size
    return at, nodes.number_at(body[:end], at)[1] if tag % 8 == 0 else at + (8 if tag % 8 == 1 else 4)


# --- fixed lists -----------------------------------------------------------------------------------

# The scope's message: sender, seqno, topic and signature in these bytes, one after the other.
X_DATA = ID + b"\x01" + b"t" + bytes(64)
X_ROWS = [row(MESSAGE, None, (0, 38), None, (38, 39), (40, 104), None), Row(TOPIC, 39, 40)]
UNSIGNED = [row(MESSAGE, None, (0, 38), None, (38, 39)), Row(TOPIC, 39, 40)]
X = "12700a26%s1a01012201742a40%s" % (ID.hex(), "00" * 64)
X_SIGNED = "6c69627032702d7075627375623a0a26%s1a0101220174" % ID.hex()
LONG = [row(MESSAGE, None, (0, 38), (104, 4104), (38, 39), (40, 104)), Row(TOPIC, 39, 40), row(MESSAGE)]

# The rows of the scope: the lists, the room, and the line of `write`.
ROWS = [
    ([], b"", MAX_RPC, "0"),
    ([row(SUB, 1, (0, 1))], b"t", MAX_RPC, "7 0a050801120174"),
    ([row(SUB, 7, (0, 1))], b"t", MAX_RPC, "7 0a050801120174"),
    ([row(SUB), row(SUB, None, (0, 0))], b"", MAX_RPC, "6 0a000a021200"),
    ([row(PRUNE, 60, (1, 2)), row(PEER, None, (2, 4)), row(GRAFT, None, (0, 1))], b"tu\x01\x02", MAX_RPC, "20 1a121a030a0174220b0a017512040a020102183c"),
    (X_ROWS, X_DATA, MAX_RPC, "114 " + X),
    ([row(GRAFT, None, (0, 2))], b"t", MAX_RPC, "refused 42"),
    ([row(GRAFT, None, (1, 0))], b"t", MAX_RPC, "refused 42"),
    ([row(GRAFT, None, (0, TOP), own=(1, 1))], b"t", MAX_RPC, "refused 42"),
    ([row(GRAFT, None, (0, 1), (5, 9))], b"t", MAX_RPC, "7 1a051a030a0174"),
    ([row(GRAFT, None, (0, 1)), row(SUB, None, (1, 2))], b"t\xff", MAX_RPC, "refused 7 1"),
    ([row(GRAFT, None, (0, 1)), row(SUB, None, (1, 2)), row(GRAFT, None, (0, 3))], b"t\xff", MAX_RPC, "refused 42"),
    ([row(GRAFT)] * 513, b"", MAX_RPC, "refused 11 513"),
    ([row(GRAFT)] * 512, b"", MAX_RPC, "1027 1a8008" + "1a00" * 512),
    ([row(MESSAGE)] * 513, b"", MAX_RPC, "refused 11 513"),
    (UNSIGNED, X_DATA, MAX_RPC, "refused 26 0"),
    (LONG, X_DATA + bytes(4000), MAX_RPC, "refused 30 4115"),
    ([row(GRAFT, None, (0, 65524))], b"t" * 65524, MAX_RPC, "65536 1afcff031af8ff030af4ff03" + "74" * 65524),
    ([row(GRAFT, None, (0, 65525))], b"t" * 65525, MAX_RPC, "refused 13 65537"),
    ([row(GRAFT, None, (0, 1000))] * 66, b"t" * 1000, MAX_RPC, "refused 13 66400"),
    ([row(SUB, 1, (0, 1))], b"t", 6, "refused 12 7"),
]

# And of `tosign`, of message 0.
SIGN_ROWS = [(rows, X_DATA, MAX_ROOM, "60 " + X_SIGNED) for rows in (X_ROWS, UNSIGNED)] + [
    (X_ROWS, X_DATA, 59, "refused 12 60"), ([row(GRAFT)] * 513, b"", MAX_ROOM, "refused 11 513"), ([row(GRAFT)], b"", 0, "refused 20 0"),
    ([row(GRAFT, None, (0, 2))], b"t", MAX_ROOM, "refused 42"), ([row(GRAFT, None, (0, 1), own=(1, 1))], b"t\xff", MAX_ROOM, "refused 7 1")]


def scope():
    """(case, line without its number), written by hand."""
    for call, rows in (("write", ROWS), ("tosign", SIGN_ROWS)):
        for one, data, room, told in rows:
            yield (call, room, one, data, 0), "%s %s" % (call, told)


def message_with(**change):
    """Lists of one message: the scope's with other fields."""
    fields = {"sender": ID, "data": None, "seqno": b"\x01", "signature": bytes(64), "key": None, "topics": [b"t"]}
    fields.update(change)
    lent = Lent(None, True)
    lent.add(MESSAGE, None, *(fields[name] for name in ("sender", "data", "seqno", "signature", "key")))
    for topic in fields["topics"]:
        lent.topic(topic)
    return lent.done()


def at_limits():
    """Messages about the limits, of every sort; then with one that may be written before or after each."""
    whole = len(raw_of(said(*message_with())["publish"][0]))
    one = [{}]
    one += [{"sender": sender} for sender in (None, *SENDERS, *HASHES, *KEYLESS, *NO_PEERS, *(b"A" * n for n in (0, 63, 64, 65, 66, 300)))]
    one += [{"sender": sender, "key": key} for sender in (ID, *HASHES[:2], *KEYLESS[:3], identity(key_bytes(1, b"")))
            for key in (KEY, key_bytes(1, b""), b"", b"\xff", *KEYS[2:4], *NO_KEYS[:6])]
    one += [{"seqno": data} for data in (None, b"", *(bytes(n) for n in (1, 2, 63, 64, 65, 300)))]
    one += [{"signature": data} for data in (None, b"", *(bytes(n) for n in (1, 63, 64, 65, 128)))]
    one += [{"signature": signature, "key": key} for signature in (None, b"", bytes(63)) for key in (KEY, b"\xff")]
    one += [{"topics": [b"t"] * n} for n in (0, 1, 2, 3, 4, 5, 6, 9)]
    one += [{"topics": [b"u"] * k + [b"t" * n]} for k in (0, 1, 3) for n in (0, 1, 1023, 1024, 1025, 3000)]
    one += [{"topics": [b"t" * 1025, b"t" * 2000]}, {"topics": ["\u00e9".encode() * n for n in (512, 513)]}, {"topics": [b"t" * 1025] * 5}]
    one += [{"data": data} for data in (None, b"", b"d", bytes(127), bytes(128))]
    one += [{"data": bytes(n - whole - 3)} for n in (4095, 4096, 4097, 5000)]
    one += [{"data": bytes(4096), "signature": None}, {"data": bytes(4096), "topics": []}, {"data": bytes(4096), "topics": [b"t" * 1025]},
            {"seqno": None, "signature": None}, {"sender": None, "seqno": None, "topics": []}, {"signature": None, "key": b"\xff", "topics": []}]
    rows, data = message_with(key=KEY, data=b"d", topics=[b"", b"t"])
    for change in one:
        yield message_with(**change)
        more, behind = message_with(**change)
        for first, second in (((rows, data), (more, behind)), ((more, behind), (rows, data))):
            yield [*first[0], *shifted(second[0], len(first[1]))], first[1] + second[1]


def shifted(rows, by):
    """The same rows over bytes behind others."""
    return [one._replace(start=one.start + by, end=one.end + by) for one in rows]


def mixtures():
    """Which topic is whose, and which peer; what may stand before what."""
    rows, data = message_with(data=b"d")
    message, topic = rows
    graft, prune, peer, sub = row(GRAFT, None, (0, 1)), row(PRUNE, 5, (1, 2)), row(PEER, None, (2, 3)), row(SUB, 1)
    for others in ([sub], [graft], [prune], [prune, peer], [graft, prune, peer, sub, graft]):
        yield [*others, message, *others, topic, *others, topic], data
        yield [message, topic, *others, message, *others, topic, topic], data
    for order in ([prune, graft, peer, prune, message, peer, topic, peer, graft], [prune, prune, peer], [prune, peer, prune], [prune, peer, peer, prune, peer]):
        yield order, data
    for order in ([topic], [topic, message], [peer], [peer, prune], [graft, peer], [message, peer], [prune, topic], [sub, topic, message]):
        yield order, data
    for kind in (0, 4, 5, 6, 7, 11, 12, 127, 128, 255):
        yield [row(kind)], data
        yield [message, topic, row(kind, 1, (0, 1))], data
        yield [row(GRAFT, None, (0, 1)), row(kind)], b"\xff"


def all_fields():
    """Each field of each kind absent, empty and there; numbers of every length."""
    for kind in (SUB, GRAFT, PRUNE):
        for number in (None, 0, 1, 7, TOP):
            for place in (None, (0, 0), (1, 1), (0, 1), (0, 2), (2, 2)):
                yield [row(kind, number, place)], b"tu"
    for first in (None, (0, 0), (0, 2), (2, 2)):
        for second in (None, (1, 1), (1, 2)):
            yield [row(PRUNE), row(PEER, 9, first, second)], b"\xff\xfe"
    values = sorted({v + d for v in TURNS for d in (-1, 0, 1) if 0 <= v + d <= TOP})
    for v in values:
        yield [row(PRUNE, v)], b""
        yield [row(SUB, v)], b""
    yield [row(PRUNE, v) for v in values], b""
    yield [row(SUB, v) for v in values], b""


def placed_rows():
    """Places about the end of the bytes and about 2^64, of every sort of row, and of fields that a kind does not have."""
    data = b"tuvw"
    spans = [(0, 4), (0, 5), (4, 4), (5, 5), (3, 2), (2, 1), (1, 0), (TOP, TOP), (0, TOP), (TOP, 0), (TOP - 1, TOP), (2**63, 2**63), (2**32, 2**32 + 1), (2**32, 1)]
    for kind in NAMES:
        before = {TOPIC: [row(MESSAGE)], PEER: [row(PRUNE)]}.get(kind, [])
        for span in spans:
            yield [*before, row(kind, own=span)], data
            for n in range(5):
                yield [*before, row(kind, None, *[None] * n, span)], data
        for start in (1, 3, 4):
            for span in ((0, 4 - start), (0, 5 - start), (1, 0), (TOP + 1 - start, TOP + 1 - start), (TOP - start, TOP), (0, TOP), (TOP, TOP), (0, TOP + 1 - start)):
                for n in (0, 1, 4):
                    yield [*before, row(kind, None, *[None] * n, span, own=(start, 4))], data


def order():
    """What comes first: 42 over all rows, 7 over all rows, 11, then messages."""
    bad, out, many = row(GRAFT, None, (1, 2)), row(GRAFT, None, (0, 3)), [row(GRAFT)]
    data = b"t\xff"
    yield [bad, out], data
    yield many * 512 + [bad], data
    yield many * 513 + [out], data
    yield [bad] + many * 513 + [out], data
    yield [row(MESSAGE)] + many * 512, data
    yield [row(MESSAGE), bad], data
    yield [row(MESSAGE)] + [row(GRAFT, None, (0, 1000))] * 66, b"t" * 1000
    yield [row(SUB, None, (1, 2), own=(1, 3))], b"ttt\xff"
    for at in (0, 1, 2):
        yield [row(SUB, None, (0, 1), own=(at, 3)), row(PRUNE, None, (0, 2), own=(0, 0)), row(GRAFT, None, (2 - at, 3 - at), own=(at, at))], b"ab\xc3"
    for text in BROKEN + [b"\xe2\x82\xac\xff"]:
        yield [row(MESSAGE), Row(TOPIC, 1, 1 + len(text))], b"z" + text
        yield [row(PRUNE, None, (0, len(text)))], text
    yield [row(SUB, None, (0, 1)), row(SUB, None, (0, 2))], "\u00e9".encode()


def sizes():
    """About 65,536 bytes, 512 rows and 640, and messages that fill it."""
    for n in (65520, 65523, 65524, 65525, 65526, 65540):
        yield [row(GRAFT, None, (0, n))], b"t" * n
        yield [row(SUB, None, (0, n))], b"t" * n
    for n in (1, 2, 511, 512, 513, 639, 640):
        for kind in (SUB, GRAFT, PRUNE):
            yield [row(kind)] * n, b""
        yield [row(PRUNE)] + [row(PEER)] * (n - 1), b""
        yield [row(MESSAGE)] + [Row(TOPIC)] * (n - 1), b""
    for size in (980, 985, 990, 1000):
        yield [row(GRAFT, None, (0, size))] * 66, b"t" * size
        yield [row(PRUNE, TOP, (0, size)), row(PEER, None, (0, size), (1, size))] * 32, b"t" * size
    rows, data = message_with(data=bytes(4096 - 115))
    for n in (15, 16, 17, 200):
        yield rows * n, data
        yield rows * n + [row(GRAFT, None, (0, 1))], b"t" + data[1:]


def fixed(r):
    """(rows, bytes) of all of these."""
    for part in (at_limits(), mixtures(), all_fields(), placed_rows(), order(), sizes()):
        yield from (one for one in part if fits(*one))
    for _ in range(300):
        yield as_decoded(r)


def fixed_cases(r):
    """Each with much room, with just enough and with a byte less; and the bytes to sign of its messages and of one past them."""
    for case, _ in scope():
        yield case
    for rows, data in fixed(r):
        yield "write", MAX_RPC, rows, data, 0
        rpc, _ = judged(("write", MAX_ROOM, rows, data, 0))
        if rpc is not None:
            size = size_of(rpc)
            yield "write", size, rows, data, 0
            if size:
                yield "write", size - 1, rows, data, 0
        else:
            yield "write", 0, rows, data, 0
        messages = sum(one.kind == MESSAGE for one in rows)
        for index in sorted({0, 1, max(0, messages - 1), messages, 65535} if messages else {0}):
            yield "tosign", MAX_ROOM, rows, data, index
        yield "tosign", 60, rows, data, 0


# --- random lists --------------------------------------------------------------------------------

class Lent:
    """Bytes that are lent, and rows over them. A part is put behind the others, with something between them now and then, or found among them."""

    def __init__(self, r, plain):
        self.r, self.plain, self.data, self.rows = r, plain, b"", []

    def put(self, part):
        if part is None:
            return None
        if not self.plain:
            at = self.data.find(part)
            if at >= 0 and self.r.randrange(3):
                return at, at + len(part)
            if self.r.randrange(8) == 0:
                self.data += blob(self.r, self.r.randrange(4))
        start = len(self.data)
        self.data += part
        return start, start + len(part)

    def add(self, kind, number=None, *fields):
        """A row whose places count from the start of all bytes, until `done`."""
        self.rows.append(row(kind, number, *map(self.put, fields)))

    def topic(self, part):
        self.rows.append(Row(TOPIC, *self.put(part)))

    def done(self):
        """The lists: rows begin anywhere before what they hold, and end anywhere; what a kind does not have may say anything."""
        return [one if self.plain else self.moved(one) for one in self.rows], self.data

    def moved(self, one):
        r, name, start, end = self.r, NAMES[one.kind], one.start, one.end
        if one.kind != TOPIC and r.randrange(2):
            start = r.randrange(min([place[0] for place in one.fields if place is not None] + [len(self.data)]) + 1)
            end = r.randrange(start, len(self.data) + 1)
        fields = [None if place is None else (place[0] - start, place[1] - start) for place in one.fields]
        if r.randrange(6) == 0:
            for n in range(FIELDS[name], 5):
                fields[n] = r.choice((None, (anything(r), anything(r))))
        number = anything(r) if one.number is None and name not in NUMBER and r.randrange(6) == 0 else one.number
        return Row(one.kind, start, end, number, tuple(fields))


def anything(r):
    return r.choice((0, 1, r.randrange(300), r.choice(EDGES), r.getrandbits(64)))


def some_text(r):
    return r.choice(TEXTS) if r.randrange(3) else r.choice((b"ct/brain", b"mr", "\u00e9".encode() * r.randrange(40), r.choice(LONGEST_TOPICS)
                                                            if r.randrange(12) == 0 else b"t" * r.randrange(60)))


def some_bytes(r):
    return blob(r, r.choice((0, 1, 2, 8, 34, 38, r.randrange(120))))


def maybe(r, make):
    return make(r) if r.randrange(4) else None


def some_message(r):
    """[from, data, seqno, signature, key] of a message that may be written."""
    sender = some_sender(r)
    data = r.choice((None, b"", some_bytes(r), some_bytes(r), blob(r, r.randrange(4000)) if r.randrange(10) == 0 else b"d"))
    return [sender, data, blob(r, r.choice((1, 8, 8, 20, 64))), blob(r, 64), (some_key(r, sender) or [None])[0]]


def good(r, plain=False, faulty=None):
    """Lists of any mixture that may be written. `faulty` is asked before each message and may change its fields and its topics."""
    lent, topics, prunes = Lent(r, plain), None, False
    weights = r.choice(((3, 2, 2, 2, 3), (1, 4, 1, 1, 1), (1, 0, 2, 2, 3), (4, 1, 0, 0, 0), (0, 1, 1, 0, 0)))
    for _ in range(r.choice((0, 1, 1, 2, 2, 3, 3, 4, 4, 6, 6, 8, 12, 20))):
        kind = r.choices((SUB, MESSAGE, GRAFT, PRUNE, PEER), weights)[0]
        if topics and r.randrange(2):
            lent.topic(topics.pop(0))
        if kind == MESSAGE:
            while topics:
                lent.topic(topics.pop(0))
            fields, topics = some_message(r), [some_text(r) for _ in range(r.choice((1, 1, 1, 2, 3, 4)))]
            if faulty is not None:
                fields, topics = faulty(r, fields, topics)
            lent.add(MESSAGE, None, *fields)
        elif kind == SUB:
            lent.add(SUB, maybe(r, lambda r: r.choice((0, 1, 1, 2, 7, TOP, anything(r)))), maybe(r, some_text))
        elif kind == GRAFT:
            lent.add(GRAFT, None, maybe(r, some_text))
        elif kind == PRUNE:
            lent.add(PRUNE, maybe(r, lambda r: r.choice((0, 60, anything(r)))), maybe(r, some_text))
            prunes = True
        elif prunes:
            lent.add(PEER, None, maybe(r, some_bytes), maybe(r, some_bytes))
    for topic in topics or ():
        lent.topic(topic)
    return lent.done()


def changed(fields, at, value):
    return [value if n == at else one for n, one in enumerate(fields)]


def unmatched(r, fields):
    sender, key = r.choice(((fields[0], r.choice(KEYS)), (r.choice(HASHES), None), (r.choice(KEYLESS), None), (r.choice(KEYLESS), r.choice(KEYS))))
    return changed(changed(fields, 0, sender), 4, key)


# What makes a message unfit, by the refusal: other fields, and other topics.
UNFIT = {
    21: lambda r, f, t: (changed(f, 0, None), t),
    22: lambda r, f, t: (changed(f, 0, bytes(r.choice((0, 65, 66, 300)))), t),
    34: lambda r, f, t: (changed(f, 0, r.choice(NO_PEERS)), t),
    23: lambda r, f, t: (changed(f, 2, r.choice((None, b"", bytes(65), bytes(300)))), t),
    26: lambda r, f, t: (changed(f, 3, r.choice((None, b"", bytes(63), bytes(65), bytes(128)))), t),
    35: lambda r, f, t: (changed(f, 4, r.choice(NO_KEYS)), t),
    36: lambda r, f, t: (unmatched(r, f), t),
    28: lambda r, f, t: (f, r.choice(([], [b"t"] * 5, [some_text(r) for _ in range(r.randrange(5, 9))]))),
    29: lambda r, f, t: (f, r.sample([b"t" * r.choice((1025, 1026, 1500)), *t[:2]], k=min(3, 1 + len(t[:2])))),
    30: lambda r, f, t: (changed(f, 1, bytes(r.choice((4096, 4097, 5000)))), t),
}


def unfit(r):
    """Lists in which some messages may not be written."""
    wrong = r.sample(list(UNFIT), r.choice((1, 1, 2)))

    def faulty(r, fields, topics):
        for number in wrong if r.randrange(2) else ():
            fields, topics = UNFIT[number](r, fields, topics)
        return fields, topics
    return good(r, r.randrange(2) == 0, faulty)


def replaced(r, rows, make):
    at = r.randrange(len(rows))
    return [*rows[:at], make(rows[at]), *rows[at + 1:]]


def placed(r, one, place):
    """A row with another place among its fields, or another start and end."""
    n = r.randrange(6)
    return one._replace(start=place[0], end=place[1]) if n == 5 else one._replace(fields=tuple(changed(one.fields, n, place)))


# What makes lists 42 or 7, most of the time.
HURT = [
    lambda r, rows, data: (replaced(r, rows, lambda one: placed(r, one, (0, len(data) + r.choice((1, 1, 2, 300))))), data),
    lambda r, rows, data: (replaced(r, rows, lambda one: placed(r, one, (r.randrange(1, 9), 0))), data),
    lambda r, rows, data: (replaced(r, rows, lambda one: placed(r, one, (anything(r), anything(r)))), data),
    lambda r, rows, data: (replaced(r, rows, lambda one: placed(r, one, (clipped(TOP - one.start - r.randrange(-1, 3)), clipped(TOP - one.start + r.randrange(3))))), data),
    lambda r, rows, data: (replaced(r, rows, lambda one: one._replace(kind=r.choice((0, 4, 5, 6, 7, 11, 255, 1, 2, 3, 8, 9, 10)))), data),
    lambda r, rows, data: (r.sample(rows, len(rows)), data),
    lambda r, rows, data: (rows, data[:-1]),
    lambda r, rows, data: (rows, damaged_text(r, rows, data)),
    lambda r, rows, data: (rows, damaged_text(r, rows, data)),
    lambda r, rows, data: (rows + [row(GRAFT, None, (len(data), len(data) + 2))], data + r.choice(BROKEN) + b"\xff"),
]


def damaged_text(r, rows, data):
    found = [place for one in rows if one.kind in NAMES for place in [topic_place(one)] if place and place[0] < place[1] <= len(data)]
    if not found:
        return data
    start, end = r.choice(found)
    at = r.randrange(start, end)
    return data[:at] + bytes([r.choice((0x80, 0xFF, 0xC0))]) + data[at + 1:]


def hurt(r):
    rows, data = good(r, r.randrange(3) == 0)
    for _ in range(r.choice((1, 1, 2)) if rows else 0):
        rows, data = r.choice(HURT)(r, rows, data)
    if rows and r.randrange(12) == 0:
        rows = rows + [rows[0] if rows[0].kind in (SUB, GRAFT, PRUNE) else row(GRAFT)] * r.randrange(500, 600)
    return rows, data


def large(r):
    """Many rows, about the largest size, or longer for places that overlap."""
    n, data = r.choice((1, 3, 60, 66, 200, 510, 511, 512, 513, 514, 640)), b"t" * r.randrange(1, 4000)
    kinds = r.choice(((GRAFT,), (SUB, GRAFT, PRUNE)))
    if r.randrange(3) == 0:
        size = 65536 // n
        return [row(r.choice(kinds), None, (0, min(len(data), max(0, size - r.randrange(4, 14))))) for _ in range(n)], data
    return [row(r.choice(kinds), None, r.choice((None, (0, 0), (0, 1), (r.randrange(len(data)), len(data))))) for _ in range(n)], data


def as_decoded(r):
    """What decode leaves for a body, lent as it is: messages with fields in any order, some twice, fields that are skipped."""
    while True:
        body = b"".join(random_one(r) if r.randrange(2) else within(r, RPC if r.randrange(3) else {1: "sub"}, False) for _ in range(r.randrange(1, 4)))
        try:
            nodes.read(body, "rpc")
        except Refused:
            continue
        return rows_of(body), body


def random_lists(r):
    make = r.choices((good, lambda r: good(r, True), unfit, hurt, large, as_decoded), (60, 14, 12, 10, 1, 8))[0]
    while True:
        rows, data = make(r)
        if fits(rows, data):
            return rows, data


def cases_of(r, rows, data):
    """write, mostly with room for all; and tosign, of a message or one past them."""
    messages = sum(one.kind == MESSAGE for one in rows)
    yield "write", r.choice((MAX_ROOM, MAX_ROOM, MAX_RPC, MAX_RPC, r.randrange(400))) if r.randrange(4) == 0 else MAX_RPC, rows, data, 0
    if messages or r.randrange(8) == 0:
        yield "tosign", MAX_ROOM if r.randrange(8) else r.randrange(300), rows, data, r.choice((r.randrange(messages + 1), max(0, messages - 1)))


def random_cases(r, count):
    for _ in range(count):
        yield from cases_of(r, *random_lists(r))
