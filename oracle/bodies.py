"""Bodies for the calls of the program `inspect` that take one, and the lines that the Rust's answers make.

The values of every line come from the Rust's answer. For `decode` its JSON groups
the records by kind, so the order in which the body has them is found here by
`order`, a walk over the fields that looks at nothing but their numbers, types and
lengths. For `encode`, `sign` and `id` the oracle's `writes` tells all at once.
Where a refusal stands in the body, which the Rust does not tell, is from places.py.
The Rust has edition 1.1; bodies with the field that 1.2 adds to a control are made
here, too, and what 1.2 says of them stands in editions.py. It refuses groups: bodies
with these are made here, and what is said of them where they are skipped stands in
groups.py.
Everything random comes from one seeded `random.Random`.
"""

import itertools

import wire
from oracle import NUMBER, parse_decode
from places import EDITION_ROWS, GROUP_ROWS, MAX_OPEN, MORE_GROUP_ROWS, MORE_ROWS, PATHS, ROWS, TEXT_PATHS, V1_1, V1_2, find, with_place
from wire import EDGES, MAX_BODY, MAX_CONTENT, PLACE, blob, damaged, edge_field, good_field, then_random, varint

MAX_RECORDS = 512
MAX_FROM = 64
ROOM = {"encode": 65536, "sign": 65600, "id": 65536}


# --- the lines, from the Rust's answer ---------------------------------------

def number_at(data, at):
    value, shift = 0, 0
    while True:
        value |= (data[at] & 127) << shift
        shift += 7
        at += 1
        if data[at - 1] < 128:
            return value, at


def fields(data):
    """(field, wire type, content) of bytes that the Rust took, one after the other."""
    at = 0
    while at < len(data):
        tag, at = number_at(data, at)
        if tag % 8 == 2:
            size, at = number_at(data, at)
        start = at
        at = {0: lambda: number_at(data, at)[1], 1: lambda: at + 8, 2: lambda: at + size, 5: lambda: at + 4}[tag % 8]()
        yield tag // 8, tag % 8, data[start:at]


def order(body):
    """Which list of the Rust's answer each next record comes from."""
    for field, kind, content in fields(body):
        if kind != 2:
            continue
        if field == 1:
            yield "subscriptions"
        elif field == 2:
            yield "publish"
        elif field == 3:
            for part, kind, _ in fields(content):
                if kind == 2 and 1 <= part <= 4:
                    yield ("ihave", "iwant", "graft", "prune")[part - 1]


def shown(text):
    return "-" if text is None else "=" + text


def lines_of(name, got):
    """A record's line, and those of the records inside it."""
    if name == "subscriptions":
        flag = {None: "-", False: "0", True: "1"}[got["subscribe"]]
        yield "  sub %s %s" % (flag, shown(got["topic_id"]))
    elif name == "publish":
        yield "  message " + " ".join(shown(got[key]) for key in ("raw", "from", "data", "seqno", "signature", "key"))
        for topic in got["topic_ids"]:
            yield "  topic =" + topic
    elif name == "ihave":
        yield "  ihave " + shown(got["topic_id"])
        for one in got["message_ids"]:
            yield "  id =" + one
    elif name == "iwant":
        yield "  iwant"
        for one in got["message_ids"]:
            yield "  id =" + one
    elif name == "graft":
        yield "  graft " + shown(got["topic_id"])
    else:
        backoff = "-" if got["backoff"] is None else str(got["backoff"])
        yield "  prune %s %s" % (shown(got["topic_id"]), backoff)
        for peer in got["peers"]:
            yield "  peer %s %s" % (shown(peer["peer_id"]), shown(peer["signed_peer_record"]))


def refusal(body, told):
    """Why a body is refused, or None, from an answer that begins `err` or `ok records=N`; without its place."""
    if len(body) > MAX_BODY:
        # The Rust has no such limit, nor one of records: the scope's refusals 10 and 11.
        return "refused 10 %d" % len(body)
    words = told.split(" ")
    if words[0] == "err":
        return " ".join(["refused", str(NUMBER[words[1]])] + words[2:])
    assert words[0] == "ok", told
    records = int(words[1][len("records="):])
    return "refused 11 %d" % records if records > MAX_RECORDS else None


def answer(body, told):
    """The lines for a body from the oracle's answer, the first without its number."""
    refused = with_place(refusal(body, told), find, body)
    if refused:
        return ["decode " + refused]
    _, records, _, rpc = parse_decode(told)
    lists = {"subscriptions": rpc["subscriptions"], "publish": rpc["publish"]}
    lists.update(rpc["control"] or {})
    rest = {name: iter(one) for name, one in lists.items()}
    out = ["decode ok %d %s" % (records, "plain" if rpc["control"] is None else "control")]
    for name in order(body):
        out.extend(lines_of(name, next(rest[name])))
    assert len(out) == records + 1 and all(next(one, None) is None for one in rest.values()), body.hex()
    return out


def written(body, told):
    """The answer to `writes`: (why refused or None, the encoding, [(sign bytes, id)]), all of them texts."""
    refused = with_place(refusal(body, told), find, body)
    if refused:
        return refused, None, []
    encoded, messages = (word.split("=")[1] for word in told.split(" ")[2:])
    return None, encoded, [one.split("/") for one in messages.split(",")] if messages != "none" else []


def output(call, text):
    """A count and the bytes. No answer is longer than the program's buffer, so 12 is never met."""
    n = 0 if text == "-" else len(text) // 2
    assert n <= ROOM[call], call
    return "%s %d %s" % (call, n, text) if n else call + " 0"


def write_line(call, index, got):
    """The line of `encode`, `sign` or `id`, without its number, from what `written` made."""
    refused, encoded, messages = got
    if refused:
        return call + " " + refused
    if call == "encode":
        return output(call, encoded)
    if index >= len(messages):
        return "%s refused 20 %d" % (call, len(messages))
    signed, name = messages[index]
    if call == "sign":
        return output(call, signed)
    if name == "nofrom":
        return "id refused 21"
    size, name = name.split(":")
    if not 1 <= int(size) <= MAX_FROM:
        # The Rust wants a peer id; the lengths are the scope's.
        return "id refused 22 " + size
    return "id refused 23" if name == "noseqno" else output(call, name)


def write_cases(body, got):
    """(case, line): encode, and sign and id of messages 0 and 1, of the last one and of the one after it."""
    asked = [("encode", 0)]
    if len(body) + PLACE["sign"] <= MAX_CONTENT:
        for index in sorted({0, 1, max(0, len(got[2]) - 1), len(got[2])}):
            asked += [("sign", index), ("id", index)]
    for call, index in asked:
        yield (call, body, index), write_line(call, index, got)


# --- what bodies are made of --------------------------------------------------

def tagged(field, data):
    return varint(field * 8 + 2) + varint(len(data)) + data


def counted(field, n):
    return varint(field * 8) + varint(n)


TEXTS = [b"", b"t", b"topic", "\u20ac".encode(), "\U0010ffff".encode(), b"\xed\x9f\xbf", b"\x00"]
BROKEN = [b"\xff", b"\xc0\x80", b"\xed\xa0\x80", b"\xf4\x90\x80\x80", b"a\x80", b"\xc3", b"\xe2\x82", b"\xf0\x9f\x98"]

# What a field of a submessage holds: bytes, text, a number or another submessage.
PARTS = {
    "sub": {1: "number", 2: "text"},
    "message": {1: "bytes", 2: "bytes", 3: "bytes", 4: "text", 5: "bytes", 6: "bytes"},
    "control": {1: "ihave", 2: "iwant", 3: "graft", 4: "prune"},
    "ihave": {1: "text", 2: "bytes"},
    "iwant": {1: "bytes"},
    "graft": {1: "text"},
    "prune": {1: "text", 2: "peer", 3: "number"},
    "peer": {1: "bytes", 2: "bytes"},
}
RPC = {1: "sub", 2: "message", 3: "control"}
# The same by the edition.
PARTS_IN = {V1_1: PARTS, V1_2: {**PARTS, "control": {**PARTS["control"], 5: "idontwant"}, "idontwant": {1: "bytes"}}}


def other_field(r, known):
    """A field that is skipped: an unknown one, or a known one with another type."""
    if r.randrange(2):
        field = r.choice((7, 8, 15, 16, 2047, 2048, 536870911, r.randrange(7, 2**29)))
        kind = r.choice((0, 1, 2, 5))
    else:
        field = r.choice(list(known))
        kind = r.choice((1, 5, 2 if known[field] == "number" else 0))
    if kind == 2:
        return tagged(field, blob(r, r.randrange(5)))
    if kind == 0:
        return counted(field, r.choice(EDGES))
    return varint(field * 8 + kind) + blob(r, 8 if kind == 1 else 4)


def part(r, field, what, spoil, parts=PARTS):
    if what == "number":
        return counted(field, r.choice((0, 1, 2, 127, 128, r.choice(EDGES))))
    if what == "text":
        if spoil and r.randrange(8) == 0:
            return tagged(field, r.choice((b"", b"a")) + r.choice(BROKEN) + r.choice((b"", b"z")))
        return tagged(field, r.choice(TEXTS))
    if what == "bytes":
        n = r.choice((0, 0, 1, 2, 3, 8, r.randrange(40), 127, 128) if r.randrange(12) == 0 else (0, 1, 2, 3))
        return tagged(field, blob(r, n))
    return tagged(field, within(r, parts[what], spoil, parts))


def within(r, known, spoil, parts=PARTS):
    """The bytes of a submessage: known fields, some of them twice, and fields that are skipped."""
    out = []
    for _ in range(r.choice((0, 1, 1, 2, 2, 3, 4, 6))):
        at = r.randrange(12)
        if spoil and at == 0:
            out.append(edge_field(r))
        elif at < 3:
            out.append(other_field(r, known))
        else:
            field = r.choice(list(known))
            out.append(part(r, field, known[field], spoil, parts))
    return b"".join(out)


def random_body(r):
    kind = r.randrange(8)
    body = within(r, RPC, kind > 5)
    return damaged(r, body) if kind in (4, 5) else body


def declining_body(r):
    """A body with the field that 1.2 adds, mostly in several controls: as it should be or with something wrong in it, among other entries and messages."""
    kind, parts = r.randrange(8), PARTS_IN[V1_2]
    spoil, out = kind > 5, []
    for _ in range(r.choice((1, 1, 2, 3))):
        if r.randrange(5) == 0:
            out.append(within(r, RPC, spoil, parts))
            continue
        entries = [part(r, field, parts["control"][field], spoil, parts) for field in r.choices((5, 5, 5, 1, 2, 3, 4), k=r.choice((1, 1, 2, 3, 5)))]
        if r.randrange(6) == 0:
            entries.insert(r.randrange(len(entries) + 1), other_field(r, parts["control"]))
        out.append(tagged(3, b"".join(entries)))
    body = b"".join(out)
    return damaged(r, body) if kind in (4, 5) else body


def topic_bodies(data):
    """A topic in each of the five places that hold one."""
    yield tagged(1, counted(1, 1) + tagged(2, data))
    yield tagged(2, tagged(4, b"t") + tagged(4, data))
    for field in (1, 3, 4):
        yield tagged(3, tagged(field, tagged(1, data)))


LENGTHS = [None, 0, 1, 2, 8, 34, 63, 64, 65, 66, 127, 128]


def random_message(r):
    """A message that often has an id: from and seqno of lengths about the limits."""
    parts = [tagged(field, blob(r, n)) for field in (1, 3) for n in [r.choice(LENGTHS)] if n is not None]
    parts += [part(r, field, PARTS["message"][field], False) for field in r.choices(range(1, 7), k=r.randrange(4))]
    if r.randrange(4) == 0:
        parts.append(other_field(r, PARTS["message"]))
    r.shuffle(parts)
    return tagged(2, b"".join(parts))


def messages_body(r):
    """Up to four messages, sometimes with something else between them."""
    return b"".join(random_message(r) if r.randrange(5) else within(r, RPC, False) for _ in range(r.randrange(1, 5)))


# --- fixed bodies --------------------------------------------------------------

def named():
    """The rows of the scope and of its readings, each kind of record, each refusal."""
    for text in (
            "", "1a001a00", "12060a01410a0142", "80", "8000", "00", "0b", "0a0508", "0a031201ff", "f8ffffff0f00", "8080808010",
            "1a00", "1800", "1a032a0180", "0a0312 02ff", "0a01800b", "0a000b", "08", "0a", "09", "0d00", "03",
            "0affffffffffffffffff01", "08" + "80" * 9 + "00", "08" + "80" * 9 + "01", "08" + "80" * 9 + "02", "08" + "80" * 9,
            "0a00", "0a020800", "0a020801", "0a0b08ffffffffffffffffff01", "0a021200", "0a0408001200", "0a06080108001200",
            "0a0a1201410801120142 0800", "0a020a00", "0a0110", "1200", "12020a00", "1206 12001a002a00", "12083200220022002200",
            "120422014122 00", "1a020a00", "1a040a020a00", "1a060a0412001200", "1a021200", "1a0412020a00", "1a060a021200 1200",
            "1a021a00", "1a041a020a00", "1a022200", "1a0422020a00", "1a0422021800", "1a0d220b18ffffffffffffffffff01",
            "1a0422021200", "1a06220412020a00", "1a08220612040a001200", "1a0a22080a001200 18001200",
            "1a0322010a", "1a0322010f", "1a0322010b", "1a04220212 05", "1a020a000a001200 1a0212001a021a001a022200",
            "1a021a000a00120022001a020a001200", "0a0412021a00", "1a050a0312 01ff", "1a070a050a03eda080", "1a071a050a03c08041",
            "1a082206 0a04f4908080", "1a0822060a04f48fbfbf", "120722 05f490808041", "0a0612 04f490808000", "1a0a1200 1a000a0022001200"):
        yield bytes.fromhex(text.replace(" ", ""))


def placed(edition=V1_1):
    """The rows about the place of a refusal; and each refusal in each message that can have it, behind a field that is taken and before one that is not."""
    for text, _ in ROWS + MORE_ROWS:
        yield bytes.fromhex(text)
    for path in PATHS[edition]:
        for text in ("80", "80" * 9 + "02", "8000", "0a05", "0b", "00"):
            yield enclosed(b"\xa8\x01\x00" + bytes.fromhex(text), path)
    for path in TEXT_PATHS:
        yield enclosed(b"\xa8\x01\x00" + tagged({(1,): 2, (2,): 4}.get(path, 1), b"t\xff"), path)


def enclosed(inner, path):
    """A message in fields of these numbers."""
    for number in reversed(path):
        inner = tagged(number, inner) + b"\x0b"
    return inner


# The topics of the scope: the first three are refused.
TOPICS = [bytes.fromhex(text) for text in ("eda080", "c080", "f4908080", "f48fbfbf")]


def id_bodies():
    """From and seqno of all lengths about the limits, in both orders, alone, twice and in a second message."""
    for m in LENGTHS:
        for n in LENGTHS:
            one = tagged(1, b"f" * m) if m is not None else b""
            two = tagged(3, b"s" * n) if n is not None else b""
            yield tagged(2, one + two)
            yield tagged(2, two + one)
            yield tagged(2, tagged(1, b"F") + tagged(3, b"S") + one + two)
            yield tagged(2, one + two + tagged(1, b"F"))
            yield tagged(2, one + two + tagged(3, b"S"))
            yield tagged(2, tagged(1, b"F") + tagged(3, b"S")) + tagged(2, one + two)
            yield tagged(2, b"") + tagged(2, one + two) + tagged(2, b"\x08\x01")


# The values about which the length of a varint changes, as the rows of crates/peer_id/specs/LengthLaws.antt have them.
TURNS = [0, 1, 127, 128, 2**14 - 1, 2**14, 2**21 - 1, 2**21, 2**28, 2**32 - 1, 2**35, 2**42, 2**49, 2**56 - 1, 2**56, 2**63 - 1, 2**63, 2**64 - 1]


def backoff_bodies():
    """Prunes with a backoff at each of these values and one to each side: alone, before a topic and a peer, twice, and all of them one after the other."""
    values = sorted({v + d for v in TURNS for d in (-1, 0, 1) if 0 <= v + d < 2**64})
    assert {len(varint(v)) for v in values} == set(range(1, 11))
    prunes = []
    for v in values:
        prunes.append(tagged(4, counted(3, v)))
        yield tagged(3, prunes[-1])
        yield tagged(3, tagged(4, counted(3, v) + tagged(2, tagged(1, b"p")) + tagged(1, b"t")))
        yield tagged(3, tagged(4, counted(3, 1) + counted(3, v)))
        yield tagged(3, tagged(4, counted(3, v) + counted(3, 2**64 - 1)))
    yield tagged(3, b"".join(prunes))
    yield tagged(3, b"".join(reversed(prunes)))
    yield b"".join(tagged(3, one) for one in prunes)
    yield b"".join(tagged(3, tagged(3, b"") + one) for one in prunes)


def each(value, n, least=0):
    """All tuples of up to n elements."""
    rows = [b""]
    for size in range(n + 1):
        if size >= least:
            yield from rows
        rows = [row + bytes([one]) for row in rows for one in value]


def enumerated():
    """Every body of up to 2 bytes, every SubOpts, message and control of 2, and short bodies of an alphabet."""
    yield from each(range(256), 2)
    for outer in (0x0A, 0x12, 0x1A):
        for inner in each(range(256), 2, 2):
            yield bytes([outer, 2]) + inner
    for inner in each(wire.WALK_BYTES, 3):
        yield tagged(1, inner)
        yield tagged(2, inner)
        for field in (1, 2, 3, 4):
            yield tagged(3, tagged(field, inner))
        yield tagged(3, tagged(4, tagged(2, inner)))
    for data in wire.utf8_rows():
        yield from topic_bodies(data)


def entries():
    """An entry of each kind, empty and with something in it, two of field 5, and fields 5 of other types."""
    yield from (tagged(field, b"") for field in range(1, 6))
    yield from (tagged(1, tagged(1, b"t") + tagged(2, b"i")), tagged(2, tagged(1, b"i")), tagged(3, tagged(1, b"t")), tagged(4, tagged(2, tagged(1, b"p"))))
    yield from (tagged(5, tagged(1, b"i")), tagged(5, tagged(1, b"") + tagged(2, b"x") + tagged(1, b"j")), counted(5, 7), b"\x29" + bytes(8), b"\x2d" + bytes(4))


def declined():
    """Bodies about the field that 1.2 adds: its rows, every entry of up to 2 bytes, entries beside one another in one control and in two, ids of all lengths, and
    the number 5 in every other message."""
    for text, *_ in EDITION_ROWS:
        yield bytes.fromhex(text)
    for body in placed(V1_2):
        yield body
    for inner in each(range(256), 2):
        yield tagged(3, tagged(5, inner))
    for inner in each(wire.WALK_BYTES, 3, 3):
        yield tagged(3, tagged(5, inner))
    for inner in each(wire.WALK_BYTES, 2):
        yield tagged(3, b"\x2a" + inner)
        yield tagged(3, tagged(5, inner) + b"\x22\x00")
    for one in entries():
        for other in entries():
            yield tagged(3, one + other)
            yield tagged(3, one) + tagged(3, other)
            yield tagged(3, one + tagged(5, tagged(1, b"k")) + other) + tagged(2, one)
    for size in (0, 1, 2, 39, 126, 127, 128, 129, 300, 16384):
        yield tagged(3, tagged(5, tagged(1, b"i" * size)))
        yield tagged(3, tagged(5, tagged(1, b"i" * size) * 3)) + tagged(2, tagged(5, b"s" * size))
    for path in PATHS[V1_2]:
        yield enclosed(tagged(5, b"\x80"), path).replace(b"\x0b", b"")


def declined_long():
    """The same about the largest size, and about the most records."""
    for size in (65535, 65536, 65537, MAX_CONTENT - 3):
        yield tagged(3, tagged(5, bytes(size - 8)))
        yield tagged(3, tagged(5, tagged(1, bytes(size - 12))))
        yield tagged(3, tagged(5, b"\x0a\x00" * ((size - 8) // 2)))
    for n in (510, 511, 512, 513, 600):
        ids = b"\x0a\x00" * (n - 1)
        yield tagged(3, tagged(5, ids))
        yield tagged(3, b"\x2a\x00" * n)
        yield tagged(3, b"\x2a\x00") * n
        yield tagged(3, tagged(2, ids[:n]) + tagged(5, ids[:n]))
        yield tagged(1, b"") * (n // 2) + tagged(3, b"\x2a\x02\x0a\x00" * (n // 4))
        yield tagged(3, tagged(5, ids) + b"\x0b")
        yield tagged(3, tagged(5, ids + b"\x80"))


def filled(size, field):
    """One field of so many bytes."""
    n = size - 4
    return varint(field * 8 + 2) + varint(n) + bytes(n)


def long(r):
    """Bodies about the largest size, and about the most records."""
    for size in (65535, 65536, 65537, MAX_CONTENT):
        for field in (1, 2, 3, 4):
            yield filled(size, field)
        yield b"\x0a\x00" * (size // 2) + b"\x0a" * (size % 2)
        yield b"\x08\x00" * (size // 2) + b"\x08" * (size % 2)
        yield tagged(2, tagged(2, bytes(size - 8)))
        yield tagged(2, tagged(4, b"t" * (size - 8)))
        yield tagged(2, tagged(4, b"t" * (size - 9) + b"\xff"))
        yield tagged(3, tagged(1, tagged(2, bytes(size - 12))))
        yield blob(r, size)
        yield b"\x0b" + bytes(size - 1)
    for n in (511, 512, 513):
        for one in (b"\x0a\x00", b"\x12\x00", b"\x1a\x02\x0a\x00", b"\x1a\x02\x12\x00", b"\x1a\x02\x1a\x00", b"\x1a\x02\x22\x00", b"\x12\x02\x22\x00"):
            k = 2 if one == b"\x12\x02\x22\x00" else 1
            yield one * (n // k) + b"\x0a\x00" * (n % k)
        yield tagged(2, tagged(4, b"t") * (n - 1))
        yield tagged(3, tagged(1, tagged(2, b"i") * (n - 1)))
        yield tagged(3, tagged(2, tagged(1, b"") * (n - 1)))
        yield tagged(3, tagged(4, tagged(2, b"") * (n - 1)))
        yield tagged(3, b"\x0a\x00\x12\x00\x1a\x00\x22\x00" * (n // 4)) + b"\x12\x00" * (n % 4)
        yield tagged(1, tagged(2, b"t")) * (n - 1) + tagged(2, tagged(1, b"f"))
        for end in (b"\x0b", b"\x80", b"\x00", b"\x0a\x05", b"\x0a\x03\x12\x01\xff", b"\x1a\x00", b"\x20\x00"):
            yield b"\x0a\x00" * n + end
        for _ in range(20):
            yield many(r, n)
    yield b"\x0a\x00" * 513 + bytes(65537 - 1026)


def many(r, n):
    """A body of n records of random kinds, or of a few more."""
    body, left = b"", n
    while left > 0:
        k = min(left, r.choice((1, 1, 2, 3, 50)))
        rest = k - 1
        body += r.choice((
            lambda: tagged(1, tagged(2, r.choice(TEXTS))) * k,
            lambda: tagged(2, tagged(1, blob(r, 2)) + tagged(4, r.choice(TEXTS)) * rest),
            lambda: tagged(3, tagged(1, tagged(2, blob(r, 1)) * rest)),
            lambda: tagged(3, tagged(2, tagged(1, blob(r, 1)) * rest)),
            lambda: tagged(3, tagged(3, b"")) * k,
            lambda: tagged(3, tagged(4, tagged(2, tagged(1, b"p")) * rest))))()
        left -= k
    return body


def bodies(r, count):
    return then_random(r, count, (named(), placed(), enumerated(), long(r), declined(), declined_long()), some_body)


def some_body(r):
    return declining_body(r) if r.randrange(5) == 0 else random_body(r)


def of_editions(r, count):
    """Bodies for both editions: all about the field that 1.2 adds, some of the others, and random ones that mostly have it."""
    def mostly(r):
        return r.choice((declining_body, declining_body, declining_body, random_body, messages_body))(r)
    some = itertools.islice(enumerated(), 0, None, 29)
    few = itertools.islice(long(r), 0, None, 7)
    return then_random(r, count, (declined(), declined_long(), named(), some, few, id_bodies(), backoff_bodies()), mostly)


# --- groups ------------------------------------------------------------------------

def start_tag(number):
    return varint(number * 8 + 3)


def end_tag(number):
    return varint(number * 8 + 4)


def group(number, inner=b""):
    return start_tag(number) + inner + end_tag(number)


def chain(numbers, inner=b""):
    """Groups of these numbers, each in the one before it."""
    for number in reversed(numbers):
        inner = group(number, inner)
    return inner


def nested(inner, path):
    """A message in fields of these numbers."""
    for number in reversed(path):
        inner = tagged(number, inner)
    return inner


GROUP_NUMBERS = (1, 1, 2, 3, 4, 5, 6, 7, 15, 16, 2047, 2048, 536870911)


def other_end(r, number):
    """What may stand where a group is to end: nothing, another end, two, one that is longer than it needs to be, or a start."""
    return r.choice((b"", end_tag(number % 7 + 1), end_tag(number) * 2, bytes([number % 16 * 8 + 132, 0]), start_tag(number), end_tag(r.choice(GROUP_NUMBERS)), b"\x04"))


def some_group(r, levels, spoil, parts):
    """A group: in it fields as messages have them, right or wrong inside, and groups again. Where it is spoilt it may have another end, or a field that is none."""
    number, inner = r.choice(GROUP_NUMBERS), []
    for _ in range(r.choice((0, 0, 1, 1, 2, 3))):
        how = r.randrange(8)
        if how < 3 and levels:
            inner.append(some_group(r, levels - 1, spoil, parts))
        elif how < 6:
            known = r.choice((RPC, *parts.values()))
            field = r.choice(list(known))
            inner.append(part(r, field, known[field], True, parts))
        else:
            inner.append(edge_field(r) if spoil and how == 7 else good_field(r))
    return start_tag(number) + b"".join(inner) + (other_end(r, number) if spoil and r.randrange(4) == 0 else end_tag(number))


def some_chain(r):
    """Groups about the most that may stand open, with something in the innermost; now and then one of them does not end."""
    numbers = [r.choice(GROUP_NUMBERS[:6]) for _ in range(MAX_OPEN + r.choice((-2, -1, -1, 0, 0, 0, 1, 1, 2)))]
    inner = r.choice((b"", b"", good_field(r), edge_field(r), b"\x80", b"\x00", b"\x03", b"\x0e", b"\x0a\x05", tagged(3, group(1) * 3)))
    whole = chain(numbers, inner)
    return whole[:-r.choice((1, 2, 5, 32))] if r.randrange(6) == 0 else whole


def among_groups(r, what, spoil, parts):
    """The bytes of a message, with groups among its fields and among those of the messages in it."""
    known, out = parts.get(what, RPC), []
    for _ in range(r.choice((0, 1, 1, 2, 2, 3, 4))):
        how = r.randrange(12)
        if how < 4:
            out.append(some_group(r, r.choice((0, 1, 1, 2, 3)), spoil, parts))
        elif how == 4 and r.randrange(6) == 0:
            out.append(some_chain(r))
        elif how < 6:
            out.append(edge_field(r) if spoil else other_field(r, known))
        else:
            field = r.choice(list(known))
            out.append(tagged(field, among_groups(r, known[field], spoil, parts)) if known[field] in parts else part(r, field, known[field], spoil, parts))
    return b"".join(out)


def grouped_body(r):
    """A body with groups in any of its messages: as they should be, with something wrong, or damaged."""
    kind = r.randrange(10)
    body = among_groups(r, "rpc", kind > 6, PARTS_IN[V1_2])
    return damaged(r, body) if kind in (5, 6) else body


def grouped_message(r):
    """A message that often has an id, with groups among its fields."""
    parts = [tagged(field, blob(r, n)) for field in (1, 3) for n in [r.choice(LENGTHS)] if n is not None]
    parts += [part(r, field, PARTS["message"][field], False) for field in r.choices(range(1, 7), k=r.randrange(3))]
    parts += [some_group(r, r.choice((0, 1, 2)), False, PARTS) for _ in range(r.choice((1, 1, 2)))]
    r.shuffle(parts)
    return tagged(2, b"".join(parts))


def grouped_messages(r):
    """Up to three messages, with groups in them and between them."""
    return b"".join(r.choice((grouped_message, grouped_message, random_message, lambda r: some_group(r, 1, False, PARTS)))(r) for _ in range(r.randrange(1, 4)))


# Tags of groups with the numbers 1, 2 and 3, in one byte and in two; others; a length; what is refused.
GROUP_BYTES = [0x0B, 0x0C, 0x13, 0x14, 0x1B, 0x1C, 0x03, 0x04, 0x08, 0x0A, 0x12, 0x1A, 0x0E, 0x00, 0x01, 0x02, 0x80, 0x83, 0x84]
FEW_BYTES = [0x0B, 0x0C, 0x13, 0x14, 0x0A, 0x01, 0x12]


def group_rows():
    for text, *_ in GROUP_ROWS + MORE_GROUP_ROWS:
        yield bytes.fromhex(text)


def deep_bodies():
    """Groups about the most that may stand open, in each message: with all their ends, with one end less or more, and with each refusal in the innermost."""
    for path in PATHS[V1_2]:
        for depth in range(MAX_OPEN - 1, MAX_OPEN + 3):
            for number in (1, 4, 16, 536870911):
                yield nested(chain([number] * depth), path)
            whole = chain([n % 7 + 1 for n in range(depth)])
            yield from (nested(some, path) for some in (whole, whole[:-1], whole + b"\x0c", whole[:depth], whole + whole, b"\xa8\x01\x00" + whole + b"\xa8\x01\x00"))
            for text in ("80", "80" * 9 + "02", "8000", "0a05", "0e", "00", "03", "04", "0c", "14", "0a00", "1a020b0c", "0d00"):
                yield nested(chain([1] * depth, bytes.fromhex(text)), path)
    # Depth begins anew in a message, and goes on behind one that is only skipped.
    for depth in (1, MAX_OPEN - 1, MAX_OPEN):
        for inner in (MAX_OPEN - 1, MAX_OPEN, MAX_OPEN + 1):
            yield chain([2] * depth) + tagged(3, chain([1] * inner)) + chain([3] * depth)
            yield chain([2] * depth, tagged(3, chain([1] * inner)))
            yield tagged(3, chain([2] * depth) + tagged(4, chain([1] * inner) + tagged(2, chain([5] * inner))))


def placed_groups():
    """Each refusal in a group, in each message, behind a field that is taken and before one that is not; and a group that passes the end of its message."""
    for path in PATHS[V1_2]:
        for text in ("80", "80" * 9 + "02", "8000", "0a05", "0e", "0f", "00", "08", "0d00", "0c", "14", "0b", "0b0c", "0b0c0c", "13140c", "0c80", "1a80", "a80100"):
            for inner in (bytes.fromhex(text), b"\x0b" + bytes.fromhex(text), b"\x0b" + bytes.fromhex(text) + b"\x0c", group(7) + bytes.fromhex(text)):
                yield enclosed(b"\xa8\x01\x00" + inner, path)
                yield nested(inner, path) + group(1)
    for path in TEXT_PATHS:
        text = tagged({(1,): 2, (2,): 4}.get(path, 1), b"t\xff")
        for inner in (group(1, text), group(1) + text, group(1, text) + text, group(4, b"\x22") + text):
            yield nested(inner, path)


def group_bodies():
    """Bodies with groups: the rows, all short ones of an alphabet, at the top and in every message; groups of known numbers and of unknown ones beside the fields
    of each message; depths about the most, and each refusal in and about a group."""
    yield from group_rows()
    yield from each(GROUP_BYTES, 3)
    yield from each(FEW_BYTES, 5, 4)
    for path in PATHS[V1_2][1:]:
        for inner in each(GROUP_BYTES, 2):
            yield nested(inner, path)
        for inner in each(FEW_BYTES, 3, 3):
            yield nested(inner, path)
            yield nested(inner, path) + b"\x0c"
    for number in sorted({*GROUP_NUMBERS, *range(1, 20)}):
        for inner in (b"", tagged(number, b"\xff"), counted(number, 1), group(number), group(number, group(number)), group(number + 1 if number < 2**29 - 1 else 1)):
            for path in PATHS[V1_2]:
                yield nested(group(number, inner), path)
                yield nested(tagged(15, b"x") + group(number, inner) + tagged(1, b""), path)
    yield from deep_bodies()
    yield from placed_groups()
    for inner in entries():
        yield tagged(3, group(5, inner) + inner) + group(3, inner) + tagged(2, group(2, inner))


def group_long():
    """Groups about the largest size and the most records, which they are none of: one of many fields, many of few, one in another at every place."""
    for size in (65535, 65536, 65537, MAX_CONTENT - 9):
        n = size - 2
        yield b"\x0b" + b"\x08\x00" * (n // 2) + b"\x09"[:n % 2] + b"\x0c"
        yield b"\x0b" + b"\x08\x00" * (n // 2) + b"\x0a" * (n % 2) + b"\x0c"
        yield group(1) * (size // 2) + b"\x0b" * (size % 2)
        yield b"\x0b" * size
        yield b"\x0b" + b"\x0a" + varint(size - 6) + bytes(size - 6) + b"\x0c"
        yield tagged(2, group(1, b"\x08\x00" * ((size - 8) // 2)))
        yield (chain([1] * MAX_OPEN) * 1025)[:size]
        yield b"\x0b" * (MAX_OPEN - 1) + group(2) * ((size - 62) // 2) + b"\x0c" * (MAX_OPEN - 1)
    for n in (511, 512, 513, 600):
        yield b"\x0a\x00" * n + group(1, b"\x0a\x00" * n)
        yield group(1, b"\x0a\x00" * n) + b"\x0a\x00" * (n - 1)
        yield tagged(3, group(2, b"\x0a\x00" * n) + b"\x12\x00" * n)
        yield tagged(2, (tagged(4, b"t") + group(4, tagged(4, b"u"))) * (n - 1))
        yield b"\x0a\x00" * n + b"\x0b"
        yield b"\x0a\x00" * n + b"\x0c"


def of_groups(r, count):
    """Bodies for both modes: all with groups that are fixed, some of the others, and random ones that mostly have groups."""
    def mostly(r):
        return r.choice((grouped_body, grouped_body, grouped_body, grouped_messages, random_body, declining_body))(r)
    some = itertools.islice(enumerated(), 0, None, 97)
    few = itertools.islice(long(r), 0, None, 11)
    return then_random(r, count, (group_bodies(), group_long(), named(), placed(V1_2), declined_long(), some, few), mostly)
