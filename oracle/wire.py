"""Records for the program `inspect`, and the line that the Rust's answer makes.

A case is (call, bytes, place): ("walk", body, place), ("varint", bytes, 0),
("utf8", bytes, 0), or one whose bodies and lines are those of bodies.py:
("decode", body, 0), ("encode", body, 0), ("sign", body, index), ("id", body, index);
or one of keys.py: ("key", bytes, 0), ("peer", bytes, 0); or the content of one of
lists.py: ("write", content, 0), ("tosign", content, index).
Everything random comes from one seeded `random.Random`.
"""

from oracle import NUMBER, hexed, unhexed
from places import find_field, with_place
from records import header

KIND = {"decode": 1, "encode": 2, "sign": 3, "id": 4, "walk": 5, "varint": 6, "utf8": 7, "key": 8, "peer": 9, "write": 10, "tosign": 11}
IN_DIALECT = {"decode": 21, "encode": 22, "sign": 23, "id": 24, "walk": 25}
PLACE = {"sign": 2, "id": 2, "walk": 8, "tosign": 2}  # bytes of the number before the body or the lists
MAX_CONTENT = 65600
MAX_BODY = 65536
TOP = 2**64 - 1


def record(case, dialect=None):
    """The record of a case; with a dialect, of the kind that has it before the same content."""
    call, data, place = case
    content = place.to_bytes(PLACE.get(call, 0), "little") + data
    if dialect is None:
        kind = KIND[call]
    else:
        kind, content = IN_DIALECT[call], bytes([dialect]) + content
    assert len(content) <= MAX_CONTENT
    return header(len(content), kind) + content


def command(case):
    """The oracle's command for a case."""
    call, data, place = case
    if call == "walk":
        return "walk %s %d" % (hexed(data), place)
    return {"decode": "decode ", "varint": "uvarint ", "utf8": "utf8 ", "key": "key ", "peer": "peerid "}.get(call, "writes ") + hexed(data)


def answer(asked, told):
    """The line after its number, from the oracle's command and answer. Where a walk is refused comes from places.py; a varint alone has no place."""
    words, told = asked.split(" "), told.split(" ")
    call = {"uvarint": "varint"}.get(words[0], words[0])
    if call == "walk" and words[1] != "-" and len(words[1]) > 2 * MAX_BODY:
        # The Rust has no such limit: the scope's refusal 10.
        return "walk refused 10 %d" % (len(words[1]) // 2)
    if told[0] == "err":
        refused = " ".join(["refused", str(NUMBER[told[1]])] + told[2:])
        return "%s %s" % (call, with_place(refused, find_field, unhexed(words[1]), int(words[2])) if call == "walk" else refused)
    if call == "walk":
        return "walk end" if told == ["end"] else "walk " + " ".join(told[1::2])
    if call == "varint":
        return "varint " + " ".join(told[1:])
    return "utf8 " + {"ok": "yes", "no": "no"}[told[0]]


# --- what the inputs are made of ------------------------------------------

def varint(n):
    out = bytearray()
    while n >= 128:
        out.append(n % 128 + 128)
        n //= 128
    out.append(n)
    return bytes(out)


EDGES = sorted({max(0, min(TOP, 2**k + d)) for k in (0, 7, 14, 21, 28, 29, 31, 32, 35, 42, 49, 56, 61, 63, 64)
                for d in (-2, -1, 0, 1)})
FIELDS = [0, 1, 2, 3, 4, 5, 15, 16, 2047, 2048, 536870910, 536870911, 536870912, 536870913, 2**61 - 1]
TENTH = [0, 1, 2, 3, 0x7F, 0x80, 0x81, 0x82, 0xFF]


def some_varint(r):
    """A varint as it should be, or with something wrong in it."""
    kind = r.randrange(8)
    if kind < 3:
        return varint(r.choice(EDGES))
    if kind == 3:
        return varint(r.getrandbits(r.randrange(65)))
    if kind == 4:  # ten bytes or one to each side of it
        nine = bytes(r.choice((0x80, 0xFF, r.randrange(128, 256))) for _ in range(r.choice((8, 9, 9, 9, 10))))
        return nine + bytes([r.choice(TENTH)])
    if kind == 5:  # padded with zeros
        whole = bytearray(varint(r.choice(EDGES)))
        whole[-1] += 128
        return bytes(whole) + b"\x80" * r.randrange(3) + b"\x00"
    if kind == 6:  # cut
        whole = varint(r.choice(EDGES))
        return whole[:r.randrange(len(whole) + 1)]
    return bytes(r.choice((0, 1, 0x7F, 0x80, 0xFF, r.randrange(256))) for _ in range(r.randrange(13)))


def blob(r, n):
    return bytes(r.getrandbits(8) for _ in range(n))


def good_field(r):
    wire = r.choice((0, 1, 2, 2, 2, 5))
    tag = varint(r.choice((r.randrange(1, 8), r.choice(FIELDS[1:12]), r.randrange(1, 2**29))) * 8 + wire)
    if wire == 0:
        return tag + varint(r.choice(EDGES))
    if wire == 2:
        n = r.choice((0, 1, 2, 3, r.randrange(40), 127, 128) if r.randrange(8) == 0 else (0, 1, 2, 3, 5, 8))
        return tag + varint(n) + blob(r, n)
    return tag + blob(r, 8 if wire == 1 else 4)


def edge_field(r):
    """A tag at an edge, and what may follow it."""
    wire = r.randrange(8)
    tag = varint(r.choice(FIELDS) * 8 + wire) if r.randrange(4) else some_varint(r)
    if wire == 2 and r.randrange(3):
        rest = blob(r, r.randrange(6))
        return tag + varint(r.choice((max(0, len(rest) - 1), len(rest), len(rest) + 1, r.choice(EDGES)))) + rest
    if wire in (1, 5) and r.randrange(3):
        return tag + blob(r, (8 if wire == 1 else 4) + r.randrange(-2, 2))
    return tag + some_varint(r) + blob(r, r.randrange(3))


def damaged(r, data):
    data = bytearray(data)
    for _ in range(r.choice((1, 1, 2))):
        at = r.randrange(len(data) + 1)
        how = r.randrange(5)
        if how == 0:
            data[at:at] = bytes([r.choice((0, 0x80, 0xFF, r.randrange(256)))])
        elif how == 1:
            del data[at:]
        elif at < len(data):
            if how == 2:
                del data[at]
            elif how == 3:
                data[at] ^= 1 << r.randrange(8)
            else:
                data[at] = r.choice((0, 1, 0x7F, 0x80, 0xFF))
    return bytes(data)


def walk_case(r):
    kind = r.randrange(4)
    if kind < 2:
        fields = [good_field(r) for _ in range(r.randrange(1, 5))]
    elif kind == 2:
        fields = [good_field(r) for _ in range(r.randrange(3))] + [edge_field(r)]
    else:
        fields = [edge_field(r) for _ in range(r.randrange(1, 3))]
    starts = [0]
    for field in fields:
        starts.append(starts[-1] + len(field))
    body = b"".join(fields)
    if kind == 1:
        body = damaged(r, body)
    place = r.choice((
        r.choice(starts), r.choice(starts), r.choice(starts[:-1]), starts[-2], r.randrange(len(body) + 1),
        len(body) + r.choice((-1, 0, 1, 2)) if r.randrange(4) == 0 else r.choice(starts[:-1]),
        r.choice(EDGES) if r.randrange(8) == 0 else 0))
    return ("walk", body, max(0, min(TOP, place)))


# The bytes at the edges of the rows of RFC 3629's grammar.
LEADS = [0x00, 0x7F, 0x80, 0xBF, 0xC0, 0xC1, 0xC2, 0xDF, 0xE0, 0xE1, 0xEC, 0xED, 0xEE, 0xEF, 0xF0, 0xF1, 0xF3, 0xF4, 0xF5, 0xF7, 0xF8, 0xFE, 0xFF]
SECONDS = [0x00, 0x7F, 0x80, 0x8F, 0x90, 0x9F, 0xA0, 0xBF, 0xC0, 0xC2, 0xFF]
TAILS = [0x7F, 0x80, 0xBF, 0xC0]
POINTS = [0, 0x7F, 0x80, 0x7FF, 0x800, 0xFFF, 0x1000, 0xCFFF, 0xD000, 0xD7FF, 0xE000, 0xFFFD, 0xFFFF, 0x10000, 0x3FFFF, 0x40000, 0xFFFFF, 0x100000, 0x10FFFF]


def utf8_rows():
    for a in LEADS:
        yield bytes([a])
        for b in SECONDS:
            yield bytes([a, b])
            for c in TAILS:
                yield bytes([a, b, c])
                for d in TAILS:
                    yield bytes([a, b, c, d])
                    yield bytes([a, b, c, d, 0x41])
                    yield bytes([a, b, c, d, 0x80])


def utf8_case(r):
    kind = r.randrange(4)
    if kind == 0:
        data = bytes(r.choice((r.choice(LEADS), r.choice(SECONDS), r.choice(TAILS))) for _ in range(r.randrange(1, 9)))
    else:
        data = b""
        for _ in range(r.randrange(1, 6)):
            point = r.choice(POINTS) if r.randrange(2) else r.randrange(0x110000)
            if not 0xD800 <= point < 0xE000:
                data += chr(point).encode()
        if kind > 1:
            data = damaged(r, data)
    return ("utf8", data, 0)


def varint_case(r):
    return ("varint", some_varint(r) + (blob(r, r.randrange(4)) if r.randrange(2) else b""), 0)


def random_case(r):
    return r.choice((walk_case, walk_case, varint_case, utf8_case))(r)


# --- fixed inputs -----------------------------------------------------------

WALK_BYTES = [0x00, 0x01, 0x02, 0x05, 0x07, 0x08, 0x09, 0x0A, 0x0B, 0x0D, 0x0F, 0x10, 0x12, 0x18, 0x1A, 0x22, 0x7F, 0x80, 0x81, 0x8A, 0xF8, 0xFA, 0xFF]
VARINT_BYTES = [0x00, 0x01, 0x02, 0x40, 0x7E, 0x7F, 0x80, 0x81, 0x82, 0xC0, 0xFE, 0xFF]


def named():
    """The rows of the scope and of its readings, and each refusal."""
    for text, place in [
            ("", 0), ("", 1), ("", TOP), ("1a001a00", 0), ("1a001a00", 2), ("1a001a00", 4), ("1a001a00", 5),
            ("80", 0), ("8000", 0), ("00", 0), ("03", 0), ("0b", 0), ("0c", 0), ("0e", 0), ("0f", 0),
            ("0a0508", 0), ("f8ffffff0f00", 0), ("8080808010", 0), ("08", 0), ("0a", 0), ("09", 0), ("0d00", 0),
            ("0800", 0), ("0d00000000", 0), ("090000000000000000", 0), ("0affffffffffffffffff01", 0),
            ("0a0080", 2), ("0a000b", 2), ("0a000b", 3), ("ffffffffffffffffff01", 0), ("f8ffffffffffffffff01", 0),
            ("08" + "80" * 9 + "00", 0), ("08" + "80" * 9 + "01", 0), ("08" + "80" * 9 + "02", 0),
            ("08" + "80" * 9 + "80", 0), ("08" + "80" * 9 + "81", 0), ("08" + "80" * 9, 0),
            ("08" + "ff" * 9 + "01", 0), ("08" + "80" * 10 + "01", 0), ("80" * 9 + "01", 0), ("80" * 9 + "00", 0)]:
        yield ("walk", bytes.fromhex(text), place)
    for n in EDGES:
        yield ("varint", varint(n), 0)
        yield ("varint", varint(n) + b"\xff", 0)
    for tenth in TENTH:
        yield ("varint", b"\x80" * 9 + bytes([tenth]), 0)
        yield ("varint", b"\xff" * 9 + bytes([tenth]), 0)
        yield ("varint", b"\x80" * 8 + bytes([tenth]), 0)
    yield ("varint", b"\x80" * 9, 0)
    for field in FIELDS:
        for wire in range(8):
            yield ("walk", varint(field * 8 + wire) + bytes(8), 0)
    for wire, size in ((1, 8), (5, 4)):
        for n in range(size + 2):
            yield ("walk", bytes([8 + wire]) + bytes(n), 0)
    for n in range(5):
        yield ("walk", bytes([10, n]) + bytes(3), 0)
    for text in ("eda080", "c080", "f4908080", "f48fbfbf", "", "41", "efbfbf", "ed9fbf"):
        yield ("utf8", bytes.fromhex(text), 0)


def enumerated():
    """All short inputs: 0 to 2 bytes, and 3 bytes of an alphabet."""
    for call in ("walk", "varint", "utf8"):
        yield (call, b"", 0)
        for a in range(256):
            yield (call, bytes([a]), 0)
        for a in range(256):
            for b in range(256):
                yield (call, bytes([a, b]), 0)
    for place in range(5):
        for a in WALK_BYTES:
            for b in WALK_BYTES:
                yield ("walk", bytes([a, b]), place)
    for a in WALK_BYTES:
        for b in WALK_BYTES:
            for c in WALK_BYTES:
                yield ("walk", bytes([a, b, c]), 0)
    for a in VARINT_BYTES:
        for b in VARINT_BYTES:
            for c in VARINT_BYTES:
                yield ("varint", bytes([a, b, c]), 0)
    for data in utf8_rows():
        yield ("utf8", data, 0)


def long(r):
    """Bodies about the limit, and the longest contents."""
    for size in (65535, 65536, 65537, MAX_CONTENT - 8):
        n = size - 4
        fill = b"\x0a" + varint(n) + bytes(n)
        body = fill[:size] + bytes(size - len(fill[:size]))
        for place in (0, 1, size - 1, size, size + 1, TOP):
            yield ("walk", body, place)
        yield ("walk", b"\x0a" + varint(n + 1) + bytes(size - 4), 0)
        yield ("walk", bytes(size), 0)
        yield ("walk", blob(r, size), r.randrange(size))
    for size in (65535, 65536, 65537, MAX_CONTENT):
        yield ("utf8", b"a" * size, 0)
        yield ("utf8", b"a" * (size - 1) + b"\xc2", 0)
        yield ("utf8", "\u20ac".encode() * (size // 3), 0)
        yield ("varint", b"\x80" * size, 0)
        yield ("varint", b"\x01" + blob(r, size - 1), 0)


def then_random(r, count, fixed, one):
    """All of each list in `fixed`, and then `count` random ones made by `one`."""
    for part in fixed:
        yield from part
    for _ in range(count):
        yield one(r)


def cases(r, count):
    return then_random(r, count, (named(), enumerated(), long(r)), random_case)
