"""Public keys and peer ids for the program `inspect`, and the line that the Rust's answer makes.

A case is one of wire.py: ("key", bytes, 0) or ("peer", bytes, 0). The line of a key that is taken has its type and its data, that of a peer
id how it is made and its digest; of what is refused it has 35 or 34 alone, so the Rust's six errors of a key, and its errors of a peer id,
are one answer each. Everything random comes from one seeded `random.Random`.
"""

import peers
from oracle import unhexed
from peers import DIGEST, ID, K, KEY, KEY_TYPES, KEYLESS, KEYS, MAX_INLINE, NO_KEYS, NO_PEERS, identity, key_bytes, sha256
from wire import EDGES, MAX_CONTENT, blob, damaged, some_varint, then_random, varint

TYPES = {"Rsa": 0, "Ed25519": 1, "Secp256k1": 2, "Ecdsa": 3}
HOW = {"0": "identity", "18": "sha256"}


# --- the lines -----------------------------------------------------------------------------

def answer(call, data, told):
    """The line after its number, from the oracle's answer. What it encodes again must be what it was given, or was read as."""
    words = told.split(" ")
    if words[0] == "err":
        return "%s refused %d" % (call, 35 if call == "key" else 34)
    assert words[0] == "ok" and unhexed(words[3].split("=")[1]) in (data, call == "peer" and published(data)), told
    return "%s %s =%s" % (call, TYPES[words[1]] if call == "key" else HOW[words[1]], unhexed(words[2]).hex())


def model(call, data):
    """The same line, from peers.py."""
    if call == "key":
        got = peers.key_of(data)
        return "key refused 35" if got is None else "key %d =%s" % (got[0], got[1].hex())
    got = peers.peer_of(data)
    return "peer refused 34" if got is None else "peer %s =%s" % (got[0], got[1].hex())


def published(data):
    """What the published crate multihash takes bytes for that have a code or a length of ten bytes: of the tenth it keeps one bit. None for all others, which
    it reads as they are."""
    out, rest = b"", data
    for _ in range(2):
        size = next((n for n, byte in enumerate(rest[:10], 1) if byte < 128), None)
        if size is None or (size > 1 and rest[size - 1] == 0):
            return None
        out += varint(sum(byte % 128 << 7 * n for n, byte in enumerate(rest[:size])) % 2**64)
        rest = rest[size:]
    return out + rest if out + rest != data else None


def listed(call, data, told):
    """Whether a peer id that is refused here, and what the Rust says of it, are on the list of docs/DIFFERENCES.md: the published crate reads another one in
    it. The harness's own multihash refuses those."""
    other = published(data) if call == "peer" else None
    return other is not None and told in (model("peer", other), "peer refused 34")


# --- fixed inputs ----------------------------------------------------------------------------

# Rows of the scope, with their lines.
ROWS = [
    ("key", "", "key refused 35"),
    ("key", "08", "key refused 35"),
    ("key", "08041200", "key refused 35"),
    ("key", "0881001200", "key refused 35"),
    ("key", "12000801", "key refused 35"),
    ("key", "0801120000", "key refused 35"),
    ("key", "08011201", "key refused 35"),
    ("key", "080108011200", "key refused 35"),
    ("key", "08001200", "key 0 ="),
    ("key", "0803120100", "key 3 =00"),
    ("key", KEY.hex(), "key 1 =" + K.hex()),
    ("key", "08021220" + K.hex(), "key 2 =" + K.hex()),
    ("key", "ff", "key refused 35"),
    ("key", "414243", "key refused 35"),
    ("key", "080112" + "ff" * 9 + "01", "key refused 35"),
    ("key", "080112" + "80" * 9 + "01", "key refused 35"),
    ("peer", "41", "peer refused 34"),
    ("peer", "67617465", "peer refused 34"),
    ("peer", "41" * 64, "peer refused 34"),
    ("peer", "", "peer refused 34"),
    ("peer", "0000", "peer identity ="),
    ("peer", "0003414243", "peer identity =414243"),
    ("peer", "000408011200", "peer identity =08011200"),
    ("peer", ID.hex(), "peer identity =" + KEY.hex()),
    ("peer", "002a08011226" + "64" * 38, "peer identity =08011226" + "64" * 38),
    ("peer", "002b08011227" + "64" * 39, "peer refused 34"),
    ("peer", ID.hex() + "00", "peer refused 34"),
    ("peer", "1220" + "07" * 32, "peer sha256 =" + "07" * 32),
    ("peer", "12200801121c" + "41" * 28, "peer sha256 =0801121c" + "41" * 28),
    ("peer", "1220" + "07" * 31, "peer refused 34"),
    ("peer", "1220" + "07" * 33, "peer refused 34"),
    ("peer", "1221" + "07" * 33, "peer refused 34"),
    ("peer", "1114" + "07" * 20, "peer refused 34"),
    ("peer", "800000", "peer refused 34"),
    ("peer", "008000", "peer refused 34"),
]


def named():
    """The rows, and lists of what is a key or a peer id and what is none."""
    for call, text, _ in ROWS:
        yield (call, bytes.fromhex(text), 0)
    for data in KEYS + NO_KEYS + [one[2:] for one in KEYLESS]:
        yield ("key", data, 0)
    for data in peers.SENDERS + peers.HASHES + KEYLESS + NO_PEERS:
        yield ("peer", data, 0)


def edges():
    """Keys of each type about the lengths where a varint grows, with a byte more and less; types and lengths as varints of every sort; digests of every
    length, with a byte more and less."""
    for kind in KEY_TYPES:
        for n in (0, 1, 2, 31, 32, 33, 37, 38, 39, 127, 128, 129, 300, 16383, 16384, 65535):
            whole = key_bytes(kind, b"\xa5" * n)
            for data in (whole, whole[:-1], whole + b"\x00", b"\x08" + whole, whole[1:], whole[:2] + whole[3:]):
                if len(data) <= MAX_CONTENT:
                    yield ("key", data, 0)
    for n in (MAX_CONTENT - 6, MAX_CONTENT - 5, MAX_CONTENT - 7):
        yield ("key", (key_bytes(1, bytes(n)))[:MAX_CONTENT], 0)
    for n in EDGES:
        for rest in (b"", b"\x00", b"\x12\x00", bytes(n) if n < 300 else bytes(3)):
            yield ("key", b"\x08" + varint(n) + rest, 0)
            yield ("key", b"\x08\x01\x12" + varint(n) + rest, 0)
            yield ("peer", varint(n) + rest, 0)
            yield ("peer", b"\x00" + varint(n) + rest, 0)
            yield ("peer", b"\x12" + varint(n) + rest, 0)
    # Lengths whose sum with the place before them passes 2^64.
    for n in range(2**64 - 20, 2**64):
        yield ("key", b"\x08\x01\x12" + varint(n), 0)
    for n in range(256):
        for most in {max(0, n - 1), n, n + 1}:
            digest = bytes([n]) * most
            yield ("key", b"\x08\x01\x12" + bytes([n]) + digest, 0)
            for code in (b"\x00", b"\x12", b"\x01", b"\x11", b"\x13", b"\x80\x00", b"\x92\x00", b"\x80\x01", b"\x80"):
                yield ("peer", code + bytes([n]) + digest, 0)
                yield ("peer", code + varint(n) + digest, 0)
    for code in range(256):
        for size in (0, 1, 32, 36, 42, 43):
            yield ("peer", bytes([code, size]) + bytes(size), 0)
    for tag in range(256):
        for kind in range(6):
            yield ("key", bytes([tag, kind, 0x12, 0]), 0)
            yield ("key", bytes([0x08, kind, tag, 0]), 0)


def tenths():
    """Peer ids with a code or a length of ten bytes, of which the tenth is anything."""
    for tenth in range(256):
        for low, rest in ((0, b"\x00"), (0, b"\x04" + key_bytes(1, b"")), (0x12, sha256(b"\x07" * DIGEST)[1:]), (0x12, b"\x20"), (0x11, b"\x00")):
            yield ("peer", ten(low, tenth) + rest, 0)
        for code, low, rest in ((b"\x00", 0, b""), (b"\x00", 4, key_bytes(1, b"")), (b"\x12", 0x20, b"\x07" * DIGEST), (b"\x00", 43, bytes(43))):
            yield ("peer", code + ten(low, tenth) + rest, 0)
            yield ("peer", ten(code[0], 2) + ten(low, tenth) + rest, 0)
        yield ("key", b"\x08" + ten(1, tenth) + b"\x12\x00", 0)
        yield ("key", b"\x08\x01\x12" + ten(0, tenth), 0)
        yield ("key", b"\x08\x01\x12" + ten(1, tenth) + b"\x00", 0)


def ten(low, tenth):
    return bytes([low + 128]) + b"\x80" * 8 + bytes([tenth])


def each(call, alphabet, length):
    rows = [b""]
    for _ in range(length):
        rows = [row + bytes([one]) for row in rows for one in alphabet]
    return ((call, row, 0) for row in rows)


KEY_BYTES = [0, 1, 2, 3, 4, 0x08, 0x12, 0x7F, 0x80, 0x81, 0xFF]
PEER_BYTES = [0, 1, 2, 3, 0x08, 0x11, 0x12, 0x20, 0x2A, 0x80, 0x92]


def enumerated():
    """Every input of up to 2 bytes; of 3 to 5 bytes of an alphabet; and keys that begin as one must, with any type and any length."""
    for call, alphabet in (("key", KEY_BYTES), ("peer", PEER_BYTES)):
        for n in range(3):
            yield from each(call, range(256), n)
        for n in (3, 4):
            yield from each(call, alphabet, n)
    for n in range(4):
        for rest in each("key", KEY_BYTES, n):
            yield ("key", b"\x08\x01\x12" + rest[1], 0)
            yield ("key", b"\x08" + rest[1], 0)
    for kind in range(256):
        for size in range(0, 256, 3):
            yield ("key", bytes([8, kind, 18, size]) + bytes(size), 0)


# --- random inputs ----------------------------------------------------------------------------

LENGTHS = (0, 1, 2, 8, 31, 32, 32, 32, 33, 36, 37, 38, 39, 42, 43, 64, 127, 128, 300)


def some_key(r):
    return key_bytes(r.choice((0, 1, 1, 1, 2, 3)), blob(r, r.choice(LENGTHS)))


def key_case(r):
    how = r.randrange(10)
    if how < 3:
        data = some_key(r)
    elif how < 6:
        data = damaged(r, some_key(r))
    elif how == 6:  # odd types and lengths
        rest = blob(r, r.choice(LENGTHS[:12]))
        size = r.choice((varint(len(rest)), varint(len(rest)), varint(max(0, len(rest) + r.choice((-1, 1)))), some_varint(r)))
        data = b"\x08" + r.choice((b"\x01", varint(r.randrange(6)), some_varint(r))) + b"\x12" + size + rest
    elif how == 7:  # fields in another order, twice, unknown, or with another type
        fields = [b"\x08\x01", b"\x12\x20" + K, b"\x12\x00", b"\x08\x02", b"\x18\x00", b"\x1a\x00", b"\x0a\x01\x01", b"\x10\x00", b""]
        data = b"".join(r.choice(fields) for _ in range(r.randrange(1, 5)))
    elif how == 8:
        data = some_key(r) + r.choice((b"\x00", b"\x08\x01", b"\x12\x00", blob(r, 2)))
    else:
        data = blob(r, r.randrange(12))
    return ("key", data, 0)


def peer_case(r):
    how = r.randrange(10)
    if how < 3:
        data = identity(r.choice((some_key(r), blob(r, r.randrange(MAX_INLINE + 3))))[:r.choice((MAX_INLINE, MAX_INLINE, 64))])
    elif how == 3:
        data = sha256(blob(r, DIGEST))
    elif how < 7:
        data = damaged(r, r.choice((ID, identity(blob(r, r.randrange(MAX_INLINE + 1))), sha256(blob(r, DIGEST)))))
    elif how == 7:  # other codes and lengths
        rest = blob(r, r.choice((0, 1, 20, 32, 32, 36, 42, 43, 63, 64, 65)))
        size = r.choice((varint(len(rest)), varint(len(rest)), varint(max(0, len(rest) + r.choice((-1, 1)))), some_varint(r)))
        data = r.choice((b"\x00", b"\x12", bytes([r.randrange(256)]), varint(r.choice(EDGES)), some_varint(r))) + size + rest
    elif how == 8:
        data = r.choice((b"\x00", b"\x12\x20", b"")) + blob(r, r.randrange(64))
    else:
        data = r.choice(NO_PEERS + KEYLESS)
    return ("peer", data, 0)


def random_case(r):
    return key_case(r) if r.randrange(2) else peer_case(r)


def cases(r, count):
    return then_random(r, count, (named(), edges(), tenths(), enumerated()), random_case)
