"""Peer ids and public keys, from the sentences of the libp2p peer id document; and senders for histories.

"Keys are encoded in a protobuf": `PublicKey` has the fields Type (1) and Data (2), both required, and KeyType is RSA 0,
Ed25519 1, Secp256k1 2, ECDSA 3. The encoding is deterministic: both fields in their order, numbers as short as they can be,
and nothing else. "The peer ID is a multihash": of an encoded key of at most 42 bytes the identity, else its SHA-256. A
multihash is its code, the length of its digest, and the digest.

Nothing is parsed here. What bytes mean is found by encoding: bytes are a key where some type and some of their last bytes
encode to them, and a peer id where some digest makes them. The order of the refusals is the scope's; what admission asks of
a sender and its key stands here once, for nodes.py and for caches.py.
"""

import hashlib

from wire import varint

KEY_TYPES = (0, 1, 2, 3)
MAX_INLINE = 42
DIGEST = 32

NOT_PEER_ID, INVALID_KEY, KEY_MISMATCH = 34, 35, 36


# --- keys and peer ids -----------------------------------------------------------------

def key_bytes(kind, data):
    """A public key: field 1, a number; field 2, bytes."""
    return b"\x08" + varint(kind) + b"\x12" + varint(len(data)) + data


def key_of(data):
    """(type, data) of an encoded key; None where the bytes are none. A length has at most ten bytes."""
    return next(((kind, data[at:]) for kind in KEY_TYPES for at in range(4, min(len(data), 13) + 1) if key_bytes(kind, data[at:]) == data), None)


def identity(digest):
    return b"\x00" + varint(len(digest)) + digest


def sha256(digest):
    return b"\x12" + varint(len(digest)) + digest


def peer_of(data):
    """("identity" or "sha256", digest) of a peer id; None where the bytes are none."""
    digest = data[2:]
    if len(digest) <= MAX_INLINE and identity(digest) == data:
        return "identity", digest
    return ("sha256", digest) if len(digest) == DIGEST and sha256(digest) == data else None


def mismatch(sender, key):
    """35 or 36 where a peer id and a key, None for no key, may not stand in one message; else None."""
    how, digest = peer_of(sender)
    if key is not None and key_of(key) is None:
        return INVALID_KEY
    if how == "sha256":
        # That the key hashes to the digest is in the host's word.
        return KEY_MISMATCH if key is None else None
    if key is not None:
        return KEY_MISMATCH if key != digest else None
    return KEY_MISMATCH if key_of(digest) is None else None


# --- senders -----------------------------------------------------------------------------

K = bytes.fromhex("1ed1e8fae2c4a144b8be8fd4b47bf3d3b34b871c3cacf6010f0e42d474fce27e")
KEY = key_bytes(1, K)
A = ID = identity(KEY)  # the scope's
B = identity(key_bytes(1, bytes(range(32))))  # another whole one
F = identity(key_bytes(1, b""))  # the shortest
LONGEST = identity(key_bytes(1, b"f" * 38))
RSA, SECP, ECDSA = (identity(key_bytes(kind, data)) for kind, data in ((0, b"r"), (2, b"\x02" + K[:31]), (3, b"")))
HASHED = sha256(b"\x07" * DIGEST)
RSA_KEY = key_bytes(0, bytes(300))
WHOLE = sha256(hashlib.sha256(RSA_KEY).digest())
DECODES = sha256(key_bytes(1, b"A" * 28))  # its digest is a key by chance
assert len(ID) == 38 and len(LONGEST) == 44 and len(F) == 6 and peer_of(DECODES)[0] == "sha256"

SENDERS = [A, B, F, LONGEST, RSA, SECP, ECDSA]  # each has its key in it
HASHES = [HASHED, WHOLE, DECODES]  # these need a key beside them
KEYS = [KEY, key_bytes(1, b""), RSA_KEY, key_bytes(2, K), key_bytes(3, b"\x00"), key_bytes(1, bytes(38)), key_bytes(1, bytes(39))]

# Of 1 to 64 bytes, and no peer ids.
NO_PEERS = [bytes.fromhex(text) for text in (
    "41", "67617465", "41" * 64, "00", "12", "0001", "00014142", "0100", "800000", "008000", "000080", "001220", "1220", "1200", "8012",
    "920020" + "07" * 32, "12a000" + "07" * 32, "00a40008011220" + K.hex())] + [
    identity(b"d" * 43), identity(bytes(62)), identity(b"d" * 42)[:-1], identity(b"d" * 42) + b"d", ID + b"\x00", ID[:-1], ID[1:], KEY, K, b"\x00" + ID,
    sha256(bytes(31)), sha256(bytes(33)), sha256(bytes(32)) + b"\x07", sha256(bytes(32))[:-1], b"\x12\x20" + bytes(31), b"\x12\x20" + bytes(33),
    b"\x12\x21" + bytes(33), b"\x11\x14" + bytes(20), b"\x13\x40" + bytes(62), b"\x00\x2b" + bytes(42), b"\x01\x20" + bytes(32), b"gate-1", b"host.example.org"]

# Identities whose digest is no key.
KEYLESS = [identity(digest) for digest in (b"", b"ABC", b"\x08", b"\x08\x01", b"\x08\x04\x12\x00", b"\x08\x01\x12\x01", b"\x08\x01\x12\x00\x00", K, bytes(42),
                                           KEY + b"\x00", KEY[:-1], b"\x08\x81\x00" + KEY[2:], b"\x08\x01\x12\xa0\x00" + K, b"\x12\x20" + K + b"\x08\x01")]

# No keys, but for the empty one of at least a byte.
NO_KEYS = [bytes.fromhex(text) for text in (
    "", "08", "0801", "080112", "08041200", "0881001200", "12000801", "0801120000", "08011201", "080108011200", "0801128000", "ff",
    "414243", "0901120141", "080a1200", "0880011200", "08011a00", "0801120141ff", "00", "0a001200", "0800" + "12" + "ff" * 9 + "01",
    "080112" + "80" * 9 + "01", "080112" + "ff" * 9 + "01", "080112" + "80" * 9 + "02", "080112" + "80" * 10, "08" + "ff" * 9 + "01" + "1200")] + [
    KEY + b"\x00", KEY[:-1], KEY[:1], b"\x00" + KEY, KEY + KEY, ID, K]
assert not any(map(peer_of, NO_PEERS)) and not any(map(key_of, NO_KEYS)) and all(map(key_of, KEYS)) and all(map(peer_of, SENDERS + HASHES + KEYLESS))

# X of the scope with other fields, as `x_with` of caches.py takes them, and what admission answers with the host's word. Without it `new` becomes 27, and
# every other answer stays.
ROWS = [
    ({}, "new"),
    ({"from_": [b"A"]}, "refused 34"),
    ({"from_": [b"gate"]}, "refused 34"),
    ({"from_": [b"A" * 64]}, "refused 34"),
    ({"from_": [b"A" * 65]}, "refused 22 65"),
    ({"from_": [b""]}, "refused 22 0"),
    ({"from_": [b"A"], "seqno": []}, "refused 34"),
    ({"seqno": []}, "refused 23"),
    ({"from_": [b"\x00\x00"]}, "refused 36"),
    ({"from_": [b"\x00\x03ABC"]}, "refused 36"),
    ({"from_": [b"\x00\x03ABC"], "key": [b"ABC"]}, "refused 35"),
    ({"from_": [bytes.fromhex("000408011200")]}, "new"),
    ({"from_": [bytes.fromhex("002a08011226") + b"d" * 38]}, "new"),
    ({"from_": [b"\x00\x2b" + bytes.fromhex("08011227") + b"d" * 39]}, "refused 34"),
    ({"from_": [ID + b"\x00"]}, "refused 34"),
    ({"from_": [b"\x12\x20" + b"\x07" * 31]}, "refused 34"),
    ({"from_": [b"\x12\x20" + b"\x07" * 33]}, "refused 34"),
    ({"from_": [b"\x12\x21" + b"\x07" * 33]}, "refused 34"),
    ({"from_": [b"\x11\x14" + b"\x07" * 20]}, "refused 34"),
    ({"from_": [b"\x80\x00\x00"]}, "refused 34"),
    ({"key": [KEY]}, "new"),
    ({"key": [b"\x08\x02\x12\x20" + K]}, "refused 36"),
    ({"key": [b"\xff"]}, "refused 35"),
    ({"key": [b""]}, "refused 35"),
    ({"key": [b"\xff"], "signature": [bytes(63)]}, "refused 26 63"),
    ({"key": [b"\xff"], "signature": []}, "refused 24"),
    ({"from_": [HASHED]}, "refused 36"),
    ({"from_": [HASHED], "key": [b"\xff"]}, "refused 35"),
    ({"from_": [HASHED], "key": [KEY]}, "new"),
    ({"from_": [bytes.fromhex("12200801121c") + b"A" * 28]}, "refused 36"),
    ({"topic": [b"t"] * 5, "key": [b"\x08\x02\x12\x20" + K]}, "refused 36"),
]

# What else is easily mistaken: what comes first, keys that begin alike, keys and senders given twice.
MORE_ROWS = [
    ({"from_": [b"A"], "signature": []}, "refused 34"),
    ({"from_": [b"A"], "signature": [], "key": [b"\xff"]}, "refused 34"),
    ({"from_": [b"A"], "signature": [bytes(63)]}, "refused 34"),
    ({"from_": [b"A"], "key": [b"\xff"]}, "refused 34"),
    ({"from_": [b"A"], "topic": []}, "refused 34"),
    ({"from_": [b"\x00\x00"], "seqno": [], "key": [b"\xff"]}, "refused 23"),
    ({"from_": [b"\x00\x00"], "signature": []}, "refused 25"),
    ({"from_": [HASHED], "signature": []}, "refused 25"),
    ({"from_": [HASHED], "signature": [], "key": [b"\xff"]}, "refused 24"),
    ({"from_": [HASHED], "signature": [bytes(65)]}, "refused 26 65"),
    ({"from_": [b"\x00\x00"], "key": [b"\xff"]}, "refused 35"),
    ({"from_": [b"\x00\x00"], "key": [b""]}, "refused 35"),
    ({"from_": [b"\x00\x00"], "key": [KEY]}, "refused 36"),
    ({"from_": [HASHED], "key": [b""]}, "refused 35"),
    ({"from_": [DECODES], "key": [DECODES[2:]]}, "new"),
    ({"from_": [DECODES], "key": [b"\xff"]}, "refused 35"),
    ({"from_": [HASHED], "key": [key_bytes(1, b"")]}, "new"),
    ({"from_": [HASHED], "key": [RSA_KEY]}, "new"),
    ({"from_": [WHOLE], "key": [RSA_KEY]}, "new"),
    ({"from_": [WHOLE], "key": [KEY]}, "new"),
    ({"from_": [WHOLE]}, "refused 36"),
    ({"key": [KEY[:-1]]}, "refused 35"),
    ({"key": [KEY + b"\x00"]}, "refused 35"),
    ({"key": [key_bytes(1, K[:-1])]}, "refused 36"),
    ({"key": [key_bytes(1, K + b"\x00")]}, "refused 36"),
    ({"key": [key_bytes(1, K[:-1] + b"\x7f")]}, "refused 36"),
    ({"key": [b"\x08\x01\x12\xa0\x00" + K]}, "refused 35"),
    ({"key": [b"\x08\x04\x12\x20" + K]}, "refused 35"),
    ({"from_": [F], "key": [key_bytes(1, b"")]}, "new"),
    ({"from_": [F], "key": [key_bytes(1, b"A")]}, "refused 36"),
    ({"from_": [F], "key": [key_bytes(0, b"")]}, "refused 36"),
    ({"from_": [identity(b"\x08\x04\x12\x00")]}, "refused 36"),
    ({"from_": [identity(KEY + b"\x00")]}, "refused 36"),
    ({"from_": [identity(KEY + b"\x00")], "key": [KEY]}, "refused 36"),
    ({"from_": [RSA]}, "new"),
    ({"from_": [SECP]}, "new"),
    ({"from_": [ECDSA], "key": [ECDSA[2:]]}, "new"),
    ({"from_": [b"A", ID]}, "new"),
    ({"from_": [ID, b"A"]}, "refused 34"),
    ({"key": [b"\xff", KEY]}, "new"),
    ({"key": [KEY, b"\xff"]}, "refused 35"),
    ({"key": [KEY, key_bytes(1, b"")]}, "refused 36"),
    ({"topic": [], "key": [b"\xff"]}, "refused 35"),
    ({"topic": [b"t" * 1025], "key": [key_bytes(1, b"")]}, "refused 36"),
    ({"data": [bytes(4096)], "key": [b"\xff"]}, "refused 35"),
    ({"data": [bytes(4096)], "from_": [HASHED]}, "refused 36"),
]


# Messages without a signature, or with one that is none, and what is answered to each where unsigned messages are not allowed and where they are; in
# both cases with the host's word and, but for those with a signature, without it.
UNSIGNED_ROWS = [
    ({"signature": []}, "refused 25", "new"),
    ({"signature": [], "key": [b""]}, "refused 24", "refused 24"),
    ({"signature": [], "key": [KEY]}, "refused 24", "refused 24"),
    ({"signature": [], "key": [b"\xff"]}, "refused 24", "refused 24"),
    ({"signature": [], "key": [KEY, b""]}, "refused 24", "refused 24"),
    ({"signature": [b""]}, "refused 26 0", "refused 26 0"),
    ({"signature": [b""], "key": [b""]}, "refused 26 0", "refused 26 0"),
    ({"signature": [b""], "key": [KEY]}, "refused 26 0", "refused 26 0"),
    ({"signature": [b"\x00"]}, "refused 26 1", "refused 26 1"),
    ({"signature": [bytes(63)]}, "refused 26 63", "refused 26 63"),
    ({"signature": [bytes(65)]}, "refused 26 65", "refused 26 65"),
    ({"signature": [bytes(64), b""]}, "refused 26 0", "refused 26 0"),
    ({"signature": [], "from_": []}, "refused 21", "refused 21"),
    ({"signature": [], "from_": [b""]}, "refused 22 0", "refused 22 0"),
    ({"signature": [], "from_": [b"A" * 65]}, "refused 22 65", "refused 22 65"),
    ({"signature": [], "from_": [b"A"]}, "refused 34", "refused 34"),
    ({"signature": [], "from_": [b"gate"]}, "refused 34", "refused 34"),
    ({"signature": [], "from_": [b"A" * 64]}, "refused 34", "refused 34"),
    ({"signature": [], "from_": [b"A"], "key": [KEY]}, "refused 34", "refused 34"),
    ({"signature": [], "from_": [b"A"], "seqno": []}, "refused 34", "refused 34"),
    ({"signature": [], "from_": [b"\x12\x20" + b"\x07" * 31]}, "refused 34", "refused 34"),
    ({"signature": [], "from_": [b"\x00\x00"]}, "refused 25", "new"),
    ({"signature": [], "from_": [b"\x00\x03ABC"]}, "refused 25", "new"),
    ({"signature": [], "from_": [HASHED]}, "refused 25", "new"),
    ({"signature": [], "from_": [WHOLE]}, "refused 25", "new"),
    ({"signature": [], "from_": [DECODES]}, "refused 25", "new"),
    ({"signature": [], "from_": [LONGEST]}, "refused 25", "new"),
    ({"signature": [], "from_": [F]}, "refused 25", "new"),
    ({"signature": [], "from_": [SECP]}, "refused 25", "new"),
    ({"signature": [], "from_": [b"A", ID]}, "refused 25", "new"),
    ({"signature": [], "from_": [identity(KEY + b"\x00")]}, "refused 25", "new"),
    ({"signature": [], "from_": [b"\x00\x00"], "key": [KEY]}, "refused 24", "refused 24"),
    ({"signature": [], "from_": [HASHED], "key": [KEY]}, "refused 24", "refused 24"),
    ({"signature": [], "from_": [WHOLE], "key": [RSA_KEY]}, "refused 24", "refused 24"),
    ({"signature": [b""], "from_": [b"\x00\x00"]}, "refused 26 0", "refused 26 0"),
    ({"signature": [b""], "from_": [HASHED]}, "refused 26 0", "refused 26 0"),
    ({"signature": [], "seqno": []}, "refused 23", "refused 23"),
    ({"signature": [], "seqno": [b""]}, "refused 23", "refused 23"),
    ({"signature": [], "seqno": [b"s" * 65]}, "refused 23", "refused 23"),
    ({"signature": [], "seqno": [b"s" * 64]}, "refused 25", "new"),
    ({"signature": [], "seqno": [], "key": [KEY]}, "refused 23", "refused 23"),
    ({"signature": [], "topic": []}, "refused 25", "refused 28 0"),
    ({"signature": [], "topic": [], "key": [KEY]}, "refused 24", "refused 24"),
    ({"signature": [], "topic": [b"t"] * 4}, "refused 25", "new"),
    ({"signature": [], "topic": [b"t"] * 5}, "refused 25", "refused 28 5"),
    ({"signature": [], "topic": [b"t" * 1024]}, "refused 25", "new"),
    ({"signature": [], "topic": [b"t" * 1025]}, "refused 25", "refused 29 1025"),
    ({"signature": [], "topic": [b"t" * 1025] * 5}, "refused 25", "refused 28 5"),
    ({"signature": [], "data": [bytes(4047)]}, "refused 25", "new"),
    ({"signature": [], "data": [bytes(4048)]}, "refused 25", "refused 30 4097"),
    ({"signature": [], "data": [bytes(4048)], "key": [b""]}, "refused 24", "refused 24"),
]


# For stored runs.
SHORT_UNSIGNED_ROWS = [row for row in UNSIGNED_ROWS if "data" not in row[0] and max(map(len, row[0].get("topic", [b""])), default=0) <= 1]
SHORT_ROWS = [row for row in ROWS + MORE_ROWS if "data" not in row[0]]


def without_word(answer):
    """The answer of a row where the word is withheld."""
    return "refused 27" if answer == "new" else answer
