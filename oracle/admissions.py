"""Messages for the comparison of admission with the Rust's `verify`, and the list of the differences.

Each message is judged with the host's word that the signature verified and without, and with leave to be unsigned and without: here it is a flag of
the node, there an argument of `verify`. What admission answers is a number, or `new`, or `unsigned` for what is new under the mark 0; what the Rust
answers is a name, or `ok`, or `unsigned`. `agree` says of both whether they are the same answer. Where they are not, `listed` looks for the
difference on LIST, by what the message has and by both answers. The names of LIST stand in docs/DIFFERENCES.md. Everything random comes from one
seeded `random.Random`.
"""

import collections
import hashlib
import itertools

import keys
import nodes
import peers
from bodies import tagged
from caches import FAULTS, OTHER_TYPES, SIGNATURE, grown, loosened, message, names, plain, some_put, x_with
from nodes import MAX_MESSAGE, MAX_TOPIC, MAX_TOPICS
from oracle import hexed
from peers import DECODES, ECDSA, F, HASHED, ID, KEY, KEYLESS, KEYS, LONGEST, MAX_INLINE, NO_KEYS, NO_PEERS, RSA, SECP, identity, key_bytes, key_of, \
    peer_of, sha256
from traces import some_topics
from wire import blob, then_random

# What the Rust says to each answer of admission. The numbers after 27 are limits that it does not have: it takes the message.
NAMES = {"new": "ok", "unsigned": "unsigned", 21: "MissingFrom", 22: "InvalidFrom", 34: "InvalidFrom", 23: "InvalidSeqno", 24: "KeyWithoutSignature", 25: "MissingSignature",
         26: "InvalidSignatureLength", 35: "InvalidKey", 36: "KeyPeerIdMismatch", 27: "SignatureInvalid"}
TAKEN, UNSIGNED = "ok", "unsigned"
WORDS, FLAGS = (0, 1), (0, 1)


def number(line, signed):
    """The number of an answer; of a message that is taken, `new`, or `unsigned` where it is not seen as one with a signature."""
    words = line.split(" ")
    return int(words[1]) if words[0] == "refused" else words[0] if signed else UNSIGNED


def name(told):
    """The name of what `verify` answers; of what it takes, whether it was signed."""
    words = told.split(" ")
    return words[1] if words[0] == "err" else {"1": TAKEN, "0": UNSIGNED}[words[3]]


def agree(ours, rust):
    return NAMES.get(ours) == rust


def modelled(raw, known, word, flags=0):
    """What the model answers."""
    try:
        nodes.admission((raw, known), word == 1, flags)
    except nodes.Refused as why:
        return why.number
    return "new" if nodes.is_signed((raw, known)) else UNSIGNED


class Beside:
    """Both answers of many messages: counts, the differences that are on the list with the shortest message of each, and those that are not."""

    def __init__(self):
        self.counts, self.found, self.differ = collections.Counter(), {}, []

    def look(self, raw, known, word, flags, ours, rust):
        self.counts["flags %d: %s, the Rust %s" % (flags, ours, rust)] += 1
        if agree(ours, rust):
            return
        on = listed(raw, known, word, flags, ours, rust)
        self.counts["on the list: %s" % on] += 1
        if on is None:
            self.differ.append((len(raw), raw.hex(), "word %d, flags %d: %s" % (word, flags, rust), str(ours)))
        elif on not in self.found or (len(raw), flags) < (len(self.found[on][0]), self.found[on][2]):
            self.found[on] = raw, word, flags, ours, rust

    def tell(self):
        """Prints the list as it was met."""
        for name in NAMED:
            if name in self.found:
                raw, word, flags, ours, rust = self.found[name]
                print("%s, %d bytes, word %d, flags %d: %s, the Rust %s\n    %s" % (name, len(raw), word, flags, ours, rust, raw.hex()[:160]))


def verified(oracle, cases):
    """(case, word, flags, the name of what the Rust's `verify` answers), with each word, and without the leave to be unsigned and with it."""
    for word in WORDS:
        assert oracle.ask("word %d" % word) == "ok"
        for flags in FLAGS:
            told = oracle.batch("verify %s %d %d" % (hexed(body), index, flags) for body, index, *_ in cases)
            yield from ((case, word, flags, name(one)) for case, one in zip(cases, told))


# --- the list ---------------------------------------------------------------------------------

class Message:
    """What a message has, by the model's reader."""

    def __init__(self, raw, known):
        last = dict(known)
        self.raw, self.sender, self.key, self.signature = raw, last.get(1), last.get(6), last.get(5)
        self.topics = [content for field, content in known if field == 4]

    def hashed(self):
        """Whether the sender is a SHA-256, with a key beside it that decodes."""
        return peer_of(self.sender) is not None and peer_of(self.sender)[0] == "sha256" and self.key is not None and key_of(self.key) is not None

    def signing_key(self):
        """The key that signs, as (type, data): the one beside the sender, or the one in it; None where the sender is not its peer id."""
        if peer_of(self.sender) is None:
            return None
        key = self.key if self.key is not None else peer_of(self.sender)[1]
        return key_of(key) if own_peer_id(key) == self.sender else None

    def signs(self):
        """Whether the Rust can check a signature by its key."""
        found = self.signing_key()
        return found is not None and found[0] == 1 and len(found[1]) == 32

    def bare(self):
        """Whether it has neither a signature nor a key."""
        return self.signature is None and self.key is None

    def over(self):
        """Which limit it passes that the Rust does not have, or None."""
        if not 1 <= len(self.topics) <= MAX_TOPICS:
            return 28
        if any(len(topic) > MAX_TOPIC for topic in self.topics):
            return 29
        return 30 if len(self.raw) > MAX_MESSAGE else None


def own_peer_id(key):
    """The peer id of a key: its identity, or above 42 bytes its SHA-256."""
    return identity(key) if len(key) <= MAX_INLINE else sha256(hashlib.sha256(key).digest())


def is_inline(m):
    return m.hashed() and len(m.key) <= MAX_INLINE


def is_other_hash(m):
    return m.hashed() and len(m.key) > MAX_INLINE and own_peer_id(m.key) != m.sender


def is_other_type(m):
    return m.signing_key() is not None and m.signing_key()[0] != 1


def is_other_length(m):
    return m.signing_key() is not None and m.signing_key()[0] == 1 and len(m.signing_key()[1]) != 32


def after_word(m, word):
    """What admission answers to a message whose sender and key are in order."""
    return (m.over() or "new") if word else 27


# Of each difference its name, whether a message has it, and the two answers: ours, for a word, and the Rust's.
LIST = [
    ("a key of at most 42 bytes beside a SHA-256", is_inline, after_word, "KeyPeerIdMismatch"),
    ("a key beside the SHA-256 of another", is_other_hash, after_word, "KeyPeerIdMismatch"),
    ("a key of another type than Ed25519", is_other_type, lambda m, word: word and after_word(m, word), "SignatureInvalid"),
    ("an Ed25519 key of other than 32 bytes", is_other_length, lambda m, word: word and after_word(m, word), "SignatureInvalid"),
    ("no topic, or more than four", lambda m: m.signs() and m.over() == 28, lambda m, word: word and 28, TAKEN),
    ("a topic above 1,024 bytes", lambda m: m.signs() and m.over() == 29, lambda m, word: word and 29, TAKEN),
    ("a message above 4,096 bytes", lambda m: m.signs() and m.over() == 30, lambda m, word: word and 30, TAKEN),
    ("an unsigned message with no topic, or more than four", lambda m: m.bare() and m.over() == 28, lambda m, word: 28, UNSIGNED),
    ("an unsigned message with a topic above 1,024 bytes", lambda m: m.bare() and m.over() == 29, lambda m, word: 29, UNSIGNED),
    ("an unsigned message above 4,096 bytes", lambda m: m.bare() and m.over() == 30, lambda m, word: 30, UNSIGNED),
]
# Where the oracle is built with the published crate multihash.
TENTH = "a sender with a code or a length of ten bytes"
NAMED = [one[0] for one in LIST] + [TENTH]

# A message of each that is as short as it can be, the word, the flags, and both answers. The fields are those of `x_with`, which has ID and 64 zero bytes.
SMALLEST = {
    "a key of at most 42 bytes beside a SHA-256": ({"from_": [HASHED], "topic": [], "key": [key_bytes(0, b"")]}, 0, 0, 27, "KeyPeerIdMismatch"),
    "a key beside the SHA-256 of another": ({"from_": [HASHED], "topic": [], "key": [key_bytes(0, bytes(39))]}, 0, 0, 27, "KeyPeerIdMismatch"),
    "a key of another type than Ed25519": ({"from_": [identity(key_bytes(0, b""))], "topic": []}, 1, 0, 28, "SignatureInvalid"),
    "an Ed25519 key of other than 32 bytes": ({"from_": [F], "topic": []}, 1, 0, 28, "SignatureInvalid"),
    "no topic, or more than four": ({"topic": []}, 1, 0, 28, TAKEN),
    "a topic above 1,024 bytes": ({"topic": [b"t" * 1025]}, 1, 0, 29, TAKEN),
    "a message above 4,096 bytes": ({"data": [bytes(3982)]}, 1, 0, 30, TAKEN),
    "an unsigned message with no topic, or more than four": ({"from_": [b"\x00\x00"], "topic": [], "signature": []}, 0, 1, 28, UNSIGNED),
    "an unsigned message with a topic above 1,024 bytes": ({"from_": [b"\x00\x00"], "topic": [b"t" * 1025], "signature": []}, 0, 1, 29, UNSIGNED),
    "an unsigned message above 4,096 bytes": ({"from_": [b"\x00\x00"], "data": [bytes(4084)], "signature": []}, 0, 1, 30, UNSIGNED),
    TENTH: ({"from_": [keys.ten(0, 2) + b"\x00"], "seqno": [], "topic": [], "signature": []}, 0, 0, 34, "InvalidSeqno"),
}


def listed(raw, known, word, flags, ours, rust):
    """The name of the difference between two answers, or None where it is not on the list."""
    m = Message(raw, known)
    if ours == 34:
        # The published crate multihash takes such a sender for another one: what it says then is what it says of that one.
        other = keys.published(m.sender)
        if other is None or peer_of(other) is None:
            return None
        changed = [(field, other if field == 1 else content) for field, content in known]
        told = modelled(raw, changed, word, flags)
        return TENTH if agree(told, rust) or listed(raw, changed, word, flags, told, rust) else None
    return next((name for name, has, answer, theirs in LIST if rust == theirs and ours == answer(m, word) and has(m)), None)


# --- messages -----------------------------------------------------------------------------------

def hashes_of(key):
    return sha256(hashlib.sha256(key).digest())


BIG_KEYS = [key_bytes(kind, b"\x5a" * n) for kind in (0, 1, 2, 3) for n in (39, 60, 300)]
INLINE_KEYS = [key_bytes(kind, b"\x5a" * n) for kind in (0, 1, 2, 3) for n in (0, 31, 32, 33, 38)]
SENDERS = [None, b"", b"A" * 65, b"A" * 300, ID, F, LONGEST, RSA, SECP, ECDSA, HASHED, DECODES] + NO_PEERS + KEYLESS \
    + [identity(key) for key in INLINE_KEYS] + [hashes_of(key) for key in BIG_KEYS + INLINE_KEYS[:5]] \
    + [keys.ten(0, 2) + ID[1:], ID[:1] + keys.ten(ID[1], 4) + ID[2:], keys.ten(0x12, 2) + HASHED[1:], keys.ten(0, 2) + b"\x00", keys.ten(0, 3) + b"\x00"]
SENDER_KEYS = [None] + NO_KEYS + KEYS + BIG_KEYS[::3] + INLINE_KEYS
SEQNOS = [None, 0, 1, 8, 64, 65]
SIGNATURES = [None, 0, 63, 64, 65]


def own_key(sender):
    """The key of a sender, if one is known here."""
    known = {own_peer_id(key): key for key in BIG_KEYS + INLINE_KEYS + KEYS}
    return known.get(sender) or (peer_of(sender)[1] if sender and peer_of(sender) else None)


def fixed():
    """Every sender with every key, signed; every sender with each way to have no key or a wrong one, for every seqno and signature; and the limits."""
    def some(**given):
        return tagged(2, plain(x_with(**{field: [] if one is None else [one] for field, one in given.items()})))

    for sender, key in itertools.product(SENDERS, SENDER_KEYS):
        yield some(from_=sender, key=key)
    for sender in SENDERS:
        for key in {None, b"", b"\xff", KEY, key_bytes(1, b""), own_key(sender)}:
            for seqno, signature in itertools.product(SEQNOS, SIGNATURES):
                yield some(from_=sender, key=key, seqno=seqno if seqno is None else b"s" * seqno, signature=signature if signature is None else bytes(signature))
    for change, *_ in peers.ROWS + peers.MORE_ROWS + peers.UNSIGNED_ROWS + list(SMALLEST.values()):
        yield tagged(2, plain(x_with(**change)))
    for raw in OTHER_TYPES:
        yield tagged(2, raw)
    for sender, key in ((ID, None), (ID, KEY), (HASHED, KEY), (hashes_of(BIG_KEYS[1]), BIG_KEYS[1]), (RSA, None), (ID, b"\xff"), (F, None)):
        both = {"from_": [sender], "key": [] if key is None else [key]}
        for bare in ({}, {"signature": []}, {"signature": [], "key": []}):
            some = {**both, **bare}
            for n in (0, 1, 4, 5, 6):
                yield tagged(2, plain(x_with(topic=[b"t"] * n, **some)))
            for n in (1024, 1025, 3000):
                yield tagged(2, plain(x_with(topic=[b"t", b"t" * n], **some)))
            for size in (4095, 4096, 4097, 9000):
                yield tagged(2, plain(grown(x_with(**some), size)))


def some_sender(r):
    key = key_bytes(r.choice((1, 1, 1, 0, 2, 3)), blob(r, r.choice((0, 31, 32, 32, 32, 33, 38, 39, 64, 300))))
    return r.choice((own_peer_id(key), own_peer_id(key), sha256(blob(r, 32)))), key


def random_one(r):
    """A message with the key of its sender, of another one, or none; or one with faults, its fields in any order and some twice; or one among others.
    Lists are made of these, too."""
    how = r.randrange(6)
    if how == 0:
        return some_put(r, r.choice(names(r)), some_topics(r))[2]
    sender, key = some_sender(r) if r.randrange(4) else (ID, KEY)
    parts = [(1, sender), (3, blob(r, r.choice((1, 8, 8, 20, 64)))), (5, blob(r, SIGNATURE)), (4, b"t")]
    which = r.randrange(8)
    if which < 5 if peer_of(sender)[0] == "sha256" else which < 2:
        parts.append((6, key))
    elif which == 7:
        parts.append((6, some_sender(r)[1]))
    for fault in r.sample(list(FAULTS), r.choice((1, 1, 2))) if how == 1 else ():
        parts = FAULTS[fault](r, parts)
    return tagged(2, message(r, parts))


def some_message(r):
    """A random one as it is, or with messages that have no signature."""
    body = random_one(r)
    return body if r.randrange(3) else loosened(r, body)


def admits(r, count, first=None):
    """(body, index, message, known fields) of each message of each body that can be read: of the fixed ones, or of others, and of `count` random ones."""
    for body in then_random(r, count, (fixed() if first is None else first,), some_message):
        try:
            got = nodes.Body(body).messages
        except nodes.Refused:
            continue
        for index, (raw, known) in enumerate(got[:3]):
            yield body, index, raw, known
