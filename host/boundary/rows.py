"""The rows of the scope's tables, as records of the programs `inspect` and `states`, with the lines that the scope asks for.

Each line is written from the scope, not from a program; those about the place of a refusal stand in oracle/places.py. `inspect()`, `editions()`, `groups()`, `lists()` and
`states()` give (input, lines). Refusal 33 is not here: the seen part alone has it, which the C interface does not lend.
"""

import os
import sys

sys.path.insert(0, os.path.join(os.path.dirname(os.path.abspath(__file__)), "../../oracle"))

import places  # noqa: E402
import states as program  # noqa: E402
import wire  # noqa: E402
from records import header  # noqa: E402

ROOM = 65536
PREFIX = b"libp2p-pubsub:".hex()


# ---- bodies and answers

def rows():
    """(call, body, place, lines without their numbers)."""
    for body, lines, again in (("", ["ok 0 plain"], "0"), ("1a001a00", ["ok 0 control"], "2 1a00"), ("f8ffffff0f00", ["ok 0 plain"], "0"),
                               ("12060a01410a0142", ["ok 1 plain", "  message =0a01410a0142 =42 - - - -"], "8 12060a01410a0142"),
                               ("0a061204f48fbfbf", ["ok 1 plain", "  sub - =f48fbfbf"], "8 0a061204f48fbfbf")):
        yield "decode", body, 0, lines
        yield "encode", body, 0, [again]
    yield "sign", "12060a01410a0142", 0, ["17 %s0a0142" % PREFIX]
    yield "walk", "1a001a00", 0, ["3 2 1 2"]
    yield "walk", "1a001a00", 2, ["3 2 3 4"]
    yield "walk", "1a001a00", 4, ["end"]
    yield "walk", "1a001a00", 2**64 - 1, ["end"]
    yield "walk", "f8ffffff0f00", 0, ["536870911 0 5 6"]
    x = X.hex()
    yield "id", x, 0, ["39 %s01" % SENDER.hex()]
    yield "sign", x, 0, ["60 %s0a26%s1a0101220174" % (PREFIX, SENDER.hex())]
    # Ids and sign bytes are of any sender, and of any key.
    for who in (b"A", b"gate", bytes(64)):
        for key in (None, b"\xff"):
            other = message(who=who, key=key).hex()
            yield "id", other, 0, ["%d %s01" % (len(who) + 1, who.hex())]
            yield "sign", other, 0, ["%d %s0a%02x%s1a0101220174" % (22 + len(who), PREFIX, len(who), who.hex())]
    for body, told in REFUSED:
        for call in ("decode", "encode", "sign", "id", "walk"):
            if call != "walk" or " in " not in told:
                yield call, body, LATER.get(body, 0) if call == "walk" else 0, ["refused " + told]
    for topic in ("eda080", "c080", "f4908080"):
        body = "0a%02x12%02x%s" % (2 + len(topic) // 2, len(topic) // 2, topic)
        for call in ("decode", "encode", "sign", "id"):
            yield call, body, 0, ["refused 7 1 at 3 in 1"]
    for call in ("sign", "id"):
        yield call, "", 0, ["refused 20 0"]
        yield call, x, 1, ["refused 20 1"]
    for one, told in ((message(who=None), "21"), (message(who=b""), "22 0"), (message(who=bytes(65)), "22 65"), (message(seqno=None), "23"),
                      (message(seqno=b""), "23"), (message(seqno=bytes(65)), "23")):
        yield "id", one.hex(), 0, ["refused " + told]
    long = bytes(65537).hex()
    for call in ("decode", "encode", "sign", "id", "walk"):
        yield call, long, 0, ["refused 10 65537"]
    many = "0a00" * 513
    for call in ("decode", "encode", "sign", "id"):
        yield call, many, 0, ["refused 11 513"]


# Bodies that are refused whatever is asked of them, with the place.
REFUSED = [(body, told.removeprefix("refused ")) for body, told in [*places.ROWS, ("8080808010", "refused 6 536870912 0 at 0"), *places.MORE_ROWS] if told]


# Where the refused field starts, if it is not the first of its body: a walk begins there.
LATER = {"0a000b": 2, "1a020a00" * 3 + "00": 12}


def field(number, content):
    return bytes([number * 8 + 2]) + wire.varint(len(content)) + content


# The key of the scope's trace, as libp2p writes an Ed25519 key, and the peer id that holds it.
KEY = bytes.fromhex("1ed1e8fae2c4a144b8be8fd4b47bf3d3b34b871c3cacf6010f0e42d474fce27e")


def key_of(kind, data=KEY):
    return bytes([8, kind, 18]) + wire.varint(len(data)) + data


def identity(digest):
    return bytes([0, len(digest)]) + digest


SENDER = identity(key_of(1))
HASH = bytes.fromhex("1220") + b"\x07" * 32


def message(who=SENDER, seqno=b"\x01", topics=(b"t",), signature=bytes(64), key=None, data=None):
    """A body with one message."""
    parts = [(1, who), (2, data), (3, seqno)] + [(4, topic) for topic in topics] + [(5, signature), (6, key)]
    return field(2, b"".join(field(number, content) for number, content in parts if content is not None))


X = message()
ID = SENDER + b"\x01"

# Messages with the id of X's, and where the topics of each stand in it: (start, length).
TOPIC_MESSAGES = (
    (X[2:], [(45, 1)]),
    (bytes.fromhex("22002200") + X[2:], [(2, 0), (4, 0), (49, 1)]),
    (bytes.fromhex("2005") + X[2:], [(47, 1)]),
    (bytes.fromhex("aa0103220174") + X[2:], [(51, 1)]),
    (message(topics=(b"t", b"t", b"u", b""))[2:], [(45, 1), (48, 1), (51, 1), (54, 0)]),
    (message(topics=(b"t" * 1024,))[3:], [(46, 1024)]),
    (message(topics=(), data=bytes(4096 - 114))[3:] + field(4, b""), [(4096, 0)]),
)


def inspect():
    records, lines = b"", []
    for n, (call, body, place, told) in enumerate(rows(), 1):
        records += wire.record((call, bytes.fromhex(body), place))
        lines += ["%d %s %s" % (n, call, told[0])] + told[1:]
    return records, lines


# ---- bodies in both editions

V1_1, V1_2 = 0, 1


def declined(ids):
    """A control with one IDONTWANT of so many empty ids."""
    return field(3, field(5, b"\x0a\x00" * ids)).hex()


# Bodies, and what is told of each in 1.1 and in 1.2: what it is written as, and its records; or why it is refused.
IN_EDITIONS = (
    ("1a032a0180", ("2 1a00",), "1 at 4 in 3 5"),
    ("1a052a030a0241", ("2 1a00",), "4 2 2 1 at 6 in 3 5"),
    ("1a052a030a01ff", ("2 1a00",), ("7 1a052a030a01ff", "idontwant", "id =ff")),
    ("1a072a030a01412200", ("4 1a022200", "prune - -"), ("9 1a0722002a030a0141", "idontwant", "id =41", "prune - -")),
    ("1a022a001a022200", ("4 1a022200", "prune - -"), ("6 1a0422002a00", "idontwant", "prune - -")),
    ("1a022807", ("2 1a00",), ("2 1a00",)),
    ("1a042a021007", ("2 1a00",), ("4 1a022a00", "idontwant")),
    (declined(511), ("2 1a00",), ("1028 " + declined(511), "idontwant", *["id ="] * 511)),
    (declined(512), ("2 1a00",), "11 513"),
    # Entries of every kind, in several controls: joined in their order, and the new ones last.
    ("1a0a2a030a014212030a01431a0b2a002a030a014422000a00", ("11 1a090a0012030a01432200", "iwant", "id =43", "prune - -", "ihave -"),
     ("23 1a150a0012030a014322002a030a01422a002a030a0144", "idontwant", "id =42", "iwant", "id =43", "idontwant", "idontwant", "id =44", "prune - -", "ihave -")),
)


def edition_rows():
    """(dialect, call, body, place, lines). What has no such field is told alike in both."""
    for call, body, place, told in rows():
        if call != "walk":
            yield V1_1, call, body, place, told
            yield V1_2, call, body, place, told
    for body, *both in IN_EDITIONS:
        for dialect, told in enumerate(both):
            if isinstance(told, str):
                for call in ("decode", "encode", "sign", "id"):
                    yield dialect, call, body, 0, ["refused " + told]
                continue
            written, *records = told
            yield dialect, "decode", body, 0, ["ok %d control" % len(records)] + ["  " + one for one in records]
            yield dialect, "encode", body, 0, [written]
            yield dialect, "sign", body, 0, ["refused 20 0"]
            # Beside a message, which is the same in both: neither its signature nor anything of the control is signed.
            for whole in (X.hex() + body, body + X.hex()) if len(body) < 1000 else ():
                yield dialect, "sign", whole, 0, [SIGNED]
                yield dialect, "id", whole, 0, ["39 %s01" % SENDER.hex()]


def played(rows):
    """Records of these rows, and their lines."""
    records, lines = b"", []
    for n, (dialect, call, body, place, told) in enumerate(rows, 1):
        records += wire.record((call, bytes.fromhex(body), place), dialect)
        lines += ["%d %s %s" % (n, call, told[0])] + told[1:]
    return records, lines


def editions():
    return played(edition_rows())


# ---- bodies with groups, in all dialects

GROUPS = 2
DIALECTS = (V1_1, V1_2, V1_1 | GROUPS, V1_2 | GROUPS)

# Of the bodies that are accepted where groups are skipped: what each is written as, and its records.
SKIPPED = {
    "0b0c": ("",), "1b1c": ("",), "83018401": ("",), "0b13140c": ("",), "0b" * 32 + "0c" * 32: ("",), "1a40" + "0b" * 32 + "0c" * 32: ("1a00",),
    "12020b0c": ("12020b0c", "message =0b0c - - - - -"), "12080a01420b0a01410c": ("12080a01420b0a01410c", "message =0a01420b0a01410c =42 - - - -"), "1a020b0c": ("1a00",),
    "0a050b1201ff0c": ("0a00", "sub - -"), "0b1096010c1a00": ("1a00",), "2a010b": ("",),
}
# Sign bytes of the first message, where there is one.
SKIPPED_SIGNED = {"12020b0c": "14 " + PREFIX, "12080a01420b0a01410c": "17 %s0a0142" % PREFIX}
# Bodies, places, and what a step of a walk finds where groups are skipped.
SKIPPED_STEPS = (
    ("0b1096010c1a00", 0, "1 3 1 5"), ("0b1096010c1a00", 5, "3 2 6 7"), ("0b1096010c1a00", 7, "end"), ("0b1096010c1a00", 4, "refused 14"),
    ("83018401", 0, "16 3 2 4"), ("1a010b0c", 0, "3 2 1 3"), ("1a010b0c", 2, "1 3 3 4"), ("1a010b0c", 3, "refused 14"), ("12010c", 0, "2 2 1 3"), ("12010c", 2, "refused 14"),
    ("0b" * 33 + "0c" * 33, 0, "refused 15"), ("0b" * 33 + "0c" * 33, 1, "1 3 2 65"), ("0b" * 33, 1, "refused 16"), ("0b0c0c", 0, "1 3 1 2"),
)


def group_rows():
    """(dialect, call, body, place, lines)."""
    for body, first, second in places.GROUP_ROWS:
        for dialect in DIALECTS:
            told = second if dialect & GROUPS else first
            if told:
                for call in ("decode", "encode", "sign", "id"):
                    yield dialect, call, body, 0, [told]
                # A walk enters no submessage, and a step of it is one field.
                if " in " not in told and not (dialect & GROUPS and body in ("1a010b0c", "12010c", "0b0c0c")):
                    yield dialect, "walk", body, 0, [told]
                continue
            written, *records = SKIPPED[body]
            yield dialect, "decode", body, 0, ["ok %d %s" % (len(records), "control" if written == "1a00" else "plain")] + ["  " + one for one in records]
            yield dialect, "encode", body, 0, ["%d %s" % (len(written) // 2, written) if written else "0"]
            yield dialect, "sign", body, 0, [SKIPPED_SIGNED.get(body, "refused 20 0")]
            yield dialect, "id", body, 0, ["refused " + {"12020b0c": "21", "12080a01420b0a01410c": "23"}.get(body, "20 0")]
    for body, place, told in SKIPPED_STEPS:
        for edition in (V1_1, V1_2):
            yield edition | GROUPS, "walk", body, place, [told]
    # Beside a message, in it, and around it: its id and its sign bytes are those of X.
    for dialect in (V1_1 | GROUPS, V1_2 | GROUPS):
        for body in (X + b"\x0b\x0c", b"\x0b\x0c" + X, field(2, X[2:] + b"\x0b\x0c"), field(2, b"\x23\x22\x01\xff\x24" + X[2:]), b"\x13" + X + b"\x14" + X):
            yield dialect, "sign", body.hex(), 0, [SIGNED]
            yield dialect, "id", body.hex(), 0, ["39 %s01" % SENDER.hex()]
    # The most records, and the longest group: it is none of them.
    for n, told in ((512, "1024 " + "0a00" * 512), (513, "refused 11 513")):
        yield V1_2 | GROUPS, "encode", "0a00" * n + "0b" + "0a00" * n + "0c", 0, [told]
    yield V1_1 | GROUPS, "encode", "0b" + "0800" * 32767 + "0c", 0, ["0"]
    yield V1_1 | GROUPS, "encode", "0b" + "0800" * 32768 + "0c", 0, ["refused 10 65538"]
    # What has no group is told alike in both modes.
    for call, body, place, told in rows():
        if " refused 5 " not in " " + told[0]:
            yield V1_1 | GROUPS, call, body, place, told
    for dialect, call, body, place, told in edition_rows():
        if dialect == V1_2 and " refused 5 " not in " " + told[0]:
            yield V1_2 | GROUPS, call, body, place, told


def groups():
    return played(group_rows())


# ---- what a host says by itself: rows over lent bytes

SUB_OPTS, MESSAGE, TOPIC, GRAFT, PRUNE, PEER_INFO = 1, 2, 3, 8, 9, 10
TOP = 2**64 - 1


def row(kind, number=None, fields=(), own=(0, 0)):
    """A row as `inspect` reads it: kind, which of number and fields are there, its own start and end, and what is there."""
    fields = [*fields] + [None] * (5 - len(fields))
    mask = sum(1 << i for i, part in enumerate([number, *fields]) if part is not None)
    words = [*own] + [number] * (number is not None) + [word for field in fields if field is not None for word in field]
    return bytes([kind, mask]) + b"".join(word.to_bytes(8, "little") for word in words)


def lent(rows, data=b"", room=ROOM, index=None, count=None):
    """A record of rows over bytes: of kind 10, or with an index, of kind 11."""
    content = b"" if index is None else index.to_bytes(2, "little")
    content += room.to_bytes(4, "little") + (len(rows) if count is None else count).to_bytes(2, "little") + b"".join(rows) + data
    return header(len(content), 10 if index is None else 11) + content


def topic_at(start, end):
    return row(TOPIC, own=(start, end))


def message_of(who=SENDER, data=None, seqno=b"\x01", signature=bytes(64), key=None, topics=(b"t",)):
    """The rows of a message and its topics, and the bytes that they are over."""
    fields, over = [], b""
    for content in (who, data, seqno, signature, key):
        fields.append(None if content is None else (len(over), len(over) + len(content)))
        over += content or b""
    rows = [row(MESSAGE, fields=fields)]
    for topic in topics:
        rows.append(topic_at(len(over), len(over) + len(topic)))
        over += topic
    return rows, over


def whole(body):
    return "%d %s" % (len(body), body.hex())


SIGNED = "60 %s0a26%s1a0101220174" % (PREFIX, SENDER.hex())

# Rows, the bytes that they are over, and what is written.
SAID = (
    ([], b"", "0"), ([], b"not looked at", "0"),
    ([row(SUB_OPTS, 1, [(0, 1)])], b"t", "7 0a050801120174"),
    ([row(SUB_OPTS, 7, [(0, 1)])], b"t", "7 0a050801120174"),
    ([row(SUB_OPTS, TOP, [(0, 1)])], b"t", "7 0a050801120174"),
    ([row(SUB_OPTS, 0, [(0, 1)])], b"t", "7 0a050800120174"),
    ([row(SUB_OPTS), row(SUB_OPTS, fields=[(0, 0)])], b"", "6 0a000a021200"),
    ([row(PRUNE, 60, [(1, 2)]), row(PEER_INFO, fields=[(2, 4)]), row(GRAFT, fields=[(0, 1)])], b"tu\x01\x02",
     "20 1a121a030a0174220b0a017512040a020102183c"),
    ([row(PRUNE, TOP)], b"", "15 1a0d220b18ffffffffffffffffff01"),
    ([row(PRUNE), row(GRAFT), row(PEER_INFO, fields=[None, (0, 0)])], b"", "10 1a081a00220412021200"),
    # Peer ids and signed records may be any bytes.
    ([row(PRUNE), row(PEER_INFO, fields=[(0, 1), (1, 2)])], b"\xff\xff", "12 1a0a220812060a01ff1201ff"),
    # Fields that a kind does not have are not looked at, nor a number that it has not.
    ([row(GRAFT, fields=[(0, 1), (5, 9)])], b"t", "7 1a051a030a0174"),
    ([row(GRAFT, 9, [(0, 1)])], b"t", "7 1a051a030a0174"),
    ([row(GRAFT), row(SUB_OPTS, fields=[None, (9, 1)])], b"", "6 0a001a021a00"),
    # Places count from the row's start, and may overlap.
    ([row(GRAFT, fields=[(0, 1)], own=(1, 2)), row(GRAFT, fields=[(1, 2)]), row(SUB_OPTS, fields=[(0, 2)])], b"tu",
     "18 0a041202" + b"tu".hex() + "1a0a1a030a01751a030a0175"),
    (*message_of(), "114 " + X.hex()),
    (*message_of(key=key_of(1)), whole(message(key=key_of(1)))),
    (*message_of(data=b"", topics=(b"", b"u")), whole(message(data=b"", topics=(b"", b"u")))),
    ([row(GRAFT)] * 512, b"", "1027 1a8008" + "1a00" * 512),
    ([row(GRAFT, fields=[(0, 65524)])], b"t" * 65524, "65536 1afcff031af8ff030af4ff03" + "74" * 65524),
)

# The same, refused.
NOT_SAID = (
    ([row(GRAFT, fields=[(0, 2)])], b"t", "42"), ([row(GRAFT, fields=[(1, 0)])], b"t", "42"),
    ([row(GRAFT, fields=[(0, TOP)], own=(1, 1))], b"t", "42"), ([row(GRAFT, fields=[(TOP, TOP)], own=(1, 1))], b"t", "42"),
    ([row(GRAFT, own=(0, 2))], b"t", "42"), ([row(GRAFT, own=(1, 0))], b"t", "42"), ([row(GRAFT, own=(2, 2))], b"t", "42"),
    ([row(MESSAGE, fields=[None, None, None, None, (0, 1)])], b"", "42"), ([row(PRUNE), row(PEER_INFO, fields=[None, (0, 1)])], b"", "42"),
    *(([row(kind)], b"", "42") for kind in (0, 4, 5, 6, 7, 11, 255)),
    ([topic_at(0, 0)], b"", "42"), ([topic_at(0, 0), row(MESSAGE)], b"", "42"), ([row(PRUNE), topic_at(0, 0)], b"", "42"),
    ([row(PEER_INFO)], b"", "42"), ([row(PEER_INFO), row(PRUNE)], b"", "42"), ([row(MESSAGE), row(PEER_INFO)], b"", "42"),
    # 7 carries where the topic begins in the lent bytes; 42 anywhere comes first.
    ([row(GRAFT, fields=[(0, 1)]), row(SUB_OPTS, fields=[(1, 2)])], b"t\xff", "7 1"),
    ([row(GRAFT, fields=[(0, 1)], own=(1, 2))], b"t\xff", "7 1"),
    ([row(PRUNE, fields=[(1, 2)]), row(GRAFT, fields=[(2, 3)])], b"t\xff\xc0", "7 1"),
    ([row(MESSAGE), topic_at(1, 3)], b"t\xc0\x80", "7 1"),
    ([row(GRAFT, fields=[(0, 1)]), row(SUB_OPTS, fields=[(1, 2)]), row(GRAFT, fields=[(0, 3)])], b"t\xff", "42"),
    ([row(GRAFT, fields=[(0, 1)])] * 512 + [row(GRAFT, fields=[(1, 2)])], b"t\xff", "7 1"),
    ([row(GRAFT)] * 512 + [row(4)], b"", "42"),
    ([row(GRAFT)] * 513, b"", "11 513"), ([row(MESSAGE)] * 513, b"", "11 513"), ([row(GRAFT)] * 640, b"", "11 640"),
    (*message_of(signature=None), "26 0"), (*message_of(signature=b""), "26 0"), (*message_of(signature=bytes(65)), "26 65"),
    (*message_of(signature=None, key=b"k"), "26 0"),
    (message_of(data=bytes(4000))[0] + [row(MESSAGE)], message_of(data=bytes(4000))[1], "30 4115"),
    (message_of()[0] + [row(MESSAGE)], message_of()[1], "21"), ([row(MESSAGE), *message_of(data=bytes(4000))[0]], message_of(data=bytes(4000))[1], "21"),
    # A message's refusal comes before 13, and 13 before 12.
    ([row(MESSAGE)] + [row(GRAFT, fields=[(0, 1000)])] * 66, b"t" * 1000, "21"),
    ([row(GRAFT, fields=[(0, 1000)])] * 66, b"t" * 1000, "13 66400"),
    ([row(GRAFT, fields=[(0, 65525)])], b"t" * 65525, "13 65537"),
)


def said():
    """(record, the line without its number)."""
    for rows, data, told in SAID:
        yield lent(rows, data), "write " + told
        size = int(told.split(" ")[0])
        if size:
            yield lent(rows, data, room=size), "write " + told
            yield lent(rows, data, room=size - 1), "write refused 12 %d" % size
    for rows, data, told in NOT_SAID:
        for room in (ROOM, 0):
            yield lent(rows, data, room=room), "write refused " + told
        if told.split(" ")[0] in ("42", "7", "11"):
            yield lent(rows, data, index=0), "tosign refused " + told
    # A message with its signature, as admission has it: 24 and 25 are never given.
    for body, told in SENDERS:
        told = "26 0" if told in ("24", "25") else told
        rows, data = rows_in(body)
        yield lent(rows, data), "write " + (whole(body) if told == "new" else "refused " + told)
    # The bytes to sign: with or without a signature and a key.
    for signature in (None, bytes(64), bytes(3)):
        for key in (None, key_of(1), b"k"):
            rows, data = message_of(signature=signature, key=key)
            yield lent(rows, data, index=0), "tosign " + SIGNED
            yield lent([row(MESSAGE), row(GRAFT), *rows], data, index=1), "tosign " + SIGNED
            yield lent(rows, data, room=60, index=0), "tosign " + SIGNED
            yield lent(rows, data, room=59, index=0), "tosign refused 12 60"
            yield lent(rows, data, room=0, index=1), "tosign refused 20 1"
    yield lent([row(MESSAGE)], index=0), "tosign 14 " + PREFIX
    yield lent([], index=65535), "tosign refused 20 0"
    rows, data = message_of(data=bytes(5000), topics=(b"t",) * 5)
    yield lent(rows, data, index=0), "tosign 5075 %s0a26%s128827%s1a0101%s" % (PREFIX, SENDER.hex(), "00" * 5000, "220174" * 5)


def rows_in(body):
    """The rows of a body with one message, as decode gives them."""
    start = 2 if body[1] < 128 else 3
    at, fields, topics = start, {}, []
    while at < len(body):
        number, at = body[at] // 8, at + 1
        size, at = (body[at], at + 1) if body[at] < 128 else (body[at] % 128 + 128 * body[at + 1], at + 2)
        if number == 4:
            topics.append(topic_at(at, at + size))
        else:
            fields[number] = (at - start, at + size - start)
        at += size
    return [row(MESSAGE, fields=[fields.get(number) for number in (1, 2, 3, 5, 6)], own=(start, len(body))), *topics], body


# Records that end a run of `inspect` with `bad`: rows that are cut, a mask above 63, more room or more rows than there may be, and one that is too short; a dialect that
# is none, and what is too short for one.
BAD = (*(header(1 + size, kind) + bytes([dialect]) + bytes(size) for kind, size in ((21, 0), (22, 0), (23, 2), (24, 2), (25, 8)) for dialect in (4, 5, 128, 255)),
       *(header(size, kind) + b"\x01" * size for kind, size in ((21, 0), (22, 0), (23, 0), (23, 1), (23, 2), (24, 0), (24, 1), (24, 2), (25, 0), (25, 1), (25, 8))),
       header(3, 20) + bytes(3), header(9, 26) + bytes(9), lent([row(GRAFT, 1, [(0, 1)])[:-1]]), lent([row(GRAFT)[:17]]), lent([], count=1), lent([bytes([GRAFT, 64]) + bytes(16)]), lent([], room=65601),
       lent([row(GRAFT)] * 641), header(5, 10) + bytes(5), header(7, 11) + bytes(7), lent([row(GRAFT, 1)[:-1]], index=0))


def lists():
    played = list(said())
    return b"".join(record for record, _ in played), ["%d %s" % (n, line) for n, (_, line) in enumerate(played, 1)]


# ---- refusals, and the trace with the values beside them

OFFER = bytes.fromhex("1a2e0a2c0a01741227") + ID
REQUEST = bytes.fromhex("1a2b12290a27") + ID
OTHER = identity(key_of(1, bytes(32))) + b"\x01"
SETTINGS = ("set", 1000, 4, 2, 4)


def calls(told):
    """Every call of a node that meets a refusal of its state."""
    yield ("admit", 100, 0, 1, X), "admit refused " + told
    yield ("beat", 100), "beat refused " + told
    yield ("advertise", ROOM, 1, b"t"), "advertise refused " + told
    yield ("ask", ROOM, OFFER), "ask refused " + told
    yield ("serve", ROOM, REQUEST), "serve refused " + told
    yield ("why", 1, ID, b"t"), "why refused " + told


# Windows, id and topic, and what is said where X is in the newest window but one of two.
QUESTIONS = ((2, ID, b"t", "listed"), (3, ID, b"t", "listed"), (65535, ID, b"t", "listed"), (1, ID, b"t", "window 1"),
             (0, ID, b"t", "window 1"), (2, ID, b"u", "topic"), (0, ID, b"u", "topic"), (2, ID, b"", "topic"),
             (2, ID, b"\xff", "topic"), (2, ID, b"t" * 1024, "topic"), (2, SENDER + b"\x02", b"t", "missing"), (2, b"", b"t", "missing"),
             (2, SENDER, b"t", "missing"), (2, b"\x01" + ID, b"t", "missing"), (2, b"A\x01", b"t", "missing"), (2, bytes(128), b"t", "missing"),
             (2, bytes(129), b"t", "missing"), (2, SENDER + b"\x02", b"\xff", "missing"), (2, ID, b"t" * 1025, "refused 29 1025"),
             (2, b"", b"\xff" * 1026, "refused 29 1026"))

# X with one change, and what is told of it with the host's word.
SENDERS = (
    (X, "new"), (message(who=b"A"), "34"), (message(who=b"gate"), "34"), (message(who=b"A" * 64), "34"), (message(who=b"A" * 65), "22 65"),
    (message(who=b""), "22 0"), (message(who=b"A", seqno=None), "34"), (message(seqno=None), "23"), (message(who=b"A", signature=None), "34"),
    (message(who=identity(b"")), "36"), (message(who=identity(b"ABC")), "36"), (message(who=identity(b"ABC"), key=b"ABC"), "35"),
    (message(who=identity(key_of(1, b""))), "new"), (message(who=identity(key_of(1, bytes(38)))), "new"),
    (message(who=identity(key_of(1, bytes(39)))), "34"), (message(who=SENDER + b"\0"), "34"), (message(who=SENDER[:-1]), "34"),
    (message(who=identity(key_of(4))), "36"), (message(who=HASH[:-1]), "34"), (message(who=HASH + b"\x07"), "34"),
    (message(who=b"\x12\x21" + bytes(33)), "34"), (message(who=b"\x11\x14" + bytes(20)), "34"), (message(who=bytes.fromhex("800000")), "34"),
    (message(who=bytes.fromhex("008000")), "34"), (message(key=key_of(1)), "new"), (message(key=key_of(2)), "36"), (message(key=b"\xff"), "35"),
    (message(key=b""), "35"), (message(key=key_of(1)[:-1]), "35"), (message(key=key_of(1, b"")), "36"),
    (message(key=b"\xff", signature=bytes(63)), "26 63"), (message(key=b"\xff", signature=None), "24"),
    (message(who=identity(b"ABC"), signature=None), "25"), (message(who=HASH), "36"), (message(who=HASH, key=b"\xff"), "35"),
    (message(who=HASH, key=key_of(1)), "new"), (message(who=HASH, key=key_of(0, bytes(300))), "new"),
    (message(who=bytes.fromhex("1220") + key_of(1, b"A" * 28)), "36"), (message(topics=(b"t",) * 5, key=key_of(2)), "36"),
    (message(topics=(b"t",) * 5, key=key_of(1)), "28 5"), (message(topics=(bytes(1025),), key=b"\xff"), "35"),
)


# The unsigned form of X, and what is told of it with one change where unsigned messages are allowed, for either word.
U = message(signature=None)
TRAINING = ("flagged", 1000, 4, 2, 4, 1)
BARE = (
    (U, "new"), (message(signature=None, key=b""), "24"), (message(signature=None, key=key_of(1)), "24"), (message(signature=b""), "26 0"),
    (message(who=b"A", signature=None), "34"), (message(who=b"A" * 65, signature=None), "22 65"), (message(who=None, signature=None), "21"),
    (message(who=b"A", signature=None, seqno=None), "34"), (message(signature=None, seqno=None), "23"), (message(signature=None, seqno=bytes(65)), "23"),
    (message(who=identity(b""), signature=None), "new"), (message(who=identity(b"ABC"), signature=None), "new"), (message(who=HASH, signature=None), "new"),
    (message(who=identity(bytes(43)), signature=None), "34"), (message(signature=None, topics=()), "28 0"), (message(signature=None, topics=(b"t",) * 5), "28 5"),
    (message(signature=None, topics=(b"t", bytes(1025))), "29 1025"), (message(signature=None, data=bytes(4097 - 46 - 3)), "30 4097"),
    (message(signature=None, data=bytes(4096 - 46 - 3)), "new"),
)


def training():
    """The same for a mesh whose gateways have no keys."""
    for flags in (4, 5, 65535):
        yield ("flagged", 1000, 4, 2, 4, flags), "set refused 40"
    for bad in ((257, 2, 4), (4, 0, 4), (4, 17, 4), (4, 2, 65)):
        yield ("flagged", 1000, *bad, 1), "set refused 40"
    # Both forms of an id are new, each once, whichever comes first; what is kept is the first.
    for first, second in ((U, X), (X, U)):
        yield TRAINING, "set ok"
        yield ("ask", ROOM, OFFER), "ask 45 " + REQUEST.hex()
        yield ("admit", 100, 0, 1, first), "admit new"
        yield ("ask", ROOM, OFFER), "ask 0"
        yield ("admit", 100, 0, 0, X), "admit refused 27"
        yield ("admit", 100, 0, 1, second), "admit new"
        for body in (first, second):
            yield ("admit", 100, 0, 1, body), "admit dup"
        yield ("admit", 100, 0, 0, U), "admit dup"
        yield ("serve", ROOM, REQUEST), "serve %d %s 1 0" % (len(first), first.hex())
        yield ("advertise", ROOM, 1, b"t"), "advertise 48 " + OFFER.hex()
        yield ("why", 1, ID, b"t"), "why listed"
        # At the end of their time both are new again, and still the first is kept.
        yield ("admit", 1100, 0, 1, second), "admit new"
        yield ("admit", 1100, 0, 1, first), "admit new"
        yield ("serve", ROOM, REQUEST), "serve %d %s 1 0" % (len(first), first.hex())
    # What is asked of an unsigned message, for either word; of a signed one the same as where all must be.
    for body, told in BARE:
        for word in (0, 1):
            yield TRAINING, "set ok"
            yield ("admit", 100, 0, word, body), "admit new" if told == "new" else "admit refused " + told
            yield ("admit", 99, 0, 1 - word, body), "admit refused " + ("31 100" if told == "new" else told)
            yield ("admit", 100, 0, 1 - word, body), "admit dup" if told == "new" else "admit refused " + told
    for body, told in SENDERS:
        yield TRAINING, "set ok"
        told = "new" if told == "25" else told
        yield ("admit", 100, 0, 1, body), "admit new" if told == "new" else "admit refused " + told
    # An unsigned message is not well formed where it is not allowed, and nothing is under flags that are not known.
    yield TRAINING, "set ok"
    yield ("admit", 100, 0, 0, U), "admit new"
    for flags in (0, 2, 4, 5, TOP):
        yield ("hurt", program.FLAGS, 0, flags), "hurt ok"
        yield from calls("42")
    for flags in (3, 1):
        yield ("hurt", program.FLAGS, 0, flags), "hurt ok"
        yield ("serve", ROOM, REQUEST), "serve 48 %s 1 0" % U.hex()
    # Flags that are turned on are not found out; a signed message is well formed under either.
    yield SETTINGS, "set ok"
    yield ("admit", 100, 0, 1, U), "admit refused 25"
    yield ("admit", 100, 0, 1, X), "admit new"
    for flags, told in ((1, "admit new"), (0, "admit refused 25")):
        yield ("hurt", program.FLAGS, 0, flags), "hurt ok"
        yield ("admit", 100, 0, 1, U), told
        yield ("serve", ROOM, REQUEST), "serve 114 %s 1 0" % X.hex()
    # Where only the unsigned form is seen, a node that does not allow it asks.
    yield ("flagged", 1000, 4, 2, 4, 0), "set ok"
    yield ("admit", 100, 0, 1, X), "admit new"
    yield ("ask", ROOM, OFFER), "ask 0"
    yield ("hurt", program.SEEN_BYTE, 0, 0), "hurt ok"
    for flags, told in ((0, "45 " + REQUEST.hex()), (1, "0"), (0, "45 " + REQUEST.hex())):
        yield ("hurt", program.FLAGS, 0, flags), "hurt ok"
        yield ("ask", ROOM, OFFER), "ask " + told
    # Unsigned messages drive the ids of signed ones out.
    yield TRAINING, "set ok"
    yield ("admit", 100, 0, 1, X), "admit new"
    for n in range(4):
        yield ("admit", 100, 0, 0, message(signature=None, seqno=bytes([2 + n]))), "admit new"
    yield ("admit", 100, 0, 1, X), "admit new"


# X with another seqno, and what asks for both; what declines the first, and the same as an IWANT.
Y = message(seqno=b"\x02")
ID_Y = SENDER + b"\x02"


def naming(entry, *ids):
    """A control with one entry of ids: an IWANT (2) or an IDONTWANT (5)."""
    return field(3, field(entry, b"".join(field(1, one) for one in ids)))


def in_editions():
    """The same for bodies in both editions, and for what serve is lent."""
    both, dont, want = naming(2, ID, ID_Y), naming(5, ID), naming(2, ID)
    served = {"X": "114 %s 1 0" % X.hex(), "Y": "114 %s 1 0" % Y.hex(), "XY": "228 %s%s 2 0" % (X.hex(), Y.hex()), "": "0 0 0"}
    yield SETTINGS, "set ok"
    for body, told in [*REFUSED, ("1a032a0180", None), ("1a052a030a0241", None), ("0a00" * 513, "11 513"), (bytes(65537).hex(), "10 65537")]:
        body = bytes.fromhex(body)
        for edition in (V1_1, V1_2):
            place = "1 at 4 in 3 5" if len(body) == 5 else "4 2 2 1 at 6 in 3 5"
            refused = told or (place if edition == V1_2 else None)
            yield ("admit_in", edition, 100, 0, 1, body), "admit refused " + (refused or "20 0")
            yield ("ask_in", edition, ROOM, body), "ask " + ("refused " + refused if refused else "0")
            if len(body) < 60000:
                yield ("serve_in", edition, ROOM, b"", body), "serve " + ("refused " + refused if refused else "0 0 0")
                # As the second body it is read in 1.2, whatever the edition of the first.
                yield ("serve_in", edition, 0, body, both), "serve refused " + (told or place)
    yield ("admit_in", V1_2, 100, 0, 1, X), "admit new"
    yield ("admit_in", V1_1, 100, 0, 1, Y), "admit new"
    yield ("admit_in", V1_2, 100, 0, 1, Y + dont), "admit dup"
    for edition in (V1_1, V1_2):
        for unwanted, told in ((b"", "XY"), (dont, "Y"), (naming(5, ID_Y), "X"), (naming(5, ID_Y, ID), ""), (dont + naming(5, ID_Y), ""), (dont + dont, "Y"),
                               (want, "XY"), (OFFER, "XY"), (X, "XY"), (naming(5), "XY"), (naming(5, SENDER, ID + b"\0", b"\x01" + ID, b""), "XY"),
                               (field(5, field(1, ID)), "XY"), (field(3, field(5, field(2, ID))), "XY"), (bytes.fromhex("1a022807"), "XY")):
            yield ("serve_in", edition, ROOM, unwanted, both), "serve " + served[told]
        # Not the IDONTWANTs of the body that asks; but the same body may be both.
        yield ("serve_in", edition, ROOM, b"", both + dont), "serve " + served["XY"]
        yield ("serve_in", edition, ROOM, both + dont, both + dont), "serve " + served["Y"]
        yield ("serve_in", edition, ROOM, dont, want), "serve " + served[""]
        # Room is for what remains, and what is declined counts neither as written nor as left.
        yield ("serve_in", edition, 114, dont, both), "serve " + served["Y"]
        yield ("serve_in", edition, 113, dont, both), "serve refused 12 114"
        yield ("serve_in", edition, 227, b"", both), "serve 114 %s 1 1" % X.hex()
        yield ("serve_in", edition, 0, dont, want), "serve " + served[""]
        # The body that asks is tested first, and room last.
        yield ("serve_in", edition, ROOM, b"\x00", both), "serve refused 6 0 0 at 0"
        yield ("serve_in", edition, ROOM, b"\x00", b"\x80"), "serve refused 1 at 0"
        yield ("serve_in", edition, 0, b"\x00", both), "serve refused 6 0 0 at 0"
        yield ("serve_in", edition, 0, dont + b"\x80", both), "serve refused 1 at %d" % len(dont)
        yield ("serve_in", edition, ROOM, bytes.fromhex(declined(511)), both), "serve " + served["XY"]
        yield ("serve_in", edition, ROOM, bytes.fromhex(declined(512)), both), "serve refused 11 513"
    # 40, 41 and 42 come before both.
    for lent, told in (((3 * 129, 4 * 4096), "40"), ((5 * 129, 4 * 4096), "41"), ((4 * 129, 4 * 4096), "42")):
        yield ("lend", *lent), "lend ok"
        if told == "42":
            yield ("hurt", program.COUNT, 0, 5), "hurt ok"
        for edition in (V1_1, V1_2):
            yield ("serve_in", edition, ROOM, b"\x00", b"\x80"), "serve refused " + told
            yield ("ask_in", edition, ROOM, b"\x80"), "ask refused " + told
            yield ("admit_in", edition, 100, 0, 1, b"\x80"), "admit refused " + told


# X with a group behind its fields.
G = field(2, X[2:] + b"\x0b\x0c")
SKIPPING = ("flagged", 1000, 4, 2, 4, GROUPS)


def in_groups():
    """The same for a node that skips groups, and for one that does not."""
    served, want, dont = "serve 116 %s 1 0" % G.hex(), naming(2, ID), b"\x0b\x0c" + naming(5, ID)
    for settings, mode in ((SETTINGS, 0), (SKIPPING, 1)):
        yield settings, "set ok"
        for body, *both in places.GROUP_ROWS:
            told, row = both[mode], bytes.fromhex(body)
            for edition in (V1_1, V1_2):
                yield ("admit_in", edition, 100, 0, 1, row), "admit " + (told or "refused " + {"12020b0c": "21", "12080a01420b0a01410c": "34"}.get(body, "20 0"))
                yield ("ask_in", edition, ROOM, row), "ask " + (told or "0")
                yield ("serve_in", edition, ROOM, b"", row), "serve " + (told or "0 0 0")
                yield ("serve_in", edition, 0, row, want), "serve " + (told or "0 0 0")
    # What is kept and served has its group; its id has not.
    yield ("admit", 100, 0, 0, G), "admit refused 27"
    yield ("admit", 100, 0, 1, G), "admit new"
    yield ("admit", 100, 0, 1, X), "admit dup"
    yield ("ask", ROOM, OFFER), "ask 0"
    yield ("advertise", ROOM, 1, b"t"), "advertise 48 " + OFFER.hex()
    yield ("why", 1, ID, b"t"), "why listed"
    yield ("serve", ROOM, REQUEST), served
    yield ("serve", 115, REQUEST), "serve refused 12 116"
    for edition in (V1_1, V1_2):
        yield ("serve_in", edition, ROOM, dont, want), "serve 0 0 0"
        # The body that asks is tested first.
        yield ("serve_in", edition, ROOM, b"\x0b", b"\x0c"), "serve refused 14"
        yield ("serve_in", edition, ROOM, b"\x0b", want), "serve refused 16"
    yield ("admit", 100, 0, 1, field(2, U[2:] + b"\x0b\x0c")), "admit refused 25"
    # The node is well formed only where groups are skipped.
    for flags in (0, 1, 4, 6, TOP):
        yield ("hurt", program.FLAGS, 0, flags), "hurt ok"
        yield from calls("42")
    for flags in (3, 2):
        yield ("hurt", program.FLAGS, 0, flags), "hurt ok"
        yield ("serve", ROOM, REQUEST), served
    # In its place: another end, no end, and an end more.
    for at, byte, size in ((113, 0x14, 114), (113, 0x0b, 114), (112, 0x0c, 114), (114, 0x0c, 115), (113, 0x0c, 113)):
        yield ("hurt", program.CACHE_BYTE, at, byte), "hurt ok"
        yield ("hurt", program.LEN, 0, size), "hurt ok"
        yield from calls("42")
        yield ("hurt", program.CACHE_BYTE, 112, 0x0b), "hurt ok"
        yield ("hurt", program.CACHE_BYTE, 113, 0x0c), "hurt ok"
        yield ("hurt", program.LEN, 0, 114), "hurt ok"
        yield ("serve", ROOM, REQUEST), served
    # Without the flag the message is refused, and the whole body with it.
    yield SETTINGS, "set ok"
    for index in (0, 1):
        yield ("admit", 100, index, 1, X + G), "admit refused 5 3 113 at 229 in 2"
    yield ("admit", 100, 0, 1, X), "admit new"
    yield ("serve_in", V1_2, ROOM, dont, want), "serve refused 5 3 1 at 1"
    yield ("hurt", program.FLAGS, 0, GROUPS), "hurt ok"
    yield ("serve_in", V1_2, ROOM, dont, want), "serve 0 0 0"
    # Both flags.
    yield ("flagged", 1000, 4, 2, 4, 3), "set ok"
    yield ("admit", 100, 0, 0, field(2, U[2:] + b"\x0b\x0c")), "admit new"
    yield ("admit", 100, 0, 1, G), "admit new"
    yield ("serve", ROOM, REQUEST), "serve 50 %s 1 0" % field(2, U[2:] + b"\x0b\x0c").hex()


# Records that end a run of `states` with `bad`: an edition that is none, a room above what there is, and what is too short.
BAD_STATES = (
    *(program.record(step) for edition in (2, 255) for step in (("admit_in", edition, 1, 0, 1, X), ("ask_in", edition, ROOM, b""), ("serve_in", edition, ROOM, b"", b""))),
    program.record(("ask_in", 1, 65601, b"")), program.record(("serve_in", 1, 65601, b"", b"")), program.record(("serve_in", 0, 2**32 - 1, b"", b"")),
    *(header(size, kind) + bytes(size) for kind, size in ((22, 0), (22, 11), (25, 0), (25, 4), (26, 0), (26, 4), (26, 8))),
    *(header(9 + rest, 26) + bytes(5) + size.to_bytes(4, "little") + bytes(rest) for size, rest in ((1, 0), (4, 3), (2**32 - 1, 9))),
    header(20, 23) + bytes(20), header(20, 24) + bytes(20), header(20, 27) + bytes(20),
)


def steps():
    """(step, the line without its number)."""
    for bad in ((257, 2, 4), (4, 0, 4), (4, 17, 4), (4, 2, 65)):
        yield ("set", 1000, *bad), "set refused 40"
    # The trace of the scope.
    yield SETTINGS, "set ok"
    yield ("admit", 100, 0, 1, X), "admit new"
    yield ("advertise", ROOM, 1, b"t"), "advertise 48 " + OFFER.hex()
    yield ("admit", 100, 0, 1, X), "admit dup"
    yield ("serve", ROOM, REQUEST), "serve 114 %s 1 0" % X.hex()
    yield ("ask", ROOM, OFFER), "ask 0"
    yield ("beat", 1100), "beat ok"
    yield ("advertise", ROOM, 1, b"t"), "advertise 0"
    yield ("ask", ROOM, OFFER), "ask 45 " + REQUEST.hex()
    yield ("admit", 1099, 0, 1, X), "admit refused 31 1100"
    yield ("beat", 1099), "beat refused 31 1100"
    # Why it is not offered.
    for windows, name, topic, told in QUESTIONS:
        yield ("why", windows, name, topic), "why " + told
    yield ("admit", 1100, 0, 1, X), "admit new"
    # New once more, it is still the cached one, in its old window.
    yield ("why", 1, ID, b"t"), "why window 1"
    yield ("beat", 1100), "beat ok"
    yield ("why", 65535, ID, b"t"), "why missing"
    # Lent stores of other lengths, and a node that is not well formed.
    yield SETTINGS, "set ok"
    yield ("admit", 100, 0, 1, X), "admit new"
    yield ("lend", 3 * 129, 4 * 4096), "lend ok"
    yield from calls("40")
    for lent in ((4 * 129 + 1, 4 * 4096), (5 * 129, 4 * 4096), (4 * 129, 3 * 4096), (4 * 129, 4 * 4096 + 1)):
        yield ("lend", *lent), "lend ok"
        yield from calls("41")
    yield ("lend", 4 * 129, 4 * 4096), "lend ok"
    for what, place, bad, right in ((program.SEEN_COUNT, 0, 5, 1), (program.COUNT, 0, 5, 1), (program.WINDOW, 0, 2, 0), (program.ARRIVAL, 0, 1, 0),
                                    (program.LEN, 0, 111, 112), (program.ID_LEN, 0, 38, 39), (program.IDS, 0, 1, 0), (program.HISTORY_LEN, 0, 0, 2),
                                    (program.TOPIC_COUNT, 0, 0, 1), (program.TOPIC_COUNT, 0, 2, 1), (program.TOPIC_COUNT, 0, 5, 1),
                                    (program.TOPIC_START, 0, 44, 45), (program.TOPIC_START, 0, 65535, 45), (program.TOPIC_LEN, 0, 2, 1),
                                    (program.TOPIC_LEN, 0, 65535, 1)):
        yield ("hurt", what, place, bad), "hurt ok"
        yield from calls("42")
        yield ("hurt", what, place, right), "hurt ok"
    # Slots past the topics that a message has, and rows that are not in use.
    for what, place in ((program.TOPIC_START, 1), (program.TOPIC_LEN, 3), (program.TOPIC_COUNT, 1), (program.TOPIC_START, 4)):
        yield ("hurt", what, place, 65535), "hurt ok"
        yield ("advertise", ROOM, 1, b"t"), "advertise 48 " + OFFER.hex()
    # A cached message of another sender, as states of before may have it: in its place and in its id. What is no peer id, or holds no key, is not well formed.
    for at, byte, told in ((37, 0, "ok"), (0, 110, "refused 42"), (0, 18, "refused 42"), (1, 35, "refused 42"), (3, 2, "ok"), (3, 4, "refused 42")):
        yield SETTINGS, "set ok"
        yield ("admit", 100, 0, 1, X), "admit new"
        yield ("hurt", program.CACHE_BYTE, 2 + at, byte), "hurt ok"
        yield ("hurt", program.IDS, at, byte), "hurt ok"
        yield ("beat", 100), "beat " + told
    # Where the topics of a message stand: as told, and not a place beside it.
    for raw, kept in TOPIC_MESSAGES:
        yield SETTINGS, "set ok"
        yield ("admit", 100, 0, 1, field(2, raw)), "admit new"
        for slot, (start, size) in enumerate(kept):
            yield ("hurt", program.TOPIC_START, slot, start), "hurt ok"
            yield ("hurt", program.TOPIC_LEN, slot, size), "hurt ok"
        yield ("beat", 100), "beat ok"
        for slot, (start, size) in enumerate(kept):
            for what, right in ((program.TOPIC_START, start), (program.TOPIC_LEN, size)):
                yield ("hurt", what, slot, right + 1), "hurt ok"
                yield ("beat", 100), "beat refused 42"
                yield ("hurt", what, slot, right), "hurt ok"
    yield SETTINGS, "set ok"
    yield ("admit", 100, 0, 1, X), "admit new"
    # Bodies.
    for body, told in [*REFUSED, (bytes(65537).hex(), "10 65537"), ("0a00" * 513, "11 513")]:
        body = bytes.fromhex(body)
        yield ("admit", 100, 0, 1, body), "admit refused " + told
        yield ("ask", ROOM, body), "ask refused " + told
        yield ("serve", ROOM, body), "serve refused " + told
    # Messages.
    yield ("admit", 100, 1, 1, X), "admit refused 20 1"
    for body, told in ((message(who=None), "21"), (message(who=b""), "22 0"), (message(who=bytes(65)), "22 65"), (message(seqno=None), "23"),
                       (message(seqno=b""), "23"), (message(seqno=bytes(65)), "23"), (message(signature=None, key=b"k"), "24"),
                       (message(signature=None), "25"), (message(signature=bytes(63)), "26 63"), (message(topics=()), "28 0"),
                       (message(topics=(b"t",) * 5), "28 5"), (message(topics=(b"t", bytes(1025))), "29 1025"),
                       (message(data=bytes(4097 - 112 - 3)), "30 4097")):
        yield ("admit", 100, 0, 1, body), "admit refused " + told
    yield ("admit", 100, 0, 0, X), "admit refused 27"
    # Senders and keys: 34 to 36 are told without the host's word, too, and where the reading is before the clock. 27 comes before 28, and 31 is last.
    for body, told in SENDERS:
        fit = told == "new"
        yield SETTINGS, "set ok"
        yield ("beat", 100), "beat ok"
        yield ("admit", 100, 0, 0, body), "admit refused " + ("27" if fit or told == "28 5" else told)
        yield ("admit", 99, 0, 1, body), "admit refused " + ("31 100" if fit else told)
        yield ("admit", 100, 0, 1, body), "admit new" if fit else "admit refused " + told
        yield ("admit", 100, 0, 1, body), "admit dup" if fit else "admit refused " + told
    yield SETTINGS, "set ok"
    yield ("admit", 100, 0, 1, X), "admit new"
    yield ("advertise", ROOM, 1, bytes(1025)), "advertise refused 29 1025"
    # Room.
    yield ("advertise", 47, 1, b"t"), "advertise refused 12 48"
    yield ("serve", 113, REQUEST), "serve refused 12 114"
    yield ("serve", 114, REQUEST), "serve 114 %s 1 0" % X.hex()
    yield ("ask", 44, OFFER.replace(ID, OTHER)), "ask refused 12 45"
    yield ("ask", 45, OFFER.replace(ID, OTHER)), "ask 45 " + REQUEST.replace(ID, OTHER).hex()
    # Nothing was changed by all that.
    yield ("admit", 100, 0, 1, X), "admit dup"
    yield from training()
    yield from in_editions()
    yield from in_groups()


def states():
    played = list(steps())
    return program.records([step for step, _ in played]), ["%d %s" % (n, line) for n, (_, line) in enumerate(played, 1)]
