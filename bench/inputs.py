"""The benchmark's inputs: bodies of several sizes and kinds, lists to write from, ids, and what fills a cache and a node. Nothing is random."""

import os

FULL = 65536
MAX_RECORDS = 512


def varint(n):
    out = b""
    while n >= 128:
        out += bytes([n % 128 + 128])
        n //= 128
    return out + bytes([n])


def field(number, content):
    return varint(number * 8 + 2) + varint(len(content)) + content


def some(n, seed):
    """n bytes that look like nothing in particular."""
    out, x = bytearray(), seed * 2654435761 % 2**32 + 1
    for _ in range(n):
        x = (x * 1103515245 + 12345) % 2**31
        out.append(x >> 16 & 255)
    return bytes(out)


def sender(i):
    """A peer id, 38 bytes: that of an Ed25519 key of 32."""
    return bytes.fromhex("002408011220") + some(32, i)


def message(i, data, topics=(b"t",), who=None, seqno=8, signature=True):
    """A message as a gateway publishes it."""
    parts = [field(1, who or sender(i)), field(2, data), field(3, i.to_bytes(seqno, "big"))] + [field(4, topic) for topic in topics]
    return field(2, b"".join(parts) + (field(5, some(64, i)) if signature else b""))


def ihave(topic, ids):
    return field(3, field(1, field(1, topic) + b"".join(field(2, one) for one in ids)))


def iwant(ids):
    return field(3, field(2, b"".join(field(1, one) for one in ids)))


def idontwant(ids):
    return field(3, field(5, b"".join(field(1, one) for one in ids)))


def unit(i, size):
    """A mixed body of this size with 8 records: a subscription, a message with its topic, an offer with an id, a graft, a prune with a peer."""
    rest = (field(1, b"\x08\x01" + field(2, b"ct/brain"))
            + field(3, field(1, field(1, b"ct/brain") + field(2, some(46, i))) + field(3, field(1, b"mr/knee"))
                    + field(4, field(1, b"mr/hip") + field(2, field(1, sender(i)) + field(2, some(100, i))) + b"\x18\x3c")))
    for data in range(size, 0, -1):
        made = message(i, some(data, i), (b"ct/brain",)) + rest
        if len(made) == size:
            return made
    raise ValueError(size)


def mixed(size):
    """A mixed body: a unit for each KB."""
    return b"".join(unit(i, 1024) for i in range(size // 1024))


def filled(parts, size=FULL):
    """As many of the parts as fit, and then an unknown field, so that the size is just so."""
    out = b""
    for part in parts:
        if len(out) + len(part) > size - 5:
            break
        out += part
    rest = size - len(out)
    for content in range(max(0, rest - 5), rest):
        if len(field(15, bytes(content))) == rest:
            return out + field(15, bytes(content))
    return out


def bodies():
    """(name, body)."""
    # The body of the scope's trace.
    key = bytes.fromhex("1ed1e8fae2c4a144b8be8fd4b47bf3d3b34b871c3cacf6010f0e42d474fce27e")
    yield "small-114", bytes.fromhex("12700a26002408011220") + key + bytes.fromhex("1a01012201742a40") + bytes(64)
    for size in (1024, 2048, 4096, 8192, 16384, 32768, 65536):
        yield "mixed-%d" % size, mixed(size)
    yield "messages", filled(message(i, some(3900, i)) for i in range(16))
    # The shortest that are read: no gateway admits them, and their senders are no peer ids.
    yield "short-messages", b"".join(message(i, b"", (), some(1, i), 2, False) for i in range(MAX_RECORDS))
    yield "one-message", message(1, some(FULL - 132, 1))
    yield "many-topics", field(2, field(1, sender(0)) + field(3, b"1") + b"".join(field(4, some_text(i)) for i in range(MAX_RECORDS - 1)))
    yield "offered-ids", ihave(b"t", [some(125, i) for i in range(MAX_RECORDS - 1)])
    yield "requested-ids", iwant([some(46, i) for i in range(MAX_RECORDS - 1)])
    yield "subscriptions", b"".join(field(1, b"\x08\x01" + field(2, b"topic-%04d" % i)) for i in range(MAX_RECORDS))
    yield "prunes", b"".join(field(3, field(4, field(1, b"t") + field(2, field(1, sender(i)) + field(2, some(70, i))))) for i in range(MAX_RECORDS // 2))
    yield "empty-records", b"\x0a\x00" * MAX_RECORDS
    yield "unknown-fields", b"\x20\x00" * (FULL // 2)
    yield "cut", mixed(FULL)[:-1]


def newer():
    """(name, body) of edition 1.2: a control full of what is not wanted, with the ids of `requested-ids`."""
    yield "declined-ids", idontwant([some(46, i) for i in range(MAX_RECORDS - 1)])


def group(number, content):
    return varint(number * 8 + 3) + content + varint(number * 8 + 4)


def grouped():
    """(name, body) with groups: one of many fields, groups as deep as they may be, and mixed bodies with a group in each message and behind each unit."""
    yield "one-group", group(1, b"\x08\x00" * (FULL // 2 - 1))
    deep = b""
    for _ in range(32):
        deep = group(1, deep)
    yield "deep-groups", deep * (FULL // len(deep))
    for size in (1024, 65536):
        units = (with_groups(unit(i, 960), i) for i in range(size // 1024))
        yield "mixed-groups-%d" % size, b"".join(units)


def with_groups(made, i):
    """A unit, which begins with its message, with a group in that and one behind it: 1,024 bytes of 960."""
    own = group(9, field(1, some(20, i)) + b"\x10\x05")
    size, at = made[1] % 128 + 128 * made[2], 3
    inside = field(2, own + made[at:at + size])
    rest = 1024 - len(inside) - (len(made) - at - size)
    return inside + made[at + size:] + group(9, field(1, bytes(rest - 4)))


def some_text(i):
    return ("topic-%04d-" % i * 12)[:118].encode()


class Lists:
    """Rows of the library's table, 20 numbers each, over bytes."""

    def __init__(self):
        self.words, self.data = [], b""

    def put(self, part):
        start = len(self.data)
        self.data += part
        return [start, len(self.data)]

    def add(self, kind, *fields, number=None, own=None):
        self.words += [kind, *(self.put(own) if own is not None else (0, 0)), *((0, 0) if number is None else (1, number))]
        for i in range(5):
            self.words += [1, *self.put(fields[i])] if i < len(fields) and fields[i] is not None else [0, 0, 0]

    def file(self):
        """How many numbers, the numbers, and the bytes."""
        return b"".join(word.to_bytes(8, "little") for word in [len(self.words), *self.words]) + self.data


SUB_OPTS, MESSAGE, TOPIC, GRAFT, PRUNE, PEER_INFO = 1, 2, 3, 8, 9, 10
LISTS = ("subscriptions", "grafts", "prunes", "messages", "mixed")
ROWS = (8, 64, 512)


def lists(name, rows):
    """So many rows: subscriptions; grafts; prunes, each with a peer; messages, each with a topic; or all of these in turn, topics and peers not beside what
    they belong to."""
    made = Lists()
    topics = [b"ct/%04d" % i for i in range(rows)]
    add = {"sub": lambda i: made.add(SUB_OPTS, topics[i], number=1), "graft": lambda i: made.add(GRAFT, topics[i]),
           "prune": lambda i: made.add(PRUNE, topics[i], number=60), "peer": lambda i: made.add(PEER_INFO, sender(i), some(70, i)),
           "message": lambda i: made.add(MESSAGE, sender(i), some(100, i), i.to_bytes(8, "big"), some(64, i)), "topic": lambda i: made.add(TOPIC, own=topics[i])}
    unit = {"subscriptions": ["sub"], "grafts": ["graft"], "prunes": ["prune", "peer"], "messages": ["message", "topic"],
            "mixed": ["sub", "message", "graft", "topic", "prune", "sub", "peer", "graft"]}[name]
    for i in range(rows):
        add[unit[i % len(unit)]](i)
    assert len(made.words) == 20 * rows
    return made


def write(folder):
    """Writes the inputs, and gives the file names of the bodies, those of edition 1.2 and those with groups among them, and of the lists."""
    os.makedirs(folder, exist_ok=True)

    def put(name, data):
        with open(os.path.join(folder, name), "wb") as out:
            out.write(data)

    names = []
    for name, body in bodies():
        assert len(body) <= FULL, name
        put(name + ".bin", body)
        names.append(name + ".bin")
    for name, body in newer():
        assert len(body) <= FULL, name
        put(name + ".v12", body)
        names.append(name + ".v12")
    for name, body in grouped():
        assert len(body) <= FULL, name
        put(name + ".groups", body)
        names.append(name + ".groups")
    for name in LISTS:
        for rows in ROWS:
            names.append("%s-%d.rows" % (name, rows))
            put(names[-1], lists(name, rows).file())
    # Ids of one publisher, as a seen cache has them: a mark, a peer id and a number. They have 65 bytes.
    ids = [b"\x01" + sender(0) + i.to_bytes(26, "big") for i in range(768)]
    put("ids", b"".join(ids[:512]))
    put("others", b"".join(ids[512:]))
    for name, size, count in (("small", 100, 128), ("large", 3900, 512)):
        made = [message(i, some(size, i)) for i in range(count)]
        assert len({len(one) for one in made}) == 1
        put(name + "-bodies", b"".join(made))
        put(name + "-ids", b"".join(map(id_of, range(count))))
    # The node sees 256 of the large ones and keeps the last 64 of them. It is offered 256, of which it saw the half, and asked for all that it keeps; of these the half
    # is not wanted, the others among the 511 that are not wanted it never saw.
    put("offer", ihave(b"t", [id_of(i) for i in range(128, 384)]))
    put("request", iwant([id_of(i) for i in range(192, 256)]))
    put("unwanted", idontwant([id_of(i) for i in (*range(1000, 1479), *range(192, 256, 2))]))
    return names


def id_of(i):
    return sender(i) + i.to_bytes(8, "big")
