"""Bodies in either edition of gossipsub: a reader, a writer, and the lines of `inspect` 21 to 24.

The Rust has 1.1 alone, so 1.2 is compared with this model. It is written from the public
documents: the messages are gossipsub's own definition (`PROTO`), which is read here; bytes are
read and written by the encoding of Protocol Buffers; refusals with their values and their place,
limits and what counts as a record are the scope's. It asks neither the Rust nor a program, and
shares no reader with nodes.py and places.py. In 1.1 it is held to the Rust itself
(compare_editions.py), and the editions differ in one line of the definition.

A case is (call, body, index), where the call is one of decode, encode, sign and id. `lines`
gives what the program prints for it, the first line without its number.
"""

import re

from places import EDITIONS, V1_1, V1_2

# As gossipsub's documents have it. What stands behind a mark is of that edition and later.
PROTO = """
message RPC {
  repeated SubOpts subscriptions = 1;
  repeated Message publish = 2;
  optional ControlMessage control = 3;
}
message SubOpts {
  optional bool subscribe = 1;
  optional string topicid = 2;
}
message Message {
  optional bytes from = 1;
  optional bytes data = 2;
  optional bytes seqno = 3;
  repeated string topic = 4;
  optional bytes signature = 5;
  optional bytes key = 6;
}
message ControlMessage {
  repeated ControlIHave ihave = 1;
  repeated ControlIWant iwant = 2;
  repeated ControlGraft graft = 3;
  repeated ControlPrune prune = 4;
  repeated ControlIDontWant idontwant = 5; // 1.2
}
message ControlIHave {
  optional string topicID = 1;
  repeated bytes messageIDs = 2;
}
message ControlIWant {
  repeated bytes messageIDs = 1;
}
message ControlGraft {
  optional string topicID = 1;
}
message ControlPrune {
  optional string topicID = 1;
  repeated PeerInfo peers = 2;
  optional uint64 backoff = 3;
}
message PeerInfo {
  optional bytes peerID = 1;
  optional bytes signedPeerRecord = 2;
}
message ControlIDontWant {
  repeated bytes messageIDs = 1;
}
"""

MAX_BODY, MAX_RECORDS, MAX_PART = 65536, 512, 64
PREFIX = b"libp2p-pubsub:"
MARKS = {"": V1_1, "1.2": V1_2}


class Field:
    """A line of the definition: how often the field counts, what it holds, its name, its number, and its edition."""

    def __init__(self, often, what, name, number, mark):
        self.repeated, self.what, self.name, self.number, self.since = often == "repeated", what, name, int(number), MARKS[mark]
        self.type = 0 if what in ("bool", "uint64") else 2


def definitions(edition):
    """The messages of an edition: of each its fields, in the order of their numbers."""
    found = {}
    for name, inside in re.findall(r"message (\w+) \{(.*?)\}", PROTO, re.DOTALL):
        lines = re.findall(r"(repeated|optional) (\w+) (\w+) = (\d+);(?: // ([\d.]+))?", inside)
        found[name] = [field for field in (Field(*line) for line in lines) if field.since <= edition]
    return found


MESSAGES = {edition: definitions(edition) for edition in EDITIONS}


class Refused(Exception):
    """Its number, the values beside it, and where it has one its place: an offset in the whole body, and the fields around that."""

    def __init__(self, number, values=(), offset=None, path=()):
        super().__init__(number, values, offset, path)
        self.number, self.values, self.offset, self.path = number, values, offset, path

    def __str__(self):
        words = ["refused", self.number, *self.values]
        if self.offset is not None:
            words += ["at", self.offset] + (["in", *self.path] if self.path else [])
        return " ".join(map(str, words))


class Message:
    """A message that was read: what it is, all its bytes, and its known fields in the order in which it has them, (name, value)."""

    def __init__(self, kind, raw, fields):
        self.kind, self.raw, self.fields = kind, raw, fields

    def each(self, name):
        return [value for one, value in self.fields if one == name]

    def last(self, name):
        return (self.each(name) or [None])[-1]


# --- reading -----------------------------------------------------------------------

class Reader:
    """Reads a body in an edition. `start` and `end` bound the message that is being read, `path` are the fields around it. It keeps which fields it skipped, as
    (message, number, type)."""

    def __init__(self, body, edition):
        self.body, self.messages, self.skipped = body, MESSAGES[edition], set()

    def varint(self, at, end, path):
        """A number of up to 64 bits in groups of seven, the lowest first, and where it ends."""
        value = 0
        for size in range(1, 11):
            if at + size > end:
                raise Refused(1, (), at, path)
            group = self.body[at + size - 1]
            if size == 10 and group > 1:
                raise Refused(2, (), at, path)
            value |= (group & 0x7F) << 7 * (size - 1)
            if group & 0x80 == 0:
                if group == 0 and size > 1:
                    raise Refused(3, (), at, path)
                return value, at + size
        raise AssertionError("a tenth byte is at most 1, and ends the varint")

    def field(self, at, start, end, path):
        """The field at a place: number, type, where its tag ends, where what it holds starts and ends."""
        tag, tag_end = self.varint(at, end, path)
        number, kind = tag >> 3, tag & 7
        if not 1 <= number < 2**29:
            raise Refused(6, (number, at - start), at, path)
        if kind not in (0, 1, 2, 5):
            raise Refused(5, (kind, tag_end - start), tag_end, path)
        if kind == 0:
            return number, kind, tag_end, tag_end, self.varint(tag_end, end, path)[1]
        size, inside = self.varint(tag_end, end, path) if kind == 2 else ({1: 8, 5: 4}[kind], tag_end)
        if size > end - inside:
            raise Refused(4, (inside - start, size, end - inside), inside, path)
        return number, kind, tag_end, inside, inside + size

    def message(self, kind, start, end, path=()):
        """The message of this kind that stands between two places."""
        fields, at = [], start
        while at < end:
            number, wire, tag_end, inside, after = self.field(at, start, end, path)
            fields += self.taken(kind, number, wire, (tag_end, inside, after), start, end, path)
            at = after
        return Message(kind, self.body[start:end], fields)

    def taken(self, kind, number, wire, places, start, end, path):
        """A field of a message, as (name, value), if it is known; else it is skipped."""
        tag_end, inside, after = places
        field = next((field for field in self.messages[kind] if (field.number, field.type) == (number, wire)), None)
        if field is None:
            self.skipped.add((kind, number, wire))
            return []
        if field.what in self.messages:
            return [(field.name, self.message(field.what, inside, after, path + (number,)))]
        if wire == 0:
            return [(field.name, self.varint(inside, end, path)[0])]
        value = self.body[inside:after]
        if field.what == "string" and not is_utf8(value):
            raise Refused(7, (tag_end - start,), tag_end, path)
        return [(field.name, value)]


def is_utf8(data):
    """By the table of RFC 3629: the first byte, and between which bytes the second lies; each further one lies between 80 and BF."""
    rows = ((0x00, 0x7F, 0, None), (0xC2, 0xDF, 1, (0x80, 0xBF)), (0xE0, 0xE0, 2, (0xA0, 0xBF)), (0xE1, 0xEC, 2, (0x80, 0xBF)), (0xED, 0xED, 2, (0x80, 0x9F)),
            (0xEE, 0xEF, 2, (0x80, 0xBF)), (0xF0, 0xF0, 3, (0x90, 0xBF)), (0xF1, 0xF3, 3, (0x80, 0xBF)), (0xF4, 0xF4, 3, (0x80, 0x8F)))
    at = 0
    while at < len(data):
        row = next((row for row in rows if row[0] <= data[at] <= row[1]), None)
        if row is None or at + row[2] >= len(data):
            return False
        for n, byte in enumerate(data[at + 1:at + 1 + row[2]]):
            low, high = row[3] if n == 0 else (0x80, 0xBF)
            if not low <= byte <= high:
                return False
        at += 1 + row[2]
    return True


def read(body, edition, reader=Reader):
    """The RPC that a body is, within the limits; or Refused."""
    if len(body) > MAX_BODY:
        raise Refused(10, (len(body),))
    rpc = reader(body, edition).message("RPC", 0, len(body))
    count = len(records(rpc))
    if count > MAX_RECORDS:
        raise Refused(11, (count,))
    return rpc


# --- records, and how they are printed ---------------------------------------------------

def shown(data):
    return "-" if data is None else "=" + data.hex()


def counted(number):
    return "-" if number is None else str(number)


# Of each message the line that it has as a record; a control is none.
LINE = {
    "SubOpts": lambda one: "sub %s %s" % ({None: "-", False: "0", True: "1"}[None if one.last("subscribe") is None else one.last("subscribe") > 0],
                                          shown(one.last("topicid"))),
    "Message": lambda one: "message " + " ".join(map(shown, [one.raw] + [one.last(name) for name in ("from", "data", "seqno", "signature", "key")])),
    "ControlIHave": lambda one: "ihave " + shown(one.last("topicID")),
    "ControlIWant": lambda one: "iwant",
    "ControlGraft": lambda one: "graft " + shown(one.last("topicID")),
    "ControlPrune": lambda one: "prune %s %s" % (shown(one.last("topicID")), counted(one.last("backoff"))),
    "ControlIDontWant": lambda one: "idontwant",
    "PeerInfo": lambda one: "peer %s %s" % (shown(one.last("peerID")), shown(one.last("signedPeerRecord"))),
}
# Fields that are records of their own, and the word for each.
LISTED = {("Message", "topic"): "topic", ("ControlIHave", "messageIDs"): "id", ("ControlIWant", "messageIDs"): "id", ("ControlIDontWant", "messageIDs"): "id"}


def records(message):
    """The lines of the records inside a message, in the order in which it has them, each before what stands inside it."""
    out = []
    for name, value in message.fields:
        if isinstance(value, Message):
            out += (["  " + LINE[value.kind](value)] if value.kind in LINE else []) + records(value)
        elif (message.kind, name) in LISTED:
            out.append("  %s =%s" % (LISTED[message.kind, name], value.hex()))
    return out


# --- writing -------------------------------------------------------------------------------

def varint_bytes(value):
    groups = [value >> shift & 0x7F for shift in range(0, max(1, value.bit_length()), 7)]
    return bytes([group | 0x80 for group in groups[:-1]] + groups[-1:])


def field_bytes(field, value, edition):
    tag = varint_bytes(field.number << 3 | field.type)
    if field.what == "bool":
        return tag + varint_bytes(value > 0)
    if field.type == 0:
        return tag + varint_bytes(value)
    content = encoded(value, edition) if isinstance(value, Message) else value
    return tag + varint_bytes(len(content)) + content


def encoded(message, edition):
    """A message in canonical bytes: its known fields in the order of their numbers. A published message stays as it is; several controls are one."""
    if message.kind == "Message":
        return message.raw
    out = b""
    for field in MESSAGES[edition][message.kind]:
        values = message.each(field.name)
        if field.what == "ControlMessage" and values:
            values = [Message(field.what, b"", [pair for one in values for pair in one.fields])]
        out += b"".join(field_bytes(field, value, edition) for value in (values if field.repeated else values[-1:]))
    return out


def signed(message, edition):
    """The bytes that a message's signature is made over: the prefix, and from, data, seqno and every topic, in canonical form."""
    fields = [field for field in MESSAGES[edition]["Message"] if field.name in ("from", "data", "seqno", "topic")]
    bare = [(field, value) for field in fields for value in (message.each(field.name) if field.repeated else message.each(field.name)[-1:])]
    return PREFIX + b"".join(field_bytes(field, value, edition) for field, value in bare)


def id_of(message):
    """From and seqno, each of 1 to 64 bytes."""
    who, seqno = message.last("from"), message.last("seqno")
    if who is None:
        raise Refused(21)
    if not 1 <= len(who) <= MAX_PART:
        raise Refused(22, (len(who),))
    if seqno is None or not 1 <= len(seqno) <= MAX_PART:
        raise Refused(23)
    return who + seqno


# --- the lines -------------------------------------------------------------------------------

def made(data):
    return "%d %s" % (len(data), data.hex()) if data else "0"


def at_index(rpc, index):
    messages = rpc.each("publish")
    if index >= len(messages):
        raise Refused(20, (len(messages),))
    return messages[index]


def answer(call, rpc, index, edition):
    """The lines for an RPC that was read."""
    if call == "decode":
        lines = records(rpc)
        return ["ok %d %s" % (len(lines), "control" if rpc.each("control") else "plain"), *lines]
    if call == "encode":
        return [made(encoded(rpc, edition))]
    message = at_index(rpc, index)
    return [made(signed(message, edition) if call == "sign" else id_of(message))]


def lines(case, edition, read=read):
    """The lines of a case. `read` may be one that remembers what it has read."""
    call, body, index = case
    try:
        first, *rest = answer(call, read(body, edition), index, edition)
    except Refused as why:
        first, rest = str(why), []
    return ["%s %s" % (call, first), *rest]


# --- what holds between the editions ------------------------------------------------------------

def differ(body):
    """Whether the editions may read a body otherwise: a control has a field 5 with a length, before what 1.1 refuses, if it refuses anything."""
    reader = Reader(body, V1_1)
    try:
        reader.message("RPC", 0, len(body))
    except Refused:
        pass
    return ("ControlMessage", 5, 2) in reader.skipped
