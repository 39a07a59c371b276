"""A model of the node and of the trace program, from the scope's sentences.

It reads bodies, refuses, keeps and answers by itself: it asks neither the Rust nor
the program. Everything is a list that is searched from its start, and every answer
is made anew, so that it can be read beside the document.

A step is a call, its numbers and then its bytes: ("set", ttl, max_seen, history_len,
max_messages), ("admit", now, index, verified, body), ("beat", now), ("advertise",
windows, topic), ("ask", body), ("serve", body). `expected` takes an input as bytes
and gives the lines of the run. A node has flags, too, which the trace program does not
know: there they are 0, and groups are refused. Nor does it know editions: there all bodies
are read in 1.1. What a reader is told is a dialect, an edition and whether groups are
skipped (places.py); a node makes it of the edition of a call and of its flags.
"""

from bodies import PARTS_IN, RPC, tagged
from peers import NOT_PEER_ID, mismatch, peer_of
from places import GROUPS, V1_1, V1_2, edition_of, skips_groups
from records import Records

TOP = 2**64 - 1
MAX_CONTENT = 32768
MAX_BODY = 65536
MAX_RECORDS = 512
MAX_FIELD = 536870911
MAX_SEEN = 256
MAX_HISTORY = 16
MAX_MESSAGES = 64
TRACE_MESSAGES = 8
MAX_NAME = 64  # of from, and of seqno
SIGNATURE = 64
MAX_TOPICS = 4
MAX_TOPIC = 1024
MAX_MESSAGE = 4096
ALLOW_UNSIGNED = 1  # a flag: messages with neither signature nor key may be taken; the other one is GROUPS
MAX_FLAGS = ALLOW_UNSIGNED | GROUPS
MAX_DEPTH = 32  # of groups
ROOM = 65536

# Of each call: its kind, how many bytes its numbers have, and whether bytes follow them.
FORM = {"set": (1, (8, 2, 2, 2), False), "admit": (2, (8, 2, 1), True), "beat": (3, (8,), False), "advertise": (4, (2,), True),
        "ask": (5, (), True), "serve": (6, (), True)}
RECORDS = Records(FORM, MAX_CONTENT)
record, records = RECORDS.record, RECORDS.records

# Every refusal that a trace can show.
BODY = set(range(1, 8)) | {11}
ADMISSION = set(range(20, 32)) | {34, 35, 36}
REFUSALS = {"set": {40}, "admit": BODY | ADMISSION, "beat": {31}, "advertise": {29}, "ask": BODY, "serve": BODY}


class Refused(Exception):
    """A refusal: its number, and the values beside it; of a body that is refused also that body and its dialect, else None."""

    def __init__(self, number, *values):
        super().__init__(number, *values)
        self.number, self.body = number, None


# --- reading a body ------------------------------------------------------------

def number_at(data, at):
    """A varint and the place after it."""
    value = 0
    for n in range(10):
        if at + n >= len(data):
            raise Refused(1)
        byte = data[at + n]
        if n == 9 and byte > 1:
            raise Refused(2)
        value += byte % 128 << 7 * n
        if byte < 128:
            break
    if byte == 0 and n > 0:
        raise Refused(3)
    return value, at + n + 1


def tag_at(data, at):
    """A field's number, its wire type and the place after its tag."""
    tag, place = number_at(data, at)
    field, wire = tag // 8, tag % 8
    if not 1 <= field <= MAX_FIELD:
        raise Refused(6, field, at)
    return field, wire, place


def content_at(data, field, wire, place, levels):
    """The content of a field whose tag ends at a place, and where it ends. So many groups more may open; None where groups are refused. The content of type 0 is
    its number, that of a group its fields and its end tag."""
    if wire == 0:
        return number_at(data, place)
    if wire in (1, 2, 5):
        size, start = number_at(data, place) if wire == 2 else (8 if wire == 1 else 4, place)
        if size > len(data) - start:
            raise Refused(4, start, size, len(data) - start)
        return data[start:start + size], start + size
    if levels is None or wire in (6, 7):
        raise Refused(5, wire, place)
    if wire == 4:
        raise Refused(14)
    if levels == 0:
        raise Refused(15)
    end = past_group(data, field, place, levels - 1)
    return data[place:end], end


def past_group(data, field, at, levels):
    """The place after the end tag of a group whose fields begin at a place."""
    while at < len(data):
        inner, wire, place = tag_at(data, at)
        if wire == 4:
            if inner != field:
                raise Refused(14)
            return place
        _, at = content_at(data, inner, wire, place, levels)
    raise Refused(16)


def fields(data, dialect=V1_1):
    """(field, wire type, place after the tag, content), one after the other."""
    at = 0
    while at < len(data):
        field, wire, place = tag_at(data, at)
        content, at = content_at(data, field, wire, place, MAX_DEPTH if skips_groups(dialect) else None)
        yield field, wire, place, content


def is_utf8(data):
    try:
        data.decode("utf-8")
    except UnicodeDecodeError:
        return False
    return True


# The field of a submessage whose entries are records of their own: topics and message ids.
LISTED = {"message": 4, "ihave": 2, "iwant": 1, "idontwant": 1}


def read(data, name, dialect=V1_1):
    """The known fields of a submessage, as (field, content), and how many records stand inside it.
    The content of a submessage is (its bytes, its own known fields)."""
    parts, got, records = PARTS_IN[edition_of(dialect)], [], 0
    known = parts.get(name, RPC)
    for field, wire, place, content in fields(data, dialect):
        what = known.get(field)
        if what is None or wire != (0 if what == "number" else 2):
            continue
        if what == "text" and not is_utf8(content):
            raise Refused(7, place)
        if what in parts:
            inner, inside = read(content, what, dialect)
            content = content, inner
            records += inside + (what != "control")
        records += field == LISTED.get(name)
        got.append((field, content))
    return got, records


class Body:
    """What the calls need of a body: its messages, as (bytes, known fields), and the ids in its IHAVEs, in its IWANTs and, in 1.2, in its IDONTWANTs."""

    def __init__(self, data, dialect=V1_1):
        try:
            self.read(data, dialect)
        except Refused as why:
            why.body = data, dialect
            raise

    def read(self, data, dialect):
        if len(data) > MAX_BODY:
            raise Refused(10, len(data))
        rpc, self.records = read(data, "rpc", dialect)
        if self.records > MAX_RECORDS:
            raise Refused(11, self.records)
        self.messages = [content for field, content in rpc if field == 2]
        control = [entry for field, (_, entries) in rpc if field == 3 for entry in entries]
        self.have = [one for field, content in control if field == 1 for number, one in content[1] if number == 2]
        self.want = [one for field, content in control if field == 2 for number, one in content[1] if number == 1]
        self.dont = [one for field, content in control if field == 5 for number, one in content[1] if number == 1]


# --- the node --------------------------------------------------------------------

def allows_unsigned(flags):
    return flags % 2 == ALLOW_UNSIGNED


def is_signed(message):
    """Whether a message has a signature: that alone says under which mark it is seen."""
    return any(field == 5 for field, _ in message[1])


def marked(signed, name):
    return (b"\x01" if signed else b"\x00") + name


def admission(message, verified, flags=0):
    """(id, topics) of a message that may be taken: 21 to 30 are met here, and 34 to 36."""
    raw, known = message
    last = dict(known)
    topics = [content for field, content in known if field == 4]
    if 1 not in last:
        raise Refused(21)
    if not 1 <= len(last[1]) <= MAX_NAME:
        raise Refused(22, len(last[1]))
    if peer_of(last[1]) is None:
        raise Refused(NOT_PEER_ID)
    if 3 not in last or not 1 <= len(last[3]) <= MAX_NAME:
        raise Refused(23)
    if 5 not in last and 6 in last:
        raise Refused(24)
    if 5 not in last and not allows_unsigned(flags):
        raise Refused(25)
    if 5 in last:
        if len(last[5]) != SIGNATURE:
            raise Refused(26, len(last[5]))
        if unlike := mismatch(last[1], last.get(6)):
            raise Refused(unlike)
        if not verified:
            raise Refused(27)
    if not 1 <= len(topics) <= MAX_TOPICS:
        raise Refused(28, len(topics))
    for topic in topics:
        if len(topic) > MAX_TOPIC:
            raise Refused(29, len(topic))
    if len(raw) > MAX_MESSAGE:
        raise Refused(30, len(raw))
    return last[1] + last[3], topics


def once(names):
    """Each at its first mention."""
    got = []
    for name in names:
        if name not in got:
            got.append(name)
    return got


class Node:
    def __init__(self, ttl, max_seen, history_len, max_messages, flags=0):
        if max_seen > MAX_SEEN or not 1 <= history_len <= MAX_HISTORY or max_messages > MAX_MESSAGES or flags > MAX_FLAGS:
            raise Refused(40)
        self.ttl, self.max_seen, self.history_len, self.max_messages, self.flags = ttl, max_seen, history_len, max_messages, flags
        self.clock = 0
        self.seen = []  # (marked id, expiry), the oldest first
        self.cache = []  # [id, bytes, topics, age of its window], the oldest first

    # What the caches do.

    def clean(self, now):
        while self.seen and self.seen[0][1] <= now:
            self.seen.pop(0)

    def is_seen(self, form):
        return any(one == form for one, _ in self.seen)

    def see(self, form, now):
        self.seen.append((form, min(now + self.ttl, TOP)))
        while len(self.seen) > self.max_seen:
            self.seen.pop(0)

    def entry(self, name):
        """What is cached under an id, or None."""
        return next((one for one in self.cache if one[0] == name), None)

    def cached(self, name):
        found = self.entry(name)
        return found and found[1]

    def put(self, name, raw, topics):
        if self.cached(name) is None:
            self.cache.append([name, raw, topics, 0])
            while len(self.cache) > self.max_messages:
                self.cache.pop(0)

    def shift(self):
        for entry in self.cache:
            entry[3] += 1
        self.cache = [entry for entry in self.cache if entry[3] < self.history_len]

    def told(self, topic, windows):
        if not is_utf8(topic):
            return []
        return sorted({name for name, _, topics, age in self.cache if age < windows and topic in topics})

    def form(self, body, index, name):
        """What a message with this id is seen as. It is the same in every edition."""
        return marked(is_signed(Body(body, self.spoken(V1_1)).messages[index]), name)

    def spoken(self, edition):
        """The dialect in which it reads a body of this edition."""
        return edition | self.flags & GROUPS

    def knows(self, name):
        """Whether an id is not asked for: its message was seen with a signature or, where such are allowed, without."""
        return self.is_seen(marked(True, name)) or (allows_unsigned(self.flags) and self.is_seen(marked(False, name)))

    # The calls.

    def admit(self, now, index, verified, body, edition=V1_1):
        messages = Body(body, self.spoken(edition)).messages
        if index >= len(messages):
            raise Refused(20, len(messages))
        name, topics = admission(messages[index], verified, self.flags)
        if now < self.clock:
            raise Refused(31, self.clock)
        self.clock = now
        self.clean(now)
        form = self.form(body, index, name)
        if self.is_seen(form):
            return "dup"
        self.see(form, now)
        self.put(name, messages[index][0], topics)
        return "new"

    def beat(self, now):
        if now < self.clock:
            raise Refused(31, self.clock)
        self.clock = now
        self.clean(now)
        self.shift()

    def advertise(self, windows, topic):
        if len(topic) > MAX_TOPIC:
            raise Refused(29, len(topic))
        names = self.told(topic, windows)
        if not names:
            return b""
        return fitted(tagged(3, tagged(1, tagged(1, topic) + b"".join(tagged(2, name) for name in names))))

    def explain(self, windows, name, topic):
        """Why an id is not in the advertisement of a topic, or that it is. Where topic and window both rule it out, the topic is told."""
        if len(topic) > MAX_TOPIC:
            raise Refused(29, len(topic))
        found = self.entry(name)
        if found is None:
            return "missing"
        _, _, topics, age = found
        if topic not in topics:
            return "topic"
        return "listed" if age < windows else "window %d" % age

    def ask(self, body, edition=V1_1):
        names = [name for name in once(Body(body, self.spoken(edition)).have) if not self.knows(name)]
        return fitted(tagged(3, tagged(2, b"".join(tagged(1, name) for name in names)))) if names else b""

    def serve(self, body, room=ROOM, edition=V1_1, unwanted=b""):
        """(the reply, how many messages were written, how many were left). What the IDONTWANTs of a second body name, which is read in 1.2, is passed over."""
        wanted, declined = once(Body(body, self.spoken(edition)).want), Body(unwanted, self.spoken(V1_2)).dont
        found = [raw for raw in (self.cached(name) for name in wanted if name not in declined) if raw is not None]
        reply, written = b"", 0
        for raw in found:
            field = tagged(2, raw)
            if len(reply) + len(field) > room:
                if not written:
                    raise Refused(12, len(field))
                break
            reply, written = reply + field, written + 1
        return reply, written, len(found) - written


def fitted(out):
    if len(out) > ROOM:
        raise Refused(12, len(out))
    return out


# --- the trace program -------------------------------------------------------------

def shown(out):
    return "%d %s" % (len(out), out.hex()) if out else "0"


class Run:
    """The node of a run. Before settings are accepted there is none. `make` makes a node of its settings."""

    records = RECORDS

    def __init__(self, steps=(), make=Node):
        self.node, self.make = None, make
        for step in steps:
            self.answer(step)

    def answer(self, step):
        """What a line says after its number and its call."""
        try:
            return self.played(*step)
        except Refused as why:
            return "refused %d" % why.number

    def ends_at(self, step):
        """Whether a step ends the run, by `bad`."""
        return (step[0] == "admit" and step[3] > 1) or (step[0] != "set" and self.node is None)

    def played(self, call, *given):
        if call == "set":
            if given[3] > TRACE_MESSAGES:
                raise Refused(40)
            self.node = self.make(*given)
            return "ok"
        if call == "beat":
            self.node.beat(*given)
            return "ok"
        if call == "serve":
            reply, written, left = self.node.serve(*given)
            return "%s %d %d" % (shown(reply), written, left)
        if call == "admit":
            return self.node.admit(*given)
        return shown({"advertise": self.node.advertise, "ask": self.node.ask}[call](*given))


def made(answer):
    """The bytes that an answer of advertise, ask or serve holds."""
    words = answer.split(" ")
    return bytes.fromhex(words[1]) if words[0] != "0" else b""


def played(data, make=Node, begun=Run):
    """The steps of an input, each with its answer, and the line that ends it: "", "bad" or "long"."""
    run, got = begun(make=make), []
    for step in run.records.steps(data):
        if isinstance(step, str):
            return got, step
        if run.ends_at(step):
            return got, "bad"
        got.append((step, run.answer(step)))
    return got, ""


def expected(data, make=Node, begun=Run):
    """The lines for an input."""
    got, end = played(data, make, begun)
    lines = ["%d %s %s" % (n, step[0], answer) for n, (step, answer) in enumerate(got, 1)]
    return lines + [end] if end else lines
