"""Histories for the program `states`: fixed ones about every refusal and every clause of 42, and random ones.

A history is a list of steps (states.py) that begins with settings, so histories can stand
one after the other in one input; only the sums of kind 11 see what those before left in
the stores and in the buffer. Most are made beside the model, which tells in which place a
row stands, how many bytes an answer has and what a number was. Everything random comes from
one seeded `random.Random`.
"""

import itertools

import caches
import nodes
import peers
import states
import traces
from bodies import chain, counted, declining_body, group, grouped_body, tagged
from caches import GROUPED, NAME, OTHER_TYPES, REFUSED, SPOILT, TOPIC_MESSAGES, U, X, grown, padded, plain, topic_message, with_groups, x_with
from nodes import ALLOW_UNSIGNED, MAX_BODY, MAX_FLAGS, MAX_MESSAGE, MAX_TOPICS, ROOM, TOP
from peers import A, B, F, HASHED, KEY, KEYLESS, LONGEST, RSA_KEY, identity, key_bytes
from places import EDITION_ROWS, EDITIONS, GROUP_ROWS, GROUPS, MORE_GROUP_ROWS, MORE_ROWS, ROWS, V1_1, V1_2, skips_groups
from records import header
from states import ARRIVAL, CACHE_BYTE, CACHE_BYTES, CLOCK, COUNT, EXPIRY, FLAGS, HISTORY_LEN, ID_LEN, IDS, LEN, MAX_HELD, MAX_ID, MAX_IDS, MAX_MADE, \
    NEXT, ROW, SEEN_BYTE, SEEN_BYTES, SEEN_COUNT, SEEN_LEN, SEEN_START, SLOTS, START, TOPIC_COUNT, TOPIC_LEN, TOPIC_START, TTL, WINDOW, Run, \
    taken, topic_places
from traces import admit, beat, body_of, control, ihave, iwant, tells, wants, x_body
from wire import damaged, then_random

STATE = ("state", b"")
ROOMED = ("advertise", "ask", "serve")
EDITIONED = ("admit", "ask", "serve")


def wide(step, room=ROOM):
    """A step of a trace, with this room."""
    return (step[0], room) + step[1:] if step[0] in ROOMED else step


def hurt(what, value, place=0):
    return ("hurt", what, place, value)


def advertise(windows=65535, topic=b"t", room=ROOM):
    return ("advertise", room, windows, topic)


def ask(*names, room=ROOM):
    return ("ask", room, tells(*names))


def serve(*names, room=ROOM):
    return ("serve", room, wants(*names))


def id_of(n):
    """The id of X with this seqno."""
    return A + bytes([n])


def why(windows=65535, name=id_of(3), topic=b"t"):
    return ("why", windows, name, topic)


def cut_why(size, rest):
    """A record of kind 12 whose id is to have so many bytes, and has the rest."""
    return header(4 + rest, 12) + b"\x01\x00" + size.to_bytes(2, "little") + bytes(rest)


def filled(parts, size):
    """With data of bytes above 0, so that the message has so many bytes."""
    parts = grown(parts, size)
    return parts[:-1] + [(2, bytes(n % 255 + 1 for n in range(len(parts[-1][1]))))]


class Play:
    """Steps, played as they are added."""

    def __init__(self, *steps):
        self.run, self.steps = Run(), []
        self.add(*steps)

    def add(self, *steps):
        for step in steps:
            self.steps.append(step)
            self.answer = self.run.answer(step)
        return self

    def needed(self, step):
        """How many bytes a step writes, with room for all."""
        held = self.run.made[:]
        words = self.run.answer(wide(step)).split(" ")
        self.run.made[:] = held
        return int(words[0]) if words[0] != "refused" else 0

    # The places of the rows, the oldest first.

    def ids(self):
        return self.run.seen.places(self.run.max_seen)

    def messages(self):
        return self.run.cache.places(self.run.cache.max_messages)


def value_of(run, what, place):
    """What a step of kind 8 would set."""
    seen, cache = run.seen, run.cache
    if what in (SEEN_BYTE, CACHE_BYTE):
        store, lent = (run.seen_store, run.seen_len) if what == SEEN_BYTE else (run.cache_store, run.cache_len)
        return store[place] if place < lent else 0
    if what in (EXPIRY, SEEN_LEN):
        return (seen.expiry if what == EXPIRY else seen.len)[place % 256]
    rows = {ARRIVAL: cache.arrival, WINDOW: cache.window, LEN: cache.len, ID_LEN: cache.id_len, TOPIC_COUNT: cache.topic_count,
            TOPIC_START: cache.topic_start, TOPIC_LEN: cache.topic_len}
    if what in rows:
        return rows[what][place % len(rows[what])]
    if what == IDS:
        return cache.ids[place % len(cache.ids)]
    return {TTL: run.ttl, MAX_IDS: run.max_seen, CLOCK: run.clock, SEEN_START: seen.start, SEEN_COUNT: seen.count, HISTORY_LEN: cache.history_len,
            MAX_HELD: cache.max_messages, NEXT: cache.next, START: cache.start, COUNT: cache.count, FLAGS: cache.flags}[what]


def healing(run, steps):
    """What undoes these steps of kinds 7 and 8, where they are still to be played."""
    back = []
    for step in steps:
        back.append(("lend", run.seen_len, run.cache_len) if step[0] == "lend" else (*step[:3], value_of(run, step[1], step[2])))
    return back[::-1]


def other_message(run, place, raw):
    """Steps after which the message in a place is this one, with the places of its topics, if it may be taken; its stored id stays."""
    old = run.cache.message_at(run.cache_store, place)
    steps = [hurt(CACHE_BYTE, byte, place * MAX_MESSAGE + n) for n, byte in enumerate(raw) if n >= len(old) or old[n] != byte]
    steps += [] if run.cache.len[place] == len(raw) else [hurt(LEN, len(raw), place)]
    return steps + (other_topics(run, place, topic_places(raw, run.cache.flags)) if taken(raw, run.cache.flags) else [])


def other_topics(run, place, kept):
    """Steps after which these places of topics stand in a row."""
    return [step for step in topics_set(place, kept) if value_of(run, step[1], step[2]) != step[3]]


def topics_set(place, kept):
    steps = [hurt(TOPIC_COUNT, len(kept), place)]
    for slot, (start, size) in enumerate(kept, place * MAX_TOPICS):
        steps += [hurt(TOPIC_START, start, slot), hurt(TOPIC_LEN, size, slot)]
    return steps


def other_id(run, place, name):
    """Steps after which the id stored for a place is this one."""
    steps = [hurt(IDS, byte, place * MAX_ID + n) for n, byte in enumerate(name) if run.cache.ids[place * MAX_ID + n] != byte]
    return steps + ([] if run.cache.id_len[place] == len(name) else [hurt(ID_LEN, len(name), place)])


def other_seen(run, place, name):
    """Steps after which the seen id in a place is this one."""
    old = run.seen.id_at(run.seen_store, place)
    steps = [hurt(SEEN_BYTE, byte, place * ROW + n) for n, byte in enumerate(name) if n >= len(old) or old[n] != byte]
    return steps + ([] if run.seen.len[place] == len(name) else [hurt(SEEN_LEN, len(name), place)])


# --- states to start from ----------------------------------------------------------------

def named_message(n, *topics, size=None):
    parts = x_with(seqno=[bytes([n])], topic=topics or [b"t"])
    return body_of(filled(parts, size) if size else parts)


def turned():
    """Both rings full and turned: four ids from place 1 on, three messages from place 2 on, in three windows."""
    bodies = [named_message(n) for n in range(5)]
    return Play(("set", 100, 4, 4, 3), admit(10, bodies[0]), admit(11, bodies[1]), admit(12, bodies[2]), beat(13), admit(14, bodies[3]), beat(15),
                admit(16, bodies[4]))


def straight():
    """Both rings full, from place 0 on."""
    return Play(("set", 100, 3, 4, 3), *[admit(10 + n, named_message(n)) for n in range(3)])


def topical():
    """A ring of three places that has turned: messages with one topic, with three, and with two where one with four was."""
    topics = ((b"t", b"u", b"t", b""), (b"t",), (b"", b"topic", b"t"), (b"u", b"u"))
    return Play(("set", 100, 4, 4, 3), *[admit(10 + n, named_message(n, *each)) for n, each in enumerate(topics)])


def unsigned_message(n, *topics):
    return body_of(x_with(seqno=[bytes([n])], topic=topics or [b"t"], signature=[]))


def mixed():
    """As `turned`, where unsigned messages are allowed: the messages 2 and 3 are cached without a signature and 4 with one; the id of 3 is seen in both forms."""
    return Play(("flagged", 100, 4, 4, 3, ALLOW_UNSIGNED), admit(10, named_message(0)), admit(11, unsigned_message(1)), admit(12, unsigned_message(2), 0, 0),
                beat(13), admit(14, unsigned_message(3)), beat(15), admit(16, named_message(4)), admit(16, named_message(3)))


def loose():
    """A node that allows unsigned messages and holds signed ones only."""
    return Play(("flagged", 100, 4, 4, 3, ALLOW_UNSIGNED), admit(10, named_message(3)), admit(10, named_message(4)))


def with_group(n, *topics, inner=b"", first=False):
    """A message with a group behind its fields, or before them."""
    raw, more = plain(x_with(seqno=[bytes([n])], topic=topics or [b"t"])), group(7, inner)
    return tagged(2, more + raw if first else raw + more)


def skipping():
    """As `turned`, where groups are skipped: of the cached messages 2 has a group behind its fields and 3 none; 4 has one before them, in which there are topics,
    another sender and groups."""
    inner = tagged(4, b"u") + tagged(1, b"Z") + group(4, tagged(4, b"\xff")) + counted(5, 9)
    return Play(("flagged", 100, 4, 4, 3, GROUPS), admit(10, named_message(0)), admit(11, with_group(1)), admit(12, with_group(2, b"t", b"")), beat(13),
                admit(14, named_message(3)), beat(15), admit(16, with_group(4, inner=inner, first=True)))


KEYED = bytes([6 * 8 + 2, len(KEY)])  # what stands before a key


def keyed():
    """Two messages with their keys beside them: of a sender that has it in it, and of one that is hashed."""
    return Play(("set", 100, 4, 4, 3), *[admit(10, body_of(x_with(from_=[who], key=[KEY]))) for who in (A, HASHED)])


def held_bytes(play):
    """The places of the messages, and their bytes."""
    return [(place, play.run.cache.message_at(play.run.cache_store, place)) for place in play.messages()]


def empty(*settings):
    return Play(("set", *(settings or (100, 4, 4, 3))))


FEW = [("contains", b"\x01" + id_of(3)), ("lookup", id_of(3)), advertise(), serve(id_of(3), id_of(4)), STATE]
CALLS = [STATE, admit(20, named_message(9)), admit(20, named_message(4)), beat(20), advertise(), ask(id_of(1), id_of(4), b"B"),
         serve(id_of(2), id_of(4)), ("contains", b"\x01" + id_of(4)), ("lookup", id_of(3)), STATE]
# Refused for themselves, too: what is tested first is told.
POOR = [admit(1, named_message(4)), admit(20, b"\x80"), beat(1), advertise(9, b"t" * 1025), ("ask", 0, b"\x0b"), ("serve", 0, wants(id_of(3)) + b"\x00"),
        ("contains", bytes(130)), ("lookup", bytes(130))]
WHYS = [why(), why(0), why(1), why(2), why(1, id_of(4)), why(9, id_of(1)), why(0, topic=b"u"), why(0, b""), why(9, bytes(129)), why(9, topic=b"t" * 1025)]


# --- each clause of 42 ----------------------------------------------------------------------

def unfit_messages():
    """Messages that admission does not take, or that cannot be read."""
    for parts in (x_with(from_=[]), x_with(from_=[b""]), x_with(from_=[b"f" * 65]), x_with(seqno=[]), x_with(seqno=[b""]), x_with(seqno=[b"s" * 65]),
                  x_with(signature=[], key=[b"k"]), x_with(signature=[]), x_with(signature=[bytes(63)]), x_with(signature=[bytes(65)]),
                  x_with(topic=[]), x_with(topic=[b"t"] * 5), x_with(topic=[b"t" * 1025])):
        yield plain(parts)
    for change, told in peers.ROWS + peers.MORE_ROWS:
        if told.startswith("refused 3") and "data" not in change:  # 34 to 36; the others are too long for a place
            yield plain(x_with(**change))
    for row in REFUSED[:-1]:
        yield plain(X) + bytes.fromhex(row)
    yield plain(x_with(topic=[b"\xff"]))
    yield b""


def breaks(play):
    """(clause, steps that break it) for a state made by `turned`."""
    run, ids, held = play.run, play.ids(), play.messages()
    seen, cache = run.seen, run.cache
    for value in (5, 6, 256, 2**32, TOP):
        yield "seen start", [hurt(SEEN_START, value)]
        yield "seen count", [hurt(SEEN_COUNT, value)]
    for value in (4, 5, 64, 2**32 + 1, TOP):
        yield "start", [hurt(START, value)]
        yield "count", [hurt(COUNT, value)]
    for place in ids:
        for value in (130, 255):
            yield "seen length", [hurt(SEEN_LEN, value, place)]
    for place in held:
        for value in (4097, 8192, 65535):
            yield "message length", [hurt(LEN, value, place)]
        for value in (129, 255):
            yield "id length", [hurt(ID_LEN, value, place)]
    for rows in (257, 258):
        yield "max_seen", [hurt(MAX_IDS, rows), ("lend", rows * ROW, run.cache_len)]
    for value in (17, 18, 256, 2**32 + 4, TOP):
        yield "history_len above 16", [hurt(HISTORY_LEN, value)]
    for one, other in ((0, 1), (1, 2), (2, 3), (0, 3), (3, 0), (2, 0)):
        yield "seen id twice", other_seen(run, ids[other], seen.id_at(run.seen_store, ids[one]))
    yield "seen id twice", [hurt(SEEN_LEN, 0, ids[0]), hurt(SEEN_LEN, 0, ids[3])]
    yield "seen id twice", [hurt(SEEN_LEN, 1, ids[1]), hurt(SEEN_LEN, 1, ids[2])]
    for one, other in ((0, 1), (1, 2), (2, 0)):
        name = cache.id_at(held[one])
        yield "cached id twice", other_id(run, held[other], name) + other_message(run, held[other], cache.message_at(run.cache_store, held[one]))
    for older, newer in zip(ids, ids[1:]):
        yield "expiry falls", [hurt(EXPIRY, seen.expiry[older] - 1, newer)]
        yield "expiry falls", [hurt(EXPIRY, 0, newer)]
        yield "expiry falls", [hurt(EXPIRY, TOP, older)]
    for value in (4, 5, 16, 255):
        yield "window too old", [hurt(WINDOW, value, held[0])]
        yield "window too old", [hurt(WINDOW, value, place) for place in held]
    yield "window too old", [hurt(HISTORY_LEN, 2)]
    for older, newer in zip(held, held[1:]):
        yield "window rises", [hurt(WINDOW, cache.window[older] + 1, newer)]
    for place in held[:2]:
        yield "arrival not consecutive", [hurt(ARRIVAL, cache.arrival[place] + 1, place)]
    yield "arrival not consecutive", [hurt(ARRIVAL, cache.arrival[held[0]] - 1, held[0])]
    yield "arrival not consecutive", [hurt(ARRIVAL, TOP, held[0])]
    yield "arrival not consecutive", [hurt(ARRIVAL, cache.arrival[a], b) for a, b in ((held[0], held[1]), (held[1], held[0]))]
    for value in (cache.next - 1, cache.next + 1, 0, TOP, cache.next + 2**32):
        yield "arrival not on to the next", [hurt(NEXT, value)]
    yield "arrival not on to the next", [hurt(ARRIVAL, cache.arrival[place] + 1, place) for place in held]
    yield "arrival not on to the next", [hurt(COUNT, 2)]
    for n, raw in enumerate(unfit_messages()):
        yield "message not admissible", other_message(run, held[n % 3], raw)
    for place in held:
        yield "message not admissible", [hurt(LEN, cache.len[place] - 1, place)]
        yield "message not admissible", [hurt(LEN, cache.len[place] + 1, place)]
        yield "message not admissible", [hurt(LEN, MAX_MESSAGE, place)]
        # The code, the length and the key of the sender, which stands from byte 2 on.
        for at, value in ((0, 0x41), (0, 0x12), (1, 0x23), (1, 0x25), (2, 0x0A), (3, 4), (4, 0x22), (5, 0x21)):
            yield "message not admissible", [hurt(CACHE_BYTE, value, place * MAX_MESSAGE + 2 + at)]
        yield "message of another id", [hurt(IDS, 0x42, place * MAX_ID)]
        for value in (1, len(A), len(A) + 2):
            yield "message of another id", [hurt(ID_LEN, value, place)]
        # Another type, another key, another seqno.
        for at, value in ((3, 2), (6, 0x42), (len(A) + 2, 0x42)):
            yield "message of another id", [hurt(CACHE_BYTE, value, place * MAX_MESSAGE + 2 + at)]
        yield "message of another id", other_message(run, place, plain(x_with(from_=[B], seqno=[bytes([run.cache.ids[place * MAX_ID + len(A)]])])))
    yield "message of another id", [hurt(ID_LEN, 0, held[0])]


def broken_empty():
    """(clause, steps) for an empty node."""
    for value in (17, TOP):
        yield "history_len above 16", [hurt(HISTORY_LEN, value)]
    yield "history_len 0", [hurt(HISTORY_LEN, 0)]
    yield "max_messages", [hurt(MAX_HELD, 65), ("lend", 4 * ROW, CACHE_BYTES)]
    yield "max_seen", [hurt(MAX_IDS, 257), ("lend", 257 * ROW, 3 * MAX_MESSAGE)]
    yield "seen start", [hurt(SEEN_START, 5)]
    yield "start", [hurt(START, 4)]


def topic_breaks(play):
    """(clause, steps) for a state made by `topical`."""
    cache = play.run.cache
    for place in play.messages():
        count, slots = cache.topic_count[place], cache.slots(place)
        for value in sorted({0, 1, 2, 3, 4, 5, 6, 64, 255} - {count}):
            yield "topic count", [hurt(TOPIC_COUNT, value, place)]
        # A topic twice; and one more that is kept in its right place.
        last = cache.topic_start[slots[-1]], cache.topic_len[slots[-1]]
        yield "topic count", [hurt(TOPIC_COUNT, count + 1, place), hurt(TOPIC_START, last[0], slots[-1] + 1), hurt(TOPIC_LEN, last[1], slots[-1] + 1)]
        for slot in slots:
            start, size = cache.topic_start[slot], cache.topic_len[slot]
            # The tag's place, the length's and the next byte's; counted from the body and from the store.
            for value in sorted({start - 2, start - 1, start + 1, start + 2, 0, 4096, 4097, 65535, place * MAX_MESSAGE + start} - {start}):
                yield "topic start", [hurt(TOPIC_START, value, slot)]
            for value in sorted({max(0, size - 1), size + 1, size + 2, 0, 1024, 4096, 65535} - {size}):
                yield "topic length", [hurt(TOPIC_LEN, value, slot)]
    # The same bytes in another place, and in another order.
    first, *rest, last = play.messages()
    one, other = cache.slots(last)
    yield "topic start", [hurt(TOPIC_START, cache.topic_start[other], one)]
    yield "topic start", [hurt(TOPIC_START, cache.topic_start[a], b) for a, b in ((one, other), (other, one))]
    # Those of another row, and the slots of the message that was there before.
    yield "topic count", topics_set(first, topic_places(cache.message_at(play.run.cache_store, rest[0])))
    yield "topic count", [hurt(TOPIC_COUNT, 4, last)]


def key_breaks(play):
    """(clause, steps) for a state made by `keyed`: messages with keys that no longer decode, are others, or are gone."""
    for place, raw in held_bytes(play):
        at = place * MAX_MESSAGE + raw.index(KEYED) + len(KEYED)
        tag, size = at - 2, at - 1
        for where, value in ((at, 0x09), (at + 1, 4), (at + 1, 0x81), (at + 2, 0x1A), (at + 3, 0x1F), (at + 3, 0x21), (size, 0x23)):
            yield "message not admissible", [hurt(CACHE_BYTE, value, where)]
        if raw[2]:  # hashed: without a key there is none to be had
            yield "message not admissible", [hurt(CACHE_BYTE, 0x3A, tag)]
        else:
            for where, value in ((at + 1, 0), (at + 4, 0x42), (at + 35, 0x42)):
                yield "message not admissible", [hurt(CACHE_BYTE, value, where)]
            for where, value in ((0, 0x12), (2, 0x42)):
                yield "message not admissible", [hurt(CACHE_BYTE, value, place * MAX_MESSAGE + 2 + where)]


UNKNOWN_FLAGS = (5, 7, 255, 257, 65535, 2**32 + 1, 2**63 + 1, TOP)  # each has the first flag, too


def flag_breaks(play):
    """(clause, steps) for a state made by `mixed`: flags that are not known, and unsigned messages that are not allowed or are not ones."""
    run = play.run
    for value in UNKNOWN_FLAGS:
        yield "flags", [hurt(FLAGS, value)]
    yield "message not admissible", [hurt(FLAGS, 0)]
    for place, raw in held_bytes(play):
        if raw.endswith(bytes(64)):
            # The one with a signature: a byte of it more or less, or none of its bytes.
            yield "message not admissible", [hurt(LEN, len(raw) - 64, place), hurt(CACHE_BYTE, 0, place * MAX_MESSAGE + len(raw) - 65)]
            yield "message not admissible", [hurt(LEN, len(raw) - 1, place)]
            continue
        # An empty key, an empty signature, both; a sender that is none; a seqno of no bytes.
        for more in (b"\x32\x00", b"\x2a\x00", b"\x2a\x00\x32\x00", tagged(6, KEY), tagged(5, bytes(63))):
            yield "message not admissible", other_message(run, place, raw + more)
        for at, value in ((2, 0x41), (3, 0x25), (41, 0)):
            yield "message not admissible", [hurt(CACHE_BYTE, value, place * MAX_MESSAGE + at)]
        # Another sender, whose digest is no key, is one of another id.
        yield "message of another id", [hurt(CACHE_BYTE, 0x42, place * MAX_MESSAGE + 4)]
        yield "topic count", [hurt(TOPIC_COUNT, 0, place)]


def unknown_flags(play):
    """(clause, steps) for a state without unsigned messages."""
    for value in (4, 6, 256, 65534, 2**32, 2**63, TOP - 1, *UNKNOWN_FLAGS):
        yield "flags", [hurt(FLAGS, value)]


def group_breaks(play):
    """(clause, steps) for a state made by `skipping`: the flag is gone, a group does not end, ends otherwise, or is too deep; topics of a group among those of the message."""
    run = play.run
    for value in (6, 7, 10, 255, 258, 65535, 2**32 + 2, 2**63 + 2, TOP):
        yield "flags", [hurt(FLAGS, value)]
    for value in (0, ALLOW_UNSIGNED):
        yield "message not admissible", [hurt(FLAGS, value)]
    for (place, raw), n in zip(held_bytes(play), (2, 3, 4)):
        base = plain(x_with(seqno=[bytes([n])]))
        for other, _ in SPOILT:
            yield "message not admissible", other_message(run, place, other.replace(plain(X), base))
        yield "message of another id", other_message(run, place, GROUPED[1 if n > 2 else 0])
        if n == 2:
            # Its end tag is the last byte, and its start tag the one before it.
            at = place * MAX_MESSAGE + len(raw)
            for where, value in ((at - 1, 0x44), (at - 1, 0x3B), (at - 1, 0x00), (at - 2, 0x3C), (at - 2, 0x33), (at - 2, 0x3E)):
                yield "message not admissible", [hurt(CACHE_BYTE, value, where)]
            yield "message not admissible", [hurt(LEN, len(raw) - 1, place)]
            yield "message not admissible", [hurt(CACHE_BYTE, 0x3C, at), hurt(LEN, len(raw) + 1, place)]
            yield "topic count", [hurt(TOPIC_COUNT, 1, place)]
        if n == 4:
            start = raw.index(b"\x22\x01u") + 2
            slot = place * MAX_TOPICS
            yield "topic start", [hurt(TOPIC_START, start, slot)]
            yield "topic count", [hurt(TOPIC_COUNT, 2, place), hurt(TOPIC_START, start, slot + 1), hurt(TOPIC_LEN, 1, slot + 1)]
            yield "topic count", [hurt(TOPIC_COUNT, 0, place)]


BROKEN_FINDERS = ((turned, breaks), (empty, lambda play: broken_empty()), (topical, topic_breaks), (keyed, key_breaks), (mixed, flag_breaks),
                  (turned, unknown_flags), (loose, unknown_flags), (empty, unknown_flags), (skipping, group_breaks))


def harmed(play, clause, steps, *calls):
    """A clause broken alone, calls, and all as it was."""
    back = healing(play.run, steps)
    play.add(STATE, *steps)
    assert play.run.broken() == [clause], (clause, steps, play.run.broken())
    return play.add(*calls, *back)


def broken_histories():
    """Each clause broken alone: every call is refused and changes nothing; then it is healed."""
    for make, find in BROKEN_FINDERS:
        for clause, steps in find(make()):
            yield harmed(make(), clause, steps, *CALLS, *POOR, *WHYS, STATE).add(*(FEW if make is empty else CALLS), *WHYS).steps


def broken_once():
    """Each clause broken alone, once, one after the other: a history for each state to start from, but for the last, which breaks none that was not."""
    got = set()
    for make, find in BROKEN_FINDERS[:3]:
        play = make()
        for clause, steps in find(make()):
            if clause not in got and len(steps) <= 8:
                got.add(clause)
                harmed(play, clause, steps, *CALLS[2:])
        yield play.add(*CALLS).steps
    assert got == set(states.CLAUSES) - {"flags"}


# --- states that look odd and are well formed -----------------------------------------------

def odd_turned(play):
    run, ids, held = play.run, play.ids(), play.messages()
    for value in (0, 1, TOP):
        yield [hurt(TTL, value)]
    for value in (0, 16, 20):
        yield [hurt(CLOCK, value)]
    for value in (0, 1, 2, 3):
        yield [hurt(SEEN_COUNT, value)]
    for value in (0, 1, 20, 116, TOP):
        yield [hurt(EXPIRY, value, place) for place in ids]
    yield [hurt(EXPIRY, 114, ids[1])]
    yield [hurt(EXPIRY, 0, ids[0])]
    yield [hurt(EXPIRY, TOP, ids[3])]
    for value in (3, 5, 16):
        yield [hurt(HISTORY_LEN, value)]
    for ages in ((3, 3, 3), (3, 3, 0), (3, 0, 0), (0, 0, 0), (2, 2, 1)):
        yield [hurt(WINDOW, age, place) for age, place in zip(ages, held)]
    for first in (TOP - 2, TOP - 1, TOP, 2**32 - 1, 2**63 - 1):
        yield [hurt(ARRIVAL, (first + n) % 2**64, place) for n, place in enumerate(held)] + [hurt(NEXT, (first + 3) % 2**64)]
    yield [hurt(COUNT, 0)]
    yield [hurt(COUNT, 0), hurt(NEXT, TOP), hurt(START, 3)]
    yield [hurt(COUNT, 1), hurt(NEXT, run.cache.next - 2)]
    yield [hurt(COUNT, 2), hurt(NEXT, run.cache.next - 1)]
    # Seen ids of any bytes, marked or not, up to 129.
    yield [hurt(SEEN_LEN, 0, ids[0])]
    yield [hurt(SEEN_LEN, 129, ids[1])]
    yield [hurt(SEEN_BYTE, 0, ids[3] * ROW)]
    yield other_seen(run, ids[2], b"\x01" + id_of(9))
    yield other_seen(run, ids[2], b"\x01" + A)
    # Messages with other bytes and the same id.
    for raw in (plain(x_with(seqno=[b"\x03"], data=[b"other"])), plain(x_with(seqno=[b"\x03"], topic=[b"u", b"t"])),
                plain(x_with(seqno=[b"\x03"])) + b"\x7a\x00", b"\x38\x01" + plain(x_with(seqno=[b"\x03"])),
                plain(x_with(seqno=[b"\x03"], key=[KEY])),
                plain(x_with(from_=[b"Z"], seqno=[b"\x09"], key=[b"\xff"])) + tagged(1, A) + tagged(3, b"\x03") + tagged(6, KEY)):
        yield other_message(run, held[1], raw)
    yield longest(run, held[1])
    # What is in no row is not looked at.
    yield [hurt(SEEN_LEN, 255, place) for place in (4, 255)] + [hurt(EXPIRY, TOP, 4)] + [hurt(what, 255, 3) for what in (ARRIVAL, WINDOW, LEN, ID_LEN)] \
        + [hurt(IDS, 9, 3 * MAX_ID), hurt(SEEN_BYTE, 7, ids[0] * ROW + 100), hurt(CACHE_BYTE, 7, held[0] * MAX_MESSAGE + 4095),
           hurt(IDS, 7, held[0] * MAX_ID + 100)]
    yield [hurt(SEEN_COUNT, 3), hurt(SEEN_LEN, 200, ids[3]), hurt(EXPIRY, 0, ids[3])]
    # The mark's value, places beyond the arrays and beyond what is lent, and values above a byte.
    yield [hurt(EXPIRY, 0, 256), hurt(SEEN_LEN, 255, 256), hurt(SEEN_BYTE, 1, 4 * ROW), hurt(CACHE_BYTE, 1, 3 * MAX_MESSAGE),
           hurt(WINDOW, 256, held[2] + 64), hurt(LEN, 65536 + 112, 9), hurt(ID_LEN, 256 + len(id_of(3)), held[1]), hurt(SEEN_LEN, 2**32 + 1 + len(id_of(3)), ids[0]),
           hurt(IDS, 0x100, 8192 + held[0] * MAX_ID), hurt(SEEN_BYTE, 0x101, ids[0] * ROW)]


def longest(run, place):
    """Steps after which the message in a place has 4,096 bytes: an unknown field over what stands there."""
    size = run.cache.len[place]
    rest = MAX_MESSAGE - size - 3
    field = bytes([15 * 8 + 2, rest % 128 + 128, rest // 128])
    return [hurt(CACHE_BYTE, byte, place * MAX_MESSAGE + size + n) for n, byte in enumerate(field)] + [hurt(LEN, MAX_MESSAGE, place)]


def odd_straight(play):
    yield [hurt(SEEN_START, 3)]
    yield [hurt(START, 3)]
    yield [hurt(SEEN_START, 3), hurt(START, 3)]
    yield [hurt(SEEN_COUNT, 1), hurt(SEEN_START, 3), hurt(START, 3), hurt(COUNT, 1), hurt(NEXT, 1)]
    yield [hurt(SEEN_COUNT, 1), hurt(SEEN_START, 2)]
    yield [hurt(SEEN_COUNT, 2), hurt(SEEN_START, 1)]
    yield [hurt(START, 1), hurt(COUNT, 2)]
    yield [hurt(START, 2), hurt(COUNT, 1)]


def odd_empty(play):
    for start in range(5):
        yield [hurt(SEEN_START, start)]
    for start in range(4):
        yield [hurt(START, start)]
    for value in (1, TOP - 1, TOP):
        yield [hurt(NEXT, value)]
    for rows in (0, 1, 2, 256):
        yield [hurt(MAX_IDS, rows), ("lend", rows * ROW, 3 * MAX_MESSAGE)]
    for most in (0, 1, 2, 64):
        yield [hurt(MAX_HELD, most), ("lend", 4 * ROW, most * MAX_MESSAGE)]


def odd_topical(play):
    run, held = play.run, play.messages()
    past = [slot for place in held for slot in range(play.run.cache.slots(place).stop, (place + 1) * MAX_TOPICS)]
    # Slots past the count, one by one and all; rows not in use.
    for value in (0, 7, 65535):
        for what in (TOPIC_START, TOPIC_LEN):
            for slot in past:
                yield [hurt(what, value, slot)]
        yield [hurt(what, value, slot) for what in (TOPIC_START, TOPIC_LEN) for slot in past]
    for value in (0, 1, 4, 5, 255):
        yield [hurt(TOPIC_COUNT, value, place) for place in (3, 4, 63)]
    for value in (1, 4096, 65535):
        yield [hurt(what, value, slot) for what in (TOPIC_START, TOPIC_LEN) for slot in (12, 15, 16, SLOTS - 1)]
    # Places and values beyond: row 64 is row 0, slot 256 is slot 0.
    cache, place = run.cache, held[1]
    slot = place * MAX_TOPICS
    yield [hurt(TOPIC_COUNT, 256 + cache.topic_count[place], place + 64), hurt(TOPIC_START, 65536 + cache.topic_start[slot], slot + SLOTS),
           hurt(TOPIC_LEN, 2**32 + cache.topic_len[slot], slot + 2 * SLOTS)]
    # Messages with other topics and the same id, with their places.
    for topics in ((b"t",), (b"",), (b"", b""), (b"t", b"t", b"t", b"t"), (b"u" * 1024,), (b"topic", b"", b"t" * 1024, b"t")):
        yield other_message(run, place, plain(x_with(seqno=[b"\x02"], topic=topics)))
    for raw, _ in TOPIC_MESSAGES[1:5]:
        yield other_message(run, held[0], raw)
    # A number above 22 is that of the ids.
    for what in (FLAGS + 1, 24, 128, 255):
        yield [hurt(what, 0x100, place * MAX_ID), hurt(what, 9, 8192 + 3 * MAX_ID)]


def odd_keyed(play):
    """Keys that are not asked for, and others beside a sender that is hashed."""
    for place, raw in held_bytes(play):
        at = place * MAX_MESSAGE + raw.index(KEYED) + len(KEYED)
        if raw[2]:
            for where, value in ((at + 1, 0), (at + 1, 2), (at + 1, 3), (at + 4, 0x42), (at + 35, 0x42)):
                yield [hurt(CACHE_BYTE, value, where)]
            yield other_message(play.run, place, plain(x_with(from_=[HASHED], key=[key_bytes(1, b"")])))
            yield other_message(play.run, place, plain(x_with(from_=[HASHED], key=[RSA_KEY])))
        else:
            yield [hurt(CACHE_BYTE, 0x3A, at - 2)]
            yield other_message(play.run, place, plain(X))


BARE_SENDERS = (KEYLESS[0], KEYLESS[1], HASHED)  # without a key beside them, only unsigned messages have these


def odd_mixed(play):
    """Messages in their other form, under the same id; senders that only unsigned messages may have; marks and ids of every sort among those seen."""
    run, ids, held = play.run, play.ids(), play.messages()
    for place, n in zip(held, (2, 3, 4)):
        for body in (named_message(n), unsigned_message(n), named_message(n, b"u", b"t"), unsigned_message(n, b"", b"u")):
            yield other_message(run, place, body[2:])
        for raw in OTHER_TYPES:
            yield other_message(run, place, raw.replace(NAME[:-1] + b"\x1a\x01\x01", NAME[:-1] + b"\x1a\x01" + bytes([n])))
        for who in BARE_SENDERS:
            yield other_message(run, place, plain(x_with(from_=[who], seqno=[bytes([n])], signature=[]))) + other_id(run, place, who + bytes([n]))
    for place in ids:
        for mark in (0, 1, 2, 255):
            if run.seen.id_at(run.seen_store, place)[1:] != id_of(3):
                yield [hurt(SEEN_BYTE, mark, place * ROW)]


def odd_loose(play):
    """Flags that are others than those under which the messages came."""
    for value in range(MAX_FLAGS + 1):
        yield [hurt(FLAGS, value)]
    yield [hurt(FLAGS, 0), *[hurt(SEEN_BYTE, 0, place * ROW) for place in play.ids()]]
    yield [hurt(FLAGS, 1), *[hurt(SEEN_BYTE, 0, place * ROW) for place in play.ids()]]


def odd_skipping(play):
    """Messages with other groups and the same id, in any of the places; both flags."""
    run = play.run
    yield [hurt(FLAGS, MAX_FLAGS)]
    for place, n in zip(play.messages(), (2, 3, 4)):
        base = plain(x_with(seqno=[bytes([n])]))
        for raw in (base, *[raw.replace(b"\x1a\x01\x01", b"\x1a\x01" + bytes([n])) for raw in GROUPED], base + group(1, b"\x08\x00" * 1990), chain([n] * 32, base) + base):
            yield other_message(run, place, raw)
        for raw, _ in TOPIC_MESSAGES[1:5]:
            raw = raw.replace(b"\x1a\x01\x01", b"\x1a\x01" + bytes([n]))
            yield other_message(run, place, group(4, tagged(4, b"v")) + raw + group(4))


ODD_FINDERS = ((turned, odd_turned), (straight, odd_straight), (empty, odd_empty), (topical, odd_topical), (keyed, odd_keyed), (mixed, odd_mixed),
               (turned, odd_loose), (loose, odd_loose), (empty, odd_loose), (skipping, odd_skipping))


def odd_histories(few=False, finders=ODD_FINDERS):
    more = [admit(21, named_message(n)) for n in (10, 11, 12, 13)] + [beat(22), advertise(), serve(*[id_of(n) for n in range(14)]),
                                                                     ask(*[id_of(n) for n in range(14)]), STATE]
    if few:
        more = [more[0], beat(22), ask(*[id_of(n) for n in range(4)]), STATE]
    for make, find in finders:
        for n, steps in enumerate(find(make())):
            if few and (n % 5 or len(steps) > 4):
                continue
            play = make().add(*steps)
            assert play.run.broken() == [], (steps, play.run.broken())
            yield play.add(*FEW, *([*WHYS, *CALLS[1:]] if not few else []), *more).steps


# --- where topics are kept -----------------------------------------------------------------------

def kept_histories(few=False):
    """Messages, and where their topics stand. The places may be set by hand; each alone set otherwise is refused. Slots past them, and other rows, may
    hold anything."""
    for raw, kept in TOPIC_MESSAGES:
        looks = [advertise(topic=topic) for topic in sorted({raw[start:start + size] for start, size in kept})]
        play = Play(("set", 100, 4, 2, 2), admit(10, tagged(2, raw)), *looks, *topics_set(0, kept), ("lookup", id_of(1)), *([] if few else looks))
        assert play.run.broken() == [] and other_topics(play.run, 0, kept) == []
        for step in topics_set(0, kept):
            _, what, slot, right = step
            wrong = {TOPIC_COUNT: {0, right - 1, right + 1, 5, 255}, TOPIC_START: {right - 1, right + 1, 0, 65535},
                     TOPIC_LEN: {max(0, right - 1), right + 1, 65535}}[what] - {right}
            for value in sorted(wrong - ({255, 0} if few and what != TOPIC_COUNT else set())):
                play.add(hurt(what, value, slot), beat(10), *([] if few else [*looks, *FEW]))
            play.add(step)
        others = [slot for slot in range(len(kept), 8) if not few or slot in (len(kept), 3, 4)]
        yield play.add(*[hurt(what, 65535, slot) for slot in others for what in (TOPIC_START, TOPIC_LEN)], hurt(TOPIC_COUNT, 255, 1),
                       ("lookup", id_of(1)), beat(11), *looks, *([] if few else [serve(id_of(1))]), STATE).steps


def reuse_histories():
    """A place used again, by a message with more topics and with fewer; the count of the one before is not its own."""
    topics = [[b"%s%d" % (name, n) for n in range(MAX_TOPICS)] for name in (b"old", b"new")]
    looks = [advertise(topic=topic) for each in topics for topic in each]
    for before in range(1, MAX_TOPICS + 1):
        for after in range(1, MAX_TOPICS + 1):
            play = Play(("set", 100, 4, 2, 1), admit(10, named_message(0, *topics[0][:before])), *looks, admit(11, named_message(1, *topics[1][:after])), *looks)
            assert play.run.cache.topic_count[0] == after
            yield play.add(hurt(TOPIC_COUNT, before), *FEW, ("lookup", id_of(1)), hurt(TOPIC_COUNT, after), *looks, beat(12), *looks, beat(13), *looks,
                           admit(14, named_message(2, *topics[0])), *looks, STATE).steps


# --- stores of other lengths -------------------------------------------------------------------

def lent_histories(few=False):
    lengths = (0, 1, 128, 129, 387, 515, 516, 517, 516 + 128, 645, 256 * ROW, 257 * ROW, SEEN_BYTES - 1, SEEN_BYTES)
    sizes = (0, 1, 4096, 8192, 12287, 12288, 12289, 16384, 64 * 4096, CACHE_BYTES)
    calls = CALLS[:-1] + WHYS[-2:]
    if few:
        lengths, sizes, calls = (0, 387, 515, 517, 645, 257 * ROW), (0, 12287, 16384), [CALLS[2], beat(20), CALLS[5], *FEW]
    play = turned()
    for seen_len in lengths:
        play.add(("lend", seen_len, 12288), *calls)
    for cache_len in sizes:
        play.add(("lend", 516, cache_len), *calls)
    for seen_len, cache_len in ((515, 0), (517, 0), (0, 0), (516, 12288)):
        play.add(("lend", seen_len, cache_len), *calls)
    yield play.steps
    # What is tested first: 40, 41, 42, and then what concerns the call.
    play = turned()
    for wrong in ([hurt(SEEN_START, 9)], [hurt(COUNT, 9)]):
        back = healing(play.run, wrong)
        play.add(*wrong)
        for seen_len, cache_len in ((515, 12288), (517, 12288), (516, 12287), (516, 12288)):
            play.add(("lend", seen_len, cache_len), *(CALLS[1:4] + FEW if few else CALLS + POOR + WHYS))
        play.add(*back)
    yield play.add(*POOR, STATE).steps
    # Maxima whose products do not fit a number.
    play = turned()
    huge = [(MAX_IDS, value) for value in (5, 257, 516 * pow(129, -1, 2**64) % 2**64, 2**63, TOP)] \
        + [(MAX_HELD, value) for value in (2, 4, 2**52, 2**52 + 3, 2**63 + 3, TOP)]
    for what, value in huge:
        back = healing(play.run, [hurt(what, value)])
        play.add(hurt(what, value), *([CALLS[2], *FEW] if few else CALLS))
        if what == MAX_HELD and value == 2**52:
            play.add(("lend", 516, 0), *FEW, beat(20), ("lend", 516, 12288))
        play.add(*back)
    yield play.add(*FEW).steps
    # Fewer rows, with the store that belongs to them.
    for settings in ((3, 4, 3), (5, 4, 3), (4, 4, 2), (4, 4, 4), (0, 1, 0), (256, 16, 64)):
        if few and settings[0] == 256:
            continue
        yield turned().add(hurt(MAX_IDS, settings[0]), hurt(MAX_HELD, settings[2]), ("lend", settings[0] * ROW, settings[2] * MAX_MESSAGE), *CALLS).steps


# --- buffers --------------------------------------------------------------------------------------

def buffer_histories(few=False):
    """Buffers that just fit and just do not, in a buffer that is full of other bytes; and what is left of a reply."""
    for sizes in ((130, 240, 171), (115, 4096, 169)) if not few else ((130, 240, 171),):
        play = Play(("set", 100, 8, 4, 4), *[admit(1, named_message(n, b"t", b"u", size=size)) for n, size in enumerate(sizes)])
        names = [id_of(n) for n in range(3)]
        fields = [len(tagged(2, play.run.cache.message_at(play.run.cache_store, p))) for p in play.messages()]
        play.add(serve(*names), STATE)
        steps = [("advertise", 1, b"t"), ("advertise", 1, b"none"), ("ask", tells(id_of(0), b"B", b"BC", b"B")), ("ask", tells(id_of(1))),
                 ("serve", wants(id_of(1))), ("serve", wants(b"B"))]
        for step in steps:
            size = play.needed(step)
            for room in sorted({0, 1, size - 1, size, size + 1, ROOM, MAX_MADE} if not few else {0, size - 1, size} | {MAX_MADE} if size else {0}):
                if room >= 0:
                    play.add(wide(step, room), STATE)
        one, two, three = fields[0], sum(fields[:2]), sum(fields)
        for room in (0, one - 1, one, one + 1, two - 1, two, two + 1, three - 1, three, three + 1):
            play.add(serve(*names, room=room), STATE)
        # A smaller one after the first that does not fit is left, too.
        for order in ((0, 1, 2), (1, 0, 2), (2, 1, 0), (1, 2, 0)) if not few else ((2, 1, 0),):
            room = fields[order[0]] + fields[order[1]] - 1
            play.add(serve(*[names[n] for n in order], b"B", names[0], room=room), serve(*[names[n] for n in order], room=fields[order[0]] - 1), STATE)
        yield play.steps


# --- full capacities ---------------------------------------------------------------------------------

def full_histories():
    # 256 ids, and 64 messages of 4,096 bytes.
    names = [F + n.to_bytes(2, "big") for n in range(259)]
    big = [body_of(filled(x_with(from_=[F], seqno=[name[len(F):]]), MAX_MESSAGE)) for name in names]
    play = Play(("set", 1000, 256, 16, 64), *[admit(n, x_body(F, name[len(F):])) for n, name in enumerate(names[:190])], STATE)
    play.add(*[admit(200, body) for body in big[190:]], STATE, *full_looks(names))
    yield play.add(*[beat(201)] * 15, STATE, advertise(15), advertise(16), beat(201), STATE, advertise(16), serve(names[258])).steps
    # As many bytes as a reply may have, with 16 messages.
    for last, rooms in ((4047, (ROOM,)), (4048, (ROOM - 1, ROOM, ROOM + 1, MAX_MADE)), (4049, (ROOM, ROOM + 1, MAX_MADE)),
                        (4096, (ROOM, 65584, MAX_MADE))):
        play = Play(("set", 1000, 16, 4, 16), *[admit(1, big[n]) for n in range(15)], admit(1, body_of(filled(
            x_with(from_=[F], seqno=[names[15][len(F):]]), last))))
        for room in rooms:
            play.add(serve(*names[:16], room=room), STATE)
        yield play.steps
    # The longest ids, of 108 bytes, and the longest topic: 8,073 bytes.
    topic = b"t" * 1024
    bodies = [x_body(LONGEST, b"s" * 62 + n.to_bytes(2, "big"), topic) for n in range(64)]
    play = Play(("set", 1000, 64, 16, 64), *[admit(1, body) for body in bodies], advertise(1, topic), STATE)
    size = play.needed(("advertise", 1, topic))
    assert size == 8073
    told = bytes.fromhex(play.run.answer(advertise(1, topic)).split(" ")[1])
    play.add(advertise(1, topic, size), advertise(1, topic, size - 1), ("ask", ROOM, told), STATE)
    other = Play(("set", 1000, 64, 16, 64))
    size = other.needed(("ask", told))
    other.add(("ask", size, told), STATE, ("ask", size - 1, told), STATE)
    wanted = bytes.fromhex(other.run.answer(("ask", ROOM, told)).split(" ")[1])
    assert size == 7046
    yield play.add(("serve", ROOM, wanted), ("serve", 1024, wanted)).steps
    yield other.steps
    # As many records as a body may have, and one more; bodies about the largest size.
    for n in (510, 511, 512):
        others = [b"%d" % k for k in range(n)]
        yield turned().add(ask(*others), serve(*others[3:], id_of(2), id_of(3), id_of(4)), ask(*[id_of(4)] * n), ask(*others, room=100), STATE).steps
    x = named_message(9)
    for size in (MAX_BODY - 1, MAX_BODY, MAX_BODY + 1, MAX_BODY + 50):
        yield turned().add(admit(20, padded(x, size)), ("ask", ROOM, padded(tells(id_of(4), b"B"), size)),
                           ("serve", ROOM, padded(wants(id_of(4), b"B"), size)), ("ask", ROOM, b"\x80" * size), STATE).steps
    # An offer of one id that fills a body, and of many.
    yield turned().add(("ask", ROOM, control(ihave([b"x" * (MAX_BODY - 16)], None))), STATE,
                       ask(*[bytes([n % 256, n // 256]) * 62 for n in range(500)]), STATE,
                       ask(*[b"%d" % n * 20 for n in range(511)], room=20000), STATE).steps


def full_in_few_bytes():
    """256 ids and 64 messages of 4,096 bytes, which are made longer where they are; 511 ids named in one body; 16 windows."""
    names = [F + n.to_bytes(2, "big") for n in range(259)]
    play = Play(("set", 1000, 256, 16, 64), *[admit(n, x_body(F, name[len(F):])) for n, name in enumerate(names)], STATE)
    for place in play.messages():
        play.add(*longest(play.run, place))
    every = names[3:]
    play.add(STATE, advertise(1), ask(*names), ("contains", b"\x01" + names[3]), ("contains", b"\x01" + names[2]), ("lookup", names[195]),
             ("lookup", names[194]), serve(*reversed(every), room=4098), serve(*reversed(every), room=4099), serve(names[0], names[194]), STATE)
    others = [b"%d" % n for n in range(512)]
    play.add(ask(*others[:511]), ask(*others), serve(*others[:510], names[0]), serve(*others), STATE)
    return play.add(*[beat(300)] * 15, advertise(15), advertise(16, room=20), STATE, beat(300), advertise(16), STATE,
                    admit(300, named_message(1)), ("lookup", id_of(1)), STATE).steps


def full_looks(names):
    every = names[3:]
    return [advertise(1), STATE, ask(*names), ask(*every), ("contains", b"\x01" + names[3]), ("contains", b"\x01" + names[2]),
            ("lookup", names[195]), ("lookup", names[194])] \
        + [serve(*reversed(every), room=room) for room in (0, 4098, 4099, 8197, 8198, 61484, 61485, ROOM, MAX_MADE)] + [STATE]


def wrap_histories():
    """Arrival numbers at the wrap, from an empty cache."""
    names = [id_of(n) for n in range(8)]
    for first in (TOP - 3, TOP - 1, TOP, 0):
        for most in (0, 1, 3, 4):
            play = Play(("set", 100, 8, 3, most), hurt(NEXT, first), STATE)
            for n in range(6):
                play.add(admit(n, named_message(n)), advertise(1), serve(*names), *([beat(n)] if n % 3 == 2 else []), STATE)
            yield play.add(("lookup", names[5]), ("lookup", names[0])).steps


def unused_histories():
    """Rows that left and come back: a message that is no longer held grows older, too, and 255 is as old as it gets. A ring that starts behind its
    last place starts at its first place after a clean-up, a beat or a put."""
    for beats in (2, 3, 4, 15, 16, 255, 256, 257, 258, 300):
        play = Play(("set", 1000, 4, 2, 3), admit(1, named_message(0)), *[beat(2)] * beats, STATE, hurt(START, 0), hurt(COUNT, 1))
        for history_len in (beats - 1, beats, beats + 1, 16):
            play.add(hurt(HISTORY_LEN, history_len), ("lookup", id_of(0)), beat(2) if history_len == 16 else advertise(beats), advertise(beats + 1))
        yield play.add(STATE).steps
    turns = [hurt(SEEN_START, 3), hurt(START, 3), STATE]
    for step in (beat(13), admit(13, named_message(2)), admit(13, named_message(9)), admit(9, named_message(9)), admit(112, named_message(2))):
        yield straight().add(*turns, serve(id_of(0)), step, STATE, serve(id_of(2), id_of(1)), STATE).steps
        yield straight().add(*turns, hurt(SEEN_COUNT, 1), hurt(COUNT, 1), hurt(NEXT, 1), step, STATE, *FEW, step, STATE).steps


def small_histories():
    """Maxima 0 and 1."""
    for seen, most in ((0, 0), (0, 3), (3, 0), (1, 1), (0, 1), (1, 0)):
        play = Play(("set", 5, seen, 1, most), STATE)
        for n in (0, 1, 0, 1, 2):
            play.add(admit(n or play.run.clock, named_message(n)), ask(id_of(0), id_of(1)), serve(id_of(0), id_of(1)), STATE)
        yield play.add(beat(3), *FEW, beat(9), *FEW, ("lend", 1, 0), *FEW, ("lend", 0, 1), *FEW, ("lend", seen * ROW, most * MAX_MESSAGE),
                       hurt(SEEN_COUNT, seen + 1), *FEW, hurt(SEEN_COUNT, 0), hurt(COUNT, most + 1), *FEW).steps


def contains_histories():
    play = turned()
    for size in (0, 1, 128, 129, 130, 131, 255, 256, 257, 1000, 65600):
        play.add(("contains", b"\x01" * size), ("lookup", b"\x01" * size))
    for n in range(6):
        play.add(("contains", b"\x01" + id_of(n)), ("contains", id_of(n)), ("lookup", id_of(n)), ("lookup", b"\x01" + id_of(n)))
    yield play.add(*other_seen(play.run, 0, b"y" * 129), ("contains", b"y" * 129), ("contains", b"y" * 128), ("contains", b"y" * 130),
                   hurt(SEEN_LEN, 128, 0), ("contains", b"y" * 129), ("contains", b"y" * 128), hurt(SEEN_LEN, 0, 0), ("contains", b""),
                   hurt(EXPIRY, 0, 3), ("contains", b"\x01" + id_of(4)), beat(20), STATE).steps  # alone, no expiry is looked at


def why_histories():
    """Every answer of `why`, on rings that have turned and that have not: each id, topic and number of windows; then 40, 41 and 42 before 29. Nothing is
    changed."""
    names, long = [id_of(n) for n in range(6)], b"t" * 1025
    for make in (turned, straight, topical, empty):
        play = make()
        for topic in (b"t", b"u", b"", b"topi", b"topic", b"\xff", b"t" * 1024, long):
            play.add(*[why(n, name, topic) for n in (0, 1, 2, 3, 4, 5, 65535) for name in names])
        play.add(STATE, *[why(9, name) for name in (b"", A, b"\x01" + id_of(3), id_of(3) + b"\x00", b"\x03", bytes(128), bytes(129), bytes(1000))],
                 why(9, b"", b"\xff"), why(9, b"", long), why(0, topic=b"\xff" * 1025), STATE)
        lent = play.run.seen_len, play.run.cache_len
        for other in ((lent[0] - 1, lent[1]), (lent[0] + 1, lent[1]), (lent[0], lent[1] - 1), (0, 0)):
            play.add(("lend", *other), why(9), why(9, topic=long))
        yield play.add(("lend", *lent), hurt(COUNT, 9), why(9), why(9, topic=long), STATE).steps
    # The oldest age, and a message that leaves; an id that is cached and no longer seen, and one that is seen and no longer cached.
    play = Play(("set", 10, 4, 16, 2), admit(1, named_message(3)))
    for _ in range(16):
        play.add(beat(1), *[why(n) for n in range(18)])
    yield play.add(STATE, admit(1, named_message(3)), why(), admit(11, named_message(3)), why(), why(0), beat(11), why(1), why(2), STATE).steps


def why_in_few_bytes():
    """Each answer of `why` and each of its refusals, a few times."""
    long = b"t" * 1025
    play = turned().add(*[why(n, name) for n in range(4) for name in (id_of(1), id_of(2), id_of(3), id_of(4))], why(65535, id_of(2)))
    play.add(*[why(n, topic=topic) for n in (0, 2) for topic in (b"u", b"", b"tt", b"\xff")], why(9, topic=b"t" * 1024), why(9, topic=long), why(9, b"", long))
    play.add(*[why(9, name) for name in (b"", A, b"\x01" + id_of(3), id_of(3) + b"\x00", bytes(128), bytes(129))], STATE)
    for other in ((515, 12288), (517, 12288), (516, 12287)):
        play.add(("lend", *other), why(9))
    play.add(("lend", 515, 12288), why(9, topic=long), ("lend", 516, 12288), hurt(COUNT, 9), why(9), why(9, topic=long), hurt(COUNT, 3), STATE)
    # A message leaves the cache; it is seen, and nothing of it is told.
    return play.add(beat(20), why(2), beat(20), why(3), why(4), beat(20), why(65535), why(65535, id_of(4)), admit(20, named_message(3)), STATE).steps


def each_refusal():
    """Every refusal of a body, a message and a room, a few times, in few bytes; all but one of the bodies are short."""
    play = turned()
    bodies = [bytes.fromhex(row) for row in REFUSED] + [b"\x09", b"\x0a" + b"\xff" * 9 + b"\x01", b"\x0a\x03\x12\x02\xff", b"\x0a\x00\x0b"]
    for body in bodies:
        play.add(admit(20, body), ("ask", 0, body), ("serve", 0, body))
    many = b"\x0a\x00" * 513
    play.add(admit(20, many), ("ask", ROOM, many), ("serve", ROOM, many), STATE)
    for parts in (x_with(from_=[]), x_with(from_=[b""]), x_with(from_=[b"f" * 65]), x_with(from_=[b"A"]), x_with(seqno=[]), x_with(seqno=[b"s" * 65]),
                  x_with(signature=[], key=[b"k"]), x_with(signature=[]), x_with(signature=[bytes(63)]), x_with(key=[b"\xff"]), x_with(key=[F[2:]]),
                  x_with(topic=[]), x_with(topic=[b"t"] * 5), x_with(topic=[b"t" * 1025]), grown(X, 4097)):
        play.add(admit(20, body_of(parts)))
    play.add(admit(20, named_message(9), 1), admit(20, named_message(9), 65535), admit(20, named_message(9), 0, 0), admit(20, named_message(9), 0, 2),
             admit(15, named_message(9)), beat(15), advertise(1, b"t" * 1025), advertise(1, b"t" * 1024), advertise(room=14), ask(b"B", room=4),
             serve(id_of(3), room=113), ("contains", bytes(129)), ("contains", bytes(130)), ("lookup", bytes(130)), STATE)
    play.add(("set", 1, 257, 4, 3), ("set", 1, 4, 0, 3), ("set", 1, 4, 17, 3), ("set", 1, 4, 4, 65), ("set", 1, 65535, 65535, 65535))
    return play.add(*CALLS).steps


def placed_in_few_bytes():
    """Bodies that are refused inside a control, where the place is a path; and the same message alone, and behind one that is taken."""
    play = turned()
    for text, _ in ROWS[9:14] + ROWS[15:]:
        body = bytes.fromhex(text)
        play.add(admit(20, body), ("ask", 0, body), ("serve", 0, body))
    for body in (named_message(9) + b"\x0b", tells(b"B") + b"\x1a\x03\x0a\x01\x80", wants(id_of(3)) + b"\x1a\x02\x12\x05"):
        play.add(admit(20, body), ("ask", ROOM, body), ("serve", ROOM, body))
    return play.add(STATE).steps


def senders_in_few_bytes():
    """The rows about senders and their keys, with the word and without; then cached messages whose sender or key is no longer one, 42, and whose key
    may be another, well formed."""
    play = Play(*traces.senders(peers.SHORT_ROWS, 1), *traces.senders(peers.ROWS[20:], 0)[1:], STATE)
    made = keyed()
    play.add(*made.steps, STATE)
    looks = [admit(20, named_message(1)), ("lookup", id_of(1))]
    for at, value in ((0, 0x41), (1, 0x25), (3, 4)):
        step = hurt(CACHE_BYTE, value, 2 + at)
        play.add(step, *looks, *healing(made.run, [step]))
    for find in (key_breaks, odd_keyed):
        for steps in find(made):
            steps = steps[1] if find is key_breaks else steps
            if len(steps) == 1:
                play.add(*steps, *looks, *healing(made.run, steps))
    return play.add(STATE, *looks, beat(21), STATE).steps


# --- unsigned messages -----------------------------------------------------------------------------

def flag_table():
    """The scope's rows about unsigned messages, as (step, answer)."""
    u, x = body_of(U), body_of(X)
    offer, request = ("ask", ROOM, tells(NAME)), ("serve", ROOM, wants(NAME))
    assert u.hex() == "122e0a26" + A.hex() + "1a0101220174" and offer[2].hex() == "1a2e0a2c0a01741227" + NAME.hex()
    assert request[2].hex() == "1a2b12290a27" + NAME.hex()
    seen = [("contains", b"\x00" + NAME), ("contains", b"\x01" + NAME)]
    each = [admit(100, x), admit(100, u, 0, 0), beat(100), advertise(), offer, request, why(1, NAME), ("lookup", NAME)]
    yield from [
        (("flagged", 1000, 4, 2, 4, 1), "ok"),
        (admit(100, u, 0, 0), "new"), (admit(100, u), "dup"),
        (offer, "0"),
        (admit(100, x, 0, 0), "refused 27"), (admit(100, x), "new"), (admit(100, x), "dup"),
        (request, "48 %s 1 0" % u.hex()),
        (admit(100, body_of(x_with(signature=[], key=[b""]))), "refused 24"), (admit(100, body_of(x_with(signature=[b""]))), "refused 26 0"),
        (admit(100, body_of(x_with(signature=[], from_=[b"A"]))), "refused 34"),
        (admit(100, body_of(x_with(signature=[], from_=[b"\x00\x00"]))), "new"), (admit(100, body_of(x_with(signature=[], from_=[HASHED]))), "new"),
        (seen[0], "yes"), (seen[1], "yes"),
    ]
    # From outside; the seen part alone does not know the flags.
    for value in (0, 4):
        yield hurt(FLAGS, value), "ok"
        yield from ((step, "refused 42") for step in each)
        yield from ((step, "yes") for step in seen)
    yield from [(hurt(FLAGS, 1), "ok"), (request, "48 %s 1 0" % u.hex())]
    # A node that is off, by either kind.
    for settings in (("set", 1000, 4, 2, 4), ("flagged", 1000, 4, 2, 4, 0)):
        yield from [(settings, "ok"), (admit(100, u), "refused 25"), (admit(100, x), "new"), (seen[0], "no"), (seen[1], "yes")]
    # Off, and only the unsigned form in its seen store.
    yield from [(("flagged", 1000, 4, 2, 0, 1), "ok"), (admit(100, u), "new"), (offer, "0"), (hurt(FLAGS, 0), "ok"), (seen[0], "yes"), (seen[1], "no"),
                (offer, "45 1a2b12290a27%s" % NAME.hex()), (hurt(FLAGS, 1), "ok"), (offer, "0")]
    yield from ((("flagged", 1000, 4, 2, 4, value), "refused 40") for value in (4, 5, 256, 65535))
    yield offer, "0"


def loose_rows(rows, flags, *words):
    """Rows about unsigned messages, with each word. No id is kept, so nothing is a duplicate."""
    return [("flagged", 10, 0, 1, 0, flags)] + [admit(5, body_of(x_with(**change)), 0, word) for word in words or (1, 0) for change, *_ in rows]


def flags_in_few_bytes():
    """The scope's rows, those about unsigned messages with either flag, each clause that the flags have to do with broken alone, and states that are well formed."""
    play = Play(*[step for step, _ in flag_table()], *loose_rows(peers.SHORT_UNSIGNED_ROWS, 1, 0), *loose_rows(peers.SHORT_UNSIGNED_ROWS[:9], 0, 1), STATE)
    looks = [admit(20, unsigned_message(3), 0, 0), ("lookup", id_of(2))]
    for make, find in ((mixed, flag_breaks), (loose, unknown_flags)):
        made = make()
        play.add(*made.steps, STATE)
        for clause, steps in find(made):
            if len(steps) <= 3:
                harmed(play, clause, steps, *looks)
        play.add(STATE, *looks, ask(*[id_of(n) for n in range(5)]), serve(*[id_of(n) for n in range(5)], room=200), beat(21), STATE)
    return play.steps


LOOSE_CALLS = [STATE, admit(20, unsigned_message(9), 0, 0), admit(20, unsigned_message(9)), admit(20, named_message(9), 0, 0), admit(20, named_message(9)),
               admit(20, unsigned_message(4)), admit(20, named_message(2)), ask(*[id_of(n) for n in range(10)]), serve(*[id_of(n) for n in range(10)]),
               advertise(), *[("contains", mark + id_of(n)) for n in (2, 3, 4) for mark in (b"\x00", b"\x01")], ("lookup", id_of(2)), why(4, id_of(2)), STATE]


def flag_histories():
    yield [step for step, _ in flag_table()]
    # Flags among good settings and bad ones: refused settings change nothing.
    play = mixed()
    for settings in ((100, 4, 4, 3), (100, 0, 1, 0), (TOP, 256, 16, 64), (1, 257, 4, 3), (1, 4, 0, 3), (1, 4, 17, 3), (1, 4, 4, 65)):
        for flags in (4, 5, 7, 255, 256, 257, 32768, 65535) + ((0, 1, 2, 3) if settings[0] == 1 else ()):
            play.add(("flagged", *settings, flags), STATE, ("lookup", id_of(3)))
    yield play.add(*LOOSE_CALLS).steps
    for flags in (0, 1):
        for rows in (peers.UNSIGNED_ROWS, peers.ROWS + peers.MORE_ROWS):
            yield loose_rows(rows, flags) + [STATE]
        yield Play(("flagged", 10, 4, 2, 4, flags), *[step for raw in OTHER_TYPES for step in (admit(5, tagged(2, raw)), ("contains", b"\x00" + NAME), beat(15))],
                   serve(NAME)).steps
        # Reasons of every sort at once, at a reading before the clock, too.
        for now, word in ((20, 0), (20, 1), (1, 1)):
            play = Play(("flagged", 100, 4, 4, 3, flags), admit(16, named_message(4)))
            for parts in caches.unfit_puts():
                bare = [part for part in parts if part[0] != 5]
                play.add(admit(now, body_of(parts), 0, word), admit(now, body_of(bare), 0, word), admit(now, body_of([part for part in bare if part[0] != 6]), 0, word))
            yield play.add(STATE, *CALLS).steps
    # Flags that are set from outside, and set back, on each state to start from.
    for make in (mixed, loose, turned, empty, topical, keyed):
        play = make()
        for value in (0, 1, 2, 3, 4, 5, 65535, 65536, 2**32, 2**32 + 1, 2**32 + 2, TOP):
            back = healing(play.run, [hurt(FLAGS, value)])
            play.add(hurt(FLAGS, value), *CALLS, *POOR, *WHYS[:3], *LOOSE_CALLS, *back, ("lookup", id_of(3)))
        yield play.add(*CALLS).steps
    # What is tested first: 40 and 41, then 42.
    play = mixed().add(hurt(FLAGS, 4))
    for lent in ((515, 12288), (517, 12288), (516, 12287), (516, 12288)):
        play.add(("lend", *lent), *LOOSE_CALLS, *POOR)
    yield play.steps
    yield from mark_histories()


def mark_histories():
    """Both forms of one id, in either order, as they expire, are driven out and leave the windows; an unsigned flood."""
    forms = {0: unsigned_message(3, b"t", b"u"), 1: named_message(3, b"t", b"v")}
    looks = [("contains", b"\x00" + id_of(3)), ("contains", b"\x01" + id_of(3)), ask(id_of(3), id_of(4)), serve(id_of(3)), advertise(), advertise(topic=b"u"),
             advertise(topic=b"v"), why(9), STATE]
    for flags, max_seen, most in ((1, 4, 3), (1, 2, 1), (1, 1, 1), (1, 1, 0), (1, 0, 3), (0, 4, 3)):
        for first in (0, 1):
            for gap in (0, 1, 9, 10, 11):
                play = Play(("flagged", 10, max_seen, 3, most, flags), admit(5, forms[first], 0, 1 - first), admit(5, forms[first]), *looks)
                play.add(admit(5 + gap, forms[1 - first]), *looks, admit(5 + gap, forms[first]), admit(5 + gap, forms[1 - first]), *looks)
                yield play.add(beat(15), *looks, beat(15 + gap), *looks, beat(30), *looks, admit(30, forms[1 - first]), *looks).steps
    # Unsigned ids drive out signed ones, and the other way round.
    play = Play(("flagged", 1000, 8, 4, 8, 1), *[admit(1, named_message(n)) for n in range(8)], ask(*[id_of(n) for n in range(10)]))
    for n in range(10):
        play.add(admit(2, unsigned_message(n), 0, 0), ask(*[id_of(k) for k in range(10)]), STATE)
    yield play.add(*[admit(3, named_message(n)) for n in range(8)], ask(*[id_of(n) for n in range(10)]), serve(*[id_of(n) for n in range(10)]), STATE).steps
    # As many ids as there are, both forms of each.
    names = [F + n.to_bytes(2, "big") for n in range(130)]
    play = Play(("flagged", 1000, 256, 16, 64, 1))
    for n, name in enumerate(names):
        both = [body_of(x_with(from_=[F], seqno=[name[len(F):]], signature=some)) for some in ([], [bytes(64)])]
        play.add(*[admit(1, body) for body in (both if n % 2 else both[::-1])])
    yield play.add(STATE, ask(*names), serve(*names), advertise(), *[("contains", mark + names[n]) for n in (0, 1, 2, 3, 129) for mark in (b"\x00", b"\x01")],
                   *[admit(2, body_of(x_with(from_=[F], seqno=[names[n][len(F):]], signature=[]))) for n in (0, 1, 2, 129)], STATE).steps


MARKED = [("u", 0), ("x", 0), ("u", 1), ("x", 1), ("beat", 0), ("beat", 1)]


def short_mark_histories(length=4):
    """Every history of so many calls out of MARKED, whose numbers are added to the reading: both forms of X, where unsigned messages are allowed."""
    bodies = {"u": body_of(U), "x": body_of(X)}
    looks = [ask(NAME), serve(NAME), ("contains", b"\x00" + NAME), ("contains", b"\x01" + NAME)]
    for most in ((0, 1, 1), (1, 1, 1), (1, 2, 0), (2, 1, 1), (2, 2, 2)):
        for chosen in itertools.product(MARKED, repeat=length):
            steps, now = [("flagged", 2, *most, 1)], 5
            for n, (call, more) in enumerate(chosen):
                now += more
                steps.append(beat(now) if call == "beat" else admit(now, bodies[call], 0, 1 if call == "x" else n % 2))
            yield steps + looks


# --- editions ----------------------------------------------------------------------------------------

def in_edition(edition, step, unwanted=b""):
    """An admit, an ask or a serve in an edition; serve with a second body."""
    if step[0] == "serve":
        return ("serve_in", edition, step[1], unwanted, step[2])
    return (step[0] + "_in", edition, *step[1:])


def dont(*names):
    """An IDONTWANT as a field of a control."""
    return tagged(5, b"".join(tagged(1, name) for name in names))


def declines(*names):
    """A body whose one IDONTWANT names these ids."""
    return control(dont(*names))


def serve_in(unwanted, *names, edition=V1_2, room=ROOM):
    return in_edition(edition, serve(*names, room=room), unwanted)


def edition_table():
    """The scope's rows about editions on a node, as (step, answer): X and Y are cached."""
    x, y = body_of(X), body_of(x_with(seqno=[b"\x02"]))
    one, other = NAME, id_of(2)
    assert len(x) == len(y) == 114 and one != other
    yield ("set", 1000, 4, 2, 4), "ok"
    yield in_edition(V1_2, admit(100, x)), "new"
    yield in_edition(V1_1, admit(100, y)), "new"
    yield in_edition(V1_2, admit(100, y)), "dup"
    both = "228 %s 2 0" % (x + y).hex()
    for edition in EDITIONS:
        def serving(unwanted, *names, room=ROOM):
            return serve_in(unwanted, *names, edition=edition, room=room)
        yield serving(declines(one), one, other), "114 %s 1 0" % y.hex()
        yield serving(declines(one), one, other, room=114), "114 %s 1 0" % y.hex()
        yield serving(declines(one), one, other, room=113), "refused 12 114"
        yield serving(wants(one), one, other), both
        yield serving(b"\x00", one, other), "refused 6 0 0 at 0"
        yield in_edition(edition, ("serve", ROOM, b"\x80"), b"\x00"), "refused 1 at 0"
        yield serving(declines(one), one), "0 0 0"
        # None, or one that declines nothing of it; an IDONTWANT beside the IWANT is none of the second body.
        for unwanted in (b"", control(), declines(), declines(b"", A, one + b"\x00", b"\x01" + one), x, tells(one), control(counted(5, 7))):
            yield serving(unwanted, one, other), both
        yield in_edition(edition, ("serve", ROOM, wants(one, other) + declines(one))), both
        yield in_edition(edition, ("serve", ROOM, wants(one, other) + declines(one)), wants(one, other) + declines(one)), "114 %s 1 0" % y.hex()
        # It is read in 1.2, whatever the edition of the call, and a place is one in it.
        yield serving(bytes.fromhex("1a032a0180"), one, other), "refused 1 at 4 in 3 5"
        yield serving(declines(one) + bytes.fromhex("1a032a0180"), one, room=0), "refused 1 at %d in 3 5" % (len(declines(one)) + 4)
        yield serving(control(tagged(5, b"\x0a\x00" * 512)), one, other), "refused 11 513"
        yield serving(control(tagged(5, b"\x0a\x00" * 511)), one, other), both
    # What 1.1 skips and 1.2 reads.
    cut = bytes.fromhex("1a032a0180")
    for edition, told in ((V1_1, None), (V1_2, "refused 1 at 4 in 3 5")):
        yield in_edition(edition, admit(100, cut + x)), told or "dup"
        yield in_edition(edition, ("ask", ROOM, cut + tells(one))), told or "0"
        yield in_edition(edition, ("serve", ROOM, cut + wants(one))), told or "114 %s 1 0" % x.hex()
        for ids, refused in ((511, "refused 11 513"), (510, None), (512, "refused 11 514")):
            many = control(tagged(5, b"\x0a\x00" * ids))
            yield in_edition(edition, ("ask", ROOM, tells() + many)), (refused if edition else None) or "0"


# Bodies that are refused by themselves, of every sort; and those that are read.
FAULTY = [bytes.fromhex(text) for text in ("80", "80" * 9 + "02", "8000", "0a05", "0b", "00", "0a031201ff", "1a032a0180")] + [b"\x0a\x00" * 513]
READ = [b"", wants(id_of(3)), declines(id_of(4))]


def unwanted_bodies(play):
    """Second bodies about the ids that a node has cached: each alone, in any order, twice, in several entries and controls, and what looks like it."""
    names = [play.run.cache.id_at(place) for place in play.messages()]
    for name in names:
        yield declines(name)
        yield declines(name[:-1], name + b"\x00", b"\x01" + name, name[1:], b"", name * 3)
        yield control(iwant([name]), ihave([name]), tagged(4, tagged(2, tagged(1, name)))) + tagged(2, tagged(5, name)) + tagged(5, tagged(1, name))
        yield control(tagged(5, tagged(2, name) + counted(1, 7) + tagged(1, name)))
        yield control(dont(b"x", name), counted(5, 1), dont()) + tagged(1, b"") + control(dont(b"y"))
    yield declines(*names)
    yield declines(*reversed(names), *names)
    yield b"".join(map(declines, names))
    yield control(*map(dont, names[1:]))
    yield control(dont(b"z"), *map(dont, names[:-1])) + body_of(X)


def edition_histories():
    yield [step for step, _ in edition_table()]
    # Every body that is refused, in either edition, by each call, and as the second body.
    rows = [bytes.fromhex(text) for text, *_ in EDITION_ROWS + ROWS + MORE_ROWS]
    for edition in EDITIONS:
        play = turned()
        for row in rows:
            for body in (row, named_message(9) + row, wants(id_of(3)) + row):
                for step in (admit(20, body), ("ask", 0, body), ("serve", ROOM, body)):
                    play.add(in_edition(edition, step))
                play.add(serve_in(body, id_of(3), edition=edition))
        yield play.add(STATE, *CALLS).steps
    # The order: 40, 41, 42; the body that asks; the second body; room. Nothing is changed.
    for edition in EDITIONS:
        play = turned()
        for lent in ((515, 12288), (517, 12288), (516, 12287), (516, 12288)):
            play.add(("lend", *lent))
            for body, unwanted in itertools.product(FAULTY + READ, repeat=2):
                play.add(in_edition(edition, ("serve", 0, body), unwanted))
            play.add(STATE)
        play.add(hurt(COUNT, 9))
        for body, unwanted in itertools.product((FAULTY[0], *READ), repeat=2):
            play.add(in_edition(edition, ("serve", ROOM, body), unwanted), in_edition(edition, ("ask", ROOM, body)), in_edition(edition, admit(20, body)))
        yield play.steps
    # What is left out, on rings that have turned and that have not; with room for all, and about what the first that remains needs.
    for make in (turned, straight, topical, mixed, keyed):
        play = make()
        names = [play.run.cache.id_at(place) for place in play.messages()]
        for unwanted in list(unwanted_bodies(play)):
            for asked in (names, names[::-1], [b"x", *names, names[0]], names[:1]):
                play.add(*about(play, unwanted, asked))
        yield play.add(STATE, *CALLS).steps
    yield from full_editions()


def about(play, unwanted, names):
    """A serve with a second body, with room for all of the reply and with rooms about its first message and its last."""
    step = serve_in(unwanted, *names)
    held = play.run.made[:]
    answer = play.run.answer(step)
    play.run.made[:] = held
    sizes = [] if answer.startswith("refused") else [len(tagged(2, raw)) for raw, _ in nodes.Body(nodes.made(answer)).messages]
    rooms = {0, ROOM, sum(sizes)} | {n for size in sizes[:1] for n in (size - 1, size)} | {sum(sizes) - 1 for _ in sizes[:1]}
    return [serve_in(unwanted, *names, edition=n % 2, room=room) for n, room in enumerate(sorted(rooms))]


def full_editions():
    """As many messages as a node keeps and as many ids as a body has; replies that are longer than a body, of which some are declined."""
    names = [F + n.to_bytes(2, "big") for n in range(80)]
    big = [body_of(filled(x_with(from_=[F], seqno=[name[len(F):]]), MAX_MESSAGE)) for name in names]
    play = Play(("set", 1000, 256, 16, 64), *[in_edition(n % 2, admit(1, body)) for n, body in enumerate(big)], STATE)
    kept = names[16:]
    for unwanted in ([], kept[:1], kept[:40], kept[20:], kept[::2], kept[1:], kept, names[:16], [b"%d" % n for n in range(440)] + kept[:63]):
        play.add(serve_in(declines(*unwanted), *kept), serve_in(declines(*unwanted), *reversed(names), edition=V1_1, room=2 * 4099))
    others = [b"%d" % n for n in range(512)]
    for n in (510, 511, 512):
        play.add(serve_in(declines(*others[:n]), kept[3]), serve_in(declines(*others[:n - 1], kept[3]), kept[3], kept[4], room=4099), serve_in(declines(kept[3]), *others[:n]))
    x = declines(kept[3])
    for size in (MAX_BODY - 1, MAX_BODY, MAX_BODY + 1):
        play.add(serve_in(padded(x, size), kept[3], kept[4], room=4099), serve_in(padded(b"\x0b", size), kept[3]))
    yield play.add(STATE).steps


def editions_in_few_bytes():
    """The scope's rows, a few bodies that are refused, in either edition and as either body, and the order of refusals."""
    play = Play(*[step for step, _ in edition_table()], STATE)
    play.add(*turned().steps)
    for text, *_ in EDITION_ROWS[:13]:
        row = bytes.fromhex(text)
        play.add(in_edition(V1_2, admit(20, row)), in_edition(V1_1, ("ask", 0, row)), in_edition(V1_2, ("serve", ROOM, wants(id_of(9)) + row)), serve_in(row, id_of(9), edition=V1_1))
    for lent in ((515, 12288), (517, 12288), (516, 12288)):
        play.add(("lend", *lent))
        for body, unwanted in itertools.product(FAULTY[:1] + READ[1:], FAULTY[5:6] + READ[2:]):
            play.add(in_edition(V1_2, ("serve", 0, body), unwanted))
    names = [id_of(n) for n in (2, 3, 4)]
    for unwanted in (declines(names[0]), declines(names[2], names[1]), control(dont(names[1]), dont(b"x")) + declines(names[0]), tells(*names)):
        play.add(serve_in(unwanted, *names, room=2 * 114), serve_in(unwanted, *names, edition=V1_1, room=113))
    return play.add(in_edition(V1_2, admit(20, named_message(9) + declines(id_of(9)))), in_edition(V1_2, ask(id_of(9), b"B")), STATE).steps


# --- groups ------------------------------------------------------------------------------------------

# What an admit says of the rows that are taken; of the others there is no message.
NO_ID = {"12020b0c": "refused 21", "12080a01420b0a01410c": "refused 34"}


def group_table():
    """The scope's rows about groups on a node, as (step, answer), where they are refused and where they are skipped."""
    x, g, u = body_of(X), tagged(2, plain(X) + group(1)), tagged(2, plain(U) + group(1))
    assert len(g) == 116
    request, offer, declined = ("serve", ROOM, wants(NAME)), ("ask", ROOM, tells(NAME)), group(1) + declines(NAME)
    for flags in (0, GROUPS):
        yield ("flagged", 1000, 4, 2, 4, flags), "ok"
        for text, *both in GROUP_ROWS:
            row, told = bytes.fromhex(text), both[flags > 0]
            for edition in EDITIONS:
                yield in_edition(edition, admit(100, row)), told or NO_ID.get(text, "refused 20 0")
                yield in_edition(edition, ("ask", ROOM, row)), told or "0"
                yield in_edition(edition, ("serve", ROOM, row)), told or "0 0 0"
                yield serve_in(row, NAME, edition=edition), told or "0 0 0"
    # A message with a group is kept and served as it came; the id is that without it.
    yield from [(admit(100, g), "new"), (admit(100, x), "dup"), (offer, "0"), (request, "116 %s 1 0" % g.hex()), (serve_in(declined, NAME), "0 0 0"),
                (advertise(1), "48 1a2e0a2c0a01741227" + NAME.hex()), (admit(100, u), "refused 25"), (("lookup", NAME), "found"), (why(1, NAME), "listed")]
    # The flag is needed for what is cached.
    for value, told in ((0, "refused 42"), (1, "refused 42"), (3, None), (4, "refused 42"), (6, "refused 42"), (2, None)):
        yield from [(hurt(FLAGS, value), "ok"), (request, told or "116 %s 1 0" % g.hex()), (("lookup", NAME), told or "found"), (beat(100), told or "ok")][:3 if value < 4 else 4]
    # Where groups are refused; and that they are skipped from now on is not found out.
    yield from [(("flagged", 1000, 4, 2, 4, 0), "ok"), (admit(100, g), "refused 5 3 113 at 115 in 2"), (admit(100, x), "new"),
                (serve_in(declined, NAME), "refused 5 3 1 at 1"), (request, "114 %s 1 0" % x.hex()), (hurt(FLAGS, 2), "ok"), (admit(100, g), "dup"),
                (serve_in(declined, NAME), "0 0 0"), (request, "114 %s 1 0" % x.hex())]
    # Both flags, and each alone.
    for flags, told in ((3, "new"), (2, "refused 25"), (1, "refused 5 3 47 at 49 in 2"), (0, "refused 5 3 47 at 49 in 2")):
        yield from [(("flagged", 1000, 4, 2, 4, flags), "ok"), (admit(100, u, 0, 0), told), (admit(100, g, 0, 0), "refused 27" if flags > 1 else "refused 5 3 113 at 115 in 2")]
    yield from ((("flagged", 1000, 4, 2, 4, value), "refused 40") for value in (4, 6, 7, 65535))


GROUP_CALLS = [STATE, admit(20, with_group(9)), admit(20, with_group(4)), admit(20, named_message(2)), ask(*[id_of(n) for n in range(10)]),
               ("ask", ROOM, group(3, tells(b"B")) + tells(b"C") + group(1)), serve(*[id_of(n) for n in range(10)]), ("serve", ROOM, control(group(2, iwant([id_of(2)])) + iwant([id_of(4)]))),
               advertise(), advertise(topic=b"u"), advertise(topic=b""), why(4, id_of(4)), why(4, id_of(4), b"u"), ("lookup", id_of(2)), STATE]


def group_histories():
    yield [step for step, _ in group_table()]
    # Every row, by each call and as the second body, in each mode: alone, behind a message or a request, and before them.
    rows = [bytes.fromhex(text) for text, *_ in GROUP_ROWS + MORE_GROUP_ROWS]
    for flags in range(MAX_FLAGS + 1):
        play = Play(("flagged", 100, 4, 4, 3, flags), admit(10, named_message(3)))
        for row in rows:
            for n, body in enumerate((row, row + named_message(9), wants(id_of(3)) + row)):
                for step in (admit(20, body), ("ask", 0, body), ("serve", ROOM, body)):
                    play.add(in_edition(n % 2, step))
                play.add(serve_in(body, id_of(3), edition=n % 2))
        yield play.add(STATE, *CALLS, *GROUP_CALLS).steps
        # The order: 40, 41, 42; the body that asks; the second body; room.
        play = Play(("flagged", 100, 4, 4, 3, flags), admit(10, named_message(3)))
        faulty = [*FAULTY, *rows[4:6], rows[7], rows[14]]
        for lent in ((515, 12288), (517, 12288), (516, 12288)):
            play.add(("lend", *lent), *[in_edition(V1_2, ("serve", 0, body), unwanted) for body, unwanted in itertools.product(faulty + READ, repeat=2)])
        yield play.add(STATE).steps
        # Messages: with groups of every sort, as long as they may be, and longer; by an unsigned form, too.
        play = Play(("flagged", 100, 16, 4, 8, flags))
        for n, raw in enumerate((*GROUPED, *[raw for raw, _ in SPOILT])):
            raw = raw.replace(b"\x1a\x01\x01", b"\x1a\x01" + bytes([n]))
            play.add(admit(20, tagged(2, raw)), admit(20, tagged(2, raw.replace(b"\x2a\x40" + bytes(64), b"")), 0, n % 2), serve(id_of(n)), advertise(topic=b"u"))
        for size in (MAX_MESSAGE - 1, MAX_MESSAGE, MAX_MESSAGE + 1):
            play.add(admit(20, tagged(2, plain(x_with(seqno=[b"s"])) + group(1, tagged(2, bytes(size - 112 - 5))))), serve(A + b"s"))
        yield play.add(STATE, *CALLS, *GROUP_CALLS).steps
        # What else admission asks, with groups about it.
        play = Play(("flagged", 100, 4, 4, 3, flags), admit(16, named_message(4)))
        for parts in caches.unfit_puts():
            play.add(admit(20, tagged(2, group(2, plain(X)) + plain(parts) + group(1)), 0, 1), admit(1, tagged(2, plain(parts) + group(6, tagged(6, KEY))), 0, 0))
        yield play.add(STATE, *CALLS).steps
    # Flags that are set from outside, and set back, on a state that needs them and on states that do not.
    for make in (skipping, turned, mixed, topical, keyed):
        play = make()
        for value in (0, 1, 2, 3, 4, 5, 6, 7, 2**32 + 2, TOP):
            back = healing(play.run, [hurt(FLAGS, value)])
            play.add(hurt(FLAGS, value), *GROUP_CALLS, *POOR, *back, ("lookup", id_of(3)))
        yield play.add(*CALLS).steps
    yield from group_topics()
    # As many messages as there may be, each with a group; a reply of some of them.
    names = [F + n.to_bytes(2, "big") for n in range(70)]
    play = Play(("flagged", 1000, 256, 16, 64, GROUPS))
    for n, name in enumerate(names):
        play.add(admit(1, tagged(2, group(n + 1, b"\x08\x00" * (n % 9)) + plain(x_with(from_=[F], seqno=[name[len(F):]])) + chain([n + 1] * (n % 33)))))
    play.add(STATE, serve(*names), serve(*names, room=5000), ask(*names), advertise())
    for size in (MAX_BODY - 1, MAX_BODY, MAX_BODY + 1):
        play.add(("ask", ROOM, padded(group(1) + tells(b"B"), size)), admit(2, padded(with_group(3), size)), ("ask", 0, group(1, b"\x08\x00" * (size // 2 - 1))))
    yield play.add(STATE).steps


def group_topics():
    """Where topics stand in messages that have groups, with fields that look like topics in them: as told, and not a place beside it."""
    for raw, kept in TOPIC_MESSAGES[:6]:
        for before, after in ((group(4), b""), (group(4, tagged(4, b"v")), group(1)), (chain([4] * 32, tagged(4, b"t")), b""), (b"", group(4, tagged(4, b"t")))):
            whole, placed = before + raw + after, [(start + len(before), size) for start, size in kept]
            if len(whole) > MAX_MESSAGE:
                continue
            play = Play(("flagged", 100, 4, 2, 2, GROUPS), admit(10, tagged(2, whole)), *topics_set(0, placed), ("lookup", id_of(1)), advertise(), advertise(topic=b"v"))
            assert play.run.broken() == [] and other_topics(play.run, 0, placed) == []
            for step in topics_set(0, placed):
                for value in {max(0, step[3] - 1), step[3] + 1} - {step[3]}:
                    play.add((*step[:3], value), ("lookup", id_of(1)), *FEW)
                play.add(step)
            yield play.add(beat(11), *GROUP_CALLS).steps


def groups_in_few_bytes():
    """The scope's rows; each clause that groups have to do with broken alone; messages with groups whose topics stand elsewhere."""
    play = Play(*[step for step, _ in group_table()], STATE)
    play.add(*skipping().steps, STATE)
    looks = [admit(20, with_group(4)), ("lookup", id_of(2))]
    for clause, steps in group_breaks(skipping()):
        if len(steps) <= 3 and clause != "flags":
            harmed(play, clause, steps, *looks)
    return play.add(STATE, *GROUP_CALLS, beat(21), STATE).steps


def refusal_histories():
    """Every refusal of a body or a message, with its values, and nothing changed."""
    play = turned()
    long = b"t" * 1025
    bodies = [bytes.fromhex(row) for row in REFUSED] + [
        b"\x08", b"\x0a", b"\x09", b"\x0d\x00", b"\x08" + b"\x80" * 9 + b"\x00", b"\x0a" + b"\xff" * 9 + b"\x01", b"\x03", b"\x0a\x03\x12\x02\xff",
        b"\x0a\x01\x80\x0b", b"\x0a\x00\x0b", b"\xff" * 9 + b"\x01", tagged(2, b"\x22\x02\xc0\x80"), b"\x0a\x00" * 513, b"\x0a\x00" * 600]
    for body in bodies + [bytes.fromhex(text) for text, told in ROWS + MORE_ROWS if told]:
        play.add(admit(20, body), ("ask", 0, body), ("serve", 0, body))
    play.add(STATE)
    for parts in [*caches.unfit_puts()]:
        play.add(admit(20, body_of(parts), 0, 0), admit(1, body_of(parts)))
    play.add(STATE)
    for index in (1, 2, 255, 65535):
        play.add(admit(20, named_message(9), index))
    for word in (0, 2, 255):
        play.add(admit(20, named_message(9), 0, word))
    yield play.add(admit(15, named_message(9)), admit(15, named_message(4)), beat(15), beat(0), advertise(1, long), advertise(0, b"\xff" * 1025, 0),
                   advertise(0, b"\xff" * 1024), advertise(1, b"t" * 2000), ("contains", long), STATE,
                   *[("set", 5, *bad) for bad in traces.BAD_SETTINGS if max(bad) > 64 or bad[1] in (0, 17, 18)], STATE, *CALLS).steps


def named():
    for part in (refusal_histories, broken_histories, odd_histories, kept_histories, reuse_histories, lent_histories, buffer_histories, full_histories,
                 wrap_histories, unused_histories, small_histories, contains_histories, why_histories, flag_histories, edition_histories, group_histories):
        yield from part()


def of_traces():
    """The fixed histories of `trace`, and all of three calls, with the state told after the last; the fixed ones where unsigned messages are allowed and where groups
    are skipped, too, and all of four calls with both forms of a message."""
    for steps in traces.named():
        yield [wide(step) for step in steps] + [STATE]
        yield [("flagged", *step[1:], ALLOW_UNSIGNED) if step[0] == "set" else wide(step) for step in steps] + [STATE]
        yield [("flagged", *step[1:], GROUPS) if step[0] == "set" else wide(step) for step in steps] + [STATE]
        # In either edition, and mixed: no body of a trace has the field that 1.2 adds, but for those that are made for it.
        yield [in_edition(n % 3 and V1_2, wide(step)) if step[0] in EDITIONED else wide(step) for n, step in enumerate(steps)] + [STATE]
    for steps in traces.declined_histories():
        for edition in EDITIONS:
            yield [in_edition(edition, wide(step)) if step[0] in EDITIONED else wide(step) for step in steps] + [STATE]
    for steps in traces.short_histories(3):
        yield [wide(step) for step in steps] + [STATE]
    for steps in short_mark_histories():
        yield steps + [STATE]


# --- random histories -----------------------------------------------------------------------------------

def some_room(r, play, step):
    """A step of a trace, with a room: mostly enough, or about what is needed."""
    how = r.randrange(6)
    if how < 2:
        return wide(step)
    if how == 2:
        return wide(step, r.choice((0, 1, 10, 77, 100, 200, 1000, 65535, 65537, MAX_MADE)))
    needed = play.needed(step)
    if step[0] == "serve" and how == 3 and needed:
        needed = r.randrange(needed)
    return wide(step, max(0, needed + r.choice((-2, -1, -1, 0, 0, 1))))


TOPICAL = (TOPIC_COUNT, TOPIC_START, TOPIC_LEN)


def some_hurt(r, play):
    """A number of the state or a byte of a store, often about what it was or what a row beside has."""
    run = play.run
    what = r.choice((FLAGS, FLAGS, TTL, MAX_IDS, CLOCK, SEEN_START, SEEN_COUNT, EXPIRY, EXPIRY, SEEN_LEN, SEEN_LEN, HISTORY_LEN, MAX_HELD, NEXT, START, COUNT,
                     ARRIVAL, ARRIVAL, WINDOW, WINDOW, LEN, LEN, ID_LEN, IDS, SEEN_BYTE, SEEN_BYTE, CACHE_BYTE, CACHE_BYTE, *TOPICAL, *TOPICAL, *TOPICAL))
    ids = play.ids() if run.seen.fits(run.max_seen) and run.max_seen <= 256 else []
    held = play.messages() if run.cache.fits(run.cache.max_messages) and run.cache.max_messages <= 64 else []
    places = ids if what in (EXPIRY, SEEN_LEN, SEEN_BYTE) else held
    place = r.choice(places) if places and r.randrange(8) else r.randrange(8)
    near = place
    if what in (SEEN_BYTE, CACHE_BYTE, IDS):
        size = {SEEN_BYTE: ROW, CACHE_BYTE: MAX_MESSAGE, IDS: MAX_ID}[what]
        length = {SEEN_BYTE: run.seen.len[place % 256], CACHE_BYTE: run.cache.len[place % 64], IDS: run.cache.id_len[place % 64]}[what]
        at = r.randrange(length + 1)
        place, near = place * size + at, (r.choice(places) if places else 0) * size + at
    elif what in (TOPIC_START, TOPIC_LEN):
        slots = range(place * MAX_TOPICS, (place + 1) * MAX_TOPICS)
        used = slots[:run.cache.topic_count[place % 64]] or slots
        place, near = r.choice(used if r.randrange(3) else slots), r.choice(slots)
    elif places and what in (EXPIRY, SEEN_LEN, ARRIVAL, WINDOW, LEN, ID_LEN, TOPIC_COUNT):
        near = r.choice(places)
    elif what not in (EXPIRY, SEEN_LEN, ARRIVAL, WINDOW, LEN, ID_LEN, TOPIC_COUNT):
        place = near = 0
    old = value_of(run, what, place)
    if what == FLAGS:
        return hurt(FLAGS, r.choice((0, 0, 1, 1, 2, 3, old ^ 1, old ^ 2, 4, 5, 65535, 2**32 + 1, TOP)) % 2**64)
    if what in TOPICAL and r.randrange(3) == 0:
        return hurt(what, r.choice((0, 5, 255, 65535, 4096, r.randrange(100))), place)
    value = r.choice((old, old + 1, old - 1, old + 1, old - 1, old + r.choice((2, 3, 256)), value_of(run, what, near), value_of(run, what, near),
                      0, 1, r.randrange(5), r.choice((16, 17, 64, 65, 128, 129, 130, 255, 256, 257, 4096, 4097)), r.randrange(2**64),
                      r.choice((2**32, 2**52, 2**63, TOP - 1, TOP))))
    return hurt(what, value % 2**64, place)


def some_lend(r, play):
    run = play.run
    seen_len, cache_len = run.max_seen * ROW, run.cache.max_messages * MAX_MESSAGE

    def about(n, size):
        return n + r.choice((0, 0, -1, 1, -size, size, size - 1, -n, r.randrange(size)))
    one, other = about(seen_len, ROW), about(cache_len, MAX_MESSAGE)
    return ("lend", max(0, min(one, SEEN_BYTES)), max(0, min(other, CACHE_BYTES)))


def some_why(r, pool, topics):
    name = r.choice(traces.named_by(pool))
    return why(r.choice(traces.WINDOWS), name if r.randrange(4) else traces.near(r, name), traces.some_topic(r, topics))


def some_alone(r, pool, marks=(b"", b"\x01", b"\x01", b"\x01", b"\x00")):
    name = r.choice(traces.named_by(pool))
    if r.randrange(4) == 0:
        name = traces.near(r, name)
    return ("contains", r.choice(marks) + name) if r.randrange(2) else ("lookup", name)


def numbers(run):
    return run.clock, run.seen.start, run.seen.count, run.cache.start, run.cache.count, run.cache.next


def harm(r, play, calls):
    """Some numbers set or another length lent, a few calls, and most often all as it was."""
    for _ in range(r.choice((1, 1, 2, 4))):
        steps = [some_hurt(r, play) if r.randrange(6) else some_lend(r, play) for _ in range(r.choice((1, 1, 1, 2, 3)))]
        back = []
        for step in steps:
            back = healing(play.run, [step]) + back
            play.add(step)
        before = numbers(play.run)
        play.add(*calls(r.choice((1, 2, 3))))
        play.add(STATE)
        if numbers(play.run) == before and r.randrange(8):
            play.add(*back)


def some_topics(r, play):
    """Messages with topics of every sort, and what is told of some topics."""
    # The last sender has fields 4 in its key.
    senders = ((A, b"b"), (HASHED, b"c"), (identity(key_bytes(1, b"\x22\x01t\x22\x00")), b"\x22\x01"))
    raws = [topic_message(r, r.choice(senders)) for _ in range(r.choice((1, 2, 3)))]
    raws = [caches.bare(raw) if play.run.cache.flags % 2 and r.randrange(2) else raw for raw in raws]
    topics = [b"", b"t"] + [raw[start:start + size] for raw in raws if taken(raw, ALLOW_UNSIGNED) for start, size in topic_places(raw)]
    return [admit(play.run.clock, tagged(2, raw)) for raw in raws] + [advertise(topic=topic) for topic in r.sample(topics, 2)] \
        + [why(r.randrange(2), who + seqno, topic) for who, seqno in senders for topic in topics[-2:]]


def some_unwanted(r, names):
    """A second body: mostly ids that a request may name, in IDONTWANTs; or others, or something wrong."""
    how = r.randrange(24)
    if how < 3:
        return b""
    if how == 3:
        return declining_body(r)
    if how == 4:
        return wants(*r.sample(names, min(len(names), 3)))
    entries = [dont(*[r.choice(names) if r.randrange(6) else traces.near(r, r.choice(names)) for _ in range(r.choice((0, 1, 1, 2, 3, 6)))])
               for _ in range(r.choice((1, 1, 2, 3)))]
    at = r.randrange(len(entries) + 1)
    body = control(*entries[:at]) + r.choice((b"", tagged(1, b""), wants(names[0]))) + (control(*entries[at:]) if at < len(entries) else b"")
    if how == 5:
        return body + bytes.fromhex(r.choice(EDITION_ROWS)[0])
    return damaged(r, body) if how == 6 else body


def editioned(r, step, names):
    """An admit, an ask or a serve in some edition, sometimes with the field that 1.2 adds in its body; serve with a second body."""
    how = r.randrange(40)
    if how < 9:
        step = (*step[:-1], step[-1] + (declining_body(r) if how == 0 else declines(*r.sample(names, min(len(names), 2)))))
    elif how == 9:
        step = (*step[:-1], bytes.fromhex(r.choice(EDITION_ROWS)[0]) + step[-1])
    return in_edition(r.choice(EDITIONS), step, some_unwanted(r, names))


def with_flags(r, step):
    """Settings with flags; other steps as they are."""
    return ("flagged", *step[1:], r.choice((0, 1, 1, 1, 2, 3, 4, 65535))) if step[0] == "set" else step


def grouped(r, play, step):
    """A body with groups, mostly where they are skipped; other steps as they are."""
    often = r.randrange(30) < (20 if skips_groups(play.run.cache.flags) else 1)
    if step[0] not in EDITIONED or len(step[-1]) > ROOM - 2000 or not often:
        return step
    how = r.randrange(20)
    body = with_groups(r, step[-1]) if how > 1 else step[-1] + grouped_body(r) if how else bytes.fromhex(r.choice(GROUP_ROWS + MORE_GROUP_ROWS)[0]) + step[-1]
    return (*step[:-1], body) if len(body) < ROOM else step


def history(r):
    """A random history of a trace with any rooms, in which numbers are set and other lengths are lent, with a look at the state now and then. In half of
    them flags are among the settings, and many messages have no signature, or groups where these are skipped. A third of the bodies come in an edition."""
    names, topics = caches.names(r), traces.some_topics(r)
    flagged = r.randrange(2) == 0
    if flagged:
        names += [(r.choice((*KEYLESS, HASHED)), b"d") for _ in range(r.randrange(3))]
    steps = traces.some_calls(r, names, topics)
    if flagged:
        steps = [with_flags(r, step) for step in traces.loosely(r, steps)]
    settings = list(steps[0])
    settings[4] = r.choice((settings[4], settings[4], 16, 63, 64))
    if flagged:
        settings[5] = r.choice((0, 1, 1, 1, 2, 3, 3))
    pool = [(A, b"b"), (HASHED, b"c")] + names
    play = Play(tuple(settings))

    def calls(n):
        got = r.sample(steps[1:], min(n, len(steps) - 1)) + ([some_alone(r, pool)] if r.randrange(3) == 0 else [])
        return [wide(step) for step in got if step[0] not in ("set", "flagged")] + [some_why(r, names, topics)]

    ids = traces.named_by(pool)
    for step in steps[1:]:
        step = grouped(r, play, step)
        step = some_room(r, play, step) if step[0] in ROOMED else step
        play.add(editioned(r, step, ids) if step[0] in EDITIONED and len(step[-1]) < ROOM and r.randrange(3) == 0 else step)
        how = r.randrange(16)
        if how == 0:
            play.add(STATE)
        elif how == 1:
            play.add(some_alone(r, pool))
        elif how == 2:
            harm(r, play, calls)
        elif how == 3:
            play.add(*some_topics(r, play))
        elif how < 8:
            play.add(some_why(r, names, topics))
    return play.add(STATE).steps


def histories(r, count):
    return then_random(r, count, (named(), of_traces()), history)
