#!/usr/bin/env python3
"""Makes stdin and stdout in crates/why.

    oracle/make_why.py [BINARY]

The input asks why an id is not offered, of a node that is started and of one that is given
as bytes, and ends in `bad`. The answers in stdout are written here by hand, beside the records; `rt ci`
holds the program to them. With BINARY, target/bin/why, they are compared at once.
"""

import os
import sys

import nodes
import programs
from bodies import group, tagged
from caches import NAME, U, X, plain, x_with
from compare_states import printed_by
from oracle import HERE
from peers import ID
from records import Records
from traces import admit, advertise, ask, beat, body_of, serve

SEEN_ROW, MAX_SEEN = 129, 256
CACHE_ROW, MAX_MESSAGES, ID_ROW, TOPICS = 4096, 64, 128, 4
NODE_SIZE = 12440
MAX_CONTENT = NODE_SIZE + MAX_SEEN * SEEN_ROW + MAX_MESSAGES * CACHE_ROW

RECORDS = Records({**nodes.FORM, "why": (12, (2, 2), True), "gateway": (13, (), True)}, MAX_CONTENT)


def why(windows, name=NAME, topic=b"t"):
    return ("why", windows, len(name), name + topic)


# --- a gateway as bytes: crates/stored/specs/Layout.antt -----------------------------

def column(values, width, rows):
    """A number for each row, and 0 for those that are not in use."""
    return b"".join(n.to_bytes(width, "little") for n in [*values, *[0] * (rows - len(values))])


def rows_of(values, width, rows):
    return b"".join(one.ljust(width, b"\x00") for one in [*values, *[b""] * (rows - len(values))])


def gateway(ttl, max_seen, clock, history_len, max_messages, seen=(), cached=(), flags=0):
    """A node's bytes and its two stores. An id seen is (marked id, expiry), a message (id, bytes, age of its window, place of its one topic, length
    of that), both oldest first."""
    head = [ttl, max_seen, clock, 0, len(seen), history_len, max_messages, len(cached), 0, len(cached)]
    node = b"".join((
        column(head, 8, len(head)),
        column([expiry for _, expiry in seen], 8, MAX_SEEN),
        column(range(len(cached)), 8, MAX_MESSAGES),
        column([len(raw) for _, raw, *_ in cached], 2, MAX_MESSAGES),
        column([len(name) for name, _ in seen], 1, MAX_SEEN),
        column([age for _, _, age, *_ in cached], 1, MAX_MESSAGES),
        column([len(name) for name, *_ in cached], 1, MAX_MESSAGES),
        rows_of([name for name, *_ in cached], ID_ROW, MAX_MESSAGES),
        column([1 for _ in cached], 1, MAX_MESSAGES),
        column([n for *_, place, _ in cached for n in (place, 0, 0, 0)], 2, MAX_MESSAGES * TOPICS),
        column([n for *_, size in cached for n in (size, 0, 0, 0)], 2, MAX_MESSAGES * TOPICS),
        column([flags], 8, 1)))
    assert len(node) == NODE_SIZE
    return node + rows_of([name for name, _ in seen], SEEN_ROW, max_seen) + rows_of([raw for _, raw, *_ in cached], CACHE_ROW, max_messages)


def holding(age, raw=plain(X), name=NAME, mark=b"\x01", flags=0):
    """A gateway of four windows that holds a message, X, in the window of this age."""
    return gateway(1000, 2, 500, 4, 2, [(mark + name, 1400)], [(name, raw, age, raw.index(b"\x22\x01t") + 2, 1)], flags)


# --- the records and their lines -----------------------------------------------------

STARTED = [
    (("set", 1000, 4, 2, 4), "ok"),
    (admit(100, body_of(X)), "new"),
    (why(1), "listed"),
    (why(0), "window 0"),
    (why(1, topic=b"u"), "topic"),
    (why(0, topic=b"u"), "topic"),
    (why(1, b"\x01" + NAME), "missing"),
    (why(1, b""), "missing"),
    (why(1, topic=b"\xff"), "topic"),
    (why(1, topic=b""), "topic"),
    (why(1, topic=b"x" * 1024), "topic"),
    (why(1, b"z", b"x" * 1025), "refused 29"),
    (why(1, bytes(129)), "missing"),
    (why(65535), "listed"),
    (beat(1100), "ok"),
    (why(1), "window 1"),
    (why(0), "window 1"),
    (why(2), "listed"),
    (beat(1101), "ok"),
    (why(2), "missing"),
]

# A gateway that is refused leaves the one before it as it was: one byte less than its maxima say, and a window past the last.
GIVEN = [
    (admit(1101, body_of(X)), "new"),
    (("gateway", holding(2)[:-1]), "refused 41"),
    (("gateway", holding(4)), "refused 42"),
    (why(1), "listed"),
    (("gateway", holding(2)), "ok"),
    (why(2), "window 2"),
    (why(3), "listed"),
    (why(3, topic=b"u"), "topic"),
    (advertise(2), "0"),
    (advertise(3), "48 1a2e0a2c0a01741227%s01" % ID.hex()),
    (admit(501, body_of(X)), "dup"),
    (("gateway", gateway(0, 0, 0, 1, 0)), "ok"),
    (why(3), "missing"),
]

# A gateway that was saved when any sender was taken, and holds a message of one that is no peer id. What it has seen is not looked at so.
OLD = b"A\x01"
SAVED_BEFORE = [
    (("gateway", holding(2, plain(x_with(from_=[b"A"])), OLD)), "refused 42"),
    (why(3), "missing"),
    (admit(1, body_of(x_with(from_=[b"A"]))), "refused 34"),
    (admit(1, body_of(x_with(key=[b"\xff"]))), "refused 35"),
    (admit(1, body_of(x_with(from_=[b"\x00\x00"]))), "refused 36"),
    (("gateway", gateway(1000, 2, 500, 4, 2, [(b"\x01" + OLD, 1400)])), "ok"),
    (why(3, OLD), "missing"),
    (admit(501, body_of(X)), "new"),
    (why(3), "listed"),
]

# A gateway that allows unsigned messages, and holds one. With other flags it is none; settings of a trace allow none, and its offer is asked for where only
# the unsigned form is seen.
TOLD = "1a2b12290a27%s01" % ID.hex()
UNSIGNED = [
    (("gateway", holding(2, plain(U), mark=b"\x00")), "refused 42"),
    (("gateway", holding(2, plain(U), mark=b"\x00", flags=4)), "refused 42"),
    (("gateway", holding(2, plain(X), flags=4)), "refused 42"),
    (("gateway", holding(2, plain(U), mark=b"\x00", flags=1)), "ok"),
    (why(3), "listed"),
    (ask(NAME), "0"),
    (admit(501, body_of(U)), "dup"),
    (admit(501, body_of(X), 0, 0), "refused 27"),
    (admit(501, body_of(X)), "new"),
    (serve(NAME), "48 %s 1 0" % body_of(U).hex()),
    (("gateway", gateway(1000, 2, 500, 4, 2, [(b"\x00" + NAME, 1400)])), "ok"),
    (ask(NAME), "45 " + TOLD),
    (("gateway", gateway(1000, 2, 500, 4, 2, [(b"\x00" + NAME, 1400)], (), 1)), "ok"),
    (ask(NAME), "0"),
    (("set", 1000, 4, 2, 4), "ok"),
    (admit(100, body_of(U)), "refused 25"),
]

# A gateway that skips groups, and holds a message that has some, with a topic in one of them. Under other flags it is none; settings of a trace skip none.
GROUPED = group(4, tagged(4, b"u")) + plain(X) + group(1)
G = tagged(2, GROUPED)
SKIPPING = [
    (("gateway", holding(2, GROUPED)), "refused 42"),
    (("gateway", holding(2, GROUPED, flags=1)), "refused 42"),
    (("gateway", holding(2, GROUPED, flags=6)), "refused 42"),
    (("gateway", holding(2, GROUPED, flags=2)), "ok"),
    (why(3), "listed"),
    (why(3, topic=b"u"), "topic"),
    (serve(NAME), "121 %s 1 0" % G.hex()),
    (admit(501, G), "dup"),
    (admit(501, G[:-1] + b"\x14"), "refused 14"),
    (admit(501, G + b"\x0b"), "refused 16"),
    (("ask", b"\x0b" * 33), "refused 15"),
    (("gateway", holding(2, flags=3)), "ok"),
    (why(3), "listed"),
    (("set", 1000, 4, 2, 4), "ok"),
    (admit(100, G), "refused 5"),
]

# The id is longer than what follows.
CUT = ("why", 1, 3, NAME[-2:])


def main():
    rows = STARTED + GIVEN + SAVED_BEFORE + UNSIGNED + SKIPPING
    data = RECORDS.records([step for step, _ in rows] + [CUT])
    lines = ["%d %s %s" % (n, step[0], answer) for n, (step, answer) in enumerate(rows, 1)] + ["bad"]
    if len(sys.argv) > 1:
        assert printed_by(programs.running(sys.argv[1], "why"), data) == lines + [""]
    folder = os.path.join(HERE, "../crates/why")
    with open(os.path.join(folder, "stdin"), "wb") as out:
        out.write(data)
    with open(os.path.join(folder, "stdout"), "w") as out:
        out.writelines(line + "\n" for line in lines)
    print("why: %d records, %d bytes" % (len(rows) + 1, len(data)))


if __name__ == "__main__":
    main()
