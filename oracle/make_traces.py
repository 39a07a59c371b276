#!/usr/bin/env python3
"""Makes stdin and stdout in crates/trace, in crates/trace_long and in crates/trace_bad.

    oracle/make_traces.py

The first is the scope's sample, with the scope's lines. The second plays that, too, a
history that meets every refusal that a trace can show, the rows about senders (peers.py),
the shorter ones of the fixed histories and some random ones (traces.py, seed below), and
ends in `long`. The third has pairs of nodes that catch up with each other, both
ways, until both offer the same bytes, and ends in `bad`. The answers in stdout of these two
are the model's (nodes.py), never the program's; `rt ci` holds the program to them.
"""

import os
import random

import nodes
import peers
import traces
from caches import grown, x_with
from oracle import HERE
from peers import A, B, HASHED, HASHES, ID, KEY
from records import header

SEED = 24
MOST_BYTES = 200000
LONG_BYTES = 180000
SHORT = 2000  # bytes of a fixed history that is taken
SHORT_PAIR = 12000
RANDOM_PAIRS = 6


# The scope's, for `traces.sample`.
SAMPLE = ["1 set ok", "2 admit new", "3 advertise 48 1a2e0a2c0a01741227%s01" % ID.hex(), "4 admit dup", "5 beat ok", "6 advertise 0", "7 admit refused 31",
          "8 admit new"]


def make_sample():
    data = nodes.records(traces.sample())
    assert nodes.expected(data) == SAMPLE
    write("trace", data, SAMPLE)


def save(name, steps, end, after):
    """A run of these steps that ends with `end`, because of the bytes after them."""
    data = nodes.records(steps) + after
    lines = nodes.expected(data)
    assert len(data) <= MOST_BYTES, len(data)
    assert len(lines) == len(steps) + 1 and lines[-1] == end
    write(name, data, lines)
    return [line.split(" ") for line in lines[:-1]]


def write(name, data, lines):
    folder = os.path.join(HERE, "../crates", name)
    with open(os.path.join(folder, "stdin"), "wb") as out:
        out.write(data)
    with open(os.path.join(folder, "stdout"), "w") as out:
        out.writelines(line + "\n" for line in lines)
    print("%s: %d lines, %d bytes" % (name, len(lines), len(data)))


def make_long():
    r = random.Random(SEED)
    steps = traces.sample() + traces.each_refusal() + traces.senders(peers.SHORT_ROWS)
    for one in list(traces.named())[2:]:
        steps += one if len(nodes.records(one)) <= SHORT else []
    while len(nodes.records(steps)) < LONG_BYTES:
        one = traces.history(r)
        steps += one if len(nodes.records(one)) <= 3 * SHORT else []
    words = save("trace_long", steps, "long", header(nodes.MAX_CONTENT + 1, 6)[:4])
    met = {(call, int(answer[1])) for _, call, *answer in words if answer[0] == "refused"}
    assert met == {(call, number) for call, numbers in nodes.REFUSALS.items() for number in numbers}


def notice(who, seqno, topic, size):
    return traces.body_of(grown(x_with(from_=[who], seqno=[bytes([seqno])], topic=[topic], key=[KEY] if who in HASHES else []), size))


def pairs():
    """(the steps that make each of two nodes, the topics in which they catch up)."""
    small = [notice((A, B, HASHED)[n % 3], n, b"ct" if n % 4 else b"mr", 160 + 9 * n) for n in range(8)]
    large = [notice(B, n, b"ct", size) for n, size in enumerate((4096, 120, 4095))]

    def node(settings, now, bodies, beats=0):
        return [("set", *settings)] + [traces.admit(now + n, body) for n, body in enumerate(bodies)] + [traces.beat(now + 9)] * beats

    yield node((3600, 16, 4, 8), 1000, small[:6]), node((3600, 16, 4, 8), 1000, small[4:5]), [b"ct", b"mr"]
    yield node((3600, 8, 3, 8), 1000, small[1::2], 2), node((7200, 256, 16, 8), 50, small[::2], 1), [b"ct", b"mr"]
    yield node((3600, 16, 4, 8), 1000, large[:2]), node((3600, 16, 4, 8), 1000, large[2:]), [b"ct"]
    yield node((3600, 16, 4, 8), 0, small), node((3600, 16, 4, 8), 0, []), [b"mr"]


def caught_up(one, other, topics, now):
    """The steps of the rounds; the last offers of both nodes are looked at here."""
    steps = []
    for topic in topics:
        more, one, other = traces.both_ways(one, other, topic, 16, now)
        offers = {traces.told(node, traces.advertise(16, topic)) for node in (one, other)}
        assert len(offers) == 1 and offers != {"0"}
        steps += more
    return steps


def make_bad():
    r = random.Random(SEED)
    steps = [step for one, other, topics in pairs() for step in caught_up(one, other, topics, 2000)]
    for _ in range(RANDOM_PAIRS):
        one = traces.catch_up(r)
        steps += one if len(nodes.records(one)) <= SHORT_PAIR else []
    # The host's word is neither 0 nor 1; what follows is not answered.
    after = bytearray(nodes.record(traces.admit(2000, notice(A, 1, b"ct", 120))))
    after[6 + 10] = 2
    save("trace_bad", steps, "bad", bytes(after) + nodes.record(traces.beat(3000)))


def main():
    make_sample()
    make_long()
    make_bad()


if __name__ == "__main__":
    main()
