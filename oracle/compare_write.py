#!/usr/bin/env python3
"""Compares encode, sign and id of the program `inspect` with the Rust, by running both.

    oracle/compare_write.py BINARY [--seed N] [--count N]

BINARY is target/bin/inspect, after `tools/build inspect`. The bodies are those of
compare_decode.py, then messages with from and seqno of lengths about the
limits, and prunes with backoffs about the values where a varint grows by a byte,
so that lengths of one byte to ten are written. Each body is encoded; sign bytes
and ids are asked for message 0, message 1, the last one and the one after it.
Refusals 10, 11 and the lengths of 22 are the scope's own; the place behind a refusal
1 to 7 is held to the finder of places.py. Prints the counts, and the first differences; the exit status is 0 where there are none.
"""

import bodies
import wire
from compare_decode import compare_all, run
from oracle import PATH, hexed


def source(r, count):
    yield from bodies.bodies(r, count)
    yield from bodies.id_bodies()
    yield from bodies.backoff_bodies()
    yield bytes(wire.MAX_CONTENT - wire.PLACE["sign"])
    for _ in range(count // 8):
        yield bodies.messages_body(r)


def compare(binary, given, folder, counts, differ):
    """One run of each side."""
    answers = run([PATH], (("writes %s\n" % hexed(body)).encode() for body in given), folder)
    asked = []
    for body, told in zip(given, answers):
        asked.extend(bodies.write_cases(body, bodies.written(body, told)))
    printed = run(binary, (wire.record(case) for case, _ in asked), folder)
    if printed[-1] == "":
        printed.pop()
    counts["lines"] += len(asked)
    for n, (case, told) in enumerate(asked, 1):
        words = told.split(" ", 3)
        counts[" ".join(words[:3] if words[1] == "refused" else (words[0], "empty" if words[1] == "0" else "bytes"))] += 1
        expected = "%d %s" % (n, told)
        got = printed[n - 1] if n <= len(printed) else "nothing"
        if got != expected:
            call, body, index = case
            differ.append((len(body), body, "%s at %d: %s" % (call, index, expected), got))
    for got in printed[len(asked):]:
        differ.append((0, b"", "nothing after the last record", got))


def endings():
    """(what it is, input, text): runs with an ending of their own."""
    most, prefix = wire.MAX_CONTENT, b"libp2p-pubsub:".hex()
    one = bytes.fromhex("12060a01411a0142")
    many = b"".join(bodies.tagged(2, b"\x0a\x02" + k.to_bytes(2, "big") + b"\x1a\x01s") for k in range(512))
    yield "encode nothing", wire.header(0, 2), "1 encode 0\n"
    for kind, call in ((3, "sign"), (4, "id")):
        for n in (0, 1):
            yield "%s with %d bytes" % (call, n), wire.header(n, kind) + bytes(n), "bad\n"
            yield "%s with %d bytes after one" % (call, n), wire.record(("encode", one, 0)) + wire.header(n, kind) + bytes(n) \
                + wire.header(0, 2), "1 encode 8 %s\nbad\n" % one.hex()
        for index in (0, 1, 256, 65535):
            yield "%s of an empty body" % call, wire.record((call, b"", index)), "1 %s refused 20 0\n" % call
        yield "%s, the longest content" % call, wire.header(most, kind) + bytes(most), "1 %s refused 10 %d\n" % (call, most - 2)
        yield "%s, a longer one" % call, wire.header(most + 1, kind) + bytes(most + 1), "long\n"
        yield "%s, cut" % call, wire.header(4, kind) + bytes(3), "bad\n"
        for index in (1, 255, 256, 257, 258, 511, 512, 513, 65535):
            name = index.to_bytes(2, "big").hex()
            text = "refused 20 512" if index > 511 else "21 %s0a02%s1a0173" % (prefix, name) if kind == 3 else "3 %s73" % name
            yield "%s at %d" % (call, index), wire.record((call, many, index)), "1 %s %s\n" % (call, text)
    yield "encode, the longest content", wire.header(most, 2) + bytes(most), "1 encode refused 10 %d\n" % most
    yield "encode, a longer one", wire.header(most + 1, 2) + bytes(most + 1), "long\n"
    yield "encode, cut", wire.header(4, 2) + bytes(3), "bad\n"
    yield "one after the other", b"".join(wire.record((call, one, 0)) for call in ("id", "sign", "encode", "id")), \
        "1 id 2 4142\n2 sign 20 %s0a01411a0142\n3 encode 8 %s\n4 id 2 4142\n" % (prefix, one.hex())


if __name__ == "__main__":
    compare_all(__doc__, source, compare, endings)
