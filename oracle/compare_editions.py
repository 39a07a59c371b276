#!/usr/bin/env python3
"""Compares the calls of the program `inspect` that take a dialect with the Rust, in edition 1.1, and with a model, in 1.2.

    oracle/compare_editions.py BINARY [--seed N] [--count N]

BINARY is target/bin/inspect, after `tools/build inspect`. The bodies are those about the field that 1.2
adds to a control: every entry of up to two bytes, good ones and damaged ones, entries beside one
another, ids of all lengths, 510 to 600 records, sizes about the largest; some of those of
compare_decode.py and compare_write.py; and --count random ones, most of which have that field
(bodies.py). Each is decoded and encoded; sign bytes and ids are asked for messages 0 and 1, the last
one and the one after it. That is done three times: by kinds 1 to 4, by 21 to 24 in 1.1, whose lines
must be the Rust's (the place behind a refusal is that of places.py), and by 21 to 24 in 1.2, whose
lines must be those of the model, editions.py.

The model is held to the Rust, too: read in 1.1, it must have the Rust's lines. And of what the program
printed it is asked what is proved of the editions: where no control has a field 5 with a length both
give the same lines, and what 1.2 accepts 1.1 accepts. Then come runs that end early, whose texts are
written here. Prints the counts, and the first differences; the exit status is 0 where there are none. It
fails, too, where a refusal was not met in each message that it can be in, in 1.2.
"""

import functools

import bodies
import editions
import places
import wire
from compare_decode import compare_all, enclosed, groups, run
from oracle import PATH, hexed
from places import V1_1, V1_2

LEAST = 1 + wire.PLACE["sign"]  # bytes before a body in the longest content


def source(r, count):
    return (body for body in bodies.of_editions(r, count) if len(body) <= wire.MAX_CONTENT - LEAST)


def cases(body, got):
    """The cases of a body; `got` is what bodies.py made of the Rust's answer to `writes`."""
    return [("decode", body, 0)] + [case for case, _ in bodies.write_cases(body, got)]


def rust_lines(case, decoded, got):
    return bodies.answer(case[1], decoded) if case[0] == "decode" else [bodies.write_line(case[0], case[2], got)]


def told_in(first):
    """What a first line tells, for the counts."""
    words = first.split(" ")
    if words[1] != "refused":
        return "%s %s" % (words[0], "ok" if words[0] == "decode" else "empty" if words[1] == "0" else "bytes")
    return " ".join(words[:3])


def compare(binary, given, folder, counts, differ):
    """One run of each side."""
    decoded = run([PATH], (("decode %s\n" % hexed(body)).encode() for body in given), folder)
    written = run([PATH], (("writes %s\n" % hexed(body)).encode() for body in given), folder)
    asked = []  # (the name of a run, case, dialect, lines)
    for body, told, writes in zip(given, decoded, written):
        got, read = bodies.written(body, writes), functools.lru_cache(None)(editions.read)
        for case in cases(body, got):
            older, newer = rust_lines(case, told, got), editions.lines(case, V1_2, read)
            asked += [("1.1", case, None, older), ("1.1 by its number", case, V1_1, older), ("1.2", case, V1_2, newer)]
            counts["1.1: " + told_in(older[0])] += 1
            counts["1.2: " + told_in(newer[0])] += 1
            if editions.lines(case, V1_1, read) != older:
                differ.append((len(body), body, ["the Rust", *older], ["the model", *editions.lines(case, V1_1, read)]))
            if case[0] == "decode":
                watch(newer, counts)
    printed = groups(run(binary, (wire.record(case, dialect) for _, case, dialect, _ in asked), folder))
    answers = []
    for n, (name, case, _, expected) in enumerate(asked, 1):
        got = next(printed, ["nothing"])
        answers.append([got[0].partition(" ")[2], *got[1:]])
        if got != ["%d %s" % (n, expected[0]), *expected[1:]]:
            differ.append((len(case[1]), case[1], [name, *expected], got))
    for got in printed:
        differ.append((0, b"after the last record", [], got))
    laws([case for _, case, _, _ in asked[::3]], answers[1::3], answers[2::3], counts, differ)


def watch(lines, counts):
    """Counts the records and the places of a body in 1.2."""
    words = lines[0].split(" ")
    if words[1] == "refused" and " at " in lines[0]:
        counts["1.2: " + enclosed(words[2], lines[0].partition(" in ")[2])] += 1
    for line in lines[1:]:
        counts["1.2:   " + line.split(" ")[2]] += 1


def laws(asked, older, newer, counts, differ):
    """What holds between the lines that were printed for 1.1 and for 1.2."""
    for case, one, other in zip(asked, older, newer):
        alike = len(case[1]) > wire.MAX_BODY or not editions.differ(case[1])
        counts["alike in both editions" if alike else "with the field that 1.2 adds"] += 1
        if alike and one != other:
            differ.append((len(case[1]), case[1], ["alike in both editions", *one], other))
        if " refused " in one[0] and " refused " not in other[0]:
            differ.append((len(case[1]), case[1], ["accepted in 1.2, so in 1.1", *one], other))


def met_all(counts):
    """Asserts that each refusal was met at each place that it can have in 1.2."""
    wanted = {"1.2: " + enclosed(number, " ".join(map(str, path))) for number in places.OF_A_BODY
              for path in (places.TEXT_PATHS if number == places.NOT_UTF8 else places.PATHS[V1_2])}
    missing = {name for name in wanted if not counts[name]}
    assert not missing and counts["1.2:   idontwant"], missing


# Bodies of the scope's table: what each is written as, and its records, in 1.1 and in 1.2.
ROWS = (
    ("1a032a0180", ("2 1a00", []), "refused 1 at 4 in 3 5"),
    ("1a052a030a0241", ("2 1a00", []), "refused 4 2 2 1 at 6 in 3 5"),
    ("1a052a030a01ff", ("2 1a00", []), ("7 1a052a030a01ff", ["idontwant", "id =ff"])),
    ("1a072a030a01412200", ("4 1a022200", ["prune - -"]), ("9 1a0722002a030a0141", ["idontwant", "id =41", "prune - -"])),
    ("1a022a001a022200", ("4 1a022200", ["prune - -"]), ("6 1a0422002a00", ["idontwant", "prune - -"])),
    ("1a022807", ("2 1a00", []), ("2 1a00", [])),
    ("1a042a021007", ("2 1a00", []), ("4 1a022a00", ["idontwant"])),
)


def row_text(told):
    """The two lines and the records of a row."""
    if isinstance(told, str):
        return "1 decode %s\n2 encode %s\n" % (told, told)
    written, records = told
    return "1 decode ok %d control\n%s2 encode %s\n" % (len(records), "".join("  %s\n" % one for one in records), written)


def endings():
    """(what it is, input, text): runs with an ending of their own."""
    most = wire.MAX_CONTENT
    for text, *told in ROWS:
        body = bytes.fromhex(text)
        for edition, one in enumerate(told):
            yield text, b"".join(wire.record((call, body, 0), edition) for call in ("decode", "encode")), row_text(one)
    for ids, told in ((511, "ok 512 control\n  idontwant\n" + "  id =\n" * 511), (512, "refused 11 513\n")):
        body = bodies.tagged(3, bodies.tagged(5, b"\x0a\x00" * ids))
        yield "%d ids in 1.1" % ids, wire.record(("decode", body, 0), V1_1), "1 decode ok 0 control\n"
        yield "%d ids in 1.2" % ids, wire.record(("decode", body, 0), V1_2), "1 decode " + told
    # The signature of a message is its field 5, and is never signed.
    message = bytes.fromhex("120b0a01411a01422a014e2200")
    for dialect in (None, V1_1, V1_2):
        yield "a signature, %s" % dialect, wire.record(("sign", message, 0), dialect), "1 sign 22 %s0a01411a01422200\n" % b"libp2p-pubsub:".hex()
        yield "an id, %s" % dialect, wire.record(("id", message, 0), dialect), "1 id 2 4142\n"
    for call, kind in wire.IN_DIALECT.items():
        least = 1 + wire.PLACE.get(call, 0)
        for dialect in (4, 5, 6, 127, 128, 254, 255):
            yield "%s in dialect %d" % (call, dialect), wire.record(("encode", b"", 0)) + wire.record((call, b"", 0), dialect), "1 encode 0\nbad\n"
        for n in range(least):
            for byte in (b"\x00", b"\x01"):
                yield "%s with %d bytes" % (call, n), wire.header(n, kind) + byte * n + wire.header(0, 2), "bad\n"
        for dialect in (V1_1, V1_2):
            empty = {"decode": "ok 0 plain", "encode": "0", "walk": "end"}.get(call, "refused 20 0")
            yield "%s of an empty body" % call, wire.record((call, b"", 0), dialect), "1 %s %s\n" % (call, empty)
            content = bytes([dialect]) + bytes(most - 1)
            yield "%s, the longest content" % call, wire.header(most, kind) + content, "1 %s refused 10 %d\n" % (call, most - least)
        yield "%s, a longer one" % call, wire.header(most + 1, kind) + bytes(most + 1), "long\n"
        yield "%s, cut" % call, wire.header(4, kind) + bytes(3), "bad\n"
    for kind in (12, 20, 26, 27, 0x0115, 0x1500):
        yield "kind %d" % kind, wire.header(3, kind) + bytes(3), "bad\n"
    body = bytes.fromhex("1a072a030a01412200")
    yield "one after the other", b"".join(wire.record(("encode", body, 0), dialect) for dialect in (V1_2, None, V1_1, V1_2)), \
        "1 encode 9 1a0722002a030a0141\n2 encode 4 1a022200\n3 encode 4 1a022200\n4 encode 9 1a0722002a030a0141\n"


if __name__ == "__main__":
    compare_all(__doc__, source, compare, endings, met_all, 40000)
