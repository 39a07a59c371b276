#!/usr/bin/env python3
"""Compares the calls of the program `inspect` that take a dialect with a model where groups are skipped, and with the Rust where they are refused.

    oracle/compare_groups.py BINARY [--seed N] [--count N]

BINARY is target/bin/inspect, after `tools/build inspect`. The bodies are those with groups (bodies.py): all
short ones of an alphabet, at the top and in every message, groups of known numbers beside the fields of
each message, depths about the most, each refusal in and about a group, sizes and records about the
largest; some of those of compare_decode.py; and --count random ones, most of which have groups. Each is
decoded and encoded; sign bytes and ids are asked for messages 0 and 1, the last one and the one after it;
and it is walked from its start, step by step, and from some other places. All that is done in the four
dialects: by kinds 21 to 25, with groups refused in 1.1, whose lines must be the Rust's, and in 1.2, whose
lines must be those of editions.py; and with groups skipped in both, whose lines must be those of
groups.py. The place behind a refusal 1 to 7 is also held to the finder of places.py, and 14 to 16 have none.

The model is held to the Rust, too, where groups are refused. And of what the program printed it is asked
what is proved of the modes: what the first accepts the second accepts, in the same lines, and they differ
only where the first refuses a type 3 or 4. Then come the rows of the scope, and runs that end early, whose
texts are written here. Prints the counts, and the first differences; the exit status is 0 where there are none. It
fails, too, where a refusal was not met in each message that it can be in.
"""

import functools

import bodies
import editions
import groups
import places
import wire
from compare_decode import compare_all, enclosed, groups as parted, run
from oracle import PATH, hexed
from places import DIALECTS, GROUPS, V1_1, V1_2, edition_of, find, find_field, skips_groups, with_place

LEAST = 1 + wire.PLACE["walk"]  # bytes before a body in the longest content
STEPS = 4  # of a walk from the start


def source(r, count):
    return (body for body in bodies.of_groups(r, count) if len(body) <= wire.MAX_CONTENT - LEAST)


def walked(body):
    """From where a body is walked: the places that the walk in the second mode comes to, some bytes beside them, its end and behind it."""
    found, at = [0], 0
    for _ in range(STEPS):
        try:
            step = groups.step(body, at, GROUPS)
        except groups.Refused:
            break
        if step is None:
            break
        at = step[3]
        found.append(at)
    return sorted({*found, 1, found[-1] + 1, max(0, len(body) - 1), len(body), len(body) + 1})[:8]


def cases(body, count):
    """The cases of a body with so many messages."""
    at = sorted({0, 1, max(0, count - 1), count})
    return [("decode", body, 0), ("encode", body, 0)] + [(call, body, index) for index in at for call in ("sign", "id")] + [("walk", body, place) for place in walked(body)]


def messages_in(body, dialect, read):
    try:
        return len(read(body, dialect).each("publish"))
    except groups.Refused:
        return 0


def rust_lines(case, decoded, got, walk):
    if case[0] == "decode":
        return bodies.answer(case[1], decoded)
    if case[0] == "walk":
        return [wire.answer(wire.command(case), walk)]
    return [bodies.write_line(case[0], case[2], got)]


def told_in(first):
    """What a first line tells, for the counts."""
    words = first.split(" ")
    return " ".join(words[:3]) if words[1] == "refused" else words[0] + (" end" if words[1] == "end" else " read")


def held_to_places(case, first, dialect):
    """Whether the finder of places has the refusal of a line."""
    call, body, at = case
    words = first.split(" ")
    if words[1] != "refused" or int(words[2]) not in (*places.OF_A_BODY, *places.OF_GROUPS):
        return True
    front, _ = places.parted(" ".join(words[1:]))
    return " ".join(words[1:]) == (with_place(front, find_field, body, at, dialect) if call == "walk" else with_place(front, find, body, dialect))


def named(dialect):
    return "%s%s" % ("1.2" if edition_of(dialect) else "1.1", ", groups" if skips_groups(dialect) else "")


def compare(binary, given, folder, counts, differ):
    """One run of each side."""
    decoded = run([PATH], (("decode %s\n" % hexed(body)).encode() for body in given), folder)
    written = run([PATH], (("writes %s\n" % hexed(body)).encode() for body in given), folder)
    listed = []  # (body, case) of every case
    reads = functools.lru_cache(8)(groups.read)
    for body in given:
        listed += [case for case in cases(body, max(messages_in(body, dialect, reads) for dialect in DIALECTS))]
    steps = iter(run([PATH], ((wire.command(case) + "\n").encode() for case in listed if case[0] == "walk"), folder))
    rust = {body: (told, bodies.written(body, writes)) for body, told, writes in zip(given, decoded, written)}
    asked = []
    for case in listed:
        told, got = rust[case[1]]
        first = rust_lines(case, told, got, next(steps) if case[0] == "walk" else None)
        for dialect in DIALECTS:
            model = groups.lines(case, dialect, reads)
            lines = first if dialect == V1_1 else model
            asked.append((case, dialect, lines))
            counts["%s: %s" % (named(dialect), told_in(lines[0]))] += 1
            if model != lines:
                differ.append((len(case[1]), case[1], ["the Rust", *lines], ["the model", *model]))
            if not held_to_places(case, lines[0], dialect):
                differ.append((len(case[1]), case[1], [named(dialect), lines[0]], ["the finder of places has another"]))
            if case[0] == "decode" and skips_groups(dialect):
                watch(lines, dialect, counts)
    printed = parted(run(binary, (wire.record(case, dialect) for case, dialect, _ in asked), folder))
    answers = []
    for n, (case, dialect, expected) in enumerate(asked, 1):
        got = next(printed, ["nothing"])
        answers.append([got[0].partition(" ")[2], *got[1:]])
        if got != ["%d %s" % (n, expected[0]), *expected[1:]]:
            differ.append((len(case[1]), case[1], [named(dialect), *expected], got))
    for got in printed:
        differ.append((0, b"after the last record", [], got))
    laws(listed, answers, counts, differ)


def watch(lines, dialect, counts):
    """Counts the places of a body, and in which message 14 to 16 stand: the finder knows that, though no line tells it."""
    words = lines[0].split(" ")
    if words[1] == "refused" and " at " in lines[0]:
        counts["%s: %s" % (named(dialect), enclosed(words[2], lines[0].partition(" in ")[2]))] += 1
    for line in lines[1:]:
        counts["%s:   %s" % (named(dialect), line.split(" ")[2])] += 1


def laws(listed, answers, counts, differ):
    """What holds between the lines that were printed in one mode and in the other, of each edition."""
    for case, *four in zip(listed, *(answers[dialect::len(DIALECTS)] for dialect in DIALECTS)):
        for edition in (V1_1, V1_2):
            first, second = four[edition], four[edition | GROUPS]
            alike = not groups.differ(first[0])
            counts["alike in both modes" if alike else "refused for a group in the first mode"] += 1
            if alike and first != second:
                differ.append((len(case[1]), case[1], ["alike in both modes", *first], second))


def met_all(counts):
    """Asserts that each refusal was met at each place that it can have, and 14 to 16 by every call."""
    for edition in (V1_1, V1_2):
        name = named(edition | GROUPS)
        wanted = {"%s: %s" % (name, enclosed(number, " ".join(map(str, path)))) for number in places.OF_A_BODY
                  for path in (places.TEXT_PATHS if number == places.NOT_UTF8 else places.PATHS[edition])}
        wanted |= {"%s: %s refused %d" % (name, call, number) for number in places.OF_GROUPS for call in wire.IN_DIALECT}
        missing = {one for one in wanted if not counts[one]}
        assert not missing, missing


# Of the scope's rows that are accepted where groups are skipped: what each is written as.
WRITTEN = {"0b0c": "", "1b1c": "", "83018401": "", "0b13140c": "", "0b" * 32 + "0c" * 32: "", "1a40" + "0b" * 32 + "0c" * 32: "1a00", "12020b0c": "12020b0c",
           "12080a01420b0a01410c": "12080a01420b0a01410c", "1a020b0c": "1a00", "0a050b1201ff0c": "0a00", "0b1096010c1a00": "1a00", "2a010b": ""}
PREFIX = editions.PREFIX.hex()
# Sign bytes of message 0, and a step of a walk.
SIGNED = {"12020b0c": PREFIX, "12080a01420b0a01410c": PREFIX + "0a0142"}
WALKED = (("0b1096010c1a00", 0, "1 3 1 5"), ("0b1096010c1a00", 5, "3 2 6 7"), ("0b1096010c1a00", 7, "end"), ("0b1096010c1a00", 4, "refused 14"), ("0b0c0c", 0, "1 3 1 2"),
          ("0b0c0c", 2, "refused 14"), ("1a010b0c", 0, "3 2 1 3"), ("1a010b0c", 2, "1 3 3 4"), ("0b", 0, "refused 16"), ("0b", 1, "end"), ("0c", 0, "refused 14"),
          ("0b" * 33 + "0c" * 33, 0, "refused 15"), ("0b" * 33 + "0c" * 33, 1, "1 3 2 65"), ("0b" * 32 + "03", 0, "refused 6 0 32 at 32"), ("0b0a0508", 0, "refused 4 3 5 1 at 3"))


def made(text):
    return "%d %s" % (len(text) // 2, text) if text else "0"


def row_lines():
    """(case, dialect, the line) of the scope's rows."""
    for text, first, second in places.GROUP_ROWS:
        body = bytes.fromhex(text)
        for dialect in DIALECTS:
            told = second if skips_groups(dialect) else first
            yield ("encode", body, 0), dialect, told or made(WRITTEN[text])
            if told:
                yield ("decode", body, 0), dialect, told
                yield ("sign", body, 0), dialect, told
                yield ("id", body, 0), dialect, told
            elif text in SIGNED:
                yield ("sign", body, 0), dialect, made(SIGNED[text])
    yield ("id", bytes.fromhex("12080a01420b0a01410c"), 0), GROUPS, "refused 23"
    for text, at, told in WALKED:
        for edition in (V1_1, V1_2):
            yield ("walk", bytes.fromhex(text), at), edition | GROUPS, told


def endings():
    """(what it is, input, text): runs with an ending of their own."""
    most = wire.MAX_CONTENT
    rows = list(row_lines())
    yield "the scope's rows", b"".join(wire.record(case, dialect) for case, dialect, _ in rows), \
        "".join("%d %s %s\n" % (n, case[0], told) for n, (case, _, told) in enumerate(rows, 1))
    body = bytes.fromhex("0b1096010c1a00")
    yield "one after the other", b"".join(wire.record(("walk", body, 0), dialect) for dialect in (0, 2, 1, 3, None)), \
        "1 walk refused 5 3 1 at 1\n2 walk 1 3 1 5\n3 walk refused 5 3 1 at 1\n4 walk 1 3 1 5\n5 walk refused 5 3 1 at 1\n"
    for call, kind in wire.IN_DIALECT.items():
        least = 1 + wire.PLACE.get(call, 0)
        for dialect in (4, 5, 6, 7, 127, 128, 254, 255):
            yield "%s in dialect %d" % (call, dialect), wire.record(("encode", b"", 0)) + wire.record((call, b"", 0), dialect), "1 encode 0\nbad\n"
        for n in range(least):
            for byte in (b"\x00", b"\x02"):
                yield "%s with %d bytes" % (call, n), wire.header(n, kind) + byte * n + wire.header(0, 2), "bad\n"
        for dialect in DIALECTS:
            empty = {"decode": "ok 0 plain", "encode": "0", "walk": "end"}.get(call, "refused 20 0")
            yield "%s of an empty body" % call, wire.record((call, b"", 0), dialect), "1 %s %s\n" % (call, empty)
            content = bytes([dialect]) + bytes(most - 1)
            yield "%s, the longest content" % call, wire.header(most, kind) + content, "1 %s refused 10 %d\n" % (call, most - least)
        yield "%s, a longer one" % call, wire.header(most + 1, kind) + bytes(most + 1), "long\n"
        yield "%s, cut" % call, wire.header(least + 1, kind) + bytes(least), "bad\n"
    for kind in (12, 20, 26, 27, 0x0119, 0x1900):
        yield "kind %d" % kind, wire.header(9, kind) + bytes(9), "bad\n"


if __name__ == "__main__":
    compare_all(__doc__, source, compare, endings, met_all, 20000)
