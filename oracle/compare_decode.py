#!/usr/bin/env python3
"""Compares decode of the program `inspect` with the Rust, by running both.

    oracle/compare_decode.py BINARY [--seed N] [--count N]

BINARY is target/bin/inspect, after `tools/build inspect`. The bodies are all short
ones, the rows of the scope, topics about every row of RFC 3629, bodies about
the largest size and the most records, bodies with the field that edition 1.2 adds,
which 1.1 and the Rust skip, and --count random ones (bodies.py). Every
field of every record is compared, in the order of the lent table, and every
refusal with its values; 10 and 11 are the scope's own. Of a refusal 1 to 7 the
line goes on with its place: what stands before ` at ` is held to the Rust, the rest
to the finder of places.py, and a place that is missing or should not be there is a
difference. Prints the counts, and the first differences; the exit status is 0 where
there are none. It fails, too, where a refusal was not met in each message that it can be in.
"""

import collections
import itertools
import os
import random
import subprocess
import sys
import tempfile

import bodies
import places
import wire
from compare_wire import SHOWN, arguments
from oracle import PATH, hexed

CHUNK = 40000


def run(program, given, folder):
    into, out = os.path.join(folder, "in"), os.path.join(folder, "out")
    with open(into, "wb") as file:
        for part in given:
            file.write(part)
    with open(into, "rb") as file, open(out, "wb") as made:
        subprocess.run(program, stdin=file, stdout=made, check=True)
    with open(out, newline="") as made:
        return made.read().split("\n")


def groups(lines):
    """What `inspect` printed, record by record: a line, and those after it that begin with two blanks."""
    group = []
    for line in lines:
        if group and not line.startswith("  "):
            yield group
            group = []
        group.append(line)
    if group != [""]:
        yield group


def enclosed(number, path):
    """A refusal and the fields that enclose its place, for the counts."""
    return "refused %s in %s" % (number, path or "the body itself")


def met_all(counts):
    """Asserts that each refusal was met at each place that it can have."""
    wanted = {enclosed(number, " ".join(map(str, path))) for number in places.OF_A_BODY
              for path in (places.TEXT_PATHS if number == places.NOT_UTF8 else places.PATHS[places.V1_1])}
    missing = {name for name in wanted if not counts[name]}
    assert not missing, missing


def compare(binary, given, folder, counts, differ):
    """One run of each side."""
    printed = groups(run(binary, (wire.record(("decode", body, 0)) for body in given), folder))
    answers = run([PATH], (("decode %s\n" % hexed(body)).encode() for body in given), folder)
    for n, (body, told) in enumerate(zip(given, answers), 1):
        expected = bodies.answer(body, told)
        expected[0] = "%d %s" % (n, expected[0])
        words = expected[0].split(" ")
        counts[" ".join((words[2], words[-1] if words[2] == "ok" else words[3]))] += 1
        if words[2] != "ok" and " at " in expected[0]:
            counts[enclosed(words[3], expected[0].partition(" in ")[2])] += 1
        for line in expected[1:]:
            counts["  " + line.split(" ")[2]] += 1
        got = next(printed, [])
        if got != expected:
            differ.append((len(body), body, expected, got))
    for got in printed:
        differ.append((0, b"after the last record", [], got))


def endings():
    """(what it is, input, text): runs with an ending of their own."""
    most = wire.MAX_CONTENT
    yield "empty", wire.header(0, 1), "1 decode ok 0 plain\n"
    yield "cut", wire.header(2, 1) + b"\x0a", "bad\n"
    yield "the longest content", wire.header(most, 1) + bytes(most), "1 decode refused 10 %d\n" % most
    yield "a longer one", wire.header(most + 1, 1) + bytes(most + 1), "long\n"
    yield "cut after one", wire.header(2, 1) + b"\x0a\x00" + wire.header(1, 1), "1 decode ok 1 plain\n  sub - -\nbad\n"
    yield "among other calls", wire.header(2, 1) + b"\x1a\x00" + wire.header(0, 7) + wire.header(1, 1) + b"\x80", \
        "1 decode ok 0 control\n2 utf8 yes\n3 decode refused 1 at 0\n"
    for text, told in places.ROWS + places.MORE_ROWS:
        if told:
            yield text, wire.record(("decode", bytes.fromhex(text), 0)), "1 decode %s\n" % told


def compare_all(about, source, compare, endings, test=lambda counts: None, count=400000):
    """The bodies of `source` by `compare`, chunk by chunk, then the runs of `endings`; prints what it found. `test` looks at the counts; `count` is how many random
    bodies there are if nothing else is said."""
    given = arguments(about, count, "inspect")
    counts, differ, n = collections.Counter(), [], 0
    source = source(random.Random(given.seed), given.count)
    with tempfile.TemporaryDirectory() as folder:
        while chunk := list(itertools.islice(source, CHUNK)):
            compare(given.binary, chunk, folder, counts, differ)
            n += len(chunk)
    for name, text, expected in endings():
        got = subprocess.run(given.binary, input=text, stdout=subprocess.PIPE, check=True).stdout.decode()
        n += 1
        if got != expected:
            differ.append((len(text), name.encode(), expected.split("\n"), got.split("\n")))
    for what, k in sorted(counts.items()):
        print("%-40s %8d" % (what, k))
    test(counts)
    print("%d bodies, seed %d: %d differences" % (n, given.seed, len(differ)))
    for size, body, expected, got in sorted(differ)[:SHOWN]:
        print("%d bytes: %s\n  expected %s\n  printed  %s" % (size, body[:100].hex(), str(expected)[:300], str(got)[:300]))
    sys.exit(1 if differ else 0)


if __name__ == "__main__":
    compare_all(__doc__, bodies.bodies, compare, endings, met_all)
