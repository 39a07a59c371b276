#!/usr/bin/env python3
"""Compares the program `inspect` with the Rust, by running both.

    oracle/compare_wire.py BINARY [--seed N] [--count N]

BINARY is target/bin/inspect, after `tools/build inspect`. The inputs are all short
ones, the rows of the scope, bodies about the largest size, and --count random
ones (wire.py). Of a walk that is refused the place is held to the finder of places.py,
what stands before it to the Rust; a varint alone has no place. Then come runs that end
early, whose texts are written here. The oracle is built first if it is not there. Prints the counts, and the first
differences; the exit status is 0 where there are none.
"""

import argparse
import collections
import os
import random
import subprocess
import sys
import tempfile
import time

import programs
import wire
from oracle import PATH

SHOWN = 10


def arguments(about, count, name, rust=True):
    """What the command line gives; `binary` are the words that run the program. Where the Rust is asked, the oracle is built if it is not there."""
    parser = argparse.ArgumentParser(description=about.split("\n")[0])
    parser.add_argument("binary", metavar="BINARY", help="target/bin/%s, after `tools/build %s`" % (name, name))
    parser.add_argument("--seed", type=int, default=1)
    parser.add_argument("--count", type=int, default=count)
    given = parser.parse_args()
    if rust:
        programs.look()
    given.binary = programs.running(given.binary, name)
    if rust:
        programs.build()
    return given


def compare(binary, seed, count, folder):
    """All cases in one run of each side; (counts per call and answer, differences)."""
    name = {part: os.path.join(folder, part) for part in ("records", "commands", "lines", "answers")}
    with open(name["records"], "wb") as records, open(name["commands"], "w") as commands:
        for case in wire.cases(random.Random(seed), count):
            records.write(wire.record(case))
            commands.write(wire.command(case) + "\n")
    for program, given, made in ((binary, "records", "lines"), ([PATH], "commands", "answers")):
        with open(name[given], "rb") as into, open(name[made], "wb") as out:
            subprocess.run(program, stdin=into, stdout=out, check=True)
    counts, differ, n = collections.Counter(), [], 0
    with open(name["commands"]) as commands, open(name["answers"]) as answers, open(name["lines"], newline="") as lines:
        for n, asked in enumerate(commands, 1):
            asked = asked.rstrip("\n")
            told = wire.answer(asked, answers.readline().rstrip("\n"))
            expected, line = "%d %s\n" % (n, told), lines.readline()
            words = told.split(" ")
            counts[words[0], " ".join(words[1:3]) if words[1] == "refused" else
                   words[1] if words[0] == "utf8" or words[1] == "end" else "read"] += 1
            if line != expected:
                differ.append((len(asked), asked, expected, line))
        rest = lines.read()
    if rest:
        differ.append((0, "after the last record", "", rest))
    return n, counts, differ


def endings():
    """(what it is, input, text): runs with an ending of their own."""
    yes = wire.record(("utf8", b"a", 0))
    most = wire.MAX_CONTENT
    yield "nothing", b"", ""
    for n in range(1, 6):
        yield "header cut after %d bytes" % n, wire.header(1, 7)[:n], "bad\n"
    for n in (4, 5, 6):
        yield "too long, %d bytes of the header" % n, wire.header(most + 1, 7)[:n], "long\n"
    yield "too long, with its content", wire.header(most + 1, 7) + b"a" * (most + 1), "long\n"
    yield "too long, of no kind", wire.header(most + 1, 65535), "long\n"
    yield "the largest length", wire.header(2**32 - 1, 7), "long\n"
    yield "the largest length, kind cut", wire.header(2**32 - 1, 7)[:4], "long\n"
    yield "the longest content", wire.header(most, 7) + b"a" * most, "1 utf8 yes\n"
    yield "the longest content, cut", wire.header(most, 7) + b"a" * (most - 1), "bad\n"
    yield "the longest content, of no kind", wire.header(most, 12) + b"a" * most, "bad\n"
    yield "content missing", wire.header(1, 7), "bad\n"
    yield "content cut", wire.header(3, 6) + b"\x80\x80", "bad\n"
    for kind in (0, 12, 255, 0x0105, 0x0108, 0x0500, 65535):
        yield "kind %d" % kind, wire.header(1, kind) + b"a", "bad\n"
        yield "kind %d, empty" % kind, wire.header(0, kind), "bad\n"
    for n in range(8):
        yield "walk with %d bytes" % n, wire.header(n, 5) + bytes(n), "bad\n"
    yield "walk with 8 bytes", wire.header(8, 5) + bytes(8), "1 walk end\n"
    yield "empty contents", b"".join(wire.header(0, kind) for kind in (6, 7, 8, 9)), "1 varint refused 1\n2 utf8 yes\n3 key refused 35\n4 peer refused 34\n"
    for kind, told in ((8, "key refused 35"), (9, "peer refused 34")):
        yield "the longest content of kind %d" % kind, wire.header(most, kind) + bytes(most), "1 %s\n" % told
        yield "a longer one of kind %d" % kind, wire.header(most + 1, kind) + bytes(most + 1), "long\n"
        yield "kind %d, cut" % kind, wire.header(4, kind) + bytes(3), "bad\n"
    longest = wire.varint(most - 6) + b"k" * (most - 6)
    yield "the longest key", wire.header(most, 8) + b"\x08\x03\x12" + longest, "1 key 3 =%s\n" % ("6b" * (most - 6))
    yield "bad after two", yes + yes + b"\x01", "1 utf8 yes\n2 utf8 yes\nbad\n"
    yield "bad before one", wire.header(0, 12) + yes, "bad\n"
    yield "long after one", yes + wire.header(most + 1, 7) + yes, "1 utf8 yes\nlong\n"
    yield "short walk after one", yes + wire.header(7, 5) + bytes(7) + yes, "1 utf8 yes\nbad\n"


def ends(binary):
    differ, n = [], 0
    for name, given, text in endings():
        n += 1
        got = subprocess.run(binary, input=given, stdout=subprocess.PIPE, check=True).stdout.decode()
        if got != text:
            differ.append((len(given), name, text, got))
    # Byte by byte, so that every read is short.
    given = b"".join(wire.record(case) for case in (("walk", bytes.fromhex("0a0508"), 0), ("varint", b"\xac\x02", 0)))
    slow = subprocess.Popen(binary, stdin=subprocess.PIPE, stdout=subprocess.PIPE)
    for byte in given:
        slow.stdin.write(bytes([byte]))
        slow.stdin.flush()
        time.sleep(0.002)
    got, text = slow.communicate()[0].decode(), "1 walk refused 4 2 5 1 at 2\n2 varint 300 2\n"
    if got != text:
        differ.append((len(given), "byte by byte", text, got))
    return n + 1, differ


def main():
    given = arguments(__doc__, 800000, "inspect")
    with tempfile.TemporaryDirectory() as folder:
        n, counts, differ = compare(given.binary, given.seed, given.count, folder)
    for (call, what), k in sorted(counts.items()):
        print("%-8s %-12s %8d" % (call, what, k))
    m, more = ends(given.binary)
    differ += more
    print("%d records and %d runs of their own, seed %d: %d differences" % (n, m, given.seed, len(differ)))
    for _, asked, expected, line in sorted(differ)[:SHOWN]:
        print("%s\n  expected %r\n  printed  %r" % (asked[:200], expected[:200], line[:200]))
    sys.exit(1 if differ else 0)


if __name__ == "__main__":
    main()
