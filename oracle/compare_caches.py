#!/usr/bin/env python3
"""Compares the program `caches` with the Rust, by running both.

    oracle/compare_caches.py BINARY [--seed N] [--count N]

BINARY is target/bin/caches, after `tools/build caches`. The histories are fixed ones
about every edge and every refusal, and --count random ones (caches.py), many in one
run. Then come short runs that end in `bad` or `long`: random ones, one for ten
histories, and fixed ones whose texts are written here. Every line is compared; the
limits that the Rust does not have are the scope's own, and the place behind a refusal
1 to 7 is that of places.py. What is wrong with a body in edition 1.2 is editions.py's to say. Prints the counts, and the
first differences with the steps that lead to them; the exit status is 0 where there
are none.
"""

import collections
import itertools
import random
import subprocess
import sys
import tempfile
import time

import caches
import peers
import places
import wire
from compare_decode import run
from compare_wire import SHOWN, arguments
from differences import first_difference, line_at, printed_by, sort_of
from oracle import Oracle
from peers import ID

CHUNK = 400
COUNT = 12000


def answered(words):
    none = {"clean": "0", "next": "none", "gossip": "0", "get": "-"}.get(words[1])
    return words[1] + " " + (words[2] if none in (None, words[2]) else "some")


def what(line):
    return sort_of(line, answered)


def shown(step):
    """A step to read; of bytes the first hundred."""
    def word(one):
        if not isinstance(one, bytes):
            return str(one)
        return "=" + one[:100].hex() + ("... %d bytes" % len(one) if len(one) > 100 else "")

    return " ".join(map(word, step))


def play(binary, oracle, histories, folder, counts, differ):
    """Many histories in one run; of each the first difference, as (steps to it, steps, expected, printed)."""
    data = b"".join(map(caches.records, histories))
    told = caches.expected(oracle, data)
    counts.update(map(what, told))
    printed = run(binary, [data], folder)
    at = 0
    for steps in histories:
        n = first_difference(told[at:at + len(steps)], printed[at:at + len(steps)])
        if n is not None:
            got = line_at(printed, at + n)
            differ.append((n + 1, list(map(shown, steps[:n + 1])), told[at + n], got))
            if not got.startswith("%d " % (at + n + 1)):
                return  # the lines after it belong to other records
        at += len(steps)
    if printed[at:] != [""]:
        differ.append((0, ["after the last record"], "", line_at(printed, at)))


def play_ending(binary, name, data, told, counts, differ):
    """One run that may end early; `told` are its lines."""
    counts.update(map(what, told))
    printed = printed_by(binary, data)
    n = first_difference(told + [""], printed)
    if n is not None:
        steps = list(map(shown, caches.steps_of(data)[0][:n + 1])) or [data[:100].hex()]
        differ.append((n + 1, [name] + steps, line_at(told, n), line_at(printed, n)))


def endings():
    """(what it is, input, text): fixed runs."""
    most = wire.MAX_CONTENT
    seen, cache = caches.record(("seen", 2)), caches.record(("cache", 2, 2, 0))
    refused = caches.record(("cache", 0, 2, 0))
    begun = seen + cache
    yield "nothing", b"", ""
    for n in range(1, 6):
        yield "header cut after %d bytes" % n, seen[:n], "bad\n"
    for n in (4, 5, 6):
        yield "too long, %d bytes of the header" % n, wire.header(most + 1, 1)[:n], "long\n"
    yield "too long, with its content", begun + wire.header(most + 1, 5) + bytes(most + 1), "1 seen ok\n2 cache ok\nlong\n"
    yield "too long, of no kind", wire.header(most + 1, 65535), "long\n"
    yield "too long, before a start", wire.header(most + 1, 10) + bytes(9), "long\n"
    yield "the largest length, kind cut", seen + wire.header(2**32 - 1, 5)[:4] + seen, "1 seen ok\nlong\n"
    yield "the longest content", begun + wire.header(most, 5) + bytes(most) + wire.header(most, 10) + bytes(most), \
        "1 seen ok\n2 cache ok\n3 contains refused 33 65600\n4 get -\n"
    yield "the longest content, cut", begun + wire.header(most, 10) + bytes(most - 1), "1 seen ok\n2 cache ok\nbad\n"
    yield "the longest put, gossip and insert", begun + b"".join(wire.header(most, kind) + bytes(most) for kind in (7, 9, 2)), \
        "1 seen ok\n2 cache ok\n3 put refused 10 65598\n4 gossip refused 29 65598\n5 insert refused 33 65582\n"
    for kind in (0, 11, 255, 256, 257, 0x0101, 0x0100, 0x0A00, 65535):
        yield "kind %d" % kind, begun + wire.header(0, kind) + seen, "1 seen ok\n2 cache ok\nbad\n"
        yield "kind %d with two bytes" % kind, wire.header(2, kind) + b"\x02\x00" + seen, "bad\n"
    for call, (kind, sizes, rest) in caches.FORM.items():
        least = sum(sizes)
        for n in range(least):
            yield "%s with %d bytes" % (call, n), begun + wire.header(n, kind) + bytes(n) + seen, "1 seen ok\n2 cache ok\nbad\n"
        for n in (least + 1, least + 2, 65536 + least) if not rest else ():
            content = b"\x01\x00" * (n // 2) + bytes(n % 2)
            yield "%s with %d bytes" % (call, n), begun + wire.header(n, kind) + content + seen, \
                "1 seen ok\n2 cache ok\n%s\n" % ("long" if n > most else "bad")
        other, started = (cache, "cache") if kind <= 5 else (seen, "seen")
        whole = wire.header(least, kind) + bytes(least)
        if call not in ("seen", "cache", "flagged"):
            yield "%s before its part" % call, other + whole + begun, "1 %s ok\nbad\n" % started
            yield "%s first" % call, whole, "bad\n"
        if call in ("put", "put_in", "shift", "gossip", "get"):
            yield "%s after a refused start" % call, seen + refused + whole, "1 seen ok\n2 cache refused 40\nbad\n"
    for edition in (2, 3, 128, 255):
        yield "edition %d" % edition, begun + caches.record(("put_in", edition, 0, caches.put_step(caches.X)[2])) + seen, "1 seen ok\n2 cache ok\nbad\n"
    yield "the longest put in an edition", begun + wire.header(most, 17) + b"\x01" + bytes(most - 1), "1 seen ok\n2 cache ok\n3 put refused 10 65597\n"
    x, cut = caches.put_step(caches.X)[2], bytes.fromhex("1a032a0180")
    yield "editions", caches.records([("cache", 1, 1, 0), ("put_in", 1, 0, x + cut), ("put_in", 0, 0, x + cut), ("put_in", 1, 0, x), ("put", 0, x + cut)]), \
        "1 cache ok\n2 put refused 1 at 118 in 3 5\n3 put stored\n4 put held\n5 put held\n"
    for rows in (257, 512, 65535):
        yield "%d rows" % rows, begun + caches.record(("seen", rows)) + seen, "1 seen ok\n2 cache ok\nbad\n"
    yield "256 rows", caches.record(("seen", 256)), "1 seen ok\n"
    yield "refused settings", refused + refused, "1 cache refused 40\n2 cache refused 40\n"
    put = caches.put_step(caches.X)
    steps = [("seen", 1), ("insert", 5, 0, 1, b""), ("next",), ("clean", 4), ("contains", b""), ("insert", 6, 1, 1, b"a"), ("clean", 7),
             ("cache", 1, 0, wire.TOP), put, put, ("cache", 1, 1, wire.TOP), put, put, ("gossip", 1, b"t"), ("get", caches.NAME), ("shift",),
             ("gossip", 1, b"t"), ("get", caches.NAME)]
    yield "each call", caches.records(steps), \
        "1 seen ok\n2 insert fresh\n3 next 5\n4 clean 1\n5 contains yes\n6 insert fresh\n7 clean 0\n8 cache ok\n9 put stored\n" \
        "10 put stored\n11 cache ok\n12 put stored\n13 put held\n14 gossip 1 =%s01\n15 get =0a26%s1a01012201742a40%s\n" \
        "16 shift ok\n17 gossip 0\n18 get -\n" % (ID.hex(), ID.hex(), "00" * 64)
    # Nothing is kept, so nothing is held. The part has no word, and tells no values here but those beside 22 and 26.
    rows = peers.ROWS + peers.MORE_ROWS
    yield "senders", caches.records([("cache", 1, 0, 0)] + [caches.put_step(caches.x_with(**change)) for change, _ in rows]), \
        "1 cache ok\n" + "".join("%d put %s\n" % (n, told.replace("new", "stored")) for n, (_, told) in enumerate(rows, 2))
    rows = peers.UNSIGNED_ROWS
    for flags in (0, 1, 2, 3):
        yield "unsigned messages, flags %d" % flags, caches.records(
            [("flagged", 1, 0, 0, flags)] + [caches.put_step(caches.x_with(**change)) for change, *_ in rows]), \
            "1 cache ok\n" + "".join("%d put %s\n" % (n, row[1 + flags % 2].replace("new", "stored")) for n, row in enumerate(rows, 2))
    # Groups: of the rows that are taken two have a message, which may not be put.
    for flags in (0, 2):
        rows = [(text, both[flags > 0] or {"12020b0c": "refused 21", "12080a01420b0a01410c": "refused 34"}.get(text, "refused 20 0")) for text, *both in places.GROUP_ROWS]
        for edition in (0, 1):
            yield "groups, flags %d" % flags, caches.records([("flagged", 1, 1, 0, flags)] + [("put_in", edition, 0, bytes.fromhex(text)) for text, _ in rows]), \
                "1 cache ok\n" + "".join("%d put %s\n" % (n, told) for n, (_, told) in enumerate(rows, 2))
    raw = caches.GROUPED[0]
    grouped, get = ("put", 0, caches.tagged(2, raw)), ("get", caches.NAME)
    yield "a message with a group", caches.records([("flagged", 1, 1, 0, 2), grouped, caches.put_step(caches.X), get, ("cache", 1, 1, 0), grouped, caches.put_step(caches.X), get]), \
        "1 cache ok\n2 put stored\n3 put held\n4 get =%s\n5 cache ok\n6 put refused 5 3 113 at 115 in 2\n7 put stored\n8 get =%s\n" % (raw.hex(), raw[:-2].hex())
    for raw, number in caches.SPOILT:
        beside = {6: " 0 113 at 115 in 2", 5: " 6 114 at 116 in 2", 1: " at 115 in 2"}.get(number, "")
        yield "a message with a group, refused %d" % number, caches.records([("flagged", 1, 1, 0, 2), ("put", 0, caches.tagged(2, raw))]), "1 cache ok\n2 put refused %d%s\n" % (number, beside)
    for flags in (4, 5, 256, 65535):
        yield "flags %d" % flags, caches.records([("flagged", 1, 1, 0, flags), ("shift",)]), "1 cache refused 40\nbad\n"
    u, x = caches.put_step(caches.U), caches.put_step(caches.X)
    yield "both forms", caches.records([("flagged", 1, 1, 0, 1), u, x, ("get", caches.NAME), ("flagged", 1, 1, 0, 1), x, u, ("get", caches.NAME)]), \
        "1 cache ok\n2 put stored\n3 put held\n4 get =0a26%s1a0101220174\n5 cache ok\n6 put stored\n7 put held\n8 get =0a26%s1a01012201742a40%s\n" \
        % (ID.hex(), ID.hex(), "00" * 64)


def slowly(binary, oracle, counts, differ):
    """Byte by byte, so that every read is short."""
    data = caches.records([("seen", 1), ("insert", 1, 2, 1, b"a"), ("cache", 1, 1, 0), caches.put_step(caches.X), ("get", caches.NAME)])
    program = subprocess.Popen(binary, stdin=subprocess.PIPE, stdout=subprocess.PIPE)
    for byte in data:
        program.stdin.write(bytes([byte]))
        program.stdin.flush()
        time.sleep(0.002)
    printed, told = program.communicate()[0].decode().split("\n"), caches.expected(oracle, data)
    if printed != told + [""]:
        differ.append((0, ["byte by byte"], told, printed))


def main():
    given = arguments(__doc__, COUNT, "caches")
    r = random.Random(given.seed)
    counts, differ, played, runs = collections.Counter(), [], 0, 1
    source = caches.histories(r, given.count)
    with tempfile.TemporaryDirectory() as folder, Oracle() as oracle:
        while chunk := list(itertools.islice(source, CHUNK)):
            play(given.binary, oracle, chunk, folder, counts, differ)
            played += len(chunk)
        for _ in range(given.count // 10):
            data = caches.ending(r)
            play_ending(given.binary, "a run of its own", data, caches.expected(oracle, data), counts, differ)
            runs += 1
        for name, data, text in endings():
            play_ending(given.binary, name, data, text.split("\n")[:-1], counts, differ)
            runs += 1
        slowly(given.binary, oracle, counts, differ)
    for name, k in sorted(counts.items()):
        print("%-20s %8d" % (name, k))
    print("%d histories and %d runs of their own, %d lines, seed %d: %d differences"
          % (played, runs, sum(counts.values()), given.seed, len(differ)))
    for n, steps, expected, got in sorted(differ, key=lambda one: one[0])[:SHOWN]:
        print("after %d steps:" % n)
        for step in steps:
            print("    " + step)
        print("  expected %s\n  printed  %s" % (str(expected)[:300], str(got)[:300]))
    sys.exit(1 if differ else 0)


if __name__ == "__main__":
    main()
