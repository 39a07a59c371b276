#!/usr/bin/env python3
"""Compares what the program `inspect` writes from lists with the Rust, by running both.

    oracle/compare_lists.py BINARY [--seed N] [--count N]

BINARY is target/bin/inspect, after `tools/build inspect`. The lists (lists.py) are the rows of the scope, messages about every limit, mixtures of every sort, places
about the end of the bytes and about 2^64, sizes about the largest, what decode leaves for a body, and --count random ones: most of them may be written, with
senders of every sort and signatures of 64 bytes, rows that begin anywhere and places that overlap. Each is written, and the bytes to sign of one of its messages are
asked for. Where nothing is refused the bytes are held to the Rust's: an RPC of these fields is made there, and `Rpc::encode` and `sign_bytes` say its bytes and
those to sign. Then the Rust's decoder reads the bytes that were written: the fields must be those of the lists, the sign bytes of each message those that the
lists have, the encoding the same bytes; and the model of nodes.py must admit each message. Refusals are held to the model of lists.py, number and
values. Then come runs that end in `bad`. Prints the counts, and the first differences; the exit status is 0 where there are none. It fails, too, where a
refusal was not met.
"""

import collections
import itertools
import json
import random
import subprocess
import sys
import tempfile

import lists
import nodes
import wire
from compare_decode import run
from compare_wire import SHOWN, arguments
from oracle import PATH, hexed, parse_decode

CHUNK = 4000
COUNT = 20000


def told(case, rpc, refused, answers):
    """The line without its number."""
    return "%s %s" % (case[0], refused) if refused else lists.line(case, next(answers))


def named(line):
    """What is counted of a line."""
    words = line.split(" ", 3)
    return " ".join(words[:3]) if words[1] == "refused" else "%s %s" % (words[0], "nothing" if words[1] == "0" else "bytes")


def reading(chunk, folder, differ, counts):
    """What the Rust reads in what was written: (rpc, its bytes) of each."""
    decoded = run([PATH], (("decode %s\nwrites %s\n" % (hexed(made), hexed(made))).encode() for _, made in chunk), folder)
    signed = [("encode " + json.dumps({"publish": lists.texts(rpc["publish"])}, separators=(",", ":")) + "\n").encode() for rpc, _ in chunk]
    signs = run([PATH], signed, folder)
    for (rpc, made), got, writes, sign in zip(chunk, decoded[::2], decoded[1::2], signs):
        what, records, encoded, theirs = parse_decode(got)
        wanted = len(rpc["subscriptions"]) + sum(1 + len(one["topic_ids"]) for one in rpc["publish"])
        if rpc["control"] is not None:
            wanted += len(rpc["control"]["graft"]) + sum(1 + len(one["peers"]) for one in rpc["control"]["prune"])
        if (what, records, encoded, theirs) != ("ok", wanted, made, lists.read_back(rpc)):
            differ.append((len(made), "decode %s" % made.hex(), "the fields of the lists", got))
        messages = writes.rpartition("messages=")[2]
        ours = sign.rpartition("sign=")[2]
        if ",".join(one.split("/")[0] for one in messages.split(",")) != ours:
            differ.append((len(made), "sign bytes of %s" % made.hex(), ours, messages))
        counts["read back: messages"] += len(rpc["publish"])
        for message in nodes.Body(made).messages:
            try:
                nodes.admission(message, True)
            except nodes.Refused as why:
                differ.append((len(made), "admission of a message in %s" % made.hex(), "new", str(why)))


def compare(binary, chunk, folder, counts, differ):
    """One run of each side."""
    asked = [lists.judged(case) for case in chunk]
    answers = iter(run([PATH], ((lists.command(rpc) + "\n").encode() for rpc, _ in asked if rpc is not None), folder))
    printed = run(binary, map(lists.record, chunk), folder)
    written = []
    for n, (case, (rpc, refused)) in enumerate(zip(chunk, asked), 1):
        expected = told(case, rpc, refused, answers)
        counts[named(expected)] += 1
        got = printed[n - 1] if n <= len(printed) else "nothing"
        if got != "%d %s" % (n, expected):
            call, room, rows, data, index = case
            differ.append((len(rows), "%s room %d index %d: %s over %s" % (call, room, index, shown(rows), data.hex()[:200]), "%d %s" % (n, expected), got))
        elif rpc is not None and case[0] == "write":
            written.append((rpc, bytes.fromhex(expected.split(" ")[2]) if expected != "write 0" else b""))
    if printed[len(chunk):] != [""]:
        differ.append((0, "after the last record", "nothing", "\n".join(printed[len(chunk):])))
    reading(written, folder, differ, counts)
    counts["read back: RPCs"] += len(written)


def shown(rows):
    return "; ".join("%s %d..%d %s %s" % (lists.NAMES.get(one.kind, one.kind), one.start, one.end, one.number, list(one.fields)) for one in rows[:6])


def endings():
    """(what it is, input, text): runs with an ending of their own."""
    one = lists.row(lists.GRAFT, 9, (0, 1), None, (5, 9))
    whole = lists.content(7, [one], b"t")
    for call in ("write", "tosign"):
        kind, index = wire.KIND[call], bytes(wire.PLACE.get(call, 0))
        first = wire.record(("utf8", b"a", 0))

        def record(content):
            return wire.header(len(index + content), kind) + index + content
        line = "1 write 7 1a051a030a0174\n" if call == "write" else "1 tosign refused 20 0\n"
        yield call, record(whole), line
        # Of its bytes, `t` may be missing: the topic then passes the end.
        for n in range(len(whole) - 1):
            yield "%s cut to %d" % (call, n), record(whole[:n]), "bad\n"
        yield "%s without bytes" % call, record(whole[:-1]), "1 %s refused 42\n" % call
        yield "%s, its content cut" % call, record(whole)[:-1], "bad\n"
        for n in range(len(index)):
            yield "%s with %d bytes" % (call, n), wire.header(n, kind) + bytes(n), "bad\n"
        yield "%s bad after one" % call, first + record(whole[:5]) + first, "1 utf8 yes\nbad\n"
        for mask in (64, 65, 128, 255):
            yield "%s, a mask of %d" % (call, mask), record(wire.TOP.to_bytes(8, "little")[:2] + bytes(2) + b"\x01\x00" + bytes([8, mask]) + bytes(200)), "bad\n"
        yield "%s, a mask of 63" % call, record(bytes(4) + b"\x01\x00" + bytes([1, 63]) + bytes(104)), "1 %s\n" % (
            "write refused 12 6" if call == "write" else "tosign refused 20 0")
        for room, text in ((65600, "%s" % ("write 0" if call == "write" else "tosign refused 20 0")), (65601, None), (2**32 - 1, None), (2**16, "")):
            told = "bad\n" if text is None else "1 %s\n" % (text or ("write 0" if call == "write" else "tosign refused 20 0"))
            yield "%s, room %d" % (call, room), record(lists.little(room, 4) + bytes(2)), told
        for count, told in ((640, "1 %s refused 11 640\n" % call), (641, "bad\n"), (65535, "bad\n")):
            yield "%s, %d rows" % (call, count), record(bytes(4) + lists.little(count, 2) + bytes([8, 0] + 16 * [0]) * min(count, 3000)), told
        most = wire.MAX_CONTENT - len(index)
        yield "%s, the longest content" % call, record(bytes(most)), "1 %s\n" % ("write 0" if call == "write" else "tosign refused 20 0")
        yield "%s, a longer one" % call, wire.header(wire.MAX_CONTENT + 1, kind) + bytes(wire.MAX_CONTENT + 1), "long\n"


def rows(binary, folder, differ):
    """The rows of the scope, with the lines that are written beside them."""
    for case, line in lists.scope():
        got = run(binary, [lists.record(case)], folder)[0]
        if got != "1 " + line:
            differ.append((len(case[2]), "a row of the scope: %s" % shown(case[2]), "1 " + line, got))


def all_of(binary, source, folder, differ):
    """The counts of all cases of a source."""
    counts = collections.Counter()
    while chunk := list(itertools.islice(source, CHUNK)):
        compare(binary, chunk, folder, counts, differ)
    return counts


def made(counts, call):
    return counts[call + " bytes"] + counts[call + " nothing"]


def refused(counts, call):
    return sum(k for what, k in counts.items() if what.startswith(call + " refused "))


def main():
    given = arguments(__doc__, COUNT, "inspect")
    differ, runs, r = [], 0, random.Random(given.seed)
    with tempfile.TemporaryDirectory() as folder:
        rows(given.binary, folder, differ)
        fixed = all_of(given.binary, lists.fixed_cases(r), folder, differ)
        others = all_of(given.binary, lists.random_cases(r, given.count), folder, differ)
    for name, text, expected in endings():
        got = subprocess.run(given.binary, input=text, stdout=subprocess.PIPE, check=True).stdout.decode()
        runs += 1
        if got != expected:
            differ.append((len(text), name, expected, got))
    print("%-28s %8s %8s" % ("", "fixed", "random"))
    for what in sorted({*fixed, *others}):
        print("%-28s %8d %8d" % (what, fixed[what], others[what]))
    missing = {(call, number) for call, numbers in lists.REFUSALS.items() for number in numbers if not (fixed + others)["%s refused %d" % (call, number)]}
    assert not missing, missing
    for what, counts in (("fixed", fixed), ("random", others)):
        print("%s: %s" % (what, "; ".join("%s %d with bytes, %d refused" % (call, made(counts, call), refused(counts, call)) for call in lists.REFUSALS)))
    print("%d random lists and %d runs of their own, seed %d: %d differences" % (given.count, runs, given.seed, len(differ)))
    for _, asked, expected, got in sorted(differ)[:SHOWN]:
        print("%s\n  expected %s\n  printed  %s" % (asked[:400], expected[:300], got[:300]))
    sys.exit(1 if differ else 0)


if __name__ == "__main__":
    main()
