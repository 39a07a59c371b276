#!/usr/bin/env python3
"""Compares public keys and peer ids of the program `inspect` with the Rust, by running both.

    oracle/compare_keys.py BINARY [--seed N] [--count N]

BINARY is target/bin/inspect, after `tools/build inspect`. The inputs are the rows of the scope, all
short ones, lengths and types about every edge, codes and lengths of ten bytes, and --count random
ones (keys.py): keys and peer ids as they should be, damaged, with fields in another order, with bytes
after them. Of a key that is taken the type and the data are compared, of a peer id how it is made
and the digest; the Rust's errors are 35 and 34, without their names and values. The model of
peers.py is compared on the same inputs, and the lines of the scope's rows, which are written in
keys.py. Where the oracle is built with the published crate multihash, that takes some codes and
lengths of ten bytes for others: these are the differences on the list (docs/DIFFERENCES.md), and are
counted. Prints the counts, and the first differences; the exit status is 0 where there is none
that is not on the list.
"""

import collections
import itertools
import random
import sys
import tempfile

import keys
import wire
from compare_decode import run
from compare_wire import SHOWN, arguments
from oracle import PATH, Oracle

CHUNK = 40000
COUNT = 400000


def compare(binary, cases, folder, counts, differ):
    """One run of each side."""
    printed = run(binary, map(wire.record, cases), folder)
    answers = run([PATH], ((wire.command(case) + "\n").encode() for case in cases), folder)
    for n, (case, told) in enumerate(zip(cases, answers), 1):
        call, data, _ = case
        rust, model = keys.answer(call, data, told), keys.model(call, data)
        counts[" ".join(rust.split(" ")[:3 if " refused " in rust else 2])] += 1
        counts["the Rust: " + (" ".join(told.split(" ")[:2]) if told.startswith("err") else "ok")] += 1
        if rust != model and keys.listed(call, data, rust):
            counts["on the list: a code or a length of ten bytes"] += 1
            rust = model
        if rust != model:
            differ.append((len(data), "%s %s" % (call, data.hex()), rust, "the model: " + model))
        got = printed[n - 1] if n <= len(printed) else "nothing"
        if got != "%d %s" % (n, rust):
            differ.append((len(data), "%s %s" % (call, data.hex()), "%d %s" % (n, rust), got))
    if printed[len(cases):] != [""]:
        differ.append((0, "after the last record", "nothing", "\n".join(printed[len(cases):])))


def rows(binary, folder, differ):
    """The scope's rows, with the lines that are written beside them."""
    cases = [(call, bytes.fromhex(text), 0) for call, text, _ in keys.ROWS]
    printed = run(binary, map(wire.record, cases), folder)
    for n, (case, (_, text, line)) in enumerate(zip(cases, keys.ROWS), 1):
        got = printed[n - 1] if n <= len(printed) else "nothing"
        if got != "%d %s" % (n, line):
            differ.append((len(case[1]), "a row: %s %s" % (case[0], text), "%d %s" % (n, line), got))


def main():
    given = arguments(__doc__, COUNT, "inspect")
    counts, differ, n = collections.Counter(), [], 0
    source = keys.cases(random.Random(given.seed), given.count)
    with tempfile.TemporaryDirectory() as folder:
        rows(given.binary, folder, differ)
        while chunk := list(itertools.islice(source, CHUNK)):
            compare(given.binary, chunk, folder, counts, differ)
            n += len(chunk)
    with Oracle() as oracle:
        multihash = oracle.ask("about").rpartition("multihash=")[2]
    for what, k in sorted(counts.items()):
        print("%-46s %8d" % (what, k))
    print("%d keys and peer ids, seed %d, multihash %s: %d differences" % (n, given.seed, multihash, len(differ)))
    for size, asked, expected, got in sorted(differ)[:SHOWN]:
        print("%d bytes: %s\n  expected %s\n  printed  %s" % (size, asked[:200], expected[:300], got[:300]))
    sys.exit(1 if differ else 0)


if __name__ == "__main__":
    main()
