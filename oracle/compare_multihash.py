#!/usr/bin/env python3
"""Compares two builds of the oracle: the harness's own multihash, and the published crate.

    oracle/compare_multihash.py OTHER [--seed N] [--count N]

OTHER is an oracle built with ORACLE_MULTIHASH (README.md); the one that it is compared with is the one that
the other comparisons use, built without. Both are asked about the peer ids of keys.py, all of the fixed ones and --count
random ones, and about more with codes and lengths of ten bytes. What they take must be the same, with the same code and digest, and
so must the names of their errors, but for the words behind InvalidMultihash. The one difference on the list is where a code or a length has
ten bytes: of the tenth the published crate keeps one bit. Prints the counts, and the first differences; the exit status is 0 where there is
none that is not on the list.
"""

import argparse
import collections
import itertools
import os
import random
import sys

import keys
import programs
from compare_wire import SHOWN
from oracle import Oracle, hexed

CHUNK = 40000
COUNT = 400000


def peers_in(r, count):
    """The bytes that are asked about."""
    for call, data, _ in keys.cases(r, count):
        if call == "peer":
            yield data
    for _ in range(count // 8):
        code, size = (keys.ten(r.choice((0, 0x12, 4, 0x20, 0x24)), r.randrange(256)) if r.randrange(2) else bytes([n]) for n in (0, r.choice((0, 4, 32))))
        yield code + size + bytes(r.choice((0, 4, 32)))


def plain(told):
    """An answer without the words behind InvalidMultihash, which are each crate's own."""
    return " ".join(told.split(" ")[:2]) if told.startswith("err InvalidMultihash") else told


def main():
    parser = argparse.ArgumentParser(description=__doc__.split("\n")[0])
    parser.add_argument("other", metavar="OTHER", help="an oracle built with ORACLE_MULTIHASH")
    parser.add_argument("--seed", type=int, default=1)
    parser.add_argument("--count", type=int, default=COUNT)
    given = parser.parse_args()
    if not os.path.isfile(given.other):
        programs.stop("no oracle at %s" % given.other)
    programs.build()
    counts, differ, n = collections.Counter(), [], 0
    source = peers_in(random.Random(given.seed), given.count)
    with Oracle() as own, Oracle(given.other) as other:
        names = [one.ask("about").rpartition("multihash=")[2] for one in (own, other)]
        while chunk := list(itertools.islice(source, CHUNK)):
            asked = ["peerid " + hexed(data) for data in chunk]
            for data, one, two in zip(chunk, own.batch(asked), other.batch(asked)):
                n += 1
                one, two, read_as = plain(one), plain(two), keys.published(data)
                counts["ok" if one.startswith("ok") else one.split(" ")[1]] += 1
                if one != two and read_as is not None and two == plain(own.ask("peerid " + hexed(read_as))):
                    counts["on the list: a code or a length of ten bytes"] += 1
                    counts["on the list, and taken"] += two.startswith("ok")
                elif one != two:
                    differ.append((len(data), data.hex(), one, two))
    for what, k in sorted(counts.items()):
        print("%-46s %8d" % (what, k))
    print("%d peer ids, seed %d, multihash %s and %s: %d differences" % (n, given.seed, *names, len(differ)))
    for size, data, one, two in sorted(differ)[:SHOWN]:
        print("%d bytes: %s\n  %s: %s\n  %s: %s" % (size, data[:200], names[0], one[:200], names[1], two[:200]))
    sys.exit(1 if differ else 0)


if __name__ == "__main__":
    main()
