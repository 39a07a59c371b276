#!/usr/bin/env python3
"""Compares admission with the Rust's `verify`, by running both.

    oracle/compare_admission.py BINARY [--seed N] [--count N]

BINARY is target/bin/states, after `tools/build states`. The messages (admissions.py) are senders of every sort with keys of
every sort, with seqnos and signatures of every length about the limits, the rows of the scope, messages without a signature in many
forms, and --count random ones. Each is admitted with the host's word and without, on a node that allows unsigned messages and on one that
does not, and that keeps nothing but the last id, so that nothing is a duplicate. The Rust's `verify` is asked with a
signature check that says the same word, and with the same leave to be unsigned. A number here and a name there are the same
answer: 21 MissingFrom, 22 and 34 InvalidFrom, 23 InvalidSeqno, 24 KeyWithoutSignature, 25 MissingSignature, 26 InvalidSignatureLength,
35 InvalidKey, 36 KeyPeerIdMismatch, 27 SignatureInvalid; and where it is taken, the mark under which its id is seen, and whether the Rust
says that it is signed. Every other pair must be on the list (docs/DIFFERENCES.md). The model of nodes.py is compared with the program, too; and the same messages
with groups among their fields, on nodes that skip groups: what is answered of one is what is answered of the message without them, unless it is then too long.
Prints the counts, the list as it was met with the shortest message of each, and the first differences; the exit status is 0 where there is
none that is not on the list and each on the list was met (those of ten bytes only where the oracle is built with the published crate
multihash).
"""

import itertools
import random
import sys
import tempfile

import admissions
import bodies
import states
from compare_decode import run
from compare_wire import SHOWN, arguments
from nodes import MAX_MESSAGE, marked
from oracle import Oracle
from places import GROUPS
from traces import admit

CHUNK = 20000
COUNT = 60000


def looked_at(case, word):
    """The steps of a case: its admit, and then under which mark its id is seen."""
    body, index, _, known = case
    last = dict(known)
    name = last.get(1, b"") + last.get(3, b"")
    return [admit(0, body, index, word), ("contains", marked(False, name)), ("contains", marked(True, name))]


def answered(lines):
    """What the program says of a case."""
    told, bare, signed = (line.split(" ", 2)[2] for line in lines)
    assert told != "new" or {bare, signed} == {"yes", "no"}, lines
    return admissions.number(told, signed == "yes")


def printed(binary, cases, word, flags, folder):
    """The answers of the program."""
    steps = [("flagged", 0, 1, 1, 0, flags)] + [step for case in cases for step in looked_at(case, word)]
    lines = run(binary, [states.records(steps)], folder)
    assert lines[0] == "1 set ok" and lines[len(steps):] == [""], lines[-2:]
    return [answered(lines[at:at + 3]) for at in range(1, len(steps), 3)]


def with_groups(r, case):
    """A message alone, with groups among its known fields; other fields are left out. It has no more than the longest has, if it had not."""
    _, _, raw, known = case
    parts = [bodies.tagged(*part) for part in known]
    for _ in range(r.choice((1, 1, 2))):
        parts.insert(r.randrange(len(parts) + 1), bodies.some_group(r, r.choice((0, 1, 2)), False, bodies.PARTS))
    made = b"".join(parts)
    made = made if len(raw) > MAX_MESSAGE or len(made) <= MAX_MESSAGE else raw
    return bodies.tagged(2, made), 0, made, known


def look_at_groups(binary, r, cases, ours, folder):
    """The first differences of messages with groups from those without."""
    grouped = [with_groups(r, case) for case in cases]
    for (word, flags), answers in ours.items():
        for (_, _, raw, known), (*_, made, _), bare, told in zip(cases, grouped, answers, printed(binary, grouped, word, flags | GROUPS, folder)):
            # A message whose unknown fields alone made it too long is shorter now.
            wanted = admissions.modelled(made, known, word, flags) if len(raw) > MAX_MESSAGE else bare
            if told != wanted:
                yield len(made), made.hex(), "word %d, flags %d: %s without groups" % (word, flags | GROUPS, wanted), str(told)


def main():
    given = arguments(__doc__, COUNT, "states")
    beside, n, unlike = admissions.Beside(), 0, []
    r = random.Random(given.seed + 1)
    source = admissions.admits(random.Random(given.seed), given.count)
    with tempfile.TemporaryDirectory() as folder, Oracle() as oracle:
        multihash = oracle.ask("about").rpartition("multihash=")[2]
        while chunk := list(itertools.islice(source, CHUNK)):
            ours = {}
            for word, flags in itertools.product(admissions.WORDS, admissions.FLAGS):
                ours[word, flags] = printed(given.binary, chunk, word, flags, folder)
                for (*_, raw, known), told in zip(chunk, ours[word, flags]):
                    model = admissions.modelled(raw, known, word, flags)
                    if told != model:
                        unlike.append((len(raw), raw.hex(), "word %d, flags %d: %s by the model" % (word, flags, model), str(told)))
            unlike += look_at_groups(given.binary, r, chunk, ours, folder)
            places = itertools.cycle(range(len(chunk)))
            for place, ((*_, raw, known), word, flags, rust) in zip(places, admissions.verified(oracle, chunk)):
                beside.look(raw, known, word, flags, ours[word, flags][place], rust)
            n += len(chunk)
    for what, k in sorted(beside.counts.items()):
        print("%-68s %8d" % (what, k))
    beside.tell()
    missing = set(admissions.NAMED) - set(beside.found) - ({admissions.TENTH} if multihash == "shim" else set())
    assert not missing, missing
    differ = beside.differ + unlike
    print("%d messages, %d answers of the Rust, seed %d, multihash %s: %d differences that are not on the list" % (
        n, 4 * n, given.seed, multihash, len(differ)))
    for size, raw, expected, got in sorted(differ)[:SHOWN]:
        print("%d bytes: %s\n  expected %s\n  printed  %s" % (size, raw[:300], expected, got))
    sys.exit(1 if differ else 0)


if __name__ == "__main__":
    main()
