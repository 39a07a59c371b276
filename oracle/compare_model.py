#!/usr/bin/env python3
"""Compares the model of the node with the Rust.

    oracle/compare_model.py [--seed N] [--count N]

Two parts of nodes.py are held to the Rust: what it reads in a body, with every refusal
and its values (10 and 11 are the scope's own), and what the node keeps. On the same bodies
the finder of places.py is held to it: it must find a refusal where the Rust has one, with
the same number, and at the Rust's own offset from where its message starts. In edition 1.2, which the
Rust does not have, both are held to editions.py, and the Rust to that in 1.1; where groups are skipped, which the
Rust refuses, both are held to groups.py. For the
second part the same histories are played on a node that keeps nothing itself but asks the
Rust's caches; every line is compared. They are played again where unsigned messages are allowed, with many messages
that have no signature; then the id under which a message is seen is the Rust's, too, by whether its `verify` says that it is signed. And again where groups are skipped,
with groups in most bodies; of a message with groups the Rust is asked about the one without them. Third, what is a key and a peer id (peers.py) on those of keys.py,
and what admission answers beside the Rust's `verify` on messages of admissions.py, with its list of
differences. The histories are the fixed ones of traces.py and
--count random ones, the bodies those of bodies.py, with ten random ones for each random
history; of the messages every so-manieth fixed one is taken. Prints the counts, and the first differences; the exit status is 0 where there
are none that are not on the list.
"""

import argparse
import collections
import itertools
import random
import sys

import admissions
import bodies
import editions
import groups
import keys
import nodes
import places
import state_histories
import traces
import wire
from compare_caches import first_difference, line_at
from compare_trace import shown, what
from compare_wire import SHOWN
from oracle import Oracle, hexed, parse_decode
from places import GROUPS, V1_1, V1_2, skips_groups
from programs import build

CHUNK = 4000
COUNT = 2000
SHORT = 40  # one of so many short bodies and short histories is taken
FEW = 7  # and one of so many fixed messages
FIELDS = ("from", "data", "seqno", "signature", "key")


class RustNode(nodes.Node):
    """A node over the Rust's caches: the scope's calls, and nothing of the model's lists."""

    def __init__(self, oracle, *settings):
        super().__init__(*settings)
        self.oracle = oracle
        self.tell("seen_new", "ok")
        self.tell("mc_new %d %d" % (self.history_len, self.max_messages), "ok")

    def tell(self, command, answer):
        told = self.oracle.ask(command)
        assert told == answer, (command, told)

    def clean(self, now):
        self.tell("seen_gc %d" % now, "ok")

    def form(self, body, index, name):
        if skips_groups(self.flags):
            _, known = nodes.Body(body, self.spoken(V1_1)).messages[index]
            body, index = bodies.tagged(2, b"".join(bodies.tagged(*part) for part in known)), 0
        told = self.oracle.ask("verify %s %d %d" % (hexed(body), index, self.flags % 2)).split(" ")
        ids = dict(word.split("=") for word in self.oracle.ask("ids %s %d" % (hexed(body), index)).split(" ")[1:])
        assert ids["id"] == name.hex(), (ids, name)
        # Keys that it has no signatures for are on the list of differences: it refuses such a message for its signature.
        signed = told[3] == "1" if told[0] == "ok" else told[1] in ("SignatureInvalid", "KeyPeerIdMismatch")
        return bytes.fromhex(ids["signed" if signed else "unsigned"])

    def is_seen(self, form):
        return self.oracle.ask("seen_contains " + form.hex()) == "yes"

    def see(self, form, now):
        self.tell("seen_insert %s %d %d %d" % (form.hex(), now, self.ttl, self.max_seen), "fresh")

    def cached(self, name):
        told = self.oracle.ask("mc_get " + hexed(name)).split(" ")
        return bytes.fromhex(told[1]) if told[0] == "some" else None

    def put(self, name, raw, topics):
        self.tell(" ".join(["mc_put_raw", name.hex(), raw.hex()] + list(map(hexed, topics))), "ok")

    def shift(self):
        self.tell("mc_shift", "ok")

    def told(self, topic, windows):
        told = self.oracle.ask("mc_gossip %s %d" % (hexed(topic), windows)).split(" ")
        return list(map(bytes.fromhex, told[2:])) if told[0] == "ok" else []


def read(body, dialect=V1_1):
    """What the model reads, in the form of the Rust's answer."""
    try:
        got = nodes.Body(body, dialect)
    except nodes.Refused as why:
        return " ".join(["refused"] + list(map(str, why.args)))
    messages = []
    for raw, known in got.messages:
        last = {field: content.hex() for field, content in known}
        messages.append([raw.hex(), [content.hex() for field, content in known if field == 4]] + [last.get(field) for field in (1, 2, 3, 5, 6)])
    return got.records, messages, *([one.hex() for one in names] for names in (got.have, got.want, got.dont))


def other_read(body, dialect):
    """The same by the model of editions and groups."""
    try:
        rpc = groups.read(body, dialect)
    except editions.Refused as why:
        return "refused " + " ".join(map(str, (why.number, *why.values)))
    messages = [[one.raw.hex(), [topic.hex() for topic in one.each("topic")]] + [None if part is None else part.hex() for part in map(one.last, FIELDS)]
                for one in rpc.each("publish")]
    entries = [pair for control in rpc.each("control") for pair in control.fields]
    return len(editions.records(rpc)), messages, *([name.hex() for kind, one in entries if kind == entry for name in one.each("messageIDs")]
                                                   for entry in ("ihave", "iwant", "idontwant"))


def rust_read(body, told):
    refused = bodies.refusal(body, told)
    if refused:
        return refused
    _, records, _, rpc = parse_decode(told)
    messages = [[one[key] for key in ("raw", "topic_ids", "from", "data", "seqno", "signature", "key")] for one in rpc["publish"]]
    control = rpc["control"] or {"ihave": [], "iwant": []}
    return records, messages, *([name for one in control[key] for name in one["message_ids"]] for key in ("ihave", "iwant")), []


def placed(expected, place):
    """Whether the finder of places has what the Rust has: a refusal 1 to 7, or none of these."""
    refused = isinstance(expected, str) and int(expected.split(" ")[1]) in (*places.OF_A_BODY, *places.OF_GROUPS)
    return places.agrees(expected, place) if refused else place is None


def some_bodies(r, count):
    yield from bodies.named()
    yield from bodies.placed()
    yield from itertools.islice(bodies.enumerated(), r.randrange(SHORT), None, SHORT)
    yield from bodies.long(r)
    yield from itertools.islice(bodies.declined(), r.randrange(SHORT), None, SHORT)
    yield from bodies.declined_long()
    yield from (bytes.fromhex(text) for text, *_ in places.EDITION_ROWS)
    yield from bodies.group_rows()
    yield from itertools.islice(bodies.group_bodies(), r.randrange(SHORT), None, SHORT)
    yield from bodies.group_long()
    for _ in range(10 * count):
        yield r.choice((bodies.random_body, bodies.random_body, bodies.messages_body, bodies.declining_body, bodies.grouped_body, bodies.grouped_messages))(r)


def compare_bodies(oracle, r, count, counts, differ):
    source = some_bodies(r, count)
    while chunk := list(itertools.islice(source, CHUNK)):
        for body, told in zip(chunk, oracle.batch("decode " + hexed(body) for body in chunk)):
            expected, got = rust_read(body, told), read(body)
            counts["body " + (" ".join(expected.split(" ")[:2]) if isinstance(expected, str) else "read")] += 1
            if expected != got:
                differ.append((["body " + body[:200].hex()], expected, got))
            if len(body) <= nodes.MAX_BODY and not placed(expected, places.find(body)):
                differ.append((["place in " + body[:200].hex()], expected, places.find(body)))
            compare_editions(body, expected, counts, differ)


def compare_editions(body, rust, counts, differ):
    """The two models and the finder of places, in 1.2 and where groups are skipped; and the Rust and the other model."""
    if other_read(body, V1_1) != rust:
        differ.append((["body in 1.1 " + body[:200].hex()], rust, other_read(body, V1_1)))
    for dialect, name in ((V1_2, "1.2"), (V1_1 | GROUPS, "1.1 with groups"), (V1_2 | GROUPS, "1.2 with groups")):
        expected, got = other_read(body, dialect), read(body, dialect)
        counts["body in %s %s" % (name, " ".join(expected.split(" ")[:2]) if isinstance(expected, str) else "read")] += 1
        if expected != got:
            differ.append((["body in %s %s" % (name, body[:200].hex())], expected, got))
        if len(body) <= nodes.MAX_BODY and not placed(expected, places.find(body, dialect)):
            differ.append((["place in %s in %s" % (name, body[:200].hex())], expected, places.find(body, dialect)))


def compare_history(oracle, steps, flags, counts, differ):
    data = nodes.records(steps)
    expected = nodes.expected(data, lambda *settings: RustNode(oracle, *settings, flags))
    got = nodes.expected(data, lambda *settings: nodes.Node(*settings, flags))
    counts.update(("flags %d: " % flags if flags else "") + what(line) for line in expected)
    n = first_difference(expected, got)
    if n is not None:
        differ.append((["flags %d" % flags, *map(shown, steps[:n + 1])], line_at(expected, n), line_at(got, n)))


def of_both_forms():
    """Short histories of both forms of a message, as a trace has them."""
    for steps in state_histories.short_mark_histories(3):
        yield [("set", *step[1:-1]) if step[0] == "flagged" else (step[0], *step[2:]) if step[0] in state_histories.ROOMED else step
               for step in steps if step[0] != "contains"]


def compare_histories(oracle, r, count, counts, differ):
    short = itertools.islice(traces.short_histories(), r.randrange(SHORT), None, SHORT)
    for steps in itertools.chain(traces.named(), traces.declined_histories(), short, (traces.some_history(r) for _ in range(count))):
        compare_history(oracle, steps, 0, counts, differ)
    assert oracle.ask("word 1") == "ok"
    random_ones = (traces.some_history(r) for _ in range(count))
    for steps in itertools.chain(traces.named(), (traces.loosely(r, steps) for steps in itertools.chain(traces.named(), random_ones)), of_both_forms()):
        compare_history(oracle, steps, nodes.ALLOW_UNSIGNED, counts, differ)
    random_ones = (traces.some_history(r) for _ in range(count))
    for n, steps in enumerate(itertools.chain(traces.named(), random_ones)):
        steps = traces.loosely(r, steps) if n % 2 else steps
        compare_history(oracle, [traces.grouped(r, step) for step in steps], GROUPS | n % 2, counts, differ)


def compare_keys(oracle, r, count, counts, differ):
    cases = [*keys.named(), *keys.edges(), *keys.tenths()] + [keys.random_case(r) for _ in range(10 * count)]
    for (call, data, _), told in zip(cases, oracle.batch(map(wire.command, cases))):
        rust, model = keys.answer(call, data, told), keys.model(call, data)
        counts[" ".join(rust.split(" ")[:3 if " refused " in rust else 2])] += 1
        if rust != model and not keys.listed(call, data, rust):
            differ.append((["%s %s" % (call, data[:200].hex())], rust, model))


def compare_admissions(oracle, r, count, counts, differ):
    cases = [*itertools.islice(admissions.admits(r, 0), r.randrange(FEW), None, FEW), *(one for one in admissions.admits(r, count, ()))]
    beside = admissions.Beside()
    for (_, _, raw, known), word, flags, rust in admissions.verified(oracle, cases):
        beside.look(raw, known, word, flags, admissions.modelled(raw, known, word, flags), rust)
    counts.update({"admission: " + name: k for name, k in beside.counts.items()})
    differ.extend(([raw[:400]], rust, ours) for _, raw, rust, ours in beside.differ)


def main():
    parser = argparse.ArgumentParser(description=__doc__.split("\n")[0])
    parser.add_argument("--seed", type=int, default=1)
    parser.add_argument("--count", type=int, default=COUNT)
    given = parser.parse_args()
    build()
    r, counts, differ = random.Random(given.seed), collections.Counter(), []
    with Oracle() as oracle:
        compare_bodies(oracle, r, given.count, counts, differ)
        compare_histories(oracle, r, given.count, counts, differ)
        compare_keys(oracle, r, given.count, counts, differ)
        compare_admissions(oracle, r, given.count, counts, differ)
    for name, k in sorted(counts.items()):
        print("%-68s %8d" % (name, k))
    print("%d bodies, lines, keys and messages, seed %d: %d differences" % (sum(counts.values()), given.seed, len(differ)))
    for steps, expected, got in sorted(differ, key=lambda one: len(one[0]))[:SHOWN]:
        for step in steps:
            print("    " + step)
        print("  the Rust  %s\n  the model %s" % (str(expected)[:300], str(got)[:300]))
    sys.exit(1 if differ else 0)


if __name__ == "__main__":
    main()
