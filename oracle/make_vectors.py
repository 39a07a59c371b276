#!/usr/bin/env python3
"""Makes stdin and stdout in crates/inspect and in crates/caches.

    oracle/make_vectors.py

The records of `inspect` are the rows of the scope, a few of the short inputs,
bodies of 65,536 and 65,537 bytes and of 511 to 513 records, and random ones
(wire.py, bodies.py, seeds below). A second part has encode, sign and id of some 700
bodies, and the topics of the scope by every call. Those of `caches` are the fixed
histories of caches.py and some random ones; they show every call and every refusal.
Both have rows about the place of a refusal at their end; after them `caches` has
unsigned messages, with the flags that allow them and without, and `inspect` has public
keys and peer ids (keys.py), and lists to write from (lists.py): the rows of the scope,
some of the fixed ones and random ones. Then come bodies in both editions, by the kinds
that have a dialect, and puts in both; last bodies with groups, in every dialect, and puts of
messages with groups where these are skipped and where not. The answers in stdout are the Rust's,
from the oracle, never the program's; the limits that the Rust does not have are the
scope's own, the places are those of places.py, and what is said in 1.2 and where groups are skipped is that of editions.py and groups.py. Each run
ends with a length that is too long, its kind cut off.
"""

import os
import random

import bodies
import caches
import editions
import groups
import keys
import lists
import wire
from oracle import HERE, Oracle
from places import DIALECTS, EDITION_ROWS, EDITIONS, GROUPS, OF_GROUPS, V1_1, V1_2
from programs import build

SEED = 20
RANDOM = 1300
BODIES_SEED = 21
RANDOM_BODIES = 320
WRITES_SEED = 22
RANDOM_WRITES = 400
RANDOM_MESSAGES = 60
KEYS_SEED = 25
SOME_EDGES = 120
SOME_TENTHS = 40
RANDOM_KEYS = 200
LISTS_SEED = 26
SOME_LISTS = 150
RANDOM_LISTS = 150
SHORT_LISTS = 800
EDITIONS_SEED = 27
SOME_DECLINED = 60
RANDOM_DECLINED = 130
SHORT_DECLINED = 200
GROUPS_SEED = 28
SOME_GROUPS = 60
RANDOM_GROUPS = 90
SHORT_GROUPS = 120
CACHES_SEED = 23
CACHES_RECORDS = 1950


def chosen(r):
    yield from wire.named()
    yield from r.sample(list(wire.enumerated()), 250)
    yield ("walk", b"\x0a" + wire.varint(65533) + bytes(65533), 0)
    for _ in range(RANDOM):
        yield wire.random_case(r)


def chosen_bodies(r):
    yield from bodies.named()
    for size in (65536, 65537):
        yield bodies.filled(size, 4)
    for n in (511, 512, 513):
        yield bodies.many(r, n)
    yield b"\x0a\x00" * 513 + b"\x0b"
    for data in r.sample(list(wire.utf8_rows()), 12):
        yield from bodies.topic_bodies(data)
    for _ in range(RANDOM_BODIES):
        yield bodies.random_body(r)


def topics():
    for topic in bodies.TOPICS:
        yield from bodies.topic_bodies(topic)


def chosen_writes(r):
    yield from r.sample(list(bodies.id_bodies()), 80)
    yield from r.sample(list(bodies.enumerated()), 60)
    for n in (512, 513):
        yield bodies.many(r, n)
        yield b"\x12\x00" * n
    yield b"\x12\x00" * 513 + b"\x0b"
    for _ in range(RANDOM_WRITES):
        yield bodies.random_body(r)
    for _ in range(RANDOM_MESSAGES):
        yield bodies.messages_body(r)


def write_cases(r, oracle):
    """Every case of the rows and the topics of the scope; of other bodies encode, and sign and id at one index."""
    def cases(body):
        told = oracle.ask(wire.command(("encode", body, 0)))
        return [case for case, _ in bodies.write_cases(body, bodies.written(body, told))]

    for body in list(bodies.named()) + list(topics()):
        yield from cases(body)
    for body in chosen_writes(r):
        first, *rest = cases(body)
        at = 2 * r.choice((0, r.randrange(len(rest) // 2)))
        yield from (first, *rest[at:at + 2])


def long_writes():
    """The longest sign bytes, and the body that is too long."""
    yield ("sign", bodies.tagged(2, bodies.tagged(2, bytes(wire.MAX_BODY - 8))), 0)
    for call in ("encode", "sign", "id"):
        yield (call, bodies.filled(wire.MAX_BODY + 1, 4), 0)


def placed_cases(there):
    """The rows about the place of a refusal that are not there yet, by decode; and by each other call the one that stands deepest."""
    for body in bodies.placed():
        if ("decode", body, 0) not in there:
            yield ("decode", body, 0)
    deepest = bytes.fromhex("1a06220412020a05")
    yield from [("encode", deepest, 0), ("sign", deepest, 0), ("id", deepest, 0), ("walk", deepest, 0), ("walk", deepest, 6)]


def chosen_keys(r):
    """The rows of the scope and what else is fixed, the longest key, some of the edges and random ones."""
    yield from keys.named()
    yield ("key", keys.key_bytes(0, bytes(wire.MAX_CONTENT - 6)), 0)
    yield from r.sample([case for case in keys.edges() if len(case[1]) <= 400], SOME_EDGES)
    yield from r.sample(list(keys.tenths()), SOME_TENTHS)
    for _ in range(RANDOM_KEYS):
        yield keys.random_case(r)


def chosen_lists(r):
    """The rows of the scope, the shortest fixed case of each refusal, and some fixed and random ones that are short."""
    scope = [case for case, _ in lists.scope()]
    yield from scope
    others = list(lists.fixed_cases(r))[len(scope):]
    shortest = {}
    for case in sorted(others, key=lambda case: len(lists.record(case))):
        if refused := lists.judged(case)[1]:
            shortest.setdefault((case[0], refused.split(" ")[1]), case)
    yield from shortest.values()

    def short(cases):
        return [case for case in cases if len(lists.record(case)) <= SHORT_LISTS]
    yield from r.sample(short(others), SOME_LISTS)
    yield from short(lists.random_cases(r, RANDOM_LISTS))


def chosen_editions(r):
    """The rows of the scope, each refusal in an IDONTWANT, the most records, some of the fixed ones and random ones that are short; among these messages, too."""
    there = [bytes.fromhex(text) for text, *_ in EDITION_ROWS]
    yield from there
    yield from (body for body in bodies.placed(V1_2) if body not in set(bodies.placed()))
    for ids in (511, 512):
        yield bodies.tagged(3, bodies.tagged(5, b"\x0a\x00" * ids))
    short = [body for body in bodies.declined() if len(body) <= SHORT_DECLINED]
    yield from r.sample(short[-len(short) // 20:], SOME_DECLINED)
    yield from r.sample(short, SOME_DECLINED)
    made = (bodies.declining_body(r) + (bodies.random_message(r) if r.randrange(3) == 0 else b"") for _ in range(RANDOM_DECLINED))
    yield from (body for body in made if len(body) <= SHORT_DECLINED)


def edition_cases(r):
    """(case, edition): of each body decode and encode in both editions; of those with a message its sign bytes and its id."""
    for body in chosen_editions(r):
        calls = ["decode", "encode"] + (["sign", "id"] if any((field, wire) == (2, 2) for field, wire, _ in caches.cut(body)) else [])
        for call in calls:
            for edition in EDITIONS:
                yield (call, body, 0), edition


def edition_lines(oracle, cases):
    """Their lines: the Rust's in 1.1, the model's in 1.2; each refusal of a body is met in both, and in an IDONTWANT."""
    told = []
    for case, edition in cases:
        asked = wire.command(case)
        told.append("\n".join(lines(case, asked, oracle.ask(asked)) if edition == V1_1 else editions.lines(case, edition)))
    met = {line.split(" ")[2] for line in told if " refused " in line and line.endswith(" in 3 5")}
    assert met == set("123456"), met
    return told


def chosen_groups(r):
    """The rows of the scope, some of the fixed ones and random ones that are short; among these messages, too."""
    yield from bodies.group_rows()

    def short(some):
        return [body for body in some if len(body) <= SHORT_GROUPS]
    for some in (bodies.group_bodies(), bodies.deep_bodies(), bodies.placed_groups()):
        yield from r.sample(short(some), SOME_GROUPS)
    yield from short(r.choice((bodies.grouped_body, bodies.grouped_messages))(r) for _ in range(RANDOM_GROUPS))


def group_cases(r):
    """(case, dialect): of each body decode in every dialect, and encode where groups are skipped; of those with a message its sign bytes and its id; a step of a walk from
    its start and from another place. Last the most records, which groups are none of, and the longest group."""
    for body in chosen_groups(r):
        yield from ((("decode", body, 0), dialect) for dialect in DIALECTS)
        calls = ["encode"] + (["sign", "id"] if any((field, wire) == (2, 2) for field, wire, *_ in caches.cut(body, GROUPS)) else [])
        yield from (((call, body, 0), edition | GROUPS) for call in calls for edition in (V1_1, V1_2)[:2 if call == "encode" else 1])
        yield from ((("walk", body, place), dialect) for place in (0, r.randrange(len(body) + 1)) for dialect in r.sample(DIALECTS, 2))
    for body in (*(b"\x0a\x00" * n + bodies.group(1, b"\x0a\x00" * 3) for n in (512, 513)), bodies.group(1, b"\x08\x00" * 32767)):
        yield ("encode", body, 0), V1_2 | GROUPS


def group_lines(oracle, cases):
    """Their lines: the Rust's in 1.1 where groups are refused, else the models'; 14 to 16 are met where groups are skipped, and not where they are refused."""
    told = []
    for case, dialect in cases:
        asked = wire.command(case)
        told.append("\n".join(lines(case, asked, oracle.ask(asked)) if dialect == V1_1 else groups.lines(case, dialect)))
    met = {(case[0], dialect // GROUPS, int(line.split(" ")[2])) for (case, dialect), line in zip(cases, told) if " refused " in line.split("\n")[0]}
    assert all((call, 1, number) in met and (call, 0, number) not in met for call in ("decode", "encode", "walk") for number in OF_GROUPS), met
    return told


def list_lines(oracle, cases):
    """The lines of cases of lists, without their numbers."""
    told = [lists.answer(case, oracle.ask) for case in cases]
    met = {(words[0], int(words[2])) for words in (line.split(" ") for line in told) if words[1] == "refused"}
    assert met == {(call, number) for call, numbers in lists.REFUSALS.items() for number in numbers}, met
    return told


def lines(case, asked, told):
    if case[0] in ("key", "peer"):
        line = keys.answer(case[0], case[1], told)
        # Of ten bytes, where the published crate multihash loses some bits, the scope's answer stands (docs/DIFFERENCES.md).
        return [keys.model(*case[:2]) if keys.listed(*case[:2], line) else line]
    if case[0] == "decode":
        return bodies.answer(case[1], told)
    if case[0] in bodies.ROOM:
        return [bodies.write_line(case[0], case[2], bodies.written(case[1], told))]
    return [wire.answer(asked, told)]


def save(name, records, lines):
    """A run that ends with `long`: its records, and the lines without their numbers."""
    folder = os.path.join(HERE, "../crates", name)
    os.makedirs(folder, exist_ok=True)
    with open(os.path.join(folder, "stdin"), "wb") as out:
        for one in records:
            out.write(one)
        out.write(wire.header(wire.MAX_CONTENT + 1, 7)[:4])
    with open(os.path.join(folder, "stdout"), "w") as out:
        for n, line in enumerate(lines, 1):
            out.write("%d %s\n" % (n, line))
        out.write("long\n")
    print("%s: %d records" % (name, len(records)))


def make_inspect(oracle):
    cases = list(chosen(random.Random(SEED)))
    cases += [("decode", body, 0) for body in chosen_bodies(random.Random(BODIES_SEED))]
    cases += [("decode", body, 0) for body in topics()]
    cases += write_cases(random.Random(WRITES_SEED), oracle)
    cases += long_writes()
    cases += placed_cases({case for case in cases if case[0] == "decode"})
    cases += chosen_keys(random.Random(KEYS_SEED))
    commands = [wire.command(case) for case in cases]
    answers = oracle.batch(commands)
    of_lists = list(chosen_lists(random.Random(LISTS_SEED)))
    of_editions = list(edition_cases(random.Random(EDITIONS_SEED)))
    of_groups = list(group_cases(random.Random(GROUPS_SEED)))
    save("inspect", [wire.record(case) for case in cases] + [lists.record(case) for case in of_lists] + [wire.record(*case) for case in of_editions + of_groups],
         ["\n".join(lines(*one)) for one in zip(cases, commands, answers)] + list_lines(oracle, of_lists) + edition_lines(oracle, of_editions)
         + group_lines(oracle, of_groups))


def make_caches(oracle):
    r = random.Random(CACHES_SEED)
    steps = [step for one in caches.named() for step in one]
    while len(steps) < CACHES_RECORDS:
        steps += caches.history(r)
    steps += [step for one in caches.placed_named() for step in one]
    steps += [step for one in caches.flag_named() for step in one]
    steps += [step for one in caches.edition_named(few=True) for step in one]
    steps += [step for one in caches.group_named(few=True) for step in one]
    told = [line.split(" ", 1)[1] for line in caches.expected(oracle, caches.records(steps))]
    assert len(told) == len(steps) and {step[0] for step in steps} == set(caches.FORM)
    refused = {tuple(line.split(" ")[0:3:2]) for line in told if line.split(" ")[1] == "refused"}
    assert refused == {(call, str(number)) for call, numbers in caches.REFUSALS.items() for number in numbers}
    save("caches", [caches.record(step) for step in steps], told)


def main():
    build()
    with Oracle() as oracle:
        make_inspect(oracle)
        make_caches(oracle)


if __name__ == "__main__":
    main()
