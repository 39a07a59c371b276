#!/usr/bin/env python3
"""Compares the program `states` with a model of the node and of its stores, by running both.

    oracle/compare_states.py BINARY [--seed N] [--count N]

BINARY is target/bin/states, after `tools/build states`. The model is states.py, over the node of
nodes.py. The histories (state_histories.py) are fixed ones, each a run of its own: every refusal
with its values, every clause of 42 broken alone, states that look odd and are well formed, stores
of other lengths, buffers that just fit and just do not, full capacities, arrival numbers at the
wrap, unsigned messages where they are allowed and where not, bodies in either edition, second bodies of serve, groups where they are skipped and where not;
the fixed histories of `trace`, many in one run, in 1.1 and in mixed editions, and short ones of both forms of a message; and --count random ones, in which numbers of
the state are set. Then come runs that end in `bad` or `long`, whose texts are written here. Every
line is compared; the place behind a refusal 1 to 7 is that of places.py. Prints the counts, and the first differences with the fewest steps found that
lead to them; the exit status is 0 where there are none.
"""

import collections
import itertools
import random
import sys

import peers
import state_histories
import states
from compare_wire import arguments
from differences import Model, first_difference, line_at, printed_by, sort_of
from records import header
from state_histories import STATE, cut_why, edition_table, flag_table, group_table, loose_rows
from states import MAX_CONTENT, record, records
from traces import beat, senders

CHUNK = 400
COUNT = 2000
SHOWN_BYTES = 200
SHOWN_STEPS = 40


def answered(words):
    if words[1] in ("advertise", "ask"):
        return words[1] + (" nothing" if words[2] == "0" else " bytes")
    if words[1] == "serve":
        return words[1] + (" nothing" if words[2] == "0" else " bytes" if words[-1] == "0" else " some left")
    return words[1] if words[1] == "state" else " ".join(words[1:3])  # of `why` in a window, without its age


def what(line):
    return sort_of(line, answered)


def shown(step):
    return " ".join(one[:SHOWN_BYTES].hex() + ("... %d bytes" % len(one) if len(one) > SHOWN_BYTES else "") if isinstance(one, bytes) else str(one)
                    for one in step)


class Broken:
    """How often a call met a node with one clause of 42 broken."""

    def __init__(self):
        self.alone = collections.Counter()

    def watch(self, run, step):
        if step[0] in ("admit", "beat") and run.seen_len == run.max_seen * states.ROW and run.cache_len == run.cache.max_messages * states.MAX_MESSAGE:
            broken = run.broken()
            self.alone.update(broken if len(broken) == 1 else [])


def play(binary, histories, counts, differ, watch=None):
    """Histories in one run; the first difference, as (steps to it, expected, printed)."""
    steps = list(itertools.chain.from_iterable(histories))
    data = records(steps)
    told = states.expected(data, watch)
    counts.update(map(what, told))
    printed = printed_by(binary, data)
    n = first_difference(told + [""], printed)
    if n is not None:
        differ.append((steps[:n + 1], line_at(told, n), line_at(printed, n)))


def endings():
    """(what it is, input, text): runs that end early."""
    begun, ok, most = record(("set", 10, 4, 2, 4)), "1 set ok\n", MAX_CONTENT
    nothing = "1 state 0 0 0 0 0 0 0 0 0\n"
    yield "nothing", b"", ""
    yield "state first", record(STATE), nothing
    yield "state with content", header(3, 11) + b"abc", nothing
    yield "calls before settings", records([beat(5), ("contains", b""), ("lookup", b""), ("ask", 0, b""), ("serve", 0, b""), ("advertise", 0, 0, b"")]), \
        "1 beat ok\n2 contains no\n3 lookup missing\n4 ask 0\n5 serve 0 0 0\n6 advertise 0\n"
    for n in range(1, 6):
        yield "header cut after %d bytes" % n, begun[:n], "bad\n"
    for n in range(6, 20):
        yield "settings cut after %d bytes" % n, begun[:n], "bad\n"
    for n in (4, 5, 6):
        yield "too long, %d bytes of the header" % n, begun + header(most + 1, 11)[:n], ok + "long\n"
    yield "the longest content", begun + header(most, 11) + bytes(most) + begun, ok + "2 state 0 0 0 0 0 0 0 0 0\n3 set ok\n"
    yield "the longest content, cut", begun + header(most, 11) + bytes(most - 1), ok + "bad\n"
    for kind in (0, 13, 14, 20, 23, 24, 27, 255, 256, 257, 0x0b00, 65535):
        for n in (0, 14):
            yield "kind %d with %d bytes" % (kind, n), begun + header(n, kind) + bytes(n) + begun, ok + "bad\n"
    for size, rest in ((1, 0), (3, 2), (256, 255), (65535, 300)):
        yield "why of an id of %d bytes in %d" % (size, rest), begun + cut_why(size, rest) + begun, ok + "bad\n"
    yield "why of the longest id and topic", begun + records([("why", 0, bytes(65535), b"t"), ("why", 0, b"", b"t" * (most - 4)), ("why", 0, b"", b"")]), \
        ok + "2 why missing\n3 why refused 29 65596\n4 why missing\n"
    rows = peers.ROWS + peers.MORE_ROWS
    for word, answer in ((1, str), (0, peers.without_word)):
        yield "senders, word %d" % word, records(senders(rows, word)), ok + "".join("%d admit %s\n" % (n, answer(told)) for n, (_, told) in enumerate(rows, 2))
    rows = peers.UNSIGNED_ROWS
    for flags, word in itertools.product((0, 1, 2, 3), (1, 0)):
        yield "unsigned messages, flags %d, word %d" % (flags, word), records(loose_rows(rows, flags, word)), \
            ok + "".join("%d admit %s\n" % (n, row[1 + flags % 2]) for n, row in enumerate(rows, 2))
    table = list(flag_table())
    yield "the scope's unsigned messages", records([step for step, _ in table]), \
        "".join("%d %s %s\n" % (n, states.CALLED.get(step[0], step[0]), told) for n, (step, told) in enumerate(table, 1))
    table = list(edition_table())
    yield "the scope's editions", records([step for step, _ in table]), \
        "".join("%d %s %s\n" % (n, states.CALLED.get(step[0], step[0]), told) for n, (step, told) in enumerate(table, 1))
    table = list(group_table())
    yield "the scope's groups", records([step for step, _ in table]), \
        "".join("%d %s %s\n" % (n, states.CALLED.get(step[0], step[0]), told) for n, (step, told) in enumerate(table, 1))
    for edition in (2, 3, 128, 255):
        for step in (("admit_in", edition, 5, 0, 1, b""), ("ask_in", edition, 0, b""), ("serve_in", edition, 0, b"", b"")):
            yield "%s %d" % step[:2], begun + record(step) + begun, ok + "bad\n"
    for size, rest in ((1, 0), (3, 2), (256, 255), (65536, 300), (2**31, 9), (2**32 - 1, 9)):
        for edition in (0, 1):
            content = bytes([edition]) + bytes(4) + size.to_bytes(4, "little") + bytes(rest)
            yield "a second body of %d bytes in %d" % (size, rest), begun + header(len(content), 26) + content + begun, ok + "bad\n"
    yield "the longest second body", begun + records([("serve_in", 1, 0, bytes(most - 9), b""), ("serve_in", 0, 0, b"", bytes(most - 9)), ("serve_in", 0, 0, b"", b"")]), \
        ok + "2 serve refused 10 65591\n3 serve refused 10 65591\n4 serve 0 0 0\n"
    for flags in (4, 5, 7, 255, 256, 257, 65535):
        yield "flags %d" % flags, records([("flagged", 10, 4, 2, 4, flags), beat(5)]), "1 set refused 40\n2 beat ok\n"
    for call, (kind, _, rest) in states.FORM.items():
        least = states.RECORDS.least(call)
        for n in range(least):
            yield "%s with %d bytes" % (call, n), begun + header(n, kind) + bytes(n) + begun, ok + "bad\n"
        for n in (least + 1, least + 2, least + 256) if not rest else ():
            yield "%s with %d bytes" % (call, n), begun + header(n, kind) + bytes(n) + begun, ok + "bad\n"
    for call, *given in (("advertise", 0, b"t"), ("ask", b""), ("serve", b""), ("ask_in", b""), ("serve_in", b"", b"")):
        for room in (65601, 65602, 2**31, 2**32 - 1):
            before = [1] if call.endswith("_in") else []
            yield "%s with room %d" % (call, room), begun + record((call, *before, room, *given)) + begun, ok + "bad\n"
    for step in (("lend", states.SEEN_BYTES + 1, 0), ("lend", 0, states.CACHE_BYTES + 1), ("lend", 2**32 - 1, 0), ("lend", 0, 2**32 - 1)):
        yield "lend %d %d" % step[1:], begun + record(step) + begun, ok + "bad\n"


def main():
    given = arguments(__doc__, COUNT, "states", rust=False)
    r = random.Random(given.seed)
    counts, differ, broken = collections.Counter(), [], Broken()
    fixed = random_ones = others = runs = 0
    for steps in state_histories.named():
        play(given.binary, [steps], counts, differ, broken.watch)
        fixed += 1
    source = state_histories.of_traces()
    while chunk := list(itertools.islice(source, CHUNK)):
        play(given.binary, chunk, counts, differ)
        others += len(chunk)
    for _ in range(given.count):
        play(given.binary, [state_histories.history(r)], counts, differ, broken.watch)
        random_ones += 1
    for name, data, text in endings():
        told, printed = text.split("\n"), printed_by(given.binary, data)
        assert told[:-1] == states.expected(data), name
        counts.update(map(what, told[:-1]))
        n = first_difference(told, printed)
        if n is not None:
            differ.append(("%s: bytes %s" % (name, data[:SHOWN_BYTES].hex()), line_at(told, n), line_at(printed, n)))
        runs += 1
    for name, k in sorted(counts.items()):
        print("%-28s %8d" % (name, k))
    for clause in states.CLAUSES:
        print("%-38s %6d" % ("42 alone: " + clause, broken.alone[clause]))
    missing = {(call, number) for call, numbers in states.REFUSALS.items() for number in numbers if not counts["%s refused %d" % (call, number)]}
    assert not missing and all(broken.alone[clause] for clause in states.CLAUSES), missing
    print("%d fixed histories, %d of traces, %d random ones and %d runs that end early, %d lines, seed %d: %d differences"
          % (fixed, others, random_ones, runs, sum(counts.values()), given.seed, len(differ)))
    Model(given.binary, records, states.expected, shown, SHOWN_STEPS).report(differ)
    sys.exit(1 if differ else 0)


if __name__ == "__main__":
    main()
