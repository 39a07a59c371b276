#!/usr/bin/env python3
"""Holds the program `trace` to the sentences on the lifetime of a notice, by running it.

    oracle/compare_lifetime.py BINARY [--seed N] [--count N]

BINARY is target/bin/trace, after `tools/build trace`. All histories of four calls are played
for nine small settings, over admits of two notices and a heartbeat at three readings; and
--count random ones, each of one node with a small ttl and max_seen: admits of a few notices
and heartbeats, at readings that mostly stand or go on a little and sometimes step back. From
the lines that are printed, and from nothing else, it is tested (docs/SCOPE.md, "Never twice
within a lifetime"):

  - two admits that answer new for one notice are at least ttl apart, or at least max_seen
    others between them answer new;
  - an admit that is taken less than ttl after its notice was new, with fewer than max_seen
    others new since, answers dup;
  - the same history without the calls that step back has the same other lines;
  - where at most max_seen + 1 admits answer new within any stretch of ttl, none of them is
    of a notice that was new within it.

Prints how often each was tested, and how often a bound was met with equality; then the
first histories that fail, if any. The exit status is 0 where there are none.
"""

import collections
import itertools
import random
import sys
import tempfile

import nodes
from compare_decode import run
from compare_trace import shown
from compare_wire import arguments
from nodes import TOP
from peers import A
from traces import admit, beat, x_body

CHUNK = 1000
COUNT = 4000
NOTICES = [x_body(A, bytes([n])) for n in range(1, 7)]
NEW, DUP = "new", "dup"


def reading(step):
    return step[1] if step[0] in ("admit", "beat") else None


def notice(step):
    return step[4] if step[0] == "admit" else None


def short():
    """All histories of four calls."""
    calls = [call for at in (1, 2, 3) for call in (admit(at, NOTICES[0]), admit(at, NOTICES[1]), beat(at))]
    for ttl, most in itertools.product((0, 1, 2), (0, 1, 2)):
        for some in itertools.product(calls, repeat=4):
            yield [("set", ttl, most, 2, 4), *some]


def history(r):
    """Settings, and then calls at the readings of one clock."""
    ttl = r.choice([0, 1, 2, 5, 10, 10, 50, 2**64 - 10])
    steps = [("set", ttl, r.choice([0, 1, 1, 2, 2, 3, 4]), 2, r.choice([0, 2, 8]))]
    few, now = NOTICES[:r.randint(1, len(NOTICES))], r.choice([0, 0, 100, TOP - 200, TOP - 30])
    for _ in range(r.randint(2, 40)):
        now = min(TOP, now + r.choice([0, 0, 0, 1, 1, 2, 5, ttl % 64, max(ttl % 64 - 1, 0)]))
        at = max(0, now - r.choice([1, 1, 5, 50])) if r.random() < 0.15 else now
        steps.append(beat(at) if r.random() < 0.1 else admit(at, r.choice(few)))
    return steps


def answers(lines):
    """Of each line its words behind the number and the call."""
    return [" ".join(line.split()[2:]) for line in lines]


def steps_back(steps):
    """Which calls step back: their readings are below that of a call before them which did not."""
    clock, back = 0, []
    for step in steps:
        at = reading(step)
        back.append(at is not None and at < clock)
        if at is not None and at >= clock:
            clock = at
    return back


class Wrong(Exception):
    pass


def hold(condition, what):
    if not condition:
        raise Wrong(what)


def test(steps, told, counts):
    """The sentences on one history with its answers."""
    _, ttl, most = steps[0][:3]
    made = [n for n, answer in enumerate(told) if answer == NEW]
    for j, step in enumerate(steps):
        if told[j] not in (NEW, DUP) or reading(step) == TOP:
            continue
        for i in (n for n in made if n < j and notice(steps[n]) == notice(step)):
            others = sum(1 for n in made if i < n < j and notice(steps[n]) != notice(step))
            late, crowded = reading(steps[i]) + ttl <= reading(step), others >= most
            if told[j] == NEW:
                hold(late or crowded, "new at %d and at %d" % (i, j))
                counts["pairs that are new"] += 1
                counts["exactly ttl later, too few others"] += reading(steps[i]) + ttl == reading(step) and not crowded
                counts["exactly max_seen others, within ttl"] += others == most and not late
            elif not late and not crowded:
                counts["taken again, within both bounds"] += 1
            if not late and not crowded:
                hold(told[j] == DUP, "new within both bounds at %d" % j)
    at = [reading(steps[n]) for n in made]
    if TOP not in at and all(sum(1 for t in at if start <= t < start + ttl) <= most + 1 for start in at):
        counts["few enough within ttl"] += 1
        hold(all(reading(steps[i]) + ttl <= reading(steps[j]) for i in made for j in made if i < j and notice(steps[i]) == notice(steps[j])), "new twice within ttl")


def main():
    given = arguments(__doc__, COUNT, "trace", rust=False)
    r = random.Random(given.seed)
    counts, wrong, played = collections.Counter(), [], 0
    source = itertools.chain(short(), (history(r) for _ in range(given.count)))
    with tempfile.TemporaryDirectory() as folder:
        while chunk := list(itertools.islice(source, CHUNK)):
            played += len(chunk)
            kept = [[step for step, back in zip(steps, steps_back(steps)) if not back] for steps in chunk]
            whole, fewer = (answers(run(given.binary, [b"".join(map(nodes.records, all_of))], folder)) for all_of in (chunk, kept))
            for steps, some in zip(chunk, kept):
                told, whole = whole[:len(steps)], whole[len(steps):]
                rest, fewer = fewer[:len(some)], fewer[len(some):]
                back = steps_back(steps)
                try:
                    test(steps, told, counts)
                    hold(all(answer.startswith("refused 31") == was for answer, was in zip(told, back)), "31 where nothing steps back, or the other way round")
                    hold([answer for answer, was in zip(told, back) if not was] == rest, "another answer without the calls that step back")
                except Wrong as why:
                    wrong.append((why, steps))
                counts["calls that step back"] += sum(back)
                counts["calls"] += len(steps)
    for name, k in sorted(counts.items()):
        print("%-36s %8d" % (name, k))
    print("%d histories, seed %d: %d that fail" % (played, given.seed, len(wrong)))
    for why, steps in wrong[:3]:
        print("\n# %s" % why)
        print("\n".join(map(shown, steps)))
    sys.exit(1 if wrong else 0)


if __name__ == "__main__":
    main()
