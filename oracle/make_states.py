#!/usr/bin/env python3
"""Makes stdin and stdout in crates/states.

    oracle/make_states.py [BINARY]

The input meets every refusal that the program can show (10 once, by ask), breaks every clause of
42 alone, and has states that look odd and are well formed, stores of other lengths, buffers
that just fit and just do not, full capacities, arrival numbers at the wrap, rows that left and come
back, maxima of 0, messages with topics of every sort, each answer of `why`, refusals in each
message of a body, with their places, senders and keys of every sort, unsigned messages with
the flags that allow them and without, bodies in either edition, with second bodies of serve, and groups, where they are skipped and where not (state_histories.py).
A reply about 65,536 bytes would be too long for it: compare_states.py has those. The answers in
stdout are the model's (states.py), never the program's; `rt ci` holds the program to them. With
BINARY, target/bin/states, they are compared at once.
"""

import collections
import os
import sys

import programs
import state_histories
import states
from caches import padded
from compare_states import Broken, printed_by, what
from nodes import MAX_BODY, ROOM
from oracle import HERE
from state_histories import STATE, admit, tells, turned

# Of both files together, so that the gate stays quick. It was 310,000 before senders were peer ids: the records that stood there stay, and ids grew;
# 400,000 before there were unsigned messages, 430,000 before there were editions, and 470,000 before groups could be skipped.
MOST_BYTES = 515000


def histories():
    yield turned().add(admit(20, b"", 1), *state_histories.CALLS).steps
    yield state_histories.each_refusal()
    # 10, of one call only: the others would be as long again.
    yield turned().add(("ask", ROOM, padded(tells(b"A\x04", b"B"), MAX_BODY + 1)), STATE).steps
    *broken, topics = state_histories.broken_once()
    yield from broken
    yield from state_histories.odd_histories(True, state_histories.ODD_FINDERS[:3])
    for part in (state_histories.lent_histories, state_histories.buffer_histories):
        yield from part(few=True)
    yield state_histories.full_in_few_bytes()
    yield from list(state_histories.wrap_histories())[4:8:3]
    unused = list(state_histories.unused_histories())
    yield from unused[1:2] + unused[10:14]
    yield from list(state_histories.small_histories())[:3]
    # Where topics are kept.
    yield topics
    yield from state_histories.odd_histories(True, state_histories.ODD_FINDERS[3:5])
    yield from state_histories.kept_histories(few=True)
    yield from list(state_histories.reuse_histories())[3:13:3]
    # Why an id is not told of.
    yield state_histories.why_in_few_bytes()
    # Where in a body a refusal stands.
    yield state_histories.placed_in_few_bytes()
    # What a sender and its key must be.
    yield state_histories.senders_in_few_bytes()
    # Which messages need no signature.
    yield state_histories.flags_in_few_bytes()
    # In which edition a body is read, and what is left out of a reply.
    yield state_histories.editions_in_few_bytes()
    # Which groups are skipped.
    yield state_histories.groups_in_few_bytes()


def main():
    binary = programs.running(sys.argv[1], "states") if len(sys.argv) > 1 else None
    steps = [step for one in histories() for step in one]
    data, broken = states.records(steps), Broken()
    lines = states.expected(data, broken.watch)
    text = "".join(line + "\n" for line in lines)
    counts = collections.Counter(map(what, lines))
    missing = {(call, number) for call, numbers in states.REFUSALS.items() for number in numbers if not counts["%s refused %d" % (call, number)]}
    assert missing <= {("admit", 10), ("serve", 10)}, missing
    assert all(broken.alone[clause] for clause in states.CLAUSES), broken.alone
    assert counts["serve some left"] and len(lines) == len(steps)
    assert len(data) + len(text) <= MOST_BYTES, (len(data), len(text))
    if binary:
        assert printed_by(binary, data) == lines + [""]
    folder = os.path.join(HERE, "../crates/states")
    with open(os.path.join(folder, "stdin"), "wb") as out:
        out.write(data)
    with open(os.path.join(folder, "stdout"), "w") as out:
        out.write(text)
    print("states: %d records, %d bytes in, %d bytes out" % (len(steps), len(data), len(text)))


if __name__ == "__main__":
    main()
