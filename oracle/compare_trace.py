#!/usr/bin/env python3
"""Compares the program `trace` with a model of the node, by running both.

    oracle/compare_trace.py BINARY [--seed N] [--count N]

BINARY is target/bin/trace, after `tools/build trace`. The model is nodes.py, written
from the scope's sentences; the Rust has no node. The histories are fixed ones
about every edge and every refusal that a trace can show, all short ones of a few
calls, and --count random ones (traces.py), many in one run; two nodes that catch up
with each other are played as one history after the other. Then come short runs that
end in `bad` or `long`: random ones, one for five histories, and fixed ones whose texts
are written in traces.py. Every line is compared. Prints the counts, and the first
differences with the fewest steps found that lead to them, as text for tools/trace; the
exit status is 0 where there are none.
"""

import collections
import itertools
import random
import subprocess
import sys
import tempfile
import time

import nodes
import traces
from compare_decode import run
from compare_wire import arguments
from differences import Model, first_difference, line_at, printed_by, sort_of

CHUNK = 400
COUNT = 6000
SHOWN_BYTES = 400


def what(line):
    return sort_of(line, lambda words: words[1] + " " + ("nothing" if words[2] == "0" else "bytes" if words[2].isdigit() else words[2]))


def shown(step):
    """A step as a line for tools/trace; of bytes the first ones."""
    def word(n, one):
        if not isinstance(one, bytes):
            return str(one)
        if n == len(step) - 2:  # the id of a `why`
            return one.hex() or "-"
        return ("=" if step[0] in ("advertise", "why") else "") + one[:SHOWN_BYTES].hex() \
            + (" # and more, %d bytes" % len(one) if len(one) > SHOWN_BYTES else "")

    return " ".join(word(*one) for one in enumerate(step))


def play(binary, histories, folder, counts, differ, model=nodes):
    """Many histories in one run; of each the first difference, as (steps to it, expected, printed). Gives the lines printed."""
    data = b"".join(map(model.records, histories))
    told = model.expected(data)
    counts.update(map(what, told))
    printed = run(binary, [data], folder)
    at = 0
    for steps in histories:
        n = first_difference(told[at:at + len(steps)], printed[at:at + len(steps)])
        if n is not None:
            got = line_at(printed, at + n)
            differ.append((steps[:n + 1], told[at + n], got))
            if not got.startswith("%d " % (at + n + 1)):
                return printed  # the lines after it belong to other records
        at += len(steps)
    if printed[at:] != [""]:
        differ.append(("after the last record", "", line_at(printed, at)))
    return printed


def play_ending(binary, name, data, told, counts, differ):
    """One run that may end early; `told` are its lines."""
    counts.update(map(what, told))
    printed = printed_by(binary, data)
    n = first_difference(told + [""], printed)
    if n is not None:
        differ.append(("%s: bytes %s" % (name, data[:SHOWN_BYTES].hex()), line_at(told, n), line_at(printed, n)))


def slowly(binary, counts, differ):
    """Byte by byte, so that every read is short."""
    data = nodes.records(traces.sample()) + b"\x01"
    program = subprocess.Popen(binary, stdin=subprocess.PIPE, stdout=subprocess.PIPE)
    for byte in data:
        program.stdin.write(bytes([byte]))
        program.stdin.flush()
        time.sleep(0.002)
    printed, told = program.communicate()[0].decode().split("\n"), nodes.expected(data)
    counts.update(map(what, told))
    if printed != told + [""]:
        differ.append(("byte by byte", told, printed))


def main():
    given = arguments(__doc__, COUNT, "trace", rust=False)
    r = random.Random(given.seed)
    counts, differ, played, runs = collections.Counter(), [], 0, 1
    source = traces.histories(r, given.count)
    with tempfile.TemporaryDirectory() as folder:
        while chunk := list(itertools.islice(source, CHUNK)):
            play(given.binary, chunk, folder, counts, differ)
            played += len(chunk)
        for _ in range(given.count // 5):
            data = traces.ending(r)
            play_ending(given.binary, "a run of its own", data, nodes.expected(data), counts, differ)
            runs += 1
        for name, data, text in traces.endings():
            play_ending(given.binary, name, data, text.split("\n")[:-1], counts, differ)
            runs += 1
        slowly(given.binary, counts, differ)
    for name, k in sorted(counts.items()):
        print("%-20s %8d" % (name, k))
    print("%d histories and %d runs of their own, %d lines, seed %d: %d differences"
          % (played, runs, sum(counts.values()), given.seed, len(differ)))
    Model(given.binary, nodes.records, nodes.expected, shown, begins=lambda steps: steps[0][0] == "set").report(differ)
    sys.exit(1 if differ else 0)


if __name__ == "__main__":
    main()
