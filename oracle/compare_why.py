#!/usr/bin/env python3
"""Compares the program `why` with a model of the node, by running both; and its answers with its own advertisements.

    oracle/compare_why.py BINARY [--seed N] [--count N] [--state FILE]

BINARY is target/bin/why, after `tools/build why`. The model is whys.py, over the node of nodes.py;
the Rust has no such call. The histories are fixed ones about every answer, window, topic and id, and
about saved nodes that are taken, cut, longer and hurt; and --count random ones (whys.py). Then come runs
that end in `bad` or `long` and answers that are written down in whys.py. Every line is compared.

After each history the program is asked, for topics and windows in play, for its advertisement, and then of
each id in play why it is not there. The advertisement is read by the model's reader: `listed` must be said of
exactly the ids that it names, and each that it names must have been asked about.

With --state FILE, which a host saved, the node of that file is played, too: as it is, cut, longer and hurt.

Prints the counts, and the first differences with the fewest steps found that lead to them, as text
for tools/trace where there is no gateway in them; the exit status is 0 where there are none.
"""

import argparse
import collections
import itertools
import random
import sys
import tempfile

import nodes
import programs
import whys
from compare_trace import play, play_ending, shown
from compare_wire import SHOWN
from differences import Model
from saved import Unsaved, read  # of tools, where programs looks, too

CHUNK = 40
COUNT = 1500
SHOWN_STEPS = 40


class Agreement:
    """The answers of `why` beside the advertisements that the program wrote for the same topic and windows."""

    def __init__(self):
        self.counts, self.differ = collections.Counter(), []

    def look(self, steps, lines):
        """The lines that the program printed for a history. What an offer names counts until the node may have changed."""
        offers, at = {}, None
        for n, (step, line) in enumerate(zip(steps, lines)):
            answer = line.split(" ", 2)[-1]
            if step[0] != "why" and at is not None:
                self.close(steps[at:n], offers)
            at = n if step[0] == "advertise" else None if step[0] != "why" else at
            if step[0] == "advertise":
                offers[step[1:]] = self.named(answer)
            elif step[0] == "why" and (step[1], step[3]) in offers:
                names = offers[step[1], step[3]]
                self.one(steps[:n + 1], answer, "refused" if names is None else "listed" if step[2] in names else "not listed")
            elif step[0] in ("set", "gateway", "admit", "beat"):
                offers.clear()
        if at is not None:
            self.close(steps[at:], offers)

    @staticmethod
    def named(answer):
        """The ids that an advertisement names; None where it is refused."""
        return None if answer.startswith("refused ") else set(nodes.Body(nodes.made(answer)).have)

    def one(self, steps, answer, wanted):
        got = answer.split(" ")[0] if answer.split(" ")[0] in ("refused", "listed") else "not listed"
        self.counts[wanted] += 1
        if got != wanted:
            self.differ.append((steps, "%s, by the advertisement" % wanted, answer))

    def close(self, steps, offers):
        """An advertisement and the questions after it, where these are many: each id that it names is among them."""
        windows, topic = steps[0][1:]
        left = (offers[windows, topic] or set()) - {step[2] for step in steps[1:] if (step[1], step[3]) == (windows, topic)}
        if len(steps) > 2 and left:
            self.differ.append((steps, "a question about %s" % sorted(left)[0].hex(), "none"))
        self.counts["asked of all" if len(steps) > 2 else "asked of some"] += 1


def of_file(path):
    """The histories of what a host saved."""
    try:
        return whys.of_file(read(path))
    except Unsaved as why:
        programs.stop("%s: %s" % (path, why))


def main():
    parser = argparse.ArgumentParser(description=__doc__.split("\n")[0])
    parser.add_argument("binary", metavar="BINARY", help="target/bin/why, after `tools/build why`")
    parser.add_argument("--seed", type=int, default=1)
    parser.add_argument("--count", type=int, default=COUNT)
    parser.add_argument("--state", metavar="FILE", help="a saved gateway to play, too")
    given = parser.parse_args()
    binary = programs.running(given.binary, "why")
    r = random.Random(given.seed)
    counts, differ, agreement, played, runs = collections.Counter(), [], Agreement(), 0, 0
    source = itertools.chain(of_file(given.state) if given.state else (), whys.histories(r, given.count))
    with tempfile.TemporaryDirectory() as folder:
        while chunk := list(itertools.islice(source, CHUNK)):
            lines = iter(play(binary, chunk, folder, counts, differ, whys))
            for steps in chunk:
                agreement.look(steps, list(itertools.islice(lines, len(steps))))
            played += len(chunk)
    for name, data, text in whys.endings():
        told = text.split("\n")[:-1]
        assert told == whys.expected(data), name
        play_ending(binary, name, data, told, counts, differ)
        runs += 1
    for name, k in sorted(counts.items()):
        print("%-20s %8d" % (name, k))
    for name, k in sorted(agreement.counts.items()):
        print("%-32s %8d" % ("by the advertisement: " + name, k))
    missing = {(call, number) for call, numbers in whys.REFUSALS.items() for number in numbers if not counts["%s refused %d" % (call, number)]}
    assert not missing, missing
    print("%d histories and %d runs of their own, %d lines, seed %d: %d differences, and %d from the advertisements"
          % (played, runs, sum(counts.values()), given.seed, len(differ), len(agreement.differ)))
    Model(binary, whys.records, whys.expected, shown, SHOWN_STEPS, lambda steps: steps[0][0] == "set").report(differ)
    for steps, wanted, got in sorted(agreement.differ, key=lambda one: len(one[0]))[:SHOWN]:
        print("%d steps, the last:\n    %s\n  expected %s\n  printed  %s" % (len(steps), shown(steps[-1]), wanted, got))
    sys.exit(1 if differ or agreement.differ else 0)


if __name__ == "__main__":
    main()
