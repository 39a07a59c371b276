"""What the comparisons of programs with their models share: the first line that differs, and the fewest steps that lead to it."""

import itertools
import subprocess

from compare_wire import SHOWN


def printed_by(binary, data):
    return subprocess.run(binary, input=data, stdout=subprocess.PIPE, check=True).stdout.decode().split("\n")


def first_difference(told, printed):
    """The place of the first line that differs, or None. Both end in the text after the last newline."""
    pairs = itertools.zip_longest(told, printed)
    return next((n for n, (one, other) in enumerate(pairs) if one != other), None)


def line_at(lines, n):
    return lines[n] if n < len(lines) else "nothing"


def sort_of(line, answered):
    """The call and the sort of answer, for the counts; `answered` says it of the words of a call that was not refused."""
    words = line.split(" ")
    if len(words) == 1:
        return line
    return " ".join(words[1:4]) if words[2] == "refused" else answered(words)


class Model:
    """A program beside its model. `records` makes an input of steps, `expected` has its lines, `shown` tells a step, of which the last `most` are
    shown; `begins` says whether steps can be a run of their own."""

    def __init__(self, binary, records, expected, shown, most=None, begins=lambda steps: True):
        self.binary, self.records, self.expected, self.shown, self.most, self.begins = binary, records, expected, shown, most, begins

    def alone(self, steps):
        """The lines of the last step, (expected, printed), where they differ and those before do not; else None."""
        data = self.records(steps)
        told, printed = self.expected(data) + [""], printed_by(self.binary, data)
        n = first_difference(told, printed)
        return None if n is None or n + 1 < len(steps) else (line_at(told, n), line_at(printed, n))

    def fewest(self, steps):
        """The steps of a difference without those that it does not need: (steps, expected, printed), or None where it is not there alone."""
        found = self.alone(steps)
        if not found:
            return None
        for at in range(len(steps) - 2, -1, -1):
            less = steps[:at] + steps[at + 1:]
            still = self.begins(less) and self.alone(less)
            if still:
                steps, found = less, still
        return steps, *found

    def report(self, differ):
        """Prints the shortest of some differences, (steps or a text, expected, printed)."""
        for steps, expected, got in sorted(differ, key=lambda one: len(one[0]) if isinstance(one[0], list) else 0)[:SHOWN]:
            if isinstance(steps, list):
                steps, expected, got = self.fewest(steps) or (steps, expected, got)
                print("%d steps:" % len(steps))
                for step in steps[-self.most:] if self.most else steps:
                    print("    " + self.shown(step))
            else:
                print(steps)
            print("  expected %s\n  printed  %s" % (str(expected)[:300], str(got)[:300]))
