"""Runs a program of this repository on records, and reads its lines. For tools/inspect and tools/why."""

import collections
import os
import re
import signal
import subprocess

import x86
from hextext import cut

# Where in a body a refusal stands: how many bytes after its start, and the numbers of the fields around it, the outermost first.
Place = collections.namedtuple("Place", "offset fields")


class Failure(Exception):
    """The program could not be run, or answered what it never should."""


def running(program, name):
    """The words that run a program here."""
    if not os.path.isfile(program):
        raise Failure("no program at %s: `tools/build %s` makes it, or name one by --program" % (program, name))
    if not os.access(program, os.X_OK):
        raise Failure("%s is not a program that may be run" % program)
    return x86.running(os.path.abspath(program))


def record(kind, content):
    return len(content).to_bytes(4, "little") + kind.to_bytes(2, "little") + content


def printed(words, data):
    """The lines that a program prints for some records."""
    try:
        done = subprocess.run(words, input=data, stdout=subprocess.PIPE, check=False)
    except OSError as why:
        raise Failure("cannot run %s: %s" % (words[0], why.strerror)) from None
    if done.returncode:
        how = "by %s" % signal.Signals(-done.returncode).name if done.returncode < 0 else "with status %d" % done.returncode
        raise Failure("the program ended %s" % how)
    return done.stdout.decode("ascii", "replace").split("\n")[:-1]


def strange(text):
    return Failure("the program's answer is none that it should give: %s" % cut(text, 60))


REFUSED = re.compile("refused((?: [0-9]{1,20})+)(?: at ([0-9]{1,20})(?: in((?: [0-9]{1,20}){1,3}))?)?")


def refused(words):
    """The number of a refusal, what stands beside it, and its place, None where it tells none; None where the words are no refusal."""
    if words[0] != "refused":
        return None
    found = REFUSED.fullmatch(" ".join(words))
    if not found:
        raise strange(" ".join(words))
    number, *values = map(int, found[1].split())
    place = Place(int(found[2]), tuple(map(int, (found[3] or "").split()))) if found[2] else None
    return number, tuple(values), place
