"""How the comparisons get their two sides: the program, which is compiled for x86-64 and run through tools/x86.py, and the oracle."""

import os
import subprocess
import sys

import sources
from oracle import HERE, PATH

sys.path.append(os.path.join(HERE, "../tools"))
import x86  # noqa: E402


def stop(why):
    """Ends the run with some words."""
    print("%s: %s" % (os.path.basename(sys.argv[0]).removesuffix(".py"), why), file=sys.stderr)
    sys.exit(2)


def running(path, name):
    """The words that run a program here."""
    if not os.path.isfile(path):
        stop("no program at %s: `tools/build %s` makes target/bin/%s" % (path, name, name))
    if not os.access(path, os.X_OK):
        stop("%s is not a program that may be run" % path)
    try:
        return x86.running(os.path.abspath(path))
    except x86.Failure as why:
        stop(why)


def look():
    """Whether the oracle must be built; ends the run where it must and the Rust's files are not there."""
    if os.path.isfile(PATH):
        return False
    if os.environ.get("ORACLE_BIN"):
        stop("no oracle at %s, which ORACLE_BIN names" % PATH)
    try:
        sources.find()
    except sources.Missing as why:
        stop(why)
    return True


def build():
    """Builds the oracle where it is not there."""
    if look() and subprocess.run([os.path.join(HERE, "build.sh")], stdout=subprocess.DEVNULL).returncode:
        stop("the oracle could not be built")
