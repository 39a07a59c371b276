#!/usr/bin/env python3
"""Finds the Rust's files, for build.sh and bench/bench. None of them is kept in this repository.

    oracle/sources.py [DIR]

prints the path of each file in the minip2p repository and, after a tab, where it stands. DIR is the folder that has them; without it ORACLE_SRC,
or else source/ beside this script. A file is taken under its path in the repository (crates/core/src/frame.rs) or by its flat name
(src--crates--core--src--frame.rs.txt). Where one is missing it says which, and what to do; the exit status is then 1.
"""

import os
import sys

HERE = os.path.dirname(os.path.abspath(__file__))
DEFAULT = os.path.join(HERE, "source")
FILES = ("crates/core/src/frame.rs", "crates/core/src/protobuf.rs", "crates/identity/src/key.rs", "crates/identity/src/peer_id.rs",
         "crates/pubsub/src/gossipsub/mcache.rs", "crates/pubsub/src/message.rs", "crates/pubsub/src/seen.rs")


class Missing(Exception):
    """Files that are not there."""


def flat(name):
    return "src--%s.txt" % name.replace("/", "--")


def folder_of(given=None):
    return given or os.environ.get("ORACLE_SRC") or DEFAULT


def find(given=None, option=None):
    """{path in the repository: where the file stands}. `option` is what the caller names a folder by, beside ORACLE_SRC."""
    folder = folder_of(given)
    found = {}
    for name in FILES:
        paths = [os.path.join(folder, *name.split("/")), os.path.join(folder, flat(name))]
        found[name] = next(filter(os.path.isfile, paths), None)
    missing = [name for name in FILES if not found[name]]
    if missing:
        shown = os.path.relpath(folder) if folder == DEFAULT else folder
        how = ["%s of the Rust's %d files %s missing in %s:" % (len(missing), len(FILES), "is" if len(missing) == 1 else "are", shown)]
        how += ["  " + name for name in missing]
        how += ["They are of the minip2p repository (deepso7/minip2p, at 5395953930), under these paths. Copy them to %s," % os.path.relpath(DEFAULT),
                "under these paths or by flat names (%s), or name a folder that has them by %sORACLE_SRC." % (
                    flat(missing[0]), "%s or " % option if option else ""),
                "oracle/README.md says more."]
        raise Missing("\n".join(how))
    return found


def main():
    try:
        for name, path in find(*sys.argv[1:2]).items():
            print("%s\t%s" % (name, path))
        return 0
    except Missing as why:
        print("oracle: %s" % why, file=sys.stderr)
        return 1


if __name__ == "__main__":
    sys.exit(main())
