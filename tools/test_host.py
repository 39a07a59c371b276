#!/usr/bin/env python3
"""Tests of tools/host and tools/x86.py that need no compiler: comparing lines, when an archive is made again, the warning about the kit, writers that
are killed, how a failure ends.

    python3 tools/test_host.py
"""

import contextlib
import io
import os
import struct
import sys
import tempfile
import unittest
from unittest import mock

TOOLS = os.path.dirname(os.path.abspath(__file__))
sys.dont_write_bytecode = True
sys.path.insert(0, TOOLS)
import scripts  # noqa: E402


HOST = scripts.loaded("host")
X86 = HOST.x86

TREE = {
    "crates.txt": "# NAME: what it depends on\n\n# wire\nbasis:\nfield: basis\n\n# boundary\nlibrary: field io\nlibrary_c staticlib: library\nother: basis\n",
    "crates/basis/src/lib.rt": "a",
    "crates/field/src/lib.rt": "b",
    "crates/field/specs/Field.antt": "c",
    "crates/field/proofs/deep/Field.antt": "d",
    "crates/field/must-fail/one.edit": "e",
    "crates/library/src/lib.rt": "f",
    "crates/library_c/src/lib.rt": "h",
    "crates/other/src/lib.rt": "g",
}

# A kit that proves nothing: it writes the archive, and counts how often.
RT = """#!/bin/sh
case $1 in
version) cat "%(kit)s/version" ;;
lib)
    test -e "%(kit)s/broken" && { echo "not proved: $2"; exit 1; }
    echo "$2" >> "%(kit)s/made"
    mkdir -p out && wc -l < "%(kit)s/made" > "out/lib$2.a"
    test -e "%(kit)s/changes" && echo changed >> ../basis/src/lib.rt
    test -e "%(kit)s/broken-late" && exit 1
    exit 0 ;;
esac
"""


class Tree(unittest.TestCase):
    """A small repository and a kit for it."""

    def setUp(self):
        stack = contextlib.ExitStack()
        self.addCleanup(stack.close)
        self.root, self.kit = (stack.enter_context(tempfile.TemporaryDirectory()) for _ in range(2))
        for name, text in TREE.items():
            self.put(name, text)
        self.put(os.path.join(self.kit, "version"), "kit-1\n")
        self.put(os.path.join(self.kit, "rt"), RT % {"kit": self.kit})
        os.chmod(os.path.join(self.kit, "rt"), 0o755)
        stack.enter_context(mock.patch.object(X86, "ROOT", self.root))
        stack.enter_context(mock.patch.object(X86, "LOG", None))
        stack.enter_context(mock.patch.dict(os.environ, {"PATH": self.kit + os.pathsep + os.environ["PATH"]}))

    def put(self, name, text):
        path = os.path.join(self.root, name)
        os.makedirs(os.path.dirname(path), exist_ok=True)
        with open(path, "w") as out:
            out.write(text)
        return path

    def made(self):
        """How often the archive was made."""
        try:
            with open(os.path.join(self.kit, "made")) as f:
                return len(f.readlines())
        except FileNotFoundError:
            return 0


class Archives(Tree):
    def test_crates_under(self):
        self.assertEqual(X86.crates_under("library"), ["basis", "field", "library"])
        self.assertEqual(X86.crates_under("library_c"), ["basis", "field", "library", "library_c"])
        self.assertEqual(X86.crates_under("basis"), ["basis"])
        with self.assertRaisesRegex(X86.Failure, "no crate none"):
            X86.crates_under("none")

    def test_it_is_made_once(self):
        self.assertFalse(X86.stands("library"))
        path = X86.archive("library")
        self.assertEqual((path, self.made()), (os.path.join(self.root, "target/staticlib/liblibrary.a"), 1))
        self.assertTrue(X86.stands("library"))
        X86.archive("library")
        self.assertEqual(self.made(), 1)
        X86.archive("library", anew=True)
        self.assertEqual(self.made(), 2)

    def test_it_is_made_again_where_something_changed(self):
        X86.archive("library")
        for n, name in enumerate(["crates/basis/src/lib.rt", "crates/field/specs/Field.antt", "crates/field/proofs/deep/Field.antt",
                                  "crates/library/src/new.rt", "crates.txt"], 2):
            self.put(name, TREE.get(name, "") + "\n# changed\n")
            self.assertFalse(X86.stands("library"), name)
            X86.archive("library")
            self.assertEqual(self.made(), n, name)
        os.rename(os.path.join(self.root, "crates/library/src/new.rt"), os.path.join(self.root, "crates/library/src/newer.rt"))
        self.assertFalse(X86.stands("library"))

    def test_a_source_changes_meanwhile(self):
        hook, err = self.put(os.path.join(self.kit, "changes"), ""), io.StringIO()
        X86.log_to(os.path.join(self.root, "log"))
        self.addCleanup(X86.LOG.close)
        with contextlib.redirect_stderr(err):
            path = X86.archive("library")
        self.assertEqual(err.getvalue(), "warning: a source changed while rt lib library_c ran; the next run makes the archive again\n")
        os.utime(path, (2e9, 2e9))
        self.assertIsNone(X86.stands("library"))
        os.remove(hook)
        X86.archive("library")
        self.assertEqual((self.made(), X86.stands("library")), (2, "nothing changed since it was made"))

    def test_rt_ends_after_it_wrote(self):
        X86.archive("library")
        self.put("crates/basis/src/lib.rt", "changed")
        self.put(os.path.join(self.kit, "broken-late"), "")
        X86.log_to(os.path.join(self.root, "log"))
        self.addCleanup(X86.LOG.close)
        with self.assertRaises(X86.Failure):
            X86.archive("library")
        os.utime(X86.own_archive("library"), (2e9, 2e9))
        self.assertIsNone(X86.stands("library"))

    def test_one_made_by_hand_stands_where_it_is_newer(self):
        path = self.put("target/staticlib/liblibrary.a", "by hand")
        os.utime(path, (2e9, 2e9))
        self.assertEqual(X86.stands("library"), "newer than its sources")
        X86.archive("library")
        self.assertEqual(self.made(), 0)
        os.utime(path, (1e9, 1e9))
        X86.archive("library")
        self.assertEqual(self.made(), 1)

    def test_by_hand_after_it_was_made(self):
        path = X86.archive("library")
        self.put("crates/basis/src/lib.rt", "changed")
        self.put(path, "by hand")
        os.utime(path, (2e9, 2e9))
        self.assertEqual(X86.stands("library"), "newer than its sources")

    def test_by_hand_and_a_source_is_gone(self):
        for folder, _ in X86.folders_of("library"):
            os.utime(folder, (1e9, 1e9))
        for file in X86.made_of("library"):
            os.utime(file, (1e9, 1e9))
        path = self.put("target/staticlib/liblibrary.a", "by hand")
        os.utime(path, (1.1e9, 1.1e9))
        self.assertTrue(X86.stands("library"))
        os.remove(os.path.join(self.root, "crates/field/specs/Field.antt"))
        self.assertIsNone(X86.stands("library"))

    def test_another_kit(self):
        X86.archive("library")
        self.put(os.path.join(self.kit, "version"), "kit-2\n")
        self.assertFalse(X86.stands("library"))

    def test_another_archive(self):
        path = X86.archive("library")
        self.put(path, "an older one put back")
        os.utime(path, (1e9, 1e9))
        self.assertFalse(X86.stands("library"))
        os.remove(path)
        self.assertFalse(X86.stands("library"))

    def test_what_it_does_not_stand_on(self):
        X86.archive("library")
        self.put("crates/other/src/lib.rt", "changed")
        self.put("crates/field/must-fail/one.edit", "changed")
        self.assertTrue(X86.stands("library"))

    def test_it_is_not_proved(self):
        self.put(os.path.join(self.kit, "broken"), "")
        X86.log_to(os.path.join(self.root, "log"))
        with self.assertRaisesRegex(X86.Failure, "rt lib library_c ended with 1") as failed:
            X86.archive("library")
        X86.LOG.close()
        self.assertEqual(failed.exception.tail, ["not proved: library_c"])
        self.assertFalse(X86.stands("library"))

    def test_it_is_given(self):
        given = os.path.dirname(self.put("given/liblibrary.a", ""))
        self.assertEqual(X86.archive("library", given), os.path.join(given, "liblibrary.a"))
        with self.assertRaisesRegex(X86.Failure, "no .*libother.a"):
            X86.archive("other", given)
        self.assertEqual(self.made(), 0)

    def test_no_kit(self):
        with mock.patch.object(X86.shutil, "which", lambda name: None):
            with self.assertRaisesRegex(X86.Failure, "no rt to make it"):
                X86.archive("library")
            path = self.put("target/staticlib/liblibrary.a", "")
            os.utime(path, (1e9, 1e9))
            self.assertEqual((X86.archive("library"), X86.stands("library")), (path, "there is no rt"))
            with self.assertRaisesRegex(X86.Failure, "there is no rt to make .*liblibrary.a anew"):
                X86.archive("library", anew=True)

    def test_what_is_said(self):
        self.put("crates.txt", "pradulins: basis\npradulins_c staticlib: pradulins\n")
        self.put("crates/pradulins_c/src/lib.rt", "h")
        said = []

        def told(*words):
            said.clear()
            HOST.archive(*words, lambda *line: said.append(line))
            return [line[2] for line in said]
        self.assertEqual(told(None, False), ["proves and makes it, some minutes", "made"])
        self.assertEqual(told(None, False), ["as it stands: nothing changed since it was made"])
        self.assertEqual(told(None, True), ["proves and makes it, some minutes", "made"])
        path = self.put("target/staticlib/libpradulins.a", "by hand")
        os.utime(path, (2e9, 2e9))
        self.assertEqual(told(None, False), ["as it stands: newer than its sources"])
        self.assertEqual(told(os.path.dirname(path), False), ["given"])
        with mock.patch.object(X86.shutil, "which", lambda name: None):
            self.assertEqual(told(None, False), ["as it stands: there is no rt"])
            with self.assertRaisesRegex(X86.Failure, "there is no rt"):
                told(None, True)
            self.assertEqual(said, [])


class Packages(unittest.TestCase):
    def test_c_alone(self):
        with mock.patch.object(X86, "rustc", lambda: None), mock.patch.object(X86, "cargo", lambda: None):
            with mock.patch.object(X86, "compiler", lambda: "cc"):
                self.assertEqual(X86.missing(rust=False), [])
                X86.install(rust=False)
                self.assertIn("cargo", X86.missing())
            with mock.patch.object(X86, "compiler", lambda: None):
                self.assertEqual(X86.missing(rust=False), ["a C compiler for x86-64"])


class Kits(Tree):
    def warned(self):
        err = io.StringIO()
        with contextlib.redirect_stderr(err):
            line = X86.kit_warning()
        self.assertEqual(err.getvalue(), line + "\n" if line else "")
        return line

    def test_warning(self):
        self.assertIsNone(self.warned())
        self.put("KIT-ID", "kit-1\n")
        self.assertIsNone(self.warned())
        self.put("KIT-ID", "kit-0\n")
        self.assertEqual(self.warned(), "warning: rt version says `kit-1`; the proofs here were checked with `kit-0` (KIT-ID)")


class Lines(unittest.TestCase):
    def test_compared(self):
        self.assertEqual(HOST.compared(["1 a", "2 b"], ["1 a", "2 b"]), (2, None))
        self.assertEqual(HOST.compared(["1 a", "2 -"], ["1 a", "2 b"], {"2", "7"}), (1, None))
        self.assertEqual(HOST.compared(["1 a", "2 -"], ["1 a", "2 b"], {"1"}), (1, "2 -, and not 2 b"))
        self.assertEqual(HOST.compared(["1 a", "2 -"], ["1 a", "2 b"]), (1, "2 -, and not 2 b"))
        self.assertEqual(HOST.compared(["1 a", "2 c"], ["1 a", "2 b"]), (1, "2 c, and not 2 b"))
        self.assertEqual(HOST.compared(["1 a"], ["1 a", "2 b"]), (1, "nothing, and not 2 b"))
        self.assertEqual(HOST.compared(["1 a", "status 1"], ["1 a"]), (1, "status 1, and not nothing"))

    def test_may_skip(self):
        data = b"".join(struct.pack("<IH", len(content), kind) + content for kind, content in ((6, b"abc"), (1, b""), (7, b"x"), (9, b""), (6, b""), (8, b"")))
        self.assertEqual(HOST.may_skip("inspect", data), {"1", "3", "4", "5", "6"})
        self.assertEqual(HOST.may_skip("states", data), {"4"})
        self.assertEqual(HOST.may_skip("trace", data), set())
        self.assertEqual(HOST.may_skip("inspect", b"\xff\xff\xff\xff\x06\0"), {"1"})
        self.assertEqual(HOST.may_skip("inspect", b"\xff"), set())
        lines = ["11 write refused 42", "12 write refused 7 1", "13 tosign refused 7 0", "14 write refused 12 7", "15 write 0", "16 write refused 26 0",
                 "17 write refused 7", "18 decode refused 7 1", "19 sub refused 42", "20 tosign refused 42"]
        self.assertEqual(HOST.may_skip("inspect", data[:9], lines), {"1", "11", "12", "13", "20"})
        # Settings with flags that the crate has no word for, in Rust alone; others, and a record of another length, are played.
        data = b"".join(struct.pack("<IH", len(content), 21) + content
                        for content in (bytes(14) + b"\3\0", bytes(14) + b"\4\0", bytes(14) + b"\0\1", bytes(16), bytes(14) + b"\4", bytes(13) + b"\xff\1\0"))
        self.assertEqual(HOST.may_skip("states", data, ["1 set ok"]), {"2", "3"})
        self.assertEqual((HOST.may_skip("states", data), HOST.may_skip("inspect", data, ["1 set ok"])), (set(), set()))


# A writer that does as its name says, and what loads its file.
WRITER = """
import os, sys, time
how, what, file = os.path.basename(sys.argv[0]), sys.argv[1], sys.argv[2]
clock = int(open(file).read()) if os.path.exists(file) else 0
if what == "load":
    print(clock, 0, 0)
    sys.exit()
while True:
    if how == "hangs":
        time.sleep(60)
    if how == "ends" and clock > 2:
        sys.exit()
    clock += 1
    with open(file + ".new", "w") as out:
        out.write("%d" % clock)
        out.flush()
        time.sleep(0.001)
    if how != "forgets" or clock < 3:
        os.rename(file + ".new", file)
    print(clock, flush=True)
    if how == "idles":
        time.sleep(60)
"""


class Killed(Tree):
    """A writer is killed, and what is then in its file is held to what it printed."""

    def played(self, how, count=10, seed=7):
        program = self.put(how, WRITER)
        with mock.patch.object(HOST, "BUILD", self.root), mock.patch.object(X86, "running", lambda program: [sys.executable, program]):
            said = []
            steps = mock.Mock(say=lambda *words: said.append(words))
            good = HOST.test_kills(program, count, seed, steps)
        (_, _, words, bad), = said
        self.assertRegex(words, r", seed %d$" % seed)
        return good, words, bad

    def test_it_saves(self):
        good, words, bad = self.played("saves", 20)
        self.assertEqual((good, bad), (20, None))
        self.assertRegex(words, r"20 kills  all loaded: \d+ states, \d+ kills left a file beside, \d+ saved one state more than was told, \d+ before")

    def test_it_forgets(self):
        good, _, bad = self.played("forgets")
        self.assertLess(good, 10)
        self.assertRegex(bad, r"after kill \d+: \(2, 0, 0\), and \d+ was saved last")

    def test_no_kill_falls_into_a_write(self):
        self.assertEqual(self.played("idles", 4)[::2], (4, "no kill fell into a write, so nothing was tested: take more (--kills)"))

    def test_it_hangs_or_ends(self):
        with mock.patch.object(HOST, "PATIENCE", 0.2), self.assertRaisesRegex(X86.Failure, "the writer saved nothing in"):
            self.played("hangs")
        with self.assertRaisesRegex(X86.Failure, "the writer ended by itself"):
            self.played("ends")


class Crate(Tree):
    def test_no_test_is_run(self):
        log = os.path.join(self.root, "log")
        X86.log_to(log)
        self.addCleanup(X86.LOG.close)
        for line, wanted in ((b"", "    0 tests  no test was run"), (b"test result: ok. 0 passed; 1", "    0 tests  no test was run"),
                             (b"test result: ok. 2 passed; 0\ntest result: ok. 3 passed;", "    5 tests  pass")):
            said = []
            with mock.patch.object(HOST, "LOG", log), mock.patch.object(X86, "test_rust", lambda *_: X86.LOG.write(line)):
                HOST.test_crate("x/libpradulins.a", mock.Mock(say=lambda *words: said.append(words)))
            self.assertEqual((said[0][2], bool(said[0][3])), (wanted, "no test" in wanted))


class Ends(Tree):
    """How a run ends that cannot go on."""

    def ended(self, *words):
        out, err = io.StringIO(), io.StringIO()
        log = os.path.join(self.root, "target", "host", "log")
        with mock.patch.object(sys, "argv", ["host", *words]), mock.patch.object(HOST, "LOG", log), mock.patch.object(X86, "missing", lambda rust: []):
            with contextlib.redirect_stdout(out), contextlib.redirect_stderr(err):
                status = HOST.main()
        X86.LOG.close()
        return status, out.getvalue().splitlines(), err.getvalue().splitlines()

    def test_no_archive(self):
        status, _, err = self.ended("--archive", self.root)
        self.assertEqual((status, err), (1, ["host: FAILED: no %s/libpradulins.a" % self.root]))

    def test_not_proved(self):
        self.put("crates.txt", "pradulins:\npradulins_c staticlib: pradulins\n")
        self.put("crates/pradulins_c/src/lib.rt", "h")
        self.put(os.path.join(self.kit, "broken"), "")
        status, out, err = self.ended()
        self.assertEqual(status, 1)
        self.assertEqual(out, ["%-26s %-20s %s" % ("archive", "rt lib", "proves and makes it, some minutes")])
        self.assertEqual(err, ["  not proved: pradulins_c", "host: all of this is in target/host/log",
                               "host: FAILED: rt lib pradulins_c ended with 1"])

    def test_usage(self):
        for words in (["none"], ["example", "d"], ["test", "c"], ["--kills", "0"], ["--seed", "x"], ["--archive", "x", "--anew"]):
            with self.assertRaises(SystemExit) as ended:
                self.ended(*words)
            self.assertEqual(ended.exception.code, 2)


if __name__ == "__main__":
    unittest.main()
