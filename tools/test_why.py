#!/usr/bin/env python3
"""Tests of tools/why and tools/saved.py. They need no program: where one is run, it is a stub, or the model of oracle/whys.py; target/bin/why, where
it stands, is asked the same.

    python3 tools/test_why.py
"""

import contextlib
import io
import os
import re
import subprocess
import sys
import unittest
from unittest import mock

HERE = os.path.dirname(os.path.abspath(__file__))
TOP = os.path.dirname(HERE)
sys.dont_write_bytecode = True
sys.path[:0] = [HERE, os.path.join(TOP, "oracle")]
import cases  # noqa: E402
import saved  # noqa: E402
import scripts  # noqa: E402
import state_histories  # noqa: E402
import states  # noqa: E402

SCRIPT = os.path.join(HERE, "why")
PROGRAM = os.path.join(TOP, "target", "bin", "why")
WHY = scripts.loaded("why")

MODEL = """\
import sys
sys.dont_write_bytecode = True
sys.path.insert(0, %r)
import whys
for line in whys.expected(sys.stdin.buffer.read()):
    print(line)
""" % os.path.join(TOP, "oracle")

# Messages 00 to 04 of one sender and of the topic `t`, of which the last three are cached, at the ages 2, 1 and 0; four windows.
TURNED = states.gateway_bytes(state_histories.turned().run)
KEY = "1ed1e8fae2c4a144b8be8fd4b47bf3d3b34b871c3cacf6010f0e42d474fce27e"
A = "002408011220" + KEY  # the sender
A00, A01, A02, A03, A04 = ("%s%02x" % (A, n) for n in range(5))


class Case(cases.Case):
    def setUp(self):
        super().setUp()
        self.model = self.program("model", MODEL)
        self.state = self.file("gateway.state", saved.sealed(TURNED))

    def prints(self, text, more=""):
        """A program that prints a text."""
        return self.program("prints", "cat >/dev/null\nprintf '%s'\n%s" % (text, more), "/bin/sh")

    def call(self, *words, program=None):
        """(status, standard output, standard error). The programs here are scripts, which need no emulator."""
        out, err = io.StringIO(), io.StringIO()
        with mock.patch.object(WHY.x86, "running", lambda path: [path]), contextlib.redirect_stdout(out), contextlib.redirect_stderr(err):
            try:
                status = WHY.main(["--program", program or self.model, *words])
            except SystemExit as done:
                status = done.code
        return status, out.getvalue(), err.getvalue()

    def told(self, name, topic, windows, status=0, state=None, program=None):
        got, out, err = self.call(state or self.state, name, topic, str(windows), program=program)
        self.assertEqual((got, err), (status, ""), out)
        return out

    def wrong(self, *words, program=None):
        """What is said where nothing can be answered."""
        status, out, err = self.call(*words, program=program)
        self.assertEqual((status, out), (2, ""), err)
        return err


class Answers(Case):
    def test_each(self):
        for name, topic, windows, line in (
                (A04, "t", 1, "listed"), (A03, "t", 2, "listed"), (A02, "t", 3, "listed"), (A02, "t", 65535, "listed"),
                (A04, "t", 0, "in the cache, in a window of age 0"), (A03, "t", 1, "in the cache, in a window of age 1"),
                (A02, "t", 0, "in the cache, in a window of age 2"), (A02, "t", 2, "in the cache, in a window of age 2"),
                (A04, "u", 1, "in the cache, without that topic"), (A02, "u", 0, "in the cache, without that topic"),
                (A04, "-", 1, "in the cache, without that topic"), (A04, "", 1, "in the cache, without that topic"),
                (A04, "=ff", 1, "in the cache, without that topic"), (A01, "t", 4, "not in the cache"), ("-", "t", 4, "not in the cache"),
                ("", "t", 4, "not in the cache"), ("01" + A04, "t", 4, "not in the cache"), ("41*129", "t", 4, "not in the cache")):
            self.assertEqual(self.told(name, topic, windows), line + "\n", (name, topic, windows))

    def test_forms(self):
        for name in (A04, A + " 04", " %s  04 " % A, "peer:%s 04" % KEY, "peer:%s 04*1" % KEY, "@" + self.file("id", bytes.fromhex(A04))):
            for topic in ("t", "=74", "=74*1", "@" + self.file("topic", b"t")):
                self.assertEqual(self.told(name, topic, 1), "listed\n", (name, topic))

    def test_refusals(self):
        self.assertEqual(self.told(A04, "=74*1025", 1, 1), "refused 29: a topic has above 1,024 bytes: it has 1,025 bytes\n")
        self.assertEqual(self.told("", "=74*1025", 1, 1), "refused 29: a topic has above 1,024 bytes: it has 1,025 bytes\n")
        malformed = "the saved state is refused 42: node and stores, or the rows of an RPC, are not well formed\n"
        for rest, line in ((TURNED[:-1], "the saved state is refused 41: a store has not the length that the settings say\n"),
                           (TURNED + b"\x00", "the saved state is refused 41: a store has not the length that the settings say\n"),
                           (TURNED[:32] + b"\x09" + TURNED[33:], malformed), (TURNED[:40] + b"\x00" + TURNED[41:], malformed),
                           (TURNED[:saved.NODE_SIZE - 1], malformed), (b"", malformed), (bytes(saved.NODE_SIZE), malformed)):
            self.assertEqual(self.told(A04, "t", 1, 1, self.file("other", saved.sealed(rest))), line)

    def test_flags(self):
        """A gateway that allows unsigned messages or skips groups is asked as others are; one under flags that are not known is none."""
        end = saved.NODE_SIZE
        for flags, line in ((0, "listed\n"), (1, "listed\n"), (2, "listed\n"), (3, "listed\n"), (4, None), (7, None), (2**63, None)):
            path = self.file("other", saved.sealed(TURNED[:end - 8] + flags.to_bytes(8, "little") + TURNED[end:]))
            wanted = line or "the saved state is refused 42: node and stores, or the rows of an RPC, are not well formed\n"
            self.assertEqual(self.told(A04, "t", 1, 0 if line else 1, path), wanted)

    def test_other_senders(self):
        """A cached message of a sender that is no peer id."""
        sender = bytes.fromhex(A)
        for other, line in ((sender[:-1] + b"Z", "not in the cache\n"), (b"gateway-17.north.radiology.example.org", None), (b"\x12" + sender[1:], None),
                            (sender[:3] + b"\x04" + sender[4:], None)):
            self.assertEqual(len(other), 38)
            path = self.file("other", saved.sealed(TURNED.replace(sender, other)))
            wanted = line or "the saved state is refused 42: node and stores, or the rows of an RPC, are not well formed\n"
            self.assertEqual(self.told(A04, "t", 1, 0 if line else 1, path), wanted)

    def test_the_state_is_not_changed(self):
        os.chmod(self.state, 0o400)
        before = os.stat(self.state)
        self.told(A04, "t", 1)
        after = os.stat(self.state)
        self.assertEqual((before.st_mtime_ns, before.st_size, sorted(os.listdir(self.folder))),
                         (after.st_mtime_ns, after.st_size, ["gateway.state", "model"]))

    def test_the_largest(self):
        play = state_histories.Play(("set", 1000, 256, 16, 64))
        for n in range(64):
            play.add(state_histories.admit(n, state_histories.named_message(n)))
        rest = states.gateway_bytes(play.run)
        self.assertEqual(len(rest), saved.LARGEST)
        path = self.file("largest", saved.sealed(rest))
        self.assertEqual((self.told(A00, "t", 1, state=path), self.told(A + "40", "t", 1, state=path)), ("listed\n", "not in the cache\n"))

    @unittest.skipUnless(os.path.isfile(PROGRAM), "no target/bin/why: `tools/build why` makes it")
    def test_the_program(self):
        for name, topic, windows, status, line in (
                (A04, "t", 1, 0, "listed"), (A03, "t", 1, 0, "in the cache, in a window of age 1"), (A04, "u", 1, 0, "in the cache, without that topic"),
                (A01, "t", 4, 0, "not in the cache"), ("-", "=74*1025", 1, 1, "refused 29: a topic has above 1,024 bytes: it has 1,025 bytes")):
            done = subprocess.run([SCRIPT, self.state, name, topic, str(windows)], capture_output=True, text=True, check=False)
            self.assertEqual((done.returncode, done.stdout, done.stderr), (status, line + "\n", ""))
        other = self.file("other", saved.sealed(TURNED[:40] + b"\x00" + TURNED[41:]))
        done = subprocess.run([SCRIPT, other, A04, "t", "1"], capture_output=True, text=True, check=False)
        self.assertEqual((done.returncode, done.stdout), (1, "the saved state is refused 42: node and stores, or the rows of an RPC, are not well formed\n"))


class Files(Case):
    def test_none(self):
        """What the header says is tested in the crate's order."""
        right, head = saved.sealed(TURNED), saved.HEADER
        long = saved.sealed(bytes(saved.LARGEST + 1))
        for data, words in (
                (b"", "no saved state: it has 0 bytes, and the header alone has 36"), (right[:35], "no saved state: it has 35 bytes"),
                (b"x" * 35, "no saved state: it has 35 bytes"), (b"x" * 36, "no saved state: it does not begin with `pradulins-saved`"),
                (right[1:], "no saved state: it does not begin with"), (TURNED, "no saved state: it does not begin with"),
                (saved.sealed(TURNED, 1), "the state was saved in format 1, and format 3 is read"),
                (saved.sealed(TURNED[:saved.NODE_SIZE - 8] + TURNED[saved.NODE_SIZE:], 2), "the state was saved in format 2, and format 3 is read"),
                (saved.sealed(TURNED[:-1], 4)[:-1], "the state was saved in format 4, and format 3 is read"),
                (right[:-1], "the saved state has %d bytes after its header, which says %d" % (len(TURNED) - 1, len(TURNED))),
                (right + b"\x00", "the saved state has %d bytes after its header, which says %d" % (len(TURNED) + 1, len(TURNED))),
                (long, "the saved state has 307609 bytes after its header, and the largest has 307608"),
                (long + bytes(9), "the saved state has 307618 bytes after its header, which says 307609"),
                (right[:-1] + b"\x01", "the saved state was damaged: its checksum is another"),
                (right[:28] + bytes(8) + right[36:], "the saved state was damaged"),
                (head.pack(saved.NAME, 3, 0, 1), "the saved state was damaged")):
            path = self.file("other", data)
            err = self.wrong(path, A04, "t", "1")
            self.assertTrue(err.startswith("why: %s: %s" % (path, words)), err)

    def test_no_file(self):
        self.assertIn("none: the saved state cannot be read: No such file", self.wrong(os.path.join(self.folder, "none"), A04, "t", "1"))
        self.assertIn("the saved state cannot be read: Is a directory", self.wrong(self.folder, A04, "t", "1"))
        self.assertIn("the saved state cannot be read", self.wrong("a\0b", A04, "t", "1"))
        self.assertIn("which says", self.wrong(self.endless(), A04, "t", "1"))

    def endless(self):
        """A file that is far longer than any state."""
        path = self.file("endless", saved.sealed(TURNED))
        os.truncate(path, 10**9)
        return path

    def test_saved(self):
        self.assertEqual(saved.checksum(b"123456789"), 0x995dc9bbdf1939fa)
        self.assertEqual(saved.checksum(b""), 0)
        self.assertEqual((len(saved.sealed(b"")), saved.opened(saved.sealed(b"abc"))), (36, b"abc"))
        self.assertEqual(saved.sealed(b"123456789"), b"pradulins-saved\n\x03\0\0\0\x09\0\0\0\0\0\0\0" + (0x995dc9bbdf1939fa).to_bytes(8, "little") + b"123456789")
        with open(os.path.join(TOP, "host", "src", "saved.rs")) as file:
            crate = file.read()
        self.assertIn('b"pradulins-saved\\n"', crate)
        # The words are the crate's.
        for words in ("bytes, and the header alone has", "no saved state: it does not begin with `pradulins-saved`", "the state was saved in format",
                      "bytes after its header, which says", "bytes after its header, and the largest has", "the saved state was damaged: its checksum is another",
                      "the saved state cannot be read: ", "the saved state is {refusal}"):
            self.assertIn(words, crate)
        with open(os.path.join(TOP, "include", "pradulins.h")) as file:
            header = file.read()
        self.assertIn("#define PRADULINS_FORMAT %d\n" % saved.FORMAT, header)
        self.assertIn("#define PRADULINS_NODE_SIZE %d\n" % saved.NODE_SIZE, header)


class Words(Case):
    def test_wrong_words(self):
        for words, part in (
                (("zz", "t", "1"), "ID: 'zz' is no hex"), (("410", "t", "1"), "ID: '410' has an odd number of hex digits"),
                (("41 0", "t", "1"), "ID: '0' has an odd number"), (("$ID", "t", "1"), "ID: '$ID' has a name"),
                (("@none", "t", "1"), "ID: no file 'none' in this folder: expected @FILE with the path of a file"),
                (("00*x", "t", "1"), "ID: TIMES is 'x'"), ((A04, "=7", "1"), "TOPIC: '7' has an odd number"),
                ((A04, "@none", "1"), "TOPIC: no file 'none'"), ((A04, "t\udcff", "1"), "TOPIC is not UTF-8: write its bytes as =HEX"),
                ((A04, "t", "65536"), "WINDOWS is '65536': expected a number from 0 to 65535"), ((A04, "t", "x"), "WINDOWS is 'x'"),
                ((A04, "t", ""), "WINDOWS is ''"), ((A04, "t", "1.0"), "WINDOWS is '1.0'"),
                (("00*65536", "t", "1"), "ID and TOPIC have 65537 bytes: expected at most 32764"),
                (("peer:41 04", "t", "1"), "ID: the key in 'peer:41' has the length 1: expected the 32 bytes of an Ed25519 key"),
                (("peer:$K", "t", "1"), "ID: 'peer:$K' has a name"), ((A04, "=74*32726", "1"), "ID and TOPIC have 32765 bytes")):
            self.assertEqual(self.wrong(self.state, *words)[:5], "why: ")
            self.assertIn(part, self.wrong(self.state, *words))
        self.assertEqual(self.told(A04, "=74*32725", 1, 1), "refused 29: a topic has above 1,024 bytes: it has 32,725 bytes\n")
        self.assertEqual(self.told("00*32763", "t", 1), "not in the cache\n")

    def test_number_of_words(self):
        for words in ((), (self.state,), (self.state, A04, "t"), (self.state, A04, "t", "1", "2"), (self.state, A04, "t", "-x")):
            self.assertIn("usage: why", self.wrong(*words))
        status, out, err = self.call("--", self.state, A04, "-t", "1")
        self.assertEqual((status, out, err), (0, "in the cache, without that topic\n", ""))

    def test_help(self):
        status, out, err = self.call("--help")
        self.assertEqual((status, err), (0, ""))
        for words in WHY.refusals.WHY.values():
            self.assertIn("\n  " + words, out)
        example = re.search(r"\n  tools/why gateway\.state '([^']+)' (\S+) (\S+)\n", out)
        self.assertEqual(self.told(*example.groups()), "not in the cache\n")


class Programs(Case):
    def test_none(self):
        self.assertIn("no program at /no/such: `tools/build why` makes it", self.wrong(self.state, A04, "t", "1", program="/no/such"))
        self.assertIn("may be run", self.wrong(self.state, A04, "t", "1", program=self.file("closed", "x")))
        other = self.file("other", b"\x7fELF nothing")
        os.chmod(other, 0o755)
        self.assertIn("cannot run", self.wrong(self.state, A04, "t", "1", program=other))

    def test_strange_answers(self):
        for text in ("", "bad\\n", "long\\n", "1 gateway ok\\n", "1 gateway ok\\nbad\\n", "1 gateway ok\\n2 why\\n", "1 gateway ok\\n2 why yes\\n",
                     "1 gateway ok\\n2 why window\\n", "1 gateway ok\\n2 why window x\\n", "1 gateway refused 42\\n2 why listed\\n", "1 gateway new\\n2 why listed\\n",
                     "1 gateway refused\\nbad\\n", "1 gateway ok\\n2 why listed\\n3 why listed\\n", "2 gateway ok\\n3 why listed\\n"):
            self.assertIn("the program's answer is none that it should give", self.wrong(self.state, A04, "t", "1", program=self.prints(text)), text)
        self.assertIn("ended with status 3", self.wrong(self.state, A04, "t", "1", program=self.prints("", "exit 3")))
        self.assertIn("ended by SIGKILL", self.wrong(self.state, A04, "t", "1", program=self.prints("", "kill -KILL $$")))

    def test_no_kit(self):
        def no_kit(path):
            raise WHY.x86.Failure("there is no kit")
        with mock.patch.object(WHY.x86, "running", no_kit), contextlib.redirect_stderr(io.StringIO()) as err:
            self.assertEqual(WHY.main(["--program", self.model, self.state, A04, "t", "1"]), 2)
        self.assertEqual(err.getvalue(), "why: there is no kit\n")


if __name__ == "__main__":
    unittest.main()
