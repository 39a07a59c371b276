#!/usr/bin/env python3
"""Tests of tools/trace. They need no program: where one is run, it is a stub, or the model of oracle/nodes.py or oracle/whys.py.

    python3 tools/test_trace.py
"""

import contextlib
import io
import os
import re
import stat
import subprocess
import sys
import unittest
from unittest import mock

HERE = os.path.dirname(os.path.abspath(__file__))
sys.dont_write_bytecode = True
sys.path.insert(0, HERE)
import cases  # noqa: E402
import scripts  # noqa: E402

TOP = os.path.dirname(HERE)
SCRIPT = os.path.join(HERE, "trace")
ZEROS = bytes(64)
KEY = "1ed1e8fae2c4a144b8be8fd4b47bf3d3b34b871c3cacf6010f0e42d474fce27e"
SENDER = "002408011220" + KEY
X = bytes.fromhex("12700a26%s1a01012201742a40" % SENDER) + ZEROS

MODEL = """\
import sys
sys.dont_write_bytecode = True
sys.path.insert(0, %r)
import nodes as model
for line in model.expected(sys.stdin.buffer.read()):
    print(line)
""" % os.path.join(TOP, "oracle")


TRACE = scripts.loaded("trace")


def record(kind, content):
    return len(content).to_bytes(4, "little") + kind.to_bytes(2, "little") + content


class Case(cases.Case):
    def setUp(self):
        super().setUp()
        self.model = self.program("model", MODEL)

    def prints(self, text, more=""):
        """A program that prints a text."""
        return self.program("prints", "cat >/dev/null\ncat <<'END'\n%s\nEND\n%s" % (text, more), "/bin/sh")

    def call(self, *words, text=None, given=b"", env=None):
        """(status, standard output, standard error) of the script on a text."""
        words = list(words) + ([self.file("a.trace", text)] if text is not None else [])
        clean = {key: value for key, value in os.environ.items() if key not in ("RATTLE_EMULATOR", "RATTLE_HOME")}
        out, err = io.TextIOWrapper(io.BytesIO(), "utf-8"), io.StringIO()
        # The programs here are scripts, which need no emulator on any machine.
        with mock.patch.object(TRACE.platform, "machine", return_value="x86_64"), mock.patch.dict(os.environ, {**clean, **(env or {})}, clear=True), \
                contextlib.redirect_stdout(out), contextlib.redirect_stderr(err), mock.patch.object(sys, "stdin", io.TextIOWrapper(io.BytesIO(given))):
            try:
                status = TRACE.main(words)
            except SystemExit as done:
                status = done.code
            out.flush()
        return status, out.buffer.getvalue(), err.getvalue()

    def records(self, text):
        status, out, err = self.call("--records", "-", text=text)
        self.assertEqual((status, err), (0, ""))
        return out

    def play(self, text, *words, program=None):
        status, out, err = self.call("--program", program or self.model, *words, text=text)
        self.assertEqual(err, "")
        return status, out.decode()

    def answers(self, out):
        """{line number: answer} of a transcript."""
        found = (re.match(r" *([0-9]+)  .*?   +(\S.*)$", line) for line in out.split("\n"))
        return {int(one[1]): one[2] for one in found if one}


class Records(Case):
    def test_each_call(self):
        n8, n2 = (lambda n: n.to_bytes(8, "little")), (lambda n: n.to_bytes(2, "little"))
        for text, kind, content in (
                ("set 1000 4 2 4", 1, n8(1000) + n2(4) + n2(2) + n2(4)),
                ("set 18446744073709551615 65535 65535 65535", 1, b"\xff" * 14),
                ("admit 100 7 1 0aff", 2, n8(100) + n2(7) + b"\x01\x0a\xff"),
                ("admit 18446744073709551615 65535 0", 2, b"\xff" * 10 + b"\x00"),
                ("beat 1100", 3, n8(1100)),
                ("advertise 1 t", 4, n2(1) + b"t"),
                ("ask 1a00", 5, b"\x1a\x00"),
                ("serve 1a 00", 6, b"\x1a\x00"),
                ("why 1 4101 t", 12, n2(1) + n2(2) + b"A\x01t"),
                ("why 65535 - -", 12, n2(65535) + n2(0)),
                ("why 0 00*300 two words", 12, n2(0) + n2(300) + bytes(300) + b"two words"),
                ("why 2 41", 12, n2(2) + n2(1) + b"A"),
                ("why 2 41 =00ff", 12, n2(2) + n2(1) + b"A\x00\xff"),
                ("raw 9 0102", 9, b"\x01\x02"),
                ("raw 65535", 65535, b"")):
            self.assertEqual(self.records(text), record(kind, content), text)
        self.assertEqual(self.records("bytes 01 02\nbytes 03"), b"\x01\x02\x03")

    def test_sample(self):
        path = os.path.join(TOP, "examples", "sample.trace")
        with open(os.path.join(TOP, "crates", "trace", "stdin"), "rb") as file:
            self.assertEqual(self.call("--records", "-", path), (0, file.read(), ""))

    def test_written_to_a_file(self):
        path = os.path.join(self.folder, "out")
        self.assertEqual(self.call("--records", path, text="beat 1"), (0, b"", ""))
        with open(path, "rb") as file:
            self.assertEqual(file.read(), record(3, b"\x01" + bytes(7)))
        status, _, err = self.call("--records", os.path.join(self.folder, "no", "out"), text="beat 1")
        self.assertEqual(status, 1)
        self.assertIn("cannot write", err)

    def test_bodies(self):
        self.file("x.body", X)
        self.file("with blank", b"\x05")
        for text, body in (
                ("", b""), ("-", b""), ("1A0b", b"\x1a\x0b"), ("1a  0b\t0c", b"\x1a\x0b\x0c"), ("00*64", ZEROS), ("00*0", b""),
                ("0a0b*2 0c", b"\x0a\x0b\x0a\x0b\x0c"), ("@x.body", X), ("@with blank", b"\x05"), ("12 70 0a26 %s 1a01012201742a40 00*64" % SENDER, X),
                ("12700a26 peer:%s 1a01012201742a40 00*64" % KEY, X), ("peer:41*32", bytes.fromhex("002408011220") + b"A" * 32),
                ("01 peer:%s 02" % KEY.upper(), bytes.fromhex("01%s02" % SENDER)), ("05 # five", b"\x05"), ("# none", b"")):
            self.assertEqual(self.records("ask " + text), record(5, body), text)

    def test_names(self):
        text = "let a 01\nlet b2_ $a 02 $a\nask $b2_\nlet a 03*2\nask $a $b2_\nlet e\nask $e"
        self.assertEqual(self.records(text), record(5, b"\x01\x02\x01") + record(5, b"\x03\x03\x01\x02\x01") + record(5, b""))
        text = "let K %s\nlet ID peer:$K\nask $ID\nwhy 1 peer:$K t" % KEY
        self.assertEqual(self.records(text), record(5, bytes.fromhex(SENDER)) + record(12, b"\x01\x00\x26\x00" + bytes.fromhex(SENDER) + b"t"))

    def test_ids(self):
        self.file("id", b"\xff\xfe")
        for text, name in (("4101", b"A\x01"), ("$ID", b"A\x02"), ("41*3", b"AAA"), ("@id", b"\xff\xfe"), ("-", b"")):
            self.assertEqual(self.records("let ID 4102\nwhy 7 %s t" % text), record(12, b"\x07\x00" + len(name).to_bytes(2, "little") + name + b"t"), text)

    def test_topics(self):
        self.file("topic", b"\xff\xfe")
        for text, topic in (
                ("", b""), ("-", b""), ("t", b"t"), ("chest  x-ray", b"chest  x-ray"), ("\u20ac", "\u20ac".encode()),
                ("=ff fe*2", b"\xff\xfe\xfe"), ("=", b""), ("=2d", b"-"), ("@topic", b"\xff\xfe"), ("a#b", b"a#b"), ("a # b", b"a"), ("$x", b"$x")):
            self.assertEqual(self.records("advertise 2 " + text), record(4, b"\x02\x00" + topic), text)

    def test_lines(self):
        beats = record(3, bytes(8)) * 2
        for text in ("beat 0\nbeat 0", "beat 0\r\nbeat 0\r\n", "\ufeffbeat 0\n\n# no\n  beat\t0  # yes\n\n", "#\n  # a\n beat 00 #\nbeat 0\n"):
            self.assertEqual(self.records(text), beats)
        self.assertEqual(self.records(""), b"")

    def test_files_beside_the_trace(self):
        os.mkdir(os.path.join(self.folder, "sub"))
        self.file("sub/x", b"\x07")
        path = self.file("sub/one.trace", "ask @x")
        self.assertEqual(self.call("--records", "-", path), (0, record(5, b"\x07"), ""))
        self.addCleanup(os.chdir, os.getcwd())
        os.chdir(os.path.join(self.folder, "sub"))
        self.assertEqual(self.call("--records", "-", "-", given=b"ask @x"), (0, record(5, b"\x07"), ""))
        self.assertEqual(self.call("--records", "-", "one.trace"), (0, record(5, b"\x07"), ""))


# Of each mistake: the line, and parts of what is said of it.
MISTAKES = [
    ("amit 100 0 1", "unknown call 'amit'", "expected one of set, admit, beat, advertise, ask, serve, why"),
    ("SET 1 2 3 4", "unknown call 'SET'"),
    ("set", "set has nothing after it", "expected set TTL MAX_SEEN HISTORY_LEN MAX_MESSAGES"),
    ("set 1 2 3", "set has 3 words after it"),
    ("set 1 2 3 4 5 6", "set has 6 words after it"),
    ("beat", "expected beat NOW"),
    ("beat 1 2", "beat has 2 words after it"),
    ("admit 1 2", "expected admit NOW INDEX VERIFIED BODY"),
    ("advertise", "expected advertise WINDOWS TOPIC"),
    ("why", "why has nothing after it", "expected why WINDOWS ID TOPIC"),
    ("why 1", "why has 1 word after it"),
    ("why 65536 41 t", "WINDOWS is '65536'"),
    ("why 1 4 t", "'4' has an odd number of hex digits"),
    ("why 1 A t", "'A' has an odd number"),
    ("why 1 t t", "'t' is no hex"),
    ("why 1 $none t", "no name '$none'"),
    ("why 1 00*65536 t", "the id has 65536 bytes: expected at most 65535"),
    ("why 1 41 =f", "'f' has an odd number"),
    ("raw", "expected raw KIND BODY"),
    ("let", "expected let NAME BODY"),
    ("set 18446744073709551616 1 1 1", "TTL is '18446744073709551616': expected a number from 0 to 18446744073709551615"),
    ("set 1 65536 1 1", "MAX_SEEN is '65536': expected a number from 0 to 65535"),
    ("set 1 1 -1 1", "HISTORY_LEN is '-1'"),
    ("set 1 1 1 1.5", "MAX_MESSAGES is '1.5'"),
    ("admit x 0 1", "NOW is 'x'"),
    ("admit 1 65536 1", "INDEX is '65536'"),
    ("admit 1 0 2", "VERIFIED is '2': expected 0 or 1"),
    ("admit 1 0 yes 00", "VERIFIED is 'yes'"),
    ("beat 0x10", "NOW is '0x10'"),
    ("beat +1", "NOW is '+1'"),
    ("beat " + "9" * 5000, "NOW is '9999999999999999999999999999..'"),
    ("beat \u0663", "NOW is '\u0663'"),
    ("advertise 65536 t", "WINDOWS is '65536'"),
    ("raw 65536 00", "KIND is '65536'"),
    ("ask 1", "'1' has an odd number of hex digits: expected two for each byte"),
    ("ask 1a 0 0b", "'0' has an odd number"),
    ("ask 1a0", "'1a0' has an odd number"),
    ("serve zz", "'zz' is no hex"),
    ("serve 1a 0x00", "'0x00' is no hex"),
    ("admit 1 0 1 @", "cannot read the file"),
    ("ask 00*", "TIMES is ''"),
    ("ask 00*65537", "TIMES is '65537': expected a number from 0 to 65536"),
    ("ask 0*2", "'0*2' has an odd number"),
    ("ask g*2", "'g*2' is no hex"),
    ("ask $none", "no name '$none'", "let none BODY"),
    ("ask peer:" + KEY[2:], "the key in 'peer:d1e8fae2c4a144b8be8fd4b..' has the length 31: expected the 32 bytes of an Ed25519 key"),
    ("ask peer:", "the key in 'peer:' has the length 0: expected the 32 bytes"),
    ("ask 00 peer:41*33", "the key in 'peer:41*33' has the length 33"),
    ("ask peer:$none", "no name '$none'", "let none BODY"),
    ("ask peer:4", "'4' has an odd number of hex digits"),
    ("ask peer:gate", "'gate' is no hex"),
    ("ask peer", "'peer' is no hex", "peer:KEY"),
    ("ask @none.body", "no file 'none.body' in "),
    ("ask @/no/such", "no file '/no/such': expected @FILE"),
    ("ask @a\0b", "the file's name 'a\ufffdb' has a zero byte"),
    ("advertise 1 @none", "no file 'none'"),
    ("advertise 1 =f", "'f' has an odd number"),
    ("let 1a 00", "the name is '1a'"),
    ("let a-b 00", "the name is 'a-b'"),
    ("ask \ud800", "the line is not UTF-8"),
]


class Mistakes(Case):
    def test_all_are_named(self):
        for at in range(0, len(MISTAKES), TRACE.MOST_MISTAKES):
            self.named(MISTAKES[at:at + TRACE.MOST_MISTAKES])

    def named(self, mistakes):
        text = "".join("# mistake\n%s\n" % line for line, *_ in mistakes).encode("utf-8", "surrogatepass")
        program = self.program("never", "open(%r, 'w')" % os.path.join(self.folder, "ran"))
        status, out, err = self.call("--program", program, text=text)
        self.assertEqual((status, out), (2, b""))
        said = err.split("\n")
        self.assertEqual(len(said), len(mistakes) + 2, err)
        for n, (line, *parts) in enumerate(mistakes):
            start = "%s:%d: " % (os.path.join(self.folder, "a.trace"), 2 * n + 2)
            for part in [start] + parts:
                self.assertIn(part, said[n], line)
            if line.split()[0] in TRACE.CALLS and "UTF-8" not in said[n] and "cannot read" not in said[n]:
                self.assertIn("expected", said[n])
        self.assertEqual(said[-2], "trace: %d mistakes in the text; nothing was run" % len(mistakes))
        self.assertFalse(os.path.exists(os.path.join(self.folder, "ran")))

    def test_it_stops_after_twenty(self):
        more = "trace: 20 mistakes are named, and the rest is not read; nothing was run"
        for text, last in (("beat x\n" * 20, "trace: 20 mistakes in the text; nothing was run"), ("beat x\n" * 20 + "\n# end\n \n", None),
                           ("beat x\n" * 20 + "beat 1\n", more), ("beat x\n" * 21, more), ("beat\n" * 100000, more),
                           ("beat x\n" * 19 + "admit x x x x", more), ("beat x\n" * 16 + "admit x x x x", None)):
            status, out, err = self.call(text=text)
            said = err.split("\n")
            self.assertEqual((status, out, len(said)), (2, b"", 22), err[-300:])
            self.assertEqual(said[-2], last or "trace: 20 mistakes in the text; nothing was run")
            self.assertTrue(said[0].endswith("a.trace:1: beat: NOW is 'x': expected a number from 0 to 18446744073709551615")
                            or "beat has nothing" in said[0], said[0])

    def test_several_in_a_line(self):
        status, _, err = self.call(text="admit -1 70000 3 zz")
        self.assertEqual(status, 2)
        for part in ("NOW is", "INDEX is", "VERIFIED is", "'zz' is no hex", "4 mistakes"):
            self.assertIn(part, err)

    def test_a_wrong_name_is_named_once(self):
        status, _, err = self.call(text="let a 0\nask $a\nask $a")
        self.assertEqual((status, err.count("\n")), (2, 2))
        self.assertIn("a.trace:1: let", err)
        self.assertIn("1 mistake in", err)

    def test_nothing_is_written(self):
        path = os.path.join(self.folder, "out")
        self.assertEqual(self.call("--records", path, text="beat")[0], 2)
        self.assertFalse(os.path.exists(path))

    def test_other_files(self):
        self.file("closed", b"")
        os.mkdir(os.path.join(self.folder, "sub"))
        status, _, err = self.call(text="ask @sub")
        self.assertEqual(status, 2)
        self.assertIn("cannot read the file 'sub'", err)
        status, _, err = self.call(os.path.join(self.folder, "none.trace"))
        self.assertEqual(status, 2)
        self.assertIn("cannot read", err)
        status, _, err = self.call("-", given=b"beat")
        self.assertEqual(status, 2)
        self.assertIn("standard input:1: beat", err)

    def test_too_many_bytes(self):
        status, _, err = self.call(text="let a 00*65536\nlet b" + " $a" * 256 + "\nask $b 00\nask $b")
        self.assertEqual(status, 2)
        self.assertIn("a.trace:3: ask: the bytes are above 16777216", err)
        self.assertIn("1 mistake", err)
        # They are counted before they are made: this would be 6 GB.
        status, _, err = self.call(text="ask %s*65536\nask 00*65536 %s*256" % ("00" * 100000, "00" * 65536))
        self.assertEqual(status, 2)
        self.assertEqual(err.count("ask: the bytes are above 16777216\n"), 2)
        status, _, err = self.call(text="ask @/dev/zero")
        self.assertIn("ask: the file '/dev/zero' has above 16777216 bytes", err)


class Playing(Case):
    def test_sample(self):
        path = os.path.join(TOP, "examples", "sample.trace")
        status, out, err = self.call("--program", self.model, path)
        self.assertEqual((status, err), (0, ""))
        self.assertEqual(list(self.answers(out.decode()).values()), [
            "32 bytes", "114 bytes", "ok", "new", "48 bytes  1a2e0a2c0a017412270024080112201ed1e8fae2..", "dup", "ok", "0 bytes",
            "refused 31: the reading is before the node's clock", "new"])
        self.assertIn("     # At 1100 the id has expired", out.decode())

    def test_catch_up(self):
        path = os.path.join(TOP, "examples", "catch-up.trace")
        status, out, err = self.call("--full", "--program", self.model, path)
        self.assertEqual((status, err), (0, ""))
        offers = [line.split()[-1] for line in out.decode().split("\n") if "advertise" in line]
        self.assertEqual(len(offers), 3)
        self.assertNotEqual(offers[0], offers[1])
        self.assertEqual(offers[1], offers[2])
        # What the text says of an answer is what was answered.
        names = {}
        told = [line.split()[-1] for line in out.decode().split("\n") if "bytes  " in line]
        with open(path, "rb") as file:
            lines, _, _ = TRACE.parse(file.read(), "")
        for line in lines:
            if line.head.startswith("let "):
                name = line.head[4:]
                names[name] = TRACE.body_bytes(line.rest, "", names)
                if name in ("OFFER", "REQUEST", "REPLY"):
                    self.assertIn(names[name].hex(), told)

    def test_senders(self):
        path = os.path.join(TOP, "examples", "senders.trace")
        status, out, err = self.call("--program", self.model, path)
        self.assertEqual((status, err), (0, ""))
        no_peer, no_key = "refused 34: the sender is no peer id", "refused 35: the key does not decode"
        other = "refused 36: the key is not the sender's, or there is none"
        told = [answer for answer in self.answers(out.decode()).values() if not answer.endswith(" bytes")]
        self.assertEqual(told, ["ok", no_peer, no_peer, other, no_key, no_key, other, "refused 27: the host did not verify the signature", "new", "dup", other, "new"])

    def test_lifetime(self):
        path = os.path.join(TOP, "examples", "lifetime.trace")
        status, out, err = self.call("--program", self.model, path)
        self.assertEqual((status, err), (0, ""))
        back = "refused 31: the reading is before the node's clock"
        told = [answer for answer in self.answers(out.decode()).values() if not answer.endswith(" bytes")]
        self.assertEqual(told, ["ok", "new", "dup", back, "new", "new", "dup", "new", "new", back])

    def test_why(self):
        """The example, each answer beside what its text says."""
        path = os.path.join(TOP, "examples", "why.trace")
        asks = self.program("asks", MODEL.replace("nodes", "whys"))
        status, out, err = self.call("--program", asks, path)
        self.assertEqual((status, err), (0, ""))
        told = [re.split("   +", line.strip())[-1] for line in out.decode().split("\n") if re.match(" *[0-9]+  why", line)]
        self.assertEqual(told, [
            "listed", "not in the cache", "in the cache, without that topic", "in the cache, without that topic", "not in the cache",
            "in the cache, in a window of age 1", "listed", "in the cache, in a window of age 0", "in the cache, without that topic",
            "listed", "listed", "not in the cache", "listed", "refused 29: a topic has above 1,024 bytes"])
        # What is advertised just before is listed, and nothing else is.
        names = {"$IDX": "002408011220" + "41" * 32 + "01", "$IDY": "002408011220" + "41" * 32 + "02"}
        out = self.call("--full", "--program", asks, path)[1]
        for line in out.decode().split("\n"):
            if " advertise " in line:
                offered, asked = line.split()[-1], line.split()[2:4]
            found = re.match(r" *[0-9]+  why (\S+) (\S+) (\S+)  +(\S.*)", line)
            if found and list(found.groups()[:1] + found.groups()[2:3]) == asked:
                self.assertEqual(found[4] == "listed", names.get(found[2], "none") in offered, line)

    def test_which_program(self):
        for text, name in (("set 1 1 1 1\nbeat 5", "trace"), ("# why\nbeat 5", "trace"), ("raw 12 00", "trace"), ("let why 00", "trace"),
                           ("beat 5\nwhy 1 41 t", "why"), ("", "trace")):
            lines, mistakes, _ = TRACE.parse(text.encode(), "")
            self.assertEqual((TRACE.program_for(lines), mistakes), (name, []), text)
            with mock.patch.object(TRACE, "command", side_effect=TRACE.Failure("none")) as command:
                self.assertEqual(self.call(text=text)[0], 1)
                self.call("--program", "/other", text=text)
            here, given = (call.args for call in command.call_args_list)
            self.assertEqual((here[0], here[2]), (os.path.join(TOP, "target", "bin", name), name))
            self.assertEqual((given[0], given[2]), ("/other", name))
        status, _, err = self.call("--program", os.path.join(self.folder, "none"), text="why 1 41 t")
        self.assertEqual(status, 1)
        self.assertIn("tools/build why", err)

    def test_answers(self):
        status, out = self.play(
            "let X 12700a26 peer:41*32 1a01012201742a40 00*64\nset 10 4 2 4\nadmit 5 0 1 $X\nserve 1a2b12290a27 peer:41*32 01\nserve\nask 1a0512030a0142\n"
            "ask 1a070a0512014212014212\nask 1a050a0312014212\nask 1a050a03120142\nset 1 1 0 1\nbeat 4\nadvertise 1 =74*1025\nadmit 5 0 1 -")
        self.assertEqual(status, 0)
        self.assertEqual(self.answers(out), {
            1: "114 bytes", 2: "ok", 3: "new", 4: "1 message, 0 left, 114 bytes  12700a2600240801122041414141414141414141..",
            5: "0 messages, 0 left, 0 bytes",
            6: "0 bytes", 7: "refused 4: a field passes the end", 8: "refused 1: a varint is cut short", 9: "7 bytes  1a0512030a0142",
            10: "refused 40: a setting is out of range, or the seen store is too short", 11: "refused 31: the reading is before the node's clock",
            12: "refused 29: a topic has above 1,024 bytes", 13: "refused 20: no message at that index"})

    def test_columns(self):
        text = "set 1 1 1 1\nbeat 18446744073709551615\nask " + "20 00 " * 40
        status, out = self.play(text)
        lines = out.split("\n")[:-1]
        self.assertEqual((status, len(lines)), (0, 3))
        self.assertEqual({line.rindex(answer) for line, answer in zip(lines, ("ok", "ok", "0 bytes"))}, {lines[0].index("ok")})
        self.assertIn(".. (80 bytes)", lines[2])
        self.assertTrue(all(len(line) < 80 for line in lines))

    def test_control_characters(self):
        status, out = self.play("set\t1 1 1 1\nadvertise 1 a\x1b[1m\tb")
        self.assertEqual((status, out), (0, "  1  set 1 1 1 1           ok\n  2  advertise 1 a\ufffd[1m b   0 bytes\n"))

    def test_full(self):
        text = "let X %s\nset 10 4 2 4\nadmit 5 0 1 %s\nserve 1a2b12290a27%s01" % (X.hex(), X.hex(), SENDER)
        status, out = self.play(text, "--full")
        self.assertEqual((status, out.count(X.hex())), (0, 3))
        self.assertNotIn("..", out)
        self.assertIn("\n                    new\n", out)
        self.assertNotIn(X.hex(), self.play(text)[1])

    def test_nothing(self):
        self.assertEqual(self.play(""), (0, ""))
        self.assertEqual(self.play("# only this\n\n"), (0, "     # only this\n"))

    def test_standard_input(self):
        status, out, err = self.call("--program", self.model, "-", given=b"set 1 1 1 1\nbeat 5\n")
        self.assertEqual((status, err, self.answers(out.decode())), (0, "", {1: "ok", 2: "ok"}))

    def test_help(self):
        status, out, err = self.call("-h")
        self.assertEqual((status, err), (0, ""))
        example = out.decode().split("Example:\n")[1].split("More stand")[0]
        wanted = re.findall(r"# (new|dup|48 bytes|refused 31)", example)
        status, played = self.play(example)
        self.assertEqual(status, 0)
        told = [answer for answer in self.answers(played).values() if answer not in ("114 bytes", "ok")]
        self.assertEqual([answer[:len(want)] for answer, want in zip(told, wanted)], wanted)
        self.assertEqual(len(told), 4)


class EndingEarly(Case):
    def test_bad(self):
        status, out = self.play("set 1 1 1 1\nraw 9 00\n\n# more\nbeat 1\nlet a 00\nask $a\n")
        self.assertEqual(status, 1)
        self.assertEqual(self.answers(out), {1: "ok", 2: "bad", 5: "not played", 6: "1 byte", 7: "not played"})
        self.assertIn("The run ended with `bad` at line 2. A record is cut, of no known kind", out)
        self.assertIn("Lines 5 to 7 were not played.", out)

    def test_one_line_left_and_none(self):
        self.assertIn("Line 2 was not played.", self.play("beat 1\nbeat 2")[1])
        status, out = self.play("set 1 1 1 1\nraw 2 00")
        self.assertEqual(status, 1)
        self.assertNotIn("not played", out)

    def test_long(self):
        self.file("large", bytes(32769))
        self.file("largest", b"\x20\x00" * 16384)
        status, out = self.play("set 1 1 1 1\nask @largest\nask @large\nbeat 1")
        self.assertEqual((status, self.answers(out)), (1, {1: "ok", 2: "0 bytes", 3: "long", 4: "not played"}))
        self.assertIn("The run ended with `long` at line 3. A record has above 32,768 bytes.", out)
        self.assertEqual(self.play("bytes 01 80 00 00")[0], 1)

    def test_pieces(self):
        # Records in pieces, two in one line, and one that takes in the line after it.
        one, two = record(3, b"\x05" + bytes(7)).hex(), record(3, b"\x04" + bytes(7)).hex()
        status, out = self.play("set 1 1 1 1\nbytes %s\nbytes %s\nbytes\nbytes %s\nraw 3 06" % (one[:10], one[10:], one + two))
        self.assertEqual(status, 1)
        self.assertEqual(self.answers(out), {1: "ok", 2: "ok", 3: "(part of the record above)", 4: "(no bytes)", 5: "ok", 6: "bad"})
        lines = out.split("\n")
        self.assertEqual(lines[5].strip(), "refused 31: the reading is before the node's clock")
        self.assertEqual(lines[5].index("refused"), lines[4].index("ok"))
        status, out = self.play("set 1 1 1 1\nbytes 0e 00 00 00 05 00\nbeat 1\nbeat 2")
        self.assertEqual((status, self.answers(out)),
                         (0, {1: "ok", 2: "refused 6: a field number out of range", 3: "(part of the record above)", 4: "ok"}))


class Programs(Case):
    TEXT = "set 1 1 1 1\nbeat 5\nbeat 6"

    def test_as_a_command(self):
        path = self.file("a.trace", self.TEXT)
        # An emulator that runs the script itself, for machines where the tool takes one.
        emulator = self.program("emulator", "for last; do :; done\nexec \"$last\"", "/bin/sh")
        done = subprocess.run([SCRIPT, "--emulator", emulator, "--program", self.model, path], stdout=subprocess.PIPE, check=False)
        self.assertEqual((done.returncode, len(self.answers(done.stdout.decode()))), (0, 3))
        # Whoever reads may stop early.
        large = self.file("large.trace", "set 1 1 1 1\n" + "beat 5\n" * 20000)
        done = subprocess.run("'%s' --emulator '%s' --program '%s' '%s' | head -n 2" % (SCRIPT, emulator, self.model, large), shell=True, check=False,
                              stdout=subprocess.PIPE, stderr=subprocess.PIPE)
        self.assertEqual((done.stdout.count(b"\n"), done.stderr), (2, b""))
        # The status is the trace's all the same.
        for text, status in ((self.TEXT, 0), (self.TEXT + "\nraw 9", 1)):
            read, write = os.pipe()
            os.close(read)
            done = subprocess.run([SCRIPT, "--emulator", emulator, "--program", self.model, self.file("a.trace", text)], stdout=write, stderr=subprocess.PIPE,
                                  check=False)
            os.close(write)
            self.assertEqual((done.returncode, done.stderr), (status, b""))
        for more in ([], ["--records", "-"], ["--records", "/dev/full"]):
            with open("/dev/full", "wb") as full:
                done = subprocess.run([SCRIPT, "--emulator", emulator, "--program", self.model, path, *more], stdout=full, stderr=subprocess.PIPE, check=False)
            name = "/dev/full" if "/dev/full" in more else "standard output"
            self.assertEqual((done.returncode, done.stderr.decode()), (1, "trace: cannot write %s: No space left on device\n" % name))

    def test_none(self):
        status, out, err = self.call("--program", os.path.join(self.folder, "none"), text=self.TEXT)
        self.assertEqual((status, out), (1, b""))
        self.assertIn("tools/build trace", err)
        os.chmod(self.file("closed", "x"), stat.S_IRUSR)
        status, _, err = self.call("--program", os.path.join(self.folder, "closed"), text=self.TEXT)
        self.assertEqual(status, 1)
        self.assertIn("may be run", err)
        path = self.file("other", b"\x7fELF nothing")
        os.chmod(path, 0o755)
        status, _, err = self.call("--program", path, text=self.TEXT)
        self.assertEqual(status, 1)
        self.assertIn("cannot run", err)

    def test_stops(self):
        status, out = self.play(self.TEXT, program=self.prints("1 set ok", "kill -KILL $$"))
        self.assertEqual((status, self.answers(out)), (1, {1: "ok", 2: "no answer", 3: "not played"}))
        self.assertIn("The program ended by SIGKILL and gave no answer to line 2.", out)
        silent = self.program("silent", "exit 3", "/bin/sh")
        self.assertIn("ended with status 3 and gave no answer to line 1", self.play(self.TEXT, program=silent)[1])
        status, out = self.play(self.TEXT, program=self.prints("1 set ok\n2 beat ok\n3 beat ok", "exit 4"))
        self.assertEqual(status, 1)
        self.assertIn("answered every line and ended with status 4", out)

    def test_strange_answers(self):
        for text in ("2 beat ok", "1 beat ok", "1 set new", "1 set", "1 set ok ", "x", "", "1 set refused x", "\ufffd"):
            status, out = self.play("set 1 1 1 1", program=self.prints(text))
            self.assertEqual(status, 1, text)
            self.assertIn("none that a trace has", out)
        for text in ("1 ask 1", "1 ask 0 00", "1 ask", "1 ask x 00", "1 ask 1 00 0 0"):
            self.assertIn("none that a trace has", self.play("ask", program=self.prints(text))[1], text)
        for text in ("1 why", "1 why ok", "1 why window", "1 why window x", "1 why window 1 2", "1 why listed 1", "1 why refused"):
            self.assertIn("none that a trace has", self.play("why 1 41 t", program=self.prints(text))[1], text)
        for text in ("1 serve 0", "1 serve 0 0", "1 serve 1 0 0", "1 serve 0 00 0 0"):
            self.assertIn("none that a trace has", self.play("serve", program=self.prints(text))[1], text)
        for text in ("1 set ok\n2 beat ok", "1 set ok\nbad", "1 set ok\n"):
            self.assertIn("more lines than there are records", self.play("set 1 1 1 1", program=self.prints(text))[1])
        self.assertIn("none that a trace has", self.play("set 1 1 1 1", program=self.prints("bad\n2 beat ok"))[1])

    def test_emulator(self):
        said = os.path.join(self.folder, "said")
        emulator = self.program("emulator", "echo \"$@\" >%s\nfor last; do :; done\nexec \"$last\"" % said, "/bin/sh")
        named = ("--emulator", emulator)
        for words, env in ((named, {}), ((), {"RATTLE_EMULATOR": emulator}), (named, {"RATTLE_EMULATOR": "none"})):
            status, out, err = self.call("--program", self.model, *words, text=self.TEXT, env=env)
            self.assertEqual((status, err, len(self.answers(out.decode()))), (0, "", 3))
            with open(said) as file:
                self.assertTrue(file.read().endswith(self.model + "\n"))
            os.remove(said)
        status, _, err = self.call("--program", self.model, "--emulator", "/no/such", text=self.TEXT)
        self.assertEqual(status, 1)
        self.assertIn("no emulator at /no/such", err)

    def test_other_machine(self):
        def words(emulator=None, **env):
            clean = {"PATH": os.path.join(self.folder, "path"), **env}
            with mock.patch.object(TRACE.platform, "machine", return_value="aarch64"), mock.patch.dict(os.environ, clean, clear=True):
                return TRACE.command(self.model, emulator)

        with self.assertRaises(TRACE.Failure) as caught:
            words()
        for part in ("x86-64", "aarch64", "no qemu-x86_64 on the PATH or in the kit", "--emulator", "RATTLE_EMULATOR"):
            self.assertIn(part, str(caught.exception))
        given = self.program("given", "")
        self.assertEqual(words(given), [given, self.model])
        self.assertEqual(words(RATTLE_EMULATOR=given), [given, self.model])
        # The kit: by RATTLE_HOME, or beside rt.
        for part in ("path", "home", "home/bin", "home/on", "home/on/aarch64", "home/on/aarch64/toolchain", "home/on/aarch64/toolchain/bin",
                     "home/on/aarch64/toolchain/lib"):
            os.mkdir(os.path.join(self.folder, part))
        home = os.path.join(self.folder, "home")
        of_kit = self.program("home/on/aarch64/toolchain/bin/qemu-x86_64", "")
        self.assertEqual(words(RATTLE_HOME=home), [of_kit, self.model])
        rt = self.program("home/bin/rt", "")
        os.symlink(rt, os.path.join(self.folder, "path", "rt"))
        self.assertEqual(words(), [of_kit, self.model])
        on_path = self.program("path/qemu-x86_64", "")
        self.assertEqual(words(), [on_path, self.model])
        # Its loader, where the machine has none.
        loader = self.file("home/on/aarch64/toolchain/lib/ld-linux-x86-64.so.2", "")
        exists = os.path.exists
        for there in (False, True):
            with mock.patch.object(TRACE.os.path, "exists", lambda path, there=there: there if path.startswith("/lib64/") else exists(path)):
                self.assertEqual(words(), [on_path] + ([] if there else [loader, "--library-path", os.path.dirname(loader)]) + [self.model])

    def test_this_machine(self):
        with mock.patch.object(TRACE.platform, "machine", return_value="x86_64"), mock.patch.dict(os.environ, {"PATH": ""}, clear=True):
            self.assertEqual(TRACE.command(self.model, None), [self.model])


if __name__ == "__main__":
    unittest.main()
