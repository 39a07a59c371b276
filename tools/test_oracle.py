#!/usr/bin/env python3
"""Tests of what the oracle's comparisons and bench/bench say where something is missing, of the finder of places, of the models' peer ids, keys and
admission, of the models of editions, of groups and of lists, and of what is asked of a notice's lifetime. They need neither the Rust's files nor a program.

    python3 tools/test_oracle.py
"""

import collections
import itertools
import os
import random
import subprocess
import sys
import tempfile
import unittest

HERE = os.path.dirname(os.path.abspath(__file__))
TOP = os.path.dirname(HERE)
ORACLE = os.path.join(TOP, "oracle")
sys.dont_write_bytecode = True
sys.path.insert(0, ORACLE)
import admissions  # noqa: E402
import bodies  # noqa: E402
import caches  # noqa: E402
import compare_editions  # noqa: E402
import compare_groups  # noqa: E402
import compare_lifetime  # noqa: E402
import editions  # noqa: E402
import groups  # noqa: E402
import keys  # noqa: E402
import lists  # noqa: E402
import nodes  # noqa: E402
import peers  # noqa: E402
import places  # noqa: E402
import sources  # noqa: E402
import state_histories  # noqa: E402
import states  # noqa: E402
import traces  # noqa: E402
import wire  # noqa: E402
from places import DIALECTS, GROUPS, V1_1, V1_2, skips_groups  # noqa: E402

RUST = ("compare_wire", "compare_decode", "compare_write", "compare_editions", "compare_groups", "compare_caches", "compare_keys", "compare_admission", "compare_lists")
PROGRAM = {"compare_wire": "inspect", "compare_decode": "inspect", "compare_write": "inspect", "compare_editions": "inspect", "compare_groups": "inspect", "compare_caches": "caches",
           "compare_trace": "trace", "compare_lifetime": "trace", "compare_states": "states", "make_states": "states", "compare_why": "why", "make_why": "why", "compare_keys": "inspect",
           "compare_admission": "states", "compare_lists": "inspect"}


class Case(unittest.TestCase):
    def setUp(self):
        kept = tempfile.TemporaryDirectory()
        self.addCleanup(kept.cleanup)
        self.folder = kept.name
        self.source = os.path.join(self.folder, "source")
        os.mkdir(self.source)

    def put(self, name):
        path = os.path.join(self.source, name)
        os.makedirs(os.path.dirname(path), exist_ok=True)
        with open(path, "w") as file:
            file.write("// %s\n" % name)
        return path

    def call(self, *words, **env):
        """(status, standard output, standard error), with ORACLE_SRC at the test's folder."""
        clean = {key: value for key, value in os.environ.items() if not key.startswith("ORACLE_")}
        by = [] if words[0].endswith(".sh") else [sys.executable]
        done = subprocess.run([*by, os.path.join(TOP, words[0]), *words[1:]], capture_output=True, text=True, cwd=self.folder,
                              env={**clean, "ORACLE_SRC": self.source, "PYTHONDONTWRITEBYTECODE": "1", **env})
        return done.returncode, done.stdout, done.stderr

    def missing(self, err, count):
        self.assertIn("%d of the Rust's 7 files %s missing in %s:" % (count, "is" if count == 1 else "are", self.source), err)
        self.assertIn("minip2p repository", err)
        self.assertIn("ORACLE_SRC", err)
        self.assertIn("oracle/README.md says more", err)
        self.assertNotIn("Traceback", err)

    def test_both_names(self):
        for n, name in enumerate(sources.FILES):
            self.put(name if n % 2 else sources.flat(name))
        found = sources.find(self.source)
        self.assertEqual(list(found), list(sources.FILES))
        for n, (name, path) in enumerate(found.items()):
            self.assertEqual(path, os.path.join(self.source, name if n % 2 else sources.flat(name)))
        status, out, err = self.call("oracle/sources.py")
        self.assertEqual((status, err), (0, ""))
        self.assertEqual(out, "".join("%s\t%s\n" % pair for pair in found.items()))
        self.assertEqual(sources.flat("crates/pubsub/src/message.rs"), "src--crates--pubsub--src--message.rs.txt")
        # The file under its own path comes first.
        path = self.put(sources.FILES[0])
        self.assertEqual(sources.find(self.source)[sources.FILES[0]], path)

    def test_the_folder(self):
        self.assertEqual(sources.DEFAULT, os.path.join(ORACLE, "source"))
        names = ["oracle/source/crates/core/src/frame.rs", "oracle/source/src--crates--core--src--frame.rs.txt"]
        told = subprocess.run(["git", "check-ignore", *names], cwd=TOP, capture_output=True, text=True)
        if told.returncode == 128:
            self.skipTest("this is no git repository")
        self.assertEqual(told.stdout.split(), names)

    def test_the_table_of_the_readme(self):
        with open(os.path.join(ORACLE, "README.md"), encoding="utf-8") as file:
            text = file.read()
        for name in sources.FILES:
            self.assertTrue("| `%s` | `%s` |" % (name, sources.flat(name)) in text, name)

    def test_nothing_is_there(self):
        for words in (["oracle/sources.py"], ["oracle/build.sh"]):
            status, out, err = self.call(*words, ORACLE_BUILD=os.path.join(self.folder, "build"))
            self.assertEqual((status, out), (1, ""))
            self.missing(err, 7)
        self.assertFalse(os.path.exists(os.path.join(self.folder, "build")))
        for name in sources.FILES[1:]:
            self.put(name)
        status, out, err = self.call("oracle/build.sh", ORACLE_BUILD=os.path.join(self.folder, "build"))
        self.assertEqual((status, out), (1, ""))
        self.missing(err, 1)
        self.assertIn("  crates/core/src/frame.rs\n", err)
        self.assertNotIn("message.rs", err)

    def test_bench_looks_first(self):
        # Nothing could be installed, built or run: no command is on the PATH.
        for words in (["bench/bench"], ["bench/bench", "--source", self.source]):
            status, out, err = self.call(*words, PATH=self.folder)
            self.assertEqual((status, out), (1, ""), err)
            self.missing(err, 7)
            self.assertIn("--source", err)

    def test_no_program(self):
        for name, program in PROGRAM.items():
            oracle = {"ORACLE_BIN": sys.executable} if name in RUST else {}
            status, out, err = self.call("oracle/%s.py" % name, "target/bin/none", **oracle)
            self.assertEqual((status, out, err), (2, "", "%s: no program at target/bin/none: `tools/build %s` makes target/bin/%s\n" % (name, program, program)))

    def test_no_oracle(self):
        for name in RUST + ("compare_model", "make_vectors"):
            words = ["oracle/%s.py" % name] + (["target/bin/none"] if name in RUST else [])
            status, out, err = self.call(*words, ORACLE_BIN="/no/such")
            self.assertEqual((status, out, err), (2, "", "%s: no oracle at /no/such, which ORACLE_BIN names\n" % name))
        status, out, err = self.call("oracle/compare_multihash.py", "/no/such", ORACLE_BIN=sys.executable)
        self.assertEqual((status, out, err), (2, "", "compare_multihash: no oracle at /no/such\n"))

    def test_no_multihash(self):
        for name in sources.FILES:
            self.put(name)
        # The harness stands there, with the Rust's files; the crate does not, so nothing is compiled.
        build = os.path.join(self.folder, "build")
        status, out, err = self.call("oracle/build.sh", ORACLE_BUILD=build, ORACLE_MULTIHASH=self.folder)
        self.assertEqual((status, out), (1, ""))
        self.assertEqual(err, "oracle: no unsigned-varint-0.8 in %s, which ORACLE_MULTIHASH names\n" % self.folder)
        self.assertFalse(os.path.exists(os.path.join(build, "target")))


def model(body, dialect=V1_1):
    """Why the model's reader refuses a body, in the words of a line without a place; None where it takes it."""
    try:
        nodes.Body(body, dialect)
    except nodes.Refused as why:
        return "refused " + " ".join(map(str, why.args))
    return None


class Places(unittest.TestCase):
    def test_the_rows(self):
        for text, line in places.ROWS + places.MORE_ROWS:
            body = bytes.fromhex(text)
            self.assertEqual(places.with_place(model(body), places.find, body), line, text)
        self.assertEqual(len(places.ROWS), 21)
        self.assertEqual(len({text for text, _ in places.ROWS + places.MORE_ROWS}), len(places.ROWS + places.MORE_ROWS))
        # Every path stands among them, and each refusal.
        found = [places.find(body) for body in bodies.placed()]
        self.assertEqual({place.fields for place in found if place}, set(places.PATHS[V1_1]))
        self.assertEqual({place.number for place in found if place}, set(places.OF_A_BODY))

    def test_the_rows_of_editions(self):
        for text, *told in places.EDITION_ROWS:
            body = bytes.fromhex(text)
            for edition, line in enumerate(told):
                self.assertEqual(places.with_place(model(body, edition), places.find, body, edition), line, text)
        for text, line in places.ROWS + places.MORE_ROWS:
            body = bytes.fromhex(text)
            self.assertEqual(places.find(body, V1_2), places.find(body), text)
        found = [places.find(body, V1_2) for body in bodies.placed(V1_2)]
        self.assertEqual({place.fields for place in found if place}, set(places.PATHS[V1_2]))
        self.assertEqual({place.number for place in found if place and place.fields == (3, 5)}, set(places.OF_A_BODY) - {places.NOT_UTF8})
        self.assertEqual(set(places.PATHS[V1_2]) - set(places.PATHS[V1_1]), {(3, 5)})

    def test_varints(self):
        for text, end, number in (("", 0, 1), ("80", 1, 1), ("8001", 1, 1), ("80" * 9, 9, 1), ("80" * 10, 9, 1), ("80" * 10, 10, 2), ("80" * 9 + "02", 10, 2),
                                  ("ff" * 9 + "7f", 10, 2), ("80" * 9 + "00", 10, 3), ("8000", 2, 3), ("808000", 3, 3)):
            with self.assertRaises(places.Found, msg=text) as told:
                places.varint_at(b"\xff" + bytes.fromhex(text), 1, 1 + end)
            self.assertEqual(told.exception.args, (number, 1), text)
        for text, value in (("00", 0), ("7f", 127), ("8001", 128), ("80" * 9 + "01", 2**63), ("ff" * 9 + "01", 2**64 - 1), ("01ffffffffffffffffff", 1)):
            self.assertEqual(places.varint_at(bytes.fromhex(text), 0, len(text) // 2)[0], value, text)

    def test_what_follows_changes_nothing(self):
        for body in bodies.placed():
            place = places.find(body)
            # A later control or message, whatever is in it; but for a refusal of the end, which more bytes put off.
            if place and place.fields:
                for more in (b"\x0b", b"\x1a\x00", b"\x80", bytes(9)):
                    self.assertEqual(places.find(body + more), place, body.hex())

    def test_one_more_message_around_it(self):
        for first in (b"\x0a\x00", b"\x12\x02\x22\x00", b"\x18\x01", b"\x1a\x04\x0a\x02\x12\x00"):
            for body in bodies.placed():
                place, later = places.find(body), places.find(first + body)
                moved = place and place._replace(offset=place.offset + len(first), start=place.start + (len(first) if place.fields else 0))
                self.assertEqual(later, moved, body.hex())
        # What is refused as a body stands in a message at the place that it had, if what it holds is not known there.
        for text in ("80", "8000", "00", "0b", "0a0508", "08", "0a", "09", "80" * 9 + "02"):
            body = bytes.fromhex(text)
            for outer, path in (((2,), (2,)), ((3,), (3,)), ((3, 2), (3, 2)), ((3, 4), (3, 4)), ((3, 4, 2), (3, 4, 2)), ((3, 1), (3, 1))):
                whole = body
                for number in reversed(outer):
                    whole = bodies.tagged(number, whole)
                place = places.find(whole)
                self.assertEqual((place.number, place.offset - place.start, place.fields), (*places.find(body)[:2], path), (text, outer))
                self.assertEqual(place.start, len(whole) - len(body))

    def test_beside_the_model(self):
        r, met = random.Random(4), set()
        inside = [bodies.tagged(3, bodies.tagged(4, bodies.tagged(2, inner))) for inner in bodies.each(wire.WALK_BYTES, 2)]
        for body in itertools.chain(bodies.named(), bodies.each(wire.WALK_BYTES, 2), inside, (bodies.random_body(r) for _ in range(1500)),
                                    (bodies.messages_body(r) for _ in range(200))):
            told, place = model(body), places.find(body)
            refused = told is not None and int(told.split(" ")[1]) in places.OF_A_BODY
            self.assertEqual(place is not None, refused, body.hex())
            if refused:
                self.assertTrue(places.agrees(told, place), body.hex())
                self.assertIn(place.fields, places.PATHS[V1_1])
                self.assertTrue(place.start <= place.offset <= len(body))
                met.add(place.fields)
        self.assertEqual(met, set(places.PATHS[V1_1]))

    def test_walks(self):
        body = bytes.fromhex("1a06220412020a05")
        self.assertIsNone(places.find_field(body, 0))
        self.assertIsNone(places.find_field(body, 8))
        self.assertIsNone(places.find_field(body, 2**64 - 1))
        self.assertEqual(places.find_field(body, 6), places.Place(4, 8, (), 0))
        for asked, told, line in (("walk 0a0508 0", "err fieldoverflow 2 5 1", "walk refused 4 2 5 1 at 2"), ("walk 0a000b 2", "err wiretype 3 3", "walk refused 5 3 3 at 3"),
                                  ("walk 0a0080 2", "err short", "walk refused 1 at 2"), ("walk - 0", "end", "walk end"), ("uvarint 80", "err short", "varint refused 1"),
                                  ("walk %s 0" % ("00" * 65537), "err fieldnumber 0 0", "walk refused 10 65537")):
            self.assertEqual(wire.answer(asked, told), line)

    def test_what_has_none(self):
        many = b"\x0a\x00" * 513
        self.assertEqual(bodies.answer(many, "ok records=513 encode=- rpc={}"), ["decode refused 11 513"])
        self.assertEqual(bodies.answer(bytes(65537), "err fieldnumber 0 0"), ["decode refused 10 65537"])
        self.assertEqual(bodies.answer(b"\x80", "err short"), ["decode refused 1 at 0"])
        self.assertIsNone(places.find(many))
        self.assertIsNone(places.with_place(None, places.find, b"\x80"))
        for number in (10, 11, 12, 20, 22, 29, 31, 33, 40, 41, 42):
            self.assertEqual(places.with_place("refused %d 5" % number, places.find, b"\x80"), "refused %d 5" % number)

    def test_a_finder_that_disagrees_is_told(self):
        for body, refused in ((b"\x80", "refused 2"), (b"\x0a\x00", "refused 1"), (bytes.fromhex("0a031201ff"), "refused 7 3"), (b"\x0a\x00\x0b", "refused 5 3 1")):
            with self.assertRaises(AssertionError, msg=refused):
                places.with_place(refused, places.find, body)

    def test_lines(self):
        for line, parts in (("3 decode refused 7 1 at 3 in 1", ("3 decode refused 7 1", " at 3 in 1")), ("1 put refused 1 at 0", ("1 put refused 1", " at 0")),
                            ("1 walk end", ("1 walk end", "")), ("2 admit refused 31 9", ("2 admit refused 31 9", ""))):
            self.assertEqual(places.parted(line), parts)
        lines = states.expected(states.records(state_histories.placed_in_few_bytes()))
        told = [line for line in lines if " refused " in line]
        self.assertTrue(told and all(" at " in line for line in told))
        self.assertIn(" ask refused 4 2 5 0 at 8 in 3 4 2", {line[line.index(" "):] for line in told})


class Editions(unittest.TestCase):
    """The model of both editions, beside the other two, which share nothing with it."""

    def test_one_line_more(self):
        one, other = ({(name, field.number): (field.name, field.what, field.repeated) for name, fields in editions.MESSAGES[edition].items() for field in fields}
                      for edition in (V1_1, V1_2))
        self.assertEqual({key: other[key] for key in other if key not in one}, {("ControlMessage", 5): ("idontwant", "ControlIDontWant", True)})
        self.assertEqual({key: other[key] for key in one}, one)
        # Which fields are messages and which is text, as the finder of places has it.
        for edition in (V1_1, V1_2):
            names = {"RPC": "RPC", "SubOpts": "SubOpts", "Message": "Message", "ControlMessage": "Control", "PeerInfo": "PeerInfo"}
            names.update({"Control" + name: name for name in ("IHave", "IWant", "Graft", "Prune", "IDontWant")})
            for message, fields in editions.MESSAGES[edition].items():
                inner = {field.number: names[field.what] for field in fields if field.what in names}
                self.assertEqual(inner, places.MESSAGES[edition].get(names[message], {}), message)
                self.assertEqual([field.number for field in fields if field.what == "string"], [places.TEXT[names[message]]] if names[message] in places.TEXT else [])

    def test_the_rows(self):
        for text, *told in compare_editions.ROWS:
            body = bytes.fromhex(text)
            for edition, one in enumerate(told):
                lines = [editions.lines((call, body, 0), edition) for call in ("decode", "encode")]
                got = "".join("%d %s\n" % (n, "\n".join(each)) for n, each in enumerate(lines, 1))
                self.assertEqual(got, compare_editions.row_text(one), text)
        self.assertEqual([row[0] for row in compare_editions.ROWS], [row[0] for row in places.EDITION_ROWS[:7]])
        for ids, told in ((511, "decode ok 512 control"), (512, "decode refused 11 513")):
            body = bodies.tagged(3, bodies.tagged(5, b"\x0a\x00" * ids))
            self.assertEqual([editions.lines(("decode", body, 0), edition)[0] for edition in (V1_1, V1_2)], ["decode ok 0 control", told])

    def test_beside_the_others(self):
        r, met = random.Random(5), set()
        some = itertools.islice(bodies.declined(), 0, None, 23)
        for body in itertools.chain(some, bodies.named(), bodies.placed(V1_2), (bodies.declining_body(r) for _ in range(1500)), (bodies.random_body(r) for _ in range(500))):
            for edition in (V1_1, V1_2):
                first, *rest = editions.lines(("decode", body, 0), edition)
                told = model(body, edition)
                if told is None:
                    self.assertEqual(first.split(" ")[:3], ["decode", "ok", str(len(rest))], body.hex())
                    self.assertEqual(nodes.Body(body, edition).records, len(rest))
                    met.update(line.split(" ")[2] for line in rest)
                else:
                    self.assertEqual(first, "decode " + places.with_place(told, places.find, body, edition), body.hex())
                    met.add(first.partition(" in ")[2])
        self.assertLessEqual({"idontwant", "id", "prune", "3 5", "3 4 2"}, met)

    def test_what_is_written(self):
        """It is read as the same, is in canonical form, and no longer; and the laws between the editions."""
        r, accepted, alike = random.Random(6), 0, 0
        for body in itertools.chain(itertools.islice(bodies.declined(), 0, None, 31), (bodies.declining_body(r) for _ in range(1500)), (bodies.messages_body(r) for _ in range(300))):
            lines = {edition: [editions.lines((call, body, 0), edition) for call in ("decode", "encode", "sign", "id")] for edition in (V1_1, V1_2)}
            if not editions.differ(body):
                self.assertEqual(lines[V1_1], lines[V1_2])
                alike += 1
            for edition in (V1_1, V1_2):
                if " refused " in lines[edition][0][0]:
                    self.assertTrue(edition == V1_2 or " refused " in lines[V1_2][0][0])
                    continue
                made = editions.encoded(editions.read(body, edition), edition)
                self.assertLessEqual(len(made), len(body))
                self.assertEqual(editions.encoded(editions.read(made, edition), edition), made)
                self.assertEqual(sorted(editions.records(editions.read(made, edition))), sorted(lines[edition][0][1:]))
                accepted += 1
        self.assertGreater(accepted, 1500)
        self.assertGreater(alike, 200)

    def test_utf8(self):
        for data in wire.utf8_rows():
            self.assertEqual(editions.is_utf8(data), nodes.is_utf8(data), data.hex())

    def test_on_a_node(self):
        table = list(state_histories.edition_table())
        lines = states.expected(states.records([step for step, _ in table]))
        self.assertEqual([line.split(" ", 2)[2] for line in lines], [told for _, told in table])
        # Without a second body it is the serve of before; a body that declines nothing changes nothing.
        run = states.Run(state_histories.turned().steps)
        names = [state_histories.id_of(n) for n in (2, 3, 4)]
        for room in (0, 113, 114, 228, 341, 342, nodes.ROOM):
            plain = run.answer(state_histories.serve(*names, room=room))
            for edition, unwanted in itertools.product((V1_1, V1_2), (b"", traces.wants(*names), state_histories.declines(b"x"))):
                self.assertEqual(run.answer(state_histories.serve_in(unwanted, *names, edition=edition, room=room)), plain)

    def test_records(self):
        self.assertEqual(wire.record(("sign", b"\x1a\x00", 258), V1_2).hex(), "05000000" + "1700" + "01" + "0201" + "1a00")
        self.assertEqual(states.record(("serve_in", 1, 258, b"\x80", b"\x1a\x00")).hex(), "0c000000" + "1a00" + "01" + "02010000" + "01000000" + "80" + "1a00")
        self.assertEqual(caches.record(("put_in", 1, 258, b"\x1a\x00")).hex(), "05000000" + "1100" + "01" + "0201" + "1a00")
        # A second body that passes the content.
        for size, ok in ((0, True), (3, True), (4, False), (2**32 - 1, False)):
            content = b"\x01" + bytes(4) + size.to_bytes(4, "little") + b"abc"
            self.assertEqual(states.RECORDS.step_of(26, content), ("serve_in", 1, 0, b"abc"[:size], b"abc"[size:]) if ok else None)


class Groups(unittest.TestCase):
    """The model that skips groups, beside the other two, which share nothing of that with it."""

    def test_the_rows(self):
        for text, *told in places.GROUP_ROWS + places.MORE_GROUP_ROWS:
            body = bytes.fromhex(text)
            for dialect in DIALECTS:
                line = told[skips_groups(dialect)]
                self.assertEqual(places.with_place(model(body, dialect), places.find, body, dialect), line, text)
                first = groups.lines(("decode", body, 0), dialect)[0]
                self.assertEqual(first.startswith("decode ok") if line is None else first == "decode " + line, True, text)
        self.assertEqual(len(places.GROUP_ROWS), 30)
        self.assertEqual({text for text, _, second in places.GROUP_ROWS if second is None}, set(compare_groups.WRITTEN))
        for case, dialect, told in compare_groups.row_lines():
            self.assertEqual(groups.lines(case, dialect), ["%s %s" % (case[0], told)] if case[0] != "decode" else [groups.lines(case, dialect)[0]])

    def test_depth(self):
        for number in (1, 15, 16, 2**29 - 1):
            for depth, told in ((1, None), (31, None), (32, None), (33, "refused 15"), (40, "refused 15"), (2000, "refused 15")):
                whole = bodies.chain([number] * depth)
                for body in (whole, bodies.tagged(3, whole), bodies.chain([7] * 31) + whole, bodies.tagged(3, bodies.tagged(4, bodies.tagged(2, whole)))):
                    self.assertEqual(model(body, GROUPS), told)
                self.assertEqual(model(whole[:-1], GROUPS), told or ("refused 16" if number < 16 else "refused 1"))
        # A group of 32,767 fields, and as many groups as there is room for.
        for body in (bodies.group(1, b"\x08\x00" * 32767), bodies.group(1) * 32768, bodies.chain([1] * 32) * 1024):
            self.assertEqual((len(body), model(body, GROUPS), groups.step(body, 0, GROUPS)[:3]), (65536, None, (1, 3, 1)))

    def test_beside_the_others(self):
        r, met = random.Random(5), set()
        some = itertools.islice(bodies.group_bodies(), 0, None, 37)
        for body in itertools.chain(some, itertools.islice(bodies.deep_bodies(), 0, None, 5), bodies.placed_groups(), bodies.named(), (bodies.grouped_body(r) for _ in range(1200)),
                                    (bodies.grouped_messages(r) for _ in range(300)), (bodies.declining_body(r) for _ in range(200))):
            for dialect in (V1_1 | GROUPS, V1_2 | GROUPS):
                first, *rest = groups.lines(("decode", body, 0), dialect)
                told = model(body, dialect)
                if told is None:
                    self.assertEqual(first.split(" ")[:3], ["decode", "ok", str(len(rest))], body.hex())
                    self.assertEqual(nodes.Body(body, dialect).records, len(rest))
                else:
                    self.assertEqual(first, "decode " + places.with_place(told, places.find, body, dialect), body.hex())
                    met.add((int(told.split(" ")[1]), places.find(body, dialect).fields) if " 11 " not in told else 11)
        wanted = {(number, path) for number in (*places.OF_A_BODY, *places.OF_GROUPS) for path in (places.TEXT_PATHS if number == places.NOT_UTF8 else places.PATHS[V1_2])}
        self.assertLessEqual(wanted, met)

    def test_between_the_modes(self):
        """What the first mode accepts the second accepts, alike; they differ where the first refuses type 3 or 4. What is written has no groups outside messages, and what
        is signed has none."""
        r, accepted, alike = random.Random(6), 0, 0
        for body in itertools.chain(itertools.islice(bodies.group_bodies(), 0, None, 41), (bodies.grouped_body(r) for _ in range(1200)), (bodies.grouped_messages(r) for _ in range(400)),
                                    (bodies.random_body(r) for _ in range(400))):
            for edition in (V1_1, V1_2):
                calls = [(call, body, 0) for call in ("decode", "encode", "sign", "id", "walk")]
                first, second = ([groups.lines(case, edition | mode) for case in calls] for mode in (0, GROUPS))
                for one, other in zip(first, second):
                    self.assertTrue(one == other or groups.differ(one[0]), body.hex())
                    alike += one == other
                if " refused " in second[0][0]:
                    continue
                accepted += 1
                rpc = groups.read(body, edition | GROUPS)
                made = editions.encoded(rpc, edition)
                self.assertLessEqual(len(made), len(body))
                self.assertEqual(editions.encoded(groups.read(made, edition | GROUPS), edition), made)
                # Around its messages it is a body of the first mode.
                around = b"".join(piece for field, wire, piece in caches.cut(made, GROUPS) if (field, wire) != (2, 2))
                self.assertEqual(groups.lines(("encode", around, 0), edition), groups.lines(("encode", around, 0), edition | GROUPS))
                self.assertNotIn(" refused ", groups.lines(("encode", around, 0), edition)[0])
                for message in rpc.each("publish"):
                    signed = editions.signed(message, edition)[len(editions.PREFIX):]
                    self.assertEqual(model(bodies.tagged(2, signed)), None)
                    self.assertEqual({wire for _, wire, _, _ in nodes.fields(signed)} - {2}, set())
        self.assertGreater(accepted, 1000)
        self.assertGreater(alike, 8000)

    def test_walks(self):
        r = random.Random(7)
        for body in itertools.chain((bytes.fromhex(text) for text, *_ in places.GROUP_ROWS + places.MORE_GROUP_ROWS), (bodies.grouped_body(r) for _ in range(600))):
            for dialect in DIALECTS:
                fields = []
                for field, wire, place, content in self.fields(body, dialect):
                    fields.append((field, wire, place))
                at, got = 0, []
                try:
                    while (step := groups.step(body, at, dialect)) is not None:
                        got.append(step[:3])
                        at = step[3]
                    told = None
                except groups.Refused as why:
                    told = str(why)
                self.assertEqual(got, fields, body.hex())
                place = places.find_field(body, at, dialect)
                self.assertEqual(told is None, place is None)
                self.assertTrue(told is None or told == places.with_place(places.parted(told)[0], places.find_field, body, at, dialect), body.hex())

    def fields(self, body, dialect):
        try:
            yield from nodes.fields(body, dialect)
        except nodes.Refused:
            pass

    def test_on_a_node(self):
        table = list(state_histories.group_table())
        lines = states.expected(states.records([step for step, _ in table]))
        self.assertEqual([line.split(" ", 2)[2] for line in lines], [told for _, told in table])
        # Each clause that groups have to do with is broken alone, and the odd states are well formed.
        for clause, steps in state_histories.group_breaks(state_histories.skipping()):
            self.assertEqual(state_histories.skipping().add(*steps).run.broken(), [clause])
        for steps in state_histories.odd_skipping(state_histories.skipping()):
            self.assertEqual(state_histories.skipping().add(*steps).run.broken(), [])

    def test_messages(self):
        """A message with groups has the id, the topics and the sign bytes of the one without, and its own bytes."""
        plain = caches.plain(caches.X)
        for raw in caches.GROUPED:
            known = nodes.read(raw, "message", GROUPS)[0]
            self.assertEqual((known, nodes.admission((raw, known), True, GROUPS)), (nodes.read(plain, "message")[0], (caches.NAME, [b"t"])))
            message, = groups.read(bodies.tagged(2, raw), GROUPS).each("publish")
            self.assertEqual((message.raw, caches.without_groups(message), editions.signed(message, V1_1)[14:]), (raw, plain, plain[:-66]))
            self.assertEqual(len(states.topic_places(raw, GROUPS)), 1)
            self.assertIsNone(states.taken(raw))
        for raw, number in caches.SPOILT:
            self.assertTrue(model(bodies.tagged(2, raw), GROUPS).startswith("refused %d" % number), raw.hex())

    def test_random_histories(self):
        """Most calls are answered, in histories of caches and of nodes, and messages with groups are kept."""
        r, kept, met = random.Random(9), 0, collections.Counter()
        for _ in range(250):
            run = states.Run(state_histories.history(r))
            for _, raw, *_ in run.held()[1] if not run.broken() else ():
                kept += skips_groups(run.cache.flags) and states.taken(raw) is None
        self.assertGreater(kept, 40)
        for _ in range(300):
            flags = 0
            for step in caches.grouped_history(r):
                flags = caches.flags_of(step) if step[0] == "flagged" and caches.legal(step) else flags
                if step[0] == "put" and skips_groups(flags):
                    met["refused" if model(step[-1], GROUPS) else "read"] += 1
        self.assertGreater(met["read"], met["refused"])

    def test_records(self):
        self.assertEqual(wire.record(("walk", b"\x0b\x0c", 258), V1_2 | GROUPS).hex(), "0b000000" + "1900" + "03" + "0201000000000000" + "0b0c")
        self.assertEqual(wire.record(("decode", b"\x0b\x0c", 0), GROUPS).hex(), "03000000" + "1500" + "02" + "0b0c")


def field(number, data):
    return b"" if data is None else bytes([number * 8 + 2]) + wire.varint(len(data)) + data


class Senders(unittest.TestCase):
    def test_keys_by_the_document(self):
        """By a reader that goes over the bytes once, beside peers.py, which encodes."""
        def read(data):
            if data[:1] != b"\x08" or len(data) < 4 or data[1] > 3 or data[2] != 0x12:
                return None
            size, at, shift = 0, 3, 0
            while at < len(data) and shift < 70:
                size += data[at] % 128 << shift
                at, shift = at + 1, shift + 7
                if data[at - 1] < 128:
                    minimal = at == 4 or data[at - 1] != 0
                    return (data[1], data[at:]) if minimal and size == len(data) - at else None
            return None

        r, taken = random.Random(6), 0
        for call, data, _ in itertools.chain(keys.named(), keys.edges(), keys.tenths(), (keys.key_case(r) for _ in range(3000))):
            if call == "key":
                self.assertEqual(peers.key_of(data), read(data), data.hex())
                taken += read(data) is not None
        self.assertGreater(taken, 1000)

    def test_peer_ids_by_the_document(self):
        r, taken = random.Random(6), 0
        for call, data, _ in itertools.chain(keys.named(), keys.edges(), keys.tenths(), (keys.peer_case(r) for _ in range(3000))):
            if call == "peer":
                inline = data[:1] == b"\x00" and len(data) >= 2 and data[1] == len(data) - 2 <= 42
                hashed = data[:2] == b"\x12\x20" and len(data) == 34
                self.assertEqual(peers.peer_of(data), ("identity", data[2:]) if inline else ("sha256", data[2:]) if hashed else None, data.hex())
                taken += inline or hashed
        self.assertGreater(taken, 1000)
        # No peer id is a prefix of another, so an id has one sender.
        every = peers.SENDERS + peers.HASHES + peers.KEYLESS
        self.assertFalse([(one, two) for one in every for two in every if one != two and two.startswith(one)])

    def test_the_rows(self):
        for call, text, line in keys.ROWS:
            self.assertEqual(keys.model(call, bytes.fromhex(text)), line, text)
        for change, told in peers.ROWS + peers.MORE_ROWS:
            raw = caches.plain(caches.x_with(**change))
            message = raw, nodes.read(raw, "message")[0]
            for word, answer in ((1, told), (0, peers.without_word(told))):
                try:
                    got = nodes.admission(message, word == 1) and "new"
                except nodes.Refused as why:
                    got = "refused " + " ".join(map(str, why.args))
                self.assertEqual(got, answer, change)
            # The other model, of `put`, from the fields as the Rust tells them.
            known, last = message[1], dict(message[1])
            theirs = {"raw": raw.hex(), "topic_ids": [one.hex() for number, one in known if number == 4]}
            theirs.update({name: last[number].hex() if number in last else None for number, name in ((1, "from"), (3, "seqno"), (5, "signature"), (6, "key"))})
            self.assertEqual(caches.unfit(theirs), None if told == "new" else told, change)

    def test_unsigned_rows(self):
        """The rows about unsigned messages by both models, with the flag and without, for either word."""
        for change, *told in peers.UNSIGNED_ROWS:
            raw = caches.plain(caches.x_with(**change))
            message = raw, nodes.read(raw, "message")[0]
            last = dict(message[1])
            theirs = {"raw": raw.hex(), "topic_ids": [one.hex() for number, one in message[1] if number == 4]}
            theirs.update({name: last[number].hex() if number in last else None for number, name in ((1, "from"), (3, "seqno"), (5, "signature"), (6, "key"))})
            for flags, answer in enumerate(told):
                for word in (True, False):
                    try:
                        got = nodes.admission(message, word, flags) and "new"
                    except nodes.Refused as why:
                        got = "refused " + " ".join(map(str, why.args))
                    self.assertEqual(got, answer, (change, flags, word))
                self.assertEqual(caches.unfit(theirs, flags), None if answer == "new" else answer, (change, flags))
        # With a signature the flag changes nothing.
        for change, _ in peers.ROWS + peers.MORE_ROWS:
            raw = caches.plain(caches.x_with(**change))
            known = nodes.read(raw, "message")[0]
            for word in (0, 1) if 5 in dict(known) else ():
                self.assertEqual(admissions.modelled(raw, known, word, 1), admissions.modelled(raw, known, word, 0), change)

    def test_unsigned_messages(self):
        """The scope's rows on a node; a message in both forms; fields that only have the numbers of a signature and of a key."""
        table = list(state_histories.flag_table())
        lines = states.expected(states.records([step for step, _ in table]))
        self.assertEqual([line.split(" ", 2)[2] for line in lines], [told for _, told in table])
        self.assertEqual([caches.bare(caches.plain(caches.X)), caches.bare(b"\x80")], [caches.plain(caches.U), b"\x80"])
        for raw in caches.OTHER_TYPES:
            message = raw, nodes.read(raw, "message")[0]
            self.assertFalse(nodes.is_signed(message))
            self.assertEqual(nodes.admission(message, False, 1), (caches.NAME, [b"t"]))
        # A setting is legal up to the known flags.
        for flags in range(9):
            try:
                nodes.Node(0, 0, 1, 0, flags)
                self.assertLess(flags, 4)
            except nodes.Refused as why:
                self.assertEqual((why.args, flags > 3), ((40,), True))

    def test_random_histories_with_flags(self):
        """Under flags, too, most calls are answered, and both forms are met."""
        r, met = random.Random(9), collections.Counter()
        for _ in range(150):
            for words in (line.split(" ") for line in states.expected(states.records(state_histories.history(r)))):
                # Of states that were hurt nothing is asked.
                met.update([" ".join(words[1:3])] if words[2:4] not in (["refused", "40"], ["refused", "41"], ["refused", "42"]) else [])
        self.assertGreater(met["admit new"] + met["admit dup"], met["admit refused"])
        runs = [states.Run(state_histories.history(r)) for _ in range(250)]
        marks = collections.Counter(name[:1] for run in runs if not run.broken() for name, _ in run.held()[0])
        self.assertGreater(min(marks[b"\x00"], marks[b"\x01"]), 50)

    def test_the_order(self):
        """Each of 21 to 30 with what is refused later beside it: the scope's order."""
        faults = [({"from_": None}, 21), ({"from_": b""}, 22), ({"from_": b"A"}, 34), ({"seqno": None}, 23), ({"signature": None}, 25),
                  ({"signature": bytes(63)}, 26), ({"key": b"\xff"}, 35), ({"key": peers.F[2:]}, 36)]
        numbers = {"from_": 1, "seqno": 3, "signature": 5, "key": 6}
        whole = {"from_": peers.ID, "seqno": b"s", "signature": bytes(64), "key": None}
        for some in itertools.product((False, True), repeat=len(faults)):
            given, first = dict(whole), None
            for (change, number), there in zip(faults, some):
                name, value = next(iter(change.items()))
                if there and given[name] == whole[name]:
                    given[name] = value
                    first = first or number
            if given["signature"] is None and given["key"] is not None and first == 25:
                first = 24
            raw = b"".join(field(numbers[name], given[name]) for name in numbers)
            # Without the word and with no topic: 27 and 28 come after all of these.
            self.assertEqual(admissions.modelled(raw, nodes.read(raw, "message")[0], 0), first or 27, raw.hex())
            self.assertEqual(admissions.modelled(raw, nodes.read(raw, "message")[0], 1), first or 28, raw.hex())

    def test_the_sample(self):
        x = caches.put_step(caches.X)[2]
        self.assertEqual(x.hex(), "12700a26" + peers.ID.hex() + "1a01012201742a40" + "00" * 64)
        self.assertEqual(len(x), 114)
        folder = os.path.join(TOP, "crates", "trace")
        with open(os.path.join(folder, "stdin"), "rb") as stdin, open(os.path.join(folder, "stdout"), encoding="utf-8") as stdout:
            data = stdin.read()
            self.assertEqual(data, nodes.records(traces.sample()))
            self.assertEqual(stdout.read().splitlines(), nodes.expected(data))

    def test_ten_bytes(self):
        for text, other in (("80" * 9 + "02" + "00", "0000"), ("00" + "80" * 9 + "02", "0000"), ("80" * 9 + "7e" + "80" * 9 + "04", "0000"),
                            ("80" * 9 + "01" + "00", None), ("80" * 9 + "03" + "00", "80" * 9 + "01" + "00"), ("80" * 9 + "00" + "00", None), ("0000", None),
                            ("8000", None),
                            ("92" + "80" * 8 + "02" + "20", "1220"), ("80" * 10 + "01", None), ("", None), ("00", None)):
            self.assertEqual(keys.published(bytes.fromhex(text)), other if other is None else bytes.fromhex(other), text)
            self.assertTrue(keys.published(bytes.fromhex(text)) is None or keys.model("peer", bytes.fromhex(text)) == "peer refused 34")
        data = bytes.fromhex("80" * 9 + "02" + "00")
        self.assertTrue(keys.listed("peer", data, "peer identity ="))
        self.assertTrue(keys.listed("peer", data, "peer refused 34"))
        self.assertFalse(keys.listed("peer", data, "peer identity =00"))
        self.assertFalse(keys.listed("peer", b"\x00\x00", "peer refused 34"))
        self.assertFalse(keys.listed("key", data, "key refused 35"))
        self.assertEqual(keys.answer("peer", data, "ok 0 - bytes=0000"), "peer identity =")
        with self.assertRaises(AssertionError):
            keys.answer("peer", b"\x00\x01A", "ok 0 - bytes=0000")

    def test_the_list_of_differences(self):
        self.assertEqual(list(admissions.SMALLEST), admissions.NAMED)
        with open(os.path.join(TOP, "docs", "DIFFERENCES.md"), encoding="utf-8") as file:
            text = file.read()
        for name, (change, word, flags, ours, rust) in admissions.SMALLEST.items():
            raw = caches.plain(caches.x_with(**change))
            known = nodes.read(raw, "message")[0]
            self.assertEqual(admissions.modelled(raw, known, word, flags), ours, name)
            self.assertFalse(admissions.agree(ours, rust))
            self.assertEqual(admissions.listed(raw, known, word, flags, ours, rust), name)
            self.assertTrue("| %s | %s bytes: " % (name, format(len(raw), ",")) in text, name)
            # The other pairs that such a message could have are on no list.
            for other in {"ok", "unsigned", *admissions.NAMES.values()} - {rust}:
                if not admissions.agree(ours, other):
                    self.assertIsNone(admissions.listed(raw, known, word, flags, ours, other), (name, other))

    def test_a_difference_that_is_not_listed_is_told(self):
        raw = caches.plain(caches.X)
        known = nodes.read(raw, "message")[0]
        for word, ours, rust in ((1, "new", "KeyPeerIdMismatch"), (1, "new", "SignatureInvalid"), (1, 27, "ok"), (0, "new", "SignatureInvalid"), (1, 28, "ok"),
                                 (1, 34, "ok"), (1, 36, "SignatureInvalid"), (0, 23, "InvalidFrom"), (1, 25, "unsigned")):
            for flags in (0, 1):
                beside = admissions.Beside()
                beside.look(raw, known, word, flags, ours, rust)
                self.assertEqual((len(beside.differ), beside.found), (1, {}), (ours, rust))
        beside = admissions.Beside()
        beside.look(raw, known, 1, 0, "new", "ok")
        beside.look(raw, known, 0, 1, 27, "SignatureInvalid")
        self.assertEqual((beside.differ, beside.found), ([], {}))
        # Of one without a signature: the mark, and the leave.
        raw = caches.plain(caches.U)
        known = nodes.read(raw, "message")[0]
        for ours, rust in (("new", "unsigned"), ("unsigned", "ok"), (25, "unsigned"), ("unsigned", "MissingSignature"), (28, "unsigned"), (27, "unsigned")):
            beside = admissions.Beside()
            beside.look(raw, known, 1, 1, ours, rust)
            self.assertEqual((len(beside.differ), beside.found), (1, {}), (ours, rust))
        beside.differ.clear()
        beside.look(raw, known, 0, 1, "unsigned", "unsigned")
        beside.look(raw, known, 1, 0, 25, "MissingSignature")
        self.assertEqual((beside.differ, beside.found), ([], {}))

    def test_random_messages_are_mostly_taken(self):
        r, met = random.Random(9), []
        for _ in range(400):
            met += [line.split(" ", 2)[2] for line in nodes.expected(nodes.records(traces.history(r))) if line.split(" ")[1] == "admit"]
        self.assertGreater(2 * sum(one in ("new", "dup") for one in met), len(met))
        for number in (34, 35, 36):
            self.assertGreater(met.count("refused %d" % number), 20)


def written(rpc):
    """The bytes of an RPC by another way: each part made and joined."""
    def part(number, fields):
        return field(number, b"".join(fields))

    def number(n, value):
        return [] if value is None else [bytes([n * 8]) + wire.varint(int(value))]
    out = [part(1, number(1, one["subscribe"]) + [field(2, one["topic_id"])]) for one in rpc["subscriptions"]]
    out += [field(2, lists.raw_of(one)) for one in rpc["publish"]]
    if rpc["control"] is not None:
        entries = [part(3, [field(1, one["topic_id"])]) for one in rpc["control"]["graft"]]
        for one in rpc["control"]["prune"]:
            peers_of = [part(2, [field(1, peer["peer_id"]), field(2, peer["signed_peer_record"])]) for peer in one["peers"]]
            entries.append(part(4, [field(1, one["topic_id"])] + peers_of + number(3, one["backoff"])))
        out.append(part(3, entries))
    return b"".join(out)


class Lists(unittest.TestCase):
    def line(self, case):
        """The model's line, with bytes made here and not by the Rust."""
        rpc, refused = lists.judged(case)
        if refused:
            return "%s %s" % (case[0], refused)
        made = written(rpc) if case[0] == "write" else b"libp2p-pubsub:" + lists.raw_of(dict(rpc["publish"][0], signature=None, key=None))
        return " ".join([case[0], str(len(made))] + [made.hex()] * (made != b""))

    def test_the_rows(self):
        for case, line in lists.scope():
            self.assertEqual(self.line(case), line)
        x = caches.put_step(caches.X)[2]
        self.assertEqual((lists.X, len(lists.X_DATA)), (x.hex(), 104))

    def test_records(self):
        one = lists.row(lists.PRUNE, 60, (1, 2), None, None, None, (3, 2**64 - 1), own=(4, 5))
        self.assertEqual(lists.row_bytes(one).hex(), "0923" + "0400000000000000" + "0500000000000000" + "3c00000000000000" + "0100000000000000"
                         + "0200000000000000" + "0300000000000000" + "ff" * 8)
        self.assertEqual(lists.content(6, [lists.row(lists.SUB)], b"t").hex(), "06000000" + "0100" + "0100" + "00" * 16 + "74")
        self.assertEqual(lists.record(("tosign", 0, [], b"", 258))[:14].hex(), "08000000" + "0b00" + "0201" + "00" * 6)

    def test_sizes(self):
        r, made = random.Random(8), 0
        for call, room, rows, data, _ in itertools.chain(lists.fixed_cases(r), lists.random_cases(r, 1500)):
            rpc, _ = lists.judged((call, room, rows, data, 0))
            if rpc is not None and call == "write":
                body = written(rpc)
                self.assertEqual(lists.size_of(rpc), len(body))
                made += 1
                # What is written is read back by the other model, and each message is admitted; as decode leaves it, it can be lent again.
                got = nodes.Body(body)
                self.assertEqual(got.records, len(rows))
                for message in got.messages:
                    nodes.admission(message, True)
                self.assertEqual(lists.said(lists.rows_of(body), body), rpc)
        self.assertGreater(made, 2000)

    def test_random_lists_are_mostly_written(self):
        r, met = random.Random(9), collections.Counter()
        for case in lists.random_cases(r, 3000):
            rpc, refused = lists.judged(case)
            met["%s %s" % (case[0], refused.split(" ")[1] if refused else "bytes")] += 1
        self.assertGreater(met["write bytes"], 2200)
        self.assertGreater(met["tosign bytes"], 900)
        for number in lists.REFUSALS["write"] - {13}:
            self.assertGreater(met["write %d" % number], 3, number)


class Lifetimes(unittest.TestCase):
    """The sentences on a notice's lifetime, on the scope's rows and on answers that break them."""

    SETTINGS = ("set", 1000, 2, 2, 4)
    ROWS = ((0, 100, "new"), (0, 1099, "dup"), (0, 99, "refused 31"), (0, 1100, "new"), (1, 1100, "new"), (0, 1100, "dup"), (2, 1100, "new"), (0, 1100, "new"), (0, 1099, "refused 31"))

    def steps(self, rows):
        return [self.SETTINGS] + [compare_lifetime.admit(at, compare_lifetime.NOTICES[which]) for which, at, _ in rows]

    def counted(self, rows):
        counts = collections.Counter()
        compare_lifetime.test(self.steps(rows), ["ok"] + [answer for _, _, answer in rows], counts)
        return counts

    def test_rows(self):
        told = nodes.expected(nodes.records(self.steps(self.ROWS)))
        self.assertEqual(compare_lifetime.answers(told), ["ok"] + [answer for _, _, answer in self.ROWS])
        self.assertEqual(compare_lifetime.steps_back(self.steps(self.ROWS)), [False] + [answer == "refused 31" for _, _, answer in self.ROWS])
        self.assertEqual(self.counted(self.ROWS), {
            "pairs that are new": 3, "exactly ttl later, too few others": 1, "exactly max_seen others, within ttl": 1, "taken again, within both bounds": 2})

    def test_wrong(self):
        for rows in (((0, 100, "new"), (0, 1099, "new")), ((0, 100, "new"), (1, 100, "new"), (0, 100, "new")), ((0, 5, "new"), (1, 6, "new"), (1, 900, "dup"), (0, 1004, "new"))):
            with self.assertRaises(compare_lifetime.Wrong):
                self.counted(rows)
        # The same a unit later, after one other more, and at the last reading, of which nothing is said.
        for rows in (((0, 100, "new"), (0, 1100, "new")), ((0, 100, "new"), (1, 100, "new"), (2, 100, "new"), (0, 100, "new")), ((0, nodes.TOP - 1, "new"), (0, nodes.TOP, "new"))):
            self.counted(rows)

    def test_random(self):
        """The model keeps them."""
        r = random.Random(7)
        for _ in range(40):
            steps = compare_lifetime.history(r)
            told = compare_lifetime.answers(nodes.expected(nodes.records(steps)))
            compare_lifetime.test(steps, told, collections.Counter())
            self.assertEqual([answer == "refused 31" for answer in told], compare_lifetime.steps_back(steps))


if __name__ == "__main__":
    unittest.main()
