#!/usr/bin/env python3
"""Tests of tools/inspect. Most need target/bin/inspect, which `tools/build inspect` makes; without it they are left out, and that is said.

    python3 tools/test_inspect.py
"""

import contextlib
import io
import os
import random
import re
import subprocess
import sys
import unittest
from unittest import mock

HERE = os.path.dirname(os.path.abspath(__file__))
sys.dont_write_bytecode = True
sys.path.insert(0, HERE)
import cases  # noqa: E402
import scripts  # noqa: E402

TOP = os.path.dirname(HERE)
sys.path.append(os.path.join(TOP, "oracle"))
import places  # noqa: E402

SCRIPT = os.path.join(HERE, "inspect")
PROGRAM = os.path.join(TOP, "target", "bin", "inspect")
KEY = "1ed1e8fae2c4a144b8be8fd4b47bf3d3b34b871c3cacf6010f0e42d474fce27e"
SENDER = "002408011220" + KEY
X = "12 70 0a 26 %s 1a 01 01 22 01 74 2a 40 00*64" % SENDER


INSPECT = scripts.loaded("inspect")


def why_not():
    """Why the program cannot be run, or None."""
    try:
        INSPECT.running(PROGRAM)
    except (INSPECT.Failure, INSPECT.x86.Failure) as why:
        return str(why)
    return None


WHY_NOT = why_not()


def field(number, data):
    size, out = len(data), b""
    while size >= 128:
        out, size = out + bytes([size % 128 + 128]), size // 128
    return bytes([8 * number + 2]) + out + bytes([size]) + data


class Case(cases.Case):
    def call(self, *words, given=b""):
        """(status, standard output, standard error)."""
        out, err = io.TextIOWrapper(io.BytesIO(), "utf-8"), io.StringIO()
        with contextlib.redirect_stdout(out), contextlib.redirect_stderr(err), mock.patch.object(sys, "stdin", io.TextIOWrapper(io.BytesIO(given))):
            try:
                status = INSPECT.main(words)
            except SystemExit as done:
                status = done.code
            out.flush()
        return status, out.buffer.getvalue().decode(), err.getvalue()

    def wrong(self, *words, given=b""):
        """What is said where nothing can be answered."""
        status, out, err = self.call(*words, given=given)
        self.assertEqual((status, out), (2, ""), err)
        return err

    def shown(self, *words, status=0, given=b""):
        """The lines that are printed."""
        got, out, err = self.call(*words, given=given)
        self.assertEqual((got, err), (status, ""), out)
        return out.split("\n")[:-1]


@unittest.skipIf(WHY_NOT, WHY_NOT)
class Bodies(Case):
    def test_a_message(self):
        wanted = [
            "accepted: 114 bytes, 2 records", "message 0: 112 bytes", "  from       %s (38 bytes): a peer id that holds an Ed25519 key" % SENDER,
            "  seqno      01 (1 byte)", '  topics     "t"', "  data       absent", "  signature  %s.. (64 bytes)" % ("00" * 48), "  key        absent",
            "  id         %s01 (39 bytes)" % SENDER, "canonical: yes"]
        self.assertEqual(self.shown(*X.split()), wanted)
        self.assertEqual(self.shown(X), wanted)
        self.assertEqual(self.shown(X.replace(SENDER, "peer:" + KEY)), wanted)
        full = self.shown(X, "--full")
        self.assertEqual(full[6], "  signature  %s (64 bytes)" % ("00" * 64))
        self.assertEqual(full[:6] + full[7:], wanted[:6] + wanted[7:])

    def test_senders_and_keys(self):
        """What from and key of a message are; its bytes as they stand."""
        hash = "1220" + "07" * 32
        rows = (("41", "no peer id"), ("41*64", "no peer id"), ("41*65", "no peer id"), ("0000", "a peer id that holds no key"),
                ("0003414243", "a peer id that holds no key"), ("000408011200", "a peer id that holds an Ed25519 key"),
                ("000408001200", "a peer id that holds an RSA key"), ("000408021200", "a peer id that holds a Secp256k1 key"),
                ("000408031200", "a peer id that holds an ECDSA key"), ("000408041200", "a peer id that holds no key"),
                ("002a08011226 07*38", "a peer id that holds an Ed25519 key"), ("002b08011227 07*39", "no peer id"), (SENDER + "00", "no peer id"),
                (hash, "a peer id, the SHA-256 of a key"), (hash[:-2], "no peer id"), (hash + "07", "no peer id"), ("800000", "no peer id"))
        keys = (("08011220" + KEY, "an Ed25519 key"), ("0802 1220" + KEY, "a Secp256k1 key"), ("08001200", "an RSA key"), ("0803120100", "an ECDSA key"),
                ("ff", "it does not decode"), ("08041200", "it does not decode"), ("0801120000", "it does not decode"), ("080012ac02 07*300", "an RSA key"))
        body = b""
        for sender, _ in rows:
            body += field(2, field(1, INSPECT.joined([(word, "") for word in sender.split()], {})))
        for key, _ in keys:
            body += field(2, field(6, INSPECT.joined([(word, "") for word in key.split()], {})))
        lines = self.shown("-", given=body)
        told = [line.partition("): ")[2] for line in lines if line.startswith("  from ")]
        self.assertEqual(told, [words for _, words in rows] + [""] * len(keys))
        told = [line.partition("): ")[2] for line in lines if line.startswith("  key ")]
        self.assertEqual(told, [""] * len(rows) + [words for _, words in keys])
        self.assertEqual([line for line in lines if line.startswith("  from ")][-1], "  from       absent")

    def test_a_key(self):
        for key, *wanted in (
                ("08011220" + KEY, "an Ed25519 key: 36 bytes", "  type       1, Ed25519", "  data       %s (32 bytes)" % KEY),
                ("08001200", "an RSA key: 4 bytes", "  type       0, RSA", "  data       empty"),
                ("08021201 41", "a Secp256k1 key: 5 bytes", "  type       2, Secp256k1", "  data       41 (1 byte)"),
                ("0803120100", "an ECDSA key: 5 bytes", "  type       3, ECDSA", "  data       00 (1 byte)"),
                ("080012ac02 07*300", "an RSA key: 305 bytes", "  type       0, RSA", "  data       %s.. (300 bytes)" % ("07" * 48)),
                ("080012fbff03 00*65531", "an RSA key: 65,537 bytes", "  type       0, RSA", "  data       %s.. (65,531 bytes)" % ("00" * 48))):
            self.assertEqual(self.shown("--key", key), wanted)
        for key in ("", "08", "08041200", "0881001200", "12000801", "0801120000", "08011201", "080108011200", "ff", "080112 ff*9 01", SENDER):
            self.assertEqual(self.shown("--key", key, status=1), ["refused 35: the key does not decode"])
        self.assertEqual(self.shown("08011200", "--key"), ["an Ed25519 key: 4 bytes", "  type       1, Ed25519", "  data       empty"])
        self.assertEqual(self.shown("--key", self.file("key", bytes.fromhex("08001200")))[0], "an RSA key: 4 bytes")
        self.assertEqual(self.shown("--key", "-", "--hex", given=b"0800 1200\n")[0], "an RSA key: 4 bytes")
        self.assertEqual(self.wrong("--key", "00*65536 00*65"), "inspect: the key has 65,601 bytes, and the program takes at most 65,600.\n")

    def test_a_peer_id(self):
        held = ["  hash       identity", "  digest     08011220%s (36 bytes)" % KEY, "  key        Ed25519, data %s (32 bytes)" % KEY]
        self.assertEqual(self.shown("--peer", SENDER), ["a peer id: 38 bytes", *held])
        self.assertEqual(self.shown("--peer", "peer:" + KEY), ["a peer id: 38 bytes", *held])
        for peer, *wanted in (
                ("0000", "a peer id: 2 bytes", "  hash       identity", "  digest     empty", "  key        none: refused 35: the key does not decode"),
                ("0003414243", "a peer id: 5 bytes", "  hash       identity", "  digest     414243 (3 bytes)",
                 "  key        none: refused 35: the key does not decode"),
                ("000408031200", "a peer id: 6 bytes", "  hash       identity", "  digest     08031200 (4 bytes)", "  key        ECDSA, data empty"),
                ("1220 07*32", "a peer id: 34 bytes", "  hash       SHA-256", "  digest     %s (32 bytes)" % ("07" * 32), "  key        not in it"),
                ("12200801121c 41*28", "a peer id: 34 bytes", "  hash       SHA-256", "  digest     0801121c%s (32 bytes)" % ("41" * 28), "  key        not in it")):
            self.assertEqual(self.shown("--peer", peer), wanted)
        for peer in ("", "41", "67617465", "41*64", "002b 00*43", SENDER + "00", SENDER[:-2], "1220 07*31", "1220 07*33", "1221 07*33", "1114 07*20", "800000", "008000"):
            self.assertEqual(self.shown("--peer", peer, status=1), ["refused 34: the sender is no peer id"])

    def test_absent_and_empty(self):
        lines = self.shown("120a 0a00 1200 1a00 2200 2a00", "120c 0a0141 120142 1a00 2200 3200", "1200")
        self.assertEqual([line[13:] for line in lines[2:9]], ["empty", "empty", "empty", "empty", "empty", "absent", "none: refused 22: from has 0 or above 64 bytes: it has 0 bytes"])
        self.assertEqual(lines[9], "message 1: 12 bytes")
        self.assertEqual([line[13:] for line in lines[10:17]],
                         ['41 "A" (1 byte): no peer id', "empty", "empty", '42 "B" (1 byte)', "absent", "empty: it does not decode",
                          "none: refused 23: seqno is missing, or has 0 or above 64 bytes"])
        self.assertEqual([line[13:] for line in lines[18:25]], ["absent", "absent", "none", "absent", "absent", "absent", "none: refused 21: the message has no from"])
        self.assertIn("from has 0 or above 64 bytes: it has 65 bytes", self.shown("1246 0a41 41*65 1a0101")[8])

    def test_subscriptions(self):
        lines = self.shown("0a06080112026374", "0a06080012026374", "0a06080712026374", "0a0412026374", "0a021200", "0a040801 1200", "0a020801", "0a00")
        self.assertEqual(lines[1:9], [
            'subscribe to "ct"', 'unsubscribe from "ct"', 'subscribe to "ct"', 'neither subscribe nor unsubscribe (the flag is absent): topic "ct"',
            "neither subscribe nor unsubscribe (the flag is absent): the empty topic", "subscribe to the empty topic", "subscribe to no topic",
            "neither subscribe nor unsubscribe (the flag is absent): no topic"])

    def test_a_control(self):
        offer = field(1, field(1, b"t") + field(2, b"A\x01") + field(2, b"gate") + field(2, b"") + field(2, bytes(49)))
        request = field(2, field(1, b"A\x01"))
        prune = field(4, field(1, b"ct") + field(2, field(1, b"peer") + field(2, b"\x00")) + field(2, b"") + b"\x18\x3c")
        body = field(3, offer + request) + field(2, b"") + field(3, field(3, field(1, b"t")) + prune + field(4, b"") + field(1, b"") + field(2, b"") + field(3, b""))
        lines = self.shown(body.hex())
        self.assertEqual(lines[1], "message 0: 0 bytes")
        self.assertEqual(lines[9:-2], [
            "control", '  offer (IHAVE) of topic "t": 4 ids', "    4101", '    67617465 "gate"', "    empty", "    %s.. (49 bytes)" % ("00" * 48),
            "  request (IWANT): 1 id", "    4101", '  graft: topic "t"', '  prune: topic "ct", backoff 60 s, 2 peers',
            '    peer 70656572 "peer" (4 bytes), signed record 00 (1 byte)', "    peer absent, signed record absent", "  prune: no topic, no backoff, no peers",
            "  offer (IHAVE) of no topic: no ids", "  request (IWANT): no ids", "  graft: no topic"])
        self.assertTrue(lines[-2].startswith("canonical: no; in canonical form it has %d bytes, 2 saved:" % (len(body) - 2)), lines[-2])

    def test_editions(self):
        """The scope's rows: field 5 of a control, skipped in 1.1, which is also what is taken without a word, and read in 1.2."""
        body = "1a 07 2a 03 0a 01 41 22 00"
        older = ["accepted: 9 bytes, 1 record", "control", "  prune: no topic, no backoff, no peers", "canonical: no; in canonical form it has 4 bytes, 5 saved:", "  1a022200"]
        self.assertEqual(self.shown(body), older)
        self.assertEqual(self.shown(body, "--edition", "1.1"), older)
        newer = ["accepted in edition 1.2: 9 bytes, 3 records", "control", "  not wanted (IDONTWANT): 1 id", '    41 "A"', "  prune: no topic, no backoff, no peers",
                 "canonical: no; in canonical form it has 9 bytes, none saved:", "  1a0722002a030a0141"]
        for words in (("--edition", "1.2", body), (body, "--edition=1.2"), ("--edition=1.2", "-"), (self.file("body", bytes.fromhex(body.replace(" ", ""))), "--edition", "1.2")):
            self.assertEqual(self.shown(*words, given=bytes.fromhex(body.replace(" ", ""))), newer)
        self.assertEqual(self.shown("--edition", "1.2", "1a 04 2a 02 10 07"), [
            "accepted in edition 1.2: 6 bytes, 1 record", "control", "  not wanted (IDONTWANT): no ids", "canonical: no; in canonical form it has 4 bytes, 2 saved:", "  1a022a00"])
        self.assertEqual(self.shown("--edition", "1.2", "1a 02 28 07")[:2], ["accepted in edition 1.2: 4 bytes, no records", "control: empty"])
        self.assertEqual(self.shown("1a 03 2a 01 80")[:2], ["accepted: 5 bytes, no records", "control: empty"])
        self.assertEqual(self.shown("--edition", "1.2", "1a 03 2a 01 80", status=1), [
            "refused 1: a varint is cut short", "  at byte 4 of the body, where the varint was to stand", "  in control (field 3), idontwant (field 5)", "",
            "      0  1a 03 2a 01 80", "                     ^^", "", "  in numbers: refused 1 at 4 in 3 5"])
        # A message is the same in both; its ids and sign bytes are asked for in the edition.
        both = [self.shown(X + " 1a052a030a0141", "--sign", *words) for words in ((), ("--edition", "1.2"))]
        self.assertEqual(both[0][1:9] + both[0][-2:], both[1][1:9] + both[1][-2:])
        self.assertEqual(both[1][9:12], ["control", "  not wanted (IDONTWANT): 1 id", '    41 "A"'])
        # Sizes: the dialect takes a byte of what the program takes.
        self.assertEqual(self.shown("00*65536 00*63", "--edition", "1.2", status=1), ["refused 10: the body has above 65,536 bytes: it has 65,599 bytes"])
        self.assertEqual(self.wrong("00*65536 00*64", "--edition", "1.2"),
                         "inspect: the body has 65,600 bytes, and the program takes at most 65,599. Every body above 65,536 bytes is refused (10)\n")
        self.assertEqual(self.shown("--edition", "1.2", "1a81082afe07 0a00*511")[0], "accepted in edition 1.2: 1,028 bytes, 512 records")
        self.assertEqual(self.shown("--edition", "1.2", "1a83082a8008 0a00*512", status=1), ["refused 11: the body has above 512 records: it has 513"])

    def test_groups(self):
        """The scope's rows: groups, refused without a word and skipped with one; in either edition."""
        accepted = ["accepted with groups skipped: 2 bytes, no records", "canonical: no; in canonical form it has 0 bytes, 2 saved"]
        for words in (("--groups", "0b0c"), ("0b", "0c", "--groups"), ("-", "--groups"), ("--edition", "1.1", "--groups", "0b 0c")):
            self.assertEqual(self.shown(*words, given=b"\x0b\x0c"), accepted)
        self.assertEqual(self.shown("--edition", "1.2", "--groups", "0b0c")[0], "accepted in edition 1.2 with groups skipped: 2 bytes, no records")
        self.assertEqual(self.shown("0b1096010c 1a00", "--groups")[-2:], ["canonical: no; in canonical form it has 2 bytes, 5 saved:", "  1a00"])
        self.assertEqual(self.shown("1a052a030b0c80", "--groups")[1], "control: empty")
        self.assertEqual(self.shown("1a042a020b0c", "--groups", "--edition", "1.2")[2], "  not wanted (IDONTWANT): no ids")
        # A message keeps its group, and its sign bytes have none.
        lines = self.shown("12080a01420b0a01410c", "--groups", "--sign")
        self.assertEqual(lines[:3], ["accepted with groups skipped: 10 bytes, 1 record", "message 0: 8 bytes", '  from       42 "B" (1 byte): no peer id'])
        self.assertEqual(lines[-3:], ["canonical: yes", "sign bytes of message 0: 17 bytes", "  6c69627032702d7075627375623a0a0142"])
        both = [self.shown(*words) for words in ((X, "--groups", "--sign"), (X.replace("12 70", "12 72") + " 0b0c", "--groups", "--sign"))]
        self.assertEqual(both[0][2:9] + both[0][-2:], both[1][2:9] + both[1][-2:])
        # 14 to 16 are told by their words alone.
        for body, line in (("0c", "refused 14: an end tag with no open group, or of another number"), ("0b14", "refused 14: an end tag with no open group, or of another number"),
                           ("0b*33", "refused 15: groups are more than 32 deep"), ("0b*32", "refused 16: the body ends inside a group"),
                           ("1a010b0c", "refused 16: the body ends inside a group")):
            for option in ((), ("--sign",), ("--full",), ("--edition", "1.2")):
                self.assertEqual(self.shown("--groups", *option, "--", body, status=1), [line])
        for text, first, second in places.GROUP_ROWS + places.MORE_GROUP_ROWS:
            for told, words in ((first, ()), (second, ("--groups",))):
                lines = self.shown(text, *words, status=1 if told else 0)
                if told and " at " in told:
                    self.assertEqual(lines[-1], "  in numbers: " + told)
                else:
                    self.assertEqual(lines[0].partition(":")[0], told or "accepted" + " with groups skipped" * len(words), text)
        self.assertEqual(self.shown("00*65536 00*63", "--groups", status=1), ["refused 10: the body has above 65,536 bytes: it has 65,599 bytes"])

    def test_canonical(self):
        self.assertEqual(self.shown("1a00", "1a00"), ["accepted: 4 bytes, no records", "control: empty", "canonical: no; in canonical form it has 2 bytes, 2 saved:", "  1a00"])
        self.assertEqual(self.shown("1a00"), ["accepted: 2 bytes, no records", "control: empty", "canonical: yes"])
        self.assertEqual(self.shown("2000*3"), ["accepted: 6 bytes, no records", "canonical: no; in canonical form it has 0 bytes, 6 saved"])
        self.assertEqual(self.shown("12000a00")[-2:], ["canonical: no; in canonical form it has 4 bytes, none saved:", "  0a001200"])
        self.assertEqual(self.shown(""), ["accepted: 0 bytes, no records", "canonical: yes"])
        self.assertEqual(len(self.shown("0a00*40 2000")[-1]), 2 + 96 + 2)
        self.assertEqual(len(self.shown("0a00*40 2000", "--full")[-1]), 2 + 160)

    def test_sign_bytes(self):
        sign = "6c69627032702d7075627375623a"
        two = ("12060a01410a0142", "1203120141")
        self.assertEqual(self.shown(*two, "--sign")[-4:], ["sign bytes of message 0: 17 bytes", "  %s0a0142" % sign, "sign bytes of message 1: 17 bytes", "  %s120141" % sign])
        for words in (("--sign", "1", *two), (*two, "--sign=1"), (*two, "--sign", "1")):
            self.assertEqual(self.shown(*words)[-2:], ["sign bytes of message 1: 17 bytes", "  %s120141" % sign])
        self.assertEqual(self.shown(*two, "--sign", "2", status=1)[-1], "sign bytes of message 2: refused 20: no message at that index: there are 2 messages")
        self.assertEqual(self.shown("1a00", "--sign=65535", status=1)[-1], "sign bytes of message 65535: refused 20: no message at that index: there are no messages")
        self.assertEqual(self.shown("1a00", "--sign")[-1], "sign bytes: none, since there is no message")
        # They are never cut.
        self.assertEqual(self.shown("12cb01 12c801 41*200", "--sign")[-1], "  %s12c801%s" % (sign, "41" * 200))

    def test_refusals(self):
        for body, line, *more in (
                ("80", "refused 1: a varint is cut short", "at byte 0 of the body, where the varint was to stand", "in the body itself"),
                ("ff*9 02", "refused 2: a varint is above 64 bits", "at byte 0 of the body, where the varint begins", "in the body itself"),
                ("8000", "refused 3: a varint is longer than it needs to be", "at byte 0 of the body, where the varint begins", "in the body itself"),
                ("0a0508", "refused 4: a field passes the end: it was to have 5 bytes, and 1 remains", "at byte 2 of the body, where its bytes were to begin",
                 "in the body itself"),
                ("1203 0a0541", "refused 4: a field passes the end: it was to have 5 bytes, and 1 remains", "at byte 4 of the body, where its bytes were to begin",
                 "in message (field 2)"),
                ("2100", "refused 4: a field passes the end: it was to have 8 bytes, and 1 remains", "at byte 1 of the body, where its bytes were to begin",
                 "in the body itself"),
                ("0a01", "refused 4: a field passes the end: it was to have 1 byte, and 0 remain",
                 "at byte 2 of the body, where its bytes were to begin: that is its end", "in the body itself"),
                ("0b", "refused 5: a wire type that is not supported: type 3", "at byte 1 of the body, behind the tag: that is its end", "in the body itself"),
                ("00", "refused 6: a field number out of range: number 0", "at byte 0 of the body, where the tag begins", "in the body itself"),
                ("8080808010", "refused 6: a field number out of range: number 536870912", "at byte 0 of the body, where the tag begins", "in the body itself"),
                ("0a031201ff", "refused 7: a topic is not UTF-8", "at byte 3 of the body, where the topic's length begins", "in subscription (field 1)"),
                ("0a01800b", "refused 1: a varint is cut short", "at byte 2 of the body, where the varint was to stand", "in subscription (field 1)")):
            for option in ((), ("--sign",), ("--full",)):
                lines = self.shown(body, *option, status=1)
                self.assertEqual([lines[0], *(part[2:] for part in lines[1:3])], [line, *more], body)
                self.assertEqual(lines[3], "")
        for body, line in (("0a00*513", "refused 11: the body has above 512 records: it has 513"),
                           ("00*65536 00", "refused 10: the body has above 65,536 bytes: it has 65,537 bytes"),
                           ("00*65536 00*64", "refused 10: the body has above 65,536 bytes: it has 65,600 bytes")):
            for option in ((), ("--sign",), ("--full",)):
                self.assertEqual(self.shown(body, *option, status=1), [line], body)

    def test_places(self):
        """The whole table: the mark stands below the byte that is told, and the last line is the program's."""
        for text, told in places.ROWS + places.MORE_ROWS:
            if not told:
                continue
            lines, body = self.shown(text, status=1), bytes.fromhex(text)
            place = places.find(body)
            self.assertEqual(lines[-1], "  in numbers: " + told)
            self.assertTrue(lines[1].startswith("  at byte %d of the body, " % place.offset), lines)
            self.assertEqual(lines[1].endswith(": that is its end"), place.offset == len(body))
            numbers = re.findall(r"\(field ([0-9])\)", lines[2])
            self.assertEqual(tuple(map(int, numbers)), place.fields)
            self.assertNotIn("not known", lines[2])
            mark = next(n for n, line in enumerate(lines) if line.strip() == "^^")
            row, column = lines[mark - 1], lines[mark].index("^^")
            start = int(row.split()[0])
            self.assertEqual(column - 9, 3 * (place.offset - start), lines)
            if place.offset < len(body):
                self.assertEqual(row[column:column + 2], body[place.offset:place.offset + 1].hex())
            else:
                self.assertEqual(column, len(row) + 1)

    def test_the_bytes_around_a_place(self):
        self.assertEqual(self.shown("1a 06 22 04 12 02 0a 05", status=1), [
            "refused 4: a field passes the end: it was to have 5 bytes, and 0 remain",
            "  at byte 8 of the body, where its bytes were to begin: that is its end", "  in control (field 3), prune (field 4), peer (field 2)", "",
            "      0  1a 06 22 04 12 02 0a 05", "                                 ^^", "", "  in numbers: refused 4 2 5 0 at 8 in 3 4 2"])
        # A place in the middle: two lines before it and one behind it.
        lines = self.shown("0a00*30 00 2000*30", status=1)
        self.assertEqual(lines[1:3], ["  at byte 60 of the body, where the tag begins", "  in the body itself"])
        self.assertEqual([line.split()[0] for line in lines[4:-2]], ["16", "32", "48", "^^", "64"])
        self.assertEqual((lines[6][9 + 36:9 + 38], lines[7]), ("00", " " * (9 + 36) + "^^"))
        full = self.shown("0a00*30 00 2000*30", "--full", status=1)
        self.assertEqual([line.split()[0] for line in full[4:-2]], ["0", "16", "32", "48", "^^", "64", "80", "96", "112"])
        # At the end of a whole line, and in the first byte of one.
        lines = self.shown("0a00*7 0a 0b", status=1)
        self.assertEqual((lines[4:6], len(lines)), (["      0  " + "0a 00 " * 7 + "0a 0b", " " * (9 + 48) + "^^"], 8))
        lines = self.shown("0a00*8 00", status=1)
        self.assertEqual(lines[4:7], ["      0  " + ("0a 00 " * 8).strip(), "     16  00", "         ^^"])
        # The largest body, at its last byte.
        lines = self.shown("2000*32767 20 80", status=1)
        self.assertEqual((lines[1], lines[-4], lines[-3]), ("  at byte 65,535 of the body, where the varint was to stand", "  65520  " + "20 00 " * 7 + "20 80", " " * (9 + 45) + "^^"))
        self.assertEqual(len(self.shown("2000*32767 20 80", "--full", status=1)), 4 + 4096 + 1 + 2)

    def test_sizes(self):
        self.assertEqual(self.shown("2000*32768")[0], "accepted: 65,536 bytes, no records")
        self.assertEqual(self.shown("0a00*512")[0], "accepted: 1,024 bytes, 512 records")
        err = self.wrong("00*65536 00*65")
        self.assertEqual(err, "inspect: the body has 65,601 bytes, and the program takes at most 65,600. Every body above 65,536 bytes is refused (10)\n")

    def test_text(self):
        name = "k\u00f6ln \"x\"".encode()
        self.assertEqual(self.shown(field(1, b"\x08\x01" + field(2, name)).hex())[1], 'subscribe to "k\u00f6ln \\"x\\""')
        for data in (b"\x1b[1m", b"a\nb", b"\xf4\x8f\xbf\xbf", "\u202ea".encode()):
            self.assertEqual(self.shown(field(1, b"\x08\x01" + field(2, data)).hex())[1], "subscribe to %s (%d bytes)" % (data.hex(), len(data)))
        long = field(1, b"\x08\x01" + field(2, b"t" * 100)).hex()
        self.assertEqual(self.shown(long)[1], 'subscribe to "%s.."' % ("t" * 48))
        self.assertEqual(self.shown(long, "--full")[1], 'subscribe to "%s"' % ("t" * 100))

    def test_files(self):
        body = bytes.fromhex("1a00")
        for word in (self.file("a.body", body), "@" + self.file("b", body)):
            self.assertEqual(self.shown(word)[0], "accepted: 2 bytes, no records")
        path = self.file("c.hex", "1a 00\n\n  0A00*2\r\n")
        self.assertEqual(self.shown(path, "--hex")[0], "accepted: 6 bytes, 2 records")
        self.assertEqual(self.shown("-", given=body)[0], "accepted: 2 bytes, no records")
        self.assertEqual(self.shown("-", "--hex", given=b"1a00")[0], "accepted: 2 bytes, no records")
        self.assertEqual(self.shown("-", given=b"")[0], "accepted: 0 bytes, no records")
        # Bytes that look like hex text are taken as bytes, and it says so.
        status, out, err = self.call("-", given=b"1a00\n")
        self.assertEqual((status, out.split(":")[0]), (1, "refused 4"))
        self.assertEqual(err, "inspect: standard input is taken as bytes and looks like hex text: --hex reads it so\n")
        self.addCleanup(os.chdir, os.getcwd())
        os.chdir(self.folder)
        self.file("1a00", b"")
        self.assertIn("'1a00' is hex, and a file here: write @1a00 for the file", self.wrong("1a00"))
        self.assertEqual(self.shown("@1a00")[0], "accepted: 0 bytes, no records")
        self.assertEqual(self.shown("1a", "00")[1], "control: empty")

    def test_names(self):
        path = os.path.join(TOP, "examples", "catch-up.trace")
        lines = self.shown("--names", path, "$OFFER")
        self.assertEqual(lines[1:3], ["control", '  offer (IHAVE) of topic "ct": 4 ids'])
        trace = self.file("a.trace", "let A 1a\nlet B $A 00*1\n# no call\n")
        self.assertEqual(self.shown("--names", trace, "$B")[1], "control: empty")
        self.assertIn("no name '$C'", self.wrong("--names", trace, "$C"))
        self.assertIn("a.trace:1: let: 'zz' is no hex", self.wrong("--names", self.file("a.trace", "let A zz"), "$A"))
        self.assertEqual(self.wrong("--names", "/no/such", "$A"), "inspect: no file '/no/such': expected --names with the path of a trace\n")

    def test_the_examples_of_the_help(self):
        status, out, err = self.call("-h")
        self.assertEqual((status, err), (0, ""))
        examples = re.findall(r"^  tools/inspect (.*)$", out, re.MULTILINE)
        self.assertEqual(len(examples), 9)
        self.addCleanup(os.chdir, os.getcwd())
        os.chdir(TOP)
        for line in examples:
            words = [word.strip("'") for word in line.split()]
            if "capture.body" not in words:
                refused = words[-1] == "05"
                lines = self.shown(*words, status=1 if refused else 0)
                self.assertTrue(not refused or "".join(("  " + line).rstrip() + "\n" for line in lines) in out, lines)

    def test_as_a_command(self):
        done = subprocess.run([SCRIPT, "1a00"], capture_output=True, check=False)
        self.assertEqual((done.returncode, done.stdout.split(b"\n")[0], done.stderr), (0, b"accepted: 2 bytes, no records", b""))
        # Whoever reads may stop early.
        done = subprocess.run("'%s' '1200*512' | head -n 2" % SCRIPT, shell=True, capture_output=True, check=False)
        self.assertEqual((done.stdout.count(b"\n"), done.stderr), (2, b""))
        # The status is the body's all the same.
        for words, status in ((["1a00"], 0), (["0a0508"], 1), (["1a00", "--sign=3"], 1), (["1200*512"], 0)):
            read, write = os.pipe()
            os.close(read)
            done = subprocess.run([SCRIPT, *words], stdout=write, stderr=subprocess.PIPE, check=False)
            os.close(write)
            self.assertEqual((done.returncode, done.stderr), (status, b""), words)
        done = subprocess.run("'%s' - 0>/dev/null" % SCRIPT, shell=True, capture_output=True, check=False)
        self.assertEqual((done.returncode, done.stderr), (2, b"inspect: cannot read standard input: Bad file descriptor\n"))
        with open("/dev/full", "wb") as full:
            done = subprocess.run([SCRIPT, "1a00"], stdout=full, stderr=subprocess.PIPE, check=False)
        self.assertEqual((done.returncode, done.stderr), (2, b"inspect: cannot write standard output: No space left on device\n"))

    def test_bodies_of_the_oracle(self):
        import bodies
        r = random.Random(3)
        words, show = INSPECT.running(PROGRAM), INSPECT.Shown(False)
        accepted = ("accepted: ", "accepted in edition 1.2: ", "accepted with groups skipped: ", "accepted in edition 1.2 with groups skipped: ")
        for dialect in places.DIALECTS:
            seen = set()
            for body in [*bodies.named(), *(bodies.random_body(r) for _ in range(40)), *(bodies.messages_body(r) for _ in range(20)), bodies.many(r, 500),
                         *(bodies.declining_body(r) for _ in range(40)), *(bytes.fromhex(text) for text, *_ in places.EDITION_ROWS),
                         *(bodies.grouped_body(r) for _ in range(40))]:
                lines, status = INSPECT.answer(words, body, INSPECT.ALL, show, dialect)
                self.assertTrue(lines[0].startswith("refused " if status else accepted[dialect]))
                seen.update(line.split()[0] for line in lines if line)
                place = places.find(body, dialect)
                if place:
                    self.assertEqual(lines[-1].partition(" at ")[2], places.words(place).removeprefix(" at "))
            for word in ("subscribe", "message", "from", "offer", "request", "graft:", "prune:", "peer", "canonical:", "sign"):
                self.assertIn(word, seen)
            self.assertEqual("not" in seen, places.edition_of(dialect) == places.V1_2)


# Of each mistake: the words, and what is said of it.
MISTAKES = [
    ((), "no body: expected hex, a file, or - for standard input"),
    (("zz",), "'zz' is no hex (its character 1 is 'z'): expected two hex digits for each byte", "and there is no such file"),
    (("1a", "0g"), "word 2: '0g' is no hex (its character 2 is 'g')"),
    (("1a 00 0x0a",), "word 3: '0x0a' is no hex (its character 2 is 'x')"),
    (("1a0",), "'1a0' has an odd number of hex digits"),
    (("1a", "0"), "word 2: '0' has an odd number of hex digits"),
    (("1a:00",), "its character 3 is ':'"),
    (("00*x",), "TIMES is 'x': expected a number from 0 to 65536"),
    (("00*65537",), "TIMES is '65537'"),
    (("$X",), "no name '$X': --names TRACE takes names from a trace"),
    (("none.body",), "no file 'none.body' in this folder"),
    (("/no/such.body",), "no file '/no/such.body': expected hex, a file"),
    (("@none",), "no file 'none' in this folder: expected @FILE with the path of a file"),
    (("@/no/such",), "no file '/no/such': expected @FILE"),
    (("@",), "no file '' in this folder"),
    (("--hex", "1a00"), "--hex is for a file or standard input, and '1a00' is none"),
    (("--sign", "12", "00"), "'12' after --sign may be an index or a byte: write --sign=INDEX, or put the body before --sign"),
    (("--sign", "0a00"), "'0a00' is no message's index"),
    (("1a00", "--sign=65536"), "'65536' is no message's index, 0 to 65535"),
    (("1a00", "--sign=-1"), "'-1' is no message's index"),
    (("--ful", "1a00"), "unrecognized arguments: --ful"),
    (("peer:41",), "the key in 'peer:41' has the length 1: expected the 32 bytes of an Ed25519 key"),
    (("peer:41*33",), "the key in 'peer:41*33' has the length 33"),
    (("peer:",), "the key in 'peer:' has the length 0"),
    (("peer:zz",), "'zz' is no hex"),
    (("00", "peer:4"), "word 2: '4' has an odd number of hex digits"),
    (("peer:$K",), "no name '$K': --names TRACE takes names from a trace"),
    (("Peer:" + "41" * 32,), "its character 1 is 'P'"),
    (("--key",), "no key: expected hex, a file, or - for standard input ('' is the empty key)"),
    (("--peer",), "no peer id: expected hex"),
    (("--key", "0g"), "'0g' is no hex (its character 2 is 'g')"),
    (("--key", "080"), "'080' has an odd number of hex digits"),
    (("--peer", "00", "0"), "word 2: '0' has an odd number of hex digits"),
    (("--key", "--peer", "00"), "argument --peer: not allowed with argument --key"),
    (("--edition", "1.3", "1a00"), "argument --edition: '1.3' is no edition that is known: expected 1.1 or 1.2"),
    (("--edition", "1a00"), "argument --edition: '1a00' is no edition that is known: expected 1.1 or 1.2"),
    (("1a00", "--edition"), "argument --edition: expected one argument"),
    (("--edition", "1.2", "--key", "00"), "--edition is for a body, and a key has none"),
    (("--peer", "00", "--edition", "1.1"), "--edition is for a body, and a peer id has none"),
    (("--groups", "--key", "00"), "--groups is for a body, and a key has none"),
    (("--peer", "00", "--groups"), "--groups is for a body, and a peer id has none"),
    (("--key", "--sign", "--", "00"), "argument --sign: not allowed with argument --key"),
]


class Mistakes(Case):
    def test_each(self):
        for words, *parts in MISTAKES:
            err = self.wrong(*words)
            for part in parts:
                self.assertIn(part, err, words)
            self.assertIn("inspect: ", err)

    def test_files(self):
        one, two = self.file("a.body", b"\x1a"), self.file("b.body", b"\x00")
        self.assertIn("One file is taken, alone: '%s' is one" % one, self.wrong(one, two))
        self.assertIn("One file is taken, alone: '@b' is one", self.wrong("1a", "@b"))
        self.assertIn("cannot read the file '%s': Is a directory" % self.folder, self.wrong(self.folder))
        self.assertIn("line 2, word 2: 'zz' is no hex", self.wrong(self.file("a.hex", "1a 00\n00 zz"), "--hex"))
        self.assertIn("standard input, line 1, word 1: '1' has an odd number", self.wrong("-", "--hex", given=b"1 a"))
        self.assertIn("standard input is no hex text: its byte at 2 is not UTF-8", self.wrong("-", "--hex", given=b"1a\xff"))
        self.assertIn("standard input has above 16777216 bytes", self.wrong("-", given=bytes(2**24 + 1)))
        self.assertIn("line 1, word 1: the bytes are above 16777216", self.wrong("-", "--hex", given=b"00" * 100000 + b"*65536"))
        self.assertIn("the file '/dev/zero' has above 16777216 bytes", self.wrong("@/dev/zero"))


class Programs(Case):
    def stub(self, text, more=""):
        """A program that prints a text. It is a script, which needs no emulator."""
        path = self.file("stub", "#!/bin/sh\ncat >/dev/null\ncat <<'END'\n%s\nEND\n%s" % (text, more))
        os.chmod(path, 0o755)
        return path

    def told(self, program, *words):
        with mock.patch.object(INSPECT.x86, "running", lambda path: [path]):
            return self.wrong("--program", program, *(words or ("1a00",)))

    def test_none(self):
        self.assertIn("no program at /no/such: `tools/build inspect` makes it, or name one by --program", self.told("/no/such"))
        path = self.file("closed", "x")
        self.assertIn("is not a program that may be run", self.told(path))
        os.chmod(path, 0o755)
        self.assertIn("cannot run", self.told(path))

        def no_kit(path):
            raise INSPECT.x86.Failure("there is no kit")

        with mock.patch.object(INSPECT.x86, "running", no_kit):
            self.assertEqual(self.wrong("--program", path, "1a00"), "inspect: there is no kit\n")

    def test_it_ends(self):
        self.assertIn("the program ended with status 3", self.told(self.stub("", "exit 3")))
        self.assertIn("the program ended by SIGKILL", self.told(self.stub("", "kill -KILL $$")))
        self.assertIn("the program gave 1 of 2 answers", self.told(self.stub("1 decode ok 0 plain")))

    def test_strange_answers(self):
        for text in ("bad", "long", "1 encode 0", "2 decode ok 0 plain", "1 decode ok 0 plain\n2 encode 0\n3 encode 0", "  sub - -", "1 decode",
                     "1 decode ok 0\n2 encode 0", "1 decode ok 1 plain\n2 encode 0", "1 decode yes\n2 encode 0", "1 decode ok 0 plain\n2 encode 1",
                     "1 decode ok 0 plain\n2 encode 2 00", "1 decode ok 0 plain\n2 encode 1 0g", "1 decode refused\n2 encode 0", "1 decode refused x\n2 encode 0",
                     "1 decode refused 1 at\n2 encode 0", "1 decode refused 1 at x\n2 encode 0", "1 decode refused 1 at 0 in\n2 encode 0",
                     "1 decode refused 1 at 0 in 3 4 2 1\n2 encode 0", "1 decode refused 1 in 3\n2 encode 0", "1 decode refused 1 at 0 in 3 at 4\n2 encode 0",
                     "1 decode refused at 0\n2 encode 0", "1 decode refused 1 at 3\n2 encode 0"):
            self.assertIn("none that it should give", self.told(self.stub(text)), text)
        for line in ("  sub -", "  sub x -", "  sub 1 00", "  rpc", "  message - - - - -", "  topic =00", "  id =00", "  peer - -", "  prune - =00", "  graft =0"):
            self.assertRegex(self.told(self.stub("1 decode ok 1 control\n%s\n2 encode 0" % line)), "should print|stands below none", line)

    def test_strange_keys_and_peers(self):
        for text in ("1 key 4 =", "1 key 01 =", "1 key 1", "1 key 1 00", "1 key 1 =0", "1 key 1 = =", "1 key =", "1 key refused 34", "1 peer identity =", "2 key 1 =",
                     "1 key refused", "1 key 1 =\n2 key 1 ="):
            self.assertIn("none that it should give", self.told(self.stub(text), "--key", "08011200"), text)
        for text in ("1 peer 1 =", "1 peer identity", "1 peer sha512 =", "1 peer identity 00", "1 peer refused 35", "1 key 1 ="):
            self.assertIn("none that it should give", self.told(self.stub(text), "--peer", "0000"), text)
        silent = self.file("silent", "#!/bin/sh\ncat >/dev/null\n")
        os.chmod(silent, 0o755)
        self.assertIn("the program gave 0 of 1 answer", self.told(silent, "--key", ""))

    def test_a_program_without_editions(self):
        self.assertEqual(self.told(self.stub("bad"), "--edition", "1.2", "1a00"), "inspect: the program does not know edition 1.2: it is of an earlier version, and "
                         "`tools/build inspect` makes it anew\n")
        self.assertIn("none that it should give", self.told(self.stub("bad"), "--edition", "1.1", "1a00"))
        for words, what in ((("--groups",), "groups"), (("--groups", "--edition", "1.2"), "edition 1.2, or groups")):
            self.assertEqual(self.told(self.stub("bad"), *words, "--", "1a00"), "inspect: the program does not know %s: it is of an earlier version, and `tools/build inspect` "
                             "makes it anew\n" % what)
        # In 1.1, where groups are refused, it is asked as ever.
        for words, kind in ((("--edition", "1.1"), b"\x01\x00\x1a\x00"), (("--edition", "1.2"), b"\x15\x00\x01\x1a\x00"), (("--groups",), b"\x15\x00\x02\x1a\x00"),
                            (("--groups", "--edition", "1.2"), b"\x15\x00\x03\x1a\x00")):
            with mock.patch.object(INSPECT, "printed", side_effect=INSPECT.Failure("asked")) as asked:
                self.assertIn("asked", self.told(self.stub(""), *words, "--", "1a00"))
            self.assertEqual(asked.call_args[0][1][4:4 + len(kind)], kind)

    def test_a_program_without_keys(self):
        for words in (("--key", "00"), ("--peer", "00")):
            self.assertEqual(self.told(self.stub("bad"), *words), "inspect: the program does not know keys and peer ids: it is of an earlier version, and "
                             "`tools/build inspect` makes it anew\n")

    def test_refusals_of_later_numbers(self):
        program = self.stub("1 decode refused 17 3\n2 encode refused 17 3")
        with mock.patch.object(INSPECT.x86, "running", lambda path: [path]):
            self.assertEqual(self.shown("--program", program, "1a00", status=1), ["refused 17"])

    def test_a_program_without_places(self):
        program = self.stub("1 decode refused 1\n2 encode refused 1")
        self.assertEqual(self.told(program, "80"), "inspect: the program does not tell where the body is refused: it is of an earlier version, and `tools/build inspect` "
                         "makes it anew\n")

    def test_a_field_of_a_later_edition(self):
        program = self.stub("1 decode refused 1 at 1 in 3 6\n2 encode refused 1 at 1 in 3 6")
        with mock.patch.object(INSPECT.x86, "running", lambda path: [path]):
            lines = self.shown("--program", program, "1a00", status=1)
        self.assertEqual((lines[2], lines[-1]), ("  in control (field 3), not known (field 6)", "  in numbers: refused 1 at 1 in 3 6"))


class Words(unittest.TestCase):
    def test_each_refusal(self):
        told = INSPECT.refusals.told
        for number, words in INSPECT.refusals.WORDS.items():
            values = tuple(range(1, 1 + len(INSPECT.refusals.VALUES.get(number, ()))))
            line = told(number, values)
            self.assertTrue(line.startswith("refused %d: %s" % (number, words)), line)
            self.assertEqual(len(line) > len("refused %d: %s" % (number, words)), bool(values) and number != 7, line)
            self.assertEqual(told(number), "refused %d: %s" % (number, words))
        self.assertEqual(told(99, (1,)), "refused 99")
        self.assertEqual(told(12, (1,)), "refused 12: no room for the answer: 1 is needed")
        self.assertEqual(told(12, (1024,)), "refused 12: no room for the answer: 1,024 are needed")
        self.assertTrue(set(INSPECT.refusals.VALUES) <= set(INSPECT.refusals.WORDS))

    def test_places(self):
        refused, place = INSPECT.answers.refused, INSPECT.answers.Place
        self.assertIsNone(refused("ok 0 plain".split()))
        for text, told in (("refused 1 at 0", (1, (), place(0, ()))), ("refused 4 2 5 0 at 8 in 3 4 2", (4, (2, 5, 0), place(8, (3, 4, 2)))),
                           ("refused 7 1 at 3 in 1", (7, (1,), place(3, (1,)))), ("refused 20 0", (20, (0,), None)), ("refused 23", (23, (), None))):
            self.assertEqual(refused(text.split()), told)
            self.assertTrue(told[2] is None or INSPECT.refusals.in_numbers(*told) == text)
        self.assertEqual(set(INSPECT.refusals.AT), set(INSPECT.OF_A_BODY))
        self.assertEqual(set(INSPECT.refusals.FIELDS) | {()}, set(places.PATHS[places.V1_2]))
        # The crate calls the fields the same.
        with open(os.path.join(TOP, "host", "src", "place.rs"), encoding="utf-8") as file:
            names = re.findall(r'^ *\[([0-9, ]+)\] => "(\w+)",$', file.read(), re.MULTILINE)
        self.assertEqual({tuple(map(int, path.split(", "))): name for path, name in names}, INSPECT.refusals.FIELDS)


if __name__ == "__main__":
    if WHY_NOT:
        print("most tests are left out: %s" % WHY_NOT, file=sys.stderr)
    unittest.main()
