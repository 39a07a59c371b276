#!/usr/bin/env python3
"""Tests of tools/docs, on a small tree and on this one.

    python3 tools/test_docs.py
"""

import contextlib
import io
import os
import sys
import tempfile
import unittest
from unittest import mock

HERE = os.path.dirname(os.path.abspath(__file__))
sys.dont_write_bytecode = True
sys.path.insert(0, HERE)
import scripts  # noqa: E402

SCRIPT = os.path.join(HERE, "docs")


DOCS = scripts.loaded("docs")

TREE = {
    "crates.txt": "# NAME: what it depends on\n\n# wire\nvarint:\n\n# state\nring: varint\n\n# boundary\npradulins: ring\n",
    "crates/varint/src/lib.rt": """\
pub mod told;

pub fn read(s: &[u8]) -> u64
    ensures { λ r. ⌜ r ≡ readIn (now (s .entry)) ⌝ }
{
    inner(s)
}

fn inner(s: &[u8]) -> u64
    requires { ⌜ 1 ≤ length (now s) ⌝ }
{
    0
}
""",
    "crates/varint/src/told.rt": "pub fn told_read(why: u8) -> u8\n    ensures { λ r. ⌜ r ≡ why ⌝ }\n{\n    why\n}\n",
    "crates/varint/specs/Lib.antt": "-- Theorems: Laws (`read-back`).\n-- Cited by contracts, and joined: Sums, by Others of ring.\npub mod Laws\npub mod Sums\n",
    "crates/varint/specs/Sums.antt": "",
    "crates/varint/specs/Laws.antt": """\
unfoldable pub readIn : List ℕ → ℕ
readIn s = 0

pub record Begins (s : List ℕ) : Type 0 where
  pub front : s ≡ []

module _ (s : List ℕ) where
  pub read-back : readIn s ≡ 0
  read-back = refl
""",
    "crates/varint/proofs/Lib.antt": "-- Theorems: Later.\npub mod Later\n",
    "crates/varint/proofs/Later.antt": "pub read-later : readIn [] ≡ 0\nread-later = refl\n",
    "crates/ring/proofs/Lib.antt": "pub mod Steps\n",
    "crates/varint/must-fail/one_read.edit": "",
    "crates/ring/src/lib.rt": """\
pub struct Ring {
    pub at: usize,
}

impl Ring {
    pub fn step(self) -> Self
        ensures { λ r. ⌜ r ≡ self ⌝ }
    {
        self
    }
}

pub extern "C" fn ring_start() -> u32
    ensures { λ r. ⌜ r ≡ 0 ⌝ }
{
    0
}
""",
    "crates/ring/src/away.rt": "pub fn hidden() {\n}\n",
    "extra-edits/ring/two_steps.edit": "",
    "README.md": "Look at `docs/PROMISES.md`, crates/NAME/src and crates/*/specs.\n",
    "CONTRIBUTING.md": "| Group | Crate | What |\n|---|---|---|\n| wire | varint | numbers |\n| state | `ring` | places |\n| boundary | pradulins | C |\n",
    "docs/PROMISES.md": "| Definition | File |\n|:--|--:|\n| `readIn`, `Begins` | crates/varint/specs/Laws.antt |\n",
    "docs/THEOREMS.md": "| Theorem | File | What |\n|---|---|---|\n| `read-back` | crates/varint/specs/Laws.antt | `a|b` |\n| `read-later` | crates/varint/proofs/Later.antt | so |\n",
    "docs/FUNCTIONS.md": """\
## Every public function

### Wire

| Function | Ruled out | Edits |
|---|---|---|
| `varint::read` | one; two | varint/one_read |
| `varint::told::told_read` | one; two | |

### State

| Function | Ruled out | Edits |
|---|---|---|
| `ring::Ring::step` | one; two | ring/two_steps + |
| `ring::ring_start` | one; two |
""",
    "include/pradulins.h": """\
/* The version that this header is of, 1.2.3: and so on. */
#define PRADULINS_VERSION 10203
#define PRADULINS_FORMAT 7

/* ---- refusals, and what `values` gets beside each */

#define PRADULINS_OK 0
#define PRADULINS_VARINT_SHORT 1        /* a varint is cut short */
#define PRADULINS_MALFORMED 42

/* ---- records */

#define PRADULINS_RECORD_WORDS 20

static inline const char *pradulins_refusal_text(uint32_t number)
{
    switch (number) {
    case PRADULINS_OK: return "not refused";
    case PRADULINS_VARINT_SHORT: return "a varint is cut short";
    case PRADULINS_MALFORMED: return "it is not well formed";
    default: return "no refusal has this number";
    }
}
""",
    "tools/refusals.py": """\
WORDS = {
    1: "a varint is cut short",
    33: "an id is too long",
    42: "it is not well formed",
}
VALUES = {33: ("length",)}
""",
    "crates/pradulins/src/lib.rt": "pub const VERSION: u32 = 10203;\npub const FORMAT: u32 = 7;\n",
    "host/Cargo.toml": "# The library.\n[package]\nversion = \"1.2.3\"\nrust-version = \"1.74\"\n",
    "oracle/README.md": "`build.sh` makes build/one.rs of crates/core/src/frame.rs (frame.rs.txt, in crates/core) and harness/tail.rs; oracle/sources.py.\n",
    "oracle/sources.py": "FILES = ('crates/core/src/frame.rs',)\n",
    "oracle/build.sh": "",
    "oracle/harness/tail.rs": "",
    "bench/README.md": "| `main.c` | the program; crates/ring, README.md, target/bin/none |\n",
    "bench/main.c": "",
    "CHANGELOG.md": "# Changes\n\n## 1.2.3\n\nA clock.\n\n## 1.2.2\n",
    "KIT-ID": "kit-1 logic 0a0b\n",
}

PATHS = {
    "crates": "crates.txt", "readme": "README.md", "contributing": "CONTRIBUTING.md", "varint": "crates/varint/src/lib.rt",
    "lib": "crates/varint/specs/Lib.antt", "proved": "crates/varint/proofs/Lib.antt", "header": "include/pradulins.h", "refusals": "tools/refusals.py", "library": "crates/pradulins/src/lib.rt",
    "cargo": "host/Cargo.toml", "changelog": "CHANGELOG.md", "kit": "KIT-ID",
    "oracle": "oracle/README.md", "sources": "oracle/sources.py", "tail": "oracle/harness/tail.rs", "bench": "bench/README.md",
}


class Case(unittest.TestCase):
    def wrong(self, **changes):
        """What is wrong with the tree where in the file NAME one text is another: NAME=(old, new); or where there is no such file: NAME=None."""
        return self.checked(**changes).wrong

    def checked(self, version="kit-1 logic 0a0b", **changes):
        files = dict(TREE)
        for name, change in changes.items():
            path = PATHS.get(name, "docs/%s.md" % name.upper())
            if change is None:
                del files[path]
                continue
            old, new = change
            self.assertIn(old, files[path])
            files[path] = files[path].replace(old, new)
        with tempfile.TemporaryDirectory() as top:
            for path, text in files.items():
                os.makedirs(os.path.join(top, os.path.dirname(path)), exist_ok=True)
                with open(os.path.join(top, path), "w", encoding="utf-8") as file:
                    file.write(text)
            with mock.patch.object(DOCS, "kit_version", return_value=version):
                return DOCS.checked(top)

    def tells(self, words, **changes):
        wrong = self.wrong(**changes)
        self.assertTrue(any(words in line for line in wrong), (words, wrong))

    def test_a_tree_without_faults(self):
        self.assertEqual(self.wrong(), [])

    def test_a_theorem_that_is_not_there(self):
        self.tells("docs/THEOREMS.md:3: `read-on` does not stand in crates/varint/specs/Laws.antt, nor in any other specs or proofs", theorems=("read-back", "read-on"))

    def test_a_field_of_a_record_is_no_definition(self):
        self.tells("`front` does not stand in", promises=("`Begins`", "`front`"))

    def test_where_a_name_stands_is_told(self):
        self.tells("it stands in crates/varint/specs/Laws.antt", theorems=("Laws.antt", "Lib.antt"))
        self.tells("`read-later` does not stand in crates/varint/specs/Later.antt; it stands in crates/varint/proofs/Later.antt", theorems=("proofs/Later.antt", "specs/Later.antt"))

    def test_two_theorems_in_a_row(self):
        self.tells("one theorem a row", theorems=("`read-back`", "`read-back`, `readIn`"))

    def test_a_row_without_a_file(self):
        self.tells("the row names no file", theorems=("crates/varint/specs/Laws.antt", "the same"))

    def test_a_path_that_does_not_exist(self):
        self.tells("README.md:1: docs/PROMISE.md does not exist", readme=("PROMISES", "PROMISE"))
        self.tells("CHANGELOG.md:5: tools/clock does not exist", changelog=("A clock", "`tools/clock`"))
        # A name alone is no path there.
        self.assertEqual(self.wrong(changelog=("A clock", "A clock.c")), [])

    def test_paths_of_a_folder(self):
        self.tells("oracle/README.md:1: built.sh does not exist", oracle=("build.sh", "built.sh"))
        self.tells("oracle/README.md:1: harness/tail.rs does not exist", tail=None)
        self.tells("oracle/README.md:1: harness/tails does not exist", oracle=("harness/tail.rs", "harness/tails"))
        self.tells("oracle/README.md:1: oracle/build.sh.py does not exist", oracle=("oracle/sources.py", "oracle/build.sh.py"))
        self.tells("oracle/README.md:1: crates/core/src/frames.rs does not exist", oracle=("frame.rs ", "frames.rs "))
        self.tells("oracle/README.md:1: crates/co does not exist", oracle=("in crates/core", "in crates/co"))
        self.tells("oracle/README.md: there is no such file", oracle=None)
        self.tells("oracle/sources.py: it has no table FILES", sources=("FILES", "NAMES"))
        self.tells("bench/README.md:1: mains.c does not exist", bench=("main.c", "mains.c"))
        self.tells("bench/README.md:1: crates/rings does not exist", bench=("crates/ring", "crates/rings"))
        # The Rust's files are named in oracle/README.md alone.
        self.tells("bench/README.md:1: crates/core/src/frame.rs does not exist", bench=("crates/ring", "crates/core/src/frame.rs"))

    def test_a_function_without_a_row(self):
        self.tells("`varint::read` (crates/varint/src/lib.rt:3) has no row", functions=("| `varint::read` | one; two | varint/one_read |\n", ""))

    def test_a_row_without_a_function(self):
        self.tells("`ring::step` is no public function of crates/*/src; there is `ring::Ring::step`", functions=("| `ring::Ring::step` | one", "| `ring::step` | one"))

    def test_a_row_twice(self):
        self.tells("has a row in line 7 already", functions=("`varint::told::told_read`", "`varint::read`"))

    def test_a_public_function_that_asks(self):
        self.tells("crates/varint/src/lib.rt:3: `varint::read` is public and has a `requires`", varint=("    ensures {", "    requires { ⌜ 1 ≤ 2 ⌝ }\n    ensures {"))

    def test_a_contract_of_two_parts_or_none(self):
        self.tells("`varint::read` is public and has 2 `ensures`", varint=("    ensures {", "    ensures { λ r. ⌜ r ≤ 2 ⌝ }\n    ensures {"))
        self.tells("`varint::read` is public and has no `ensures`", varint=("    ensures { λ r. ⌜ r ≡ readIn (now (s .entry)) ⌝ }\n", ""))

    def test_a_program_may_promise_less(self):
        changes = {"crates": ("# wire", "# programs"), "contributing": ("| wire |", "| programs |")}
        self.assertEqual(self.wrong(varint=("    ensures { λ r. ⌜ r ≡ readIn (now (s .entry)) ⌝ }\n", ""), **changes), [])

    def test_edits(self):
        self.tells("there is no edit varint/no_read", functions=("varint/one_read", "varint/no_read"))
        self.tells("no row names the edit varint/one_read", functions=("varint/one_read", ""))
        self.tells("it has a + behind it", functions=("ring/two_steps +", "ring/two_steps"))
        self.tells("it has no + behind it", functions=("varint/one_read", "varint/one_read +"))

    def test_crates(self):
        self.tells("crates.txt:7: the crate ring is not in the table", contributing=("| state | `ring` | places |\n", ""))
        self.tells("CONTRIBUTING.md:3: the crate varints is not in crates.txt", contributing=("| varint |", "| varints |"))
        self.tells("in the group wire here and in state", contributing=("| state |", "| wire |"))
        two_words = ("# state", "# kept state")
        self.assertEqual(self.wrong(crates=two_words, contributing=("| state |", "| kept state |")), [])
        self.tells("in the group state here and in kept state", crates=two_words)
        self.tells("the folder crates/ring is not listed", crates=("ring: varint\n", ""))
        self.tells("there is no folder crates/rings", crates=("ring: varint", "ring: varint\nrings: varint"))

    def test_the_comment_of_specs(self):
        self.tells("crates/varint/specs/Lib.antt:1: the comment does not say what More is", lib=("pub mod Laws", "pub mod Laws\npub mod More"))
        self.tells("the comment names Laws, and there is no such `pub mod`", lib=("pub mod Laws\n", ""))
        self.tells("no comment says which files", lib=("-- ", ""))
        self.tells("crates/varint/proofs/Lib.antt:1: the comment does not say what More is", proved=("pub mod Later", "pub mod Later\npub mod More"))
        self.tells("the comment names Later, and there is no such `pub mod`", proved=("pub mod Later\n", ""))

    def test_versions(self):
        self.tells("host/Cargo.toml:3: version is 1.2.4, and 1.2.3 in include/pradulins.h", cargo=('"1.2.3"', '"1.2.4"'))
        self.tells("CHANGELOG.md:3: a version in a heading `## ` is 1.3.0, and 1.2.3 in include/pradulins.h", changelog=("## 1.2.3", "## 1.3.0, a clock"))
        self.tells("CHANGELOG.md: there is no such file", changelog=None)
        self.tells("CHANGELOG.md: it does not say a version in a heading", changelog=("## ", "### "))
        self.tells("crates/pradulins/src/lib.rt:1: `pub const VERSION: u32` is 123, and 10203 in", library=("10203", "123"))
        self.tells("crates/pradulins/src/lib.rt:2: `pub const FORMAT: u32` is 8, and 7 in", library=("= 7", "= 8"))
        self.tells("crates/pradulins/src/lib.rt: it does not say `pub const FORMAT: u32`", library=("pub const FORMAT: u32 = 7;\n", ""))
        self.tells("include/pradulins.h:1: its version in words is 1.2.3, and 2.2.3", header=("VERSION 10203", "VERSION 20203"))
        self.tells("include/pradulins.h: it does not say PRADULINS_VERSION", header=("#define PRADULINS_VERSION 10203\n", ""))

    def test_words_of_refusals(self):
        self.tells("tools/refusals.py: refusal 1 is \"short\", and \"a varint is cut short\" in include/pradulins.h:19", refusals=("a varint is cut short", "short"))
        self.tells("tools/refusals.py: it has no words for refusal 42", refusals=('    42: "it is not well formed",\n', ""))
        self.tells("tools/refusals.py: refusal 43 has no words in include/pradulins.h", refusals=('    33:', '    43: "so",\n    33:'))
        self.tells("pradulins_refusal_text has no words for PRADULINS_NEW", header=("MALFORMED 42\n", "MALFORMED 42\n#define PRADULINS_NEW 43\n"))
        self.tells("include/pradulins.h:20: PRADULINS_OTHER is no refusal", header=("case PRADULINS_MALFORMED", "case PRADULINS_OTHER"))
        self.tells("tools/refusals.py: it has no table WORDS", refusals=("WORDS", "TEXTS"))
        self.tells("tools/refusals.py: it has no table WORDS", refusals=("{", "{{"))
        self.tells("tools/refusals.py: there is no such file", refusals=None)

    def test_the_kit(self):
        self.assertEqual(self.checked(version="kit-2 logic 0a0c").wrong, ["KIT-ID:1: the proofs were checked with kit-1 logic 0a0b, this kit is kit-2 logic 0a0c"])
        tree = self.checked(version=None)
        self.assertEqual((tree.wrong, tree.notes), ([], ["KIT-ID was not tested: there is no rt on the PATH"]))
        self.assertEqual(self.checked(version=None, kit=None).wrong, ["KIT-ID: there is no such file"])
        self.assertEqual(self.checked(version="").wrong, ["KIT-ID:1: the proofs were checked with kit-1 logic 0a0b, this kit is one that does not say what it is"])
        with tempfile.TemporaryDirectory() as folder, mock.patch.dict(os.environ, {"PATH": folder}):
            self.assertIsNone(DOCS.kit_version())
            path = os.path.join(folder, "rt")
            with open(path, "w") as file:
                file.write("#!/bin/sh\necho $1 3\n")
            os.chmod(path, 0o755)
            self.assertEqual(DOCS.kit_version(), "version 3")

    def test_cells(self):
        self.assertEqual(DOCS.cells_of("| `a|b` | c \\| d | |"), ["`a|b`", "c \\| d", ""])
        self.assertEqual(DOCS.cells_of("| a | b"), ["a", "b"])

    def test_no_table_in_a_code_block(self):
        self.assertEqual(DOCS.tables("```\n| Crate |\n|---|\n| x |\n```\n"), [])

    def test_the_status(self):
        with tempfile.TemporaryDirectory() as top, mock.patch.object(sys, "argv", ["docs", "--top", top]):
            out = io.StringIO()
            with contextlib.redirect_stdout(out):
                self.assertEqual(DOCS.main(), 1)
            self.assertIn("docs/THEOREMS.md: there is no such file", out.getvalue())

    def test_this_tree(self):
        self.assertEqual(DOCS.check(os.path.dirname(HERE)), [])


if __name__ == "__main__":
    unittest.main()
