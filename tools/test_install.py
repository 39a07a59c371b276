#!/usr/bin/env python3
"""Tests of tools/install, into a temporary folder and with a stand-in archive. One links a program with the true archive, where target/staticlib has it.

    python3 tools/test_install.py
"""

import contextlib
import io
import os
import shutil
import stat
import subprocess
import sys
import tempfile
import unittest
from unittest import mock

HERE = os.path.dirname(os.path.abspath(__file__))
sys.dont_write_bytecode = True
sys.path.insert(0, HERE)
import scripts  # noqa: E402

TOP = os.path.dirname(HERE)
SCRIPT = os.path.join(HERE, "install")
ARCHIVE = b"!<arch>\nstand-in, with pradulins_write_rpc\0"
TRUE_ARCHIVE = os.path.join(TOP, "target", "staticlib")
PROGRAM = """\
#include <pradulins.h>
#include <stdio.h>

static uint8_t node[PRADULINS_NODE_SIZE], out[PRADULINS_OUT_SIZE];

int main(void)
{
    const uint8_t body[] = {0x1a, 0x00, 0x1a, 0x00};
    uint64_t values[PRADULINS_VALUES];
    uint32_t started = pradulins_start(node, 1000, 4, 2, 4, 0), written = pradulins_encode(PRADULINS_V1_1, body, sizeof body, out, sizeof out, values);
    printf("%u %u %u %02x%02x\\n", started, written, (unsigned)values[0], out[0], out[1]);
    return 0;
}
"""


INSTALL = scripts.loaded("install")


class Case(unittest.TestCase):
    def setUp(self):
        kept = tempfile.TemporaryDirectory()
        self.addCleanup(kept.cleanup)
        self.folder = kept.name
        self.prefix = os.path.join(self.folder, "opt")
        self.made = os.path.join(self.folder, "made")
        os.mkdir(self.made)
        self.write(os.path.join(self.made, "libpradulins.a"), ARCHIVE)

    def write(self, path, data):
        with open(path, "wb") as file:
            file.write(data)

    def read(self, *parts):
        with open(os.path.join(*parts), "rb") as file:
            return file.read()

    def call(self, *words):
        """(status, standard output, standard error)."""
        out, err = io.StringIO(), io.StringIO()
        with contextlib.redirect_stdout(out), contextlib.redirect_stderr(err):
            try:
                status = INSTALL.main(words)
            except SystemExit as done:
                status = done.code
        return status, out.getvalue(), err.getvalue()

    def install(self, *words):
        status, out, err = self.call(*words, "--archive", self.made)
        self.assertEqual((status, err), (0, ""))
        return out

    def wrong(self, *words, status=1):
        got, out, err = self.call(*words)
        self.assertEqual((got, out), (status, ""), err)
        self.assertIn("install: ", err)
        return err

    def files(self, folder):
        return sorted(os.path.relpath(os.path.join(where, name), folder) for where, _, names in os.walk(folder) for name in names)

    def test_the_files(self):
        out = self.install(self.prefix)
        self.assertEqual(self.files(self.prefix), ["include/pradulins.h", "lib/libpradulins.a", "lib/pkgconfig/pradulins.pc"])
        header = self.read(TOP, "include", "pradulins.h")
        self.assertEqual(self.read(self.prefix, "include/pradulins.h"), header)
        self.assertEqual(self.read(self.prefix, "lib/libpradulins.a"), ARCHIVE)
        for name in self.files(self.prefix):
            self.assertEqual(stat.S_IMODE(os.stat(os.path.join(self.prefix, name)).st_mode), 0o644)
            self.assertIn("wrote %s\n" % os.path.join(self.prefix, name), out)
        text = self.read(self.prefix, "lib/pkgconfig/pradulins.pc").decode()
        version = INSTALL.version()
        self.assertRegex(version, r"^\d+\.\d+\.\d+$")
        for line in ("prefix=%s" % self.prefix, "Name: pradulins", "Version: %s" % version, "Cflags: -I${includedir}", "Libs: -L${libdir} -lpradulins"):
            self.assertIn(line + "\n", text)
        self.assertIn("pradulins %s is installed" % version, out)
        self.assertIn("PKG_CONFIG_PATH=%s/lib/pkgconfig pkg-config --cflags --libs pradulins" % self.prefix, out)

    def test_again(self):
        self.install(self.prefix)
        self.write(os.path.join(self.made, "libpradulins.a"), ARCHIVE + b" of later")
        self.install(self.prefix)
        self.assertEqual(self.read(self.prefix, "lib/libpradulins.a"), ARCHIVE + b" of later")
        self.assertEqual(len(self.files(self.prefix)), 3)

    def test_destdir(self):
        for below in (self.folder + "/stage", self.folder + "/stage/"):
            out = self.install("/usr", "--destdir", below)
            self.assertEqual(len(self.files(os.path.join(self.folder, "stage", "usr"))), 3)
            text = self.read(self.folder, "stage/usr/lib/pkgconfig/pradulins.pc").decode()
            self.assertTrue(text.startswith("prefix=/usr\n"))
            self.assertIn("wrote %s/stage/usr/include/pradulins.h\n" % self.folder, out)
        self.assertIn("with --destdir PREFIX must begin with /, and it is 'usr'", self.wrong("usr", "--destdir", self.folder, status=2))

    def test_a_relative_prefix(self):
        self.addCleanup(os.chdir, os.getcwd())
        os.chdir(self.folder)
        self.install("here")
        self.assertIn("prefix=%s/here\n" % os.getcwd(), self.read("here/lib/pkgconfig/pradulins.pc").decode())

    @unittest.skipUnless(shutil.which("pkg-config"), "there is no pkg-config")
    def test_pkg_config(self):
        self.install(self.prefix)

        def told(*words):
            done = subprocess.run(["pkg-config", *words], env=dict(os.environ, PKG_CONFIG_PATH=self.prefix + "/lib/pkgconfig"), capture_output=True, text=True)
            self.assertEqual((done.returncode, done.stderr), (0, ""))
            return done.stdout.split()

        self.assertEqual(told("--exists", "--print-errors", "pradulins"), [])
        self.assertEqual(told("--modversion", "pradulins"), [INSTALL.version()])
        self.assertEqual(told("--cflags", "--libs", "pradulins"), ["-I%s/include" % self.prefix, "-L%s/lib" % self.prefix, "-lpradulins"])
        self.assertEqual(told("--validate", "pradulins"), [])

    def test_where_pkg_config_looks(self):
        where = self.prefix + "/lib/pkgconfig"
        for found, part in ((True, "$(pkg-config"), (False, "$(PKG_CONFIG_PATH=%s pkg-config" % where), (None, "$(PKG_CONFIG_PATH=%s pkg-config" % where)):
            with mock.patch.object(INSTALL, "known", return_value=found):
                self.assertIn(part, self.install(self.prefix))

    @unittest.skipUnless(shutil.which("pkg-config"), "there is no pkg-config")
    def test_the_line_for_any_prefix(self):
        # A compiler that prints its words, each on a line.
        cc = os.path.join(self.folder, "cc" if INSTALL.x86.NATIVE else "x86_64-linux-gnu-gcc")
        self.write(cc, b"#!/bin/sh\nprintf '%s\\n' \"$@\"\n")
        os.chmod(cc, 0o755)
        env = dict(os.environ, PATH=self.folder + os.pathsep + os.environ["PATH"])
        for sign in "!%&()*+,-.;<=>?@[]^_`{|}~\u00fc\u65e5":
            prefix = os.path.join(self.folder, "a%sb" % sign)
            line = self.install(prefix).split("\n")[-2]
            self.assertEqual("pkg-config" in line, sign in "()+,-.=@^_~", line)
            done = subprocess.run(line, shell=True, cwd=self.folder, env=env, capture_output=True, text=True)
            self.assertEqual((done.stdout.split("\n"), done.stderr),
                             (["prog.c", "-I%s/include" % prefix, "-L%s/lib" % prefix, "-lpradulins", "-o", "prog", ""], ""), line)

    def test_it_cannot_be_written(self):
        self.write(self.prefix, b"a file")
        self.assertIn("cannot make the folder %s/include: Not a directory" % self.prefix, self.wrong(self.prefix, "--archive", self.made))
        os.remove(self.prefix)
        os.makedirs(os.path.join(self.prefix, "lib", "libpradulins.a"))
        status, out, err = self.call(self.prefix, "--archive", self.made)
        self.assertEqual((status, err), (1, "install: cannot write %s/lib/libpradulins.a: Is a directory\n" % self.prefix))
        self.assertEqual(self.files(self.prefix), ["include/pradulins.h"])
        with mock.patch.object(INSTALL.os, "access", return_value=False):
            self.assertIn("cannot write to %s/include: it is not yours to write" % self.prefix, self.wrong(self.prefix, "--archive", self.made))
        # It is found before the archive is made.
        with mock.patch.object(INSTALL.x86, "archive", side_effect=AssertionError):
            self.assertIn("cannot make the folder", self.wrong(os.path.join(self.made, "libpradulins.a")))

    def test_no_archive(self):
        os.remove(os.path.join(self.made, "libpradulins.a"))
        self.assertIn("libpradulins.a", self.wrong(self.prefix, "--archive", self.made))
        with mock.patch.object(INSTALL.x86, "ROOT", self.folder), mock.patch.dict(os.environ, {"PATH": self.made}):
            err = self.wrong(self.prefix)
        self.assertIn("libpradulins.a", err)
        self.assertIn("no rt", err)
        self.write(os.path.join(self.made, "libpradulins.a"), b"text")
        self.assertIn("libpradulins.a is no archive", self.wrong(self.prefix, "--archive", self.made))
        # That of 0.5.0 has not all that the header names.
        self.write(os.path.join(self.made, "libpradulins.a"), b"!<arch>\npradulins_start\0pradulins_format\0")
        self.assertEqual(self.wrong(self.prefix, "--archive", self.made),
                         "install: %s/libpradulins.a has no pradulins_write_rpc: it is of an earlier version than the header, which is of %s. "
                         "`tools/build pradulins` makes it anew\n" % (self.made, INSTALL.version()))
        self.assertEqual(self.files(self.prefix), [])

    def test_other_words(self):
        self.assertIn("PREFIX is empty", self.wrong("", status=2))
        for sign in " \t\n\u00a0\\$\"'#:\x01\x7f\udcff":
            self.assertIn("a blank or a sign that pkg-config does not take", self.wrong(self.folder + "/a%sb" % sign, status=2))
        self.assertIn("PREFIX", self.wrong(status=2))

    @unittest.skipUnless(os.path.isfile(os.path.join(TRUE_ARCHIVE, "libpradulins.a")) and INSTALL.x86.compiler() and shutil.which("pkg-config"),
                         "target/staticlib/libpradulins.a (`tools/build pradulins` makes it), a C compiler for x86-64 or pkg-config is missing")
    def test_a_program(self):
        status, out, err = self.call(self.prefix, "--archive", TRUE_ARCHIVE)
        self.assertEqual((status, err), (0, ""))
        self.write(os.path.join(self.folder, "prog.c"), PROGRAM.encode())
        line = out.split("\n")[-2].strip()
        self.assertEqual(subprocess.run(line, shell=True, cwd=self.folder).returncode, 0, line)
        done = subprocess.run(INSTALL.x86.running(os.path.join(self.folder, "prog")), stdout=subprocess.PIPE)
        self.assertEqual((done.returncode, done.stdout), (0, b"0 0 2 1a00\n"))


if __name__ == "__main__":
    unittest.main()
