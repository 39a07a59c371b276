"""What tests of the tools share: a folder for each, with files and scripts in it."""

import os
import sys
import tempfile
import unittest


class Case(unittest.TestCase):
    def setUp(self):
        kept = tempfile.TemporaryDirectory()
        self.addCleanup(kept.cleanup)
        self.folder = kept.name

    def file(self, name, text):
        path = os.path.join(self.folder, name)
        with open(path, "wb") as file:
            file.write(text if isinstance(text, bytes) else text.encode())
        return path

    def program(self, name, text, by=sys.executable):
        path = self.file(name, "#!%s\n%s" % (by, text))
        os.chmod(path, 0o755)
        return path
