"""What the tests share: a copy of the small project, and calls of the commands."""

import os
import shutil
import subprocess
import tempfile
import unittest
from pathlib import Path

HERE = Path(__file__).resolve().parent
EDITORS = HERE.parent
NAMES = ["Account.java", "Bank.java", "Log.java", "Savings.java", "Teller.java"]


def needs(program: str):
    """Skips a test where a program is missing."""
    return unittest.skipUnless(shutil.which(program), f"there is no {program} on this machine")


def call(words, folder, **more):
    """Runs a command to its end."""
    return subprocess.run(words, cwd=folder, capture_output=True, timeout=120, **more)


class InProject(unittest.TestCase):
    """A test in a folder of its own, which has the project's files in `bank`."""

    maxDiff = None

    def setUp(self):
        self.folder = Path(tempfile.mkdtemp(prefix="jref-test-"))
        self.addCleanup(shutil.rmtree, self.folder)
        self.bank = self.folder / "bank"
        shutil.copytree(HERE / "project", self.bank)

    def at(self, *words, status=0, **more):
        """What `jref-at` prints, in the project, with its status as expected."""
        done = call([str(EDITORS / "jref-at"), *words], self.bank, **more)
        self.assertEqual(status, done.returncode, done.stderr)
        self.errors = done.stderr.decode("utf-8", "surrogateescape")
        return done.stdout.decode()

    def put(self, name, text):
        """Writes a file of the project."""
        path = self.bank / name
        path.write_bytes(text if isinstance(text, bytes) else text.encode())
        return path

    def assert_files(self, *expected):
        """The project's files are those of the folders, of which later ones come first."""
        for name in NAMES:
            wanted = [
                HERE / folder / name for folder in expected if (HERE / folder / name).exists()
            ]
            self.assertEqual(wanted[-1].read_bytes(), (self.bank / name).read_bytes(), name)
        left = [path.name for path in self.bank.iterdir() if path.name.startswith(".jref-")]
        self.assertEqual([], left)


def environment(**more):
    """The environment, with words added."""
    return {**os.environ, **more}
