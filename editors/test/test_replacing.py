"""Files are replaced, all or none."""

import os
import unittest
from unittest import mock

from jref_glue.program import Stopped
from jref_glue.replacing import Change, replace_all

from support import InProject


class Replacing(InProject):
    def changes(self, *names):
        found = [(self.bank / name).read_bytes() for name in names]
        return [Change(str(self.bank / name), old, b"new") for name, old in zip(names, found)]

    def assert_refused(self, changes, word):
        with self.assertRaises(Stopped) as caught:
            replace_all(changes)
        self.assertEqual(4, caught.exception.status)
        self.assertIn(word, caught.exception.sentence)
        self.assert_files("project")

    def test_modes_stay(self):
        os.chmod(self.bank / "Log.java", 0o640)
        replace_all(self.changes("Log.java"))
        self.assertEqual(b"new", (self.bank / "Log.java").read_bytes())
        self.assertEqual(0o640, (self.bank / "Log.java").stat().st_mode & 0o777)

    def test_links_are_followed(self):
        (self.folder / "real").mkdir()
        os.rename(self.bank / "Log.java", self.folder / "real" / "It.java")
        os.symlink("../real/It.java", self.bank / "Log.java")
        replace_all(self.changes("Log.java"))
        self.assertTrue((self.bank / "Log.java").is_symlink())
        self.assertEqual(b"new", (self.folder / "real" / "It.java").read_bytes())

    def test_hard_links_are_refused(self):
        os.link(self.bank / "Log.java", self.folder / "other")
        self.assert_refused(self.changes("Account.java", "Log.java"), "hard links")

    def test_other_texts_are_refused(self):
        changes = self.changes("Account.java", "Log.java")
        changes[1].old += b"."
        self.assert_refused(changes, "as it was read")

    def test_a_missing_file(self):
        changes = self.changes("Account.java")
        self.assert_refused([*changes, Change("nothing", b"", b"")], "No such file")

    def test_what_is_done_is_put_back(self):
        changes = self.changes("Account.java", "Bank.java", "Log.java")
        before = os.stat(self.bank / "Account.java")
        replace, calls = os.replace, []

        def third_fails(old, new):
            calls.append(new)
            if len(calls) == 3:
                raise OSError(28, "No space left on device")
            replace(old, new)

        with mock.patch("os.replace", third_fails):
            self.assert_refused(changes, "No space left on device; all files are as before")
        self.assertEqual(5, len(calls))
        self.assertEqual(before.st_mtime_ns, os.stat(self.bank / "Account.java").st_mtime_ns)

    def test_what_cannot_be_put_back_is_told(self):
        changes = self.changes("Account.java", "Bank.java", "Log.java")
        replace, calls = os.replace, []

        def fails_twice(old, new):
            calls.append(old)
            if len(calls) in (3, 4):
                raise OSError(5, "Input/output error")
            replace(old, new)

        with mock.patch("os.replace", fails_twice), self.assertRaises(Stopped) as caught:
            replace_all(changes)
        self.assertIn("Bank.java has its new text", caught.exception.sentence)
        kept = caught.exception.sentence.rsplit(" ", 1)[1]
        with open(kept, "rb") as file:
            self.assertEqual(changes[1].old, file.read())
        os.unlink(kept)
        self.assertEqual(b"new", (self.bank / "Bank.java").read_bytes())
        self.put("Bank.java", changes[1].old)
        self.assert_files("project")


if __name__ == "__main__":
    unittest.main()
