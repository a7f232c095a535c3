"""What changed between two texts."""

import time
import unittest
from unittest import mock

from jref_glue import edits, protocol
from jref_glue.edits import Edit

from support import InProject, call, needs


class Edits(unittest.TestCase):
    def assert_edits(self, expected, old, new):
        self.assertEqual(expected, edits.between(old, new))
        self.assertEqual(new, edits.applied(old, expected))

    def test_whole_words(self):
        self.assert_edits([Edit(4, 8, b"sum")], b"int some = 1;\n", b"int sum = 1;\n")

    def test_other_spellings(self):
        self.assert_edits(
            [Edit(0, 0, b"this."), Edit(4, 4, b"this.")], b"b = b + a;", b"this.b = this.b + a;"
        )

    def test_line_ends_stay(self):
        self.assert_edits([Edit(3, 4, b"c")], b"a\r\nb\r\n", b"a\r\nc\r\n")

    def test_lines_come_and_go(self):
        old, new = b"a\nb\nc\nd\n", b"a\nx\ny\nc\nd\n"
        self.assertEqual(new, edits.applied(old, edits.between(old, new)))
        self.assertEqual(old, edits.applied(new, edits.between(new, old)))

    def test_nothing(self):
        self.assert_edits([], b"", b"")
        self.assert_edits([Edit(0, 0, b"a")], b"", b"a")

    def test_a_megabyte(self):
        lines = [b"  int some%d = some%d + 1;\n" % (at, at - 1) for at in range(30_000)]
        for old in (b"".join(lines), b"".join(lines).replace(b"\n", b" ")):
            new = old.replace(b"some7", b"other7")
            started = time.monotonic()
            self.assertEqual(new, edits.applied(old, edits.between(old, new)))
            self.assertLess(time.monotonic() - started, 30)


class ForEditors(unittest.TestCase):
    def test_positions(self):
        place = {"start": {"line": 1, "character": 9}, "end": {"line": 1, "character": 12}}
        self.assertEqual(
            [{"range": place, "newText": "größer"}],
            protocol.text_edits(
                "//\r\n/*🏦*/ ö+old\r\n".encode(), "//\r\n/*🏦*/ ö+größer\r\n".encode()
            ),
        )

    def test_edits_that_are_wrong_are_not_handed_out(self):
        wrong = mock.Mock(return_value=[Edit(0, 1, b"c")])
        with mock.patch("jref_glue.edits.between", wrong), self.assertRaises(AssertionError):
            protocol.text_edits(b"a", b"b")


class Diffs(InProject):
    @needs("git")
    def test_git_applies_them(self):
        names = {
            "plain": (b"a\nb\n", b"a\nc\n"),
            "two words": (b"a\n", b"b\n"),
            'quo"ted\tname': (b"a\n", b"b\n"),
            "no end": (b"a\nb", b"a\nc"),
            "gets end": (b"a", b"a\n"),
            "dos": (b"a\r\nb\r\nc\r\n", b"a\r\nx\r\nc\r\n"),
            "far": (b"a\n" + b"=\n" * 20 + b"b\n", b"c\n" + b"=\n" * 20 + b"d\n"),
            "größe": (b"a\n", b"b\n"),
            "filled": (b"", b"a\n"),
            "emptied": (b"a\n", b""),
        }
        diff = b"".join(edits.unified(name, *texts) for name, texts in names.items())
        for name, (old, _) in names.items():
            self.put(name, old)
        done = call(["git", "apply"], self.bank, input=diff)
        self.assertEqual((0, b""), (done.returncode, done.stderr))
        for name, (_, new) in names.items():
            self.assertEqual(new, (self.bank / name).read_bytes(), name)


if __name__ == "__main__":
    unittest.main()
