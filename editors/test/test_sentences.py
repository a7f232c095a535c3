"""Refusals as sentences. The texts are written by the formats of reports, a row for each refusal."""

import re
import unittest
from unittest import mock

from jref_glue import meaning
from jref_glue.program import TOP, Run, Source
from jref_glue.sentences import FAULTS, NEEDS, REFUSALS, of_refusal, spoken

ROWS = {
    "NoSuchFile Q.java": (None, None, "Q.java is no file of the program"),
    "BadPlace 2.java:999": (2, 999, "the place is past the end, or inside a character"),
    "BadName a 1.java:2 b": (None, None, "`a 1.java:2 b` can't be a name"),
    "SourceError 0.java:8 OpenComment": (0, 8, "this comment has no end"),
    "SourceError 1.java:23 NoVariable": (1, 23, "no variable of this name is found"),
    "BadTarget 0.java:7 Value": (
        0,
        7,
        "no expression whose value a local can take has exactly this span",
    ),
    "PreludeMethod Thread.run()": (None, None, "Thread.run() is a method that every program has"),
    "Conditional 0.java:5": (0, 5, "the code would run only where this condition says so"),
    "HasReturn 0.java:5": (0, 5, "this `return` stands in the way"),
    "TwoResults A.m()#0 A.m()#2": (
        None,
        None,
        "both local or parameter #0 of A.m() and local or parameter #2 of A.m() are used"
        " afterwards",
    ),
    "ManyTargets 0.java:5 A.m(int,B)": (0, 5, "the call may run another method than A.m(int,B)"),
    "MayBeNull 0.java:5": (0, 5, "this may be null"),
    "Recursive 0.java:5": (0, 5, "the method calls itself here"),
    "Assigned A.m()#0 0.java:5": (0, 5, "local or parameter #0 of A.m() is assigned here"),
    "Clash A.m()#1": (None, None, "the name is taken: local or parameter #1 of A.m() has it there"),
    "OverrideChanged B A.m()": (
        None,
        None,
        "of an object of B another method than before would run where A.m() is called",
    ),
    "LostBinding 0.java:5 A.x found A.m()#0 and B.y": (
        0,
        5,
        "this means A.x, and nothing that can be written here still would: it would mean"
        " local or parameter #0 of A.m() and B.y",
    ),
    "WouldNotCompile 1.java:5 Deep": (
        1,
        None,
        "at byte 5 of the new text something would be wrong: brackets, one statement or"
        " a chain of `else` go on too long here",
    ),
    "LostDependence Field 0.java:5 Load A.f before 0.java:9 Store A.f": (
        0,
        5,
        "this (Load A.f) would no longer come before what it has to come before (Store A.f)",
    ),
    "TooLong 1048577": (None, None, "the new text would have 1048577 bytes, which are too many"),
    "ReportFull 8388609": (
        None,
        None,
        "what is asked for comes to 8388609 bytes, which are too many",
    ),
    "TooManySites A.m() 1001": (None, None, "A.m() has 1001 places to look at, which are too many"),
    "Unheard 0.java:5 of": (None, None, "Unheard 0.java:5 of"),
    "BadTarget of another form": (None, None, "BadTarget of another form"),
}


class Sentences(unittest.TestCase):
    maxDiff = None

    def test_each_refusal(self):
        for text, wanted in ROWS.items():
            self.assertEqual(wanted, tuple(of_refusal(text))[:3], text)
        self.assertEqual(set(REFUSALS), {text.split(" ")[0] for text in ROWS} - {"Unheard"})

    def test_no_name_of_the_documents_is_missing(self):
        page = (TOP / "docs" / "REPORTS.md").read_text()
        faults, refusals = page[page.index("## The rules") :].split("## Refusals")
        told = re.findall(r"^\| (?:\d+ \| )?`(\w+)` \|", faults, re.MULTILINE)
        self.assertGreater(len(told), 35)
        self.assertEqual(set(), set(told) - set(FAULTS))
        told = re.findall(r"^\| \d+ \| `(\w+)", refusals, re.MULTILINE)
        self.assertGreater(len(told), 14)
        edits_alone = {"BadSpan", "NothingToUndo", "NothingToRedo"}
        self.assertEqual(set(), set(told) - set(REFUSALS) - edits_alone)
        self.assertIn("Declaration", NEEDS)

    def test_locals(self):
        self.assertEqual("A.f", spoken("A.f"))
        self.assertEqual("local or parameter #12 of A.new(B)", spoken("A.new(B)#12"))


class LongReports(unittest.TestCase):
    """What is shown goes into as many reports as it needs."""

    FULL = {"number": 23, "refusal": "ReportFull 8388700", "reply": "refused"}

    def problems(self, *reports):
        runs = mock.Mock(side_effect=[Run(replies, {}) for replies in reports])
        with mock.patch("jref_glue.meaning.run", runs):
            found = meaning.problems([Source("A.java", b"x"), Source("B.java", b"y")])
        return found, [[step["file"] for step in call.args[1]] for call in runs.call_args_list]

    def test_a_second_one(self):
        first = {"lines": ["0 error NoType"], "reply": "shown"}
        second = {"lines": ["0 error NoType", "0 error Private"], "reply": "shown"}
        found, asked = self.problems([first, self.FULL], [second])
        self.assertEqual([(0, "NoType"), (1, "NoType"), (1, "Private")], [it[::3] for it in found])
        self.assertEqual([["0.java", "1.java"], ["1.java"]], asked)

    def test_one_file_that_is_too_much_by_itself(self):
        found, _ = self.problems([self.FULL, self.FULL])
        self.assertEqual(["ReportFull"], [it.code for it in found])


if __name__ == "__main__":
    unittest.main()
