"""A row of the table comes alive where jref has its step: with something that stands for such a jref."""

import unittest

from jref_glue import program
from jref_glue.protocol import uri_of

from client import Client
from support import HERE, NAMES, InProject, environment

SPAN = "Account.java:11:23-11:39"
EXTRACTED = """\
            int {0} = balance + amount;
            balance = {0};
"""


class Rows(InProject):
    def setUp(self):
        super().setUp()
        self.words = {"JREF": str(HERE / "stand_in"), "REAL_JREF": program.find()}

    def wanted(self, name):
        old = (HERE / "project" / "Account.java").read_text()
        return old.replace("            balance = balance + amount;\n", EXTRACTED.format(name))

    def test_the_command(self):
        told = self.at("--help", env=environment(**self.words))
        self.assertRegex(told, r"\n    extract-local\s+extract a local\n")
        self.assertNotIn("inline", told)
        words = ["extract-local", "--write", SPAN, "sum", *NAMES]
        self.assertEqual("Account.java\n", self.at(*words, env=environment(**self.words)))
        self.assertEqual(self.wanted("sum"), (self.bank / "Account.java").read_text())

    def test_a_refusal(self):
        words = ["extract-local", "Account.java:11:23-11:30", "sum"]
        self.at(*words, env=environment(**self.words), status=1)
        self.assertIn(
            "Account.java:11:23: no expression whose value a local can take has exactly this span\n",
            self.errors,
        )
        self.at(
            "extract-local", "Account.java:11:23", "sum", env=environment(**self.words), status=2
        )
        self.assertIn("isn't FILE:LINE:COL-LINE:COL", self.errors)

    def test_the_action(self):
        client = Client(self.bank, env=self.words)
        self.addCleanup(client.close)
        self.assertEqual(
            {"codeActionKinds": ["refactor.extract"]},
            client.started["capabilities"]["codeActionProvider"],
        )
        self.put("Log.java", (self.bank / "Log.java").read_text() + "// extracted1\n")
        self.assertEqual([], self.actions(client, 28))
        self.assertEqual([], self.actions(client, 38, only=["refactor.inline"]))
        (action,) = self.actions(client, 38, only=["refactor"])
        self.assertEqual(("extract a local", "refactor.extract"), (action["title"], action["kind"]))
        (change,) = action["edit"]["documentChanges"]
        self.assertEqual(uri_of(str(self.bank / "Account.java")), change["textDocument"]["uri"])
        lines = (self.bank / "Account.java").read_text().splitlines(keepends=True)
        (edit,) = change["edits"]
        start, end = edit["range"]["start"], edit["range"]["end"]
        self.assertEqual((0, 0), (start["character"], end["character"]))
        lines[start["line"] : end["line"]] = [edit["newText"]]
        self.assertEqual(self.wanted("extracted2"), "".join(lines))

    def actions(self, client, end, only=None):
        span = {"start": {"line": 10, "character": 22}, "end": {"line": 10, "character": end}}
        context = {"diagnostics": [], **({"only": only} if only else {})}
        document = {"uri": uri_of(str(self.bank / "Account.java"))}
        params = {"textDocument": document, "range": span, "context": context}
        return client.ask("textDocument/codeAction", params)


if __name__ == "__main__":
    unittest.main()
