"""The recipes that are no editor's: each is run as it stands."""

import json
import os
import re
import unittest

from jref_glue import program

from support import EDITORS, HERE, NAMES, InProject, call, environment, needs

RECIPES = EDITORS / "recipes"


class Recipe(InProject):
    def setUp(self):
        super().setUp()
        tools = self.folder / "tools"
        tools.mkdir()
        os.symlink(program.find(), tools / "jref")
        os.symlink(EDITORS / "jref-at", tools / "jref-at")
        names = {
            f"GIT_{who}_{what}": "test"
            for who in ("AUTHOR", "COMMITTER")
            for what in ("NAME", "EMAIL")
        }
        path = f"{tools}:{os.environ['PATH']}"
        self.words = environment(PATH=path, HOME=str(self.folder), GIT_CONFIG_NOSYSTEM="1", **names)

    def run_it(self, *words, status=0):
        """What a command prints, with its status as expected."""
        done = call([str(word) for word in words], self.bank, env=self.words)
        self.errors = done.stderr.decode()
        self.assertEqual(status, done.returncode, self.errors)
        return done.stdout.decode()

    def commit(self):
        self.run_it("git", "init", "--quiet")
        self.run_it("git", "add", "-A")
        self.run_it("git", "commit", "--quiet", "-m", "as it was")


@needs("git")
class CleanUp(Recipe):
    def clean_up(self, *lines, status=0):
        (self.folder / "list").write_text("".join(f"{line}\n" for line in lines))
        return self.run_it(RECIPES / "clean-up", "../list", *NAMES, status=status)

    def test_all(self):
        self.commit()
        told = self.clean_up(
            "5 note write Log.java", "2 sign mark Bank.java", "1 Bank House Bank.java"
        )
        self.assertIn("5 files changed", told)
        renamed = (HERE / "renamed" / "Bank.java").read_text()
        bank = renamed.replace("class Bank", "class House").replace("String sign", "String mark")
        self.assertEqual(bank, (self.bank / "Bank.java").read_text())
        self.put("Bank.java", renamed)
        self.assert_files("project", "renamed")

    def test_each_of_its_renames(self):
        self.commit()
        self.clean_up("9 log journal Bank.java", "9 open shut Bank.java")
        line = "        /* 🏦🏦 */ account.journal.note(0); account.journal.shut = false;\n"
        self.assertIn(line, (self.bank / "Bank.java").read_text())
        self.assertIn("        this.journal = log;\n", (self.bank / "Account.java").read_text())

    def test_or_none(self):
        self.commit()
        for wrong in ["2 last open Log.java", "2 las it Log.java", "99 last it Log.java"]:
            self.clean_up("5 note write Log.java", wrong, status=1)
            self.assertIn("so all files are as before", self.errors)
            self.assert_files("project")

    def test_not_over_changes(self):
        self.commit()
        self.put("Log.java", "class Log { }\n")
        self.clean_up("1 Log Journal Log.java", status=2)
        self.assertEqual("class Log { }\n", (self.bank / "Log.java").read_text())


@needs("git")
class Review(Recipe):
    def review(self, status):
        self.run_it("git", "commit", "--quiet", "-a", "-m", "note becomes write")
        told = self.run_it(
            RECIPES / "review-rename", "HEAD", "Log.java:5:23", "write", status=status
        )
        self.assertEqual(1, len(self.run_it("git", "worktree", "list").splitlines()))
        return told

    def test_a_rename(self):
        self.commit()
        for path in (HERE / "renamed").iterdir():
            self.put(path.name, path.read_bytes())
        self.assertEqual("the commit is this rename and nothing else\n", self.review(0))

    def test_a_rename_and_more(self):
        self.commit()
        for path in (HERE / "renamed").iterdir():
            self.put(path.name, path.read_bytes().replace(b"amount > 100", b"amount > 99"))
        told = self.review(1)
        changed = [line for line in told.splitlines() if re.match(r"[-+] ", line)]
        self.assertEqual(
            ["-            if (amount > 100) {", "+            if (amount > 99) {"], changed
        )


class VsCode(Recipe):
    def test_the_pattern_takes_what_check_prints(self):
        self.put(
            "Wrong.java",
            'class Wrong {\n\tString s = 1; // a:1:2: b\n\tint t = "Log.java:3:4: c";\n}\n',
        )
        (task,) = json.loads((RECIPES / "vscode" / "tasks.json").read_text())["tasks"]
        matcher = task["problemMatcher"]["pattern"]
        pattern = re.compile(matcher["regexp"])
        told = self.run_it("jref-at", "check", "Wrong.java", status=1)
        found = [match for match in map(pattern.match, told.splitlines()) if match]
        self.assertEqual(
            [("Wrong.java", "2", "13"), ("Wrong.java", "3", "10")],
            [tuple(match[matcher[part]] for part in ("file", "line", "column")) for match in found],
        )
        self.assertEqual("the type isn't the one that is asked for", found[0][matcher["message"]])

    @needs("git")
    def test_the_command(self):
        self.commit()
        (task,) = json.loads((RECIPES / "vscode" / "tasks.json").read_text())["tasks"]
        self.assertEqual("", self.run_it("sh", "-c", task["command"]))


@needs("jq")
class Reports(Recipe):
    def test_what_the_page_says(self):
        blocks = re.findall(r"```(\w+)\n(.*?)```", (RECIPES / "jq.md").read_text(), re.DOTALL)
        self.put("steps.json", blocks.pop(0)[1])
        count = 0
        while blocks:
            kind, command = blocks.pop(0)
            self.assertEqual("sh", kind)
            status = 1 if "jref run" in command else 0  # a step is refused
            told = self.run_it("sh", "-c", command, status=status)
            if blocks and blocks[0][0] == "text":
                self.assertEqual(blocks.pop(0)[1], told)
                count += 1
        self.assertEqual(4, count)


if __name__ == "__main__":
    unittest.main()
