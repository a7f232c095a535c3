"""`jref-at` over the small project and over files that are hard to name or to count in."""

import json
import os
import unittest

from support import EDITORS, HERE, NAMES, InProject, call, environment, needs

NOTE = "Log.java:5:23"
BALANCE = "Account.java:3:17"
NOTE_DIFF = """\
--- a/Log.java
+++ b/Log.java
@@ -2,7 +2,7 @@
     private int last = 0;
     volatile boolean open = true;
 
-    synchronized void note(int amount) {
+    synchronized void write(int amount) {
         last = amount;
     }
 
"""


class Renames(InProject):
    @needs("git")
    def test_a_diff(self):
        others = [name for name in NAMES if name != "Log.java"]
        found = self.at("rename", NOTE, "write", *others)
        self.assertTrue(found.startswith(NOTE_DIFF), found)
        done = call(["git", "apply", "-"], self.bank, input=found.encode())
        self.assertEqual(0, done.returncode, done.stderr)
        self.assert_files("project", "renamed")

    def test_files_are_replaced(self):
        told = self.at("rename", "--write", NOTE, "write", *NAMES)
        self.assertEqual(sorted(NAMES), sorted(told.split()))
        self.assert_files("project", "renamed")

    def test_a_captured_name_is_spelled_otherwise(self):
        self.assertEqual("Account.java\n", self.at("rename", "--write", BALANCE, "amount", *NAMES))
        self.assert_files("project", "captured")

    def test_a_workspace_edit(self):
        edit = json.loads(self.at("rename", "--json", "Bank.java:2:19", "emblem", *NAMES))
        bank = self.bank.resolve() / "Bank.java"
        place = {"start": {"line": 1, "character": 18}, "end": {"line": 1, "character": 22}}
        self.assertEqual(
            {"changes": {f"file://{bank}": [{"range": place, "newText": "emblem"}]}}, edit
        )
        self.assert_files("project")

    def test_columns_are_characters(self):
        found = self.at("rename", "Bank.java:9:51", "shut", *NAMES)
        self.assertIn("account.log.note(0); account.log.shut = false;\n", found)
        self.assertIn("+    volatile boolean shut = true;\n", found)

    def test_units_of_the_protocol(self):
        edit = json.loads(self.at("rename", "--json", "Bank.java:9:51", "shut", *NAMES))
        bank = edit["changes"][f"file://{self.bank.resolve()}/Bank.java"]
        place = {"start": {"line": 8, "character": 52}, "end": {"line": 8, "character": 56}}
        self.assertEqual([{"range": place, "newText": "shut"}], bank)

    def test_tabs_and_lines_of_dos(self):
        found = self.at("rename", "Teller.java:12:10", "count", *NAMES)
        self.assertIn("-\t\twhile (done < rounds) {\r\n", found)
        self.assertIn("+\t\twhile (count < rounds) {\r\n", found)

    def test_names_that_are_hard(self):
        (self.bank / "in side").mkdir()
        for name in ["-A.java", "in side/a b.java", "größe.java", "q'\".java", "--out"]:
            self.put(name, "class Solo { int one; }\n")
            told = self.at("rename", "--write", "--", f"{name}:1:18", "two")
            self.assertEqual(f"{name}\n", told)
            self.assertEqual("class Solo { int two; }\n", (self.bank / name).read_text())
        far = os.path.join("..", self.bank.name, "..", self.bank.name, "größe.java")
        self.assertEqual(f"{far}\n", self.at("rename", "--write", f"{far}:1:18", "three"))

    def test_a_file_named_twice_is_one(self):
        os.symlink("Log.java", self.bank / "Link.java")
        told = self.at("rename", "--write", NOTE, "write", "./Log.java", "Link.java", *NAMES)
        self.assertEqual(sorted(NAMES), sorted(told.split()))

    def test_hard_links_keep_all_files(self):
        os.link(self.bank / "Teller.java", self.folder / "other")
        self.at("rename", "--write", NOTE, "write", *NAMES, status=4)
        self.assertEqual(
            "jref-at: Teller.java: can't be written: it has several hard links\n", self.errors
        )
        self.assert_files("project")


class Refusals(InProject):
    def refused(self, *words):
        self.assertEqual("", self.at("rename", *words, *NAMES, status=1))
        self.assert_files("project")
        return self.errors

    def test_a_name_that_is_taken(self):
        self.assertEqual(
            "Log.java:2:17: the name is taken: Log.open has it there\n"
            "        private int last = 0;\n"
            "                    ^\n",
            self.refused("Log.java:2:17", "open"),
        )

    def test_a_method_that_every_program_has(self):
        self.assertIn(
            "Teller.java:10:14: Thread.run() is a method that every program has\n",
            self.refused("Teller.java:10:14", "work"),
        )

    def test_nothing_to_rename(self):
        self.assertIn(
            "Log.java:1:1: nothing of the program is declared or named here\n    class Log {\n    ^\n",
            self.refused("Log.java:1:1", "it"),
        )

    def test_no_name(self):
        self.assertIn("`a b` can't be a name", self.refused(NOTE, "a b"))
        self.assertIn("can't be a name", self.refused(NOTE, b"\xff"))

    def test_no_such_place(self):
        self.assertEqual(
            "Log.java: there is no line 99, the last one is 13\n",
            self.refused("Log.java:99:1", "it"),
        )
        self.assertIn("line 1 has no column 99", self.refused("Log.java:1:99", "it"))

    def test_a_file_outside_the_language(self):
        self.put("Util.java", "import java.util.List;\nclass Util { }\n")
        self.at("rename", NOTE, "write", *NAMES, "Util.java", status=1)
        self.assertIn(
            "Util.java:1:1: this isn't in the subset of Java that jref reads, from here on\n",
            self.errors,
        )

    def test_another_method_would_run(self):
        self.put(
            "Over.java", "class Over { void m() { } }\nclass Under extends Over { void n() { } }\n"
        )
        self.at("rename", "Over.java:2:33", "m", status=1)
        self.assertIn(
            "of an object of Under another method than before would run where Over.m() is called",
            self.errors,
        )


class Statuses(InProject):
    def test_words_that_mean_nothing(self):
        self.at(status=2)
        self.at("rename", "Log.java", "write", status=2)
        self.assertEqual("jref-at: Log.java isn't FILE:LINE:COL\n", self.errors)
        self.at("rename", "--write", "--json", NOTE, "write", status=2)
        self.at("generate", status=2)
        self.at("extract-local", "Log.java:1:1-1:2", "it", status=2)

    def test_files_that_cannot_be_read(self):
        self.at("rename", NOTE, "write", "Nothing.java", status=3)
        self.assertIn("jref-at: Nothing.java: can't be read: ", self.errors)
        self.at("check", ".", status=3)

    def test_output_that_cannot_be_written(self):
        words = f"{EDITORS}/jref-at rename {NOTE} write {' '.join(NAMES)} >/dev/full"
        done = call(["sh", "-c", words], self.bank)
        self.assertEqual(
            (4, b"jref-at: can't write: No space left on device\n"), (done.returncode, done.stderr)
        )

    def test_sources_that_are_none(self):
        self.put("Bytes.java", b"class Bytes { } // \xff")
        self.at("check", "Bytes.java", status=6)
        self.assertIn("Bytes.java: the file isn't UTF-8 at its byte 19", self.errors)
        self.put("Large.java", b" " * 1_048_577)
        self.at("check", "Large.java", status=6)
        self.assertIn("Large.java: the file has more than 1,048,576 bytes", self.errors)

    def test_more_files_than_a_program_may_have(self):
        names = [f"C{at}.java" for at in range(257)]
        for name in names:
            self.put(name, "")
        self.assertEqual("", self.at("check", *names[:256]))
        self.at("check", *names, status=6)
        self.assertIn("there are 257 files, more than the 256", self.errors)

    def test_no_program(self):
        for program, word in [("/nothing", "can't be run"), ("/bin/false", "report can't be read")]:
            done = call(
                [str(EDITORS / "jref-at"), "check", "Log.java"],
                self.bank,
                env=environment(JREF=program),
            )
            self.assertEqual(8, done.returncode)
            self.assertIn(word, done.stderr.decode())

    def test_help_and_version(self):
        self.assertEqual("jref-at 1\n", self.at("--version"))
        self.assertIn("\n    rename ", self.at("--help"))
        self.assertNotIn("extract", self.at("--help"))
        self.assertIn("may leave some files replaced", self.at("rename", "--help"))
        done = call([str(EDITORS / "jref-at"), "--help"], self.bank, env=environment(JREF="/no"))
        self.assertEqual(0, done.returncode)


class Checks(InProject):
    def test_nothing_is_wrong(self):
        self.assertEqual("", self.at("check", *NAMES))

    def test_broken_rules(self):
        self.put("Wrong.java", "class Wrong {\n\tint m() {\n\t\tint 語 = true; return x;\n\t}\n}\n")
        self.assertEqual(
            "Wrong.java:3:11: the type isn't the one that is asked for\n"
            "    \t\tint 語 = true; return x;\n"
            "    \t\t         ^\n"
            "Wrong.java:3:24: no variable of this name is found\n"
            "    \t\tint 語 = true; return x;\n"
            "    \t\t                      ^\n"
            "Wrong.java:3:24: the type isn't the one that is asked for\n"
            "    \t\tint 語 = true; return x;\n"
            "    \t\t                      ^\n",
            self.at("check", "Wrong.java", status=1),
        )

    def test_each_file_that_leaves_the_language(self):
        for name in ["U1.java", "U3.java"]:
            self.put(name, "\nimport a.b;\n")
        self.put("U2.java", "class U2 extends Nothing { }\n")
        self.put("U4.java", "class U4 { int a = 'a'; }\n")
        found = self.at("check", "U1.java", "U2.java", "U3.java", "U4.java", status=1)
        self.assertEqual(
            ["U1.java:2:1", "U3.java:2:1", "U4.java:1:20"],
            [line.split(": ")[0] for line in found.splitlines() if not line.startswith(" ")],
        )

    def test_declarations(self):
        self.put("U2.java", "class U2 extends Nothing { }\n")
        self.assertIn(
            "U2.java:1:18: the superclass isn't a class of the program\n",
            self.at("check", "U2.java", status=1),
        )


class Uses(InProject):
    def places(self, *words):
        found = self.at("refs", *words)
        return [line for line in found.splitlines() if not line.startswith("    ")]

    def test_of_a_reference(self):
        self.assertEqual(
            [
                "Account.java:13:13: Log.note(int) is named here",
                "Bank.java:9:30: Log.note(int) is named here",
                "Log.java:5:23: this is declared here",
                "Savings.java:3:27: this is declared here",
                "Savings.java:5:23: Log.note(int) is named here",
                "Teller.java:16:15: Log.note(int) is named here",
            ],
            sorted(self.places("Bank.java:9:31", *NAMES)),
        )

    def test_of_a_declaration(self):
        self.assertEqual(
            [
                "Account.java:3:17: this is declared here",
                "Account.java:11:13: Account.balance is named here",
                "Account.java:11:23: Account.balance is named here",
                "Account.java:17:16: Account.balance is named here",
            ],
            self.places(BALANCE, *NAMES),
        )

    def test_of_a_class_with_a_constructor(self):
        found = self.places("Teller.java:1:7", "Bank.java", "Account.java", "Log.java")
        self.assertEqual(
            [
                "Teller.java:1:7: this is declared here",
                "Teller.java:5:2: this is declared here",
                "Bank.java:5:9: Teller is named here",
                "Bank.java:5:28: Teller is named here",
                "Bank.java:6:9: Teller is named here",
                "Bank.java:6:29: Teller is named here",
            ],
            found,
        )

    def test_of_a_local(self):
        self.assertEqual(
            "local or parameter #0 of Teller.run() is named here",
            self.places("Teller.java:12:10", *NAMES)[1].split(": ")[1],
        )

    def test_words_that_are_called_error(self):
        text = "class error { int error; int m() { int NoVariable = error; return error; } }\n"
        self.put("error.java", text)
        self.assertEqual(
            [
                "error.java:1:19: this is declared here",
                "error.java:1:53: error.error is named here",
                "error.java:1:67: error.error is named here",
            ],
            self.places("error.java:1:54"),
        )
        self.assertEqual("", self.at("check", "error.java"))
        self.put("error.java", text.replace("return error", "return errors"))
        told = self.at("check", "error.java", status=1).splitlines()[::3]
        self.assertEqual(["error.java:1:67"] * 2, [line.split(": ")[0] for line in told])

    def test_where_a_rename_is_refused(self):
        self.put("Again.java", "class Again { void m(Thread t) { t.run(); t.run(); } }\n")
        self.assertEqual(
            [
                "Again.java:1:36: Thread.run() is named here",
                "Again.java:1:45: Thread.run() is named here",
            ],
            self.places("Again.java:1:36"),
        )

    def test_nothing_there(self):
        self.at("refs", "Log.java:1:1", *NAMES, status=1)


class Project(InProject):
    """The texts that the tests expect are Java."""

    @needs("javac")
    def test_javac_takes_them(self):
        for folder in ["project", "renamed", "captured"]:
            for path in (HERE / folder).iterdir():
                self.put(path.name, path.read_bytes())
            done = call(["javac", "-encoding", "UTF-8", "-d", ".", *NAMES], self.bank)
            self.assertEqual((0, b""), (done.returncode, done.stderr), folder)
            for name in NAMES:
                self.put(name, (HERE / "project" / name).read_bytes())


if __name__ == "__main__":
    unittest.main()
