"""Emacs in batch mode, with eglot and the recipe, on the small project."""

import shutil
import subprocess
import unittest

from support import EDITORS, HERE, NAMES, InProject, call, environment


def has_eglot():
    """Whether Emacs is there, and has eglot."""
    words = [
        "emacs",
        "--batch",
        "-q",
        "--eval",
        "(package-initialize)",
        "--eval",
        "(require 'eglot)",
    ]
    return (
        shutil.which("emacs") is not None
        and subprocess.run(words, capture_output=True).returncode == 0
    )


@unittest.skipUnless(has_eglot(), "there is no emacs with eglot on this machine")
class Emacs(InProject):
    def drive(self, *forms):
        """Has Emacs evaluate forms, with the recipe loaded."""
        path = self.folder / "script.el"
        path.write_text(";; -*- lexical-binding: t -*-\n" + "\n".join(forms))
        files = [HERE / "drive.el", EDITORS / "recipes" / "jref-eglot.el", path]
        words = ["emacs", "--batch", "-q", *(word for file in files for word in ("-l", str(file)))]
        done = call(
            words,
            self.folder,
            env=environment(JREF_TEST_FOLDER=str(self.bank), HOME=str(self.folder)),
        )
        told = done.stderr.decode()
        self.assertEqual(0, done.returncode, told)
        return told

    def test_a_rename_over_five_files_and_its_undo(self):
        self.drive(
            '(drive-edit "Log.java")',
            '(search-forward "void note")',
            "(backward-char 2)",
            '(eglot-rename "write")',
            "(drive-undo)",
            "(drive-idle)",
            '(eglot-rename "write")',
            "(drive-save)",
        )
        self.assert_files("project", "renamed")
        for name in NAMES:
            undone = (self.folder / "undone" / name).read_bytes()
            self.assertEqual((HERE / "project" / name).read_bytes(), undone, name)

    def test_a_captured_name_in_a_changed_buffer(self):
        self.drive(
            '(drive-edit "Account.java")',
            '(insert "// 🏦\\n")',
            "(drive-idle)",
            '(search-forward "balance = balance")',
            '(eglot-rename "amount")',
            "(goto-char (point-min))",
            "(delete-region (point) (line-beginning-position 2))",
            "(drive-save)",
        )
        self.assert_files("project", "captured")

    def test_behind_characters_beyond_16_bits(self):
        self.drive(
            '(drive-edit "Bank.java")',
            '(search-forward ".log.open")',
            '(eglot-rename "shut")',
            "(drive-save)",
        )
        line = "        /* 🏦🏦 */ account.log.note(0); account.log.shut = false;\n"
        self.assertIn(line, (self.bank / "Bank.java").read_text())
        self.assertIn("volatile boolean shut = true;", (self.bank / "Log.java").read_text())

    def test_in_lines_of_dos_with_tabs(self):
        self.drive(
            '(drive-edit "Teller.java")',
            '(search-forward "done < rounds")',
            '(search-backward "done")',
            '(eglot-rename "count")',
            "(drive-save)",
        )
        wanted = (HERE / "project" / "Teller.java").read_bytes().replace(b"done", b"count")
        self.assertEqual(wanted, (self.bank / "Teller.java").read_bytes())

    def test_where_things_are(self):
        self.drive(
            '(drive-edit "Teller.java")',
            '(search-forward "account.add")',
            "(backward-char 1)",
            "(defun drive-xref (it)",
            "  (let ((place (xref-item-location it)))",
            '    (format "%s:%s" (file-name-nondirectory (xref-location-group place))',
            "            (xref-location-line place))))",
            '(drive-put "declared" (mapcar #\'drive-xref (xref-backend-definitions \'eglot "")))',
            '(drive-put "used" (mapcar #\'drive-xref (xref-backend-references \'eglot "")))',
        )
        self.assertEqual("(Account.java:9)", (self.bank / "declared").read_text())
        self.assertIn("Teller.java:13", (self.bank / "used").read_text())

    def test_a_refusal_is_told_and_changes_nothing(self):
        self.drive(
            '(drive-edit "Log.java")',
            '(search-forward "int last")',
            "(backward-char 1)",
            '(condition-case refusal (eglot-rename "open") (error (drive-put "told" refusal)))',
            "(drive-save)",
        )
        self.assertIn("the name is taken: Log.open has it there", (self.bank / "told").read_text())
        self.assert_files("project")

    def test_a_file_outside_the_language(self):
        self.put("Util.java", "import java.util.List;\n")
        self.drive(
            '(drive-edit "Log.java")',
            '(drive-wait "diagnostics" (lambda () (flymake-diagnostics)))',
            '(drive-put "told" (flymake-diagnostic-text (car (flymake-diagnostics))))',
        )
        self.assertIn("Util.java:1:1: this isn't in the subset", (self.bank / "told").read_text())

    def test_the_setting(self):
        self.put("Util.java", "import java.util.List;\n")
        self.drive(
            "(setq-default eglot-workspace-configuration",
            '              \'(:jref (:files ["[ABLST]*.java"])))',
            '(drive-edit "Log.java")',
            '(search-forward "void note")',
            "(backward-char 2)",
            '(eglot-rename "write")',
            "(drive-save)",
        )
        self.assert_files("project", "renamed")


if __name__ == "__main__":
    unittest.main()
