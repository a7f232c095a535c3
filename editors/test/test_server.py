"""`jref-lsp`, asked message by message."""

import os
import unittest

from jref_glue.offsets import Text
from jref_glue.protocol import path_of, uri_of

from client import Client
from support import NAMES, InProject

FAILED = -32803


def edited(text, edits):
    """The text with the edits of an answer in it."""
    found = Text(text)
    for edit in sorted(
        edits, key=lambda it: found.byte_of_position(it["range"]["start"]), reverse=True
    ):
        start, end = (found.byte_of_position(edit["range"][side]) for side in ("start", "end"))
        text = text[:start] + edit["newText"].encode() + text[end:]
    return text


class OnServer(InProject):
    def client(self, folder="bank", **more):
        found = Client(self.folder / folder if folder else None, **more)
        self.addCleanup(found.close)
        return found

    def uri(self, name):
        return uri_of(str(self.bank / name))

    def lines(self, locations):
        """Locations as `FILE:LINE:CHARACTER`, from 0, in their order."""
        return [
            "{}:{}:{}".format(
                os.path.basename(path_of(it["uri"])),
                it["range"]["start"]["line"],
                it["range"]["start"]["character"],
            )
            for it in locations
        ]


class Renames(OnServer):
    def test_over_five_files(self):
        client = self.client()
        client.open(self.bank / "Log.java", version=7)
        answer = client.at("rename", self.bank / "Log.java", 4, 22, newName="write")
        self.assertEqual(
            {self.uri(name): 7 if name == "Log.java" else None for name in NAMES},
            {
                it["textDocument"]["uri"]: it["textDocument"]["version"]
                for it in answer["documentChanges"]
            },
        )
        for change in answer["documentChanges"]:
            path = path_of(change["textDocument"]["uri"])
            with open(path, "rb") as file:
                self.put(os.path.basename(path), edited(file.read(), change["edits"]))
        self.assert_files("project", "renamed")

    def test_for_clients_without_versions(self):
        client = self.client(versions=False)
        answer = client.at("rename", self.bank / "Account.java", 2, 17, newName="amount")
        text = (self.bank / "Account.java").read_bytes()
        self.assertEqual([self.uri("Account.java")], list(answer["changes"]))
        self.put("Account.java", edited(text, answer["changes"][self.uri("Account.java")]))
        self.assert_files("project", "captured")

    def test_of_what_the_editor_has(self):
        client = self.client()
        path = self.bank / "Bank.java"
        client.open(path)
        client.change(path, 'class Bank { String it = "🏦"; int two; int m() { return two; } }', 2)
        answer = client.at("rename", path, 0, 36, newName="three")
        (change,) = answer["documentChanges"]
        self.assertEqual(2, change["textDocument"]["version"])
        self.assertEqual(
            [(35, 38), (57, 60)],
            [
                (it["range"]["start"]["character"], it["range"]["end"]["character"])
                for it in change["edits"]
            ],
        )

    def test_after_a_document_is_closed(self):
        client = self.client()
        client.open(self.bank / "Log.java", "class Log { }")
        client.tell("textDocument/didClose", {"textDocument": {"uri": self.uri("Log.java")}})
        answer = client.at("rename", self.bank / "Log.java", 1, 16, newName="latest")
        self.assertEqual(3, len(answer["documentChanges"][0]["edits"]))

    def test_refused(self):
        client = self.client()
        answer = client.at("rename", self.bank / "Log.java", 1, 16, newName="open")
        self.assertEqual(FAILED, answer["code"])
        self.assertEqual(
            f"{self.bank}/Log.java:2:17: the name is taken: Log.open has it there",
            answer["message"],
        )
        answer = client.at("rename", self.bank / "Log.java", 1, 20, newName="open")
        self.assertIn("Log.java:2:20: the name is taken", answer["message"])
        answer = client.at("rename", self.bank / "Log.java", 1, 2, newName="it")
        self.assertIn("Log.java:2:3: nothing of the program", answer["message"])
        answer = client.at("rename", self.bank / "Log.java", 1, 16, newName="\ud800")
        self.assertIn("can't be a name", answer["message"])

    def test_what_would_be_renamed(self):
        client = self.client()
        path = self.bank / "Bank.java"
        word = {"start": {"line": 8, "character": 52}, "end": {"line": 8, "character": 56}}
        for character in (52, 54, 56):
            found = client.at("prepareRename", path, 8, character)
            self.assertEqual({"range": word, "placeholder": "open"}, found)
        self.assertIsNone(client.at("prepareRename", path, 8, 8))
        self.assertIsNone(client.at("prepareRename", path, 0, 2))


class Questions(OnServer):
    def test_references(self):
        client = self.client()
        named = ["Account.java:12:12", "Bank.java:8:31", "Savings.java:4:22", "Teller.java:15:14"]
        declared = ["Log.java:4:22", "Savings.java:2:26"]
        for name, line, character in [("Bank.java", 8, 31), ("Log.java", 4, 24)]:
            for wanted in (False, True):
                found = client.at(
                    "references",
                    self.bank / name,
                    line,
                    character,
                    context={"includeDeclaration": wanted},
                )
                self.assertEqual(sorted(named + declared * wanted), self.lines(found))

    def test_definitions(self):
        client = self.client()
        found = client.at("definition", self.bank / "Teller.java", 12, 5)
        self.assertEqual(["Teller.java:1:23"], self.lines(found))
        found = client.at("definition", self.bank / "Bank.java", 4, 28)
        self.assertEqual(["Teller.java:0:6", "Teller.java:4:1"], self.lines(found))
        self.assertEqual(FAILED, client.at("definition", self.bank / "Log.java", 0, 0)["code"])

    def test_highlights(self):
        client = self.client()
        found = client.at("documentHighlight", self.bank / "Account.java", 2, 17)
        self.assertEqual(
            [(2, 16), (10, 12), (10, 22), (16, 15)],
            [(it["range"]["start"]["line"], it["range"]["start"]["character"]) for it in found],
        )
        self.assertIsNone(client.at("documentHighlight", self.bank / "Account.java", 0, 1))

    def test_no_actions_are_offered_that_jref_does_not_have(self):
        client = self.client()
        self.assertFalse(client.started["capabilities"]["codeActionProvider"])
        place = {"start": {"line": 10, "character": 22}, "end": {"line": 10, "character": 38}}
        params = {"textDocument": {"uri": self.uri("Account.java")}, "range": place, "context": {}}
        self.assertEqual([], client.ask("textDocument/codeAction", params))


class Diagnostics(OnServer):
    def test_come_and_go(self):
        client = self.client()
        path = self.bank / "Log.java"
        good = path.read_text()
        client.open(path, good.replace("last = amount;", "lost = amount;"))
        found, _ = client.wait_for_diagnostics(path)
        self.assertEqual(
            {
                "range": {
                    "start": {"line": 5, "character": 8},
                    "end": {"line": 5, "character": 12},
                },
                "severity": 1,
                "code": "NoVariable",
                "source": "jref",
                "message": "no variable of this name is found",
            },
            found,
        )
        client.change(path, good, 2)
        self.assertEqual([], client.wait_for_diagnostics(path))

    def test_a_file_outside_the_language(self):
        foreign = self.put("Util.java", "\nimport java.util.List;\nclass Util { }\n")
        client = self.client()
        log = self.bank / "Log.java"
        client.open(log)
        (told,) = client.wait_for_diagnostics(log)
        self.assertEqual(3, told["severity"])
        self.assertEqual(
            f"{foreign}:2:1: this isn't in the subset of Java that jref reads, from here on;"
            " nothing is refactored before it is mended, or left out by the setting jref.files",
            told["message"],
        )
        (there,) = client.wait_for_diagnostics(foreign)
        self.assertEqual(
            ("Syntax", 1, 0, 6),
            (
                there["code"],
                there["range"]["start"]["line"],
                there["range"]["start"]["character"],
                there["range"]["end"]["character"],
            ),
        )
        self.assertEqual(FAILED, client.at("rename", log, 4, 22, newName="write")["code"])
        settings = {"jref": {"files": NAMES}}
        client.tell("workspace/didChangeConfiguration", {"settings": settings})
        self.assertEqual([], client.wait_for_diagnostics(foreign))
        answer = client.at("rename", log, 4, 22, newName="write")
        self.assertEqual(5, len(answer["documentChanges"]))
        answer = client.at("rename", foreign, 2, 6, newName="It")
        self.assertIn("this isn't one of the program's files", answer["message"])

    def test_settings_from_the_start(self):
        (self.bank / "deep").mkdir()
        self.put("deep/Util.java", "import java.util.List;\n")
        client = self.client(options={"files": ["[ABL]*.java", "Savings.java", "Teller.java"]})
        answer = client.at("rename", self.bank / "Log.java", 4, 22, newName="write")
        self.assertEqual(5, len(answer["documentChanges"]))

    def test_a_setting_that_names_nothing(self):
        client = self.client(options={"files": ["*.java", "src/*.java"]})
        client.open(self.bank / "Log.java")
        (told,) = client.wait_for_diagnostics(self.bank / "Log.java")
        self.assertEqual("src/*.java of the setting jref.files names no Java file", told["message"])
        client.tell("workspace/didChangeConfiguration", {"settings": {"jref": {"files": "all"}}})
        client.at("rename", self.bank / "Log.java", 4, 22, newName="write")
        self.assertEqual(["jref: the setting jref.files has to be a list of paths"], client.shown)

    def test_more_files_than_a_program_may_have(self):
        for at in range(252):
            self.put(f"C{at}.java", "")
        client = self.client()
        client.open(self.bank / "Log.java")
        (told,) = client.wait_for_diagnostics(self.bank / "Log.java")
        self.assertEqual(
            "there are 257 Java files, more than the 256 of a program:"
            " name those that are it in the setting jref.files",
            told["message"],
        )
        answer = client.at("rename", self.bank / "Log.java", 4, 22, newName="write")
        self.assertEqual((FAILED, told["message"]), (answer["code"], answer["message"]))

    def test_bytes_that_are_no_text(self):
        bad = self.put("Bad.java", b"class Bad { } // \xff")
        client = self.client()
        client.open(self.bank / "Log.java")
        self.assertIn(
            "isn't UTF-8", client.wait_for_diagnostics(self.bank / "Log.java")[0]["message"]
        )
        self.assertIn("isn't UTF-8", client.told[uri_of(str(bad))][0]["message"])

    def test_no_program(self):
        client = self.client(env={"JREF": "/nothing"})
        client.open(self.bank / "Log.java")
        self.assertIn(
            "can't be run", client.wait_for_diagnostics(self.bank / "Log.java")[0]["message"]
        )
        answer = client.at("rename", self.bank / "Log.java", 4, 22, newName="write")
        self.assertIn("can't be run", answer["message"])


class Files(OnServer):
    def test_no_folder(self):
        client = self.client(folder=None)
        path = self.folder / "One.java"
        client.open(path, "class One { int a; }")
        answer = client.at("rename", path, 0, 16, newName="b")
        self.assertEqual(
            [uri_of(str(path))], [it["textDocument"]["uri"] for it in answer["documentChanges"]]
        )

    def test_a_new_document_in_the_folder(self):
        client = self.client()
        path = self.bank / "New.java"
        client.open(path, "class New { void m(Log log) { log.note(1); } }")
        answer = client.at("rename", path, 0, 34, newName="write")
        self.assertEqual(6, len(answer["documentChanges"]))

    def test_a_document_elsewhere(self):
        client = self.client()
        path = self.folder / "Away.java"
        client.open(path, "class Away { }")
        self.assertEqual(FAILED, client.at("rename", path, 0, 6, newName="Far")["code"])
        answer = client.at("rename", self.bank / "Log.java", 4, 22, newName="write")
        self.assertEqual(5, len(answer["documentChanges"]))

    def test_folders_below_and_links(self):
        (self.bank / "in side é").mkdir()
        os.rename(self.bank / "Log.java", self.bank / "in side é" / "Log.java")
        os.symlink("in side é/Log.java", self.bank / "Link.java")
        (self.bank / ".hidden").mkdir()
        self.put(".hidden/Log.java", "class Log { }")
        os.symlink("bank", self.folder / "other")
        client = self.client(folder="other")
        path = self.folder / "other" / "in side é" / "Log.java"
        client.open(path)
        answer = client.at("rename", path, 4, 22, newName="write")
        found = [it["textDocument"]["uri"] for it in answer["documentChanges"]]
        self.assertEqual(5, len(found))
        self.assertIn(uri_of(str(path)), found)
        self.assertIn("in%20side%20%C3%A9", uri_of(str(path)))


class Protocol(OnServer):
    def test_what_is_no_request_of_the_server(self):
        client = self.client()
        self.assertEqual(-32601, client.ask("textDocument/hover", {})["code"])
        self.assertEqual(-32602, client.ask("textDocument/rename", {})["code"])
        self.assertEqual(-32600, client.ask("initialize", {})["code"])
        client.tell("textDocument/didChange", {})
        client.tell("$/setTrace", {"value": "off"})
        client.send_bytes(b"Content-Length: 3\r\n\r\n{a}")
        self.assertEqual(-32700, client.wait_for(lambda it: "error" in it)["error"]["code"])
        self.assertIsNotNone(client.at("prepareRename", self.bank / "Log.java", 4, 22))

    def test_requests_that_are_taken_back(self):
        client = self.client()
        params = {
            "textDocument": {"uri": self.uri("Log.java")},
            "position": {"line": 4, "character": 22},
            "newName": "write",
        }
        for number in ("a", "b", "c"):
            client.send({"id": number, "method": "textDocument/rename", "params": params})
        client.tell("$/cancelRequest", {"id": "c"})
        answer = client.wait_for(lambda it: it.get("id") == "c")
        self.assertEqual(-32800, answer["error"]["code"])

    def test_how_it_ends(self):
        self.assertEqual(0, Client(self.bank).close())
        self.assertEqual(1, Client(self.bank).end())
        client = Client(self.bank)
        client.tell("exit", None)
        self.assertEqual(1, client.end())
        client = Client(self.bank)
        client.ask("shutdown", None)
        self.assertEqual(
            -32600, client.at("rename", self.bank / "Log.java", 4, 22, newName="a")["code"]
        )
        client.tell("exit", None)
        self.assertEqual((0, ""), (client.end(), client.errors))


if __name__ == "__main__":
    unittest.main()
