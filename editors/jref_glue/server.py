"""The language server `jref-lsp`. Each request is a run of jref over the program as it then is."""

from __future__ import annotations

import os
import queue
import sys
import threading
import traceback
from typing import BinaryIO

from . import VERSION, diagnostics, steps, wire
from .answers import Answers
from .meaning import Refused
from .program import Stopped
from .protocol import path_of
from .workspace import SETTING, Workspace

QUIET = 0.2
PARSE_ERROR, BAD_REQUEST, UNKNOWN_METHOD = -32700, -32600, -32601
BAD_PARAMS, INTERNAL = -32602, -32603
NOT_INITIALIZED, CANCELLED, FAILED = -32002, -32800, -32803


class Failure(Exception):
    """A request that gets an error for an answer."""

    def __init__(self, code: int, sentence: str):
        super().__init__(sentence)
        self.code = code


class Server:
    """One client's server. It remembers the documents, and which files it told something about."""

    def __init__(self, reader: BinaryIO, writer: BinaryIO):
        self._reader, self._writer = reader, writer
        self._inbox: queue.Queue = queue.Queue()
        self._cancelled: set = set()
        self._workspace = Workspace()
        self._answers = Answers(self._workspace)
        self._state = "new"
        self._told: set[str] = set()
        self._changed = False

    def serve(self) -> int:
        """Answers until the client leaves, and gives the number to end with."""
        threading.Thread(target=self._listen, daemon=True).start()
        while True:
            try:
                message = self._inbox.get(timeout=QUIET if self._changed else None)
            except queue.Empty:
                self._publish_once()
                continue
            if message is None or message.get("method") == "exit":
                return 0 if self._state == "ended" else 1
            self._take(message)

    def _listen(self) -> None:
        """Reads messages as they come, so that a request can be cancelled while it waits."""
        while True:
            try:
                message = wire.read(self._reader)
            except wire.Garbled as fault:
                message = {"garbled": str(fault)}
            self._inbox.put(message)
            if message is None or message.get("method") == "exit":
                return
            if message.get("method") == "$/cancelRequest":
                self._cancel(message.get("params"))

    def _cancel(self, params) -> None:
        """Notes that a request isn't wanted any more, if it still waits."""
        if isinstance(params, dict) and isinstance(params.get("id"), (int, str)):
            self._cancelled.add(params["id"])

    def _take(self, message: dict) -> None:
        """Answers a request, or takes a notification. Answers of the client are passed over."""
        if "garbled" in message:
            self._send_error(None, PARSE_ERROR, message["garbled"])
        elif "method" in message and "id" in message:
            self._answer(message)
        elif message.get("method") in NOTICES and self._state == "running":
            try:
                NOTICES[message["method"]](self, message.get("params") or {})
            except Exception:
                traceback.print_exc()

    def _answer(self, message: dict) -> None:
        number = message["id"]
        try:
            if number in self._cancelled:
                raise Failure(CANCELLED, "the request was taken back")
            result = self._result(message["method"], message.get("params") or {})
        except Failure as failure:
            self._send_error(number, failure.code, str(failure))
        except Refused as refusal:
            self._send_error(number, FAILED, str(refusal))
        except Stopped as stop:
            self._send_error(number, FAILED, ": ".join(filter(None, [stop.path, stop.sentence])))
        except (KeyError, TypeError, IndexError) as fault:
            traceback.print_exc()
            self._send_error(number, BAD_PARAMS, f"the parameters can't be read: {fault!r}")
        except Exception as fault:
            traceback.print_exc()
            self._send_error(number, INTERNAL, str(fault))
        else:
            wire.write(self._writer, {"id": number, "result": result})

    def _result(self, method: str, params: dict):
        """The result of a request that is served now."""
        if method not in REQUESTS and method not in QUESTIONS:
            raise Failure(UNKNOWN_METHOD, f"{method} isn't served")
        if self._state != ("new" if method == "initialize" else "running"):
            code = NOT_INITIALIZED if self._state == "new" else BAD_REQUEST
            raise Failure(code, f"{method} isn't served now")
        if method in QUESTIONS:
            return QUESTIONS[method](self._answers, params)
        return REQUESTS[method](self, params)

    def _send_error(self, number, code: int, sentence: str) -> None:
        wire.write(self._writer, {"id": number, "error": {"code": code, "message": sentence}})

    # The life of the server.

    def _initialize(self, params: dict) -> dict:
        uris = [folder["uri"] for folder in params.get("workspaceFolders") or []]
        if not uris and params.get("rootUri"):
            uris = [params["rootUri"]]
        self._workspace.roots = [path for path in map(path_of, uris) if path]
        self._configure(params.get("initializationOptions"))
        client = params.get("capabilities", {}).get("workspace", {}).get("workspaceEdit", {})
        self._answers.versioned = bool(client.get("documentChanges"))
        self._state = "running"
        try:
            self._answers.actions = [row for row in steps.known(steps.ROWS) if row.action]
        except Stopped as stop:
            self._show(stop.sentence)
        return {"capabilities": self._capabilities(), "serverInfo": SERVER}

    def _capabilities(self) -> dict:
        kinds = sorted({row.action for row in self._answers.actions})
        return {
            "positionEncoding": "utf-16",
            "textDocumentSync": {"openClose": True, "change": 1, "save": True},
            "renameProvider": {"prepareProvider": True},
            "referencesProvider": True,
            "documentHighlightProvider": True,
            "definitionProvider": True,
            "codeActionProvider": {"codeActionKinds": kinds} if kinds else False,
        }

    def _shutdown(self, params: dict) -> None:
        self._state = "ended"

    def _configure(self, settings) -> None:
        """Takes the setting `files`, under `jref` or by itself."""
        settings = settings if isinstance(settings, dict) else {}
        mine = settings.get("jref", settings)
        files = mine.get("files") if isinstance(mine, dict) else None
        if files is not None and not (
            isinstance(files, list) and all(isinstance(it, str) for it in files)
        ):
            self._show(f"the setting {SETTING} has to be a list of paths")
            return
        self._workspace.chosen = files

    def _show(self, sentence: str) -> None:
        params = {"type": 1, "message": f"jref: {sentence}"}
        wire.write(self._writer, {"method": "window/showMessage", "params": params})

    # What changes the documents or the choice of files.

    def _opened(self, params: dict) -> None:
        document = params["textDocument"]
        self._workspace.put(document["uri"], document["version"], document["text"])
        self._changed = True

    def _edited(self, params: dict) -> None:
        document, text = params["textDocument"], params["contentChanges"][-1]["text"]
        self._workspace.put(document["uri"], document["version"], text)
        self._changed = True

    def _closed(self, params: dict) -> None:
        self._workspace.drop(params["textDocument"]["uri"])
        self._changed = True

    def _configured(self, params: dict) -> None:
        self._configure(params.get("settings"))
        self._changed = True

    def _on_disk(self, params: dict) -> None:
        self._changed = True

    def _publish_once(self) -> None:
        """Sends diagnostics, if they can be had."""
        self._changed = False
        try:
            self._publish()
        except Exception:
            traceback.print_exc()

    def _publish(self) -> None:
        """Sends each file's diagnostics, and takes back those of files that are gone."""
        found = diagnostics.of_workspace(self._workspace)
        for uri in sorted(found.keys() | self._told):
            if found.get(uri) or uri in self._told:
                params = {"uri": uri, "diagnostics": found.get(uri, [])}
                wire.write(
                    self._writer, {"method": "textDocument/publishDiagnostics", "params": params}
                )
        self._told = {uri for uri, told in found.items() if told}


SERVER = {"name": "jref-lsp", "version": VERSION}

REQUESTS = {
    "initialize": Server._initialize,
    "shutdown": Server._shutdown,
}

QUESTIONS = {
    "textDocument/prepareRename": Answers.prepare_rename,
    "textDocument/rename": Answers.rename,
    "textDocument/references": Answers.references,
    "textDocument/documentHighlight": Answers.highlight,
    "textDocument/definition": Answers.definition,
    "textDocument/codeAction": Answers.code_action,
}

NOTICES = {
    "textDocument/didOpen": Server._opened,
    "textDocument/didChange": Server._edited,
    "textDocument/didClose": Server._closed,
    "textDocument/didSave": Server._on_disk,
    "workspace/didChangeConfiguration": Server._configured,
    "workspace/didChangeWatchedFiles": Server._on_disk,
}


def main() -> int:
    """Serves the client on standard input and output."""
    try:
        return Server(sys.stdin.buffer, sys.stdout.buffer).serve()
    except BrokenPipeError:
        os._exit(1)  # the thread that listens still waits, and an ordinary end would wait for it
