"""A client of the protocol that says just what a test has it say."""

import queue
import subprocess
import threading

from jref_glue import wire
from jref_glue.protocol import uri_of

from support import EDITORS, environment

PATIENCE = 60


class Client:
    """A server that runs, and a way to ask it."""

    def __init__(self, folder, versions=True, options=None, env=None):
        self._process = subprocess.Popen(
            [str(EDITORS / "jref-lsp")],
            stdin=subprocess.PIPE,
            stdout=subprocess.PIPE,
            stderr=subprocess.PIPE,
            env=environment(**(env or {})),
        )
        self._inbox = queue.Queue()
        self._count = 0
        self.told = {}
        self.shown = []
        threading.Thread(target=self._listen, daemon=True).start()
        self.started = self.ask(
            "initialize",
            {
                "processId": None,
                "rootUri": uri_of(str(folder)) if folder else None,
                "initializationOptions": options,
                "capabilities": {"workspace": {"workspaceEdit": {"documentChanges": versions}}},
            },
        )
        self.tell("initialized", {})

    def _listen(self):
        while True:
            message = wire.read(self._process.stdout)
            self._inbox.put(message)
            if message is None:
                return

    def tell(self, method, params):
        """Sends a notification."""
        wire.write(self._process.stdin, {"method": method, "params": params})

    def send(self, message):
        """Sends any message."""
        wire.write(self._process.stdin, message)

    def send_bytes(self, data):
        """Sends what need not be a message."""
        self._process.stdin.write(data)
        self._process.stdin.flush()

    def ask(self, method, params):
        """The answer to a request: its result, or its error."""
        self._count += 1
        self.send({"id": self._count, "method": method, "params": params})
        message = self.wait_for(lambda it: it.get("id") == self._count)
        return message["error"] if "error" in message else message["result"]

    def wait_for(self, wanted):
        """The next message that is wanted. Diagnostics that come before are kept."""
        while True:
            message = self._inbox.get(timeout=PATIENCE)
            if message is None:
                raise AssertionError("the server has ended")
            if message.get("method") == "textDocument/publishDiagnostics":
                self.told[message["params"]["uri"]] = message["params"]["diagnostics"]
            elif message.get("method") == "window/showMessage":
                self.shown.append(message["params"]["message"])
            if wanted(message):
                return message

    def wait_for_diagnostics(self, path):
        """The next diagnostics of a file."""
        uri = uri_of(str(path))
        found = self.wait_for(lambda it: it.get("params", {}).get("uri") == uri)
        return found["params"]["diagnostics"]

    def open(self, path, text=None, version=1):
        """Opens a file, with the text that the editor has of it."""
        text = path.read_bytes().decode() if text is None else text
        document = {
            "uri": uri_of(str(path)),
            "version": version,
            "text": text,
            "languageId": "java",
        }
        self.tell("textDocument/didOpen", {"textDocument": document})

    def change(self, path, text, version):
        """Changes an open file."""
        document = {"uri": uri_of(str(path)), "version": version}
        params = {"textDocument": document, "contentChanges": [{"text": text}]}
        self.tell("textDocument/didChange", params)

    def at(self, method, path, line, character, **more):
        """Asks at a position."""
        document = {"uri": uri_of(str(path))}
        position = {"line": line, "character": character}
        params = {"textDocument": document, "position": position, **more}
        return self.ask(f"textDocument/{method}", params)

    def close(self):
        """Ends the server, and gives the number that it ends with."""
        if self._process.poll() is None:
            self.ask("shutdown", None)
            self.tell("exit", None)
        return self.end()

    def end(self):
        """Closes the streams, and gives the number that the server ends with."""
        self._process.stdin.close()
        status = self._process.wait(timeout=PATIENCE)
        self.errors = self._process.stderr.read().decode()
        self._process.stdout.close()
        self._process.stderr.close()
        return status
