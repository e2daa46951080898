"""An editor that speaks with the language server, for tests."""

import json
import queue
import subprocess
import sys
import threading
from pathlib import Path

TOP = Path(__file__).resolve().parents[2]


class Editor:
    """Starts the server and speaks with it. `notes` has what it told without being asked."""

    def __init__(self, options=None, program=None):
        words = [sys.executable, str(program or TOP / "tools" / "lsp")]
        self.process = subprocess.Popen(words, stdin=subprocess.PIPE, stdout=subprocess.PIPE)
        self.answers, self.told, self.number = {}, queue.Queue(), 0
        self.arrived = threading.Condition()
        self.logs = []
        threading.Thread(target=self.read, daemon=True).start()
        self.versions = {}
        self.can = self.ask("initialize", {"processId": None, "rootUri": None, "capabilities": {}, "initializationOptions": options or {}})
        self.tell("initialized", {})

    def read(self):
        """Reads messages up to the end."""
        stream = self.process.stdout
        while header := stream.readline():
            length = int(header.split(b":")[1])
            stream.readline()
            message = json.loads(stream.read(length))
            if "method" in message:
                if message["method"] == "window/logMessage":
                    self.logs.append(message["params"]["message"])
                else:
                    self.told.put(message)
            else:
                with self.arrived:
                    self.answers[message["id"]] = message
                    self.arrived.notify_all()

    def raw(self, content):
        """Writes bytes."""
        self.process.stdin.write(content)
        self.process.stdin.flush()

    def send(self, message):
        """Writes a message."""
        content = json.dumps({"jsonrpc": "2.0", **message}).encode()
        self.raw(b"Content-Length: %d\r\n\r\n" % len(content) + content)

    def tell(self, method, params):
        """Tells something."""
        self.send({"method": method, "params": params})

    def begin(self, method, params):
        """Asks, and answers the number of what is asked."""
        self.number += 1
        self.send({"id": self.number, "method": method, "params": params})
        return self.number

    def whole(self, number, seconds=60):
        """The whole answer of that number."""
        with self.arrived:
            if not self.arrived.wait_for(lambda: number in self.answers, seconds):
                raise TimeoutError(f"no answer to {number}")
            return self.answers.pop(number)

    def ask(self, method, params):
        """Asks, and waits for the result; an error is answered as `{"error": ..}`."""
        message = self.whole(self.begin(method, params))
        return {"error": message["error"]} if "error" in message else message["result"]

    # ---- texts

    def open(self, uri, text, language="basinrules"):
        """Opens a text."""
        self.versions[uri] = 1
        self.tell("textDocument/didOpen", {"textDocument": {"uri": uri, "languageId": language, "version": 1, "text": text}})

    def change(self, uri, *changes):
        """Changes a text: whole texts, or pairs of a range and a text."""
        self.versions[uri] += 1
        told = [{"text": one} if isinstance(one, str) else {"range": one[0], "text": one[1]} for one in changes]
        self.tell("textDocument/didChange", {"textDocument": {"uri": uri, "version": self.versions[uri]}, "contentChanges": told})

    def diagnostics(self, uri, seconds=60):
        """The diagnostics of the text as it is now."""
        while True:
            message = self.told.get(timeout=seconds)
            params = message["params"]
            if message["method"] == "textDocument/publishDiagnostics" and params["uri"] == uri and params.get("version") == self.versions[uri]:
                return params["diagnostics"]

    def at(self, method, uri, line, character, **more):
        """Asks of a place."""
        return self.ask(method, {"textDocument": {"uri": uri}, "position": {"line": line, "character": character}, **more})

    def of(self, method, uri, **more):
        """Asks of a text."""
        return self.ask(method, {"textDocument": {"uri": uri}, **more})

    def fixes(self, uri, diagnostics):
        """The changes that are offered for diagnostics."""
        return [
            fix
            for one in diagnostics
            for fix in self.of("textDocument/codeAction", uri, range=one["range"], context={"diagnostics": [one]})
        ]

    def end(self):
        """Ends it: its status."""
        self.ask("shutdown", None)
        self.tell("exit", None)
        return self.process.wait(20)


def letter_at(text, position):
    """The letter of a position in a text."""
    import re

    begins = [0] + [one.end() for one in re.finditer(r"\r\n|\n|\r", text)]
    line, unit = position["line"], position["character"]
    at = begins[line]
    while unit > 0:
        unit -= len(text[at].encode("utf-16-le")) // 2
        at += 1
    return at


def edited(text, edits):
    """A text with the protocol's edits made."""
    spans = [(letter_at(text, one["range"]["start"]), letter_at(text, one["range"]["end"]), one["newText"]) for one in edits]
    for begin, end, new in sorted(spans, reverse=True):
        text = text[:begin] + new + text[end:]
    return text
