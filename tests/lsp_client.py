"""A small client of the language server, for tests: it starts the program, sends messages, and reads what comes back."""
import json
import os
import select
import subprocess


class Client:
    """A session with a server."""

    def __init__(self, program, *words):
        self.process = subprocess.Popen([program, *words], stdin=subprocess.PIPE, stdout=subprocess.PIPE, stderr=subprocess.PIPE)
        self.held = bytearray()
        self.number = 0

    def write(self, data):
        """Sends bytes as they are."""
        self.process.stdin.write(data)
        self.process.stdin.flush()

    def send(self, message):
        """Sends a value as a frame."""
        content = json.dumps(message, ensure_ascii=False).encode()
        self.write(b"Content-Length: %d\r\n\r\n" % len(content) + content)

    def notify(self, method, params):
        """Sends a notification."""
        self.send({"jsonrpc": "2.0", "method": method, "params": params})

    def request(self, method, params=None, seconds=20):
        """Sends a request, and returns its response; notifications before it are kept in `self.told`."""
        self.number += 1
        message = {"jsonrpc": "2.0", "id": self.number, "method": method}
        if params is not None:
            message["params"] = params
        self.send(message)
        while True:
            got = self.read(seconds)
            if got is None or got.get("id") == self.number:
                return got

    def read(self, seconds=20):
        """The next message from the server; None if none comes in time, or the output ends."""
        while b"\r\n\r\n" not in self.held:
            if not self.read_more(seconds):
                return None
        head, _, rest = self.held.partition(b"\r\n\r\n")
        size = int(head.split(b":")[1])
        self.held = rest
        while len(self.held) < size:
            if not self.read_more(seconds):
                return None
        content, self.held = self.held[:size], self.held[size:]
        return json.loads(content)

    def read_more(self, seconds):
        """Reads what there is; whether there was something in time."""
        if not select.select([self.process.stdout], [], [], seconds)[0]:
            return False
        piece = os.read(self.process.stdout.fileno(), 1 << 20)
        self.held += piece
        return bool(piece)

    def initialize(self, encodings=None, options=None):
        """Says `initialize` and `initialized`, and returns the response to the first."""
        params = {"processId": None, "rootUri": None, "capabilities": {}}
        if encodings is not None:
            params["capabilities"] = {"general": {"positionEncodings": encodings}}
        if options is not None:
            params["initializationOptions"] = {"options": options}
        got = self.request("initialize", params)
        self.notify("initialized", {})
        return got

    def open(self, uri, text, version=1, language="udev"):
        """Opens a document, and returns what is reported for it."""
        self.notify("textDocument/didOpen", {"textDocument": {"uri": uri, "languageId": language, "version": version, "text": text}})
        return self.read()

    def change(self, uri, changes, version=2):
        """Changes a document, and returns what is reported for it."""
        self.notify("textDocument/didChange", {"textDocument": {"uri": uri, "version": version}, "contentChanges": changes})
        return self.read()

    def ask(self, method, uri, line=None, character=None, **more):
        """The result of a request about a document."""
        params = {"textDocument": {"uri": uri}, **more}
        if line is not None:
            params["position"] = {"line": line, "character": character}
        return self.request("textDocument/" + method, params)

    def end(self):
        """Says `shutdown` and `exit`, and returns the status."""
        self.request("shutdown")
        self.notify("exit", None)
        self.process.stdin.close()
        return self.process.wait(20)
