#!/usr/bin/env python3
"""The session that the gate runs devdry-lsp with: what a client says, crates/devdry_lsp/stdin, and what has to come, crates/devdry_lsp/stdout.
Nothing of it is taken from devdry-lsp: it comes from the protocol, from what `devdry verify`, `update` and `fmt` say about the same texts,
and from the tables of words. It prints what differs, and with --write puts the two files there.
usage: tests/editor_session.py DEVDRY [--write]"""
import json
import os
import re
import subprocess
import sys
import tempfile

DEVDRY, *WRITES = sys.argv[1:]
TOP = os.path.dirname(os.path.dirname(os.path.abspath(__file__)))
RULES, HWDB = "file:///etc/udev/rules.d/60-lamp.rules", "file:///etc/udev/hwdb.d/60-lamp.hwdb"
# a key that is near a known one, a character of two units, a substitution that there is not, and a token that is not complete
FIRST = ('# the lamp of the desk\nSUBSYSTEMM=="usb", ATTR{idVendor}=="1d6b",TAG+="lamp"\n'
         'KERNEL=="\U0001F600é", GOTO="end", SYMLINK+="lamp/$nam"\nLABEL="end"\nIMPORT{')
# the same after three changes
SECOND = ('# the lamp of the desk\nSUBSYSTEM=="usb", ATTR{idVendor}=="1d6b",TAG+="lamp"\n'
          'KERNEL=="\U0001F600é", GOTO="end", SYMLINK+="lamp/$name"\nLABEL="end"\n')
DATABASE = "# lamps\nusb:v1D6BP0002*\n ID_MODEL=Lamp\n\nusb:v1d6bp0003*\n"
# codes whose rows have no effect, which editors show faded
FADED = ("H2",)

said, wanted = [], []


def run(text, name, *words):
    """What devdry says about a text as a file: its output and its messages."""
    with tempfile.TemporaryDirectory() as folder:
        path = os.path.join(folder, name)
        with open(path, "w", encoding="utf-8") as file:
            file.write(text)
        ran = subprocess.run([DEVDRY, *words, path], capture_output=True, check=False)
    return ran.stdout.decode(errors="replace"), ran.stderr.decode()


def units(text):
    """How many units of UTF-16 a text has."""
    return len(text.encode("utf-16-le")) // 2


def place(line, start, end, last=None):
    """A range."""
    return {"start": {"line": line, "character": start}, "end": {"line": line if last is None else last, "character": end}}


def diagnostics(text, name, *words):
    """What has to be reported for a text: places from --format=json, what is said from gcc, and how to mend it from human."""
    shown = ["".join(run(text, name, *words, f"--format={form}")) for form in ("json", "gcc", "human")]
    found = [json.loads(line) for line in shown[0].splitlines() if line.startswith("{")]
    messages = re.findall(r":\d+:\d+: (?:error|warning): (.*) \[\w+\]$", shown[1], re.M)
    advice = re.findall(r"^  = (.*)$", shown[2], re.M)
    assert len(found) == len(messages) == len(advice), shown
    listed = []
    for it, message, how in zip(found, messages, advice):
        row = text.split("\n")[it["line"] - 1].encode()
        start, end = (units(row[:it[column] - 1].decode()) for column in ("column", "end_column"))
        listed.append({"range": place(it["line"] - 1, start, end), "severity": 1 if it["severity"] == "error" else 2, "code": it["code"],
                       "source": "devdry", "message": f"{message}\n{how}", **({"tags": [1]} if it["code"] in FADED else {})})
    return listed


def formatted(text):
    """A text as `devdry fmt` mends it."""
    return run(text, "60-lamp.rules", "fmt")[0]


def entries(file, before=None):
    """What is told about each word of a table."""
    with open(f"{TOP}/crates/lsp_words/src/{file}", encoding="utf-8") as source:
        text = source.read().split(before)[0] if before else source.read()
    found = re.findall(r'entry!\(\s*"([^"]*)",\s*"((?:[^"\\]|\\.|\\\n)*)",\s*r#"(.*?)"#\s*\)', text, re.S)
    return {name: re.sub(r"\\\n\s*", "", meaning).replace('\\"', '"') + f"\n\n```\n{example}\n```" for name, meaning, example in found}


def markdown(text):
    """A text as Markdown."""
    return {"kind": "markdown", "value": text}


def tell(method, params=None):
    """The client tells something."""
    said.append({"jsonrpc": "2.0", "method": method, **({} if params is None else {"params": params})})


def publish(uri, found, version=None):
    """Diagnostics have to come."""
    wanted.append({"jsonrpc": "2.0", "method": "textDocument/publishDiagnostics",
                   "params": {"uri": uri, **({} if version is None else {"version": version}), "diagnostics": found}})


def ask(number, method, result, params=None):
    """The client asks, and this has to come."""
    said.append({"jsonrpc": "2.0", "id": number, "method": method, **({} if params is None else {"params": params})})
    wanted.append({"jsonrpc": "2.0", "id": number, **result})


def about(number, method, result, line=None, character=None, **more):
    """The client asks about the rules."""
    position = {} if line is None else {"position": {"line": line, "character": character}}
    ask(number, f"textDocument/{method}", {"result": result}, {"textDocument": {"uri": RULES}, **position, **more})


def symbol(name, kind, line, text):
    """An entry of the outline, which is its row."""
    row = place(line, 0, units(text.split("\n")[line]))
    return {"name": name, "kind": kind, "range": row, "selectionRange": row}


def session():
    """The client's hour in short."""
    verify = ("verify", "--strict", "--ignore=S1", "--no-summary")
    third = formatted(SECOND)
    assert third != SECOND and formatted(FIRST) == FIRST
    ask(1, "initialize", {"result": {"capabilities": {
        "positionEncoding": "utf-16", "textDocumentSync": {"openClose": True, "change": 2}, "hoverProvider": True,
        "completionProvider": {"triggerCharacters": ["$", "%", "{", '"']}, "definitionProvider": True, "referencesProvider": True,
        "documentSymbolProvider": True, "codeActionProvider": {"codeActionKinds": ["quickfix"]}, "documentFormattingProvider": True},
        "serverInfo": {"name": "devdry-lsp", "version": "0.1.0"}}},
        {"processId": None, "rootUri": None, "capabilities": {"general": {"positionEncodings": ["utf-16"]}},
         "initializationOptions": {"options": ["--strict", "--ignore=S1"]}})
    tell("initialized", {})
    tell("textDocument/didOpen", {"textDocument": {"uri": RULES, "languageId": "udevrules", "version": 1, "text": FIRST}})
    publish(RULES, diagnostics(FIRST, "60-lamp.rules", *verify), 1)
    about(2, "hover", {"contents": markdown(entries("keys.rt")["KERNEL"]), "range": place(2, 0, 6)}, 2, 3)
    about(3, "completion", [{"label": name, "kind": 12, "documentation": markdown(text), "textEdit": {"range": place(4, 7, 7), "newText": name}}
                            for name, text in entries("braces.rt", "RUN_TYPES").items()], 4, 7)
    about(4, "definition", {"uri": RULES, "range": place(3, 7, 10)}, 2, 22)
    about(5, "codeAction", [{"title": "Write SUBSYSTEM", "kind": "quickfix",
                             "edit": {"changes": {RULES: [{"range": place(1, 0, 10), "newText": "SUBSYSTEM"}]}}}],
          range=place(1, 0, 0), context={"diagnostics": []})
    tell("textDocument/didChange", {"textDocument": {"uri": RULES, "version": 2}, "contentChanges": [
        {"range": place(1, 8, 9), "text": ""}, {"range": place(2, 46, 46), "text": "e"}, {"range": place(4, 0, 7), "text": ""}]})
    publish(RULES, diagnostics(SECOND, "60-lamp.rules", *verify), 2)
    about(6, "formatting", [{"range": place(0, 0, 0, 4), "newText": third}], options={"tabSize": 4, "insertSpaces": True})
    tell("textDocument/didChange", {"textDocument": {"uri": RULES, "version": 3}, "contentChanges": [{"text": third}]})
    publish(RULES, diagnostics(third, "60-lamp.rules", *verify), 3)
    about(7, "documentSymbol", [symbol('SUBSYSTEM=="usb", ATTR{idVendor}=="1d6b"', 24, 1, third),
                                symbol('KERNEL=="\U0001F600é"', 24, 2, third), symbol("end", 20, 3, third)])
    about(8, "references", [{"uri": RULES, "range": place(2, 21, 24)}, {"uri": RULES, "range": place(3, 7, 10)}], 3, 8,
          context={"includeDeclaration": True})
    tell("textDocument/didOpen", {"textDocument": {"uri": HWDB, "languageId": "hwdb", "version": 1, "text": DATABASE}})
    publish(HWDB, diagnostics(DATABASE, "60-lamp.hwdb", "update", "--lint", "--ignore=S1"), 1)
    tell("textDocument/didClose", {"textDocument": {"uri": HWDB}})
    publish(HWDB, [])
    ask("nine", "textDocument/rename", {"error": {"code": -32601, "message": "no such method"}}, {"textDocument": {"uri": RULES}})
    ask(10, "shutdown", {"result": None})
    tell("exit")


def frames(messages):
    """Messages as frames."""
    contents = [json.dumps(message, ensure_ascii=False, separators=(",", ":")).encode() for message in messages]
    return b"".join(b"Content-Length: %d\r\n\r\n%b" % (len(content), content) for content in contents)


if __name__ == "__main__":
    session()
    differs = False
    for name, data in (("stdin", frames(said)), ("stdout", frames(wanted))):
        path = f"{TOP}/crates/devdry_lsp/{name}"
        if WRITES:
            with open(path, "wb") as file:
                file.write(data)
            continue
        with open(path, "rb") as file:
            if file.read() != data:
                differs = True
                print(f"crates/devdry_lsp/{name} is not what tests/editor_session.py has: see its --write")
    sys.exit(differs)
