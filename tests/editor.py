#!/usr/bin/env python3
"""Speaks with the language server as editors do, and as clients that are broken or mean: a line `ok CASE` for each case, or
`not ok CASE` followed by what was expected and what came.
usage: tests/editor.py PROGRAM DEVDRY    the language server, and devdry"""
import json
import re
import subprocess
import sys
import tempfile
import time

from lsp_client import Client

PROGRAM, DEVDRY = sys.argv[1:3]
RULES = "file:///etc/udev/rules.d/70-mine.rules"
HWDB = "file:///etc/udev/hwdb.d/70-mine.hwdb"
NOT_HELD = "not checked: 1,024 files or 64 MiB are open, so close some and open this one again"

# errors of JSON-RPC and of the protocol
PARSE_ERROR, INVALID_REQUEST, METHOD_NOT_FOUND, INVALID_PARAMS, NOT_INITIALIZED = -32700, -32600, -32601, -32602, -32002

failed = False


def same(case, expected, got):
    """Reports whether two values are the same."""
    global failed
    if expected == got:
        print(f"ok {case}")
    else:
        failed = True
        print(f"not ok {case}\n    expected {expected!r}\n    got      {got!r}")


def begun(**given):
    """A client after `initialize`."""
    client = Client(PROGRAM)
    client.initialize(**given)
    return client


def codes(report):
    """The codes that are reported."""
    return [it["code"] for it in report["params"]["diagnostics"]]


def place(row, start, end, last=None):
    """A range."""
    return {"start": {"line": row, "character": start}, "end": {"line": row if last is None else last, "character": end}}


def answered(given):
    """The status of the program for these words, without input, and what it wrote."""
    run = subprocess.run([PROGRAM, *given], capture_output=True, check=False, text=True, stdin=subprocess.DEVNULL)
    return run.returncode, run.stdout, run.stderr


def error_of(response):
    """The number of an error."""
    return (response or {}).get("error", {}).get("code")


def beginning_and_end():
    client = Client(PROGRAM)
    same("a request before initialize", NOT_INITIALIZED, error_of(client.request("textDocument/hover", {})))
    client.notify("textDocument/didOpen", {"textDocument": {"uri": RULES, "text": "X"}})
    got = client.initialize()
    same("characters are counted in UTF-16 unless the client can more", "utf-16", got["result"]["capabilities"]["positionEncoding"])
    same("a second initialize", INVALID_REQUEST, error_of(client.initialize()))
    same("an unknown method", METHOD_NOT_FOUND, error_of(client.request("workspace/nonsense", {})))
    same("a document that is not open", INVALID_PARAMS, error_of(client.ask("hover", RULES, 0, 0)))
    client.open(RULES, "")
    same("no position", INVALID_PARAMS, error_of(client.ask("hover", RULES)))
    same("no parameters", INVALID_PARAMS, error_of(client.request("textDocument/hover")))
    client.notify("$/setTrace", {"value": "off"})
    same("shutdown", None, client.request("shutdown")["result"])
    same("a request after shutdown", INVALID_REQUEST, error_of(client.ask("hover", RULES, 0, 0)))
    client.notify("exit", None)
    same("the status after shutdown and exit", 0, client.process.wait(20))
    client = begun()
    client.notify("exit", None)
    same("the status after exit alone", 1, client.process.wait(20))
    client = begun()
    client.process.stdin.close()
    same("the status where the input ends", 1, client.process.wait(20))
    client = Client(PROGRAM)
    got = client.initialize(encodings=["utf-8", "utf-16"])
    same("a client that counts bytes", "utf-8", got["result"]["capabilities"]["positionEncoding"])
    same("the last status", 0, client.end())


HELP = """\
A language server for udev rules and files of the hardware database

Usage: devdry-lsp [--stdio]

An editor starts it and speaks the Language Server Protocol 3.17 with it over the standard input and output.

Options:
      --stdio    Speak over the standard input and output, as it does anyway
  -h, --help     Print help
  -V, --version  Print version

Status: 0 after shutdown and exit, 1 without one of these, 2 for words that are not understood, 3 if the input or an
output fails, 4 if memory runs out.

See docs/editors.md for the set-up of editors, and devdry-lsp(1).
"""
UNKNOWN = "error: devdry-lsp takes --stdio, --help or --version, or nothing\n\nFor more information, try '--help'.\n"
NOT_TEXT = "error: an argument is not UTF-8\n\nFor more information, try '--help'.\n"


def words():
    version = subprocess.run([DEVDRY, "--version"], capture_output=True, check=True, text=True).stdout.replace("devdry ", "devdry-lsp ")
    asked = [(["--version"], version), (["-V"], version), (["--help"], HELP), (["-h"], HELP)]
    refused = [(given, UNKNOWN) for given in (["-h", "-V"], ["x"], [""], ["--stdio", "--stdio"], ["--stdio=x"], ["--helps"])] + [([b"\xff"], NOT_TEXT)]
    for given, answer in asked:
        same(f"words {given}", (0, answer, ""), answered(given))
    for given, refusal in refused:
        same(f"words {given}", (2, "", refusal), answered(given))
    client = Client(PROGRAM, "--stdio")
    client.initialize()
    same("--stdio", 0, client.end())


def diagnostics():
    client = begun()
    got = client.open(RULES, 'SUBSYSTEMM=="block", TAG+="x"\n', version=7)
    same("what is reported names the document and its version", ("textDocument/publishDiagnostics", RULES, 7),
         (got["method"], got["params"]["uri"], got["params"]["version"]))
    same("an unknown key", [{"range": place(0, 0, 10), "severity": 1, "code": "V2", "source": "devdry",
                             "message": "unknown key: SUBSYSTEMM\nDid you mean SUBSYSTEM?"}], got["params"]["diagnostics"])
    same("mended as one types", [], codes(client.change(RULES, [{"range": place(0, 8, 9), "text": ""}])))
    got = client.change(RULES, [{"text": 'KERNEL=="a", GOTO="e"\nTAG+="x"\nLABEL="e"\nLABEL="f"\n'}])
    same("what has no effect is faded", [("S4", [1])], [(it["code"], it.get("tags")) for it in got["params"]["diagnostics"]])
    got = client.change(RULES, [{"text": 'KERNEL=="a", \\\n  SYMLNK+="b"\n'}])
    same("a rule over two rows", [("V2", place(1, 2, 8))], [(it["code"], it["range"]) for it in got["params"]["diagnostics"]])
    got = client.change(RULES, [{"text": 'KERNEL=="\U0001F600é", SYMLNK+="b"\n'}])
    same("a place after characters of several units", [place(0, 15, 21)], [it["range"] for it in got["params"]["diagnostics"]])
    got = client.change(RULES, [{"text": 'KERNEL=="a", TAG+="b"\r\nKERNEL=="a", SYMLNK+="b"\rKERNEL=="a", TAGG+="c"\n'}])
    same("rows that end in CR LF and in CR", [1, 2], [it["range"]["start"]["line"] for it in got["params"]["diagnostics"]])
    got = client.open(HWDB, "usb:v1D6BP0002*\n ID_A=1\n\nusb:v1D6BP0003*\n")
    same("a file of a database", True, "H2" in codes(got))
    same("a document that is closed", [], client_close(client, RULES))
    same("the others stay", ["H2"], [it for it in codes(client.change(HWDB, [])) if it == "H2"])
    same("a document that was closed is not open", INVALID_PARAMS, error_of(client.ask("hover", RULES, 0, 0)))
    same("the status", 0, client.end())
    client = begun(encodings=["utf-8"])
    got = client.open(RULES, 'KERNEL=="\U0001F600é", SYMLNK+="b"\n')
    same("a place in bytes", [place(0, 18, 24)], [it["range"] for it in got["params"]["diagnostics"]])
    client.end()


def client_close(client, uri):
    """Closes a document, and returns what is reported for it."""
    client.notify("textDocument/didClose", {"textDocument": {"uri": uri}})
    return codes(client.read())


def settings():
    text = 'KERNEL=="a",TAG+="c"\nKERNEL=="a", SYMLNK+="b"\n'
    strict = codes(begun().open(RULES, text))
    same("without options everything is reported", True, {"V2", "S2"} <= set(strict))
    same("--ignore", [it for it in strict if it not in ("V2", "S2")], codes(begun(options=["--strict", "--ignore=V2,S2"]).open(RULES, text)))
    same("--ignore of a class", [it for it in strict if not it.startswith("S")], codes(begun(options=["--strict", "--ignore=S"]).open(RULES, text)))
    same("--no-style", True, "S2" not in codes(begun(options=["--udev", "--no-style"]).open(RULES, text)))
    same("no options at all", True, set(codes(begun(options=[]).open(RULES, text))) <= {"V2", "S2"})
    for bad in (["--nonsense"], ["--ignore=Z9"], "--lint", [1]):
        client = Client(PROGRAM)
        same(f"options {bad}", INVALID_PARAMS, error_of(client.initialize(options=bad)))
        same(f"initialize again after options {bad}", True, "result" in client.initialize())


def as_verify():
    """What is reported is what `devdry verify --strict` reports, line by line."""
    texts = ['SUBSYSTEM=="block",KERNEL=="sd*" TAG+="x"\nGOTO="none"\n', 'ATTR{size}=="1", RUN+="a $nonsense"\n# x\nIMPORT{builtin}="usbid"\n',
             'KERNEL=="a*", SYMLINK="b", OPTIONS+="watcj"\nNAME="x"\n']
    for number, text in enumerate(texts):
        with tempfile.TemporaryDirectory() as folder:
            path = f"{folder}/70-mine.rules"
            with open(path, "w", encoding="utf-8") as file:
                file.write(text)
            run = subprocess.run([DEVDRY, "verify", "--strict", "--no-summary", "--format=gcc", path], capture_output=True, text=True, check=False)
        wanted = [(int(row), int(column), code) for row, column, code in re.findall(r":(\d+):(\d+): .* \[(\w+)\]$", run.stderr, re.M)]
        got = begun(encodings=["utf-8"]).open(RULES, text)["params"]["diagnostics"]
        got = [(it["range"]["start"]["line"] + 1, it["range"]["start"]["character"] + 1, it["code"]) for it in got]
        same(f"as verify --strict: text {number}", wanted, got)


def answers():
    client = begun()
    client.open(RULES, 'KERNEL=="sd*", ATTRS{idVendor}=="1d6b", SYMLINK+="disk/$kernel", IMPORT{builtin}="usb_id"\n# devdry: ignore V6\nSUB\n')
    hover = client.ask("hover", RULES, 0, 2)["result"]
    same("hover over a key: its place", place(0, 0, 6), hover["range"])
    same("hover over a key: Markdown", "markdown", hover["contents"]["kind"])
    same("hover over a substitution", place(0, 55, 62), client.ask("hover", RULES, 0, 58)["result"]["range"])
    same("hover over a builtin", True, "usb" in client.ask("hover", RULES, 0, 83)["result"]["contents"]["value"].lower())
    same("hover over a code", True, client.ask("hover", RULES, 1, 17)["result"]["contents"]["value"].startswith("V6 bad substitution\n"))
    same("hover over nothing", None, client.ask("hover", RULES, 1, 1)["result"])
    same("hover past the end", None, client.ask("hover", RULES, 99, 99)["result"])
    offered = client.ask("completion", RULES, 2, 3)["result"]
    labels = [it["label"] for it in offered]
    same("completion of a key", True, {"SUBSYSTEM", "SUBSYSTEMS", "KERNEL"} <= set(labels))
    same("completion replaces what is typed", {"range": place(2, 0, 3), "newText": labels[0]}, offered[0]["textEdit"])
    client.change(RULES, [{"text": 'IMPORT{builtin}="'}])
    same("completion of a builtin", True, "usb_id" in [it["label"] for it in client.ask("completion", RULES, 0, 17)["result"]])
    client.change(RULES, [{"text": 'KERNEL=="a",TAG+="b"\n'}])
    mended = [{"range": place(0, 0, 0, 1), "newText": 'KERNEL=="a", TAG+="b"\n'}]
    same("formatting", mended, client.ask("formatting", RULES, options={})["result"])
    actions = client.ask("codeAction", RULES, range=place(0, 0, 0), context={"diagnostics": []})["result"]
    same("the action that mends style", [{RULES: mended}], [it["edit"]["changes"] for it in actions])
    client.change(RULES, [{"text": 'KERNL=="a", TAG+="b"\nKERNEL=="a", TAGG+="b"\n'}])
    same("formatting what has a fault", [], client.ask("formatting", RULES, options={})["result"])
    actions = client.ask("codeAction", RULES, range=place(0, 0, 0), context={"diagnostics": []})["result"]
    same("the action that mends a key, in its row alone", [("Write KERNEL", {RULES: [{"range": place(0, 0, 5), "newText": "KERNEL"}]})],
         [(it["title"], it["edit"]["changes"]) for it in actions])
    same("the status", 0, client.end())


def labels():
    client = begun()
    client.open(RULES, 'LABEL="end"\nKERNEL=="a", GOTO="end"\n# GOTO="end"\nTAG+="x", GOTO="end"\nLABEL="end"\nLABEL="end"\n')
    found = client.ask("definition", RULES, 1, 20)["result"]
    same("definition of a jump: the first label that follows", {"uri": RULES, "range": place(4, 7, 10)}, found)
    same("definition of a label: itself", {"uri": RULES, "range": place(0, 7, 10)}, client.ask("definition", RULES, 0, 8)["result"])
    same("definition of nothing", None, client.ask("definition", RULES, 1, 3)["result"])
    got = client.ask("references", RULES, 4, 8, context={"includeDeclaration": False})["result"]
    same("references", [place(1, 19, 22), place(3, 16, 19)], [it["range"] for it in got])
    got = client.ask("references", RULES, 4, 8, context={"includeDeclaration": True})["result"]
    same("references with declarations", [0, 1, 3, 4, 5], [it["range"]["start"]["line"] for it in got])
    client.change(RULES, [{"text": 'KERNEL=="a", \\\n  TAG+="b"\n\n# c\nACTION=="add", ENV{X}!="1", TAG+="d"\nLABEL="e"\n'}])
    got = client.ask("documentSymbol", RULES)["result"]
    same("symbols of rules", [('KERNEL=="a"', 0), ('ACTION=="add", ENV{X}!="1"', 4), ("e", 5)], [(it["name"], it["range"]["start"]["line"]) for it in got])
    client.open(HWDB, "# c\nusb:v1D6B*\nusb:v1D6C*\n ID_A=1\n")
    got = client.ask("documentSymbol", HWDB)["result"]
    same("symbols of a database", [("usb:v1D6B*", 1), ("usb:v1D6C*", 2)], [(it["name"], it["range"]["start"]["line"]) for it in got])
    same("the status", 0, client.end())


def hostile():
    client = begun()
    client.open(RULES, 'SYMLNK+="a"\n')
    client.write(b"nonsense\r\n\r\n")
    same("a header part without a length", PARSE_ERROR, error_of(client.read()))
    client.write(b"Content-Length: 3\r\n\r\n{]}")
    same("a content that is no JSON", PARSE_ERROR, error_of(client.read()))
    client.write(b"Content-Length: 2\r\n\r\n[]")
    same("a content that is no message", INVALID_REQUEST, error_of(client.read()))
    client.write(b"Content-Length: 2\r\n\r\n\xff\xfe")
    same("a content that is not UTF-8", PARSE_ERROR, error_of(client.read()))
    client.send({"jsonrpc": "2.0", "id": None, "method": "textDocument/hover"})
    same("a request whose id is null", INVALID_REQUEST, error_of(client.read()))
    client.write(b"x" * 5000)
    same("a header part that does not end", PARSE_ERROR, error_of(client.read()))
    client.write(b"\r\n\r\n")
    same("the end of that", PARSE_ERROR, error_of(client.read()))
    client.write(b"Content-Length: 17000000\r\n\r\n")
    same("a content that is too long", INVALID_REQUEST, error_of(client.read()))
    for _ in range(17):
        client.write(b" " * 1000000)
    client.write(b"Content-Length: 99999999999999999999999\r\n\r\n")
    same("a length that no number has", PARSE_ERROR, error_of(client.read()))
    content = json.dumps({"jsonrpc": "2.0", "id": 77, "method": "textDocument/hover",
                          "params": {"textDocument": {"uri": RULES}, "position": {"line": 0, "character": 0}}}).encode()
    for piece in (b"nonsense", b"cOnTent-leng", b"th:  %d\r\nContent-Type: x\r\n\r" % len(content), b"\n"):
        client.write(piece)
        time.sleep(0.05)
    for at in range(0, len(content), 7):
        client.write(content[at:at + 7])
    same("a frame in pieces, after nonsense", 77, client.read().get("id"))
    far = {"start": {"line": 2147483647, "character": 2147483647}, "end": {"line": 0, "character": 0}}
    got = client.change(RULES, [{"range": far, "text": 'TAGG+="b"\n'}])
    same("a change far behind the end, whose end comes before its start", ["V2", "V2"], codes(got))
    got = client.change(RULES, [{"range": place(0, 3, 3), "text": ""}])
    same("no document is lost", ["V2", "V2"], codes(got))
    client.write(b"Content-Length: %d\r\n\r\n" % 200 + b'{"a":' * 40)
    same("objects in objects that do not end", PARSE_ERROR, error_of(client.read()))
    same("the status", 0, client.end())


def headers():
    """Header parts that are odd or wrong, each followed by a frame: whether it is answered, and how what comes before is."""
    content = b'{"jsonrpc":"2.0","id":5,"method":"shutdown"}'
    size, frame = len(content), b"Content-Length: %d\r\n\r\n%b" % (len(content), content)
    cases = (("twice: the last counts", b"Content-Length: 1\r\nContent-Length: %d\r\n\r\n%b" % (size, content), ["5"]),
             ("no blank before the length", b"Content-Length:%d\r\n\r\n%b" % (size, content), ["5"]),
             ("blanks behind the length", b"Content-Length: %d \t\r\n\r\n%b" % (size, content), ["5"]),
             ("other headers around it", b"X: y\r\nContent-Length: %d\r\nContent-Type: z\r\n\r\n%b" % (size, content), ["5"]),
             ("negative", b"Content-Length: -5\r\n\r\n" + frame, [PARSE_ERROR, "5"]),
             ("with a sign", b"Content-Length: +5\r\n\r\n" + frame, [PARSE_ERROR, "5"]),
             ("hexadecimal", b"Content-Length: 0x5\r\n\r\n" + frame, [PARSE_ERROR, "5"]),
             ("empty", b"Content-Length:\r\n\r\n" + frame, [PARSE_ERROR, "5"]),
             ("missing", b"Content-Type: x\r\n\r\n" + frame, [PARSE_ERROR, "5"]),
             ("2^32", b"Content-Length: 4294967296\r\n\r\n" + frame, [PARSE_ERROR, "5"]),
             ("0", b"Content-Length: 0\r\n\r\n" + frame, [PARSE_ERROR, "5"]),
             ("no header part at all", b"\r\n\r\n" + frame, [PARSE_ERROR, "5"]),
             ("nonsense before it in its row", b"\x00\xff{}" + frame, ["5"]),
             ("three frames in one piece", frame * 3, ["5", INVALID_REQUEST, INVALID_REQUEST]))
    for case, data, expected in cases:
        client = begun()
        client.write(data)
        got = [client.read() for _ in expected]
        same(f"a length: {case}", expected, [error_of(it) or str(it["id"]) for it in got])
        client.notify("exit", None)
        client.process.wait(20)
    client = begun()
    for at in range(len(frame)):
        client.write(frame[at:at + 1])
    same("a frame byte by byte", 5, client.read()["id"])
    client.end()


def nonsense():
    """Contents that are JSON or nearly, and how each is answered; the document stays."""
    client = begun()
    client.open(RULES, 'SYMLNK+="a"\n')
    cases = (("null", INVALID_REQUEST), ("7", INVALID_REQUEST), ('"x"', INVALID_REQUEST), ("{}", INVALID_REQUEST), ('{"id":1}', INVALID_REQUEST),
             ('{"method":1}', INVALID_REQUEST), ('{"id":{},"method":"shutdown"}', INVALID_REQUEST), ('{"id":true,"method":"shutdown"}', INVALID_REQUEST),
             ('[{"id":1,"method":"shutdown"}]', INVALID_REQUEST), ('{"id":1,"method":"x"}x', PARSE_ERROR), ('{"id":1,"method":"x"', PARSE_ERROR),
             ('{"id":"\\ud800","method":"x"}', PARSE_ERROR), ("\ufeff{}", PARSE_ERROR), ("[" * 100000, PARSE_ERROR),
             ('{"a":' * 100000 + "1" + "}" * 100000, PARSE_ERROR), ('{"id":1.5,"method":"x"}', METHOD_NOT_FOUND), ('{"id":-1,"method":"x"}', METHOD_NOT_FOUND),
             ('{"id":99999999999999999999,"method":"x"}', METHOD_NOT_FOUND), ('{"id":"a","method":"$/x"}', METHOD_NOT_FOUND),
             ('{"id":1,"method":"x","params":7}', METHOD_NOT_FOUND), ('{"id":1,"method":"textDocument/hover","params":[]}', INVALID_PARAMS))
    for content, expected in cases:
        client.write(b"Content-Length: %d\r\n\r\n%b" % (len(content.encode()), content.encode()))
        same(f"a content: {content[:50]}", expected, error_of(client.read()))
    for method, params in (("nonsense", {}), ("$/cancelRequest", {"id": 1}), ("textDocument/didSave", {"textDocument": {"uri": RULES}}),
                           ("textDocument/didChange", {"textDocument": {"uri": HWDB}, "contentChanges": [{"text": "x"}]}),
                           ("textDocument/didChange", {"textDocument": {"uri": HWDB}}), ("textDocument/didChange", {"contentChanges": [{"text": "x"}]}),
                           ("textDocument/didOpen", {"textDocument": {"uri": HWDB}}),
                           ("textDocument/didClose", {}), ("initialized", None)):
        client.notify(method, params)
    client.send({"jsonrpc": "2.0", "id": 9, "result": None})
    same("what asks for nothing is not answered, and loses nothing", ["V2"], codes(client.change(RULES, [])))
    same("the status", 0, client.end())


def many():
    client, text = begun(), 'KERNEL=="k", SYMLNK+="a"\n'
    told = [client.open(f"file:///{number}.rules", text)["params"]["diagnostics"] for number in range(2000)]
    same("1,024 documents are held", {"V2"}, {it["code"] for found in told[:1024] for it in found})
    same("those that are more are told so", {NOT_HELD}, {it["message"] for found in told[1024:] for it in found})
    same("one that is held can be changed", [], codes(client.change("file:///5.rules", [{"range": place(0, 17, 17), "text": "I"}])))
    same("the first and the last are open, the next is not", [None, None, INVALID_PARAMS],
         [error_of(client.ask("hover", f"file:///{number}.rules", 0, 0)) for number in (0, 1023, 1024)])
    client_close(client, "file:///7.rules")
    same("a document after one was closed", ["V2"], codes(client.open("file:///new.rules", 'TAGG+="b"\n')))
    same("the status", 0, client.end())


def bounds():
    client = begun()
    big = "#" + "x" * (15 << 20) + "\n"
    kept = [codes(client.open(f"file:///{number}.rules", big)) if number < 4 else client.open(f"file:///{number}.rules", big) for number in range(5)]
    same("documents of 60 MiB are held", True, all(it is not None for it in kept[:4]))
    same("a document that is too much is told so", [NOT_HELD], [told["message"] for told in kept[4]["params"]["diagnostics"]])
    client.open(RULES, 'SYMLNK+="a"\n')
    got = client.change(RULES, [{"range": place(0, 0, 0), "text": big}])
    same("a document that a change makes too much is told so, in place of what was reported", [NOT_HELD],
         [told["message"] for told in got["params"]["diagnostics"]])
    same("that one is not open any more", INVALID_PARAMS, error_of(client.ask("hover", RULES, 0, 0)))
    same("the others stay open", None, client.ask("hover", "file:///0.rules", 0, 0).get("error"))
    same("the refused one is not open", INVALID_PARAMS, error_of(client.ask("hover", "file:///4.rules", 0, 0)))
    same("the status", 0, client.end())


def memory():
    """A full output and an output that is closed."""
    with open("/dev/full", "wb") as full:
        client = subprocess.Popen([PROGRAM], stdin=subprocess.PIPE, stdout=full, stderr=subprocess.PIPE)
        content = b'{"jsonrpc":"2.0","id":1,"method":"initialize","params":{}}'
        said = client.communicate(b"Content-Length: %d\r\n\r\n" % len(content) + content, 20)[1]
    same("an output that is full", (3, True), (client.returncode, said.endswith(b": write failed\n")))


def speed():
    """A change of a file of 4,000 lines, which is to be answered within 30 ms: here with room for a busy machine."""
    client = begun()
    text = "".join(f'SUBSYSTEM=="usb", ATTR{{idVendor}}=="{n:04x}", ATTR{{idProduct}}=="0002", SYMLINK+="a{n}"\n' for n in range(4000))
    client.open(RULES, text)
    began = time.time()
    for n in range(5):
        client.change(RULES, [{"range": place(2000, 0, 0), "text": "#"}], version=n)
    same("five changes of 4,000 lines end", True, time.time() - began < 20)
    client.end()


def run(*cases):
    """Runs cases; whether one failed."""
    global failed
    for case in cases:
        try:
            case()
        except Exception as error:  # pylint: disable=broad-except
            failed = True
            print(f"not ok {case.__name__}\n    {type(error).__name__}: {error}")
    return failed


if __name__ == "__main__":
    sys.exit(run(beginning_and_end, words, diagnostics, settings, as_verify, answers, labels, hostile, headers, nonsense, many, bounds, memory, speed))
