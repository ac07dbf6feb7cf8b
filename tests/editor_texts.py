#!/usr/bin/env python3
"""What the language server reports for each rules file and each file of a database of tests/tables/ is what devdry reports for it, with the
same places, severities, codes and messages: a line `ok` for each table, or `not ok` followed by the first texts that differ.
usage: tests/editor_texts.py PROGRAM DEVDRY    the language server, and devdry"""
import importlib
import json
import os
import re
import subprocess
import sys
import tempfile
from concurrent.futures import ThreadPoolExecutor
from pathlib import Path

from lsp_client import Client

PROGRAM, DEVDRY = sys.argv[1:3]
WORDS = {".rules": ["verify", "--udev", "--lint", "--no-summary"], ".hwdb": ["update", "--lint"]}
SEVERITIES = {"error": 1, "warning": 2}


def texts_of(table):
    """The texts of a table by the names of their files, those alone that are UTF-8 and fit into a message."""
    found = {}
    for row in importlib.import_module(f"tables.{table}").ROWS:
        for path, text in row.files.items():
            name = os.path.basename(os.fsencode(path))
            if type(text) in (str, bytes) and name.isascii() and os.path.splitext(name)[1].decode() in WORDS:
                data = text.encode() if isinstance(text, str) else text
                if len(data) < 1 << 22 and data.decode(errors="ignore").encode() == data:
                    found[name.decode(), data.decode()] = True
    return list(found)


def wanted(name, text):
    """What devdry reports for a text as a file: places and codes from --format=json, messages from --format=gcc."""
    with tempfile.TemporaryDirectory() as folder:
        path = os.path.join(folder, name)
        Path(path).write_bytes(text.encode())
        shown = [subprocess.run([DEVDRY, *WORDS[os.path.splitext(name)[1]], f"--format={form}", path], capture_output=True, check=False)
                 for form in ("json", "gcc")]
    told = [json.loads(line) for line in (shown[0].stdout + shown[0].stderr).decode(errors="replace").splitlines() if line.startswith("{")]
    messages = re.findall(r":\d+:\d+: (?:error|warning): (.*) \[\w+\]$", shown[1].stderr.decode(errors="replace"), re.M)
    assert len(told) == len(messages), (name, text)
    return [(it["line"] - 1, it["column"] - 1, it["end_column"] - 1, SEVERITIES[it["severity"]], it["code"], message)
            for it, message in zip(told, messages)]


def got(client, name, text):
    """What the server reports for it, with places in bytes, without how to mend it."""
    uri = f"file:///tables/{name}"
    found = client.open(uri, text)["params"]["diagnostics"]
    client.notify("textDocument/didClose", {"textDocument": {"uri": uri}})
    client.read()
    return [(it["range"]["start"]["line"], it["range"]["start"]["character"], it["range"]["end"]["character"], it["severity"], it.get("code"),
             it["message"].split("\n")[0]) for it in found]


def main():
    client = Client(PROGRAM)
    client.initialize(encodings=["utf-8"])
    failed = False
    with ThreadPoolExecutor() as pool:
        for table in sorted(path.stem for path in (Path(__file__).resolve().parent / "tables").glob("*.py")):
            texts = texts_of(table)
            differing = [(text, expected, found) for (name, text), expected in zip(texts, pool.map(wanted, *zip(*texts)) if texts else [])
                         if expected != (found := got(client, name, text))]
            if texts:
                print(f"{'not ok' if differing else 'ok'} as devdry: {len(texts)} texts of {table}")
            for text, expected, found in differing[:3]:
                print(f"    {text[:300]!r}\n    expected {expected}\n    got      {found}")
            failed = failed or bool(differing)
    client.end()
    return failed


if __name__ == "__main__":
    sys.exit(main())
