#!/usr/bin/env python3
"""What typing in an editor costs: processor time of devdry-lsp for one change in a file of 4,000 lines, in milliseconds.

usage: bench/editor.py PROGRAM FOLDER    as bench/editor.py build/devdry-lsp build/real/root/usr/lib/udev/rules.d

Two files are taken: the first 4,000 lines of the rules files in FOLDER, again and again if there are fewer, and 4,000 rules of four
tokens each. A session opens a file and changes one character of it 41 times or once; a fortieth of the difference is a change, with
what is reported after it. The least of three sessions counts.
"""
import json
import resource
import subprocess
import sys
from pathlib import Path

LINES, CHANGES = 4000, 40


def frame(message):
    content = json.dumps({"jsonrpc": "2.0", **message}).encode()
    return b"Content-Length: %d\r\n\r\n" % len(content) + content


def session(text, changes):
    """What a client sends that opens a text and then changes its middle."""
    yield frame({"id": 1, "method": "initialize", "params": {"capabilities": {}}})
    yield frame({"method": "textDocument/didOpen", "params": {"textDocument": {"uri": "file:///a.rules", "languageId": "udevrules", "version": 1, "text": text}}})
    place = {"line": LINES // 2, "character": 0}
    for version in range(changes):
        change = {"range": {"start": place, "end": place}, "text": "#" if version % 2 == 0 else "x"}
        document = {"uri": "file:///a.rules", "version": version + 2}
        yield frame({"method": "textDocument/didChange", "params": {"textDocument": document, "contentChanges": [change]}})
    yield frame({"id": 2, "method": "shutdown"})
    yield frame({"method": "exit"})


def seconds(program, text, changes):
    """The processor time of a session."""
    before = resource.getrusage(resource.RUSAGE_CHILDREN)
    subprocess.run([program], input=b"".join(session(text, changes)), stdout=subprocess.DEVNULL, check=True)
    after = resource.getrusage(resource.RUSAGE_CHILDREN)
    return after.ru_utime + after.ru_stime - before.ru_utime - before.ru_stime


def main(program, folder):
    real = [line for path in sorted(Path(folder).glob("*.rules")) for line in path.read_text(errors="replace").splitlines()]
    real = (real * (LINES // max(len(real), 1) + 1))[:LINES]
    dense = [f'SUBSYSTEM=="usb", ATTR{{idVendor}}=="{at:04x}", ATTR{{idProduct}}=="{at * 7 % 65536:04x}", SYMLINK+="lamp{at}"' for at in range(LINES)]
    for name, lines in (("real rules", real), ("four tokens each", dense)):
        text = "\n".join(lines) + "\n"
        least = min(seconds(program, text, CHANGES + 1) - seconds(program, text, 1) for _ in range(3)) / CHANGES
        print(f"{name}: {len(lines)} lines, {len(text)} characters: {least * 1000:.1f} ms a change")


if __name__ == "__main__":
    if len(sys.argv) != 3:
        sys.exit(__doc__)
    main(*sys.argv[1:])
