#!/usr/bin/env python3
"""Compares docs/messages.md with the program: what `devdry explain CODE` prints is the section of the code.

usage: tests/explained.py PROGRAM [--write]    with --write, the sections are made of what the program prints first

A section begins with `### CODE` and ends before the next heading. With --write nothing of it need be there but these first words, so
a new code needs only a line `### W28` in its place. What stands under other headings is written by hand.

Prints four lines `ok CASE` for each code, or `not ok CASE` with what differs.
"""
import difflib
import re
import subprocess
import sys
from pathlib import Path

PAGE = Path(__file__).resolve().parent.parent / "docs/messages.md"


def explained(program, code):
    """The status of `devdry explain`, what it prints, and its messages."""
    ran = subprocess.run([program, "explain", code], stdin=subprocess.DEVNULL, capture_output=True, encoding="utf-8", errors="replace", check=False)
    return ran.returncode, ran.stdout, ran.stderr


def report(case, is_so, said=""):
    print(f"ok {case}" if is_so else f"not ok {case}")
    if not is_so:
        print(*(f"    {line}" for line in said.splitlines()), sep="\n")
    return is_so


def main(program, *words):
    parts = re.split(r"^(?=##)", PAGE.read_text(encoding="utf-8"), flags=re.M)
    well = True
    for at, part in enumerate(parts):
        code = re.match(r"### ([A-Z]\d+)\b", part)
        if not code:
            continue
        status, said, messages = explained(program, code[1])
        if words == ("--write",) and said:
            parts[at] = part = f"### {said}\n"
        section = part.removeprefix("### ").rstrip("\n") + "\n"
        well &= report(f"explain {code[1]} exits with status 0", status == 0, str(status))
        well &= report(f"explain {code[1]} prints no messages", not messages, messages)
        well &= report(f"explain {code[1]} prints its section", said == section,
                       "\n".join(difflib.unified_diff(section.splitlines(), said.splitlines(), "docs/messages.md", "explain", lineterm="")))
        well &= report(f"explain {code[1]} accepts lower case", explained(program, code[1].lower()) == (status, said, messages))
    if words == ("--write",):
        PAGE.write_text("".join(parts), encoding="utf-8")
    return well


if __name__ == "__main__":
    sys.exit(not main(*sys.argv[1:]))
