#!/usr/bin/env python3
"""Types what documents show, and reports where something else is printed.

usage: tests/typed.py PROGRAM DOCUMENT..

A block of code, indented by four spaces or between lines of three backticks, whose first line begins with `$ ` is a
session: each such line is a command, and the lines below it are what it prints, including errors. The sessions of a
document are typed one after another in one folder of their own, which has `build/devdry`, the programs on its path and
a copy of examples/. Two commands have a meaning of their own: `cat NAME`, of a file that no command has made, creates the
file with the text that is shown, so that a document shows each file that it uses; and the line after `echo $?` is the
status of the command before it.

Prints for each block a line `ok DOCUMENT:LINE`, or `not ok DOCUMENT:LINE` with what differs.
"""
import difflib
import os
import re
import shutil
import subprocess
import sys
import tempfile

TOP = os.path.dirname(os.path.dirname(os.path.realpath(__file__)))


def blocks(text):
    """The blocks of code, each as its first line's number and its lines."""
    found, open_at, lines = [], None, []
    fenced = False
    previous = ""
    for number, line in enumerate(text.split("\n") + ["end"], 1):
        if line.lstrip().startswith("```"):
            if fenced:
                found.append((open_at, lines))
                fenced, open_at, lines = False, None, []
            else:
                fenced, open_at, lines = True, number + 1, []
        elif fenced:
            lines.append(line)
        elif line.startswith("    ") and (open_at or previous == ""):
            open_at = open_at or number
            lines.append(line[4:])
        elif open_at and line.strip() == "":
            lines.append("")
        elif open_at:
            while lines and lines[-1] == "":
                lines.pop()
            found.append((open_at, lines))
            open_at, lines = None, []
        previous = line.strip()
    return found


def commands(lines):
    """The commands of a session, each with the lines that it prints."""
    found = []
    for line in lines:
        if line.startswith("$ "):
            found.append((line[2:], []))
        elif line.startswith("> ") and not found[-1][1]:
            found[-1] = (f"{found[-1][0]}\n{line[2:]}", [])
        else:
            found[-1][1].append(line)
    return found


def typed(lines, folder, environment, made):
    """What is printed when the session is typed, with the commands between, as it should be in the document."""
    out, status = [], 0
    for command, shown in commands(lines):
        out += [f"{'> ' if at else '$ '}{it}" for at, it in enumerate(command.split("\n"))]
        name = re.fullmatch(r"cat ([\w./-]+)", command)
        path = name and os.path.join(folder, name[1])
        if path and (path in made or not os.path.exists(path)):
            made.add(path)
            os.makedirs(os.path.dirname(path), exist_ok=True)
            with open(path, "w", encoding="utf-8", errors="surrogateescape") as file:
                file.write("".join(f"{it}\n" for it in shown))
        ran = subprocess.run(
            ["bash", "-c", f"(exit {status})\n{command}"], cwd=folder, env=environment, stdin=subprocess.DEVNULL,
            stdout=subprocess.PIPE, stderr=subprocess.STDOUT, timeout=60)
        status = ran.returncode
        said = ran.stdout.decode("utf-8", "surrogateescape")
        out += said.removesuffix("\n").split("\n") if said else []
    return out


def main(program, documents):
    failed = False
    for document in documents:
        with open(f"{TOP}/{document}", encoding="utf-8") as file:
            text = file.read()
        with tempfile.TemporaryDirectory() as room:
            folder = f"{room}/here"
            shutil.copytree(f"{TOP}/examples", f"{folder}/examples")
            shutil.copytree(f"{TOP}/tools", f"{folder}/tools")
            for path in (f"{folder}/build/devdry", f"{room}/bin/devdry"):
                os.makedirs(os.path.dirname(path))
                os.symlink(program, path)
            for name in ("devdry-capture", "devdry-test"):
                os.symlink(f"{TOP}/tools/{name}", f"{room}/bin/{name}")
            environment = {**os.environ, "PATH": f"{room}/bin:{os.environ['PATH']}", "LC_ALL": "C.UTF-8", "HOME": room}
            made = set()
            for number, lines in blocks(text):
                if not lines or not lines[0].startswith("$ "):
                    continue
                # an answer ends in an empty line, which a block of code can't show at its end
                got = "\n".join(typed(lines, folder, environment, made)).rstrip("\n")
                shown = "\n".join(lines).rstrip("\n")
                if got == shown:
                    print(f"ok {document}:{number}")
                else:
                    failed = True
                    print(f"not ok {document}:{number}")
                    for line in difflib.unified_diff(shown.split("\n"), got.split("\n"), "shown", "typed", lineterm=""):
                        print(f"    {line}".encode("utf-8", "backslashreplace").decode("utf-8"))
    return failed


if __name__ == "__main__":
    main(os.path.realpath(sys.argv[1]), sys.argv[2:])
