#!/usr/bin/env python3
"""Checks the wrong bodies in crates/*/must-fail and crates/*/mutants, and the wrong definitions in crates/*/definitions,
without a prover: a line `ok CASE` for each case, or `not ok CASE` followed by what was found.
usage: tests/edits.py [TOP]"""

import pathlib
import sys

# The most edits that the gate tries: 27 named mistakes, two of them in two crates.
MAX_EDITS = 29

# How a line of an edit begins; other lines are ignored.
MARKS = ("law: ", "file: ", "old: ", "new:")


def applied(edit, folder):
    """What prevents an edit of files below a folder from being applied. Its pairs are applied in turn, each to the result of
    those before it."""
    path, old, pairs, texts = None, None, 0, {}
    for line in edit.read_text(encoding="utf-8").splitlines():
        if not line.startswith(MARKS):
            yield f"{edit}: unknown line: {line}"
        elif line.startswith("file: "):
            path = folder / line.removeprefix("file: ").strip()
            if not path.is_file():
                yield f"{edit}: there is no file {path}"
                return
            texts.setdefault(path, path.read_text(encoding="utf-8"))
        elif line.startswith("law: "):
            continue
        elif path is None:
            yield f"{edit}: an old text before any file"
            return
        elif line.startswith("old: "):
            old = line.removeprefix("old: ")
        elif old is None:
            yield f"{edit}: a new text without an old text: {line}"
        else:
            count = texts[path].count(old)
            if count != 1:
                yield f"{edit}: {path} contains this {count} times, not once: {old}"
            texts[path] = texts[path].replace(old, line.removeprefix("new:").removeprefix(" "), 1)
            old, pairs = None, pairs + 1
    if old is not None:
        yield f"{edit}: the last old text has no new text"
    if pairs == 0:
        yield f"{edit}: no change"


def unlawful(edit):
    """What is wrong with the law that a wrong definition names: it is a function of its crate, as `module::function`."""
    laws = [line.removeprefix("law: ") for line in edit.read_text(encoding="utf-8").splitlines() if line.startswith("law: ")]
    for law in laws:
        module, _, name = law.partition("::")
        path = edit.parent.parent / "src" / f"{module}.rt"
        text = path.read_text(encoding="utf-8") if path.is_file() else ""
        if f"pub fn {name}()" not in text and f"pub fn {name}<" not in text:
            yield f"{edit}: there is no law {law}"
    if len(laws) != 1:
        yield f"{edit}: it names {len(laws)} laws"


def strays(folder):
    """Files in a folder of edits that are neither edits nor notes about them."""
    return [f"{path}: not an .edit file" for path in folder.iterdir() if path.suffix not in (".edit", ".md")]


def report(case, found):
    print(f"not ok {case}" if found else f"ok {case}")
    for line in found:
        print(f"    {line}")


def main(top):
    crates = sorted(path for path in (top / "crates").iterdir() if path.is_dir())
    edits = {crate: sorted(crate.glob("must-fail/*.edit")) for crate in crates}
    mutants = {crate: sorted(crate.glob("mutants/*.edit")) for crate in crates}
    definitions = sorted((top / "crates").glob("*/definitions/*.edit"))
    every = [edit for crate in crates for edit in edits[crate] + mutants[crate]]
    folders = [path for crate in crates for path in (crate / "must-fail", crate / "mutants") if path.is_dir()]
    count = sum(len(found) for found in edits.values())

    report(
        "each old text of a wrong body is in its file exactly once",
        [line for edit in every for line in applied(edit, edit.parent.parent)],
    )
    report(
        "each old text of a wrong definition is in its file exactly once, and its law is there",
        [line for edit in definitions for line in [*applied(edit, top / "crates"), *unlawful(edit)]],
    )
    report("wrong bodies are .edit files", [line for folder in folders for line in strays(folder)])
    report(f"the gate has at most {MAX_EDITS} wrong bodies", [f"there are {count}"] if count > MAX_EDITS else [])
    report(
        "no crate has two wrong bodies with the same name",
        [
            str(mutant)
            for crate in crates
            for mutant in mutants[crate]
            if mutant.name in [edit.name for edit in edits[crate]]
        ],
    )


if __name__ == "__main__":
    main(pathlib.Path(sys.argv[1] if len(sys.argv) > 1 else "."))
