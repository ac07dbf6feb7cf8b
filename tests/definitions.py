#!/usr/bin/env python3
"""Tries the wrong definitions in crates/*/definitions: each has to be refused by the law of its crate that it names. The
crates whose definitions change, and those above them, are passed to the prover as source, so that only what the laws cite
is checked, and no body has to follow. All others are taken as they are built, so `rt check` comes first in the crate of the
laws; with what earlier checks kept it takes seconds.

Definitions of different laws are wrong in one check; a second one of the same law is tried in a check of its own. A line
is printed for each, and the last line is `N refused, M not refused`.
usage: tests/definitions.py [CRATE..]    RT is the toolchain's command, rt by default"""

import os
import pathlib
import re
import shutil
import subprocess
import sys
import tempfile

RT = shutil.which(os.environ.get("RT", "rt")) or "/opt/rattle/bin/rt"
KIT = pathlib.Path(os.environ.get("RATTLE") or pathlib.Path(RT).resolve().parent.parent)


class Definition:
    """A wrong definition: the law that has to refuse it, and its edits, each a file, an old and a new text."""

    def __init__(self, path):
        self.name, self.law, self.edits = path.stem, "", []
        file = old = ""
        for line in path.read_text(encoding="utf-8").splitlines():
            mark, _, text = line.partition(":")
            text = text.removeprefix(" ")
            if mark == "law":
                self.law = text
            elif mark == "file":
                file = text
            elif mark == "old":
                old = text
            elif mark == "new":
                self.edits.append((file, old, text))


def groups(definitions):
    """Definitions in lists in which no law is there twice."""
    found = []
    for it in definitions:
        for group in found:
            if all(other.law != it.law for other in group):
                group.append(it)
                break
        else:
            found.append([it])
    return found


def below(crates, name):
    """The crates of this repository that one depends on, lowest first."""
    found = {}
    for it in crates[name]:
        if it in crates:
            found |= dict.fromkeys([*below(crates, it), it])
    return list(found)


def words(clone, crates, law_crate, changed):
    """The words of a check that takes the changed crates and those above them as source."""
    under = below(crates, law_crate)
    sources = []
    for it in under:
        if it in changed or set(below(crates, it)) & set(sources):
            sources.append(it)
    users = [law_crate, *sources]
    direct = {it for user in users for it in crates[user]}
    kit = {"core", "std"} | {it for it in direct if it not in crates}
    rlib = {it: f"{clone}/crates/{it}/out/rlib/{it}.rlib" for it in under if it not in sources}
    yield from ("check", "--crate-name", law_crate, "src/lib.rt", "-L", f"dependency={KIT}/rlibs")
    for it in sorted(kit):
        yield from ("--extern", f"{it}={KIT}/rlibs/{it}.rlib")
    for it, path in rlib.items():
        yield from ("-L", f"dependency={os.path.dirname(path)}")
        if it in direct:
            yield from ("--extern", f"{it}={path}")
    for it in sources:
        uses = ",".join(dict.fromkeys(["core", "std", *crates[it]]))
        yield from ("--lib", f"{it}:{uses}={clone}/crates/{it}/src/lib.rt")
    yield from ("--antt-project", f"{KIT}/rattle/logic/antt-project.json", "--logic-built", f"{KIT}/logic_built")
    yield from ("--jobs", "1", "--links", f"{law_crate}=")


def tried(clone, crates, law_crate, group):
    """What the prover says of each law of a group while all its definitions are wrong."""
    were, changed = {}, set()
    for it in group:
        for file, old, new in it.edits:
            path = clone / "crates" / file
            text = path.read_text(encoding="utf-8")
            were.setdefault(path, text)
            path.write_text(text.replace(old, new, 1), encoding="utf-8")
            changed.add(file.split("/")[0])
    only = [word for it in group for word in ("--only", it.law)]
    call = [f"{KIT}/bin/rattle", *words(clone, crates, law_crate, changed), *only]
    how = {"stdin": subprocess.DEVNULL, "stdout": subprocess.PIPE, "stderr": subprocess.STDOUT, "text": True}
    said = subprocess.run(call, cwd=clone / "crates" / law_crate, check=False, **how).stdout
    for path, text in were.items():
        path.write_text(text, encoding="utf-8")
    ended = re.search(r"(?m)^only=\d+ proved=\d+$", said)
    if not ended:
        print(said[-3000:])
    for it in group:
        line = re.search(rf"(?m)^fn {law_crate}::{it.law}: (.*)", said)
        yield it, line[1] if ended and line else "NOT TRIED"


def main(names):
    top = pathlib.Path(__file__).resolve().parent.parent
    refused = others = 0
    with tempfile.TemporaryDirectory(prefix="definitions-") as work:
        clone = pathlib.Path(work) / "devdry"
        subprocess.run(["git", "clone", "-q", top, clone], check=True)
        lines = (clone / "crates.txt").read_text(encoding="utf-8").splitlines()
        crates = {it.split(":")[0]: it.split(":")[1].split() for it in lines if ":" in it and not it.startswith("#")}
        for name in crates:
            if (kept := top / "crates" / name / "out").is_dir():
                subprocess.run(["cp", "-al", kept, clone / "crates" / name / "out"], check=False)
        for name in crates:
            definitions = [Definition(it) for it in sorted((clone / "crates" / name).glob("definitions/*.edit"))]
            for group in groups(definitions) if not names or name in names else []:
                for it, said in tried(clone, crates, name, group):
                    is_refused = said.startswith(("not proved", "no proof: expected answers"))
                    refused, others = refused + is_refused, others + (not is_refused)
                    print(f"{name}/{it.name}: {'refused' if is_refused else 'NOT REFUSED: ' + said}", flush=True)
    print(f"{refused} refused, {others} not refused")
    return 1 if others else 0


if __name__ == "__main__":
    sys.exit(main(sys.argv[1:]))
