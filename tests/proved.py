#!/usr/bin/env python3
"""Reads docs/proved.md, docs/architecture.md and docs/walk.md, and reports what they name that the source does not have; or lists the laws.

usage: tests/proved.py [--list [CRATE].. | --write]
with --list, it prints each law of these crates, or of all, with the first sentence above it, in place of the report;
with --write, it writes the number of laws into docs/proved.md first

- Each `crate::function` or `crate::Type::function` in them is a function of that crate, of that type or trait, and has a
  contract. Names in brackets after it, (`one`, `two`), are clauses of that contract.
- Each law has a sentence above it, which no other law has, and docs/proved.md says how many there are. A law is a public
  function of a crate of crates.txt that has clauses, no result, and an empty body or one that only calls other laws; examples,
  which begin with `some_`, don't count.
- The crates of the kit that docs/proved.md names as trusted are those that crates.txt names.
- Each block of code in it after ```text PATH is a part of the file PATH, unchanged.

Prints a line `ok CASE` for each of these, or `not ok CASE` with what is missing.
"""
import re
import signal
import sys
from pathlib import Path

TOP = Path(__file__).resolve().parent.parent
# Where docs/proved.md says how many laws there are.
COUNT = re.compile(r"^There are (\d+) laws in (\d+) crates", re.M)
# A law: its name, parameters that it may have, its clauses, and no body but calls of other laws.
LAW = re.compile(r"^pub fn (\w+)(?:<[^>]*>)?\([^)]*\)\n(?=(?: +//.*\n)* +ensures)(?: +.*\n)*(?:\{\}|\{\n(?:    \w+\(\);\n)+\})$", re.M)
HEAD = re.compile(r"^(?:pub )?(?:impl(?:<[^>]*>)? (?:[\w]+(?:<[^{]*?>)? for )?(\w+)|trait (\w+))|^( *)(?:pub(?:\(crate\))? )?fn (\w+)", re.M)


def functions(crate):
    """The functions of a crate: for each name, with its type before it if it has one, the texts of its heads."""
    found = {}
    for path in sorted((TOP / "crates" / crate / "src").rglob("*.rt")):
        text = path.read_text(encoding="utf-8")
        owner = None
        for match in HEAD.finditer(text):
            if not match[4]:
                owner = match[1] or match[2]
                continue
            if not match[3]:
                owner = None
            body = re.compile(rf"^{match[3]}(?:\{{.*|.*;|.* \{{\}}?)$", re.M).search(text, match.start())
            head = text[match.start():body.end() if body else len(text)]
            found.setdefault(f"{owner}::{match[4]}" if owner else match[4], []).append(head)
    return found


def report(case, missing):
    print(f"ok {case}" if not missing else f"not ok {case}")
    for it in missing:
        print(f"    {it}")
    return not missing


def named_functions(page, crates):
    """What is wrong with the functions that the page names, and their number."""
    wrong = []
    names = re.findall(r"`(\w+)::([\w:]+)`(?: \(((?:`\w+`(?:, )?)+)\))?", page)
    for crate, name, clauses in names:
        heads = [head for head in crates.get(crate, {}).get(name, []) if "ensures" in head]
        if not heads:
            wrong.append(f"{crate}::{name}: no such function with a contract")
        for clause in re.findall(r"`(\w+)`", clauses):
            if not any(re.search(rf"ensures {clause} \{{", head) for head in heads):
                wrong.append(f"{crate}::{name}: no clause {clause}")
    return wrong, names


def sentence_above(lines):
    """The first sentence of the comment that these lines end in, with nothing but attributes behind it; empty if there is none."""
    said = []
    for line in reversed(lines):
        if line.startswith("///"):
            said.insert(0, line[3:].strip())
        elif said or not (line.startswith(("#[", ")", " ")) or line.endswith(",")):
            break
    found = re.match(r"(?:The law of [^.:]*\. +)?(.*?\.)(?: |$)", " ".join(said))
    return found[1] if found else ""


def laws_in(text):
    """The laws of a source text: name and first sentence of each."""
    for law in LAW.finditer(text):
        if not law[1].startswith("some_"):
            yield law[1], sentence_above(text[:law.start()].splitlines())


def laws_of(crates):
    """The laws of these crates: of each crate that has some, its name and theirs, each with its sentence."""
    for crate in crates:
        paths = sorted((TOP / "crates" / crate / "src").rglob("*.rt"))
        found = [law for path in paths for law in laws_in(path.read_text(encoding="utf-8"))]
        if found:
            yield crate, found


def wrong_laws(laws):
    """The laws without a sentence, and those whose name or sentence another one has."""
    seen = set()
    for crate, found in laws:
        for name, sentence in found:
            if not sentence:
                yield f"{crate}::{name}: no sentence stands above it"
            for it in (f"{crate}::{name}", sentence):
                if it and it in seen:
                    yield f"{crate}::{name}: another law has this: {it}"
                seen.add(it)


def main():
    crates = {}
    for line in (TOP / "crates.txt").read_text(encoding="utf-8").splitlines():
        if not line.startswith("#"):
            crates[line.split(":")[0]] = functions(line.split(":")[0])
    if sys.argv[1:2] == ["--list"]:
        signal.signal(signal.SIGPIPE, signal.SIG_DFL)
        for crate, found in laws_of(sys.argv[2:] or crates):
            print(f"{crate}", *(f"  {name}: {sentence}" for name, sentence in found), sep="\n")
        return True
    laws = list(laws_of(crates))
    count = f"There are {sum(len(found) for _, found in laws)} laws in {len(laws)} crates"
    path = TOP / "docs/proved.md"
    page = path.read_text(encoding="utf-8")
    if sys.argv[1:] == ["--write"]:
        page = COUNT.sub(count, page)
        path.write_text(page, encoding="utf-8")
    well = True
    for name in ("architecture", "proved", "walk"):
        wrong, names = named_functions((TOP / f"docs/{name}.md").read_text(encoding="utf-8"), crates)
        well &= report(f"docs/{name}.md names functions that have a contract", wrong or ([] if names else ["no function is named"]))
    well &= report("each law has a sentence of its own", list(wrong_laws(laws)))
    said = [it[0] for it in COUNT.finditer(page)]
    well &= report("docs/proved.md says how many laws there are (tests/proved.py --write)", [] if said == [count] else [f"{said} is not {count}"])
    quoted = re.findall(r"^```text (\S+)\n(.*?)^```$", page, re.M | re.S)
    well &= report("docs/proved.md quotes the current source", [
        f"{path} does not contain this text:\n{text}" for path, text in quoted
        if not (TOP / path).is_file() or text not in (TOP / path).read_text(encoding="utf-8")] or ([] if quoted else ["no source is quoted"]))
    text = (TOP / "crates.txt").read_text(encoding="utf-8")
    used = {it for line in text.splitlines() if not line.startswith("#") for it in line.split(":")[1].split()} - set(crates)
    named = re.search(r"^- The statements of the kit's crates (.*)\.$", page, re.M)
    unlike = used ^ set(re.findall(r"`(\w+)`", named[1] if named else ""))
    well &= report("docs/proved.md names the crates of the kit that crates.txt names", sorted(unlike))
    return well


if __name__ == "__main__":
    sys.exit(not main())
