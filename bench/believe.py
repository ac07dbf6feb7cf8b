#!/usr/bin/env python3
"""Counts the lines of the definitions that a reader has to believe, and checks whether docs/architecture.md says so.

usage: bench/believe.py [--write]

The first table of the page with a column of lines names the files of specs/ to believe for a run of devdry, crate by
crate; the sentence below has their sum. The next table names files that are used there and that a law or a contract compares
with the files of the first. The last table, with a sum of its own, names the files to believe for devdry-lsp beside these.
Imports, blank lines and comments don't count. Prints the lines of each crate and the sums. Prints a line `wrong: ..`, and
ends in status 1, for each count that differs on the page, for each file that it names and that does not exist, and for each
file that it does not name: one that the definition of a run, specs/Runs.antt of crates/devdry or crates/devdry_lsp, uses, in
one step or in many. With --write the counts of the page are corrected first.
"""
import re
import sys
from pathlib import Path

TOP = Path(__file__).resolve().parent.parent
PAGE = TOP / "docs/architecture.md"
RUNS = (("devdry", "Runs"), ("devdry_lsp", "Runs"))
COUNTED = re.compile(r"^\| `([a-z_]+)` \| ([A-Z][A-Za-z0-9, ]*) \| (\d+) \|$", re.M)
COMPARED = re.compile(r"^\| `([a-z_]+)` \| ([A-Z][A-Za-z0-9, ]*) \| [^|\d][^|]* \|$", re.M)
SUM = re.compile(r"(?<=^Together )\d+(?= lines)", re.M)


def file_of(crate, name):
    return TOP / "crates" / crate / "specs" / f"{name}.antt"


def lines_of(crate, names):
    """How many lines of these files count."""
    return sum(
        not re.match(r"\s*$|\s*--|use |pub mod ", line)
        for name in names if file_of(crate, name).is_file()
        for line in file_of(crate, name).read_text(encoding="utf-8").splitlines())


def used_by(start):
    """The files that a file uses, in one step or in many, and the file itself."""
    found, ahead = set(), [start]
    while ahead:
        at = ahead.pop()
        if at in found or not file_of(*at).is_file():
            continue
        found.add(at)
        ahead += re.findall(r"^use Rattle\.(\w+)\.specs\.(?!declared\b)(\w+)", file_of(*at).read_text(encoding="utf-8"), re.M)
    return found


def names_in(cell):
    return [name.strip() for name in cell.split(",")]


def counted(rows):
    """The rows of a table, each with its crate, the names of its files, the lines that it gives and those that they have."""
    return [(row[1], names_in(row[2]), int(row[3]), lines_of(row[1], names_in(row[2]))) for row in rows]


def parts_of(page):
    """The page up to the sum of the first table and after it: each part has one table and its sum."""
    end = page.index("\n", SUM.search(page).end())
    return page[:end], page[end:]


def corrected(part):
    part = COUNTED.sub(lambda row: f"| `{row[1]}` | {row[2]} | {lines_of(row[1], names_in(row[2]))} |", part)
    return SUM.sub(str(sum(lines for _, _, _, lines in counted(COUNTED.finditer(part)))), part)


def main(write):
    page = PAGE.read_text(encoding="utf-8")
    if write:
        page = "".join(corrected(part) for part in parts_of(page))
        PAGE.write_text(page, encoding="utf-8")
    wrong, named = [], set()
    for part, run in zip(parts_of(page), RUNS):
        rows = counted(COUNTED.finditer(part))
        for crate, names, given, lines in rows:
            named |= {(crate, name) for name in names}
            print(f"{crate:18} {lines:6}")
            if lines != given:
                wrong.append(f"{crate} has {lines} lines, not {given}")
        total = sum(lines for _, _, _, lines in rows)
        print(f"{'total':18} {total:6}")
        if SUM.findall(part) != [str(total)]:
            wrong.append(f"the total is {total} lines, not {' or '.join(SUM.findall(part)) or 'no number'}")
        named |= {(row[1], name) for row in COMPARED.finditer(page) for name in names_in(row[2])}
        wrong += [f"{crate}: {name} is used by {run[0]} but not named" for crate, name in sorted(used_by(run) - named)]
    wrong += [f"{crate} has no specs/{name}.antt" for crate, name in sorted(named) if not file_of(crate, name).is_file()]
    for it in wrong:
        print(f"wrong: {it}")
    return not wrong


if __name__ == "__main__":
    sys.exit(not main("--write" in sys.argv[1:]))
