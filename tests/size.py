#!/usr/bin/env python3
"""Counts crates, functions, lines to believe, and lines of src and specs, and holds each to its limit in tests/limits.txt: a
line `ok CASE` for each, or `not ok CASE`. What is below its limit is told, too, so that the limit goes down with it.

usage: tests/size.py
"""
import re
import sys
from pathlib import Path

TOP = Path(__file__).resolve().parent.parent
sys.path.insert(0, str(TOP / "bench"))
import believe  # noqa: E402

FUNCTION = re.compile(r"^ *(?:pub(?:\([a-z]+\))? )?(?:const )?fn \w+", re.M)
# what first tells, below the line of a function's name, whether its body is empty
TELLS = re.compile(r"^(?:\{\}$|\{$|\}$|pub |fn |impl )", re.M)


def texts(part, suffix):
    return [path.read_text(encoding="utf-8") for path in sorted(TOP.glob(f"crates/*/{part}/**/*{suffix}"))]


def is_law(text, start):
    end = TELLS.search(text, text.index("\n", start) + 1)
    return text.startswith("pub ", start) and bool(end) and end[0] == "{}"


def functions(sources):
    """How many functions there are, without laws."""
    return sum(not is_law(text, found.start()) for text in sources for found in FUNCTION.finditer(text))


def believed():
    page = believe.PAGE.read_text(encoding="utf-8")
    return sum(lines for part in believe.parts_of(page) for _, _, _, lines in believe.counted(believe.COUNTED.finditer(part)))


def limits():
    rows = (TOP / "tests/limits.txt").read_text(encoding="utf-8").splitlines()
    return {name: int(number) for name, number in (row.split() for row in rows if row and not row.startswith("#"))}


def main():
    sources, specs = texts("src", ".rt"), texts("specs", ".antt")
    counts = {
        "crates": sum(path.is_dir() for path in TOP.glob("crates/*")),
        "functions": functions(sources),
        "believed": believed(),
        "src": sum(text.count("\n") for text in sources),
        "specs": sum(text.count("\n") for text in specs),
    }
    well = True
    for name, most in limits().items():
        if name not in counts:
            continue
        fits = counts[name] <= most
        well &= fits
        print(f"{'ok' if fits else 'not ok'} the house has at most as much as tests/limits.txt says: {name}")
        if counts[name] != most:
            print(f"    {name}: {counts[name]}, and the limit is {most}")
    return well


if __name__ == "__main__":
    sys.exit(not main())
