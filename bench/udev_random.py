#!/usr/bin/env python3
"""Makes rules files from a seed, asks the real `udevadm verify` of systemd 257 and `devdry verify --udev` about each, and prints
where they differ: in the verdict, in the lines that something is reported about, in the worst class of what is reported about a
line (error, warning, style), or in whether the file is abandoned (V26).

The makers of bench/udev_makers.py take turns. A file depends only on the seed and its number, and one of real rules also on
the folders.

Not compared, and why:
- which messages of a class are reported about a line, and how many: about a rule that is dropped devdry reports only the fault,
  about a jump without a label nothing else, and remarks on a gap are counted differently;
- the lines of a file that is abandoned: devdry reports only that;
- names of users and groups, which are the machine's: udevadm is run with `--resolve-names=never`.
bench/udev_makers.py says what is not made. What a pattern fits is not seen, because no verdict depends on it.

usage: bench/udev_random.py ROOT [SEED] [COUNT]    1 and 3,000 by default. ROOT has udev 257 in it (bench/udev_root.sh
                                                   unpacks it); chroot needs root. The program is build/devdry, or PROGRAM.
                                                   Real rules are those below RULES, folders with `:` between, by default
                                                   those of ROOT. Files that differ are put into the folder KEEP, if that
                                                   is given.
"""
import collections
import os
import random
import sys
import tempfile
from pathlib import Path

import udev_verify
from udev_makers import MAKERS

SHARE = 600
# the codes that are warnings for udevadm; other V are errors
WARNINGS = ["V5", "V8", "V17", "V18", "V19", "V22", "V23", "V24"]


def worst(reported):
    """The worst class that is reported about each line: an error (0), a warning (1), or a remark on style (2)."""
    grades = {}
    for line, grade in reported:
        grades[line] = min(grade, grades.get(line, grade))
    return grades


def grade_of(code):
    """The class of a code of devdry. V5, which is a warning for unknown options and an error for other values, is 1.

    So is V18, before which udevadm may have reported an error in the same line."""
    return 2 if code[0] == "S" else int(code in WARNINGS)


def differ(their, our):
    """Whether two answers differ in what is compared."""
    abandoned = "filee" in their[1]
    if their[0] != our[0] or abandoned != any(code == "V26" for _, code in our[1]):
        return True
    wanted = worst([(int(reported[:-1]), "ewn".index(reported[-1])) for reported in their[1].split() if reported != "filee"])
    found = worst([(line, grade_of(code)) for line, code in our[1]])
    open_class = {line for line, code in our[1] if code in ("V5", "V18")}
    same = wanted.keys() == found.keys() and all(found[line] == wanted[line] or (line in open_class and not wanted[line]) for line in wanted)
    return not abandoned and not same


def compare(root, seed, numbers, real, count):
    """Asks both about the files with these numbers, counts, and prints where they differ."""
    made = [(number, MAKERS[number % len(MAKERS)]) for number in numbers]
    texts = [maker(random.Random(f"{seed} {number}"), real).encode("latin-1") for number, maker in made]
    theirs, ours = udev_verify.asked_of_udevadm(root, texts, ["--resolve-names=never"]), udev_verify.asked_of_devdry(texts)
    for (number, maker), text, their, our in zip(made, texts, theirs, ours):
        count[maker.__name__, their[0]] += 1
        count.update(("code", code) for code in {code for _, code in our[1]})
        if differ(their, our):
            count[maker.__name__, "differ"] += 1
            print(f"{maker.__name__} {number}: from udevadm {their[0]} {their[1][:200]!r}, from devdry {our[0]} {our[1][:20]}")
            print(f"    {text[:500]!r}")
            if "KEEP" in os.environ:
                Path(os.environ["KEEP"], f"{seed}-{number}.rules").write_bytes(text)


def main(source, seed=1, files=3000):
    """How many files differ; each is reported."""
    folders = os.environ.get("RULES", f"{source}/usr/lib/udev/rules.d").split(":")
    real = [path.read_bytes().decode("latin-1") for folder in folders for path in udev_verify.rules_in(folder)]
    count = collections.Counter()
    with tempfile.TemporaryDirectory(prefix="udev-random-", dir=Path(source).resolve().parent) as root:
        udev_verify.make_root(source, root)
        for first in range(0, files, SHARE):
            compare(root, seed, range(first, min(first + SHARE, files)), real, count)
    for name in (maker.__name__ for maker in MAKERS):
        print(f"{name}: {count[name, 'good']} good and {count[name, 'bad']} bad for udevadm, {count[name, 'differ']} differ")
    print("files by code of devdry:", *(f"{key[1]} {number}" for key, number in sorted(count.items()) if key[0] == "code"))
    return sum(number for (_, what), number in count.items() if what == "differ")


if __name__ == "__main__":
    if len(sys.argv) < 2:
        sys.exit(__doc__)
    sys.exit(1 if main(sys.argv[1], *map(int, sys.argv[2:4])) else 0)
