#!/usr/bin/env python3
"""Asks the real `udevadm test` of systemd 257, and prints where `devdry events --udev` or the tables differ from it.

Without FILEs it asks for the cases of tests/tables/udev_*.py that have a block: the lines of each answer have to be those of
the table. With FILEs, rules files or folders of them, each is asked for by itself over the blocks of the tables and those of
bench/devices.py, and the answer of the program has to be udevadm's. With `--together FOLDER` the rules and the database files
below FOLDER/usr/lib/udev are read together, over the same blocks with the actions add, change and remove. With `--random` the
makers of bench/udev_event_makers.py make COUNT files by SEED, each of which depends on the seed and its number alone; a file
that is answered otherwise is printed with its differences.

A case with a constant, CONST, is asked for where the machine and the chroot have it.

An answer may differ because a builtin or a program was not run: these are counted separately, by the note that the program
leaves. `--failing` makes each builtin except for hwdb fail for both, by replacing it with btrfs, which fails silently.

Not compared, because udevadm does not report them: notes, `nowatch`, `watch` of a device without a number, a priority without
links, and the order of links and tags. Only devdry reports the `DRIVER` of a device. Empty commands are removed from udevadm's
list, and of several writes to one name the last is used.

usage: bench/udev_events.py ROOT [--failing] [FILE..]
       bench/udev_events.py ROOT [--failing] --together FOLDER
       bench/udev_events.py ROOT --random [SEED] [COUNT]    1 and 2,000 by default
ROOT has udev 257 in it (bench/udev_root.sh unpacks it); chroot needs root, and the helper that replaces a program needs gcc.
The program is build/devdry, or PROGRAM.
"""
import os
import random
import re
import subprocess
import sys
import tempfile
from pathlib import Path

TOP = Path(__file__).resolve().parent.parent
sys.path.insert(0, str(TOP / "tests"))
from tables import udev_acts, udev_given, udev_left_out, udev_links, udev_matches, udev_names, udev_properties  # noqa: E402
from tables.kinds.answered import escaped  # noqa: E402
from tables.kinds.udev_blocks import BLOCKS, DATABASE, answer_lines  # noqa: E402
from devices import REAL  # noqa: E402
from udev_asking import GROUPS, PASSWD, Asking, ask, make_database, unlike  # noqa: E402
from udev_event_makers import made_events  # noqa: E402

PROGRAM = os.path.abspath(os.environ.get("PROGRAM", TOP / "build/devdry"))
TABLES = [udev_links, udev_names, udev_properties, udev_matches, udev_acts, udev_given, udev_left_out]
ALL_BLOCKS = BLOCKS + ["\n".join(lines) + "\n" for lines in REAL.values()]
BUILTIN = re.compile(rb'(IMPORT\{builtin\}\s*[!=]?=\s*")(?!hwdb[ "])[^"]*"')
NOT_RUN = re.compile(rb"note .*: (?:builtin|import) not run: |note .*: no answer for program: ")
OWNERS = {b"owner " + line.split(":")[0].encode(): b"owner " + line.split(":")[2].encode() for line in PASSWD.splitlines()}
NUMBERED = OWNERS | {f"group {name}".encode(): f"group {number}".encode() for name, number in GROUPS.items()}


def comparable(lines):
    """The lines of an answer that udevadm reports, too, in a form in which both say the same."""
    kept = [line for line in lines if not line.startswith((b"note ", b"nowatch", b"env DRIVER="))]
    if not any(line.startswith(b"env MAJOR=") for line in kept):
        kept = [line for line in kept if line != b"watch"]
    if not any(line.startswith(b"link ") for line in kept):
        kept = [line for line in kept if not line.startswith(b"priority ")]
    owned = [NUMBERED.get(line, line) for line in kept]
    loose = (b"link ", b"tag ")
    return [line for line in owned if not line.startswith(loose)] + sorted(line for line in owned if line.startswith(loose))


def reported_by_udevadm(root, rules, block):
    """What udevadm reports about a block by rules files, comparable."""
    return comparable([escaped(os.fsencode(line)) for line in ask(root, rules, block)])


def compare_cases(root):
    """How many cases differ from what udevadm says; each is reported."""
    cases = [case for table in TABLES for case in table.CASES]
    wrong = 0
    for name, rules, block, lines, *_ in cases:
        if constants := unlike(root, block):
            print(f"{name}: not asked, as this machine has another constant: {', '.join(constants)}")
            continue
        wanted, reported = comparable(answer_lines(block, lines)), reported_by_udevadm(root, {"r.rules": os.fsencode(rules)}, block)
        if reported != wanted:
            wrong += 1
            print(f"{name}:\n    in the table {wanted}\n    from udevadm {reported}")
    print(f"{len(cases)} cases, {wrong} differ")
    return wrong


def reported_by_devdry(words, blocks):
    """The program's answer to each block, comparable, and whether something was not run."""
    blocks = b"\n".join(os.fsencode(block) for block in blocks)
    run = subprocess.run([PROGRAM, "events", "--udev", *words], input=blocks, capture_output=True, check=True)
    answers = [answer.split(b"\n") for answer in run.stdout.split(b"\n\n")[:-1]]
    return [(comparable(lines), any(map(NOT_RUN.match, lines))) for lines in answers]


def without_builtins(rules):
    """Rules in which each builtin of IMPORT except for hwdb is one that fails."""
    return BUILTIN.sub(rb'\1btrfs"', rules)


def files_below(path, ending):
    """The files below a folder whose names have an ending, or a file itself, by their paths."""
    found = sorted(found for found in Path(path).rglob("*" + ending) if found.is_file()) if Path(path).is_dir() else [Path(path)]
    return {str(file): file.read_bytes() for file in found}


def compare(root, name, rules, words, blocks):
    """How many answers differ, and how many of them although everything was run; each is reported."""
    wrong = unexplained = 0
    for block, (ours, not_run) in zip(blocks, reported_by_devdry(words, blocks)):
        theirs = reported_by_udevadm(root, rules, block)
        if theirs != ours:
            wrong += 1
            unexplained += not not_run
            print(f"{name}, {' '.join(block.splitlines()[:2])}{', some commands were not run' if not_run else ''}:")
            print(f"    only udevadm: {[line for line in theirs if line not in ours]}")
            print(f"    only devdry:  {[line for line in ours if line not in theirs]}", flush=True)
    return wrong, unexplained


def compare_files(root, files):
    """Compares the answers by files, each a name, its text, its blocks, and whether it is printed where they differ."""
    wrong = unexplained = answers = 0
    with tempfile.TemporaryDirectory() as folder:
        Path(folder, "etc/udev/hwdb.d").mkdir(parents=True)
        Path(folder, "etc/udev/hwdb.d/10.hwdb").write_text(DATABASE)
        for name, text, blocks, is_printed in files:
            path = Path(folder, "r.rules")
            path.write_bytes(text)
            more = compare(root, name, {"r.rules": text}, ["-r", folder, str(path)], blocks)
            wrong, unexplained, answers = wrong + more[0], unexplained + more[1], answers + len(blocks)
            if is_printed and more[0]:
                print("    " + os.fsdecode(text).replace("\n", "\n    ").rstrip(), flush=True)
    print(f"{answers} answers, {wrong} differ, {unexplained} of them with all commands run")
    return unexplained


def random_files(seed=1, count=2000):
    """Files that are made by a seed, each with the block of one event."""
    for number in range(int(count)):
        rules, block = made_events(random.Random(f"{seed} {number}"))
        yield f"random {number}", os.fsencode(rules), [block], True


def compare_together(root, rules, database, blocks):
    """Compares the answers to blocks by rules files that are read together."""
    rules = {Path(name).name: text for name, text in rules.items()}
    database = {Path(name).name: text for name, text in database.items()}
    make_database(root, database)
    with tempfile.TemporaryDirectory() as folder:
        for below, files in (("rules.d", rules), ("hwdb.d", database)):
            Path(folder, "etc/udev", below).mkdir(parents=True)
            for name, text in files.items():
                Path(folder, "etc/udev", below, name).write_bytes(text)
        wrong, unexplained = compare(root, "together", rules, ["-r", folder], blocks)
    print(f"{len(rules)} files together, {len(blocks)} events, {wrong} answers differ, {unexplained} of them with all commands run")
    return unexplained


def rules_of(paths, failing):
    """The rules files at or below paths; with failing builtins, if asked for."""
    files = {name: text for path in paths for name, text in files_below(path, ".rules").items()}
    return {name: without_builtins(text) for name, text in files.items()} if failing else files


def main(source, words):
    failing = "--failing" in words
    paths = [word for word in words if not word.startswith("--")]
    with Asking(source, DATABASE) as root:
        if "--together" in words:
            blocks = [re.sub("^C: .*", f"C: {action}", block) for block in ALL_BLOCKS for action in ("add", "change", "remove")]
            return compare_together(root, rules_of([f"{paths[0]}/usr/lib/udev/rules.d"], failing), files_below(f"{paths[0]}/usr/lib/udev/hwdb.d", ".hwdb"), blocks)
        if "--random" in words:
            return compare_files(root, random_files(*paths))
        return compare_files(root, [(*file, ALL_BLOCKS, False) for file in rules_of(paths, failing).items()]) if paths else compare_cases(root)


if __name__ == "__main__":
    if len(sys.argv) < 2:
        sys.exit(__doc__)
    sys.exit(1 if main(sys.argv[1], sys.argv[2:]) else 0)
