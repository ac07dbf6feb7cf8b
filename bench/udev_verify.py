#!/usr/bin/env python3
"""Asks the real `udevadm verify` of systemd 257, and prints where `devdry verify --udev` or the tables differ from it.

Without FILEs it asks for the cases of tests/tables/udev_*.py: the verdict, the line and the class of each message have to be
those of the table. With FILEs, rules files or folders of them, the program is asked, too: the verdict and the lines that
something is reported about have to be udevadm's.

usage: bench/udev_verify.py ROOT [FILE..]    ROOT has udev 257 in it (bench/udev_root.sh unpacks it); chroot needs root. The
                                             program is build/devdry, or PROGRAM.
"""
import os
import re
import shutil
import subprocess
import sys
import tempfile
from pathlib import Path

TOP = Path(__file__).resolve().parent.parent
sys.path.insert(0, str(TOP / "tests"))
from tables import udev_lines, udev_accounts, udev_own, udev_tokens  # noqa: E402

PROGRAM = os.environ.get("PROGRAM", TOP / "build/devdry")
BATCH = 100
# the marks that udevadm puts before a line, by the class of the message
CLASSES = {b"27": "e", b"28": "w", b"29": "n"}
MESSAGE = re.compile(rb"<(27|28|29)>/tmp/cases/(\d+)\.rules:(\d+) ")
VERDICT = re.compile(rb"<\d+>/tmp/cases/(\d+)\.rules: ")
ABANDONED = re.compile(rb"<\d+>[A-Z][a-z ]* /tmp/cases/(\d+)\.rules: ")
REPORTED = re.compile(rb"(\d+)\.rules:(\d+): ([A-Z]\d+) ")


def make_root(source, root):
    """A copy of a root, by hard links if possible, with users and groups of its own."""
    if subprocess.run(["cp", "-al", f"{source}/.", root], stderr=subprocess.DEVNULL).returncode:
        subprocess.run(["cp", "-a", f"{source}/.", root], check=True)
    for name, text in udev_accounts.KNOWN.items():
        path = Path(root, "etc", name)
        path.unlink(missing_ok=True)
        path.write_text(text)
    shutil.rmtree(f"{root}/tmp", ignore_errors=True)
    os.makedirs(f"{root}/tmp/cases")


def asked_of_udevadm(root, texts, options):
    """The verdict on each text, and line and class of each message in udevadm's order."""
    environment = {"PATH": os.environ["PATH"], "SYSTEMD_LOG_TARGET": "console-prefixed"}
    reported, bad = [[] for _ in texts], set()
    for number, text in enumerate(texts):
        Path(root, f"tmp/cases/{number}.rules").write_bytes(text)
    for first in range(0, len(texts), BATCH):
        paths = [f"/tmp/cases/{number}.rules" for number in range(first, min(first + BATCH, len(texts)))]
        run = subprocess.run(["chroot", root, "/usr/bin/udevadm", "verify", *options, *paths], capture_output=True, env=environment)
        for line in run.stderr.split(b"\n"):
            if found := MESSAGE.match(line):
                reported[int(found[2])].append(f"{found[3].decode()}{CLASSES[found[1]]}")
            elif found := VERDICT.match(line) or ABANDONED.match(line):
                bad.add(int(found[1]))
                if ABANDONED.match(line):
                    reported[int(found[1])].append("filee")
    return [("bad" if number in bad else "good", " ".join(reported[number])) for number in range(len(texts))]


def asked_of_devdry(texts):
    """The verdict on each text, and the codes that are reported about each line."""
    reported = [[] for _ in texts]
    with tempfile.TemporaryDirectory() as folder:
        names = [f"{number}.rules" for number in range(len(texts))]
        for name, text in zip(names, texts):
            Path(folder, name).write_bytes(text)
        for first in range(0, len(names), BATCH):
            run = subprocess.run([PROGRAM, "verify", "--udev", *names[first:first + BATCH]], capture_output=True, cwd=folder)
            for number, line, code in REPORTED.findall(run.stderr):
                reported[int(number)].append((int(line), code.decode()))
    return [("bad" if codes else "good", codes) for codes in reported]


def compare_cases(root):
    """How many cases differ from what udevadm says; each is reported."""
    cases = udev_own.CASES + udev_lines.CASES + udev_tokens.CASES + udev_accounts.CASES
    wrong = 0
    for (name, _, verdict, reported, _), answer in zip(cases, asked_of_udevadm(root, [case[1].encode("latin-1") for case in cases], [])):
        if answer != (verdict, reported):
            wrong += 1
            print(f"{name}: in the table {verdict} {reported!r}, from udevadm {answer[0]} {answer[1]!r}")
    print(f"{len(cases)} cases, {wrong} differ")
    return wrong


def rules_in(path):
    """A file, or the rules files below a folder."""
    return sorted(found for found in Path(path).rglob("*.rules") if found.is_file()) if Path(path).is_dir() else [Path(path)]


def compare_files(root, paths):
    """How many files differ in the verdict or in the lines that something is reported about; each is reported."""
    files = [found for path in paths for found in rules_in(path)]
    texts = [file.read_bytes() for file in files]
    wrong = bad = 0
    # (names of users and groups are the machine's, which devdry does not know)
    for file, theirs, ours in zip(files, asked_of_udevadm(root, texts, ["--resolve-names=never"]), asked_of_devdry(texts)):
        lines = sorted({int(reported[:-1]) for reported in theirs[1].split() if reported != "filee"})
        bad += theirs[0] == "bad"
        if theirs[0] != ours[0] or ("filee" not in theirs[1] and lines != sorted({line for line, _ in ours[1]})):
            wrong += 1
            print(f"{file}: from udevadm {theirs[0]} {theirs[1]!r}, from devdry {ours[0]} {ours[1]}")
    print(f"{len(files)} files, {bad} bad for udevadm, {wrong} differ")
    return wrong


def main(source, paths):
    with tempfile.TemporaryDirectory(prefix="udev-verify-", dir=Path(source).resolve().parent) as root:
        make_root(source, root)
        return compare_files(root, paths) if paths else compare_cases(root)


if __name__ == "__main__":
    if len(sys.argv) < 2:
        sys.exit(__doc__)
    sys.exit(1 if main(sys.argv[1], sys.argv[2:]) else 0)
