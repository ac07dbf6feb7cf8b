#!/usr/bin/env python3
"""Runs the gate in a clean clone, and reports what each crate costs it: the processor minutes of its proof, of its tests and of
its wrong bodies, and of all together, with the time by the clock.

While the gate runs, each process below it is looked at twice a second; what a process uses after the last look is missed, so
the sum of the crates is a little less than the whole, which the system counts. What an earlier run on this machine kept is not
proved again, and costs nothing here: the last lines of the gate say how much was done.

usage: bench/gate.py [PROCESSORS]    held to so many processors, by default to all
"""
import os
import resource
import subprocess
import sys
import tempfile
import time
from collections import defaultdict
from pathlib import Path

TOP = Path(__file__).resolve().parent.parent
TICKS = os.sysconf("SC_CLK_TCK")


def processes():
    """The existing processes: number to parent, start, processor seconds, words and folder."""
    found = {}
    for name in filter(str.isdigit, os.listdir("/proc")):
        try:
            words = Path("/proc", name, "cmdline").read_bytes().decode(errors="replace").split("\0")
            fields = Path("/proc", name, "stat").read_text().rsplit(")", 1)[1].split()
            folder = os.readlink(f"/proc/{name}/cwd")
        except (OSError, IndexError):
            continue
        used = (int(fields[11]) + int(fields[12])) / TICKS
        found[int(name)] = (int(fields[1]), fields[19], used, words, folder)
    return found


def below(found, top):
    """The numbers of the processes that a process started, and those that these started."""
    tree, grown = {top}, True
    while grown:
        more = {number for number, process in found.items() if process[0] in tree} - tree
        tree, grown = tree | more, bool(more)
    return tree - {top}


def purpose(words, folder, clone):
    """Which crate a process of the toolchain works for, and whether on its proof, its tests or its wrong bodies."""
    if "--crate-name" not in words:
        return "", "other"
    crate = words[words.index("--crate-name") + 1]
    if not folder.startswith(clone):
        return crate, "edits"
    return crate, "tests" if "--test" in words else "proof"


def watched(run, clone):
    """Waits for a run, and returns the processor seconds that were seen for each crate and purpose."""
    seen = {}
    while run.poll() is None:
        found = processes()
        for number in below(found, run.pid):
            _, start, used, words, folder = found[number]
            what = purpose(words, folder, clone)
            # a process that goes on as, for example, a linker still works for its crate
            if what[1] == "other" and (number, start) in seen:
                what, _ = seen[number, start]
            seen[number, start] = (what, used)
        time.sleep(0.5)
    seconds = defaultdict(float)
    for what, used in seen.values():
        seconds[what] += used
    return seconds


def main(words):
    """Runs the gate, prints the table, and returns whether the gate passed."""
    held = ["taskset", "-c", f"0-{int(words[0]) - 1}"] if words else []
    with tempfile.TemporaryDirectory() as folder:
        clone = f"{folder}/devdry"
        subprocess.run(["git", "clone", "-q", TOP, clone], check=True)
        began = time.time()
        with open(f"{folder}/log", "w+") as log:
            run = subprocess.Popen([*held, "bash", ".ci/run"], cwd=clone, stdin=subprocess.DEVNULL, stdout=log, stderr=log)
            seconds = watched(run, clone)
            log.seek(0)
            last = log.read().splitlines()[-3:]
    used = resource.getrusage(resource.RUSAGE_CHILDREN)
    print(f"{'minutes':18} {'proof':>7} {'tests':>7} {'edits':>7}")
    for crate in sorted({crate for crate, _ in seconds if crate}, key=lambda it: -sum(seconds[it, what] for what in ("proof", "tests", "edits"))):
        print(f"{crate:18} " + " ".join(f"{seconds[crate, what] / 60:7.1f}" for what in ("proof", "tests", "edits")))
    for what in ("proof", "tests", "edits", "other"):
        print(f"{what:18} {sum(used for (_, it), used in seconds.items() if it == what) / 60:7.1f}")
    print(f"total: {(used.ru_utime + used.ru_stime) / 60:.0f} minutes of processor time, {used.ru_stime / 60:.0f} of them in the kernel, {(time.time() - began) / 60:.0f} minutes of elapsed time")
    print("\n".join(last))
    return run.returncode == 0


if __name__ == "__main__":
    sys.exit(not main(sys.argv[1:]))
