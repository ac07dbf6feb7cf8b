#!/usr/bin/env python3
"""Proves each crate that devdry and devdry-lsp stand on, and puts the two proved programs into build/.

usage: tools/proofs.py [JOBS]    RT is the toolchain's command, rt by default

A crate is proved as soon as those below it are, and up to JOBS side by side (as many as there are processors, unless it is
given) while there is memory; the one with the most to prove above it comes first. The toolchain lets one command at a time
work in a crate's folder and in those below it. So each command works in a copy of the sources of its own, build/proofs/N, and
takes what the others proved from where the toolchain keeps it, beside the kit; if that can't be written, one command at a time
works. Sources may be changed meanwhile: what is proved is what stood there at the start. build/proofs.log has all that was
printed, and bench/modules.py makes a table of it.
"""
import os
import pathlib
import shutil
import subprocess
import sys
import threading
import time

TOP = pathlib.Path(__file__).resolve().parent.parent
COPIES = TOP / "build/proofs"
PROGRAMS = {"devdry": TOP / "build/devdry", "devdry_lsp": TOP / "build/devdry-lsp"}
PARTS = ("src", "specs", "proofs")
RT = shutil.which(os.environ.get("RT", "rt")) or "/opt/rattle/bin/rt"
# A proof takes 1 to 4 GB, the last crates up to 9.
ROOM = 4_000_000
# How often it is told what goes on, in seconds.
EVERY = 30


def say(text):
    print(text, flush=True)


def crates_below(names):
    """The crates of the repository that these stand on, and these, each with those directly below it, lowest first."""
    rows = [line.split(":") for line in (TOP / "crates.txt").read_text(encoding="utf-8").splitlines() if not line.startswith("#")]
    named = {name: below.split() for name, below in rows}
    wanted = set()

    def add(name):
        if name in named and name not in wanted:
            wanted.add(name)
            for it in named[name]:
                add(it)

    for name in names:
        add(name)
    return {name: [it for it in below if it in wanted] for name, below in named.items() if name in wanted}


def files_of(name):
    return [path for part in PARTS for path in (TOP / "crates" / name / part).rglob("*") if path.is_file()]


def is_done(crates):
    """Whether both programs are there and newer than each source."""
    if not all(path.exists() for path in PROGRAMS.values()):
        return False
    oldest = min(path.stat().st_mtime for path in PROGRAMS.values())
    return all(path.stat().st_mtime < oldest for name in crates for path in [TOP / "crates.txt", *files_of(name)])


def copy(to, crates):
    """Brings a copy of the sources up to date; what was proved in it stays."""
    to.mkdir(parents=True, exist_ok=True)
    shutil.copy2(TOP / "HANDLES", to)
    rows = (TOP / "crates.txt").read_text(encoding="utf-8").splitlines()
    (to / "crates.txt").write_text("".join(f"{row}\n" for row in rows if row.split(":")[0] in crates), encoding="utf-8")
    for old in (to / "crates").glob("*"):
        if old.name not in crates:
            shutil.rmtree(old)
    for name in crates:
        for part in PARTS:
            shutil.rmtree(to / "crates" / name / part, ignore_errors=True)
            if (TOP / "crates" / name / part).is_dir():
                shutil.copytree(TOP / "crates" / name / part, to / "crates" / name / part)


def weights(crates):
    """For each crate the lines of the longest chain of crates that begins with it and goes up."""
    lines = {name: sum(path.read_bytes().count(b"\n") for path in files_of(name)) for name in crates}
    found = {}
    for name in reversed(crates):
        found[name] = lines[name] + max((found[it] for it in crates if name in crates[it]), default=0)
    return found


def has_room():
    for line in pathlib.Path("/proc/meminfo").read_text(encoding="ascii").splitlines():
        if line.startswith("MemAvailable:"):
            return int(line.split()[1]) >= ROOM
    return True


def ran(words, folder):
    """What a command printed, its status, and the processor seconds of it and of all that it waited for."""
    how = {"stdin": subprocess.DEVNULL, "stdout": subprocess.PIPE, "stderr": subprocess.STDOUT, "errors": "replace"}
    with subprocess.Popen(words, cwd=folder, **how) as process:
        printed = process.stdout.read()
        _, status, used = os.wait4(process.pid, 0)
        process.returncode = os.waitstatus_to_exitcode(status)
    return printed, process.returncode, used.ru_utime + used.ru_stime


class Proofs:
    """What is proved, what is being proved and since when, and what failed."""

    def __init__(self, crates, jobs):
        self.crates, self.weights, self.turn = crates, weights(crates), threading.Condition()
        self.left, self.running, self.proved, self.failed = dict(crates), {}, [], []
        self.copies = [COPIES / str(number) for number in range(jobs)]
        self.log = open(TOP / "build/proofs.log", "w", encoding="utf-8")

    def next(self):
        """The crate to prove next: one whose crates below are all proved, with the longest chain above it."""
        ready = [name for name, below in self.left.items() if all(it in self.proved for it in below)]
        return max(ready, key=self.weights.get, default=None)

    def is_over(self):
        return not self.running and (self.failed or not self.left)

    def start(self):
        """Starts the next crate if it can; whether it did."""
        name = self.next()
        if self.failed or name is None or not self.copies or (self.running and not has_room()):
            return False
        del self.left[name]
        self.running[name] = time.monotonic()
        threading.Thread(target=self.prove, args=(name, self.copies.pop()), daemon=True).start()
        return True

    def prove(self, name, at):
        is_program = (TOP / "crates" / name / "src/main.rt").exists()
        # (a crate that has nothing beside it may have all processors)
        alone = len(self.running) == 1 and self.next() is None
        words = [RT, *(["run"] if is_program else ["lib"]), *([] if alone else ["--jobs", "1"]), *(["--", "--version"] if is_program else [])]
        printed, code, spent = ran(words, at / "crates" / name)
        if is_program and code == 0:
            made = PROGRAMS[name].with_suffix(".new")
            shutil.copy2(at / "crates" / name / "out" / name, made)
            os.replace(made, PROGRAMS[name])
        with self.turn:
            seconds = time.monotonic() - self.running.pop(name)
            self.copies.append(at)
            self.log.write(f"== {name}, {spent:.1f} seconds of processor time\n{printed}")
            self.log.flush()
            if code:
                self.failed.append(name)
                say(f"{printed[-6000:]}\n{name}: not proved, for what rt says above (build/proofs.log has all of it)")
            else:
                self.proved.append(name)
                say(f"{len(self.proved)} of {len(self.crates)}: {name}, in {seconds:.0f} seconds; {len(self.crates) - len(self.proved)} left")
            self.turn.notify()

    def run(self):
        with self.turn:
            while not self.is_over():
                while self.start():
                    pass
                if not self.turn.wait(EVERY):
                    say("at work: " + ", ".join(f"{name} ({time.monotonic() - since:.0f} s)" for name, since in self.running.items()))
        return not self.failed


def main(jobs):
    kept = pathlib.Path(RT).resolve().parent.parent.parent / "rattle-kept"
    if not os.access(kept if kept.exists() else kept.parent, os.W_OK):
        say(f"{kept} can't be written, by which crates that are proved side by side share their work: one after another, then")
        jobs = 1
    crates = crates_below(PROGRAMS)
    if is_done(crates):
        say("build/devdry and build/devdry-lsp are proved, and no source is newer")
        return True
    say(f"proving the {len(crates)} crates of devdry and devdry-lsp, up to {jobs} at once, in copies below build/proofs: from nothing an hour or more")
    began = time.time()
    for number in range(jobs):
        copy(COPIES / str(number), crates)
    if not Proofs(crates, jobs).run():
        return False
    for path in PROGRAMS.values():
        # (a source that was changed meanwhile is newer)
        os.utime(path, (began, began))
    say("build/devdry and build/devdry-lsp are proved")
    return True


if __name__ == "__main__":
    sys.exit(not main(int(sys.argv[1]) if sys.argv[1:] else os.cpu_count()))
