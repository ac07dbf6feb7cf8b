#!/usr/bin/env python3
"""Changes a root while the program reads it.

usage: tests/changing_root.py PROGRAM LIBRARY

LIBRARY is tests/refusing.c, built. A root has files, and beside it lies a folder with files of the same names, in which a
word stands that no output may have. Two paths of the root are exchanged before the Nth call that opens, looks at, lists,
reads or writes, for N = 1, 2, .. until a run makes no more calls, and exchanged back before each of the next calls, or not
at all: a folder and a link to the folder beside the root, or a file and a link to the file there. No run may print the
word, and each has to end. A file is exchanged for a FIFO likewise, which is held open for writing, so that opening it does
not wait, but reading it would. Last, a thread exchanges a file and such a FIFO for a few seconds as fast as it can, while
the program runs again and again.

Prints for each command and pair of paths a line `ok ROW` with how many runs there were, or `not ok ROW` with the first run
that did otherwise."""

import ctypes
import os
import pathlib
import subprocess
import sys
import tempfile
import threading
import time
from concurrent.futures import ThreadPoolExecutor

WORD = "CANARY"
SECONDS = 10  # after which a run counts as one that waits
AFTER = 5  # how many calls after the first one the paths are exchanged back
AT_FDCWD, RENAME_EXCHANGE = -100, 2
BLOCK = "C: add\nP: /devices/x\nU: net\nE: INTERFACE=eth0\nE: IFINDEX=1\nA: flags=0x1002\n"

RULES, HWDB, NETWORK, RUN = "usr/lib/udev/rules.d", "usr/lib/udev/hwdb.d", "usr/lib/systemd/network", "run/own"
INSIDE = {
    f"{RULES}/a.rules": 'IMPORT{file}="/run/own/f", IMPORT{builtin}="net_setup_link", TAG+="a"\n',
    f"{HWDB}/a.hwdb": "m*\n A=1\n",
    f"{NETWORK}/a.link": "[Match]\nOriginalName=*\n[Link]\nName=a0\n",
    f"{RUN}/f": "F=1\n",
}
BESIDE = {
    f"{RULES}/a.rules": f'{WORD}=="x", TAG+="{WORD}"\nTAG+="{WORD}"\n',
    f"{HWDB}/a.hwdb": f"m*\n {WORD}=1\n{WORD}\n",
    f"{NETWORK}/a.link": f"[Match]\nOriginalName=*\n[Link]\nName={WORD}\n{WORD}\n",
    f"{RUN}/f": f"{WORD}=1\n",
}

# (a command, the folder of which a file is read by it, the file)
COMMANDS = [
    ("verify -r root", RULES, "a.rules"),
    ("verify --all -r root", RULES, "a.rules"),
    ("verify --links -r root", NETWORK, "a.link"),
    ("query -r root mx", HWDB, "a.hwdb"),
    ("events --udev -r root", RUN, "f"),
    ("events --udev -r root", NETWORK, "a.link"),
    ("compare root root", RULES, "a.rules"),
]


def lay_out(folder, files):
    for name, text in files.items():
        path = pathlib.Path(folder, name)
        path.parent.mkdir(parents=True, exist_ok=True)
        path.write_text(text, encoding="utf-8")


class Root:
    """A root in a folder of its own, and the two paths in it that are exchanged."""

    def __init__(self, program, library, words, one, other):
        self.program, self.library, self.words, self.one, self.other = program, library, words, one, other
        self.folder = tempfile.TemporaryDirectory()
        lay_out(f"{self.folder.name}/root", INSIDE)
        lay_out(f"{self.folder.name}/host", BESIDE)

    def path(self, name):
        return os.path.join(self.folder.name, name)

    def run(self, at=0, back_at=0):
        """What a run does in which the paths are exchanged before these calls, and whether it made so many."""
        environment = {
            "LD_PRELOAD": self.library, "REFUSED": self.path("met"), "SWAP_AT": str(at), "SWAP_BACK_AT": str(back_at),
            "SWAP_ONE": self.path(self.one), "SWAP_OTHER": self.path(self.other)}
        before = os.lstat(self.path(self.one)).st_ino
        try:
            done = subprocess.run(
                [self.program, *self.words.split()], cwd=self.folder.name, env=environment, input=BLOCK.encode(),
                capture_output=True, timeout=SECONDS)
        except subprocess.TimeoutExpired:
            done = None
        if os.lstat(self.path(self.one)).st_ino != before:
            exchange(self.path(self.one), self.path(self.other))
        met = os.path.exists(self.path("met"))
        if met:
            os.remove(self.path("met"))
        return done, met


def exchange(one, other):
    libc = ctypes.CDLL(None, use_errno=True)
    if libc.renameat2(AT_FDCWD, os.fsencode(one), AT_FDCWD, os.fsencode(other), RENAME_EXCHANGE):
        raise OSError(ctypes.get_errno(), "renameat2")


def fault_of(done):
    """What a run did that it must not do, or nothing."""
    if done is None:
        return f"no end in {SECONDS} seconds"
    if WORD.encode() in done.stdout + done.stderr:
        return f"it prints {WORD}: {done.stdout + done.stderr!r}"
    if done.returncode not in (0, 1, 3):
        return f"status {done.returncode}: {done.stderr!r}"
    return None


def changed_at_each_call(root):
    """How many runs there were, and what the first did that it must not do, or nothing."""
    at, runs = 0, 0
    while True:
        at += 1
        for back_at in [0, *range(at + 1, at + 1 + AFTER)]:
            done, met = root.run(at, back_at)
            runs += 1
            fault = fault_of(done)
            if fault:
                return runs, f"exchanged at call {at}, and back at {back_at or 'none'}: {fault}"
            if not met:
                return runs, None


def tried(program, library, words, folder, name, kind):
    """The line about a command and a pair of paths."""
    one = {"folder": f"root/{folder}"}.get(kind, f"root/{folder}/{name}")
    root = Root(program, library, words, one, f"root/{folder}-other" if kind == "folder" else f"root/other-{name}")
    if kind == "pipe":
        os.mkfifo(root.path(root.other))
        held = os.open(root.path(root.other), os.O_RDWR)
    else:
        os.symlink(root.path(root.one.replace("root", "host", 1)), root.path(root.other))
    runs, fault = changed_at_each_call(root)
    if kind == "pipe":
        os.close(held)
    row = f"{words}: {one.removeprefix('root/')} becomes " + ("a pipe" if kind == "pipe" else f"a link to a {kind} beside the root")
    return f"not ok {row}\n    {fault}" if fault else f"ok {row} ({runs} runs)"


def changed_in_a_loop(program, seconds):
    """The line about a file that is exchanged for a pipe all the time."""
    root = Root(program, "", "verify -r root", f"root/{RULES}/a.rules", "root/pipe")
    os.mkfifo(root.path(root.other))
    held = os.open(root.path(root.other), os.O_RDWR)
    is_over = threading.Event()

    def change():
        while not is_over.is_set():
            exchange(root.path(root.one), root.path(root.other))

    changing = threading.Thread(target=change)
    changing.start()
    runs, fault, until = 0, None, time.monotonic() + seconds
    while not fault and time.monotonic() < until:
        try:
            done = subprocess.run(
                [program, *root.words.split()], cwd=root.folder.name, stdin=subprocess.DEVNULL, capture_output=True, timeout=SECONDS)
        except subprocess.TimeoutExpired:
            done = None
        runs, fault = runs + 1, fault_of(done)
    is_over.set()
    changing.join()
    os.close(held)
    row = "a file becomes a pipe, and a file again, as fast as it can be done"
    return f"not ok {row}\n    {fault}" if fault else f"ok {row} ({runs} runs)"


def main(program, library):
    rows = [(*command, kind) for command in COMMANDS for kind in ("folder", "file", "pipe")]
    with ThreadPoolExecutor(os.cpu_count()) as pool:
        for said in pool.map(lambda row: tried(program, library, *row), rows):
            print(said)
    print(changed_in_a_loop(program, 3))


if __name__ == "__main__":
    main(os.path.realpath(sys.argv[1]), os.path.realpath(sys.argv[2]))
