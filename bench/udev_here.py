#!/usr/bin/env python3
"""Asks the real `udevadm test` of systemd 257 about each device of this machine, by the rules and the database of its package, and
prints where `devdry events --udev` over `devdry-capture --all --kernel` says something else. An answer that differs may have a
note that says why; the status is 1 if one has none. Not compared: what is written to attributes, and what udev_events.py leaves out.

usage: unshare --mount bench/udev_here.py ROOT [ACTION..]    add, change and remove by default
ROOT has udev 257 in it (bench/udev_root.sh unpacks it); mount and chroot need root. The program is build/devdry, or PROGRAM.
"""
import os
import re
import subprocess
import sys
from concurrent.futures import ThreadPoolExecutor
from pathlib import Path

from udev_asking import GROUP, PASSWD, commands_reported, links_reported, node_reported, properties_reported, sections_of
from udev_events import PROGRAM, TOP, comparable, escaped

ENVIRONMENT = {"PATH": os.environ["PATH"], "SYSTEMD_COLORS": "0", "SYSTEMD_IGNORE_CHROOT": "1"}


def start(root):
    """Mounts what udevadm reads of the machine, without what its udev has stored, and makes the database."""
    for folder in ("sys", "proc", "dev"):
        (root / folder).mkdir(exist_ok=True)
        subprocess.run(["mount", "--bind", f"/{folder}", str(root / folder)], check=True)
    subprocess.run(["mount", "-t", "tmpfs", "tmpfs", str(root / "run")], check=True)
    for name, text in (("passwd", PASSWD), ("group", GROUP)):
        (root / "etc" / name).write_text(text)
    if not (root / "usr/lib/udev/hwdb.bin").exists():
        subprocess.run(["chroot", str(root), "/usr/bin/systemd-hwdb", "update", "--usr"], check=True)


def within(root, *words):
    """What a program of the root prints."""
    done = subprocess.run(["chroot", str(root), *words], env=ENVIRONMENT, stdin=subprocess.DEVNULL, capture_output=True, check=False)
    return os.fsdecode(done.stdout), os.fsdecode(done.stderr)


def captured(root, action):
    """The blocks of all devices. (Outside of the root the machine may look like a container.)"""
    run = subprocess.run([str(TOP / "tools/devdry-capture"), "--all", "--kernel", "--action", action], capture_output=True, check=True)
    virt = within(root, "/usr/bin/systemd-detect-virt")[0].strip()
    blocks = re.sub(rb"^K: virt=.*$", b"K: virt=" + virt.encode(), run.stdout, flags=re.M).split(b"\n\n")
    return [block for block in blocks if block]


def answered(root, blocks):
    """The program's answers."""
    run = subprocess.run([PROGRAM, "events", "--udev", "-r", str(root)], input=b"\n\n".join(blocks) + b"\n", capture_output=True, check=True)
    return [answer.split(b"\n") for answer in run.stdout.split(b"\n\n")[:-1]]


def reported(root, action, block):
    """What udevadm reports of the device of a block."""
    path = os.fsdecode(re.search(rb"^P: (.*)$", block, re.M)[1])
    out, err = within(root, "/usr/bin/udevadm", "test", f"--action={action}", f"/sys{path}")
    found = sections_of(out)
    lines = [f"event {action} {path}", *node_reported(found), *links_reported(found, err), *properties_reported(found), *commands_reported(found)]
    return [escaped(os.fsencode(line)) for line in lines]


def compare(root, action):
    """How many answers differ without a note; each that differs is reported."""
    blocks = captured(root, action)
    with ThreadPoolExecutor() as pool:
        theirs = list(pool.map(lambda block: reported(root, action, block), blocks))
    different, unexplained = 0, 0
    for real, answer in zip(theirs, answered(root, blocks), strict=True):
        # (an event of the kernel has its subsystem, which udevadm does not see in the file `uevent`)
        wanted, given = (sorted(line for line in comparable(lines) if not line.startswith((b"env SUBSYSTEM=", b"attr ", b"sysctl ")))
                         for lines in (real, answer))
        if wanted != given:
            notes = [line for line in answer if line.startswith(b"note ")]
            different, unexplained = different + 1, unexplained + (not notes)
            print(f"{os.fsdecode(answer[0])}:\n    only udevadm: {[line for line in wanted if line not in given]}")
            print(f"    only devdry:  {[line for line in given if line not in wanted]}\n    notes: {notes[:5]}", flush=True)
    print(f"{len(blocks)} devices on {action}, {different} differ, {unexplained} of them without a note")
    return unexplained


def main(root, *actions):
    start(Path(root))
    return any([compare(Path(root), action) for action in actions or ("add", "change", "remove")])


if __name__ == "__main__":
    if len(sys.argv) < 2:
        sys.exit(__doc__)
    sys.exit(main(*sys.argv[1:]))
