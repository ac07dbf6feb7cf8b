#!/usr/bin/env python3
"""Asks the real `udevadm test-builtin` of systemd 257 what usb_id, path_id, input_id and net_id make of devices, and prints where
`devdry events --udev` differs from it: in a property, or in whether the import is done.

It asks for the cases of tests/tables/builtin_*.py, then for each device of each RECORD, in a block by `tools/devdry-capture
--kernel`. Last, `udevadm test` reports what all rules and the whole database of ROOT make of a USB disk, a serial adapter, an
NVMe disk, a mouse, a touchpad and a PCI network card.

Not asked for: cases whose blocks lack what each machine has (`host*`, physfn), cases in which devdry is known to give another
answer, and devices without a subsystem, which have no events.

usage: bench/builtins.py ROOT [RECORD..]
ROOT has udev 257 in it (bench/udev_root.sh unpacks it); chroot and unshare need root, and the helper of bench/udev_asking.py needs
gcc. A RECORD is /sys or a folder like it, or a file that umockdev-record printed. The program is build/devdry, or PROGRAM.
"""
import os
import subprocess
import sys
import tempfile
from pathlib import Path

from udev_asking import ENVIRONMENT, Asking, devices_of, make_sysfs
from udev_events import PROGRAM, TOP, compare_together, files_below

from tables import builtin_input, builtin_net, builtin_path, builtin_usb
from tables.kinds.builtin_blocks import MOUSE, NVME_DISK, PCI_CARD, SERIAL_ADAPTER, TOUCHPAD, USB_DISK
from tables.kinds.builtin_rows import devdry_lines, importing, without_empty

TABLES = {"usb_id": builtin_usb, "path_id": builtin_path, "input_id": builtin_input, "net_id": builtin_net}
WHOLE = [USB_DISK, SERIAL_ADAPTER, NVME_DISK, MOUSE, TOUCHPAD, PCI_CARD]
# Binds a record to the root's folder sys, read-only, while a command runs in the root.
BOUND = 'mkdir -p "$0/sys" && mount --bind "$1" "$0/sys" && mount -o remount,bind,ro "$0/sys" && shift && exec chroot "$0" "$@"'


def compared(lines):
    """The lines of an answer that are compared: properties, except for DRIVER, which only devdry has."""
    return sorted(line for line in lines if line.startswith(b"env ") and not line.startswith(b"env DRIVER="))


def reported_by_udevadm(root, builtin, block, record):
    """What the real builtin makes of the device of a block, over the folder of a record or one made of the block."""
    action, devices = devices_of(block) if record else make_sysfs(root, block)
    command = ["/usr/bin/udevadm", "test-builtin", f"--action={action}", builtin, "/sys" + devices[0]["P"][0]]
    start = ["unshare", "--mount", "sh", "-c", BOUND, str(root), str(record)] if record else ["chroot", str(root)]
    done = subprocess.run([*start, *command], env=ENVIRONMENT, stdin=subprocess.DEVNULL, capture_output=True, check=False)
    if done.returncode > 1:
        raise OSError(os.fsdecode(done.stderr))
    properties = [line for line in os.fsdecode(done.stdout).split("\n") if "=" in line]
    return compared(without_empty(block, devdry_lines(["failed" if done.returncode else "done", *properties])))


def reported_by_devdry(builtin, blocks):
    """The lines of the program's answers to blocks."""
    with tempfile.NamedTemporaryFile(suffix=".rules") as rules:
        rules.write(os.fsencode(importing(builtin)))
        rules.flush()
        run = subprocess.run([PROGRAM, "events", "--udev", "-r", "none", rules.name], input=b"\n".join(map(os.fsencode, blocks)), capture_output=True, check=True)
    return [answer.split(b"\n") for answer in run.stdout.split(b"\n\n")[:-1]]


def compare(root, what, builtin, blocks, record=None):
    """How many blocks a builtin answers differently; each is reported."""
    wrong = done = noted = 0
    for block, ours in zip(blocks, reported_by_devdry(builtin, blocks), strict=True):
        theirs = reported_by_udevadm(root, builtin, block, record)
        done += b"env DONE=1" in theirs
        noted += any(line.startswith(b"note ") for line in ours)
        if theirs != compared(ours):
            wrong += 1
            print(f"{builtin} {block.splitlines()[1]}:")
            print(f"    only udevadm: {[line for line in theirs if line not in ours]}")
            print(f"    only devdry:  {[line for line in compared(ours) if line not in theirs]}", flush=True)
    print(f"{what}, {builtin}: {len(blocks)} devices, {done} done, {noted} with a note, {wrong} differ", flush=True)
    return wrong


def asked_cases(table):
    """The blocks of the cases of a table that can be asked."""
    return [block for _, block, answer, *own in table.CASES if not own and not any(line.endswith((": host*", ": physfn")) for line in answer)]


def captured(record):
    """The blocks of all devices of a record that have a subsystem."""
    words = ["--sysfs", record, "--all"] if Path(record).is_dir() else ["--from", record]
    run = subprocess.run([TOP / "tools/devdry-capture", "--kernel", *words], capture_output=True, check=False)
    blocks = [block + "\n" for block in os.fsdecode(run.stdout).split("\n\n") if block.strip()]
    return [block for block in blocks if "U" in devices_of(block)[1][0]]


def main(source, records):
    with Asking(source, "") as root:
        wrong = sum(compare(root, "cases", builtin, asked_cases(table)) for builtin, table in TABLES.items())
        for record in records:
            blocks = captured(record)
            wrong += sum(compare(root, record, builtin, blocks, record if Path(record).is_dir() else None) for builtin in TABLES)
        rules, database = (files_below(f"{source}/usr/lib/udev/{below}.d", f".{below}") for below in ("rules", "hwdb"))
        return wrong + compare_together(root, rules, database, WHOLE)


if __name__ == "__main__":
    if len(sys.argv) < 2:
        sys.exit(__doc__)
    sys.exit(1 if main(sys.argv[1], sys.argv[2:]) else 0)
