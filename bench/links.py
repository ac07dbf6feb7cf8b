#!/usr/bin/env python3
"""Asks the real `udevadm test-builtin` of systemd 257 for the name of an interface by `.link` files, and prints where
bench/plain_links.py differs from it, or from what tests/tables/kinds/link_cases.py says. On a machine as tests/tables/link_machine.py
has it, udevadm is asked about the cases of that, too.

The interface is one of a veth pair in a network namespace of its own. Its sysfs is mounted in ROOT, with the file name_assign_type
of the case bound over its own, and its properties are in /run/udev/data.

usage: unshare --net --mount bench/links.py ROOT
ROOT has udev 257 in it (bench/udev_root.sh unpacks it); unshare, mount and chroot need root.
"""
import os
import shutil
import subprocess
import sys
import tempfile
from pathlib import Path

import plain_links

sys.path.insert(0, str(Path(__file__).resolve().parent.parent / "tests"))
from tables import link_machine  # noqa: E402
from tables.kinds.link_cases import CASES  # noqa: E402

DEVICE = "veth1"
FOLDERS = [folder.removeprefix("/") for folder in plain_links.FOLDERS]


def run(*words):
    subprocess.run(words, check=True)


def start(root):
    """Makes the interface, and mounts what the cases need over the root."""
    run("ip", "link", "add", DEVICE, "type", "veth", "peer", "name", "veth2")
    run("ip", "link", "set", DEVICE, "address", "12:34:56:78:90:ab")
    (root / "sys").mkdir(exist_ok=True)
    run("mount", "-t", "sysfs", "sysfs", str(root / "sys"))
    run("mount", "-t", "proc", "proc", str(root / "proc"))
    for folder in ("etc/systemd", "run", "usr/lib/systemd/network"):
        run("mount", "-t", "tmpfs", "tmpfs", str(root / folder))


def bind(root, path, text):
    """A file with this text over a file of the root, and its path."""
    source = Path(tempfile.mkdtemp()) / "file"
    source.write_text(text + "\n")
    run("mount", "--bind", str(source), str(root / path))
    return root / path


def write_files(root, files):
    for folder in FOLDERS:
        for path in (root / folder).glob("*"):
            shutil.rmtree(path) if path.is_dir() and not path.is_symlink() else path.unlink()
    for name, text in files.items():
        path = root / name
        path.parent.mkdir(parents=True, exist_ok=True)
        if text is None:
            os.symlink("/dev/null", path)
        else:
            path.write_bytes(text)


def ask(root, files, properties, source, action, cmdline):
    """The lines that udevadm prints."""
    write_files(root, files)
    index = (root / f"sys/class/net/{DEVICE}/ifindex").read_text().strip()
    data = root / "run/udev/data"
    data.mkdir(parents=True, exist_ok=True)
    (data / f"n{index}").write_text("I:1\n" + "".join(f"E:{text}\n" for text in properties) + "V:1\n")
    bound = [bind(root, f"sys/class/net/{DEVICE}/name_assign_type", source)]
    bound += [bind(root, "proc/cmdline", cmdline)] if cmdline is not None else []
    command = ["chroot", str(root), "/usr/bin/udevadm", "test-builtin", f"--action={action}", "net_setup_link", f"/sys/class/net/{DEVICE}"]
    done = subprocess.run(command, capture_output=True, check=False)
    for path in bound:
        run("umount", str(path))
    return [line for line in done.stdout.decode(errors="replace").split("\n") if line]


def read_plainly(root, files, properties, source, action, cmdline):
    """The lines by the plain reading, with its notes."""
    attributes = {name: (root / f"sys/class/net/{DEVICE}/{name}").read_text().strip() for name in ("flags", "type", "address", "addr_assign_type")}
    index = (root / f"sys/class/net/{DEVICE}/ifindex").read_text().strip()
    env = {"INTERFACE": DEVICE, "SUBSYSTEM": "net", "IFINDEX": index, "ACTION": action} | dict(text.split("=", 1) for text in properties)
    held = {f"/{name}": text or b"" for name, text in files.items()}
    found, needs = plain_links.net_setup_link(held, action, DEVICE, attributes | {"name_assign_type": source}, env, cmdline)
    return [f"{name}={value}" for name, value in found.items()] + [f"note {need}" for need in needs]


def main():
    root = Path(sys.argv[1])
    start(root)
    different = 0
    for name, files, given, real, *own in CASES:
        held = {path if path.startswith(tuple(FOLDERS)) else f"{FOLDERS[0]}/{path}": text.encode() if isinstance(text, str) else text
                for path, text in files.items()}
        words = (held, given.get("properties", ()), given.get("source", "3"), given.get("action", "add"), given.get("cmdline"))
        for who, answer, wanted in (("udevadm", ask(root, *words), real), ("plain reading", read_plainly(root, *words), own[0] if own else real)):
            if answer != wanted:
                different += 1
                print(f"{name}: {who}: {answer}, not {wanted}")
    machine = [*link_machine.cases()] if os.uname().release == link_machine.RELEASE else []
    for name, files, given, real, _ in machine:
        answer = ask(root, {f"{FOLDERS[0]}/{path}": text.encode() for path, text in files.items()}, (), "3", "add", given["cmdline"])
        if answer != real:
            different += 1
            print(f"{name}: udevadm: {answer}, not {real}")
    print(f"{len(CASES) + len(machine)} cases, {different} different")
    return 1 if different else 0


if __name__ == "__main__":
    sys.exit(main())
