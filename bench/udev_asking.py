"""Asks the real `udevadm test` of systemd 257 for the result of an event, over a sysfs folder that is made from a block.

With SYSTEMD_DEVICE_VERIFY_SYSFS=0 udevadm accepts any folder as sysfs. In test mode udevadm runs no program except for those
whose command begins with one of six names; one of them, `ata_id`, is replaced by a helper of our own, so that PROGRAM is seen.
"""
import os
import re
import shutil
import subprocess
import tempfile
from pathlib import Path

# Prints its words, `=XX` in them as a byte. First words: `exit N` sets the status, `write FILE TEXT` writes a file.
HELPER = r'''
#include <stdio.h>
#include <stdlib.h>
#include <string.h>
static void put(FILE *out, const char *s) {
  for (; *s; s++)
    if (*s == '=' && s[1] && s[2]) { char hex[3] = {s[1], s[2], 0}; fputc(strtol(hex, 0, 16), out); s += 2; }
    else fputc(*s, out);
}
int main(int count, char **words) {
  int at = 1, status = 0;
  if (count > 2 && !strcmp(words[1], "exit")) { status = atoi(words[2]); at = 3; }
  if (count > at + 2 && !strcmp(words[at], "write")) {
    FILE *out = fopen(words[at + 1], "w");
    if (!out) return 9;
    put(out, words[at + 2]);
    return fclose(out) ? 9 : status;
  }
  for (int i = at; i < count; i++) { if (i > at) putchar(' '); put(stdout, words[i]); }
  return status;
}
'''

PASSWD = "root:x:0:0:root:/root:/bin/sh\ndaemon:x:1:1:daemon:/:/bin/sh\n"
GROUPS = {"root": 0, "daemon": 1, "tty": 5, "disk": 6, "lp": 7, "kmem": 15, "dialout": 20, "cdrom": 24, "tape": 26, "audio": 29,
          "video": 44, "input": 101, "sgx": 102, "clock": 103, "kvm": 104, "render": 105}
GROUP = "".join(f"{name}:x:{number}:\n" for name, number in GROUPS.items())
# What is on the kernel's command line if a block does not say so.
CMDLINE = "quiet test.given=5"
BUSES = {"usb", "pci", "scsi", "hid", "platform"}
# Classes whose devices are below the device that they describe; its attributes in a block are theirs.
TRANSPORTS = {"ata_port", "fc_transport", "sas_device", "sas_port", "iscsi_session", "iscsi_connection"}
ENVIRONMENT = {"SYSTEMD_DEVICE_VERIFY_SYSFS": "0", "PATH": os.environ["PATH"], "SYSTEMD_COLORS": "0"}
# Properties that udev adds by itself at the end of an event, or for links and tags.
OWN = {"DEVLINKS", "TAGS", "CURRENT_TAGS", "USEC_INITIALIZED", "ID_PROCESSING"}


def devices_of(block):
    """The action of a block and its devices, nearest first: each a dictionary from a letter to its texts."""
    action, devices = None, []
    for line in filter(None, block.split("\n")):
        letter, text = line[0], line[3:]
        if letter == "C":
            action = text
        elif letter == "P":
            devices.append({"P": [text]})
        elif letter not in "QRK":
            devices[-1].setdefault(letter, []).append(text)
    return action, devices


def make_database(root, files):
    """Makes the database of a root anew, of files that are given by their names."""
    shutil.rmtree(root / "etc/udev/hwdb.d", ignore_errors=True)
    (root / "etc/udev/hwdb.d").mkdir(parents=True)
    for name, text in files.items():
        (root / "etc/udev/hwdb.d" / name).write_bytes(text)
    # (without /proc an existing index can't be replaced)
    (root / "etc/udev/hwdb.bin").unlink(missing_ok=True)
    subprocess.run(["chroot", str(root), "/usr/bin/systemd-hwdb", "update"], check=True)


def make_root(source, folder, database):
    """A copy of a root by hard links, with accounts, a database and a helper of our own."""
    root = Path(folder) / "root"
    subprocess.run(["cp", "-al", str(source), str(root)], check=True)
    for below in ("usr/lib/udev/rules.d", "etc/udev/rules.d", "sys", "usr/lib/udev/hwdb.d", "run/udev", "proc"):
        shutil.rmtree(root / below, ignore_errors=True)
    for below in ("etc/udev/rules.d", "run/udev/data", "proc/sys/test"):
        (root / below).mkdir(parents=True, exist_ok=True)
    for name, text in (("passwd", PASSWD), ("group", GROUP)):
        (root / "etc" / name).unlink(missing_ok=True)
        (root / "etc" / name).write_text(text)
    (root / "dev/null").touch()
    (root / "proc/device-tree").symlink_to("/sys/firmware/devicetree/base")
    (root / "proc/cmdline").write_text(CMDLINE + "\n")
    (root / "proc/sys/test/value").write_text("7 \n")
    make_database(root, {"10.hwdb": os.fsencode(database)})
    helper = Path(folder) / "helper.c"
    helper.write_text(HELPER)
    (root / "usr/lib/udev/ata_id").unlink()
    subprocess.run(["gcc", "-static", "-O1", "-o", str(root / "usr/lib/udev/ata_id"), str(helper)], check=True)
    return root


def kernel_name(path):
    return path.rsplit("/", 1)[1]


def uevent_of(device, is_event):
    """The text of a device's file `uevent`."""
    lines = list(device.get("E", []))
    if is_event and "U" in device:
        # (an event of the kernel has its subsystem, the file does not)
        lines.append(f'SUBSYSTEM={device["U"][0]}')
    if "D" in device:
        major, minor = device["D"][0].split(":")
        lines += [f"MAJOR={major}", f"MINOR={minor}"]
    if "N" in device:
        lines.append(f'DEVNAME={device["N"][0]}')
    return "".join(line + "\n" for line in lines)


def link_subsystem(sys, folder, subsystem):
    """Links a device and its subsystem to each other."""
    kind = "bus" if subsystem in BUSES else "class"
    target = sys / kind / subsystem
    members = target / "devices" if kind == "bus" else target
    members.mkdir(parents=True, exist_ok=True)
    for link, leads in ((folder / "subsystem", target), (members / folder.name, folder)):
        if not link.is_symlink():
            link.symlink_to(os.path.relpath(leads, link.parent))


def make_links(sys, folder, device, above):
    """Links a device to its subsystem and to its driver, and one of a class, but no partition, to the device above."""
    if "U" in device:
        link_subsystem(sys, folder, device["U"][0])
        if above and device["U"][0] not in BUSES and "DEVTYPE=partition" not in device.get("E", []):
            (folder / "device").symlink_to(os.path.relpath(f'{sys}{above["P"][0]}', folder))
    if "V" in device:
        target = sys / "bus" / device.get("U", ["usb"])[0] / "drivers" / device["V"][0]
        target.mkdir(parents=True, exist_ok=True)
        os.symlink(os.path.relpath(target, folder), folder / "driver")


def identity_of(device):
    """The name of a device in udev's database."""
    if "D" in device:
        return ("b" if device.get("U") == ["block"] else "c") + device["D"][0]
    return f'+{device.get("U", [""])[0]}:{kernel_name(device["P"][0])}'


def make_elsewhere(sys, name, value):
    """Makes a device that an attribute's name names, `[SUBSYSTEM/KERNEL]ATTRIBUTE`, with that attribute."""
    subsystem, kernel, attribute = re.fullmatch(r"\[(.*?)/(.*?)\]/?(.*)", name).groups()
    folder = sys / "devices/virtual" / subsystem / kernel
    folder.mkdir(parents=True, exist_ok=True)
    (folder / "uevent").touch()
    link_subsystem(sys, folder, subsystem)
    (folder / attribute).parent.mkdir(parents=True, exist_ok=True)
    (folder / attribute).write_bytes(os.fsencode(value) + b"\n")


def make_device(root, device, above, is_event):
    """Makes the folder of a device below sys, and for a parent with tags its entry in udev's database."""
    folder = Path(f'{root}/sys{device["P"][0]}')
    folder.mkdir(parents=True, exist_ok=True)
    if "D" in device:
        (folder / "dev").write_text(device["D"][0] + "\n")
    (folder / "uevent").write_bytes(os.fsencode(uevent_of(device, is_event)))
    make_links(root / "sys", folder, device, above)
    for text in device.get("A", []):
        name, value = text.split("=", 1)
        if name.startswith("["):
            make_elsewhere(root / "sys", name, value)
            continue
        if (folder / name).is_symlink():
            continue
        (folder / name).parent.mkdir(parents=True, exist_ok=True)
        (folder / name).write_bytes(os.fsencode(value) + b"\n")
        *_, kind, _, _ = ("", "", *name.split("/"))
        if kind in TRANSPORTS:
            (folder / name).with_name("uevent").touch()
            link_subsystem(root / "sys", (folder / name).parent, kind)
    if "G" in device and not is_event:
        tags = "".join(f"G:{tag}\nQ:{tag}\n" for tag in device["G"])
        (root / "run/udev/data" / identity_of(device)).write_text(tags + "V:1\n")


def sections_of(out):
    """What udevadm prints, by its headings: the indented lines below each."""
    found, heading = {}, None
    for line in out.split("\n"):
        if line.startswith("  ") and heading:
            found[heading].append(line[2:])
        elif ":" in line and not line.startswith(" "):
            heading = line.split(":", 1)[0]
            found[heading] = []
            if "(priority=" in line:
                found["priority"] = [line.rsplit("=", 1)[1].rstrip(")")]
    return found


def plain(link):
    """A link as udev keeps it, below the folder of nodes."""
    path = "/" + link.lstrip("/") if link.startswith("/") else "/dev/" + link
    return os.path.normpath(path).removeprefix("/dev/")


def links_reported(reported, err):
    """The links that are left, in the order in which they were added: udev keeps them without an order."""
    added = [plain(link) for link in re.findall(r"Added SYMLINK '(.*)'$", err, re.M)]
    places = {link: place for place, link in enumerate(added)}
    return ["link " + link for link in sorted(map(plain, reported.get("Device node symlinks", [])), key=lambda link: places.get(link, 0))]


def written(path, devices):
    """The name of an attribute that is written, from its path: as a rule names it."""
    for device in devices:
        begin = "/sys" + device["P"][0] + "/"
        if path.startswith(begin):
            rest = path[len(begin):]
            return rest if device is devices[0] else f'[{device["U"][0]}/{kernel_name(device["P"][0])}]{rest}'
    return path


def node_reported(reported):
    """The lines on the node of a device."""
    lines = ["name " + name for name in reported.get("Network interface name", [])]
    for key, heading in (("owner", "Device node owner"), ("group", "Device node group")):
        lines += [f"{key} " + (name if name[:4] != "n/a " else name.split("=")[1].rstrip(")")).split(" (")[0]
                  for name in reported.get(heading, [])]
    lines += ["mode " + mode for mode in reported.get("Device node permission", [])]
    lines += ["priority " + number for number in reported.get("priority", []) if number != "0"]
    lines += ["watch" for state in reported.get("Inotify watch", []) if state == "enabled"]
    return lines + ["label " + "=".join(label.split(" : ", 1)) for label in reported.get("Device node security label", [])]


def properties_reported(reported):
    """The lines of tags and properties."""
    properties = dict(text.split("=", 1) for text in reported.get("Properties", []) if "=" in text)
    tags = ["tag " + tag for tag in properties.get("CURRENT_TAGS", "").split(":") if tag and "Tags" in reported]
    return tags + [f"env {name}={properties[name]}" for name in sorted(properties, key=os.fsencode)
                   if name not in OWN and not name.startswith(".")]


def written_reported(err, devices):
    """The lines of what is written: of several texts for one name the last, as an answer has it."""
    lines = []
    for key in ("ATTR", "SYSCTL"):
        values = {}
        for path, value in re.findall(r"skipping writing " + key + r'\{(.*?)\}="(.*)"\.$', err, re.M):
            values[written(path, devices) if key == "ATTR" else path] = value
        lines += [f"{key.lower()} {name}={value}" for name, value in values.items()]
    return lines


def commands_reported(reported):
    """The lines of commands. One without a word is queued, and refused when it is about to be run."""
    commands = [command.split(" : ", 1) for command in reported.get("Queued commands", [])]
    return [f"run {kind[4:-1]} {text}" for kind, text in commands if text.strip(" \t\n\r")]


def make_file(sys, path, value):
    """Makes the file, folder or link that a line `K: PATH=VALUE` of a block describes (docs/behaviour.md)."""
    file = Path(f"{sys}{path}")
    file.parent.mkdir(parents=True, exist_ok=True)
    if file.name in ("slots", "aliases"):
        file.mkdir(exist_ok=True)
    elif file.name == "subsystem":
        (file.parent / "uevent").touch()
        link_subsystem(sys, file.parent, value)
    elif re.fullmatch(r"physfn|virtfn\d+|of_node|nvme\d+", file.name):
        Path(f"{sys}{value}").mkdir(parents=True, exist_ok=True)
        file.symlink_to(os.path.relpath(f"{sys}{value}", file.parent))
    else:
        file.write_bytes(bytes.fromhex(value) if file.name in ("descriptors", "config") else os.fsencode(value) + b"\n")


def make_sysfs(root, block):
    """Makes a root's folder /sys from a block, and returns the block's action and devices."""
    action, devices = devices_of(block)
    for below in ("sys", "run/udev/data"):
        shutil.rmtree(root / below, ignore_errors=True)
        (root / below).mkdir(parents=True)
    (root / "sys/class").mkdir()
    (root / "sys/bus").mkdir()
    for device, above in reversed([*zip(devices, [*devices[1:], None])]):
        make_device(root, device, above, device is devices[0])
    for path, value in re.findall("^K: (/.*?)=(.*)$", block, re.M):
        make_file(root / "sys", path, value)
    given = re.search("^K: cmdline=(.*)$", block, re.M)
    (root / "proc/cmdline").write_bytes(os.fsencode(given[1] if given else CMDLINE) + b"\n")
    return action, devices


def unlike(root, block):
    """The constants of a block that are not those of this machine and of a root, about which udevadm therefore can't be asked."""
    given = dict(re.findall("^K: (arch|virt|cvm)=(.*)$", block, re.M))
    rules = "".join(f'CONST{{{name}}}=="{value}", ENV{{{name}}}="1"\n' for name, value in given.items())
    found = ask(root, {"r.rules": os.fsencode(rules)}, "C: add\nP: /devices/x\nU: misc\n") if given else []
    return [name for name in given if f"env {name}=1" not in found]


def ask(root, rules, block):
    """What udevadm test reports about a block by rules files, which are given by their names: the lines of an answer without notes."""
    action, devices = make_sysfs(root, block)
    shutil.rmtree(root / "etc/udev/rules.d")
    (root / "etc/udev/rules.d").mkdir()
    for name, text in rules.items():
        (root / "etc/udev/rules.d" / name).write_bytes(text)
    # (no interface of this machine answers)
    done = subprocess.run(["unshare", "--net", "chroot", str(root), "/usr/bin/udevadm", "test", f"--action={action}", "/sys" + devices[0]["P"][0]],
                          env=ENVIRONMENT, stdin=subprocess.DEVNULL, capture_output=True, check=False)
    err, reported = os.fsdecode(done.stderr), sections_of(os.fsdecode(done.stdout))
    first = [f'event {action} {devices[0]["P"][0]}']
    return first + node_reported(reported) + links_reported(reported, err) + properties_reported(reported) + written_reported(err, devices) + commands_reported(reported)


class Asking:
    """A root to ask in, for a while."""

    def __init__(self, source, database):
        self.source, self.database = Path(source).absolute(), database

    def __enter__(self):
        self.folder = tempfile.TemporaryDirectory(prefix="udev-events-", dir=os.environ.get("TMPDIR") or self.source.parent)
        return make_root(self.source, self.folder.name, self.database)

    def __exit__(self, *fault):
        self.folder.cleanup()
