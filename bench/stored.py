#!/usr/bin/env python3
"""Compares what `devdry events --udev` answers to the captured blocks of a machine with what its udev has stored, device by
device: the name of an interface, links, tags and properties. What differs is counted by its cause.

Without RECORD it asks the machine that it runs on: `devdry-capture --kernel --answers --all` and `udevadm info --export-db`, which
needs a udevd that has handled all devices; bench/udevd.sh runs it beside one. A RECORD is what `umockdev-record` or `udevadm
info --export-db` printed; of the second kind no attribute is known, and little is answered.

The rules and the database are those of ROOT, which should be the machine's own: for a record of another machine each line that
its rules set otherwise differs without a known cause. `--all` shows each line that differs, otherwise those without a known cause
are shown. udev keeps no time for a device to which its rules have given nothing, and for one whose event failed or did not come:
if such a device differs, that is the cause.

usage: bench/stored.py [--all] [--no-answers] ROOT [RECORD..]
The program is build/devdry, or PROGRAM. `--no-answers` captures without --answers.
"""
import collections
import os
import re
import subprocess
import sys
from pathlib import Path

TOP = Path(__file__).resolve().parent.parent
sys.path.insert(0, str(TOP / "tests"))
from tables.kinds.answered import escaped  # noqa: E402

PROGRAM = os.path.abspath(os.environ.get("PROGRAM", TOP / "build/devdry"))
CAPTURE = TOP / "tools/devdry-capture"
# What only one of the two has about each device: of the event, of udev's own books, or given in lines of another kind.
UNCOMPARED = {"ACTION", "SEQNUM", "DRIVER", "USEC_INITIALIZED", "DEVLINKS", "TAGS", "CURRENT_TAGS"}

# Causes, of which the first that fits counts: what it is called, a pattern of a note of the answer, and one of the line that
# differs, which begins with - if udev alone has it and with + if the answer alone has it.
CAUSES = [
    ("a program without an answer", r"no answer for program", r"."),
    ("`blkid` without an answer", r"builtin not run: blkid", r"[-+](env (ID_FS|ID_PART|SYSTEMD|ID_BTRFS|UDISKS)|link disk/by-)"),
    ("`net_driver` without an answer", r"builtin not run: net_driver", r"[-+]env ID_NET_"),
    ("`net_setup_link` is not run", r"builtin not run: net_setup_link", r"[-+](env (ID_NET_|ID_RENAMING|INTERFACE|SYSTEMD_ALIAS)|name )"),
    ("another builtin without an answer", r"builtin not run", r"."),
    ("IMPORT{db} is not run", r"import not run: db", r"."),
    ("IMPORT{cmdline} is not run", r"import not run: cmdline", r"."),
    ("IMPORT{file} is not run", r"import not run: file", r"."),
    ("the block has not all that a builtin looks at", r"builtin needs", r"."),
    ("a constant that the block does not give", r"constant not given", r"."),
    ("a TEST of an absolute path", r"test not made", r"."),
    ("SYSCTL is not read", r"sysctl not read", r"."),
    ("an attribute of a device that the block does not have", r"attribute not read", r"."),
]
# Causes of records, which another udev made: what they are called, and a pattern of the line that differs.
CAUSES_OF_RECORDS = [
    ("rules of another version of udev", r"\+(tag seat|env (ID_FOR_SEAT|ID_PATH|ID_PATH_TAG)=)"),
    ("another version of the database", r"[-+]env (\w+_FROM_DATABASE|ID_AUTOSUSPEND|ID_PERSIST)="),
    ("umockdev-record drops blanks at the end of an attribute", r"[-+]env \w+_ENC="),
    ("rules of packages that ROOT may not have", r"-(tag snap_|env (LIBINPUT|UPOWER|UDISKS|DM|MD|LVM)_)"),
    ("input_id reads words of 64 bits, and the machine had others", r"[-+]((env ID_INPUT_|env ID_SERIAL=noserial)|link input/)"),
]
OTHER_RULES = "the record's udev sets no such property on any device of the subsystem"
NOT_HANDLED = "udev has stored nothing about the device"
OF_RECORDS = "the record has no attributes"
UNKNOWN = "no known cause"
KINDS = ("are folders that udev takes for no devices", "are answered as udev has it", "differ", "have a note about what was not done")


def subsystem_of(lines):
    """The subsystem of a device in a record."""
    return next((line for line in lines if line.startswith(b"E: SUBSYSTEM=")), b"")


class Source:
    """A machine or a record: what its udev has of each device, the names of all properties of each subsystem, and whether attributes
    are known."""

    def __init__(self, record, options):
        self.is_record = bool(record)
        self.blocks = asked(CAPTURE, "--kernel", *options, *(["--from", record] if record else ["--all"])).split(b"\n\n")[:-1]
        text = Path(record).read_bytes() if record else asked("udevadm", "info", "--export-db")
        self.devices = dict(records(text))
        self.names = {(subsystem_of(lines), line[3:].split(b"=")[0]) for lines in self.devices.values() for line in lines if line.startswith(b"E: ")}
        self.has_attributes = any(b"\nA: " in block for block in self.blocks)
        # (umockdev-record leaves the time out)
        self.has_times = any(name == b"USEC_INITIALIZED" for _, name in self.names)

    def is_stored(self, path):
        return not self.has_times or any(line.startswith(b"E: USEC_INITIALIZED=") for line in self.devices[path])


class Counts:
    """What was compared so far: devices of each kind, lines of each kind that udev has, and lines that differ by their causes."""

    def __init__(self):
        self.devices, self.lines, self.causes = collections.Counter(), collections.Counter(), collections.Counter()

    def show(self):
        print(f"{self.devices['all']} devices; what udev has of them: {', '.join(f'{n} {kind}' for kind, n in sorted(self.lines.items()))}")
        for kind in KINDS:
            print(f"{self.devices[kind]:6} {kind}")
        for cause, count in self.causes.most_common():
            print(f"{count:6} lines of {self.devices[cause]} devices: {cause}")


def text_of(data):
    return data.decode("utf-8", "surrogateescape")


def records(data):
    """The devices of a record, by their paths, each a list of its lines."""
    for paragraph in data.split(b"\n\n"):
        lines = paragraph.strip(b"\n").split(b"\n")
        if lines[0].startswith(b"P: "):
            yield text_of(lines[0][3:]), lines


def with_name(path, told):
    """The lines of a device; those of an interface without a line of its name with the one that its path has."""
    if b"env SUBSYSTEM=net" in told and not any(line.startswith(b"name ") for line in told):
        return told | {b"name " + escaped(os.fsencode(path.rsplit("/", 1)[1]))}
    return told


def stored_about(path, lines):
    """What udev knows about a device, in the lines of an answer."""
    properties = dict(line[3:].split(b"=", 1) for line in lines if line.startswith(b"E: "))
    tags = properties.get(b"CURRENT_TAGS", properties.get(b"TAGS", b"")).split(b":")
    told = {b"env " + name + b"=" + escaped(value) for name, value in properties.items() if text_of(name) not in UNCOMPARED}
    told |= {b"tag " + escaped(tag) for tag in tags if tag}
    told |= {b"link " + escaped(line[3:].removeprefix(b"/dev/")) for line in lines if line.startswith(b"S: ")}
    return with_name(path, told | {b"env DEVPATH=" + escaped(os.fsencode(path))})


def answered_about(path, lines):
    """What an answer tells of these."""
    told = {line for line in lines if line.split(b" ")[0] in (b"env", b"link", b"tag", b"name")}
    return with_name(path, {line for line in told if text_of(line[4:].split(b"=")[0]) not in UNCOMPARED})


def property_of(line):
    """The name of the property in a line of an answer, or nothing."""
    return line[4:].split(b"=")[0] if line.startswith(b"env ") else None


def cause_of(source, path, line, notes):
    """The cause of a line that differs."""
    if not source.is_stored(path):
        return NOT_HANDLED
    for cause, note, differing in CAUSES:
        if re.match(differing, line) and any(re.search(": " + note, said) for said in notes):
            return cause
    if source.is_record:
        if not source.has_attributes:
            return OF_RECORDS
        if line.startswith("+env ") and (subsystem_of(source.devices[path]), property_of(os.fsencode(line[1:]))) not in source.names:
            return OTHER_RULES
        for cause, differing in CAUSES_OF_RECORDS:
            if re.match(differing, line):
                return cause
    return UNKNOWN


def compare_device(counts, source, path, answer, shows_all):
    """Counts a device, and shows its lines that differ."""
    theirs, ours = stored_about(path, source.devices[path]), answered_about(path, answer)
    notes = [text_of(line) for line in answer if line.startswith(b"note ")]
    differing = [b"-" + line for line in sorted(theirs - ours)] + [b"+" + line for line in sorted(ours - theirs)]
    counts.devices["differ" if differing else "are answered as udev has it"] += 1
    counts.devices["have a note about what was not done"] += any(re.search(": " + note, said) for said in notes for _, note, _ in CAUSES)
    counts.lines.update(text_of(line.split(b" ")[0]) for line in theirs)
    of_cause = collections.defaultdict(list)
    for line in differing:
        of_cause[cause_of(source, path, text_of(line), notes)].append(line.decode("utf-8", "backslashreplace"))
    for cause, lines in of_cause.items():
        counts.causes[cause] += len(lines)
        counts.devices[cause] += 1
        if shows_all or cause == UNKNOWN:
            print("\n    ".join([f"{path}: {cause}", *lines]), flush=True)


def asked(*words, data=b""):
    """What a command prints."""
    return subprocess.run([str(word) for word in words], input=data, stdout=subprocess.PIPE, check=False).stdout


def compare(counts, root, source, shows_all):
    """Counts the devices of a machine or a record."""
    answers = asked(PROGRAM, "events", "--udev", "-r", root, data=b"\n\n".join([*source.blocks, b""])).split(b"\n\n")[:-1]
    if len(answers) != len(source.blocks):
        sys.exit(f"{len(source.blocks)} blocks have {len(answers)} answers")
    for block, answer in zip(source.blocks, answers):
        path = text_of(block.split(b"\n")[1][3:])
        counts.devices["all"] += 1
        if path in source.devices:
            compare_device(counts, source, path, answer.split(b"\n"), shows_all)
        else:
            counts.devices["are folders that udev takes for no devices"] += 1


def main(words):
    options = {word for word in words if word.startswith("--")}
    paths = [word for word in words if not word.startswith("--")]
    if not paths or options - {"--all", "--no-answers"}:
        sys.exit(__doc__)
    counts = Counts()
    for record in paths[1:] or [None]:
        compare(counts, paths[0], Source(record, [] if "--no-answers" in options else ["--answers"]), "--all" in options)
    counts.show()
    return counts.causes[UNKNOWN]


if __name__ == "__main__":
    sys.exit(1 if main(sys.argv[1:]) else 0)
