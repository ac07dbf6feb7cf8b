"""Event blocks: what each line gives its device, and where a block is faulty."""
from tables.kinds.row import Row

EVENTS = "events -r none"

# An event without rules, and its answer.
ANSWER = "event add /d\nenv ACTION=add\nenv DEVPATH=/d\n\n"


def fault(text, line, reported, name=None):
    """A block that is refused at a line."""
    return Row(name or f"{text!r}: {reported}", EVENTS, input=text, messages=f"block 1, line {line}: {reported}\n", status=1)


def below(lines, line, reported):
    """The same for lines after an action and a device, which are lines 1 and 2."""
    return fault(b"C: add\nP: /d\n" + lines, line, reported, f"after a device, {lines!r}: {reported}")


FIRST_LINES = [
    fault("P: /d\n", 1, "no action"),
    fault("C: \nP: /d\n", 1, "no action"),
    fault("K: a=1\nC: add\n", 1, "no action"),
    fault("X: y\n", 1, "unknown line"),
    fault("C:add\n", 1, "unknown line"),
    fault("C: add", 1, "no device"),
    fault("C: add\n", 1, "no device"),
    fault("C: add\nK: arch=x\n", 2, "no device"),
    fault("C: add\nU: x\n", 2, "no device"),
    fault("C: add\nE: a=1\nP: /d\n", 2, "no device"),
    fault("C: add\nB: a=1\nP: /d\n", 2, "no device"),
    fault("R: 0\n", 1, "pair"),
    fault("O: a\n", 1, "no action"),
    fault("X: \0\n", 1, "nul byte"),
]

PATHS = [
    fault("C: add\nP: /d/\n", 2, "path"),
    fault("C: add\nP: d\n", 2, "path"),
    fault("C: add\nP: \n", 2, "path"),
    fault("C: add\nP: /\n", 2, "path"),
    fault("C: add\nP: /a//b\n", 2, "path"),
    fault("C: add\nP: /devices/a\nP: /devices/b\n", 3, "path"),
    fault("C: add\nP: /a/bc\nP: /a/b\n", 3, "path"),
    fault("C: add\nP: /a/b\nP: /a/b\n", 3, "path"),
    fault("C: add\nP: /a/b\nP: \n", 3, "path"),
]

BELOW = [
    below(b"D: 8\n", 3, "number"),
    below(b"D: 8:\n", 3, "number"),
    below(b"D: 8:0:0\n", 3, "number"),
    below(b"D: 4294967296:0\n", 3, "number"),
    below(b"D: 0:00000000001\n", 3, "number"),
    below(b"E: =x\n", 3, "pair"),
    below(b"E: x\n", 3, "pair"),
    below(b"A: x\n", 3, "pair"),
    below(b"B: x\n", 3, "pair"),
    below(b"B: =x\n", 3, "pair"),
    below(b"K: =\n", 3, "pair"),
    below(b"C: \n", 3, "pair"),
    below(b"U: \n", 3, "pair"),
    below(b"V: \n", 3, "pair"),
    below(b"N: \n", 3, "pair"),
    below(b"G: \n", 3, "pair"),
    below(b"S: \n", 3, "pair"),
    below(b"Q: \n", 3, "pair"),
    below(b"Q: a\n", 3, "pair"),
    below(b"Q: a\nE: k=v\n", 3, "pair"),
    below(b"Q: a\nR: 0\nQ: a\n", 5, "pair"),
    below(b"R: 0\n", 3, "pair"),
    below(b"Q: a\nR: 0\nR: 0\n", 5, "pair"),
    below(b"O: a\n", 3, "pair"),
    below(b"Q: a\nO: a\n", 3, "pair"),
    below(b"Q: a\nR: 0\nE: a=1\nO: a\n", 6, "pair"),
    below(b"Q: a\nR: 0 b\nO: c\nR: 0\n", 6, "pair"),
    below(b"Q: a\nR: 0 b\nO: c\nQ: a\nR: 0\n", 6, "given twice"),
    below(b"R: 999\n", 3, "pair"),
    below(b"Q: a\nR: 256\n", 4, "number"),
    below(b"Q: a\nR: 0000\n", 4, "number"),
    below(b"Q: a\nR: \n", 4, "number"),
    below(b"Q: a\nR: 0x\n", 4, "number"),
    below(b"E: k=\0\n", 3, "nul byte"),
    below(b"x\n", 3, "unknown line"),
    below(b"E:k=v\n", 3, "unknown line"),
    below(b" E: k=v\n", 3, "unknown line"),
    below(b"X: y\nU: \n", 3, "unknown line"),
]

TWICE = [
    below(b"C: add\n", 3, "given twice"),
    *(
        below(line + b"\n" + line + b"\n", 4, "given twice")
        for line in [b"U: x", b"V: x", b"N: x", b"D: 1:2", b"A: x=1", b"E: x=1", b"B: x=1", b"G: x", b"S: x", b"K: x=1"]
    ),
    below(b"A: x=1\nA: x=2\n", 4, "given twice"),
    below(b"U: x\nU: y\n", 4, "given twice"),
    below(b"Q: a\nR: 0\nQ: a\nR: 1\n", 5, "given twice"),
]


def answered(name, block, output, rules="# none\n"):
    """A block that is answered by one rules file."""
    return Row(name, "events -r none r.rules", {"r.rules": rules}, block, output)


# A block with each kind of line, and rules that show each of them.
WHOLE = """C: change
K: arch=x86-64
P: /devices/pci0/usb1/1-1
U: usb
V: hub
N: bus/usb/001/002
D: 189:001
A: serial=7 = 7
E: ID=a=b
E: EMPTY=
G: seat
G: systemd
S: disk/x
Q: blkid -o x
R: 0 TYPE=ext4\x20
P: /devices/pci0
U: pci
A: serial=8
Q: false
R: 255
"""
SHOWING = r"""ACTION=="change", CONST{arch}=="x86-64", CONST{virt}!="?*", RUN+="the event"
DEVPATH=="/devices/pci0/usb1/1-1", SUBSYSTEM=="usb", DRIVER=="hub", RUN+="$devnode $major:$minor"
ATTR{serial}=="7 = 7", ENV{ID}=="a=b", ENV{EMPTY}=="", TAG=="seat", SYMLINK=="disk/x", RUN+="the device"
PROGRAM=="blkid -o x", RESULT=="TYPE=ext4 ", ENV{TYPE}="[$result]"
PROGRAM!="false", ENV{FALSE}="[$result]"
SUBSYSTEMS=="pci", DRIVERS=="", ATTRS{serial}=="8", TAGS!="*", RUN+="$id is above"
KERNELS=="usb1", RUN+="a device that is not given"
"""
SHOWN = """event change /devices/pci0/usb1/1-1
link disk/x
tag seat
tag systemd
env ACTION=change
env DEVNAME=/dev/bus/usb/001/002
env DEVPATH=/devices/pci0/usb1/1-1
env EMPTY=
env FALSE=[]
env ID=a=b
env MAJOR=189
env MINOR=001
env SUBSYSTEM=usb
env TYPE=[TYPE=ext4 ]
run program the event
run program /dev/bus/usb/001/002 189:001
run program the device
run program pci0 is above

"""

# The event's own properties override those of the block, and kernel names have slashes where paths have none.
DISK = (
    "C: add\nP: /devices/x/cciss!c0d1\nN: cciss/c0d1\nA: a=a \t\nE: ACTION=old\nE: DEVNAME=old\nE: MAJOR=9\n"
    "P: /devices/x\n"
)
ASKING = r"""KERNEL=="cciss/c0d1", ENV{X}=="", RUN+="$devnode"
KERNELS=="x", RUN+="$id"
ATTR{a}=="a", RUN+="[$attr{a}]"
"""
ASKED = """event add /devices/x/cciss!c0d1
env ACTION=add
env DEVNAME=/dev/cciss/c0d1
env DEVPATH=/devices/x/cciss!c0d1
env MAJOR=9
run program /dev/cciss/c0d1
run program x
run program [a]

"""

READ = [
    answered("a block with each kind of line", WHOLE, SHOWN, SHOWING),
    answered("properties of the event are set, and kernel names have slashes", DISK, ASKED, ASKING),
    answered("the last line has no newline", "C: add\nP: /d", ANSWER),
    answered("empty lines are skipped", "\n\nC: add\nP: /d\n\n\n\nC: add\nP: /d\n\n", ANSWER * 2),
    answered("no block", "", ""),
    answered("only empty lines", "\n\n\n", ""),
    answered(
        "device numbers are kept as written",
        "C: add\nP: /d\nD: 4294967295:0000000001\n",
        ANSWER[:-1] + "env MAJOR=4294967295\nenv MINOR=0000000001\n\n",
    ),
    answered(
        "two devices may have equal lines",
        "C: add\nP: /d/e\nU: x\nA: x=1\nP: /d\nU: x\nA: x=1\n",
        "event add /d/e\nenv ACTION=add\nenv DEVPATH=/d/e\nenv SUBSYSTEM=x\n\n",
    ),
    answered("constants and programs before the first device", "C: add\nK: arch=x\nQ: a\nR: 255 t\nP: /d\n", ANSWER),
]


def letters(count):
    """A block with a property of so many letters; with 65,509 of them the block has 65,536 bytes."""
    return "C: add\nP: /devices/x\nE: X=" + "v" * count + "\n"


def chain(count):
    """A block of so many devices, with the path `/a` for the last."""
    return "C: add\n" + "".join(f"P: {'/a' * length}\n" for length in range(count, 0, -1))


BOUNDS = [
    answered(
        "a block of 65,536 bytes",
        letters(65_509),
        "event add /devices/x\nenv ACTION=add\nenv DEVPATH=/devices/x\nenv X=" + "v" * 65_509 + "\n\n",
    ),
    fault(letters(65_510), 3, "too long", "a block of 65,537 bytes"),
    fault("X: y\n" + letters(65_510), 4, "too long", "a block that is too long is reported before any other fault"),
    answered("64 devices", chain(64), f"event add {'/a' * 64}\nenv ACTION=add\nenv DEVPATH={'/a' * 64}\n\n"),
    fault(chain(65), 66, "too deep", "65 devices"),
]

RUNS = [
    Row(
        "a faulty block ends the run",
        EVENTS,
        input="C: add\nP: /d\n\nC: add\nP: /devices/a\nP: /devices/b\n\nC: add\nP: /d\n\n",
        output=ANSWER,
        messages="block 2, line 3: path\n",
        status=1,
    ),
    Row(
        "the first faulty line is reported",
        EVENTS,
        input="C: add\nP: /d\nD: 8\nX: y\n",
        messages="block 1, line 3: number\n",
        status=1,
    ),
]

ROWS = [*FIRST_LINES, *PATHS, *BELOW, *TWICE, *READ, *BOUNDS, *RUNS]
