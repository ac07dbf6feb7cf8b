"""`events --udev`: devices that have no event, attributes behind links and in folders that the block does not show, removals, the mode
that the kernel gives a node, and a part of the kernel's command line. udevadm 257 was asked about CASES; what is in NOTED udevadm can't
be asked about, or leaves in notes.
"""
from tables.kinds.row import Row
from tables.kinds.udev_blocks import DISK, PART, THING, answer_lines, removed
from tables.kinds.udev_events import answered_as_udev
from tables.kinds.why import of, why

# A device without a subsystem, which the kernel sends no event of.
HOST = "C: add\nP: /devices/pci0000:00\nE: A=1\n"
NO_EVENT = "note -: no subsystem, so no rule is tried: /devices/pci0000:00"
# What is said of a block of a disk that is removed, and has attributes.
GONE = "note -: attributes of a removed device: /devices/pci0/usb1/block/sda"
ALL = 'ENV{F}="1"\nTAG+="t", RUN+="/bin/a"\n'

# A disk of a class below a device of virtio, as this machine has it.
VIRTIO = """C: add
P: /devices/pci0000:00/0000:00:02.0/virtio1/block/vda
U: block
N: vda
D: 254:0
A: size=2048
A: queue/rotational=0
P: /devices/pci0000:00/0000:00:02.0/virtio1
U: virtio
V: virtio_blk
A: vendor=0x1af4
A: device=0x0002
A: power/control=auto
P: /devices/pci0000:00/0000:00:02.0
U: pci
V: virtio-pci
A: vendor=0x1af4
P: /devices/pci0000:00
"""


# A device and one above it, without any attribute.
BARE = "C: add\nP: /devices/p0/x\nU: misc\nP: /devices/p0\nU: platform\n"


def node(mode, action="add", number="D: 1:7\n", more=""):
    """A node to which the kernel gives a mode."""
    return f"C: {action}\nP: /devices/virtual/mem/full\nU: mem\n{number}E: DEVMODE={mode}\n{more}"


def parent(*lines):
    """A device below one with a property and these lines."""
    return "C: add\nP: /devices/p0/x\nU: misc\nP: /devices/p0\n" + "".join(line + "\n" for line in lines) + "E: ID_P=1\n"


CASES = [
    ("a device without a subsystem that is removed", ALL, removed(HOST), ["tag t", "env F=1", "run program /bin/a"]),
    ("a parent without a subsystem gives IMPORT{parent} nothing", 'IMPORT{parent}=="ID_*", ENV{F}="1"\nKERNELS=="p0", ENV{G}="$id"\n', parent(),
     ["env F=1", "env G=p0"]),
    ("a parent with a driver and without a subsystem gives IMPORT{parent} nothing", 'IMPORT{parent}=="ID_*", ENV{F}="1"\n', parent("V: d"), ["env F=1"]),
    ("a parent with a subsystem gives IMPORT{parent} its properties", 'IMPORT{parent}=="ID_*", ENV{F}="1"\n', parent("U: platform"), ["env F=1", "env ID_P=1"]),
    ("the kernel's mode of a node", 'GROUP="6"\n', node("0600"), ["group 6", "mode 0600"]),
    ("the kernel's mode with one digit, and with more than four", 'ENV{A}="1"\n', node("0"), ["mode 0000", "env A=1"]),
    ("the kernel's mode has zeros in front", 'ENV{A}="1"\n', node("000666"), ["mode 0666", "env A=1"]),
    ("a rule's mode goes before the kernel's", 'MODE="0640"\n', node("0666"), ["mode 0640"]),
    ("a mode that is refused leaves the kernel's", 'MODE="rw"\n', node("0666"), ["mode 0666", "note r.rules:1: mode ignored: rw"]),
    ("the kernel's mode of a node that is removed", 'ENV{A}="1"\n', node("0600", "remove"), ["mode 0600", "env A=1"]),
    ("without a number there is no mode", 'ENV{A}="1"\n', node("0600", number=""), ["env A=1"]),
    ("a property that a rule sets is no mode", 'ENV{DEVMODE}="0640"\n', node("0666"), ["mode 0666", "env DEVMODE=0640"]),
    ("an attribute behind the link of a device of a class",
     'ATTR{device/vendor}=="0x1af4", ENV{A}="$attr{device/vendor}|$attr{device/power/control}|$attr{device/device}"\n'
     'ATTR{device/none}!="x", ENV{B}="1"\nATTR{device/none}=="", ENV{C}="1"\nATTR{device/vendor}!="0x1af4", ENV{D}="1"\n',
     VIRTIO, ["env A=0x1af4|auto|0x0002"]),
    ("ATTRS of an attribute behind a link selects the device that has the link", 'ATTRS{device/vendor}=="?*", ENV{A}="$id"\n', VIRTIO, ["env A=vda"]),
    ("TEST behind a link, and of the link", 'TEST=="device/vendor", ENV{A}="1"\nTEST!="device/none", ENV{B}="1"\nTEST=="device", ENV{C}="1"\nTEST=="device/power", ENV{D}="1"\n'
     'TEST=="device/device", ENV{E}="1"\n', VIRTIO, ["env A=1", "env B=1", "env C=1", "env D=1", "env E=1"]),
    ("a device of a bus has no such link", 'ATTR{device/vendor}!="x", ENV{A}="1"\nTEST=="device/vendor", ENV{B}="1"\nTEST=="device", ENV{C}="1"\n',
     VIRTIO.replace("P: /devices/pci0000:00/0000:00:02.0/virtio1/block/vda\nU: block\nN: vda\nD: 254:0\nA: size=2048\nA: queue/rotational=0\n", ""), ["env C=1"]),
    ("a partition has no such link", 'ATTR{device/size}!="x", ENV{A}="1"\nTEST=="device/size", ENV{B}="1"\n',
     PART.replace("D: 8:1\n", "D: 8:1\nE: DEVTYPE=partition\n").replace("D: 8:0\n", "D: 8:0\nA: size=1\n"), []),
    ("a device of a class without one above has no such link", 'ATTR{device/size}!="x", ENV{A}="1"\n', node("0666"), ["mode 0666"]),
]

NOTED = [
    ("a device without a subsystem has no event", ALL, HOST, [NO_EVENT]),
    ("a device without a subsystem that changes", ALL, HOST.replace("C: add", "C: change"), [NO_EVENT]),
    ("a mode that the kernel does not write", 'ENV{A}="1"\n', node("600"), ["env A=1"]),
    ("an attribute that the block has for a link goes first", 'ATTR{device/vendor}=="1", ENV{A}="$attr{device/vendor}"\n',
     VIRTIO.replace("A: size=2048\n", "A: size=2048\nA: device/vendor=1\n"), ["env A=1"]),
    ("a folder that the block shows has no other attributes but those behind the link", 'ATTR{device/none}!="x", ENV{A}="1"\n'
     'ENV{B}="$attr{device/model}|$attr{device/vendor}|$attr{queue/none}|"\n',
     VIRTIO.replace("A: size=2048\n", "A: size=2048\nA: device/model=1\n"), ["env B=1|0x1af4||"]),
    ("a folder that the block does not show", 'ATTR{bdi/read_ahead_kb}!="x", ENV{A}="1"\nENV{B}="$attr{bdi/read_ahead_kb}|"\nTEST!="bdi/read_ahead_kb", ENV{C}="1"\n'
     'IMPORT{builtin}="hwdb x$attr{bdi/max_ratio}"\n', VIRTIO,
     ["env B=|", "env C=1", "note r.rules:1: attribute not read: bdi/read_ahead_kb", "note r.rules:3: test not made: bdi/read_ahead_kb",
      "note r.rules:4: attribute not read: bdi/max_ratio", "note r.rules:2: attribute not read: bdi/read_ahead_kb"]),
    ("a folder that the block does not show behind a link", 'ATTR{device/q/x}!="x", ENV{A}="1"\nATTR{device/power/none}!="x", ENV{B}="1"\n', VIRTIO,
     ["note r.rules:1: attribute not read: device/q/x"]),
    ("a device above that the block does not have", 'ATTR{device/vendor}!="x", ENV{A}="1"\n', VIRTIO[:VIRTIO.index("P: /devices/pci0000:00/0000:00:02.0/virtio1\n")],
     ["note r.rules:1: attribute not read: device/vendor"]),
    ("ATTRS of a folder that no device shows", 'ATTRS{q/x}!="1", ENV{A}="1"\nATTRS{q/y}=="1", TAG+="t"\n', VIRTIO,
     ["note r.rules:1: attribute not read: q/x", "note r.rules:2: attribute not read: q/y"]),
    ("ATTRS of a folder that a device does not show, and one above meets the rule", 'ATTRS{power/control}=="auto", ENV{A}="$id"\n', VIRTIO, ["env A=virtio1"]),
    ("ATTRS of a folder that a device does not show, and none meets the rule", 'ATTRS{power/control}=="on", ENV{A}="1"\n', VIRTIO,
     ["note r.rules:1: attribute not read: power/control"]),
    ("ATTRS of a folder that only devices do not show that another match gives up", 'KERNELS=="virtio1", ATTRS{power/control}=="on", ENV{A}="1"\n', VIRTIO, []),
    ("ATTRS of what no device has, in a rule that another match gives up first", 'ATTRS{none}=="1", ATTRS{q/x}=="1", ENV{A}="1"\nKERNELS=="none", ATTRS{q/x}=="1", ENV{B}="1"\n', VIRTIO, []),
    ("ATTRS of two folders that no device shows", 'ATTRS{q/x}=="1", ATTRS{r/x}=="1", ENV{A}="1"\n', VIRTIO, ["note r.rules:1: attribute not read: q/x"]),
    ("ATTRS in a rule whose matches of the event fail", 'KERNEL=="none", ATTRS{q/x}=="1", ENV{A}="1"\n', VIRTIO, []),
    ("ATTRS of a file that has no value of one line, of a path, and of a device that the block does not have",
     'ATTRS{uevent}=="1", ENV{A}="1"\nATTRS{../x}=="1", ENV{A}="1"\nATTRS{[dmi/id]x}=="1", ENV{A}="1"\n', VIRTIO,
     ["note r.rules:1: attribute not read: uevent", "note r.rules:2: attribute not read: ../x", "note r.rules:3: attribute not read: [dmi/id]x"]),
    ("notes of ATTRS come after those of matches", 'ATTRS{q/x}=="1", ENV{A}="1"\nENV{B}="$attr{q/y}|"\nATTR{q/z}=="1", ENV{C}="1"\n', VIRTIO,
     ["env B=|", "note r.rules:3: attribute not read: q/z", "note r.rules:1: attribute not read: q/x", "note r.rules:2: attribute not read: q/y"]),
    ("files that have no value of one line", 'ATTR{uevent}!="x", ENV{A}="1"\nATTR{resource}!="x", ENV{B}="1"\nENV{C}="$attr{uevent}|$attr{config}|"\nTEST=="uevent", ENV{D}="1"\n', VIRTIO,
     ["env C=||", "note r.rules:1: attribute not read: uevent", "note r.rules:4: test not made: uevent", "note r.rules:3: attribute not read: uevent"]),
    ("files of a device of PCI", 'ATTR{resource}!="x", ENV{A}="1"\nATTR{config}!="x", ENV{B}="1"\nATTR{uevent}=="U", ENV{C}="1"\n',
     "C: add\nP: /devices/pci0000:00/0000:00:02.0\nU: pci\nA: uevent=U\n",
     ["env C=1", "note r.rules:1: attribute not read: resource", "note r.rules:2: attribute not read: config"]),
    ("buses that the block names have no such link", 'ATTR{device/vendor}=="0x1af4", ENV{A}="1"\n', VIRTIO + "K: bus=pci block virtio\n", []),
    ("a bus whose name begins alike is another", 'ATTR{device/vendor}=="0x1af4", ENV{A}="1"\n', VIRTIO + "K: bus=pci blocks virtio\n", ["env A=1"]),
    ("an attribute of a device that is removed", 'ATTR{size}=="2048", ENV{A}="1"\nATTR{none}!="x", ENV{B}="1"\nATTR{../../serial}=="7", ENV{C}="1"\n'
     'ATTR{[usb/usb1]serial}=="7", ENV{D}="1"\n', removed(DISK),
     ["env A=1", "env C=1", "env D=1", GONE]),
    ("a word of a part of the command line", 'IMPORT{cmdline}=="ab", ENV{A}="1"\nIMPORT{cmdline}!="ab", ENV{B}="1"\n', THING + "K: cmdline.part=x ab=2\n", ["env A=1", "env ab=2"]),
    ("a word that a part of the command line does not have", 'IMPORT{cmdline}=="ab", ENV{A}="1"\nIMPORT{cmdline}!="ab", ENV{B}="1"\nIMPORT{cmdline}!="", ENV{C}="1"\n',
     THING + "K: cmdline.part=x abc\n",
     ["env B=1", "env C=1", "note r.rules:1: import not run: cmdline", "note r.rules:2: import not run: cmdline", "note r.rules:3: import not run: cmdline"]),
    ("a block without attributes, noted by the first rule that looks at one", 'KERNEL=="none", ENV{A}="1"\nATTRS{idVendor}=="1", ENV{B}="1"\nATTR{size}=="1", ENV{C}="1"\n', BARE,
     ["note r.rules:2: attributes not given: idVendor"]),
    ("a block without attributes, and matches of both kinds in a rule", 'ATTRS{b}=="1", ATTR{a}!="1", ENV{A}="1"\n', BARE, ["note r.rules:1: attributes not given: a"]),
    ("a block without attributes, and a match by !=", 'ATTR{a}!="1", ENV{A}="1"\n', BARE, ["note r.rules:1: attributes not given: a"]),
    ("a block without attributes, and a rule that is passed over", 'GOTO="end"\nATTR{a}=="1", ENV{A}="1"\nLABEL="end"\n', BARE, ["note r.rules:2: attributes not given: a"]),
    ("a block without attributes, and rules that look at none", 'KERNEL=="x", ENV{A}="1", ATTR{a}="1"\nKERNELS=="p0", ENV{B}="$id"\n', BARE, ["env A=1", "env B=p0", "attr a=1"]),
    ("a block without attributes, and rules that look at those of other devices", 'ATTR{[dmi/id]x}=="1", ENV{A}="1"\nATTR{uevent}=="1", ENV{B}="1"\n', BARE,
     ["note r.rules:1: attribute not read: [dmi/id]x", "note r.rules:2: attribute not read: uevent"]),
    ("an attribute of the device is enough", 'ATTRS{a}=="1", ENV{A}="1"\n', BARE.replace("U: misc\n", "U: misc\nA: b=1\n"), []),
    ("an attribute of a device above is enough", 'ATTR{a}=="1", ENV{A}="1"\n', BARE + "A: b=1\n", []),
    ("a removed device without attributes", 'ATTR{a}=="1", ENV{A}="1"\n', removed(BARE), []),
    ("a device without a subsystem and without attributes", 'ATTR{a}=="1", ENV{A}="1"\n', HOST, ["env A=1", NO_EVENT]),
    ("the note on a block without attributes comes last", 'ATTR{a}=="1", ENV{A}="1"\nSYMLINK+="x"\nENV{B}="$attr{[dmi/id]x}|"\n', BARE,
     ["env B=|", "note r.rules:2: no device number: SYMLINK", "note r.rules:3: attribute not read: [dmi/id]x", "note r.rules:1: attributes not given: a"]),
    ("all of the command line goes before a part", 'IMPORT{cmdline}!="ab", ENV{A}="1"\n', THING + "K: cmdline=x\nK: cmdline.part=ab\n", ["env A=1"]),
]


def by_the_manual(name, rules, block, *lines):
    """The same rules and block without --udev."""
    return Row(name, "events -r none r.rules", {"r.rules": rules}, block, b"".join(line + b"\n" for line in answer_lines(block, list(lines))) + b"\n")


MANUAL = [
    by_the_manual("by the manual a device without a subsystem has an event", ALL, HOST, "tag t", "env F=1", "run program /bin/a"),
    by_the_manual("by the manual IMPORT{parent} asks for no subsystem", 'IMPORT{parent}="ID_*"\n', parent(), "env ID_P=1"),
    by_the_manual("by the manual the kernel gives no mode", 'ENV{A}="1"\n', node("0600"), "env A=1"),
    by_the_manual("by the manual no link is followed", 'ATTR{device/vendor}!="x", ENV{A}="$attr{device/vendor}|"\nTEST!="device/vendor", ENV{B}="1"\nTEST!="device", ENV{C}="1"\n',
                  VIRTIO, "env A=|", "env B=1", "env C=1"),
    by_the_manual("by the manual no folder is asked for", 'ATTR{bdi/x}!="x", ATTR{uevent}!="x", ENV{A}="1"\nATTRS{bdi/x}=="x", ENV{B}="1"\n', VIRTIO, "env A=1"),
    by_the_manual("by the manual a block without attributes is as good as any", 'ATTR{a}!="1", ENV{A}="1"\n', BARE, "env A=1"),
    by_the_manual("by the manual a device that is removed has its attributes", 'ATTR{size}=="2048", ENV{A}="1"\n', removed(DISK), "env A=1"),
    by_the_manual("by the manual no part of a command line is looked at", 'IMPORT{cmdline}!="ab", ENV{A}="1"\n', THING + "K: cmdline.part=ab\n", "env A=1",
                  "note r.rules:1: import not run: cmdline"),
]

WHY = [
    why("what a block does not tell", [f'{it}, TAG+="t"' for it in ('ATTR{bdi/x}=="1"', 'ATTRS{device/none}=="1"', 'ATTR{device/x}=="1"', 'TEST=="bdi/x"', 'IMPORT{cmdline}=="a"')],
        ["U: block", "A: size=1", "K: cmdline.part=b"],
        ["env SUBSYSTEM=block", "note r.rules:1: attribute not read: bdi/x", "note r.rules:3: attribute not read: device/x", "note r.rules:4: test not made: bdi/x",
         "note r.rules:5: import not run: cmdline", "note r.rules:2: attribute not read: device/none"],
        of(1, 'ATTR{bdi/x}=="1": fails, not in the block', "stops there"),
        of(2, 'ATTRS{device/none}=="1": d fails, not in the block', "no device meets any", "stops there"),
        of(3, 'ATTR{device/x}=="1": fails, not in the block', "stops there"),
        of(4, 'TEST=="bdi/x": fails, not made: bdi/x', "stops there"),
        of(5, 'IMPORT{cmdline}=="a": fails, not run', "stops there"), udev=True),
]

ROWS = answered_as_udev(CASES) + answered_as_udev(NOTED) + MANUAL + WHY
