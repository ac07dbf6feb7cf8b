"""IMPORT{builtin}: what `hwdb` finds along the chain and by a modalias, and what is noted of other commands."""
from tables.kinds.row import Row

HUBS = "usb:v1D6B*\n ID_VENDOR=Linux\n"

# A device without MODALIAS below a hub, and the same with a device of USB between the two.
BELOW_HUB = "C: add\nP: /devices/h/p\nP: /devices/h\nU: usb\nE: MODALIAS=usb:v1D6Bp0002\n"
BELOW_DEVICE = (
    "C: add\nP: /devices/h/d/p\nP: /devices/h/d\nU: usb\nE: DEVTYPE=usb_device\n"
    "P: /devices/h\nU: usb\nE: MODALIAS=usb:v1D6Bp0002\n"
)

# A device with its own modalias below a hub.
BELOW_UNKNOWN = (
    "C: add\nP: /devices/h/p\nU: tty\nE: MODALIAS=tty:unknown\n"
    "P: /devices/h\nU: usb\nE: MODALIAS=usb:v1D6Bp0002\n"
)

# A device about which only the path is known.
ALONE = "C: add\nP: /devices/d\n"


def beginning(lines, word):
    """Those of some lines that begin with a word."""
    return [line for line in lines if line.startswith(word)]


def asked(name, rule, block, *lines, database=HUBS):
    """The result of a rules file h.rules over a block and a database: the lines that are not those of the event."""
    path = block.splitlines()[1][3:]
    env = sorted(["env ACTION=add", f"env DEVPATH={path}", *beginning(lines, "env ")])
    answer = [f"event add {path}", *beginning(lines, "tag "), *env, *beginning(lines, "note ")]
    files = {"h.rules": rule + "\n", "r/etc/udev/hwdb.d/u.hwdb": database}
    return Row(name, "events -r r h.rules", files, block, "\n".join(answer) + "\n\n")


def found(command, block, *lines, database=HUBS, name=None):
    """A command that finds these properties."""
    rule = f'IMPORT{{builtin}}=="{command}", TAG+="found"'
    return asked(name or f"{command} finds properties", rule, block, "tag found", *lines, database=database)


def fails(command, block, *notes, database=HUBS, name=None):
    """A command that fails, perhaps with a note."""
    rule = f'IMPORT{{builtin}}!="{command}", TAG+="failed"'
    lines = [f"note h.rules:1: {note}" for note in notes]
    return asked(name or f"{command} fails", rule, block, "tag failed", *lines, database=database)


LINUX = "env ID_VENDOR=Linux"

CHAIN = [
    asked("the USB parent is looked up", 'IMPORT{builtin}="hwdb --subsystem=usb"', BELOW_HUB, LINUX),
    found("hwdb --subsystem=usb", BELOW_HUB, LINUX),
    fails("hwdb --subsystem=usb", BELOW_DEVICE, name="a USB device ends the search"),
    found("hwdb", BELOW_HUB, LINUX),
    fails("hwdb --subsystem=pci", BELOW_HUB),
    fails("hwdb --subsystem=", BELOW_HUB),
    found("hwdb --subsystem=pci --subsystem=usb", BELOW_HUB, LINUX),
    found(
        "hwdb --subsystem=pci",
        BELOW_DEVICE + "P: /devices\nU: pci\nE: MODALIAS=usb:v1D6B\n",
        LINUX,
        name="a USB device skipped by --subsystem does not end the search",
    ),
    found(
        "hwdb",
        BELOW_UNKNOWN,
        "env MODALIAS=tty:unknown",
        "env SUBSYSTEM=tty",
        LINUX,
        name="a modalias that is not in the database is skipped",
    ),
    found(
        "hwdb --filter=ID_*",
        BELOW_UNKNOWN,
        "env MODALIAS=tty:unknown",
        "env SUBSYSTEM=tty",
        LINUX,
        database=HUBS + "\ntty:*\n A=1\n",
        name="a modalias whose properties are all filtered out is skipped",
    ),
    found(
        "hwdb",
        BELOW_UNKNOWN,
        "env MODALIAS=tty:unknown",
        "env SUBSYSTEM=tty",
        "env A=1",
        database=HUBS + "\ntty:*\n A=1\n",
        name="after a modalias that is in the database no other is looked up",
    ),
    asked(
        "a device without a subsystem is not looked up",
        'IMPORT{builtin}!="hwdb", TAG+="failed"',
        "C: add\nP: /devices/d\nE: MODALIAS=usb:v1D6B\n",
        "tag failed",
        "env MODALIAS=usb:v1D6B",
    ),
    fails("hwdb", ALONE, name="a device without a modalias is not looked up"),
    found("hwdb --lookup-prefix=x", BELOW_HUB, "env A=1", database="xusb:*\n A=1\n"),
]

MODALIAS = [
    found("hwdb usb:v1D6B", ALONE, LINUX),
    found("hwdb --lookup-prefix=usb: 'v1D6B x' --filter=ID_*", ALONE, LINUX),
    found(
        "hwdb --lookup-prefix=usb: 'v1D6B x' --filter=ID_*",
        BELOW_HUB,
        LINUX,
        database="usb:v1D6B x\n ID_VENDOR=Linux\n",
        name="quotes and a prefix",
    ),
    found("hwdb u's'b:'v1D6B'x", ALONE, "env A=1", database="usb:v1D6Bx\n A=1\n"),
    found("hwdb ''", ALONE, "env A=1", database="*\n A=1\n"),
    fails("hwdb usb:v1D6B", ALONE, database="usb:v1D6\n A=1\n"),
    asked(
        "a command is rendered before its own rule sets a property",
        'ENV{M}="usb:v1D6B", IMPORT{builtin}=="hwdb $env{M}"',
        ALONE,
    ),
    asked(
        "a command is rendered with the properties of earlier rules",
        'ENV{M}="usb:v1D6B"\nIMPORT{builtin}=="hwdb $env{M}"',
        ALONE,
        "env M=usb:v1D6B",
        LINUX,
    ),
]

FILTERS = [
    fails("hwdb usb:v1D6B --filter=X*", BELOW_HUB),
    fails("hwdb --lookup-prefix=usb: 'v1D6B x' --filter=X*", ALONE),
    found("hwdb m --filter=ID_*", ALONE, "env ID_A=1", database="m\n ID_A=1\n B=2\n"),
    found(
        "hwdb m --filter=X* --filter=ID_*",
        ALONE,
        "env ID_A=1",
        database="m\n ID_A=1\n B=2\n",
        name="the last filter counts",
    ),
    found(
        "hwdb m --filter=[[.a.]] --filter=ID_*",
        ALONE,
        "env ID_A=1",
        database="m\n ID_A=1\n",
        name="an earlier filter may be an invalid pattern",
    ),
]

FAULTY = [
    fails("hwdb --filter=[[:alpha:]]", BELOW_HUB, "bad hwdb arguments: hwdb --filter=[[:alpha:]]"),
    fails(
        "hwdb --lookup-prefix=usb: 'v1D6B x' --filter=[[:alpha:]]",
        ALONE,
        "bad hwdb arguments: hwdb --lookup-prefix=usb: 'v1D6B",
    ),
    fails("kmod 'load", BELOW_HUB, "bad hwdb arguments: kmod 'load"),
    fails("hwdb a ''", BELOW_HUB, "bad hwdb arguments: hwdb a ''"),
    fails("hwdb a b", ALONE, "bad hwdb arguments: hwdb a b"),
    fails("hwdb --none", ALONE, "bad hwdb arguments: hwdb --none"),
    fails("hwdb -s", ALONE, "bad hwdb arguments: hwdb -s"),
]

OTHERS = [
    asked("a note names another builtin", 'IMPORT{builtin}="kmod load"', ALONE, "note h.rules:1: builtin not run: kmod"),
    fails("kmod load", ALONE, "builtin not run: kmod"),
    fails("", ALONE, "builtin not run", name="no word: no builtin is run"),
    fails("''", ALONE, "builtin not run", name="an empty word: no builtin is run"),
]

ROWS = [*CHAIN, *MODALIAS, *FILTERS, *FAULTY, *OTHERS]
