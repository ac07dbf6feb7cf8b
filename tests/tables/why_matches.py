"""`events --why`: what is reported about the matches of the event, of one device, and of the result of a program.

What is wanted follows the reference, docs/behaviour.md, and udev(7); nothing here was taken from the program.
"""
from tables.kinds.why import LONGEST, SHOWN, cut, of, why

# A device in which each match of the event finds something.
DEVICE = [
    "U: tty", "V: simple", "A: model=Disk  ", "S: one", "S: two", "G: g", "E: X=1", "K: arch=x86-64",
]
ANSWER = ["link one", "link two", "tag g", "env SUBSYSTEM=tty", "env X=1"]

EACH_HOLDS = (
    'ACTION=="add", DEVPATH=="/devices/*", KERNEL=="t?", SUBSYSTEM=="tty", DRIVER=="simple", NAME=="", SYMLINK=="t*", '
    'TAG=="g", ATTR{model}=="Disk", ENV{X}=="1", CONST{arch}=="x86-64", SYSCTL{x}!="1"'
)

# (a match that fails, or one with `!=` that holds; what it looked at)
BARE_FAILS = [
    ('ACTION=="change"', "add"),
    ('DEVPATH=="/sys/*"', "/d"),
    ('KERNEL=="x"', "d"),
    ('SUBSYSTEM=="usb"', '""'),
    ('DRIVER!=""', '""'),
    ('NAME=="?*"', '""'),
    ('SYMLINK=="x"', "none"),
    ('TAG=="x"', "none"),
    ('ATTR{x}=="*"', "none"),
    ('ENV{X}=="1"', '""'),
    ('CONST{arch}=="*"', "none"),
    ('CONST{x}=="1"', "unknown"),
    ('CONST{x}!="1"', "unknown"),
]
BARE_HOLDS = [
    ('SYMLINK!="t*"', "none"),
    ('TAG!="x"', "none"),
    ('ATTR{x}!="y"', "none"),
    ('ENV{X}!="1"', '""'),
    ('CONST{virt}!="kvm"', "none"),
    ('DRIVER==""', '""'),
]

# (a key as a rule has it, the key as it is reported)
WRITTEN = [
    ('KERNEL==i"D"', 'KERNEL==i"D"'),
    ('KERNEL!=i"E"', 'KERNEL!=i"E"'),
    ('KERNEL==e"\\x64"', 'KERNEL=="d"'),
    ('KERNEL==ie"\\x44"', 'KERNEL==i"D"'),
    ('KERNEL != "d?"', 'KERNEL!="d?"'),
    ('KERNEL=="a|d|"', 'KERNEL=="a|d|"'),
    ('KERNEL!=e"a\\tb"', 'KERNEL!="a\\x09b"'),
    ('KERNEL!="a\\b"', 'KERNEL!="a\\x5Cb"'),
    ('KERNEL!="a\\"b"', 'KERNEL!="a"b"'),
    ('KERNEL!=""', 'KERNEL!=""'),
    ('KERNEL!=" a  b "', 'KERNEL!=" a  b "'),
]

WHOLE, OVER = "w" * SHOWN, "o" * (SHOWN + 1)
# the 200th byte is the first of two, and stays without the other
SPLIT = b"s" + "\u00E4".encode() * 100
LINK = "l" * 300

# Three devices, one above the other, as those of a USB serial adapter.
PORT = "/devices/pci0/usb5/5-2/5-2:1.0"
CHAIN = [
    "U: tty", "A: bInterfaceNumber=00",
    "P: /devices/pci0/usb5/5-2", "U: usb", "V: usb", "A: idVendor=0421", "A: model=Disk  ",
    "P: /devices/pci0/usb5", "U: usb", "A: idVendor=1d6b", "G: hub",
]
OF_VENDOR = "5-2:1.0 has none, 5-2 holds, usb5 fails, 1d6b"


def upward(name, rule, wanted, *reported):
    """A rule in line 2 over the three devices, after one that adds the tag `now`."""
    return why(name, ['TAG+="now"', rule], CHAIN, ["tag now", "env SUBSYSTEM=tty", *wanted], of(2, *reported), path=PORT,
               asked=["r.rules:2"])


UPWARD = [
    upward(
        "the nearest device that meets all is shown",
        'SUBSYSTEMS=="usb", ATTRS{idVendor}=="0421", ENV{A}="1"',
        ["env A=1"],
        'SUBSYSTEMS=="usb": 5-2:1.0 fails, tty, 5-2 holds, usb5 holds',
        f'ATTRS{{idVendor}}=="0421": {OF_VENDOR}',
        "5-2 meets all",
        "reached its end: env A=1 set",
    ),
    upward(
        "each device is shown, also after the nearest that meets all",
        'SUBSYSTEMS=="*"',
        [],
        'SUBSYSTEMS=="*": 5-2:1.0 holds, 5-2 holds, usb5 holds',
        "5-2:1.0 meets all",
        "reached its end",
    ),
    upward(
        "!= holds for an absent attribute",
        'ATTRS{idVendor}!="0421", ENV{A}="1"',
        ["env A=1"],
        'ATTRS{idVendor}!="0421": 5-2:1.0 holds, 5-2 fails, 0421, usb5 holds',
        "5-2:1.0 meets all",
        "reached its end: env A=1 set",
    ),
    upward(
        "!= holds for a text that does not fit",
        'SUBSYSTEMS!="tty"',
        [],
        'SUBSYSTEMS!="tty": 5-2:1.0 fails, tty, 5-2 holds, usb5 holds',
        "5-2 meets all",
        "reached its end",
    ),
    upward(
        "drivers, with two devices without a driver",
        'DRIVERS=="usb"',
        [],
        'DRIVERS=="usb": 5-2:1.0 fails, "", 5-2 holds, usb5 fails, ""',
        "5-2 meets all",
        "reached its end",
    ),
    upward(
        "tags, those of the event device as they are at the rule",
        'TAGS=="hub"',
        [],
        'TAGS=="hub": 5-2:1.0 fails, now, 5-2 fails, none, usb5 holds',
        "usb5 meets all",
        "reached its end",
    ),
    upward(
        "tags with !=",
        'TAGS!="now|hub"',
        [],
        'TAGS!="now|hub": 5-2:1.0 fails, now, 5-2 holds, usb5 fails, hub',
        "5-2 meets all",
        "reached its end",
    ),
    upward(
        "no device meets any",
        'KERNELS=="none", TAG+="never"',
        [],
        'KERNELS=="none": 5-2:1.0 fails, 5-2:1.0, 5-2 fails, 5-2, usb5 fails, usb5',
        "no device meets any",
        "stops there",
    ),
    upward(
        "two devices meet two of three keys, each a different pair",
        'SUBSYSTEMS=="usb", ATTRS{idVendor}=="1d6b", KERNELS=="5-2", TAG+="never"',
        [],
        'SUBSYSTEMS=="usb": 5-2:1.0 fails, tty, 5-2 holds, usb5 holds',
        'ATTRS{idVendor}=="1d6b": 5-2:1.0 has none, 5-2 fails, 0421, usb5 holds',
        'KERNELS=="5-2": 5-2:1.0 fails, 5-2:1.0, 5-2 holds, usb5 fails, usb5',
        "no device meets all: usb5 meets 2 of 3, 5-2 meets 2 of 3",
        "stops there",
    ),
    upward(
        "trailing whitespace of an attribute is shown",
        'ATTRS{model}=="Disk "',
        [],
        'ATTRS{model}=="Disk ": 5-2:1.0 has none, 5-2 fails, "Disk  ", usb5 has none',
        "no device meets any",
        "stops there",
    ),
    upward(
        "an attribute that holds is compared without its trailing whitespace",
        'ATTRS{model}==i"disk"',
        [],
        'ATTRS{model}==i"disk": 5-2:1.0 has none, 5-2 holds, usb5 has none',
        "5-2 meets all",
        "reached its end",
    ),
    upward(
        "no device is shown if a match of the event failed",
        'KERNEL=="usb5", ATTRS{idVendor}=="1d6b", TAG+="never"',
        [],
        'KERNEL=="usb5": fails, 5-2:1.0',
        "stops there",
    ),
    upward(
        "nothing after the search is shown if no device was found",
        'KERNELS=="none", TEST=="bInterfaceNumber", RESULT=="", TAG+="never"',
        [],
        'KERNELS=="none": 5-2:1.0 fails, 5-2:1.0, 5-2 fails, 5-2, usb5 fails, usb5',
        "no device meets any",
        "stops there",
    ),
    why(
        "kernel names of devices, escaped and cut",
        ['ATTRS{a}=="1"'],
        ["P: /devices/pci0/c!d\\e", "P: /devices/pci0", "A: a=2"],
        [],
        of(
            1,
            f'ATTRS{{a}}=="1": {cut("k" * 250)} has none, c/d\\x5Ce has none, pci0 fails, 2',
            "no device meets any",
            "stops there",
        ),
        path="/devices/pci0/c!d\\e/" + "k" * 250,
    ),
    why(
        "an attribute of a device is cut",
        ['ATTRS{a}=="1", ATTRS{b}==""'],
        ["A: a=" + OVER, "A: b=", "P: /h", "A: a=", "A: b=" + WHOLE],
        [],
        of(
            1,
            f'ATTRS{{a}}=="1": d fails, {cut(OVER)}, h fails, ""',
            f'ATTRS{{b}}=="": d holds, h fails, {WHOLE}',
            "no device meets all: d meets 1 of 2",
            "stops there",
        ),
        path="/h/d",
    ),
]

RESULTS = [
    why(
        "the result of a program",
        ['PROGRAM=="id", RESULT=="a*"', 'RESULT=="x", TAG+="never"', 'RESULT!="x"'],
        ["Q: id", "R: 0 ab"],
        [],
        of(1, 'PROGRAM=="id": holds, id answers 0 ab', 'RESULT=="a*": holds, ab', "reached its end"),
        of(2, 'RESULT=="x": fails, ab', "stops there"),
        of(3, 'RESULT!="x": holds, ab', "reached its end"),
    ),
    why("no result", ['RESULT==""', 'RESULT=="?*"'], [], [], of(1, 'RESULT=="": holds, ""', "reached its end"),
        of(2, 'RESULT=="?*": fails, ""', "stops there")),
    why("a long result is cut", ['PROGRAM=="id", RESULT=="x"'], ["Q: id", "R: 0 " + OVER], [],
        of(1, f'PROGRAM=="id": holds, id answers 0 {cut(OVER)}', f'RESULT=="x": fails, {cut(OVER)}', "stops there")),
]

ROWS = [
    why(
        "each match of the event holds",
        [EACH_HOLDS],
        DEVICE,
        [*ANSWER, "note r.rules:1: sysctl not read: x"],
        of(
            1,
            'ACTION=="add": holds, add',
            'DEVPATH=="/devices/*": holds, /devices/b/h/d/t0',
            'KERNEL=="t?": holds, t0',
            'SUBSYSTEM=="tty": holds, tty',
            'DRIVER=="simple": holds, simple',
            'NAME=="": holds, ""',
            'SYMLINK=="t*": holds, one two',
            'TAG=="g": holds, g',
            'ATTR{model}=="Disk": holds, "Disk  "',
            'ENV{X}=="1": holds, 1',
            'CONST{arch}=="x86-64": holds, x86-64',
            'SYSCTL{x}!="1": holds, not read',
            "reached its end",
        ),
        path="/devices/b/h/d/t0",
    ),
    why(
        "each match of the event fails",
        [match for match, _ in BARE_FAILS],
        [],
        [],
        *(of(at, f"{match}: fails, {looked}", "stops there") for at, (match, looked) in enumerate(BARE_FAILS, 1)),
    ),
    why("a kernel parameter is not read", ['SYSCTL{x}=="*"'], [], ["note r.rules:1: sysctl not read: x"],
        of(1, 'SYSCTL{x}=="*": fails, not read', "stops there")),
    why(
        "!= holds for what the event does not have",
        [match for match, _ in BARE_HOLDS],
        [],
        [],
        *(of(at, f"{match}: holds, {looked}", "reached its end") for at, (match, looked) in enumerate(BARE_HOLDS, 1)),
    ),
    why("!= of one member: all members are shown", ['SYMLINK!="t*"', 'TAG!="g"'], DEVICE, ANSWER,
        of(1, 'SYMLINK!="t*": fails, one two', "stops there"), of(2, 'TAG!="g": fails, g', "stops there"),
        path="/devices/b/h/d/t0"),
    why(
        "links, tags, the name and properties as they are at the rule",
        ['NAME="lan0", SYMLINK+="x", TAG+="y", ENV{Z}="1"', 'NAME=="lan0", SYMLINK=="x", TAG=="y", ENV{Z}=="1"'],
        ["U: net", "S: one"],
        ["name lan0", "link one", "link x", "tag y", "env SUBSYSTEM=net", "env Z=1"],
        of(2, 'NAME=="lan0": holds, lan0', 'SYMLINK=="x": holds, one x', 'TAG=="y": holds, y', 'ENV{Z}=="1": holds, 1',
           "reached its end"),
        asked=["r.rules:2"],
    ),
    why("keys after one that failed are not shown", ['ENV{X}=="1", KERNEL=="d", SUBSYSTEM=="tty", TAG+="t"'], [], [],
        of(1, 'ENV{X}=="1": fails, ""', "stops there")),
    why("keys are in the order of evaluation", ['RUN+="r", TEST=="f", ATTRS{a}=="b", RESULT=="", ENV{C}=="2"'],
        ["A: a=b", "A: f=", "E: C=2"], ["env C=2", "run program r"],
        of(1, 'ENV{C}=="2": holds, 2', 'ATTRS{a}=="b": d holds', "d meets all", 'TEST=="f": holds, f',
           'RESULT=="": holds, ""', "reached its end: run program r added")),
    why("keys are shown as written", [rule for rule, _ in WRITTEN], [], [],
        *(of(at, f"{reported}: holds, d", "reached its end") for at, (_, reported) in enumerate(WRITTEN, 1))),
    why("attributes whose names are rendered with --udev",
        ['ATTR{%k}=="x", ENV{A}="1"', 'ATTRS{x%b}=="1", ENV{B}="1"', 'ATTR{$kernel}!="x", ENV{C}="1"', 'ATTR{y%k}!="x", ENV{D}="1"'],
        ["A: d=x", "A: xd=1"], ["env A=1", "env B=1"],
        of(1, 'ATTR{%k}=="x": holds, x', "reached its end: env A=1 set"),
        of(2, 'ATTRS{x%b}=="1": d holds', "d meets all", "reached its end: env B=1 set"),
        of(3, 'ATTR{$kernel}!="x": fails, x', "stops there"),
        of(4, 'ATTR{y%k}!="x": fails, none', "stops there"),
        udev=True),
    why("an attribute's name is escaped", ['ATTR{a\\b}!="1"'], [], [],
        of(1, 'ATTR{a\\x5Cb}!="1": holds, none', "reached its end")),
    why("a text of the event is escaped", ['ENV{.X}=="?*"'], ["E: .X=a\t\\b\x7f\u00E4"], [],
        of(1, 'ENV{.X}=="?*": holds, a\\x09\\x5Cb\\x7F\u00E4', "reached its end")),
    why("texts of 200 bytes are not cut", [f'ENV{{.X}}=="{WHOLE}"', 'ENV{.Y}=="?*"'], ["E: .X=" + WHOLE, "E: .Y=" + "\1" * SHOWN],
        [], of(1, f'ENV{{.X}}=="{WHOLE}": holds, {WHOLE}', "reached its end"),
        of(2, 'ENV{.Y}=="?*": holds, ' + "\\x01" * SHOWN, "reached its end")),
    why("longer texts are cut, and their length is shown", [f'ENV{{.X}}=="{OVER}"', 'ENV{.Y}=="?*"'],
        ["E: .X=" + OVER, "E: .Y=" + "\1" * (SHOWN + 1)], [],
        of(1, f'ENV{{.X}}=="{cut(OVER)}": holds, {cut(OVER)}', "reached its end"),
        of(2, 'ENV{.Y}=="?*": holds, ' + "\\x01" * SHOWN + ".. (201 bytes)", "reached its end")),
    why("a text is cut after 200 bytes, even within a character", ['ENV{.X}=="?*"'], [b"E: .X=" + SPLIT], [],
        of(1, b'ENV{.X}=="?*": holds, ' + SPLIT[:SHOWN] + b".. (201 bytes)", "reached its end")),
    why("each member is cut on its own", ['SYMLINK=="x"'], ["S: " + LINK, "S: b"], ["link " + LINK, "link b"],
        of(1, f'SYMLINK=="x": fails, {cut(LINK)} b', "stops there")),
    why(
        "a text is between quotes if its ends could not be seen, or if it begins with a quote",
        [f'ENV{{.{name}}}=="?*"' for name in "ABCDEF"],
        ["E: .A= a", "E: .B=b ", "E: .C= ", 'E: .D="d"', 'E: .E=e"', "E: .F=f\t"],
        [],
        *(of(at, f'ENV{{.{name}}}=="?*": holds, {text}', "reached its end")
          for at, (name, text) in enumerate(zip("ABCDEF", ['" a"', '"b "', '" "', '""d""', 'e"', "f\\x09"]), 1)),
    ),
    why("the start of a long text is between quotes, too", ['ENV{.X}=="*z"', 'ENV{.Y}=="*z"', 'ENV{.Z}=="*z"'],
        ["E: .X= " + "x" * SHOWN, "E: .Y=" + "y" * (SHOWN - 1) + " y", "E: .Z=" + "z" * SHOWN + " "], [],
        of(1, f'ENV{{.X}}=="*z": fails, " {"x" * (SHOWN - 1)}".. (201 bytes)', "stops there"),
        of(2, f'ENV{{.Y}}=="*z": fails, "{"y" * (SHOWN - 1)} ".. (201 bytes)', "stops there"),
        of(3, f'ENV{{.Z}}=="*z": fails, {"z" * SHOWN}.. (201 bytes)', "stops there")),
    why("members, each between quotes if it has to be", ['TAG=="x"'], ["G: a", "G: b ", 'G: "c'], ["tag a", "tag b ", 'tag "c'],
        of(1, 'TAG=="x": fails, a "b " ""c"', "stops there")),
    why("the longest text", ['ENV{.X}=="?*"'], ["E: .X=" + "v" * LONGEST], [],
        of(1, 'ENV{.X}=="?*": holds, ' + cut("v" * LONGEST), "reached its end")),
    *UPWARD,
    *RESULTS,
]
