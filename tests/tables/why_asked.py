"""`events --why`: which rules are asked about, and what is said if a text selects none.

What is wanted follows the reference, docs/behaviour.md; nothing here was taken from the program.
"""
from tables.kinds.row import Row

BARE = "C: add\nP: /d\n"
START = "event add /d\n"
STARTED = "env ACTION=add\nenv DEVPATH=/d\n"

# A serial adapter that is matched by attributes of two of its parents: no rule can find it that way.
MINE = {
    "99-mine.rules": '# My adapter.\nSUBSYSTEM=="tty", ATTRS{idVendor}=="0421", ATTRS{bInterfaceNumber}=="00", SYMLINK+="ttyMINE"\n'
}
ADAPTER = """\
C: add
P: /devices/pci0/usb5/5-2/5-2:1.0
U: tty
A: bInterfaceNumber=00
P: /devices/pci0/usb5/5-2
A: idVendor=0421
P: /devices/pci0/usb5
A: idVendor=1d6b
"""
ADAPTER_ANSWER = """\
event add /devices/pci0/usb5/5-2/5-2:1.0
env ACTION=add
env DEVPATH=/devices/pci0/usb5/5-2/5-2:1.0
env SUBSYSTEM=tty
why 99-mine.rules:2: SUBSYSTEM=="tty": holds, tty
why 99-mine.rules:2: ATTRS{idVendor}=="0421": 5-2:1.0 has none, 5-2 holds, usb5 fails, 1d6b
why 99-mine.rules:2: ATTRS{bInterfaceNumber}=="00": 5-2:1.0 holds, 5-2 has none, usb5 has none
why 99-mine.rules:2: no device meets all: 5-2 meets 1 of 2, 5-2:1.0 meets 1 of 2
why 99-mine.rules:2: stops there

"""

# The two files that rows ask about: three rules in the first, two in the second, and a line that is not read.
FILES = {
    "a.rules": 'ENV{A}="1"\n\nKERNEL=="x", ENV{A}="2"\nENV{A}+="3"\n',
    "b.rules": 'ENV{AB}="1"\nFOO="1"\nENV{AC}="$env{A}"\n',
}
REPORTED_OF_B = "b.rules:2: V2 unknown key: FOO\n"
ANSWER = START + "env A=1 3\nenv AB=1\nenv AC=1 3\n" + STARTED
SOURCED = START + "a.rules:4: env A=1 3\nb.rules:1: env AB=1\nb.rules:3: env AC=1 3\n-: env ACTION=add\n-: env DEVPATH=/d\n"
A1, A4 = "why a.rules:1: reached its end: env A=1 set\n", "why a.rules:4: reached its end: env A=1 3 set\n"
A3 = 'why a.rules:3: KERNEL=="x": fails, d\nwhy a.rules:3: stops there\n'
B1, B3 = "why b.rules:1: reached its end: env AB=1 set\n", "why b.rules:3: reached its end: env AC=1 3 set\n"
B2 = "why b.rules:2: not read: V2 unknown key: FOO\n"


def asked(name, options, *reported, answer=ANSWER):
    """What is reported about the two files, with these options."""
    return Row(name, f"events -r none {options} a.rules b.rules", FILES, BARE, answer + "".join(reported) + "\n", REPORTED_OF_B)


ASKED = [
    asked("no rule is asked about", ""),
    asked("--why with a file: all its rules", "--why a.rules", A1, A3, A4),
    asked("--why with a file that has a line that is not read", "--why b.rules", B2, B1, B3),
    asked("--why with one rule", "--why a.rules:3", A3),
    asked("--why with one rule and one line that is not read", "--why b.rules:2 --why a.rules:4", B2, A4),
    asked("rules are shown in the order of evaluation", "--why b.rules:3 --why=b.rules:1 --why a.rules:1", A1, B1, B3),
    asked("a rule that is asked about twice is shown once", "--why a.rules:3 --why a.rules --why a.rules:3", A1, A3, A4),
    asked("with --sources", "--sources --why a.rules:4 --why b.rules", B2, A4, B1, B3, answer=SOURCED),
    Row("options after the files", "events a.rules b.rules --why a.rules:1 --sources -r none", FILES, BARE,
        SOURCED + A1 + "\n", REPORTED_OF_B),
    Row("each answer has its own lines", "events -r none --why r.rules r.rules", {"r.rules": 'KERNEL=="d", TAG+="t"\nFOO\n'},
        BARE + "\nC: change\nP: /x\n",
        START + "tag t\n" + STARTED + "why r.rules:2: not read: V1 bad syntax: FOO\n"
        'why r.rules:1: KERNEL=="d": holds, d\nwhy r.rules:1: reached its end: tag t added\n\n'
        "event change /x\nenv ACTION=change\nenv DEVPATH=/x\nwhy r.rules:2: not read: V1 bad syntax: FOO\n"
        'why r.rules:1: KERNEL=="d": fails, x\nwhy r.rules:1: stops there\n\n', "r.rules:2: V1 bad syntax: FOO\n"),
    Row("the lines come after the notes", "events -r none --why r.rules r.rules", {"r.rules": 'IMPORT{db}!="X", TAG+="t"\n'}, BARE,
        START + "tag t\n" + STARTED + "note r.rules:1: import not run: db\n"
        'why r.rules:1: IMPORT{db}!="X": holds, not run\nwhy r.rules:1: reached its end: tag t added\n\n'),
    Row("a continued rule has the number of its first line", "events -r none --why r.rules:2 r.rules",
        {"r.rules": '# one\nKERNEL=="d", \\\n  TAG+="t"\n'}, BARE,
        START + "tag t\n" + STARTED + 'why r.rules:2: KERNEL=="d": holds, d\nwhy r.rules:2: reached its end: tag t added\n\n'),
    Row("a named file is asked about by its name as given", "events -r none --why d/r.rules d/r.rules", {"d/r.rules": 'TAG+="t"\n'}, BARE,
        START + "tag t\n" + STARTED + "why d/r.rules:1: reached its end: tag t added\n\n"),
    Row("a file of a folder is asked about by its name without the folder", "events -r mnt --why r.rules:1",
        {"mnt/etc/udev/rules.d/r.rules": 'TAG+="t"\n'}, BARE,
        START + "tag t\n" + STARTED + "why r.rules:1: reached its end: tag t added\n\n"),
    Row("a path asks about the file of that name", "events -r mnt --why some/where/r.rules:1",
        {"mnt/etc/udev/rules.d/r.rules": 'TAG+="t"\n'}, BARE,
        START + "tag t\n" + STARTED + "why r.rules:1: reached its end: tag t added\n\n"),
    Row("a name alone asks about the file that was named by a path", "events -r none --why r.rules d/r.rules", {"d/r.rules": 'TAG+="t"\n'}, BARE,
        START + "tag t\n" + STARTED + "why d/r.rules:1: reached its end: tag t added\n\n"),
    Row("of files that are named by paths a path asks about its own", "events -r none --why d/r.rules d/r.rules e/r.rules",
        {"d/r.rules": 'TAG+="t"\n', "e/r.rules": 'TAG+="u"\n'}, BARE,
        START + "tag t\ntag u\n" + STARTED + "why d/r.rules:1: reached its end: tag t added\n\n"),
    Row("a path to another file of that name", "events -r none --why e/r.rules d/r.rules", {"d/r.rules": 'TAG+="t"\n'}, BARE, "",
        "devdry: --why e/r.rules: no such rules file, the nearest is d/r.rules\n", 2),
    Row("a name near that of a file of a folder", "events -r mnt --why some/where/60-seriel.rules:3", {"mnt/etc/udev/rules.d/60-serial.rules": 'TAG+="t"\n'}, BARE, "",
        "devdry: --why some/where/60-seriel.rules:3: no such rules file, the nearest is 60-serial.rules\n", 2),
    Row("a name near that of a file that was named by a path", "events -r none --why R.RULE d/r.rules e/s.rules",
        {"d/r.rules": 'TAG+="t"\n', "e/s.rules": 'TAG+="u"\n'}, BARE, "",
        "devdry: --why R.RULE: no such rules file, the nearest is d/r.rules\n", 2),
    Row("a name without its number", "events -r none --why disk.rules:1 10-disk.rules 20-disk.rules",
        {"10-disk.rules": 'TAG+="t"\n', "20-disk.rules": 'TAG+="u"\n'}, BARE, "",
        "devdry: --why disk.rules:1: no such rules file, the nearest is 10-disk.rules\n", 2),
    Row("the name of the nearest file is escaped", ["events", "-r", "none", "--why", "a.rules", "a\tb.rules"], {"a\tb.rules": 'TAG+="t"\n'}, BARE, "",
        "devdry: --why a.rules: no such rules file, the nearest is a\\x09b.rules\n", 2),
    Row("four bytes are not near a name of six", "events -r none --why xyzles r.rules", {"r.rules": 'TAG+="t"\n'}, BARE, "",
        "devdry: --why xyzles: no such rules file\n", 2),
    Row("no file has a name of 256 bytes", ["events", "-r", "none", "--why", "r" * 256, "r" * 255], {"r" * 255: 'TAG+="t"\n'}, BARE, "",
        f"devdry: --why {'r' * 256}: no such rules file\n", 2),
    Row("a name of 255 bytes", ["events", "-r", "none", "--why", "r" * 254 + "s", "r" * 255], {"r" * 255: 'TAG+="t"\n'}, BARE, "",
        f"devdry: --why {'r' * 254}s: no such rules file, the nearest is {'r' * 255}\n", 2),
    Row("the nearest rule to a line of a path", "events -r mnt --why ./r.rules:7", {"mnt/etc/udev/rules.d/r.rules": 'TAG+="t"\n'}, BARE, "",
        "devdry: --why ./r.rules:7: no such rule, the nearest is r.rules:1\n", 2),
    Row("a name that is escaped is asked about unescaped", ["events", "-r", "none", "--why", "a\tb.rules", "--why", "c\\d.rules:1", "a\tb.rules", "c\\d.rules"],
        {"a\tb.rules": 'TAG+="t", GOTO="e"\nTAG+="u"\nLABEL="e"\n', "c\\d.rules": 'OWNER:="a", OWNER="b"\n'}, BARE,
        START + "owner a\ntag t\n" + STARTED +
        "why a\\x09b.rules:1: reached its end: tag t added\nwhy a\\x09b.rules:2: passed over by GOTO of a\\x09b.rules:1\n"
        "why a\\x09b.rules:3: reached its end\n"
        "why c\\x5Cd.rules:1: reached its end: owner=a set, OWNER is final since c\\x5Cd.rules:1\n\n"),
    Row("a file name may end like FILE:LINE", "events -r none --why r:1 r:1 r", {"r:1": 'TAG+="a"\nTAG+="b"\n', "r": 'TAG+="c"\nTAG+="d"\n'},
        BARE, START + "tag a\ntag b\ntag c\ntag d\n" + STARTED +
        "why r:1:1: reached its end: tag a added\nwhy r:1:2: reached its end: tag b added\nwhy r:1: reached its end: tag c added\n\n"),
    Row("a rule of a file with a colon in its name", "events -r none --why r:1:2 r:1", {"r:1": 'TAG+="a"\nTAG+="b"\n'}, BARE,
        START + "tag a\ntag b\n" + STARTED + "why r:1:2: reached its end: tag b added\n\n"),
    Row("a faulty block ends the run after the earlier answers", "events -r none --why r.rules r.rules", {"r.rules": 'TAG+="t"\n'},
        BARE + "\nC: add\n", START + "tag t\n" + STARTED + "why r.rules:1: reached its end: tag t added\n\n", "block 2, line 1: no device\n", 1),
    Row("without a block there are no lines", "events -r none --why r.rules r.rules", {"r.rules": 'TAG+="t"\n'}),
]

# Rules in lines 2, 4 and 8, a line 12 that is not read, and a file that has only comments.
LINES = {
    "r.rules": '\nTAG+="a"\n\nTAG+="b"\n\n\n\nTAG+="c"\n\n\n\nFOO="1"\n',
    "none.rules": "# no rule\n",
    "bad.rules": '\n\nFOO="1"\n',
}
MESSAGES = "r.rules:12: V2 unknown key: FOO\nbad.rules:3: V2 unknown key: FOO\n"


def nearest(*texts, place=None, file=None):
    """A run that is asked about these texts, the last of which selects no rule, and the nearest rule or file, if there is one."""
    *known, text = texts
    words = [word for known_text in texts for word in ("--why", known_text)]
    said = f"no such rule, the nearest is {place}" if place else "no such rules file"
    said += f", the nearest is {file}" if file else ""
    shown = text.replace("\\", "\\x5C").replace("\t", "\\x09").replace("\n", "\\x0A")
    return Row(f"{' and '.join(map(repr, texts))}: {said}", ["events", "-r", "none", *words, *LINES], LINES, BARE,
               messages=f"{MESSAGES}devdry: --why {shown}: {said}\n", status=2)


UNKNOWN = [
    nearest("r.rules:1", place="r.rules:2"),
    nearest("r.rules:0", place="r.rules:2"),
    nearest("r.rules:3", place="r.rules:2"),
    nearest("r.rules:5", place="r.rules:4"),
    nearest("r.rules:6", place="r.rules:4"),
    nearest("r.rules:7", place="r.rules:8"),
    nearest("r.rules:10", place="r.rules:8"),
    nearest("r.rules:11", place="r.rules:12"),
    nearest("r.rules:13", place="r.rules:12"),
    nearest("r.rules:4294967296", place="r.rules:12"),
    nearest("r.rules:18446744073709551618", place="r.rules:12"),
    nearest("r.rules:" + "9" * 60, place="r.rules:12"),
    nearest("r.rules:02", place="r.rules:2"),
    nearest("bad.rules:1", place="bad.rules:3"),
    nearest("none.rules"),
    nearest("none.rules:1"),
    nearest("other.rules"),
    nearest("other.rules:2"),
    nearest("r.rule", file="r.rules"),
    nearest("r.rules:", file="r.rules"),
    nearest("r.rules:x", file="r.rules"),
    nearest("r.rules:2x", file="r.rules"),
    nearest("r.rules:+2", file="r.rules"),
    nearest("r.rules:2:", file="r.rules"),
    nearest("r.rules:2:1", file="r.rules"),
    nearest(":2"),
    nearest(""),
    nearest("a\tb\\c\n:1"),
    nearest("r.rules", "bad.rules", "bad.rules:2", place="bad.rules:3"),
    nearest("r.rules:2", "other.rules"),
]

FIRST = [
    Row("the first --why without a rule is reported", "events -r none --why r.rules --why r.rules:3 --why other r.rules none.rules bad.rules",
        LINES, BARE, "", MESSAGES + "devdry: --why r.rules:3: no such rule, the nearest is r.rules:2\n", 2),
    Row("an unknown file and a faulty block", "events -r none --sources --why other r.rules", LINES, "nothing\n", "",
        "r.rules:12: V2 unknown key: FOO\ndevdry: --why other: no such rules file\n", 2),
    Row("an unknown file is reported after the messages about the database", "events -r mnt --why other r.rules",
        {"r.rules": "FOO\n", "mnt/etc/udev/hwdb.d/a.hwdb": " A=1\n"}, BARE, "",
        "devdry: mnt: its rules are not read beside a FILE that is named: --with FILE reads FILE among them\n"
        "r.rules:1: V1 bad syntax: FOO\na.hwdb:1: H1 property without a match: A=1\ndevdry: --why other: no such rules file\n", 2),
    Row("no rules files", "events -r none --why r.rules", {}, BARE, "", "devdry: --why r.rules: no such rules file\n", 2),
    Row("a file that is not an index is the only message", "events --index r.rules --why other r.rules", LINES, BARE, "", "devdry: index: magic\n", 1),
]

ROWS = [
    Row("a rule that compares attributes of two parents", "events -r none --why 99-mine.rules:2 99-mine.rules", MINE, ADAPTER, ADAPTER_ANSWER),
    Row("rules that --udev drops", "events --udev -r none --why r.rules r.rules",
        {"r.rules": 'ENV{DEVNAME}="x"\nKERNEL=="d"\nENV{B}="1"\n'}, BARE + "U: m\n",
        START + "env ACTION=add\nenv B=1\nenv DEVPATH=/d\nenv SUBSYSTEM=m\n"
        + "why r.rules:1: not read: V13 reserved property: DEVNAME\nwhy r.rules:2: not read: V18 rule without effect\n"
        + "why r.rules:3: reached its end: env B=1 set\n\n",
        "r.rules:1: V13 reserved property: DEVNAME\nr.rules:2: V18 rule without effect\n"),
    *ASKED,
    *UNKNOWN,
    *FIRST,
]
