#!/usr/bin/env python3
"""Runs the program while its system refuses what it asks for.

usage: tests/refusals.py PROGRAM LIBRARY [SERVER]

LIBRARY is tests/refusing.c, built. SERVER is the language server, which has a row of its own. Each row is run with its Nth
growth of memory refused, for N = 1, 2, .. until a run meets no refusal; the first growths are those for its words. A run that
met one has to end in status 4, with the beginning of the row's output, and with the beginning of the row's messages followed
by the line about memory. Each run is repeated with all growths from the Nth on refused, to show that what a failed run still
does takes no memory.

A list that is collected asks for more room than it needs; if that is refused, it asks at once for just what it needs. A
run that continues that way has to do everything that the row does, and is repeated with that second growth refused, too,
which has to end in status 4.

The same is done with the Nth call that opens, looks at, lists, reads or writes, alone and with all calls from there on:
status 3, the beginning of the output, and the beginning of the messages with the line on what failed, the read or the write,
as far as the error output accepts it. A name in a folder that can't be looked at is read as a file. If the system lacks memory for such a
call, the status is 4, except for the input and the outputs, which have failed. A run with `--all`, and `files`, go on where
a file or a folder can't be read: what they say then begins otherwise, and a line says what can't be read, and why; but a
folder below lib, whose files are only counted, then has none.

A signal may interrupt a call, which is then made again: the Nth call and the two after it are interrupted, which changes
nothing.

Last, each read and write moves a single byte, which changes nothing; and in one row of each command the Nth of these calls
fails, for N = 1, 2, .., so that files, the input and the outputs fail at each byte.

Prints for each row a line `ok ROW`, with how many growths were refused, how many of them were ahead of need, how many calls,
and how many at single bytes; or `not ok ROW` with the first run that does otherwise.
"""
import errno
import json
import os
import re
import subprocess
import sys
import tempfile
from concurrent.futures import ThreadPoolExecutor

from tables.kinds.row import Link

OUT_OF_MEMORY = b"devdry: out of memory\n"
FAILED = re.compile(rb"devdry: cannot read [^\n]*\n$")
FAILED_IN = {"read": re.compile(rb"devdry: (read failed|cannot read [^\n]*)\n$"), "write": re.compile(rb"devdry: write failed\n$")}
STREAM_FAILED = re.compile(rb"devdry: (write|read) failed\n$")
UNREAD = re.compile(rb"^devdry: cannot read [^\n]*: [^\n]*\n", re.M)
ALL = 2**63

FIRST, SECOND = "usr/lib/udev/hwdb.d", "etc/udev/hwdb.d"

DISK_RULE = 'SUBSYSTEM=="block", KERNEL=="sd[a-z]", SYMLINK+="disk/%k"\n'
DISK = "C: add\nP: /devices/pci0/block/sda\nU: block\nN: sda\nD: 8:0\n"
DISK_ANSWER = """\
event add /devices/pci0/block/sda
link disk/sda
env ACTION=add
env DEVNAME=/dev/sda
env DEVPATH=/devices/pci0/block/sda
env MAJOR=8
env MINOR=0
env SUBSYSTEM=block

"""

SOURCED_ANSWER = """\
event add /devices/pci0/block/sda
r.rules:1: link disk/sda
-: env ACTION=add
-: env DEVNAME=/dev/sda
-: env DEVPATH=/devices/pci0/block/sda
-: env MAJOR=8
-: env MINOR=0
-: env SUBSYSTEM=block
r.rules:2: run program /bin/a

"""

DOUBLING = 'ENV{X}="$env{X}$env{X}"\n' * 30
DOUBLED = (
    "event add /devices/x\nenv ACTION=add\nenv DEVPATH=/devices/x\nenv X=" + "v" * 16000 + "\n"
    + "".join(f"note d.rules:{line}: text too long: ENV{{X}}\n" for line in range(5, 31)) + "\n"
)

BELOW_USB = "C: add\nP: /a/b\nP: /a\nU: usb\nE: MODALIAS=usb:v1D6Bp0002\n"
BELOW_USB_ANSWER = """\
event add /a/b
env ACTION=add
env DEVPATH=/a/b
env ID_VENDOR=Linux
note h.rules:1: builtin not run: kmod

"""

PROGRAM_RULE = 'PROGRAM=="/bin/id %k", RESULT=="a*", ENV{R}="$result{2+}"\n'
ANSWERED = "C: add\nP: /a/sda\nQ: /bin/id sda\nR: 0 ab cd ef\n\nC: add\nP: /a/sda\n"
ANSWERED_ANSWER = """\
event add /a/sda
env ACTION=add
env DEVPATH=/a/sda
env R=cd ef

event add /a/sda
env ACTION=add
env DEVPATH=/a/sda
note p.rules:1: no answer for program: /bin/id sda

"""

# a rule that finds no device, one that asks a program and jumps, one that is jumped over, one that looks up the parent
# and sets an owner too late, and a line that is not read
REPORTED_RULES = """\
SUBSYSTEM=="block", SUBSYSTEMS=="usb", ATTRS{serial}=="7", OWNER="a"
PROGRAM=="/bin/id %k", RESULT=="ab*", SYMLINK+="by/$result{1}", OWNER:="root", RUN+="/bin/log %k", GOTO="end"
TAG+="never"
LABEL="end", IMPORT{builtin}="hwdb --subsystem=usb", ENV{B}+="b", OWNER="b"
ENV{C}="$nope"
"""
UNUSED_RULES = 'KERNEL=="b", SUBSYSTEMS=="s", ATTRS{x}=="1", NAME="n"\nGOTO="e"\nNAME="o"\nLABEL="e", TEST!="t", RESULT=="r"\n'
UNUSED_LINES = 'unused n.rules:1: KERNEL=="b" failed 2 of 2\nunused n.rules:3: not reached\nunused n.rules:4: RESULT=="r" failed 2 of 2\n'

REPORTED_FILES = {"w.rules": REPORTED_RULES, f"{SECOND}/usb.hwdb": "usb:v1D6B*\n ID_VENDOR=Linux\n"}
REPORTED = "C: add\nP: /a/sda\nU: block\nQ: /bin/id sda\nR: 0 ab cd\nP: /a\nU: usb\nE: MODALIAS=usb:v1D6Bp0002\n"
REPORTED_MESSAGE = "w.rules:5: V6 bad substitution: $nope\n"
ROOT_NOTE = "devdry: .: its rules are not read beside a FILE that is named: --with FILE reads FILE among them\n"
REPORTED_ANSWER = """\
event add /a/sda
owner root
link by/ab
env ACTION=add
env B=b
env DEVPATH=/a/sda
env ID_VENDOR=Linux
env SUBSYSTEM=block
run program /bin/log sda
"""
REPORTED_SOURCES = """\
event add /a/sda
w.rules:2: owner root
w.rules:2: link by/ab
-: env ACTION=add
w.rules:4: env B=b
-: env DEVPATH=/a/sda
w.rules:4: env ID_VENDOR=Linux
-: env SUBSYSTEM=block
w.rules:2: run program /bin/log sda
"""
REPORTED_WHY = """\
why w.rules:5: not read: V6 bad substitution: $nope
why w.rules:1: SUBSYSTEM=="block": holds, block
why w.rules:1: SUBSYSTEMS=="usb": sda fails, block, a holds
why w.rules:1: ATTRS{serial}=="7": sda has none, a has none
why w.rules:1: no device meets all: a meets 1 of 2
why w.rules:1: stops there
why w.rules:2: PROGRAM=="/bin/id %k": holds, /bin/id sda answers 0 ab cd
why w.rules:2: RESULT=="ab*": holds, ab cd
why w.rules:2: reached its end: owner=root set, link by/ab added, run program /bin/log %k added
why w.rules:3: passed over by GOTO of w.rules:2
why w.rules:4: IMPORT{builtin}=="hwdb --subsystem=usb": holds, hwdb --subsystem=usb sets ID_VENDOR=Linux
why w.rules:4: reached its end: OWNER is final since w.rules:2, env B=b set
"""

# a .link file that names the interface of a block, with a drop-in, and one with a line that is not understood
NETWORK = "etc/systemd/network"
LINK_FILES = {
    "i.rules": 'IMPORT{builtin}="net_setup_link", NAME="$env{ID_NET_NAME}"\n',
    f"{NETWORK}/10-bad.link": "[Match]\nOriginalName=*\n[Link\n",
    f"{NETWORK}/20-eth.link": "[Match]\nOriginalName=eth*\n[Link]\nName=lan0\n",
    f"{NETWORK}/20-eth.link.d/a.conf": "[Link]\nName=lan1\n",
}
INTERFACE = "C: add\nP: /a/eth0\nU: net\nE: INTERFACE=eth0\nE: IFINDEX=2\nA: flags=0x1002\n"
INTERFACE_MESSAGE = f"devdry: ./{NETWORK}/10-bad.link: not used: a line of it or of a drop-in is not understood\n"
INTERFACE_ANSWER = f"""\
event add /a/eth0
name lan1
env ACTION=add
env DEVPATH=/a/eth0
env ID_NET_LINK_FILE=/{NETWORK}/20-eth.link
env ID_NET_LINK_FILE_DROPINS=/{NETWORK}/20-eth.link.d/a.conf
env ID_NET_NAME=lan1
env IFINDEX=2
env INTERFACE=eth0
env SUBSYSTEM=net

"""

FAULTY_RULES = """\
KERNEL=="a" FOO="b"
SUBSYSTEM=="x",ACTION-="y"
ENV{A}:="1",TAG+="t"
OPTIONS="link_priority=x"
KERNEL=="[[:alpha:]]"
ENV{B}="$nope"
ATTR=="x"
"""
FAULTY_RULES_REPORTED = """\
v.rules:1: V2 unknown key: FOO
v.rules:2: V3 operator not allowed: ACTION
v.rules:3: S3 operator read as =: ENV
v.rules:3: S2 blank after a comma expected: TAG
v.rules:4: V5 bad value: link_priority=x
v.rules:5: V11 set not supported: [[:alpha:]]
v.rules:6: V6 bad substitution: $nope
v.rules:7: V4 attribute missing or not allowed: ATTR
"""

# a rule with most lints, among rules that cause some of its lints
LINTED_RULES = """\
GOTO="end"
SUBSYSTEM=="block", KERNEL=="*", ATTRS{idVendor}=="1D6B", ATTRS{busnum}=="^1", ATTRS{bInterfaceNumber}=="01", ENV{A}="1", \\
  NAME="a", MODE=e"\\x78", RUN+="cp > b", SYMLINK+="/dev/b", ATTR{"c"}=="1", ENV{ID_PATH}=="x"
IMPORT{builtin}="path_id"
ENV{A}=="1"
# devdry: ignore W1
LABEL="end", MODE="8"
"""
LINTED_RULES_REPORTED = """\
l.rules:2: W1 mode is no octal number: x
l.rules:2: W2 sign of the shell, and no shell: cp > b
l.rules:2: W3 program without a path: cp > b
l.rules:2: W4 letter case that the kernel does not write: 1D6B
l.rules:2: W5 attributes of different devices: bInterfaceNumber
l.rules:2: W8 name outside net: a
l.rules:2: W9 link begins with /dev/: /dev/b
l.rules:2: W10 name in quotes: "c"
l.rules:2: W11 regular expression in a pattern: ^1
l.rules:2: W12 match that always holds: KERNEL
l.rules:2: W6 property imported further down: ID_PATH
l.rules:2: W7 value assigned that others compare: A
l.rules:2: W13 rule never reached: end
"""

# a record without an entry that causes most lints of the database
LINTED_SOURCE = "usb:v1d6b*\nusb:v1d6b* \nfoo:[\npci:v8086\n\n# devdry: ignore D8\n a = 1\n a=2#3\n ID_PDA=x\n"
LINTED_SOURCE_REPORTED = """\
s.hwdb:1: H2 match without a property: usb:v1d6b*
s.hwdb:1: D1 case of a digit that no modalias has: usb:v1d6b*
s.hwdb:2: D1 case of a digit that no modalias has: usb:v1d6b*
s.hwdb:2: D5 match given twice: usb:v1d6b*
s.hwdb:2: D9 blank at the end of a match: usb:v1d6b*
s.hwdb:3: D4 unknown prefix: foo:[
s.hwdb:3: D12 set without ]: [
s.hwdb:4: D3 end of a match is missing: pci:v8086
s.hwdb:7: H1 property without a match: a = 1
s.hwdb:7: D7 blank beside the =: a = 1
s.hwdb:8: H1 property without a match: a=2
s.hwdb:8: D8 key that no program asks for: a
s.hwdb:8: D11 comment within a word: #3
s.hwdb:9: H1 property without a match: ID_PDA=x
s.hwdb:9: D13 value that the property does not take: ID_PDA=x
"""

FAULTY_SOURCE = " A=1\n\nm1\n\nm2\n =x\n B\nm3\n C=1\n\n[[.a.]]\n D=1\n"
FAULTY_SOURCE_REPORTED = """\
s.hwdb:1: H1 property without a match: A=1
s.hwdb:3: H2 match without a property: m1
s.hwdb:6: H5 empty key: =x
s.hwdb:7: H4 no =: B
s.hwdb:8: H3 unindented line after properties: m3
s.hwdb:11: H6 pattern not supported: [[.a.]]
"""

# as docs/format.md prints them
INDEX = bytes.fromhex("""\
6465766472796877 02000000 03000000 01000000 00000000 08000000 00000000
00000000 00000000 01000000 01000000 00000000 00000000
01610000 00000000 02000000 01000000 00000000 00000000
03000000 00000000 03000000 00000000 00000000 01000000
00000000 01000000 01000000 01000000 00000000 02000000 06000000 02000000
4b56742e68776462""")
EMPTY_INDEX = bytes.fromhex("""\
6465766472796877 02000000 01000000 00000000 00000000 00000000 00000000
00000000 00000000 01000000 00000000 00000000 00000000""")

RULES = "etc/udev/rules.d/r.rules"
RULES_FOLDERS = ["etc/udev/rules.d", "run/udev/rules.d", "usr/local/lib/udev/rules.d", "usr/lib/udev/rules.d"]
COMPARED = "event add /a\n-tag a\n+tag b\n\nevent add /b\n-tag a\n+tag b\n\n"
LATER, EARLIER = "usr/lib/udev/rules.d", "etc/udev/rules.d"
LISTED = f"""\
./{EARLIER}/README: passed over: name does not end in .rules
./{EARLIER}/a.rules: used
./{LATER}/a.rules: hidden by ./{EARLIER}/a.rules
./{EARLIER}/b.rules: used
./{SECOND}/c.hwdb: used
"""


def as_bytes(text):
    return text.encode() if isinstance(text, str) else text


class Row:
    """A run: its words, the files that it finds, its input, and its result if memory is ample.

    `line` is the last line of the error output if the run fails. An output or a line of None is that of the run itself.
    `each_byte` says whether calls that move single bytes are refused, too. `note` is what the messages begin with if the root
    can be looked at.
    """

    def __init__(self, name, words, files=(), events="", output="", messages="", line="", status=0, each_byte=False, note=""):
        self.name, self.words, self.files = name, words, dict(files)
        self.events, self.output, self.messages, self.line, self.note = map(as_bytes, (events, output, note + messages, line, note))
        self.status, self.each_byte = status, each_byte
        self.goes_on = words[0] == "files" or bool({"--all", "--udev"} & set(words))


ROWS = [
    Row(
        "two files of one rank", ["query", "-r", ".", "mx"],
        {f"{FIRST}/60-a.hwdb": "m*\n A=1\n", f"{FIRST}/70-b.hwdb": "m*\n A=2\n", f"{FIRST}/80-c.txt": "m*\n A=3\n"},
        output="A=2\n", each_byte=True),
    Row(
        "two files of one name", ["query", "--sources", "-r", ".", "mx"],
        {
            f"{FIRST}/60-a.hwdb": "m*\n A=1\n",
            f"{FIRST}/70-b.hwdb": "m*\n A=2\n",
            f"{SECOND}/70-b.hwdb": "z\n A=2\n",
            # a folder whose name matters is skipped, and is not a file that can't be read
            f"{SECOND}/75-c.hwdb/inner": "",
        },
        output="60-a.hwdb:2: A=1\n"),
    Row("a disk", ["events", "-r", "none", "r.rules"], {"r.rules": DISK_RULE}, DISK, DISK_ANSWER, each_byte=True),
    Row(
        "a disk with sources", ["events", "--sources", "-r", "none", "r.rules"], {"r.rules": DISK_RULE + 'RUN+="/bin/a"\n'},
        DISK, SOURCED_ANSWER),
    Row("rules of a folder", ["events", "-r", "."], {"run/udev/rules.d/r.rules": DISK_RULE}, DISK, DISK_ANSWER),
    Row(
        "a file added to a folder", ["events", "-r", ".", "--with", "drafts/r.rules"],
        {"run/udev/rules.d/r.rules": 'TAG+="x"\n', "drafts/r.rules": DISK_RULE}, DISK, DISK_ANSWER),
    Row(
        "options of a file", ["events", "--options", "ours", "--root=none", "r.rules"],
        {"r.rules": DISK_RULE + 'RUN+="/bin/a"\n', "ours": "# ours\n--sources\n--root=.\n"}, DISK, SOURCED_ANSWER),
    Row(
        "a bad line in a file of options", ["events", "--options", "ours"], {"ours": "sources\n"},
        line="error: ours:1: not one option, as --lint or --format=gcc: sources\n\nFor more information, try '--help'.\n", status=2),
    Row(
        "a text doubled thirty times", ["events", "-r", "none", "d.rules"], {"d.rules": DOUBLING},
        "C: add\nP: /devices/x\nE: X=" + "v" * 1000 + "\n", DOUBLED),
    Row(
        "builtins", ["events", "-r", ".", "u.rules", "h.rules"],
        {
            f"{SECOND}/usb.hwdb": "usb:v1D6B*\n ID_VENDOR=Linux\n",
            "u.rules": 'IMPORT{builtin}="hwdb --subsystem=usb"\n',
            "h.rules": 'IMPORT{builtin}="kmod load"\n',
        },
        BELOW_USB, BELOW_USB_ANSWER),
    Row("a program", ["events", "-r", "none", "p.rules"], {"p.rules": PROGRAM_RULE}, ANSWERED, ANSWERED_ANSWER),
    Row(
        "a faulty block", ["events", "-r", "none", "v.rules"], {"v.rules": 'FOO=="x"\n'},
        "C: add\nP: /a\n\nC: add\nP: /a\nP: /b\n", "event add /a\nenv ACTION=add\nenv DEVPATH=/a\n\n",
        "v.rules:1: V2 unknown key: FOO\n", "block 2, line 3: path\n", 1),
    Row(
        "the sources of lines", ["events", "-r", ".", "--sources", "w.rules"], REPORTED_FILES, REPORTED, REPORTED_SOURCES + "\n", REPORTED_MESSAGE),
    Row(
        "--why", ["events", "-r", ".", "--why", "w.rules", "w.rules"], REPORTED_FILES, REPORTED,
        REPORTED_ANSWER + REPORTED_WHY + "\n", REPORTED_MESSAGE, note=ROOT_NOTE),
    Row(
        "--sources and --why, over two blocks", ["events", "-r", ".", "--why", "w.rules", "--sources", "w.rules"], REPORTED_FILES, REPORTED + "\n" + REPORTED,
        (REPORTED_SOURCES + REPORTED_WHY + "\n") * 2, REPORTED_MESSAGE, note=ROOT_NOTE),
    Row(
        "--questions", ["events", "-r", ".", "--questions", "w.rules"], REPORTED_FILES, REPORTED.replace("Q: /bin/id sda\nR: 0 ab cd\n", "") + "\n" + REPORTED,
        "event add /a/sda\nQ: /bin/id sda\n\nevent add /a/sda\n\n", REPORTED_MESSAGE),
    Row(
        "--unused", ["events", "-r", "none", "--unused", "n.rules"], {"n.rules": UNUSED_RULES}, "C: add\nP: /a\n\nC: add\nP: /c\n",
        "".join(f"event add /{name}\nenv ACTION=add\nenv DEVPATH=/{name}\n\n" for name in "ac") + UNUSED_LINES, each_byte=True),
    Row(
        "names by .link files", ["events", "--udev", "-r", ".", "i.rules"], LINK_FILES, INTERFACE, INTERFACE_ANSWER, INTERFACE_MESSAGE),
    Row(
        "--why with a line that has no rule", ["events", "-r", ".", "--why", "w.rules:9", "w.rules"], REPORTED_FILES, REPORTED, "", REPORTED_MESSAGE,
        "devdry: --why w.rules:9: no such rule, the nearest is w.rules:5\n", 2, note=ROOT_NOTE),
    Row(
        "faulty rules", ["verify", "v.rules"], {"v.rules": FAULTY_RULES},
        output="1 files checked, 0 good, 1 bad\n", messages=FAULTY_RULES_REPORTED, status=1),
    Row(
        "rules with lints", ["verify", "--lint", "--ignore", "comments", "l.rules"], {"l.rules": LINTED_RULES},
        output="1 files checked, 0 good, 1 bad\n", messages=LINTED_RULES_REPORTED, status=1),
    Row(
        "a faulty database file", ["update", "-s", "s.hwdb"], {"s.hwdb": FAULTY_SOURCE},
        output=EMPTY_INDEX, messages=FAULTY_SOURCE_REPORTED, status=1),
    Row(
        "a database file with lints", ["update", "--lint", "--ignore", "comments", "s.hwdb"], {"s.hwdb": LINTED_SOURCE},
        output=EMPTY_INDEX, messages=LINTED_SOURCE_REPORTED),
    Row("an index written", ["update", "t.hwdb"], {"t.hwdb": "a*\n K=V\n"}, output=INDEX, each_byte=True),
    Row("an index", ["query", "--index", "a.index", "abc"], {"a.index": INDEX}, output="K=V\n"),
    Row("an index, line by line", ["query", "--index", "a.index", "-"], {"a.index": INDEX}, "abc\nb\na", "K=V\n\n\nK=V\n\n"),
    Row("files, line by line", ["query", "--sources", "-", "t.hwdb"], {"t.hwdb": "a*\n K=V\n"}, "abc\nb", "t.hwdb:2: K=V\n\n\n"),
    Row(
        "an index with rules", ["events", "--index", "a.index", "r.rules"], {"a.index": INDEX, "r.rules": DISK_RULE},
        DISK, DISK_ANSWER),
    Row(
        "a file that is not an index", ["query", "--index", "r.rules", "abc"], {"r.rules": DISK_RULE},
        line="devdry: index: magic\n", status=1),
    Row("an absent file", ["verify", "none.rules"], line="devdry: cannot read none.rules\n", status=3),
    Row(
        "an absent file with an escaped name", ["verify", "a\n\x1bb\\"], line="devdry: cannot read a\\x0A\\x1Bb\\x5C\n",
        status=3),
    Row(
        "two roots compared", ["compare", "old", "new"],
        {f"old/{RULES}": 'FOO="1"\nTAG+="a", SYMLINK+="s"\n', f"new/{RULES}": 'TAG+="b", SYMLINK+="s"\n'},
        "C: add\nP: /a\n\nC: add\nP: /b\n", COMPARED, "[OLD] r.rules:1: V2 unknown key: FOO\n", status=1, each_byte=True),
    Row(
        "two roots compared as udev does, with an index", ["compare", "--udev", "--index", "a.index", "old", "new"],
        {"a.index": INDEX, f"old/{RULES}": "", f"new/{RULES}": 'IMPORT{builtin}="hwdb abc"\n'}, "C: add\nP: /a\nU: m\n", "event add /a\n+env K=V\n\n", status=1),
    Row(
        "a faulty block after a difference", ["compare", "old", "new"], {f"old/{RULES}": "", f"new/{RULES}": 'TAG+="a"\n'},
        "C: add\nP: /a\n\nC: add\n", "event add /a\n+tag a\n\n", line="block 2, line 1: no device\n", status=1),
    Row(
        "modaliases after messages", ["query", "-", "s.hwdb"], {"s.hwdb": "m1\n\nm*\n A=1\n"}, "mx\n\nm", "A=1\n\n\nA=1\n\n",
        "s.hwdb:1: H2 match without a property: m1\n", each_byte=True),
    Row(
        "a modalias that is too long", ["query", "-", "t.hwdb"], {"t.hwdb": "m*\n A=1\n"}, "mx\n" + "a" * 65537, "A=1\n\n",
        line="devdry: line 2: too long\n", status=1),
    Row(
        "the files of folders", ["files", "-r", "."],
        {f"{LATER}/a.rules": "", f"{EARLIER}/a.rules": "x", f"{EARLIER}/b.rules": "x", f"{EARLIER}/README": "", f"{SECOND}/c.hwdb": "x"},
        output=LISTED, each_byte=True),
    Row(
        "links inside a root", ["query", "-r", ".", "mx"],
        {FIRST: Link("/other/../own/."), "own/a.hwdb": Link("../text"), "other/x": "", "text": "m*\n A=1\n", "own/b.hwdb": Link("/dev/null")},
        output="A=1\n", each_byte=True),
    Row("a section on a code", ["explain", "S2"], output=None, each_byte=True),
    Row(
        "rules that are read as far as they can be", ["verify", "--all", "none.rules", "v.rules"], {"v.rules": "A\n"},
        output="1 files checked, 0 good, 1 bad\n", messages="devdry: cannot read none.rules: no such file\nv.rules:1: V1 bad syntax: A\n", status=3,
        each_byte=True),
    Row(
        "database files that are read as far as they can be", ["update", "--all", "-r", "."], {f"{FIRST}/60-a.hwdb": "a*\n K=V\n", f"{SECOND}/b.hwdb": "m\n"},
        output=None, messages="b.hwdb:1: H2 match without a property: m\n"),
    Row(
        "no file to read", ["verify", "--all", "-r", "none"], output="0 files checked, 0 good, 0 bad\n",
        messages="devdry: no files\n" + "".join(f"devdry: none/{folder}: absent\n" for folder in RULES_FOLDERS), status=1),
    Row(
        "rules read as udev does, with its accounts", ["verify", "--udev", "--users", "passwd", "--groups", "group", "o.rules"],
        {"passwd": "root:x:0:0:::\n", "group": "disk:x:6:\n", "o.rules": 'OWNER="root", GROUP="disk"\nOWNER="nobody"\n'}, output=None, line=None,
        status=None, each_byte=True),
    *(Row(
        f"faulty rules as {form}", ["verify", f"--format={form}", "--ignore", "S2", "f.rules"],
        {"f.rules": 'FOO="x"\nKERNEL=="a",TAG+="t" NAME="b"\n'}, output=None, line=None, status=1) for form in ("gcc", "github", "gitlab", "json", "sarif", "human")),
    Row("an unknown key that is near a known one", ["verify", "--format=human", "--color=never", "f.rules"], {"f.rules": 'SYMLNK+="x"\n'},
        output=None, line=None, status=1),
    Row("a faulty database file as JSON", ["update", "--format", "json", "--ignore", "H5", "s.hwdb"], {"s.hwdb": "m1\n\nm2\n =x\n"}, output=None, line=None),
    Row(
        "as udev does, with sources and what rules met", ["events", "--udev", "--sources", "--why", "w.rules", "-r", ".", "w.rules"], REPORTED_FILES, REPORTED,
        None, note=ROOT_NOTE),
    Row(
        "answers as JSON, with sources and what rules met", ["events", "--format=json", "--sources", "--why", "w.rules", "-r", ".", "w.rules"], REPORTED_FILES,
        REPORTED + "\n" + REPORTED, None, REPORTED_MESSAGE, note=ROOT_NOTE),
    Row(
        "two roots compared as JSON", ["compare", "--format=json", "old", "new"], {f"old/{RULES}": 'MODE="0600"\n', f"new/{RULES}": 'TAG+="a"\n'},
        "C: add\nP: /d\n", '{"event":"add","path":"/d","gone":["mode 0600"],"come":["tag a"]}\n', status=1),
    Row(
        "rules files mended", ["fmt", "m.rules", "n.rules"], {"m.rules": 'TAG+="a",TAG+="b" \\\n  TAG+="c"\n', "n.rules": "# n\n"},
        output='TAG+="a", TAG+="b", \\\n  TAG+="c"\n# n\n', each_byte=True),
    Row(
        "rules files that would change", ["fmt", "--check", "m.rules", "n.rules"], {"m.rules": 'TAG+="a",TAG+="b"\n', "n.rules": "# n\n"},
        output="m.rules\n", status=1),
    Row("help", ["query", "--help"], output=None, each_byte=True),
    Row("an unknown option", ["verify", "--none"], line=None, status=2),
]


class Runs:
    """The runs of a row, in a folder of its own."""

    def __init__(self, program, library, row, folder):
        self.program, self.row, self.folder = program, row, folder
        self.environment = {"LD_PRELOAD": library, "REFUSED": f"{folder}/refused"}

    def run(self, **refused):
        """A run with this refused, and the name of the first call that was refused, or nothing."""
        environment = {**self.environment, **{name: str(at) for name, at in refused.items()}}
        done = subprocess.run(
            [self.program, *self.row.words], cwd=f"{self.folder}/here", env=environment, input=self.row.events,
            capture_output=True, timeout=20)
        mark, met = self.environment["REFUSED"], None
        if os.path.exists(mark):
            with open(mark, encoding="utf-8") as file:
                met = file.read()
            os.remove(mark)
        return done, met

    def without_growths(self, first, last):
        return self.run(GROWTHS_FROM=first, GROWTHS_TO=last)

    def without_calls(self, first, last, fault):
        return self.run(CALLS_FROM=first, CALLS_TO=last, CALLS_FAULT=fault)


class Wrong(Exception):
    """What a run did that it should not have done."""


def is_whole(done, row):
    """Whether a run did everything that its row does."""
    return (done.returncode, done.stdout, done.stderr) == (row.status, row.output, row.messages + row.line)


def check(which, done, is_right, what):
    if not is_right:
        raise Wrong(f"{which}: {what}: status {done.returncode}, messages {done.stderr!r}")


def check_refused(which, done, row):
    """Checks a run that was refused memory."""
    check(which, done, done.returncode == 4, "the status is not 4")
    check(which, done, row.output.startswith(done.stdout), "the output is not the beginning of the row's")
    check(which, done, done.stderr.endswith(OUT_OF_MEMORY), "no message about memory")
    reported = done.stderr.removesuffix(OUT_OF_MEMORY)
    check(which, done, row.messages.startswith(reported), "the messages are not the beginning of the row's")


def check_failed(which, done, row, call):
    """Checks a run in which a call failed."""
    check(which, done, done.returncode == 3, "the status is not 3")
    if row.goes_on and call != "write" and UNREAD.search(done.stderr):
        return
    check(which, done, row.output.startswith(done.stdout), "the output is not the beginning of the row's")
    line = FAILED_IN.get(call, FAILED).search(done.stderr)
    check(which, done, line or call == "write", "no message about the failure, or another one")
    reported = done.stderr[:line.start()] if line else done.stderr
    check(which, done, (row.messages + row.line).startswith(reported), "the messages are not the beginning of the row's")


def refuse_growths(runs, row):
    """How many growths there were, and how many of them were ahead of need."""
    growth, ahead = 1, 0
    while True:
        done, met = runs.without_growths(growth, growth)
        if not met:
            return growth - 1, ahead
        which = f"growth {growth}"
        if is_whole(done, row):
            ahead += 1
            which = f"growths {growth} and {growth + 1}"
            done, met = runs.without_growths(growth, growth + 1)
        check_refused(which, done, row)
        done, met = runs.without_growths(growth, ALL)
        check_refused(f"each growth from {growth} on", done, row)
        growth += 1


def goes_on_whole(done, row, call):
    """Whether a run did everything although this call was refused: the look at a name in a folder, or at the root, which is
    then not noted, or, where a run goes on, a folder that is only counted."""
    is_unnoted = (done.returncode, done.stdout, row.note + done.stderr) == (row.status, row.output, row.messages + row.line)
    if row.note and is_unnoted and call in ("look", "open"):
        return True
    return is_whole(done, row) and (call == "look" or row.goes_on and call in ("open", "list"))


def refuse_calls(runs, row):
    """How many calls there were."""
    call = 1
    while True:
        done, met = runs.without_calls(call, call, errno.EIO)
        if not met:
            return call - 1
        if not goes_on_whole(done, row, met):
            check_failed(f"call {call} ({met})", done, row, met)
        done, met = runs.without_calls(call, ALL, errno.EIO)
        check_failed(f"each call from {call} on", done, row, "write")
        done, met = runs.without_calls(call, call, errno.ENOMEM)
        if STREAM_FAILED.search(done.stderr) or met == "write":
            check_failed(f"call {call} ({met}) without memory", done, row, met)
        else:
            check_refused(f"call {call} ({met}) without memory", done, row)
        done, _met = runs.without_calls(call, call + 2, errno.EINTR)
        check(f"call {call} ({met}) interrupted", done, is_whole(done, row), "the result is not that of the row")
        call += 1


def refuse_bytes(runs, row):
    """How many calls there were if each read and write moves a byte."""
    call = 1
    while True:
        done, met = runs.run(SHORT=1, CALLS_FROM=call, CALLS_TO=call, CALLS_FAULT=errno.EIO)
        if not met:
            return call - 1
        if not goes_on_whole(done, row, met):
            check_failed(f"call {call} ({met}) of a byte", done, row, met)
        call += 1


def lay_out(row, folder):
    """Puts a row's files into a folder, and the empty folder `none` beside them."""
    os.makedirs(f"{folder}/here/none")
    for name, text in row.files.items():
        path = f"{folder}/here/{name}"
        os.makedirs(os.path.dirname(path), exist_ok=True)
        if isinstance(text, Link):
            os.symlink(text, path)
            continue
        with open(path, "wb") as file:
            file.write(as_bytes(text))


def tried(program, library, row):
    """The lines about a row."""
    with tempfile.TemporaryDirectory() as folder:
        lay_out(row, folder)
        runs = Runs(program, library, row, folder)
        whole, _met = runs.run()
        row.output = whole.stdout if row.output is None else row.output
        row.line = whole.stderr if row.line is None else row.line
        row.status = whole.returncode if row.status is None else row.status
        try:
            check("nothing refused", whole, is_whole(whole, row), "the result is not that of the row")
            growths, ahead = refuse_growths(runs, row)
            calls = refuse_calls(runs, row)
            done, _met = runs.run(SHORT=1)
            check("a byte in each call", done, is_whole(done, row), "the result is not that of the row")
            check("in all", done, growths and calls, "no growth or no call was refused")
            moved = refuse_bytes(runs, row) if row.each_byte else 0
        except Wrong as wrong:
            return f"not ok {row.name}\n    {wrong}"
    return f"ok {row.name} ({growths} growths, {ahead} of them ahead of need, {calls} calls" + (f", {moved} at single bytes)" if moved else ")")


def frames(*messages):
    """Messages of the language server's protocol, each with its header part."""
    contents = [json.dumps({"jsonrpc": "2.0", **message}) for message in messages]
    return "".join(f"Content-Length: {len(content)}\r\n\r\n{content}" for content in contents)


def session():
    """A client that opens a document, changes it and leaves."""
    document = {"uri": "file:///a.rules"}
    return Row(
        "a client of the language server", ["--stdio"], {},
        frames({"id": 1, "method": "initialize", "params": {}}, {"method": "textDocument/didOpen", "params": {"textDocument": {**document, "text": "A"}}},
               {"method": "textDocument/didChange", "params": {"textDocument": document, "contentChanges": [{"text": ""}]}},
               {"id": 2, "method": "shutdown"}, {"method": "exit"}), output=None, each_byte=True)


def main(program, library, server=None):
    runs = [(program, row) for row in ROWS] + ([(server, session())] if server else [])
    with ThreadPoolExecutor(os.cpu_count()) as pool:
        for said in pool.map(lambda run: tried(run[0], library, run[1]), runs):
            print(said)


if __name__ == "__main__":
    main(*map(os.path.realpath, sys.argv[1:]))
