"""`events --sources`: the rule that each line of an answer comes from.

What is wanted follows the reference, docs/behaviour.md: an item comes from the first rule after which it never changes
again, and from no rule if it was never changed. Nothing here was taken from the program.
"""
from tables.kinds.row import Row
from tables.kinds.why import LONG, TWICE

BARE = "C: add\nP: /d\n"
STARTED = "-: env ACTION=add\n-: env DEVPATH=/d\n"


def sources(name, rules, lines, output, path="/d", messages="", files=(), root="none"):
    """A run over r.rules of these rules, over a block with these lines after its path, and everything that follows the
    answer's first line."""
    return Row(
        name,
        f"events -r {root} --sources r.rules",
        {"r.rules": "".join(f"{rule}\n" for rule in rules), **dict(files)},
        f"C: add\nP: {path}\n" + "".join(f"{line}\n" for line in lines),
        f"event add {path}\n{output}\n",
        messages,
    )


def comes(name, rules, lines, *wanted):
    """The same for lines that come before the properties, or are properties whose names come before ACTION."""
    return sources(name, rules, lines, "".join(f"{line}\n" for line in wanted) + STARTED)


# A link of one file and a property of another; the second also removes the property DEVPATH.
EXAMPLE = {
    "60-disk.rules": '# Disks.\n\nSUBSYSTEM!="tty", SYMLINK+="disk/%k"\n',
    "70-mine.rules": 'ENV{MINE}="1", ENV{DEVPATH}=""\n',
}
EXAMPLE_ANSWER = """\
event add /devices/pci0/block/sda
60-disk.rules:3: link disk/sda
-: env ACTION=add
70-mine.rules:1: env MINE=1

"""

# a rule for each line of an answer, and what the block gives
EACH_RULE = [
    'NAME="lan0"', 'OWNER="root"', 'GROUP="net"', 'MODE="0660"', 'OPTIONS="link_priority=5"', 'OPTIONS="nowatch"',
    'OPTIONS="db_persist"', 'SECLABEL{smack}="u"', 'SECLABEL{selinux}+="v"', 'SYMLINK+="net/first"', 'TAG+="systemd"',
    'ENV{ID_LAN}="1"', 'ENV{.LAN}="1"', 'ATTR{mtu}="1400"', 'SYSCTL{net/x}="0"', 'RUN+="/bin/ip link show $name"',
    'RUN{builtin}+="kmod load"', 'SYSCTL{x}!="1", NAME+="lan1"', 'IMPORT{db}=="ID_X"', 'PROGRAM!="none"',
]
EACH_BLOCK = ["U: net", "S: one", "G: t", "E: X=1", "E: .X=1"]
EACH_LINE = """\
r.rules:18: name lan1
r.rules:2: owner root
r.rules:3: group net
r.rules:4: mode 0660
r.rules:5: priority 5
r.rules:6: nowatch
r.rules:7: persist
r.rules:8: label smack=u
r.rules:9: label selinux=v
-: link one
r.rules:10: link net/first
-: tag t
r.rules:11: tag systemd
-: env ACTION=add
-: env DEVPATH=/d
r.rules:12: env ID_LAN=1
-: env SUBSYSTEM=net
-: env X=1
r.rules:14: attr mtu=1400
r.rules:15: sysctl net/x=0
r.rules:16: run program /bin/ip link show lan1
r.rules:17: run builtin kmod load
note r.rules:18: sysctl not read: x
note r.rules:19: import not run: db
note r.rules:20: no answer for program: none
"""

# what the block says about its device, a property of rules with an empty value, and what a rule sets to what it was
FROM_THE_START = ["N: sda", "D: 8:0", "U: block", "S: one", "S: two", "G: t", "E: A=1", "E: B=", "E: MAJOR=9"]
STAYS = [
    'ENV{A}="1", ENV{DEVNAME}="/dev/sda", SYMLINK+="one", TAG+="t"', 'SYMLINK="one two", TAG="t"', 'ENV{A}="2", ENV{A}="1"',
    'SYMLINK-="one", SYMLINK+="one"',
]
FROM_THE_START_LINES = """\
-: link two
-: link one
-: tag t
-: env A=1
-: env ACTION=add
-: env B=
-: env DEVNAME=/dev/sda
-: env DEVPATH=/d
-: env MAJOR=8
-: env MINOR=0
-: env SUBSYSTEM=block
"""

ODD_FILES = {"a\\b.rules": 'ENV{A}="1", ENV{A0}="0"\n', "c\td.rules": '\n\nENV{A}+="2", \\\n  ENV{AA}="1"\nTAG+="x\\y"\n', "e:1.rules": 'SYMLINK+="l"\n'}
ODD_ANSWER = """\
event add /d
e:1.rules:1: link l
c\\x09d.rules:5: tag x\\x5Cy
c\\x09d.rules:3: env A=1 2
a\\x5Cb.rules:1: env A0=0
c\\x09d.rules:3: env AA=1
-: env ACTION=add
-: env DEVPATH=/d

"""

CHANGES = [
    comes("a value that is set again to the same value has the earlier rule", ['ENV{A}="1"', 'ENV{A}="1"', 'ENV{A}+=""'], [],
          "r.rules:1: env A=1"),
    comes("a value that is changed and changed back has the last rule", ['ENV{A}="1"', 'ENV{A}="2"', 'ENV{A}="1"', 'ENV{A}="1"'], [],
          "r.rules:3: env A=1"),
    comes("a value of the block that is changed and changed back", ['ENV{A}="2"', 'ENV{A}="1"'], ["E: A=1"], "r.rules:2: env A=1"),
    comes("a value that is changed and changed back by one rule", ['ENV{A}="2", ENV{A}="1"'], ["E: A=1"], "-: env A=1"),
    comes("a property that is removed and set again", ['ENV{A}="1"', 'ENV{A}=""', 'ENV{A}="1"'], [], "r.rules:3: env A=1"),
    comes("a value that is appended to", ['ENV{A}="1"', 'ENV{A}+="2"'], [], "r.rules:2: env A=1 2"),
    comes("a link that is removed and added again", ['SYMLINK-="one"', 'SYMLINK+="one"'], ["S: one"], "r.rules:2: link one"),
    comes("replaced links, one of which stays", ['SYMLINK+="two"', 'SYMLINK="one two three"'], ["S: one"],
          "-: link one", "r.rules:1: link two", "r.rules:2: link three"),
    comes("a link that one rule removes and the next but one adds", ['SYMLINK+="l"', 'SYMLINK="m"', 'TAG+="t"', 'SYMLINK="l"'], [],
          "r.rules:4: link l", "r.rules:3: tag t"),
    comes("a tag that exists is not added again", ['TAG+="t"', 'TAG+="t"', 'TAG="t"'], [], "r.rules:1: tag t"),
    comes("a tag that is removed and added again", ['TAG-="t"', 'TAG+="t"'], ["G: t"], "r.rules:2: tag t"),
    comes("an owner, a group and a mode that are set several times", ['OWNER="a", GROUP="g", MODE="1"', 'OWNER="b", MODE="2"', 'OWNER="a"'], [],
          "r.rules:3: owner a", "r.rules:1: group g", "r.rules:2: mode 2"),
    comes("what one rule changes and changes back stays with the earlier rule", ['ENV{A}="1", SYMLINK+="l", OWNER="o"',
        'ENV{A}="2", ENV{A}="1", SYMLINK="m", SYMLINK="l", OWNER="p", OWNER="o"'], [], "r.rules:1: owner o", "r.rules:1: link l", "r.rules:1: env A=1"),
    comes("an assignment after := is no change", ['OWNER:="a"', 'OWNER="b"', 'OWNER="a"'], [], "r.rules:1: owner a"),
    comes("a priority as a number", ['OPTIONS="link_priority=5"', 'OPTIONS="link_priority=+05"'], [], "r.rules:1: priority 5"),
    comes("a priority that is changed and changed back", ['OPTIONS="link_priority=5"', 'OPTIONS="link_priority=6"', 'OPTIONS="link_priority=5"'],
          [], "r.rules:3: priority 5"),
    comes("watched, then not, then watched", ['OPTIONS="watch"', 'OPTIONS="nowatch"', 'OPTIONS="watch"', 'OPTIONS="watch"'], [],
          "r.rules:3: watch"),
    comes('OPTIONS="db_persist"', ['OPTIONS="db_persist"', 'OPTIONS="db_persist"'], [], "r.rules:1: persist"),
    comes("labels, one of which is replaced", ['SECLABEL{a}="x"', 'SECLABEL{b}="y"', 'SECLABEL{a}+="x"'], [],
          "r.rules:2: label b=y", "r.rules:3: label a=x"),
    Row("labels of one module with --udev", "events --udev -r none --sources r.rules",
        {"r.rules": 'SECLABEL{a}+="x"\nSECLABEL{a}+="y"\nSECLABEL{b}+="x"\nSECLABEL{a}+="x"\n'}, BARE + "U: m\nN: d\nD: 1:1\n",
        "event add /d\nr.rules:1: label a=x\nr.rules:2: label a=y\nr.rules:3: label b=x\nr.rules:1: label a=x\n"
        "-: env ACTION=add\n-: env DEVNAME=/dev/d\n-: env DEVPATH=/d\n-: env MAJOR=1\n-: env MINOR=1\n-: env SUBSYSTEM=m\n\n"),
    sources("attributes and kernel parameters, also empty ones", ['ATTR{a}="1", SYSCTL{s}="1"', 'ATTR{a}="", SYSCTL{s}="1"', 'ATTR{a}=""'],
            [], STARTED + "r.rules:2: attr a=\nr.rules:1: sysctl s=1\n"),
    comes("a rule that stops sets nothing", ['ENV{A}="1"', 'KERNEL=="x", ENV{A}="2"', 'KERNEL=="d", ENV{A}="1"'], [], "r.rules:1: env A=1"),
    comes("a rule that a jump skips sets nothing", ['GOTO="e"', 'ENV{A}="1"', 'LABEL="e"', 'ENV{A}="1"'], [], "r.rules:4: env A=1"),
    sources("a property that a rule imported before stopping has that rule", ['IMPORT{parent}!="A", ENV{B}="1"', 'ENV{A}="1"'],
            ["P: /h", "E: A=1"], "r.rules:1: env A=1\n-: env ACTION=add\n-: env DEVPATH=/h/d\n", path="/h/d"),
]

COMMANDS = [
    sources("a command comes from the rule that added it", ['RUN+="/bin/a"', 'RUN+="/bin/b"', 'RUN+="/bin/a"', 'RUN{builtin}+="/bin/a"'], [],
            STARTED + "r.rules:1: run program /bin/a\nr.rules:2: run program /bin/b\nr.rules:4: run builtin /bin/a\n"),
    sources("a command that is replaced", ['RUN+="/bin/a"', 'RUN="/bin/a"', 'RUN+="/bin/b"'], [],
            STARTED + "r.rules:2: run program /bin/a\nr.rules:3: run program /bin/b\n"),
    sources("commands with the same rendered text", ['RUN+="/bin/%k"', 'RUN+="/bin/$kernel"'], [],
            STARTED + "r.rules:1: run program /bin/d\nr.rules:2: run program /bin/d\n"),
    sources("a command that is too long once rendered", ['RUN+="/bin/a"', f'RUN+="{TWICE}"', 'RUN+="/bin/b"'], [LONG],
            STARTED + "r.rules:1: run program /bin/a\nr.rules:3: run program /bin/b\nnote r.rules:2: text too long: RUN\n"),
]

ROWS = [
    Row("a link and a property of two files", "events -r none --sources 60-disk.rules 70-mine.rules", EXAMPLE,
        "C: add\nP: /devices/pci0/block/sda\n", EXAMPLE_ANSWER),
    sources("each kind of line", EACH_RULE, EACH_BLOCK, EACH_LINE),
    sources("all lines come from the block", [], FROM_THE_START,
            FROM_THE_START_LINES.replace("-: link two\n-: link one\n", "-: link one\n-: link two\n")),
    sources("rules that change nothing", STAYS, FROM_THE_START, FROM_THE_START_LINES),
    *CHANGES,
    *COMMANDS,
    sources("a hidden property stays hidden", ['ENV{.A}="1"', 'ENV{B}="$env{.A}"'], ["E: .X=1"],
            "-: env ACTION=add\nr.rules:2: env B=1\n-: env DEVPATH=/d\n"),
    Row("file names are escaped, and line numbers are those of rules", ["events", "-r", "none", "--sources", *ODD_FILES], ODD_FILES, BARE, ODD_ANSWER),
    sources("a property of the database comes from the rule", ['IMPORT{builtin}="hwdb m"'], [],
            "r.rules:1: env A=1\n" + STARTED, files={"mnt/etc/udev/hwdb.d/a.hwdb": "m\n A=1\n"}.items(), root="mnt"),
    Row("two blocks", "events --sources -r none r.rules", {"r.rules": 'KERNEL=="d", ENV{A}="1"\nENV{A}="1"\n'},
        BARE + "\nC: add\nP: /x\n",
        "event add /d\nr.rules:1: env A=1\n" + STARTED + "\nevent add /x\nr.rules:2: env A=1\n" + STARTED.replace("/d", "/x") + "\n"),
    Row("files of folders are shown without their folders", "events --sources -r mnt",
        {"mnt/etc/udev/rules.d/a.rules": 'ENV{A}="1"\n', "mnt/usr/lib/udev/rules.d/b.rules": 'ENV{AA}="1"\n'}, BARE,
        "event add /d\na.rules:1: env A=1\nb.rules:1: env AA=1\n" + STARTED + "\n"),
    Row("messages do not change", "events --sources -r none r.rules", {"r.rules": 'ENV{A}="$nope"\nENV{A}="1"\n'}, BARE,
        "event add /d\nr.rules:2: env A=1\n" + STARTED + "\n", "r.rules:1: V6 bad substitution: $nope\n"),
    Row("a faulty block ends the run after the earlier answers", "events --sources -r none r.rules", {"r.rules": 'ENV{A}="1"\n'},
        BARE + "\nC: add\n", "event add /d\nr.rules:1: env A=1\n" + STARTED + "\n", "block 2, line 1: no device\n", 1),
]
