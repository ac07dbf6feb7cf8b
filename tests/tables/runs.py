"""Whole runs: an event by rules and a database, faulty blocks, and texts as long as they may be.

Rows of the other tables check one part; here an answer is checked as a whole. The lines of an answer are in this order:
event, name, owner, group, mode, priority, watch, persist, label, link, tag, env by key, attr, sysctl, run, note.
"""
from tables.kinds.answered import answered
from tables.kinds.row import Row

BARE = "C: add\nP: /x\n"
DISK = "C: add\nP: /devices/pci0/block/sda\nU: block\nN: sda\nD: 8:0\n"
NETWORK = "C: add\nP: /x/eth0\nU: net\n"
# two links, and constants that are known and that are not
LINKED = "C: add\nP: /x\nK: arch=x86-64\nK: x=1\nS: one\nS: two\n"


def bare(before="", env="", after=""):
    """The answer to a device of which only the path is known: lines before its properties, those whose keys come after its
    own, and lines after them."""
    return f"event add /x\n{before}env ACTION=add\nenv DEVPATH=/x\n{env}{after}\n"


def disk(before="", env="", after=""):
    """The answer to a disk, with lines before its properties, those whose keys come before its own, and lines after them."""
    return (
        f"event add /devices/pci0/block/sda\n{before}{env}env ACTION=add\nenv DEVNAME=/dev/sda\n"
        f"env DEVPATH=/devices/pci0/block/sda\nenv MAJOR=8\nenv MINOR=0\nenv SUBSYSTEM=block\n{after}\n"
    )


EACH_KEY = """\
OWNER="root"
GROUP="disk"
MODE="0600"
TAG+="x"
SECLABEL{m}="u"
ENV{A}="1"
ENV{A}+="2"
NAME="x"
SYMLINK+="a"
ATTR{mtu}="1400"
SYSCTL{x}="1"
OPTIONS+="nowatch"
OPTIONS+="db_persist"
OPTIONS+="link_priority=-7"
RUN+="/bin/a"
RUN{builtin}+="b"
"""
EACH_KEY_ANSWER = disk(
    "owner root\ngroup disk\nmode 0600\npriority -7\nnowatch\npersist\nlabel m=u\nlink a\ntag x\n", "env A=1 2\n",
    "attr mtu=1400\nsysctl x=1\nrun program /bin/a\nrun builtin b\nnote r.rules:8: name ignored: x\n")

# each line sets a property of its own where it matches
MATCHES = """\
SYMLINK=="t*", ENV{Y1}="1"
SYMLINK!="t*", ENV{N1}="1"
CONST{arch}=="x86*", ENV{Y2}="1"
CONST{x}!="2", ENV{N2}="1"
CONST{x}=="1", ENV{N3}="1"
KERNEL=="y", OWNER="a"
ATTR{x}=="*", ENV{N4}="1"
ATTR{x}!="y", ENV{Y3}="1"
ENV{X}=="", ENV{Y4}="1"
ENV{X}!="", ENV{N5}="1"
"""

# a jump to a label of its file, and one whose label is only above it; and the same label in the file after it
JUMPS_DOWN_AND_UP = 'GOTO="x"\nENV{A}="1"\nLABEL="x", ENV{E}="1"\nGOTO="x"\nENV{F}="1"\n'
RULE_AND_JUMP = 'ENV{G}="1"\nGOTO="x"\nENV{H}="1"\nLABEL="x", ENV{I}="1"\n'

OF_DISKS = 'SUBSYSTEM=="block", KERNEL=="sd[a-z]", SYMLINK+="disk/%k"\n'

# (what is asked, rules, block, output)
ANSWERED = [
    ("each key is assigned", EACH_KEY, DISK, EACH_KEY_ANSWER),
    ("a network device is named", 'NAME="lan 0"\n', NETWORK,
     "event add /x/eth0\nname lan_0\nenv ACTION=add\nenv DEVPATH=/x/eth0\nenv SUBSYSTEM=net\n\n"),
    ("matches of links, constants, attributes and properties", MATCHES, LINKED,
     bare("link one\nlink two\n", "env Y1=1\nenv Y2=1\nenv Y3=1\nenv Y4=1\n")),
    ("a match of a kernel setting is noted", 'SYSCTL{x}!="1"\n', DISK, disk(after="note r.rules:1: sysctl not read: x\n")),
    ("no rule", "", DISK, disk()),
    ("a disk by a rule for disks", OF_DISKS, DISK, disk("link disk/sda\n")),
    ("three equal blocks", OF_DISKS, f"{DISK}\n" * 3, disk("link disk/sda\n") * 3),
    ("no block", 'TAG+="x"\n', "", ""),
    ("only empty lines", 'TAG+="x"\n', "\n" * 10, ""),
    ("empty lines around blocks", 'TAG+="x"\n', "\n\n" + BARE + "\n\n\n" + BARE + "\n\n", bare("tag x\n") * 2),
]

# A device of USB with a serial number above the event's device, and the same with the two at different devices.
BELOW_USB = "/devices/b/h/d/t0"
TOGETHER = ["U: tty", "P: /devices/b/h/d", "U: usb", "A: serial=7", "P: /devices/b/h", "U: pci"]
APART = ["U: tty", "P: /devices/b/h/d", "U: usb", "P: /devices/b/h", "U: pci", "A: serial=7"]

# A command about the selected device, and how long it stays selected.
SELECTIONS = [
    'SUBSYSTEMS=="usb", RUN+="/bin/x $id"', 'ENV{P}="$id"', 'SUBSYSTEMS=="none", ENV{N}="1"', 'ENV{Q}="$id"',
]

# Steps of rules over one event, each with what it does and what it leaves.
STEPS = [
    answered(
        "all matches upwards hold for one device",
        ['SUBSYSTEMS=="usb", ATTRS{serial}=="7", ENV{HIT}="$id"'],
        (TOGETHER, ["env HIT=d", "env SUBSYSTEM=tty"]),
        (APART, ["env SUBSYSTEM=tty"]),
        path=BELOW_USB,
    ),
    answered(
        "a device stays selected until a search finds none",
        SELECTIONS,
        (TOGETHER, ["env P=d", "env SUBSYSTEM=tty", "run program /bin/x d"]),
        path=BELOW_USB,
    ),
    answered(
        "a TEST is made after the search, and its text names the selected device",
        ['TEST=="$id", SUBSYSTEMS=="usb", ENV{T}="1"'],
        ([TOGETHER[0], "A: d=1", *TOGETHER[1:]], ["env SUBSYSTEM=tty", "env T=1"]),
        path=BELOW_USB,
    ),
    answered(
        "a command is rendered after the last rule",
        ['RUN+="/bin/n $env{V}"', 'ENV{V}="2"'],
        ([], ["env V=2", "run program /bin/n 2"]),
    ),
    answered(
        "an owner and a priority that are final",
        ['OWNER:="a"', 'OWNER="b"', 'OPTIONS:="link_priority=5"', 'OPTIONS="link_priority=7"'],
        ([], ["owner a", "priority 5"]),
    ),
    answered(
        "words of the result of a program that is named by its device",
        ['PROGRAM=="/bin/id %k", RESULT=="a*", ENV{R}="$result{2+}"'],
        (["Q: /bin/id sda", "R: 0 ab cd ef"], ["env R=cd ef"]),
        ([], ["note r.rules:1: no answer for program: /bin/id sda"]),
        path="/a/sda",
    ),
    answered(
        "a device without a parent imports nothing",
        ['IMPORT{parent}!="*", ENV{Z}="1"', 'IMPORT{parent}="*", ENV{Y}="1"'],
        ([], ["env Z=1"]),
    ),
]

# (text that is reported, the block's lines after C: add and P: /x, the line)
FAULTY = [
    ("unknown line", "X: 1\n", 3),
    ("number", "D: x\n", 3),
    ("path", "P: /y\n", 3),
    ("given twice", "U: a\nU: a\n", 4),
    ("pair", "E: =x\n", 3),
    ("nul byte", "E: k=\0\n", 3),
]


def block_with(letter, count):
    """A block of 27 bytes and of so many of this letter, as the value of its property X."""
    return "C: add\nP: /devices/x\nE: X=" + letter * count + "\n"


def answer_with(before, x, env, after):
    """The answer to it, with X ending in this text."""
    return f"event add /devices/x\n{before}env ACTION=add\nenv DEVPATH=/devices/x\nenv X={x}\n{env}{after}\n"


LONGEST = 16_384
ONES = "\\x01" * LONGEST
EACH_LONG_KEY = """\
OWNER="$env{X}"
GROUP="$env{X}"
SECLABEL{m}="$env{X}"
ENV{Y}="$env{X}"
ATTR{a}="$env{X}"
SYSCTL{s}="$env{X}"
RUN+="$env{X}"
ENV{Z}="$env{X}-"
"""
# Each key that keeps a text, with the longest one, of bytes that are all escaped; the last would be too long by a byte.
LONG_ANSWER = answer_with(
    f"owner {ONES}\ngroup {ONES}\nlabel m={ONES}\n", ONES, f"env Y={ONES}\n",
    f"attr a={ONES}\nsysctl s={ONES}\nrun program {ONES}\nnote r.rules:8: text too long: ENV{{Z}}\n")
LONGEST_VALUE = 65_509
LONG_VALUE_ANSWER = answer_with("", "\\x01" * LONGEST_VALUE, "", "")
WHOLE_DATABASE = "*\n" + "".join(f" {number:03}=v\n" for number in range(1000))
WHOLE_DATABASE_ANSWER = (
    "event add /x\n" + "".join(f"env {number:03}=v\n" for number in range(1000)) + "env ACTION=add\nenv DEVPATH=/x\n\n")

DOUBLING = 'ENV{X}="$env{X}$env{X}"\n'
COMMANDS = 'RUN{program}+="$env{X}$env{X}"\nRUN+="$env{X}-$env{X}"\n'

THOUSAND_MATCHES = "".join(f'ENV{{P{number:03}}}=="1", ' for number in range(1000)) + 'ENV{HIT}="1"\n'


def thousand(last, hit=""):
    """A block with a thousand properties, of which this is the last, and its answer with this line."""
    ones = [f"P{number:03}=1" for number in range(999)] + last
    block = BARE + "".join(f"E: {one}\n" for one in ones)
    return block, bare(env=hit + "".join(f"env {one}\n" for one in ones))


LINKS = [f"{number:03x}" for number in range(4000)]
LINKS_RULE = 'SYMLINK+="' + "".join(f"{link} " for link in LINKS) + '"\n'

# (what is asked, rules, block, output)
LARGE = [
    ("the longest text of each key", EACH_LONG_KEY, block_with("\1", LONGEST), LONG_ANSWER),
    ("the longest property of a block", "", block_with("\1", LONGEST_VALUE), LONG_VALUE_ANSWER),
    ("a text of 16,384 bytes is kept", DOUBLING, block_with("v", 8192), answer_with("", "v" * LONGEST, "", "")),
    ("a text of 16,386 bytes is left out", DOUBLING, block_with("v", 8193),
     answer_with("", "v" * 8193, "", "note r.rules:1: text too long: ENV{X}\n")),
    ("a text is doubled until it would be too long", DOUBLING * 30, BARE + "E: X=" + "v" * 1000,
     bare(env="env X=" + "v" * 16_000 + "\n", after="".join(f"note r.rules:{line}: text too long: ENV{{X}}\n" for line in range(5, 31)))),
    ("a note shows a command as written", COMMANDS, block_with("v", 8193),
     answer_with("", "v" * 8193, "", "note r.rules:1: text too long: RUN{program}\nnote r.rules:2: text too long: RUN\n")),
    ("a rule matches a thousand properties", THOUSAND_MATCHES, *thousand(["P999=1"], "env HIT=1\n")),
    ("the last of a thousand properties differs", THOUSAND_MATCHES, *thousand(["P999=2"])),
    ("the last of a thousand properties is absent", THOUSAND_MATCHES, *thousand([])),
    ("a rule adds 4,000 links", LINKS_RULE, BARE, bare("".join(f"link {link}\n" for link in LINKS))),
]

# The weight of an answer is the length of its texts, plus one for each. It is at most four times its block plus 128, and
# for each part of a rule 32,896, the length of its attribute and that of its file's name, and for an IMPORT also twice the
# block and all keys and values, plus one for each. The answer is at most eight times its weight, plus four times its block,
# plus 64 bytes long.
#
# (answer, its block's length, its weight, the most that it may weigh)
WEIGHED = [
    # the longest texts; m, ACTION, add, DEVPATH, /devices/x, X, Y, a, s and program; the note's three
    (LONG_ANSWER, 27 + LONGEST,
     8 * (LONGEST + 1) + (2 + 7 + 4 + 8 + 11 + 2 + 2 + 2 + 2 + 8) + (8 + 14 + 7),
     4 * (27 + LONGEST) + 128 + 8 * (32_896 + 7) + 5),
    (LONG_VALUE_ANSWER, 27 + LONGEST_VALUE, (7 + 4) + (8 + 11) + (2 + LONGEST_VALUE + 1), 4 * (27 + LONGEST_VALUE) + 128),
    (WHOLE_DATABASE_ANSWER, 13, (7 + 4) + (8 + 3) + 1000 * (4 + 2), 4 * 13 + 128 + (32_896 + 7 + 7) + 2 * 13 + 1000 * (4 + 2)),
]
for answer, block, weight, most in WEIGHED:
    assert weight <= most and len(answer) <= 8 * weight + 4 * block + 64

# A word of a message is its first 32 bytes: the backslash is the 32nd, then the next byte is.
ODD_NAME = "mnt/etc/udev/hwdb.d/a\1b.hwdb"
LATE_MATCH = "m\n A=1\n{}yyyyyyy\n B=1\n"
LATE_MATCH_REPORTED = "a\\x01b.hwdb:3: H3 unindented line after properties: {}\n"
LONG_MATCH = "m\n{}\n A=1\n"
LONG_MATCH_REPORTED = "t.hwdb:2: H6 pattern not supported: " + "x" * 32 + "\n"


def of_rules(name, rules, block, output):
    """A run of events by one rules file and no database."""
    return Row(name, "events -r none r.rules", {"r.rules": rules}, block, output)


ROWS = [
    *(of_rules(*row) for row in ANSWERED),
    *(of_rules(*row) for row in LARGE),
    *STEPS,
    Row("the line after one without a token is a rule", "events -r none r.rules",
        {"r.rules": 'KERNEL=="sd*\nENV{X}="1" , TAG-="t"\n'}, BARE, bare(env="env X=1\n"),
        'r.rules:1: V1 bad syntax: KERNEL=="sd*\n'),
    Row("links that are final stay so in later files", "events -r none 10-a.rules 20-b.rules",
        {"10-a.rules": 'SYMLINK:="a"\n', "20-b.rules": 'SYMLINK+="b"\n'}, DISK, disk("link a\n")),
    *(Row(f"a block with a fault: {text}", "events -r none r.rules", {"r.rules": ""}, BARE + "\n" + BARE + lines, bare(),
          f"block 2, line {line}: {text}\n", 1) for text, lines, line in FAULTY),
    Row("a block without an action", "events -r none r.rules", {"r.rules": ""}, "C: \n", "", "block 1, line 1: no action\n", 1),
    Row("a block without a device", "events -r none r.rules", {"r.rules": ""}, "C: add\n", "", "block 1, line 1: no device\n", 1),
    Row("a jump stays within its file", "events -r none d/x.rules x.rules",
        {"d/x.rules": JUMPS_DOWN_AND_UP, "x.rules": RULE_AND_JUMP}, BARE,
        bare(env="env E=1\nenv F=1\nenv G=1\nenv I=1\n"), "d/x.rules:4: V7 no later label: x\n"),
    Row("a file read twice: its jumps stay apart", "events -r none x.rules x.rules", {"x.rules": JUMPS_DOWN_AND_UP}, BARE,
        bare(env="env E=1\nenv F=1\n"), "x.rules:4: V7 no later label: x\n" * 2),
    Row("a thousand properties of the database", "events -r mnt r.rules",
        {"r.rules": 'IMPORT{builtin}="hwdb x"\n', "mnt/usr/lib/udev/hwdb.d/a.hwdb": WHOLE_DATABASE}, BARE, WHOLE_DATABASE_ANSWER),
    Row("messages about rules come before those about the database, those about style are left out", "events -r mnt r.rules",
        {"r.rules": 'KERNEL=="a" TAG+="t"\nFOO\n', "mnt/usr/lib/udev/hwdb.d/a.hwdb": " A=1\n"}, BARE, bare(),
        "r.rules:2: V1 bad syntax: FOO\na.hwdb:1: H1 property without a match: A=1\n"),
    Row("the file name in a message is escaped, and a word is cut after 32 bytes", ["query", "-r", "mnt", ""],
        {ODD_NAME: LATE_MATCH.format("x" * 31 + "\\y")}, messages=LATE_MATCH_REPORTED.format("x" * 31 + "\\x5C")),
    Row("a word is cut before its 33rd byte", ["query", "-r", "mnt", ""],
        {ODD_NAME: LATE_MATCH.format("x" * 32 + "\\")}, messages=LATE_MATCH_REPORTED.format("x" * 32)),
    Row("a match of 16,384 bytes", "query m t.hwdb", {"t.hwdb": LONG_MATCH.format("x" * LONGEST)}, output="A=1\n"),
    Row("a match of 16,385 bytes after a good one is reported", "query m t.hwdb",
        {"t.hwdb": LONG_MATCH.format("x" * (LONGEST + 1))}, output="A=1\n", messages=LONG_MATCH_REPORTED),
]
