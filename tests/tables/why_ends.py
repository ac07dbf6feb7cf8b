"""`events --why`: how rules end: where they stop, what their assignments did, since when a key is final, and jumps.

What is wanted follows the reference, docs/behaviour.md, and udev(7); nothing here was taken from the program.
"""
from tables.kinds.answered import answer, block
from tables.kinds.row import Row
from tables.kinds.why import LONG, TWICE, cut, of, why

NET = "U: net"

EACH_KEY = (
    'SUBSYSTEM=="net", NAME="lan0", OWNER="root", GROUP="net", MODE="0660", ATTR{mtu}="1400", SYSCTL{net/x}="0", '
    'OPTIONS="link_priority=-5", OPTIONS="watch", OPTIONS="db_persist", SECLABEL{smack}="u", SYMLINK+="net/first net/second", '
    'TAG+="systemd", ENV{ID_LAN}="1", ENV{.LAN}="1", RUN+="/bin/ip link show $name", RUN{builtin}+="kmod load"'
)
EACH_KEY_ANSWER = [
    "name lan0", "owner root", "group net", "mode 0660", "priority -5", "watch", "persist", "label smack=u", "link net/first",
    "link net/second", "tag systemd", "env ID_LAN=1", "env SUBSYSTEM=net", "attr mtu=1400", "sysctl net/x=0",
    "run program /bin/ip link show lan0", "run builtin kmod load",
]
EACH_KEY_DID = (
    "priority=-5 set, watch added, persist added, owner=root set, group=net set, mode=0660 set, tag systemd added, "
    "label smack=u set, env ID_LAN=1 set, env .LAN=1 set, name=lan0 set, link net/first added, link net/second added, "
    "attr mtu=1400 set, sysctl net/x=0 set, run program /bin/ip link show $name added, run builtin kmod load added"
)

# (a rule, what it did to what the rules before it left), over a device with two links, a tag and a property
DID = [
    ('SYMLINK-="one"', "link one removed"),
    ('SYMLINK+="two"', "SYMLINK changes nothing"),
    ('SYMLINK-="none"', "SYMLINK changes nothing"),
    ('SYMLINK="three four"', "link two removed, link three added, link four added"),
    ('SYMLINK+=""', "SYMLINK changes nothing"),
    ('TAG="x"', "tag t removed, tag x added"),
    ('TAG-="x"', "tag x removed"),
    ('TAG+=""', "TAG changes nothing"),
    ('ENV{A}="1"', "ENV{A} changes nothing"),
    ('ENV{A}+="2"', "env A=1 2 set"),
    ('ENV{A}=""', "env A removed"),
    ('ENV{A}=""', "ENV{A} changes nothing"),
    ('ENV{B}+=""', "ENV{B} changes nothing"),
    ('ENV{B}+="b", ENV{C}="$env{B}c"', "env B=b set, env C=bc set"),
    ('ENV{C}="c", ENV{C}="bc"', "env C=c set, env C=bc set"),
    ('OWNER="a", GROUP="b", MODE="0600"', "owner=a set, group=b set, mode=0600 set"),
    ('OWNER="", GROUP="b", MODE="0660"', "owner removed, GROUP changes nothing, mode=0660 set"),
    ('OWNER=""', "OWNER changes nothing"),
    ('OPTIONS="watch"', "watch added"),
    ('OPTIONS="nowatch"', "watch removed, nowatch added"),
    ('OPTIONS="link_priority=1"', "priority=1 set"),
    ('OPTIONS="link_priority=+01"', "OPTIONS changes nothing"),
    ('OPTIONS="db_persist", OPTIONS="db_persist"', "persist added, OPTIONS changes nothing"),
    ('OPTIONS="string_escape=none"', "OPTIONS changes nothing"),
    ('OPTIONS="log_level=debug", OPTIONS="static_node=x"', "OPTIONS changes nothing, OPTIONS changes nothing"),
    ('SECLABEL{a}="1"', "label a=1 set"),
    ('SECLABEL{b}="2"', "label a removed, label b=2 set"),
    ('SECLABEL{a}+=""', "label a added"),
    ('SECLABEL{b}+="2"', "SECLABEL{b} changes nothing"),
    ('ATTR{x}=""', "attr x added"),
    ('ATTR{x}="1"', "attr x=1 set"),
    ('ATTR{x}="1"', "ATTR{x} changes nothing"),
    ('SYSCTL{y}="1"', "sysctl y=1 set"),
    ('NAME="n"', "NAME ignored, no network device"),
    ('RUN+="/bin/a"', "run program /bin/a added"),
    ('RUN{program}+="/bin/a"', "RUN{program} changes nothing"),
    ('RUN{builtin}+="/bin/a"', "run builtin /bin/a added"),
    ('RUN="/bin/b"', "run program /bin/a removed, run builtin /bin/a removed, run program /bin/b added"),
    ('RUN=""', "all runs removed"),
    ('RUN=""', "RUN changes nothing"),
    ('RUN+="/bin/%k", RUN+="", RUN+="/bin/%k"', "run program /bin/%k added, RUN changes nothing, RUN changes nothing"),
    ('ENV{NEW}="$links"', "env NEW=three four set"),
]
DID_ANSWER = [
    "group b", "mode 0660", "priority 1", "nowatch", "persist", "label b=2", "label a=", "link three", "link four", "env B=b",
    "env C=bc", "env NEW=three four", "attr x=1", "sysctl y=1", "run program /bin/d", "note r.rules:34: name ignored: n",
]
assert DID[33][0] == 'NAME="n"'


def note(number, key):
    """The note that a text of the rule in one line was too long."""
    return f"note r.rules:{number}: text too long: {key}"


EFFECTS = [
    why("the effect of each key", [EACH_KEY], [NET], EACH_KEY_ANSWER,
        of(1, 'SUBSYSTEM=="net": holds, net', "reached its end: " + EACH_KEY_DID), path="/devices/pci0/net/eth0"),
    why("the effect of each kind of assignment, and assignments without effect", [rule for rule, _ in DID],
        ["S: one", "S: two", "G: t", "E: A=1"], DID_ANSWER,
        *(of(at, f"reached its end: {did}") for at, (_, did) in enumerate(DID, 1))),
    why(
        "texts that are too long are left out",
        [f'MODE="{TWICE}", OWNER="{TWICE}", ENV{{A}}="{TWICE}", ENV{{.L}}+="$env{{.L}}", SECLABEL{{m}}="{TWICE}", NAME="{TWICE}"'],
        [LONG],
        [note(1, "OWNER"), note(1, "MODE"), note(1, "SECLABEL{m}"), note(1, "ENV{A}"), note(1, "ENV{.L}"), note(1, "NAME")],
        of(1, "reached its end: OWNER left out, too long, MODE left out, too long, SECLABEL{m} left out, too long, "
           "ENV{A} left out, too long, ENV{.L} left out, too long, NAME left out, too long"),
    ),
    why("a RUN that is too long once rendered is shown as written", [f'RUN{{program}}+="{TWICE}"'], [LONG],
        [note(1, "RUN{program}")], of(1, f"reached its end: run program {TWICE} added")),
    why("texts that are set are escaped and cut", [f'ATTR{{a\\b}}="{"x" * 300}"', 'TAG+="a\\b"', 'RUN+="' + "r" * 300 + '"'], [],
        ["tag a\\x5Cb", "attr a\\x5Cb=" + "x" * 300, "run program " + "r" * 300],
        of(1, f'reached its end: attr a\\x5Cb={cut("x" * 300)} set'), of(2, "reached its end: tag a\\x5Cb added"),
        of(3, f'reached its end: run program {cut("r" * 300)} added')),
    why("replaced commands, one of which stays", ['RUN+="/bin/a", RUN{builtin}+="b", RUN+="/bin/c"', 'RUN="/bin/a"'], [], ["run program /bin/a"],
        of(1, "reached its end: run program /bin/a added, run builtin b added, run program /bin/c added"),
        of(2, "reached its end: run builtin b removed, run program /bin/c removed")),
    why(
        "labels of one module with --udev: each new label is shown",
        ['SECLABEL{a}+="x", SECLABEL{a}+="y"', 'SECLABEL{a}+="x"', 'SECLABEL{b}="z"'],
        ["N: d", "D: 1:1"],
        ["label b=z", "env DEVNAME=/dev/d", "env MAJOR=1", "env MINOR=1"],
        of(1, "reached its end: label a=x added, label a=y added"),
        of(2, "reached its end: SECLABEL{a} changes nothing"),
        of(3, "reached its end: label a=x removed, label a=y removed, label a=x removed, label b=z added"),
        udev=True,
    ),
    why(
        "a name that is empty once rendered, with --udev",
        ['NAME="lan0"', 'NAME="$env{NONE}"', 'NAME=="", ENV{A}="[$name]"', 'NAME="lan1"'],
        [NET, "E: IFINDEX=2"],
        ["name lan1", "env A=[]", "env IFINDEX=2", "env SUBSYSTEM=net"],
        of(1, "reached its end: name=lan0 set"),
        of(2, "reached its end: name removed"),
        of(3, 'NAME=="": holds, ""', "reached its end: env A=[] set"),
        of(4, "reached its end: name=lan1 set"),
        udev=True,
    ),
    why("names and texts between quotes, where their ends could not be seen", ['TAG+="t ", ENV{A}="a ", OWNER="\\"o\\""', 'TAG-="t "'], [],
        ['owner "o"', "env A=a "], of(1, 'reached its end: owner=""o"" set, tag "t " added, env A="a " set'),
        of(2, 'reached its end: tag "t " removed')),
    why("commands that go and come", ['RUN+="/bin/a"', 'RUN="/bin/b"', 'RUN+="/bin/c"', 'RUN:=""'], [], [],
        of(1, "reached its end: run program /bin/a added"), of(2, "reached its end: run program /bin/a removed, run program /bin/b added"),
        of(3, "reached its end: run program /bin/c added"), of(4, "reached its end: all runs removed")),
    why("commands that go and come with --udev", ['RUN+="/bin/a"', 'RUN="/bin/b"', 'RUN+="/bin/b", RUN{builtin}+="kmod"', 'RUN="/bin/%k"', 'RUN=""'], [],
        ["note r.rules:5: no value: RUN"],
        of(1, "reached its end: run program /bin/a added"), of(2, "reached its end: run program /bin/a removed, run program /bin/b added"),
        of(3, "reached its end: run builtin kmod added, run program /bin/b added"),
        of(4, "reached its end: run program /bin/b removed, run builtin kmod removed, run program /bin/b removed, run program /bin/%k added"),
        of(5, "reached its end: all runs removed, RUN ignored, no value"), udev=True),
    why("a network device without IFINDEX, with --udev", ['NAME="lan0", ENV{A}="1"'], [NET],
        ["env A=1", "env SUBSYSTEM=net", "note r.rules:1: name ignored: lan0"],
        of(1, "reached its end: env A=1 set, NAME ignored, no interface (IFINDEX)"), udev=True),
    why("a device that is no network device, with --udev", ['NAME="lan0", ENV{A}="1"'], ["U: block"],
        ["env A=1", "env SUBSYSTEM=block", "note r.rules:1: name ignored: lan0"],
        of(1, "reached its end: env A=1 set, NAME ignored, no network device"), udev=True),
    why("a rule without an assignment", ['KERNEL=="d"', 'KERNEL=="x"'], [], [], of(1, 'KERNEL=="d": holds, d', "reached its end"),
        of(2, 'KERNEL=="x": fails, d', "stops there")),
]

FIRST = """\
OWNER="a", SYMLINK+="l"
GROUP:="g", OPTIONS:="nowatch"
OWNER:="root", MODE:="0600"
OWNER:="x", OPTIONS:="link_priority=1"
NAME:="lan0", SYMLINK:="l", RUN{builtin}:="kmod"
"""
LAST = """\
NAME="x", SYMLINK+="y", OWNER="b", GROUP="b", MODE="b", RUN+="z", OPTIONS="link_priority=2", OPTIONS="watch", TAG+="t"
OPTIONS="watch"
"""
FINAL_ANSWER = [
    "name lan0", "owner root", "group g", "mode 0600", "priority 1", "nowatch", "link l", "tag t", "env SUBSYSTEM=net",
    "run builtin kmod",
]
FINAL_REPORTED = """\
why 10-a.rules:3: reached its end: owner=root set, mode=0600 set
why 10-a.rules:4: reached its end: priority=1 set, OWNER is final since 10-a.rules:3
why 10-a.rules:5: reached its end: name=lan0 set, SYMLINK changes nothing, run builtin kmod added
why 99-b.rules:1: reached its end: link_priority is final since 10-a.rules:4, watch is final since 10-a.rules:2, \
OWNER is final since 10-a.rules:3, GROUP is final since 10-a.rules:2, MODE is final since 10-a.rules:3, tag t added, \
NAME is final since 10-a.rules:5, SYMLINK is final since 10-a.rules:5, RUN is final since 10-a.rules:5
why 99-b.rules:2: reached its end: watch is final since 10-a.rules:2
"""
FINALS_WORDS = (
    "events -r none --why 99-b.rules --why 10-a.rules:3 --why 10-a.rules:4 --why 10-a.rules:5 10-a.rules 99-b.rules"
)

FINALS = [
    Row("keys that are final since an earlier file", FINALS_WORDS, {"10-a.rules": FIRST, "99-b.rules": LAST}, block("/d", NET),
        answer("/d", FINAL_ANSWER)[:-1] + FINAL_REPORTED.encode() + b"\n"),
    why("a key that is final since the same rule", ['OWNER:="a", OWNER="b", OWNER:="c"', 'OWNER=""'], [], ["owner a"],
        of(1, "reached its end: owner=a set, OWNER is final since r.rules:1, OWNER is final since r.rules:1"),
        of(2, "reached its end: OWNER is final since r.rules:1")),
    why("a key that was made final without changing its value", ['GROUP="g"', 'GROUP:="g"', 'GROUP="h"'], [], ["group g"],
        of(1, "reached its end: group=g set"), of(2, "reached its end: GROUP changes nothing"),
        of(3, "reached its end: GROUP is final since r.rules:2")),
    why("an assignment that is left out makes nothing final", [f'OWNER:="{TWICE}"', 'OWNER="b"', 'NAME:="n"', 'NAME="m"'], [LONG],
        ["owner b", note(1, "OWNER"), "note r.rules:3: name ignored: n", "note r.rules:4: name ignored: m"],
        of(1, "reached its end: OWNER left out, too long"), of(2, "reached its end: owner=b set"),
        of(3, "reached its end: NAME ignored, no network device"), of(4, "reached its end: NAME ignored, no network device")),
    why("a rule that stops makes nothing final", ['KERNEL=="x", OWNER:="a"', 'OWNER="b"'], [], ["owner b"],
        of(1, 'KERNEL=="x": fails, d', "stops there"), of(2, "reached its end: owner=b set")),
    why("other options are not final", ['OPTIONS:="db_persist"', 'OPTIONS+="db_persist"'], [], ["persist"],
        of(1, "reached its end: persist added"), of(2, "reached its end: OPTIONS changes nothing")),
    why("a final key is reported before a text that is too long", ['OWNER:="a"', f'OWNER="{TWICE}"'], [LONG], ["owner a"],
        of(1, "reached its end: owner=a set"), of(2, "reached its end: OWNER is final since r.rules:1")),
]

JUMP = ['SUBSYSTEM!="tty", GOTO="end"', 'ENV{A}="1", GOTO="end"', 'LABEL="other", ENV{B}="1"', 'LABEL="end", ENV{C}="1"', 'ENV{D}="1"']
JUMPED = ["env C=1", "env D=1"]

JUMPS = [
    why("rules that a jump skips", JUMP, [], JUMPED,
        of(1, 'SUBSYSTEM!="tty": holds, ""', "reached its end"), of(2, "passed over by GOTO of r.rules:1"),
        of(3, "passed over by GOTO of r.rules:1"), of(4, "reached its end: env C=1 set"), of(5, "reached its end: env D=1 set")),
    why("one rule that a jump skips", JUMP, [], JUMPED, of(2, "passed over by GOTO of r.rules:1"), asked=["r.rules:2"]),
    why("a rule that stops does not jump", JUMP, ["U: tty"], ["env A=1", "env C=1", "env D=1", "env SUBSYSTEM=tty"],
        of(1, 'SUBSYSTEM!="tty": fails, tty', "stops there"), of(2, "reached its end: env A=1 set"),
        of(3, "passed over by GOTO of r.rules:2"), of(4, "reached its end: env C=1 set"), of(5, "reached its end: env D=1 set")),
    why("a jump to a rule with a jump", ['GOTO="x"', 'ENV{A}="1"', 'LABEL="x", GOTO="x", ENV{B}="1"', 'ENV{C}="1"', 'LABEL="x"'], [], ["env B=1"],
        of(1, "reached its end"), of(2, "passed over by GOTO of r.rules:1"), of(3, "reached its end: env B=1 set"),
        of(4, "passed over by GOTO of r.rules:3"), of(5, "reached its end")),
    why("a jump without a label is not shown", ['GOTO="y", ENV{A}="1"', 'ENV{B}="1"'], [], ["env A=1", "env B=1"],
        of(1, "reached its end: env A=1 set"), of(2, "reached its end: env B=1 set"),
        messages="r.rules:1: V7 no later label: y\n"),
]

NOT_READ = [
    why(
        "lines that are not read come first, in the order of their messages",
        ['KERNEL=="d", TAG+="t"', 'ENV{B}="$nope"', "", "# a comment", 'FOO="a\\b"', 'TAG+="u"'],
        [],
        ["tag t", "tag u"],
        of(2, "not read: V6 bad substitution: $nope"),
        of(5, "not read: V2 unknown key: FOO"),
        of(1, 'KERNEL=="d": holds, d', "reached its end: tag t added"),
        of(6, "reached its end: tag u added"),
        messages="r.rules:2: V6 bad substitution: $nope\nr.rules:5: V2 unknown key: FOO\n",
    ),
    why("one line that is not read", ['TAG+="t"', 'KERNEL=="sd*'], [], ["tag t"], of(2, 'not read: V1 bad syntax: KERNEL=="sd*'),
        asked=["r.rules:2"], messages='r.rules:2: V1 bad syntax: KERNEL=="sd*\n'),
    why("a line that is not read has the word of its message", ['ENV{B}="$nope\\' + "n" * 40 + '"'], [], [],
        of(1, "not read: V6 bad substitution: $nope\\x5C" + "n" * 26),
        messages="r.rules:1: V6 bad substitution: $nope\\x5C" + "n" * 26 + "\n"),
    why("a line that is not read because of its length", ['TAG+="' + "t" * 16_384 + '"'], [], [], of(1, "not read: V9 line too long"),
        messages="r.rules:1: V9 line too long\n"),
    why("a rule with a message is shown like other rules", ['LABEL="a", LABEL="b", TAG+="t"'], [], ["tag t"],
        of(1, "reached its end: tag t added"), messages="r.rules:1: V8 label or goto given twice: b\n"),
]

NUMBER = "does nothing without a device number"
GONE = "does nothing when the device is removed"


def noted(number, *keys):
    """The notes of a rule on a device without a number."""
    return [f"note r.rules:{number}: no device number: {key}" for key in keys]


# What a rule has to have so that udev does not skip it is in docs/behaviour.md (As udev itself does).
SKIPPED = [
    why(
        "rules that udev skips at a device without a number",
        ['SYMLINK+="l"', 'KERNEL=="d", OWNER="root", GROUP="disk", MODE="0660", SYMLINK+="l"', 'NAME="n"', 'OPTIONS="static_node=x"',
         'KERNEL=="x", SYMLINK+="l"', 'TEST=="a", SYMLINK+="l", OPTIONS+="static_node=y"'],
        ["A: a=1"],
        [*noted(1, "SYMLINK"), *noted(2, "OWNER", "GROUP", "MODE", "SYMLINK"), "note r.rules:3: name ignored: n", *noted(6, "SYMLINK")],
        of(1, f"skipped: SYMLINK {NUMBER}"),
        of(2, 'KERNEL=="d": holds, d', f"skipped: OWNER {NUMBER}, GROUP {NUMBER}, MODE {NUMBER}, SYMLINK {NUMBER}"),
        of(3, "skipped: NAME does nothing without an interface (IFINDEX)"),
        of(4, "skipped: OPTIONS does nothing at an event"),
        of(5, 'KERNEL=="x": fails, d', "stops there"),
        of(6, 'TEST=="a": holds, a', f"skipped: OPTIONS does nothing at an event, SYMLINK {NUMBER}"),
        udev=True,
    ),
    why(
        "a search in a rule that udev skips selects nothing",
        ['KERNELS=="h", SYMLINK+="l"', 'ENV{A}="[$id]"', 'KERNELS=="x", SYMLINK+="l"', 'KERNELS=="h", SYMLINK+="l", ENV{B}="[$id]"'],
        ["P: /h"],
        ["env A=[]", "env B=[h]", *noted(1, "SYMLINK"), *noted(4, "SYMLINK")],
        of(1, 'KERNELS=="h": d fails, d, h holds', "h would meet all", f"skipped: SYMLINK {NUMBER}"),
        of(2, "reached its end: env A=[] set"),
        of(3, 'KERNELS=="x": d fails, d, h fails, h', "no device meets any", "stops there"),
        of(4, 'KERNELS=="h": d fails, d, h holds', "h meets all", "reached its end: env B=[h] set, SYMLINK ignored, no device number"),
        path="/h/d",
        udev=True,
    ),
    Row("rules that udev skips when the device is removed", "events --udev -r none --why r.rules r.rules",
        {"r.rules": 'SYMLINK+="l", MODE="$env{M}"\nNAME="n"\nSYMLINK+="l", ENV{A}="1"\n'}, "C: remove\nP: /d\nD: 1:1\nE: IFINDEX=2\n",
        "event remove /d\nlink l\nenv A=1\nenv ACTION=remove\nenv DEVPATH=/d\nenv IFINDEX=2\nenv MAJOR=1\nenv MINOR=1\n"
        f"why r.rules:1: skipped: MODE {GONE}, SYMLINK {GONE}\nwhy r.rules:2: skipped: NAME {GONE}\n"
        "why r.rules:3: reached its end: env A=1 set, link l added\n\n"),
    why(
        "rules that assign nothing, with --udev",
        ['LABEL="a"', 'KERNEL=="d", LABEL="b"', 'KERNELS=="d", LABEL="c"', 'GOTO="e"', 'LABEL="e"'],
        [],
        [],
        of(1, "reached its end"),
        of(2, 'KERNEL=="d": holds, d', "skipped: nothing is assigned"),
        of(3, 'KERNELS=="d": d holds', "d would meet all", "skipped: nothing is assigned"),
        of(4, "reached its end"),
        of(5, "reached its end"),
        udev=True,
    ),
    why("the same rules by the manual", ['LABEL="a"', 'KERNEL=="d", LABEL="b"', 'KERNELS=="d", LABEL="c"', 'SYMLINK+="l"'], [], ["link l"],
        of(1, "reached its end"), of(2, 'KERNEL=="d": holds, d', "reached its end"),
        of(3, 'KERNELS=="d": d holds', "d meets all", "reached its end"), of(4, "reached its end: link l added")),
]

ROWS = [*EFFECTS, *SKIPPED, *FINALS, *JUMPS, *NOT_READ]
