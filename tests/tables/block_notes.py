"""Notes about a block itself, which an answer of `--udev` has: an action that udev does not have, a path with `/sys` at its
start, under `add` a property that udev stores later, a property of the farthest parent behind commands, attributes of a device
that is removed, and lines that end in CR LF. The blocks have `U: m`
but for those of BARE, at which no rule is tried.

What is wanted follows from docs/behaviour.md; nothing here was taken from the program.
"""
import json

from tables.kinds.answered import escaped
from tables.kinds.compared import NEW, OLD, placed
from tables.kinds.row import Read, Row, as_bytes

STORED = "USEC_INITIALIZED"
STORED_NOTE = f"note -: stored by udev: {STORED}"


def unknown(action):
    return f"note -: unknown action: {action}"


def misplaced(path):
    return f"note -: path begins with /sys: {path}"


def late(name):
    return f"note -: misplaced property: {name}"


def block(action, path, *lines):
    """A block of an action at a path, with these lines."""
    return b"".join(as_bytes(line) + b"\n" for line in (f"C: {action}", f"P: {path}", "U: m", *lines)) + b"\n"


def answer(action, path, *lines):
    """The answer to it, with these lines in addition to the event, ACTION, DEVPATH and SUBSYSTEM."""
    own = [b"event %s %s" % (escaped(action), escaped(path)), b"env ACTION=" + escaped(action), b"env DEVPATH=" + escaped(path), b"env SUBSYSTEM=m"]
    said = [*own, *(as_bytes(line) for line in lines)]
    properties = sorted(line for line in said if line.startswith(b"env "))
    return b"".join(line + b"\n" for line in [said[0], *properties, *(line for line in said[1:] if line not in properties)]) + b"\n"


def noted(name, *asked, rules="", words=("--udev",)):
    """A run over some blocks. Each thing asked is an action, a path, lines of the block after it, and the lines that its
    answer has in addition."""
    return Row(name, ["events", *words, "-r", "none", "r.rules"], {"r.rules": rules}, b"".join(block(action, path, *lines) for action, path, lines, _ in asked),
               b"".join(answer(action, path, *wanted) for action, path, _, wanted in asked))


ACTIONS = [
    noted("each action that udev has", *((action, "/d", [], []) for action in "add remove change move online offline bind unbind".split())),
    noted("actions that udev does not have", *((action, "/d", [], [unknown(action)]) for action in ["plug", "Add", "adds", "ad", "add ", "add|change", "*", "none"])),
    noted("an action is shown in 32 bytes, escaped", ("a" * 40, "/d", [], [unknown("a" * 32)]), ("a\x01\\b", "/d", [], [unknown(r"a\x01\x5Cb")])),
]

PATHS = [
    noted("a path with /sys at its start", ("add", "/sys/devices/x", [], [misplaced("/sys/devices/x")]), ("change", "/sys/d", [], [misplaced("/sys/d")])),
    noted("other paths", *(("add", path, [], []) for path in ["/sys", "/sysx/d", "/devices/sys/d", "/d/sys"])),
    noted("a path is shown in 32 bytes, escaped", ("add", "/sys/" + "d" * 40, [], [misplaced("/sys/" + "d" * 27)]), ("add", "/sys/\\", [], [misplaced(r"/sys/\x5C")])),
    noted("a path is noted once, whatever its parents", ("add", "/sys/a/b", ["P: /sys/a", "P: /sys"], [misplaced("/sys/a/b")])),
]

STORES = [
    noted("under add a property that udev stores later", ("add", "/d", [f"E: {STORED}=7"], [f"env {STORED}=7", STORED_NOTE])),
    noted("under other actions it is there", *((action, "/d", [f"E: {STORED}=7"], [f"env {STORED}=7"]) for action in ["change", "remove", "bind"])),
    noted("without a value it is no property", ("add", "/d", [f"E: {STORED}="], [])),
    noted("another property", ("add", "/d", ["E: INITIALIZED=7"], ["env INITIALIZED=7"]), ("add", "/d", ["E: usec_initialized=7"], ["env usec_initialized=7"])),
    noted("one of a parent, and one in a line that says what is stored", ("add", "/a/d", ["P: /a", f"E: {STORED}=7"], []), ("add", "/d", [f"B: {STORED}=7"], [])),
    noted("one that a rule sets", ("add", "/d", [], [f"env {STORED}=7"]), rules=f'ENV{{{STORED}}}="7"\n'),
    noted("one that a rule removes", ("add", "/d", [f"E: {STORED}=7"], [STORED_NOTE]), rules=f'ENV{{{STORED}}}=""\n'),
]

PARENT = ["P: /a", "Q: x", "R: 0 1"]

BEHIND = [
    noted("a property behind a command of the farthest parent", ("add", "/a/d", [*PARENT, "E: ID_FS_LABEL=x"], [late("ID_FS_LABEL")])),
    noted("the first of them is named, in 32 bytes", ("add", "/a/d", [*PARENT, "A: n=1", f"E: {'N' * 40}=1", "Q: y", "R: 0", "E: B=2"], [late("N" * 32)])),
    noted("behind further lines of an answer, and behind constants", ("add", "/a/d", [*PARENT, "O: 2", "K: arch=x", "E: A=1"], [late("A")])),
    noted("a property before the commands, and an attribute or a tag behind them", ("add", "/a/d", ["P: /a", "E: A=1", "Q: x", "R: 0", "A: n=1", "G: t"], [])),
    noted("a property of the device behind a command", ("add", "/a/d", ["Q: x", "R: 0", "E: Z=1", "P: /a"], ["env Z=1"])),
    noted("without a parent it is the device's", ("add", "/d", ["Q: x", "R: 0", "E: Z=1"], ["env Z=1"])),
    noted("the commands of a device above do not count", ("add", "/a/b/d", ["P: /a/b", "Q: x", "R: 0", "E: A=1", "P: /a", "E: B=1"], [])),
    noted("a line of a stored property is none", ("add", "/a/d", [*PARENT, "B: A=1"], [])),
]

GONE = [
    noted("an attribute of a device that is removed", ("remove", "/d", ["A: a=1"], ["note -: attributes of a removed device: /d"]),
          ("remove", "/d", ["A: a="], ["note -: attributes of a removed device: /d"])),
    noted("an attribute under other actions", *((action, "/d", ["A: a=1"], []) for action in "add change move online offline bind unbind".split())),
    noted("an attribute of a parent of a device that is removed", ("remove", "/a/d", ["P: /a", "A: a=1"], [])),
    noted("a removal without attributes", ("remove", "/d", ["E: A=1", "K: a=1"], ["env A=1"])),
]

# A block with the line ends of some editors, the last line too.
ENDS = [
    Row("lines that end in CR LF", "events --udev -r none r.rules", {"r.rules": 'ACTION=="add", ENV{A}="1"\n'}, "C: add\r\nP: /d\r\nU: m\r\n",
        "event add\\x0D /d\\x0D\nenv ACTION=add\\x0D\nenv DEVPATH=/d\\x0D\nenv SUBSYSTEM=m\\x0D\n"
        "note -: unknown action: add\\x0D\nnote -: carriage return at line ends: /d\\x0D\n\n"),
    noted("a carriage return within a path", ("add", "/a\rb", [], [])),
]

TOGETHER = [
    noted("several notes are in order, before those of rules", ("plug", "/sys/d", [], ["run program r", unknown("plug"), misplaced("/sys/d"), "note r.rules:1: import not run: db"]),
          ("add", "/sys/d", [f"E: {STORED}=7"], [f"env {STORED}=7", "run program r", misplaced("/sys/d"), STORED_NOTE, "note r.rules:1: import not run: db"]),
          rules='IMPORT{db}!="A", RUN+="r"\n'),
    noted("a misplaced property comes last", ("plug", "/sys/d", ["P: /sys", "Q: x", "R: 0", "E: A=1"], [unknown("plug"), misplaced("/sys/d"), late("A")])),
    noted("by the manual there are none", ("add", "/a/d", [*PARENT, "E: A=1"], []), ("plug", "/sys/d", [], []), ("add", "/sys/d", [f"E: {STORED}=7"], [f"env {STORED}=7"]), words=()),
    Row("with --sources they stay as they are", "events --udev --sources -r none r.rules", {"r.rules": 'TAG+="t", IMPORT{db}!="A"\n'}, block("plug", "/d"),
        f"event plug /d\nr.rules:1: tag t\n-: env ACTION=plug\n-: env DEVPATH=/d\n-: env SUBSYSTEM=m\n{unknown('plug')}\nnote r.rules:1: import not run: db\n\n"),
    Row("with --why they come before what rules met", "events --udev --why r.rules:1 -r none r.rules", {"r.rules": 'KERNEL=="d", TAG+="t"\n'}, block("plug", "/d"),
        f"event plug /d\ntag t\nenv ACTION=plug\nenv DEVPATH=/d\nenv SUBSYSTEM=m\n{unknown('plug')}\nwhy r.rules:1: KERNEL==\"d\": holds, d\nwhy r.rules:1: reached its end: tag t added\n\n"),
    Row("with --questions there are none", "events --udev --questions -r none r.rules", {"r.rules": ""}, block("plug", "/sys/d"), "event plug /sys/d\n\n"),
    Row("compare leaves them out", f"compare --udev {OLD} {NEW}", {placed(OLD): "", placed(NEW): 'TAG+="t"\n'}, block("plug", "/sys/d"), "event plug /sys/d\n+tag t\n\n", status=1),
]

# A rule that is met at every device, and what is said of one without a subsystem.
MET = 'TAG+="t", RUN+="r", PROGRAM!="/p"\n'
LACKS = "note -: no subsystem, so no rule is tried: /d"


def bare(name, words, output, action="add", status=0, **files):
    """A run of this rule over a device without a subsystem, with a property."""
    return Row(name, words, {"r.rules": MET, **files}, f"C: {action}\nP: /d\nE: B=1\n\n", output, status=status)


BARE = [
    *(bare(f"no rule is tried at a device without a subsystem, on {action}", "events --udev -r none r.rules",
           f"event {action} /d\nenv ACTION={action}\nenv B=1\nenv DEVPATH=/d\n{LACKS}\n\n", action) for action in "add change move online offline bind unbind".split()),
    bare("rules are tried as it is removed", "events --udev -r none r.rules",
         "event remove /d\ntag t\nenv ACTION=remove\nenv B=1\nenv DEVPATH=/d\nrun program r\nnote r.rules:1: no answer for program: /p\n\n", "remove"),
    bare("by the manual they are tried", "events -r none r.rules",
         "event add /d\ntag t\nenv ACTION=add\nenv B=1\nenv DEVPATH=/d\nrun program r\nnote r.rules:1: no answer for program: /p\n\n"),
    bare("with --sources", "events --udev --sources -r none r.rules", f"event add /d\n-: env ACTION=add\n-: env B=1\n-: env DEVPATH=/d\n{LACKS}\n\n"),
    bare("--why says nothing of a rule that is not tried", "events --udev --why r.rules -r none r.rules", f"event add /d\nenv ACTION=add\nenv B=1\nenv DEVPATH=/d\n{LACKS}\n\n"),
    bare("it asks nothing", "events --udev --questions -r none r.rules", "event add /d\n\n"),
    bare("it reaches no rule", "events --udev --unused -r none r.rules",
         f"event add /d\nenv ACTION=add\nenv B=1\nenv DEVPATH=/d\n{LACKS}\n\nunused r.rules:1: not reached\n"),
    bare("as JSON", "events --udev --format=json -r none r.rules", Read(json.loads, {
        "event": "add", "path": "/d", "labels": [], "links": [], "tags": [], "env": {"ACTION": "add", "B": "1", "DEVPATH": "/d"}, "attr": {}, "sysctl": {}, "run": [],
        "notes": [{"text": "no subsystem, so no rule is tried", "word": "/d"}], "why": []})),
    bare("compare finds no difference at it", f"compare --udev {OLD} {NEW}", "", **{placed(OLD): "", placed(NEW): 'TAG+="t"\n'}),
]

ROWS = ACTIONS + PATHS + STORES + BEHIND + GONE + ENDS + TOGETHER + BARE
