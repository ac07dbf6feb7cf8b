"""`compare`: for each event the lines that the answers of two roots don't share.

What is wanted follows from the answers that docs/behaviour.md gives for each of the two; nothing here was taken from the
program.
"""
from tables.kinds.answered import block
from tables.kinds.compared import NEW, OLD, compared, placed
from tables.kinds.index_bytes import WITHOUT_FILE
from tables.kinds.row import FOLDER, Begins, Link, Row

D = "/devices/d"
START = f"event add {D}\n"

# One of each kind of line of an answer, and another of each.
EACH_OLD = [
    'OWNER="a", GROUP="g", MODE="0600"', 'OPTIONS="link_priority=5"', 'OPTIONS="watch"', 'SECLABEL{smack}="u"',
    'SYMLINK+="one"', 'TAG+="t"',
    'ENV{A}="1"', 'ATTR{x}="1"', 'SYSCTL{s}="1"', 'RUN+="/bin/a"', 'RUN{builtin}+="kmod load"',
]
EACH_NEW = [
    'OWNER="b", GROUP="h", MODE="0660"', 'OPTIONS="link_priority=6"', 'OPTIONS="nowatch"', 'OPTIONS="db_persist"',
    'SECLABEL{smack}="v"', 'SYMLINK+="two"',
    'TAG+="u"', 'ENV{A}="2"', 'ATTR{x}="2"', 'SYSCTL{s}="2"', 'RUN+="/bin/b"', 'RUN{builtin}+="kmod"',
]
EACH = [
    "-owner a", "-group g", "-mode 0600", "-priority 5", "-watch", "-label smack=u", "-link one", "-tag t", "-env A=1",
    "-attr x=1", "-sysctl s=1",
    "-run program /bin/a", "-run builtin kmod load",
    "+owner b", "+group h", "+mode 0660", "+priority 6", "+nowatch", "+persist", "+label smack=v", "+link two", "+tag u",
    "+env A=2", "+attr x=2",
    "+sysctl s=2", "+run program /bin/b", "+run builtin kmod",
]

# Three commands that are written differently, two of which read the same.
TWINS = ['RUN+="/bin/%k"', 'RUN+="/bin/b"', 'RUN+="/bin/$kernel"']

DATABASES = {"old/usr/lib/udev/hwdb.d/a.hwdb": "m\n A=1\n B=1\n", "new/etc/udev/hwdb.d/a.hwdb": "m\n A=2\n B=1\n"}
LOOKS_UP = ['IMPORT{builtin}="hwdb m"']

CHANGES = [
    compared("nothing changes", ['SYMLINK+="a"'], ['SYMLINK+="a"'], (D, [])),
    compared("rules that are written differently and mean the same", ['SYMLINK+="a", TAG+="t"'], ['TAG="t"', 'KERNEL=="d", SYMLINK+="$kernel"',
        'SYMLINK="a"'], (D, [])),
    compared("a link is removed", ['SYMLINK+="a b"'], ['SYMLINK+="b"'], (D, [], "-link a")),
    compared("a link is added", ['SYMLINK+="b"'], ['SYMLINK+="a b"'], (D, [], "+link a")),
    compared("a mode changes", ['MODE="0620"'], ['MODE="0600"'], (D, [], "-mode 0620", "+mode 0600")),
    compared("a name changes", ['NAME="a"'], ['NAME="b"'], (D, ["U: net"], "-name a", "+name b")),
    compared("each kind of line changes", EACH_OLD, EACH_NEW, (D, [], *EACH)),
    compared("each kind of line is added", [], EACH_NEW, (D, [], *(line for line in EACH if line[0] == "+"))),
    compared("each kind of line is removed", EACH_OLD, [], (D, [], *(line for line in EACH if line[0] == "-"))),
    compared("links in another order are the same", ['SYMLINK+="a b c"'], ['SYMLINK+="c b a"'], (D, [])),
    compared("tags in another order, with one added", ['TAG+="a", TAG+="b"'], ['TAG+="c", TAG+="b", TAG+="a"'], (D, [], "+tag c")),
    compared("removed and added lines in the order of their answers", ['SYMLINK+="d c x b a"'], ['SYMLINK+="z x y"'],
             (D, [], "-link d", "-link c", "-link b", "-link a", "+link z", "+link y")),
    compared("a property is removed", [], ['ENV{A}=""'], (D, ["E: A=1"], "-env A=1")),
    compared("a rule removes a link of the block", [], ['SYMLINK-="a"'], (D, ["S: a", "S: b"], "-link a")),
    compared("a hidden property is not compared", ['ENV{.A}="1"'], ['ENV{.A}="2"'], (D, [])),
    compared("lines are escaped", ['ENV{A}="a\\b"'], [b'ENV{A}="a\tb"'], (D, [], "-env A=a\\x5Cb", "+env A=a\\x09b")),
    compared("equal lines are counted", TWINS, TWINS[:2], (D, [], "-run program /bin/d")),
    compared("equal lines are counted, with one added", TWINS[1:], TWINS, (D, [], "+run program /bin/d")),
    compared("of equal lines the last are removed", TWINS, TWINS[:1], (D, [], "-run program /bin/b", "-run program /bin/d")),
    compared("a thousand links, with one removed and one added",
        ['SYMLINK+="' + " ".join(f"l{number}" for number in range(1000)) + '"'],
             ['SYMLINK+="' + " ".join(f"l{number}" for number in range(1, 1001)) + '"'], (D, [], "-link l0", "+link l1000")),
]

NOTES = [
    compared("notes are not compared", ['IMPORT{db}=="X"', 'SYMLINK+="a"'], ['SYMLINK+="a"'], (D, [])),
    compared("notes with other line numbers are not compared", ["# one", 'IMPORT{db}!="X", TAG+="t"'], ['IMPORT{db}!="X", TAG+="t"'], (D, [])),
    compared("a line that depends on a key with a note is compared", ['IMPORT{db}=="X", TAG+="t"'], ['IMPORT{db}!="X", TAG+="t"'], (D, [], "+tag t")),
]

EVENTS = [
    compared("unchanged events are not reported", ['KERNEL=="b", TAG+="t"', 'KERNEL=="c", TAG+="t"'], ['KERNEL=="c", TAG+="u"',
        'KERNEL=="b", TAG+="t"'],
             ("/a", []), ("/b", []), ("/c", [], "-tag t", "+tag u"), ("/d", [])),
    compared("several events", [], ['TAG+="t"'], ("/a", [], "+tag t"), ("/b", [], "+tag t"), ("/b", ["G: t"])),
    compared("no event", ['TAG+="t"'], ['TAG+="u"']),
    compared("each event starts from its own block", ['RUN+="/bin/a"'], ['RUN+="/bin/a"', 'TAG=="x", RUN+="/bin/b"'], ("/a", ["G: x"],
        "+run program /bin/b"), ("/a", [])),
    Row("an event with another action and an escaped path", ["compare", OLD, NEW], {placed(OLD): "", placed(NEW): 'TAG+="t"\n'},
        b"C: change\nP: /a\\b\n",
        "event change /a\\x5Cb\n+tag t\n\n", status=1),
    Row("a faulty block ends the run after the earlier differences", ["compare", OLD, NEW], {placed(OLD): "", placed(NEW): 'TAG+="t"\n'},
        block(D) + b"C: add\n",
        START + "+tag t\n\n", "block 2, line 1: no device\n", 1),
    Row("a faulty block after an event without differences", ["compare", OLD, NEW], {placed(OLD): "", placed(NEW): ""}, block(D) + b"C: add\n", "",
        "block 2, line 1: no device\n", 1),
]

FOLDERS = ["etc/udev/rules.d", "run/udev/rules.d", "usr/local/lib/udev/rules.d", "usr/lib/udev/rules.d"]


def no_rules(root, **places):
    """What is reported for a root without rules, whose folders are absent or as is said of their first names."""
    return "devdry: no files\n" + "".join(f"devdry: {root}/{folder}: {places.get(folder.split('/')[0], 'absent')}\n" for folder in FOLDERS)


ROOTS = [
    Row("two roots that do not exist", ["compare", OLD, NEW], {}, block(D), messages=no_rules(OLD) + no_rules(NEW), status=1),
    Row("a root without files and a root with files", ["compare", OLD, NEW], {OLD: FOLDER, placed(NEW): 'TAG+="t"\n'}, block(D),
        START + "+tag t\n\n", no_rules(OLD), 1),
    Row("a root without files after a root with files", ["compare", OLD, NEW], {placed(OLD): "", "new/etc/udev/rules.d/README": ""}, block(D),
        messages=no_rules(NEW, etc="has no .rules files"), status=1),
    Row("a root with a database alone", ["compare", OLD, NEW], {placed(OLD): "", "new/etc/udev/hwdb.d/a.hwdb": ""}, block(D),
        messages=no_rules(NEW), status=1),
    Row("where files were looked for comes before messages and differences", ["compare", OLD, NEW], {placed(NEW): 'FOO="1"\nTAG+="t"\n'}, block(D),
        no_rules(OLD) + "[NEW] r.rules:1: V2 unknown key: FOO\n" + START + "+tag t\n\n", status=1, together=True),
    Row("--all goes on after a link to nothing", ["compare", "--all", OLD, NEW], {placed(OLD): 'TAG+="t"\n', placed(NEW): 'TAG+="u"\n',
        placed(NEW, "s.rules"): Link("none")}, block(D), START + "-tag t\n+tag u\n\n",
        "devdry: cannot read new/usr/lib/udev/rules.d/s.rules: link to nothing: none\n", 3),
    Row("--all with links to nothing in both", ["compare", "--all", OLD, NEW], {placed(OLD): "", placed(OLD, "s.rules"): Link("a"), placed(NEW): "",
        placed(NEW, "s.rules"): Link("b")}, block(D), "", "devdry: cannot read old/usr/lib/udev/rules.d/s.rules: link to nothing: a\n"
        "devdry: cannot read new/usr/lib/udev/rules.d/s.rules: link to nothing: b\n", 3),
    Row("--all with roots that do not exist", ["compare", "--all", OLD, NEW], {}, block(D), messages=no_rules(OLD) + no_rules(NEW), status=1),
    Row("--all without unreadable files", ["compare", "--all", OLD, NEW], {placed(OLD): "", placed(NEW): ""}, block(D)),
    Row("--all with an index that does not exist", ["compare", "--all", "--index", "i", OLD, NEW], {placed(OLD): "", placed(NEW): 'TAG+="t"\n'}, block(D),
        START + "+tag t\n\n", "devdry: cannot read i: no such file\n", 3),
    Row("--all with an index", ["compare", "--all", "--index", "i", OLD, NEW], {placed(OLD): "", placed(NEW): 'IMPORT{builtin}="hwdb abc"\n', "i": WITHOUT_FILE},
        block(D), START + "+env K=V\n\n", status=1),
    Row("the same root twice", ["compare", NEW, NEW], {placed(NEW): 'TAG+="t"\n'}, block(D)),
    Row("OLD and NEW exchanged", ["compare", NEW, OLD], {placed(NEW): 'TAG+="t"\n', placed(OLD): ""}, block(D), START + "-tag t\n\n", status=1),
    Row("files of all folders, the first of each name", ["compare", OLD, NEW],
        {"old/usr/lib/udev/rules.d/a.rules": 'TAG+="a"\n', "new/usr/lib/udev/rules.d/a.rules": 'TAG+="a"\n',
        "new/etc/udev/rules.d/a.rules": 'TAG+="b"\n',
         "new/run/udev/rules.d/c.rules": 'TAG+="c"\n'}, block(D), START + "-tag a\n+tag b\n+tag c\n\n", status=1),
    compared("each root has its own database", LOOKS_UP, LOOKS_UP, (D, [], "-env A=1", "+env A=2"), files=DATABASES.items()),
    compared("an index replaces both databases", ['IMPORT{builtin}="hwdb abc"'], ['IMPORT{builtin}="hwdb abc"',
        'ENV{K}=="V", TAG+="t"'],
             (D, [], "+tag t"), files=[*DATABASES.items(), ("i", WITHOUT_FILE)], words=["--index", "i"]),
    compared("messages about the rules of OLD, then of NEW", ['FOO="1"', 'TAG+="t",TAG+="u"'], ["# c", 'BAR="1"', 'TAG+="t"'],
        (D, [], "-tag u"),
             messages="[OLD] r.rules:1: V2 unknown key: FOO\n[NEW] r.rules:2: V2 unknown key: BAR\n"),
    Row("a file that can't be read", ["compare", OLD, NEW], {placed(OLD): 'TAG+="t"\n', "new/etc/udev/rules.d": ""}, block(D),
        messages="devdry: cannot read new/etc/udev/rules.d\n", status=3),
    Row("of two unreadable files that of OLD is reported", ["compare", OLD, NEW], {"old/etc/udev/rules.d": "", "new/etc/udev/rules.d": ""}, block(D),
        messages="devdry: cannot read old/etc/udev/rules.d\n", status=3),
    Row("a file that is not an index", ["compare", "--index", "i", OLD, NEW], {"i": "none", placed(OLD): "", placed(NEW): ""}, block(D),
        messages="devdry: index: short\n", status=1),
    Row("an index that does not exist", ["compare", "--index", "i", OLD, NEW], {}, block(D), messages="devdry: cannot read i\n",
        status=3),
]

# Both outputs in one stream: the messages come before any difference, and what ended the run after all of them.
TOGETHER = [
    Row("messages come before the differences in one stream", ["compare", OLD, NEW], {placed(OLD): 'FOO="1"\n', placed(NEW): 'BAR="1"\nTAG+="t"\n'}, block(D),
        "[OLD] r.rules:1: V2 unknown key: FOO\n[NEW] r.rules:1: V2 unknown key: BAR\n" + START + "+tag t\n\n", status=1, together=True),
    Row("a faulty block comes after the differences in one stream", ["compare", OLD, NEW], {placed(OLD): "", placed(NEW): 'FOO="1"\nTAG+="t"\n'}, block(D) + b"C: add\n",
        "[NEW] r.rules:1: V2 unknown key: FOO\n" + START + "+tag t\n\nblock 2, line 1: no device\n", status=1, together=True),
]

# Differences as objects: the lines as in plain, without their signs.
IN_JSON = [
    Row("differences as an object", ["compare", "--format=json", OLD, NEW], {placed(OLD): 'MODE="0620", SYMLINK+="a b"\n', placed(NEW): 'SYMLINK+="b c", MODE="0600"\n'},
        block(D), f'{{"event":"add","path":"{D}","gone":["mode 0620","link a"],"come":["mode 0600","link c"]}}\n', status=1),
    Row("an object for each event that differs", ["compare", OLD, NEW, "--format=json"], {placed(OLD): "# none\n", placed(NEW): 'KERNEL=="d", TAG+="t"\n'},
        block(D) + block("/devices/e") + block(D),
        f'{{"event":"add","path":"{D}","gone":[],"come":["tag t"]}}\n' * 2, status=1),
    Row("no object where nothing differs", ["compare", "--format=json", OLD, NEW], {placed(OLD): 'TAG+="t"\n', placed(NEW): 'TAG="t"\n'}, block(D)),
    Row("lines in an object are escaped as in plain", ["compare", "--format=json", OLD, NEW], {placed(OLD): "# none\n", placed(NEW): 'ENV{A}="a\tb\\c"\n'}, block(D),
        f'{{"event":"add","path":"{D}","gone":[],"come":["env A=a\\\\x09b\\\\x5Cc"]}}\n', status=1),
    Row("messages beside objects", ["compare", "--format=json", OLD, NEW], {placed(OLD): 'FOO="1"\n', placed(NEW): 'TAG+="t"\n'}, block(D),
        f'{{"event":"add","path":"{D}","gone":[],"come":["tag t"]}}\n', "[OLD] r.rules:1: V2 unknown key: FOO\n", 1),
]

# Each line after where it comes from, which is not compared.
MOVED = {placed(OLD): 'MODE="0620", SYMLINK+="a b"\nTAG+="t"\n', placed(NEW): '# c\nTAG+="t"\nSYMLINK+="b c"\nMODE="0600"\n'}
SOURCED = [
    Row("each line after its rule", ["compare", "--sources", OLD, NEW], MOVED, block(D),
        START + "-r.rules:1: mode 0620\n-r.rules:1: link a\n+r.rules:4: mode 0600\n+r.rules:3: link c\n\n", status=1),
    Row("a rule that was moved is no difference", ["compare", "--sources", OLD, NEW], {placed(OLD): 'TAG+="t"\n', placed(NEW): '\nTAG+="t"\n'}, block(D)),
    Row("a rule in another file is no difference", ["compare", "--sources", OLD, NEW], {placed(OLD): 'TAG+="t"\n', placed(NEW, "s.rules"): 'TAG+="t"\n'}, block(D)),
    Row("what comes from the block", ["compare", "--sources", OLD, NEW], {placed(OLD): "# none\n", placed(NEW): 'ENV{A}=""\n'}, block(D, "E: A=1"), START + "--: env A=1\n\n", status=1),
    Row("of equal commands the last", ["compare", "--sources", OLD, NEW], {placed(OLD): 'RUN+="/bin/%k"\nRUN+="/bin/d"\n', placed(NEW): 'RUN+="/bin/d"\n'}, block(D),
        START + "-r.rules:2: run program /bin/d\n\n", status=1),
    Row("notes are not compared, whatever their file is called", ["compare", "--sources", OLD, NEW], {placed(OLD, "note a.rules"): 'IMPORT{db}!="A", TAG+="t"\n',
        placed(NEW, "note a.rules"): '\nIMPORT{db}!="B", TAG+="u"\n'}, block(D), START + "-note a.rules:1: tag t\n+note a.rules:2: tag u\n\n", status=1),
    Row("sources in an object", ["compare", "--sources", "--format=json", OLD, NEW], MOVED, block(D),
        f'{{"event":"add","path":"{D}","gone":["r.rules:1: mode 0620","r.rules:1: link a"],"come":["r.rules:4: mode 0600","r.rules:3: link c"]}}\n', status=1),
    Row("each root has its own file", ["compare", "--sources", "--udev", OLD, NEW], {placed(OLD, "a.rules"): 'TAG+="t"\n', placed(NEW, "b.rules"): 'TAG+="u"\n'}, block(D, "U: m"),
        START + "-a.rules:1: tag t\n+b.rules:1: tag u\n\n", status=1),
]

# Rules files, and folders of them, in place of roots.
RULES = [
    Row("two rules files", ["compare", "--rules", "a.rules", "b.rules"], {"a.rules": 'TAG+="t"\n', "b.rules": 'TAG+="u"\n'}, block(D), START + "-tag t\n+tag u\n\n", status=1),
    Row("two rules files that say the same", ["compare", "--rules", "a.rules", "b.rules"], {"a.rules": 'TAG+="t"\n', "b.rules": '# c\nTAG="t"\n'}, block(D)),
    Row("two folders, their rules files by name", ["compare", "--rules", "--sources", "a", "b"], {"a/2.rules": 'TAG="t"\n', "a/1.rules": 'TAG="u"\n', "a/README": 'TAG="v"\n', "b/1.rules": 'TAG+="w"\n'},
        block(D), START + "-a/2.rules:1: tag t\n+b/1.rules:1: tag w\n\n", status=1),
    Row("a folder and a file", ["compare", "--rules", "a", "b.rules"], {"a/1.rules": 'TAG+="t"\n', "b.rules": 'TAG+="t"\n'}, block(D)),
    Row("a file that does not end as rules do", ["compare", "--rules", "a", "b"], {"a": 'TAG+="t"\n', "b": 'TAG+="u"\n'}, block(D), START + "-tag t\n+tag u\n\n", status=1),
    Row("messages have the paths", ["compare", "--rules", "a.rules", "b.rules"], {"a.rules": 'FOO="1"\n', "b.rules": 'BAR="1"\n'}, block(D),
        messages="[OLD] a.rules:1: V2 unknown key: FOO\n[NEW] b.rules:1: V2 unknown key: BAR\n"),
    Row("with an index", ["compare", "--rules", "--index", "i", "a.rules", "b.rules"], {"a.rules": "# none\n", "b.rules": 'IMPORT{builtin}="hwdb abc"\n', "i": WITHOUT_FILE}, block(D),
        START + "+env K=V\n\n", status=1),
    Row("a file that is not there", ["compare", "--rules", "a.rules", "b.rules"], {"b.rules": 'TAG+="t"\n'}, block(D), START + "+tag t\n\n", "devdry: cannot read a.rules: no such file\ndevdry: no files\n", 3),
    Row("an empty name", ["compare", "--rules", "", "b.rules"], {"b.rules": 'TAG+="t"\n'}, block(D), "",
        "error: an empty value of '<OLD>' or '<NEW>' names no folder; '/' is that of the running system\n\nFor more information, try '--help'.\n", 2),
]

ROWS = [
    *CHANGES,
    *IN_JSON,
    *SOURCED,
    *RULES,
    *NOTES,
    *EVENTS,
    *ROOTS,
    *TOGETHER,
    Row("only one root", ["compare", OLD], {},
        messages=Begins(b"error: the following required arguments were not provided:\n"), status=2),
    Row("an empty old root", ["compare", "", NEW], {}, block(D),
        messages=Begins(b"error: an empty value of '<OLD>' or '<NEW>' names no folder;"), status=2),
    Row("an empty new root", ["compare", OLD, ""], {placed(OLD): 'TAG+="t"\n'}, block(D),
        messages=Begins(b"error: an empty value of '<OLD>' or '<NEW>' names no folder;"), status=2),
    Row("three roots", ["compare", OLD, NEW, "x"], {}, messages=Begins(b"error: unexpected argument 'x' found\n"), status=2),
]
