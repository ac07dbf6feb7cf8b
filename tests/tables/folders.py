"""Which files and folders of the disk are read, in which order, and what is reported if one can't be read.

A row may be run by root, whom no permission stops. So what can't be read is a link that leads to itself, and what can't
be listed is a file in place of a folder; bench/odd_files.sh tries a folder without permission for another user.
"""
from tables.kinds.row import FOLDER, PIPE, Link, Row
from tables.words import EMPTY_INDEX, FIRST_VERSION

ETC, LIB = "mnt/etc/udev/hwdb.d", "mnt/usr/lib/udev/hwdb.d"
RULES = ["mnt/etc/udev/rules.d", "mnt/run/udev/rules.d", "mnt/usr/local/lib/udev/rules.d", "mnt/usr/lib/udev/rules.d"]
BLOCK = "C: add\nP: /x\n"
ANSWER = "event add /x\nenv ACTION=add\nenv DEVPATH=/x\n\n"


def record(value, match="m"):
    """A record of one property."""
    return f"{match}\n {value}\n"


def cannot_read(path):
    """The line about a file, a folder or an index that can't be read, with the path escaped."""
    return f"devdry: cannot read {path}\n"


# (what is asked, files, output) of `query -r mnt --sources m`
QUERIED = [
    ("names that end in the suffix are read, also hidden files and the suffix alone",
     {f"{ETC}/b.hwdb": record("B=1"), f"{ETC}/a.hwdb": record("A=1"), f"{ETC}/c.txt": record("C=1"),
      f"{ETC}/ahwdb": record("D=1"), f"{ETC}/.e.hwdb": record("E=1"), f"{ETC}/.hwdb": record("F=1"),
      f"{ETC}/a.hwdb.rpmnew": record("G=1"), f"{ETC}/a.rules": record("H=1")},
     "a.hwdb:2: A=1\nb.hwdb:2: B=1\n.e.hwdb:2: E=1\n.hwdb:2: F=1\n"),
    ("folders and symlinks to folders are passed over",
     {f"{ETC}/0.hwdb/a.hwdb": record("A=1"), f"{ETC}/1.hwdb": Link("0.hwdb"), f"{ETC}/2.hwdb": record("B=1")},
     "2.hwdb:2: B=1\n"),
    ("a symlink to a file is a file with the symlink's name",
     {f"{ETC}/a.hwdb": record("A=1"), f"{ETC}/c.hwdb": Link("a.hwdb"), f"{ETC}/d.hwdb": Link("../c.txt"),
      "mnt/etc/udev/c.txt": record("D=1")},
     "c.hwdb:2: A=1\nd.hwdb:2: D=1\n"),
    ("a file of a lower rank hides a file of the same name",
     {f"{LIB}/60-a.hwdb": record("A=1", "m*"), f"{LIB}/70-b.hwdb": record("A=2", "m*"),
      f"{ETC}/70-b.hwdb": record("A=2", "z"), f"{LIB}/80-c.txt": record("A=3", "m*")},
     "60-a.hwdb:2: A=1\n"),
    ("the files of both folders are sorted by name",
     {f"{ETC}/60-a.hwdb": record("A=1\n B=1"), f"{LIB}/70-b.hwdb": record("A=2\n C=2"), f"{ETC}/9.hwdb": record("D=3"),
      f"{LIB}/90-d.hwdb": record("D=4")},
     "70-b.hwdb:2: A=2\n60-a.hwdb:3: B=1\n70-b.hwdb:3: C=2\n90-d.hwdb:2: D=4\n"),
    ("a symlink to /dev/null is an empty file, and hides a file of the same name",
     {f"{LIB}/a.hwdb": record("A=1"), f"{ETC}/a.hwdb": Link("/dev/null"), f"{LIB}/b.hwdb": record("B=1")},
     "b.hwdb:2: B=1\n"),
    ("an empty folder, and an absent folder", {ETC: FOLDER}, ""),
    ("an absent root", {}, ""),
    ("a broken symlink is an absent folder", {f"{ETC}/a.hwdb": record("A=1"), LIB: Link("nothing")}, "a.hwdb:2: A=1\n"),
    ("a symlink to a folder is read as that folder", {"mnt/other/a.hwdb": record("A=1"), LIB: Link("../../../other")}, "a.hwdb:2: A=1\n"),
    ("a symlink to an absolute path begins at the root", {"mnt/other/a.hwdb": record("A=1"), "other/a.hwdb": record("B=1"), LIB: Link("/other")}, "a.hwdb:2: A=1\n"),
    ("a symlink upward stops at the root", {"mnt/other/a.hwdb": record("A=1"), "other/a.hwdb": record("B=1"), LIB: Link("../../../../../../other/.")}, "a.hwdb:2: A=1\n"),
    ("a symlink to a folder outside is an absent folder", {"other/a.hwdb": record("A=1"), LIB: Link("../../../../other")}, ""),
    ("a file by an absolute symlink, over two more", {"mnt/a": record("A=1"), "a": record("B=1"), f"{LIB}/a.hwdb": Link("/b"), "mnt/b": Link("x/../a"), "mnt/x": Link("usr")}, "a.hwdb:2: A=1\n"),
    ("an absolute symlink to a folder is passed over", {f"{ETC}/a.hwdb": Link("/usr"), f"{LIB}/b.hwdb": record("A=1")}, "b.hwdb:2: A=1\n"),
    ("forty symlinks are followed", {**{f"mnt/l{number}": Link(f"l{number + 1}") for number in range(1, 40)}, "mnt/l40": record("A=1"), f"{LIB}/a.hwdb": Link("/l1")}, "a.hwdb:2: A=1\n"),
    ("query does not open the folders of rules", {RULES[0]: "", RULES[3]: "", f"{ETC}/a.hwdb": record("A=1")},
     "a.hwdb:2: A=1\n"),
    ("a file name is escaped, and shown in full",
     {f"{LIB}/60-a.hwdb": record("A=1"), f"{LIB}/70-b.hwdb": record("A=2"), f"{LIB}/75-\\.hwdb": "m*\n\\=\t\n B=\\\t\n"},
     "70-b.hwdb:2: A=2\n75-\\x5C.hwdb:3: B=\\\n"),
]

# (what is asked, words, files, the path that can't be read)
UNREAD = [
    ("a named file that does not exist", "verify a.rules none.rules", {"a.rules": ""}, "none.rules"),
    ("a named file in a folder that does not exist", "query m no/t.hwdb", {}, "no/t.hwdb"),
    ("a folder as a named file", "verify .", {}, "."),
    ("a folder as a named file, with a trailing slash", f"query m {ETC}/", {ETC: FOLDER}, f"{ETC}/"),
    ("./- is the name of a file", "verify ./-", {}, "./-"),
    ("a file in place of a folder of the database", "query m -r mnt", {ETC: ""}, ETC),
    ("a file in place of the other folder of the database", "update -r mnt", {LIB: Link("/file"), "mnt/file": ""}, LIB),
    ("a database file that is a symlink out of the root", "query m -r mnt", {f"{ETC}/d.hwdb": Link("../../../../d"), "d": ""}, f"{ETC}/d.hwdb"),
    ("a database file behind forty-one symlinks", "query m -r mnt", {**{f"mnt/l{number}": Link(f"l{number + 1}") for number in range(1, 41)}, "mnt/l41": "", f"{ETC}/d.hwdb": Link("/l1")}, f"{ETC}/d.hwdb"),
    ("a pipe among the rules is not waited for", "verify -r mnt", {f"{RULES[1]}/a.rules": PIPE}, f"{RULES[1]}/a.rules"),
    ("a symlink to a pipe", "events -r mnt", {f"{RULES[1]}/a.rules": Link("/pipe"), "mnt/pipe": PIPE}, f"{RULES[1]}/a.rules"),
    ("a pipe among the database files", "query m -r mnt", {f"{LIB}/a.hwdb": PIPE}, f"{LIB}/a.hwdb"),
    ("a pipe named .rules", "verify a.rules", {"a.rules": PIPE}, "a.rules"),
    ("a pipe named .hwdb", "update d/.hwdb", {"d/.hwdb": PIPE}, "d/.hwdb"),
    ("a pipe in one of two roots", "compare none mnt", {f"{RULES[1]}/a.rules": PIPE}, f"{RULES[1]}/a.rules"),
    ("a name below a file", "query m -r mnt", {f"{ETC}/d.hwdb": Link("/file/"), "mnt/file": ""}, f"{ETC}/d.hwdb"),
    ("a folder that is a symlink to itself", "query m -r mnt", {LIB: Link("hwdb.d")}, LIB),
    ("a file in place of a folder of rules", "verify -r mnt", {RULES[0]: ""}, RULES[0]),
    ("a database file that is a broken symlink", "query m -r mnt", {f"{ETC}/a.hwdb": "", f"{ETC}/d.hwdb": Link("nothing")}, f"{ETC}/d.hwdb"),
    ("a database file that is a symlink to itself", "query m -r mnt", {f"{ETC}/a.hwdb": "", f"{ETC}/d.hwdb": Link("d.hwdb")}, f"{ETC}/d.hwdb"),
    ("a file name that is not UTF-8", "query m -r mnt", {f"{ETC}/".encode() + b"\xff.hwdb": ""}, ETC),
    ("an index that does not exist", "query m --index b.index", {}, "b.index"),
    ("an index that does not exist, for events", "events --index b.index a.rules", {"a.rules": ""}, "b.index"),
    ("a folder as an index", f"query m --index {ETC}", {ETC: FOLDER}, ETC),
    ("an index that is a symlink to itself", "events --index i -r none", {"i": Link("i")}, "i"),
    ("a named file whose name contains terminal control codes", ["verify", "\x1b[2J\x7fé.rules"], {}, "\\x1B[2J\\x7Fé.rules"),
    ("a path with backslashes at its start and end", ["query", "m", "\\\\a\\"], {}, "\\x5C\\x5Ca\\x5C"),
    ("an empty path", ["verify", ""], {}, ""),
    ("a file name in an image with a newline and the text of a message", "verify -r mnt",
     {f"{RULES[3]}/60-good.rules": "", f"{RULES[0]}/x\n60-good.rules:1: V1 bad syntax.rules": Link("nothing")},
     f"{RULES[0]}/x\\x0A60-good.rules:1: V1 bad syntax.rules"),
    ("a folder below a root whose name has a newline", ["query", "m", "-r", "a\nb"], {"a\nb/etc/udev/hwdb.d": ""},
     "a\\x0Ab/etc/udev/hwdb.d"),
    ("a file name that is not UTF-8 below a folder with a tab in its name", ["query", "m", "-r", "\t"], {b"\t/etc/udev/hwdb.d/\xff.hwdb": ""},
     "\\x09/etc/udev/hwdb.d"),
    ("an index is not looked for below the root", "query m --index a.index -r mnt", {"mnt/a.index": FIRST_VERSION}, "a.index"),
    ("a named file is not looked for below the root", "verify a.rules -r mnt", {"mnt/a.rules": ""}, "a.rules"),
]

# (words, files several of which can't be read, the path that is read first: nothing is reported about the others)
ENDLESS = Link("b.rules")
BROKEN = [
    ("verify x b.rules", {"b.rules": ENDLESS}, "x"),
    ("verify b.rules x", {"b.rules": ENDLESS}, "b.rules"),
    ("events -r mnt --index i", {f"{RULES[0]}/a.rules": Link("a.rules"), f"{RULES[0]}/b.rules": ENDLESS}, f"{RULES[0]}/a.rules"),
    ("events -r mnt", {f"{RULES[0]}/b.rules": ENDLESS, f"{RULES[1]}/a.rules": Link("a.rules")}, f"{RULES[0]}/b.rules"),
    ("events -r mnt", {RULES[1]: "", f"{RULES[2]}/a.rules": Link("a.rules")}, RULES[1]),
    ("events -r mnt", {RULES[2]: "", f"{RULES[3]}/a.rules": Link("a.rules")}, RULES[2]),
    ("events -r mnt", {f"{RULES[3]}/b.rules": ENDLESS, ETC: ""}, f"{RULES[3]}/b.rules"),
    ("events -r mnt", {ETC: "", LIB: ""}, ETC),
    ("events -r mnt", {f"{RULES[3]}/b.rules": "", LIB: ""}, LIB),
    ("events -r mnt none.rules", {LIB: ""}, "none.rules"),
    ("events -r mnt --index i", {RULES[3]: "", ETC: ""}, RULES[3]),
    ("events -r mnt --index i", {f"{RULES[3]}/b.rules": "FOO\n", ETC: ""}, "i"),
    ("events --index i b.rules", {"b.rules": ENDLESS}, "b.rules"),
]

ONE_OF_EACH = {f"{folder}/{name}.rules": f"{name}\n" for folder, name in zip(RULES, "dcba")}
ASKING = {"a.rules": 'IMPORT{builtin}="hwdb m"\n'}
ASKED = "event add /x\nenv A=1\nenv ACTION=add\nenv DEVPATH=/x\n\n"

ROWS = [
    *(Row(name, "query -r mnt --sources m", files, output=output) for name, files, output in QUERIED),
    *(Row(name, words, files, messages=cannot_read(path), status=3) for name, words, files, path in UNREAD),
    *(Row(f"{words} reads {path} first, of {' and '.join(files)}", words, files, messages=cannot_read(path), status=3)
      for words, files, path in BROKEN),
    Row("the four folders of rules", "verify -r mnt", {**ONE_OF_EACH, f"{RULES[0]}/e.hwdb": "e\n"},
        output="4 files checked, 0 good, 4 bad\n",
        messages="".join(f"{name}.rules:1: V1 bad syntax: {name}\n" for name in "abcd"), status=1),
    Row("rules of a lower rank hide rules files of the same name", "verify -r mnt",
        {f"{folder}/b.rules": f"{place}\n" for place, folder in enumerate(RULES[1:])} | {f"{RULES[3]}/a.rules": "\n",
         f"{RULES[3]}/c.txt": "C\n", f"{ETC}/d.rules": "D\n"},
        output="2 files checked, 1 good, 1 bad\n", messages="b.rules:1: V1 bad syntax: 0\n", status=1),
    Row("no folders of rules", "verify -r none", output="0 files checked, 0 good, 0 bad\n"),
    Row("verify does not open the folders of the database", "verify -r mnt", {ETC: "", LIB: ""},
        output="0 files checked, 0 good, 0 bad\n"),
    Row("named files are read in the order given, with any suffix", "query --sources m 70-b.hwdb 60-a.hwdb 80-c.txt",
        {"70-b.hwdb": record("A=2", "m*"), "60-a.hwdb": record("A=1\n B=3", "m*"), "80-c.txt": record("A=4", "m*")},
        output="80-c.txt:2: A=4\n60-a.hwdb:3: B=3\n"),
    Row("a file named twice is read twice", f"verify {RULES[0]}/b a {RULES[0]}/b",
        {f"{RULES[0]}/b": "B\n", "a": "A\n"}, output="3 files checked, 0 good, 3 bad\n",
        messages=f"{RULES[0]}/b:1: V1 bad syntax: B\na:1: V1 bad syntax: A\n{RULES[0]}/b:1: V1 bad syntax: B\n", status=1),
    Row("named files replace the folders", "query -r mnt m t.hwdb", {ETC: "", LIB: "", "t.hwdb": record("A=1")},
        output="A=1\n"),
    Row("named files replace the folders, for update", "update -r mnt t.hwdb",
        {ETC: "", LIB: "", RULES[0]: "", "t.hwdb": ""}, output=EMPTY_INDEX),
    Row("update does not open the folders of rules", "update -r mnt", {RULES[0]: "", RULES[3]: ""}, output=EMPTY_INDEX),
    Row("named rules replace the folders of rules", "verify -r mnt a.rules", {RULES[0]: "", RULES[3]: "", "a.rules": ""},
        output="1 files checked, 1 good, 0 bad\n"),
    Row("named rules do not replace the folders of the database", "events -r mnt a.rules",
        {RULES[0]: "", f"{LIB}/a.hwdb": record("A=1"), **ASKING}, BLOCK, ASKED),
    Row("an index replaces the folders of the database", "query -r mnt --index a.index abc",
        {ETC: "", LIB: "", "a.index": FIRST_VERSION}, output="K=V\n"),
    Row("an index does not replace the folders of rules", "events -r mnt --index a.index",
        {ETC: "", f"{RULES[2]}/a.rules": 'IMPORT{builtin}="hwdb abc"\n', "a.index": FIRST_VERSION}, BLOCK,
        "event add /x\nenv ACTION=add\nenv DEVPATH=/x\nenv K=V\n\n"),
    Row("an index with named rules", "events -r mnt --index a.index a.rules",
        {ETC: "", RULES[0]: "", "a.rules": 'FOO=="x"\n', "a.index": FIRST_VERSION}, BLOCK, ANSWER,
        "a.rules:1: V2 unknown key: FOO\n"),
    Row("a file of unknown length is read to its end", "verify --no-summary /proc/sys/kernel/ostype",
        messages="/proc/sys/kernel/ostype:1: V1 bad syntax: Linux\n", status=1),
    Row("a file of 200 kB", "query m t.hwdb", {"t.hwdb": "# a line that is skipped\n" * 8000 + record("A=1")}, output="A=1\n"),
]
