"""Runs that go on after what can't be read (`--all`), what is reported if no file is read, and `devdry files`.

As in `folders`, what can't be read is a link that leads to nothing or to itself, and what can't be listed is a file in place
of a folder.
"""
from tables.folders import ETC, LIB, RULES
from tables.kinds.row import FOLDER, PIPE, Begins, Link, Row
from tables.lookups import INDEX
from tables.words import EMPTY_INDEX

NO_FILE = "0 files checked, 0 good, 0 bad\n"


def unread(path, reason):
    """The line about what can't be read."""
    return f"devdry: cannot read {path}: {reason}\n"


def nothing(places, following=""):
    """The lines if no file was read: one for each place with what is reported about it, and what follows them."""
    return "devdry: no files\n" + "".join(f"devdry: {path}: {reported}\n" for path, reported in places) + following


def absent(folders):
    """The places of folders that do not exist."""
    return [(folder, "absent") for folder in folders]


# (what is asked, words, files, output, messages, status)
PARTIAL_RUNS = [
    ("without unreadable files a run is as without --all", "verify --all -r mnt", {f"{RULES[3]}/a.rules": "A\n", f"{RULES[0]}/b.rules": "\n"},
     "2 files checked, 1 good, 1 bad\n", "a.rules:1: V1 bad syntax: A\n", 1),
    ("a broken symlink does not hide other faults", "verify --all -r mnt",
     {f"{RULES[0]}/85-d.rules": Link("/etc/nowhere"), f"{RULES[3]}/80-o.rules": "x\n"}, "1 files checked, 0 good, 1 bad\n",
     unread(f"{RULES[0]}/85-d.rules", "link to nothing: /etc/nowhere") + "80-o.rules:1: V1 bad syntax: x\n", 3),
    ("a symlink to itself can't be read", "verify --all -r mnt", {f"{RULES[1]}/a.rules": Link("a.rules"), f"{RULES[3]}/b.rules": ""},
     "1 files checked, 1 good, 0 bad\n", unread(f"{RULES[1]}/a.rules", "input/output error"), 3),
    ("a file in place of a folder", "verify --all -r mnt", {RULES[0]: "", f"{RULES[3]}/b.rules": ""},
     "1 files checked, 1 good, 0 bad\n", unread(RULES[0], "not a folder"), 3),
    ("a folder that is a broken symlink", "verify --all -r mnt", {RULES[1]: Link("/nix/none"), f"{RULES[3]}/b.rules": ""},
     "1 files checked, 1 good, 0 bad\n", unread(RULES[1], "link to nothing: /nix/none"), 3),
    ("a file name that is not UTF-8", "verify --all -r mnt", {f"{RULES[0]}/".encode() + b"\xff.rules": "", f"{RULES[3]}/b.rules": ""},
     "1 files checked, 1 good, 0 bad\n", unread(RULES[0], "a name is not UTF-8"), 3),
    ("a folder with the suffix is passed over", "verify --all -r mnt", {f"{RULES[0]}/a.rules/b.rules": "B\n", f"{RULES[3]}/b.rules": ""},
     "1 files checked, 1 good, 0 bad\n", "", 0),
    ("a named file that does not exist", "verify --all none.rules a.rules", {"a.rules": "A\n"}, "1 files checked, 0 good, 1 bad\n",
     unread("none.rules", "no such file") + "a.rules:1: V1 bad syntax: A\n", 3),
    ("a device file other than /dev/null", "verify --all /dev/zero a.rules", {"a.rules": ""}, "1 files checked, 1 good, 0 bad\n",
     unread("/dev/zero", "not a regular file"), 3),
    ("/dev/null is an empty file", "verify --all /dev/null", {}, "1 files checked, 1 good, 0 bad\n", "", 0),
    ("a path and the target of a symlink are escaped", ["verify", "--all", "a\n", "b"], {"a\n": Link("\x1b"), "b": ""},
     "1 files checked, 1 good, 0 bad\n", unread("a\\x0A", "link to nothing: \\x1B"), 3),
    ("the files of a named folder", "verify --all d z", {"d/b.rules": "B\n", "d/a.rules": "A\n", "d/c.txt": "C\n", "z": "Z\n"},
     "3 files checked, 0 good, 3 bad\n", "d/a.rules:1: V1 bad syntax: A\nd/b.rules:1: V1 bad syntax: B\nz:1: V1 bad syntax: Z\n", 1),
    ("the database files of a named folder", "update --all d", {"d/b.hwdb": "x\n", "d/a.rules": "A\n"}, EMPTY_INDEX,
     "d/b.hwdb:1: H2 match without a property: x\n", 0),
    ("no folders of rules", "verify --all -r mnt", {}, NO_FILE, nothing(absent(RULES)), 1),
    ("no folders of the database", "update --all -r mnt", {}, EMPTY_INDEX, nothing(absent([ETC, LIB])), 1),
    ("an empty folder, and one with other files", "verify --all -r mnt", {RULES[0]: FOLDER, f"{RULES[3]}/README": ""}, NO_FILE,
     nothing([(RULES[0], "empty"), *absent(RULES[1:3]), (RULES[3], "has no .rules files")]), 1),
    ("files only below lib", "verify --all -r mnt", {f"mnt/lib/udev/rules.d/{name}": "" for name in ("a.rules", "b.rules", "c.txt")},
     NO_FILE, nothing(absent(RULES), "devdry: mnt/lib/udev/rules.d has 2 files\n"), 1),
    ("a folder that is a symlink out of the root", "verify --all -r mnt", {RULES[0]: Link("/proc/self/fd")}, NO_FILE,
     unread(RULES[0], "link to nothing: /proc/self/fd") + nothing(absent(RULES[1:])), 3),
    ("a named folder without files", "verify --all d", {"d": FOLDER}, NO_FILE, nothing([("d", "empty")]), 1),
    ("no file except an unreadable one", "verify --all none.rules", {}, NO_FILE,
     unread("none.rules", "no such file") + nothing([]), 3),
]

BLOCK = "C: add\nP: /x\n\n"
ANSWER = "event add /x\nlink a\nenv ACTION=add\nenv DEVPATH=/x\n\n"
PLAIN_ANSWER = "event add /x\nenv ACTION=add\nenv DEVPATH=/x\n\n"
LOST_RULES = {f"{RULES[3]}/a.rules": 'SYMLINK+="a"\n', f"{RULES[3]}/b.rules": Link("nowhere")}
IMPORTS = 'IMPORT{builtin}="hwdb m", SYMLINK+="a"\n'

# (what is asked, words, files, input, output, messages, status)
ANSWERED = [
    ("events without unreadable files", "events --all -r mnt", {f"{RULES[3]}/a.rules": 'SYMLINK+="a"\n'}, BLOCK, ANSWER, "", 0),
    ("events go on after a link to nothing", "events --all -r mnt", LOST_RULES, BLOCK + BLOCK, ANSWER * 2,
     unread(f"{RULES[3]}/b.rules", "link to nothing: nowhere"), 3),
    ("events end at a link to nothing without --all", "events -r mnt", LOST_RULES, BLOCK, "", f"devdry: cannot read {RULES[3]}/b.rules\n", 3),
    ("events go on after a pipe", "events --all -r mnt", {f"{RULES[0]}/a.rules": 'SYMLINK+="a"\n', f"{RULES[1]}/p.rules": PIPE}, BLOCK, ANSWER,
     unread(f"{RULES[1]}/p.rules", "not a regular file"), 3),
    ("events without a rules file", "events --all -r mnt", {f"{LIB}/a.hwdb": "m\n A=1\n"}, BLOCK, PLAIN_ANSWER, nothing(absent(RULES)), 1),
    ("events without a rules file and without --all", "events -r mnt", {}, BLOCK, PLAIN_ANSWER, "", 0),
    ("events without a database", "events --all -r mnt", {f"{RULES[0]}/a.rules": 'SYMLINK+="a"\n'}, BLOCK, ANSWER, "", 0),
    ("events of a named file below a root that does not exist", "events --all -r mnt a.rules", {"a.rules": 'SYMLINK+="a"\n'}, BLOCK, ANSWER,
     "devdry: mnt: absent\n", 1),
    ("events of a named file below a root", "events --all -r mnt a.rules", {"a.rules": 'SYMLINK+="a"\n', "mnt": FOLDER}, BLOCK, ANSWER, "", 0),
    ("events of a named file below a root that is a file", "events --all -r mnt a.rules", {"a.rules": 'SYMLINK+="a"\n', "mnt": ""}, BLOCK, ANSWER,
     unread(ETC, "not a folder") + unread(LIB, "not a folder") + "devdry: mnt: not a folder\n", 3),
    ("events of a named file that does not exist", "events --all -r mnt none.rules", {"mnt": FOLDER}, BLOCK, PLAIN_ANSWER,
     unread("none.rules", "no such file") + nothing([]), 3),
    ("events of the files of a folder", "events --all -r mnt d", {"d/a.rules": 'SYMLINK+="a"\n', "d/b.txt": "x", "mnt": FOLDER}, BLOCK, ANSWER, "", 0),
    ("events with an index", "events --all -r mnt --index i", {f"{RULES[0]}/a.rules": IMPORTS, "i": INDEX}, BLOCK,
     "event add /x\nlink a\nenv A=1\nenv ACTION=add\nenv B=2\nenv DEVPATH=/x\n\n", "", 0),
    ("events with an index that does not exist", "events --all -r mnt --index i", {f"{RULES[0]}/a.rules": 'SYMLINK+="a"\n'}, BLOCK, ANSWER,
     unread("i", "no such file"), 3),
    ("events with a folder as index", "events --all -r mnt --index mnt", {f"{RULES[0]}/a.rules": 'SYMLINK+="a"\n'}, BLOCK, ANSWER,
     unread("mnt", "not a regular file"), 3),
    ("a faulty block after unread files", "events --all -r mnt", LOST_RULES, BLOCK + "C: add\n", ANSWER,
     unread(f"{RULES[3]}/b.rules", "link to nothing: nowhere") + "block 2, line 1: no device\n", 3),
    ("query goes on after a link to nothing", "query --all -r mnt m", {f"{LIB}/a.hwdb": "m\n A=1\n", f"{ETC}/b.hwdb": Link("none")}, "", "A=1\n",
     unread(f"{ETC}/b.hwdb", "link to nothing: none"), 3),
    ("query without files", "query --all -r mnt m", {f"{RULES[0]}/a.rules": ""}, "", "", nothing(absent([ETC, LIB])), 1),
    ("query without files and without --all", "query -r mnt m", {}, "", "", "", 0),
    ("query of lines goes on after a link to nothing", "query --all -r mnt -", {f"{LIB}/a.hwdb": "m\n A=1\n", f"{ETC}/b.hwdb": Link("none")}, "m\nx\n",
     "A=1\n\n\n", unread(f"{ETC}/b.hwdb", "link to nothing: none"), 3),
    ("query with an index", "query --all --index i m", {"i": INDEX}, "", "A=1\nB=2\n", "", 0),
    ("query with an index that does not exist", "query --all --index i m", {}, "", "", unread("i", "no such file") + nothing([]), 3),
    ("query of a named file and one that does not exist", "query --all m a.hwdb none.hwdb", {"a.hwdb": "m\n A=1\n"}, "", "A=1\n",
     unread("none.hwdb", "no such file"), 3),
    ("an empty root is refused", ["events", "--all", "-r", ""], {}, BLOCK, "", Begins(b"error: an empty value of '--root <DIR>' names no folder\n"), 2),
]

# (what is asked, files, output, messages, status) of `files -r mnt`
LISTED = [
    ("one file in each folder", {f"{folder}/{name}": "x" for folder, name in zip([*RULES, ETC, LIB], ["d.rules", "c.rules", "b.rules", "a.rules", "b.hwdb", "a.hwdb"])},
     "".join(f"{path}: used\n" for path in (f"{RULES[3]}/a.rules", f"{RULES[2]}/b.rules", f"{RULES[1]}/c.rules", f"{RULES[0]}/d.rules",
                                            f"{LIB}/a.hwdb", f"{ETC}/b.hwdb")), "", 0),
    ("a file of a lower rank hides a file of the same name", {f"{folder}/a.rules": "x" for folder in RULES},
     f"{RULES[0]}/a.rules: used\n" + "".join(f"{folder}/a.rules: hidden by {RULES[0]}/a.rules\n" for folder in RULES[1:]), "", 0),
    ("an empty file and a symlink to /dev/null are masks", {f"{RULES[0]}/a.rules": Link("/dev/null"), f"{RULES[3]}/a.rules": "x",
                                                          f"{ETC}/b.hwdb": "", f"{LIB}/b.hwdb": "x"},
     f"{RULES[0]}/a.rules: masked\n{RULES[3]}/a.rules: hidden by {RULES[0]}/a.rules\n"
     f"{ETC}/b.hwdb: masked\n{LIB}/b.hwdb: hidden by {ETC}/b.hwdb\n", "", 0),
    ("an empty file that is hidden masks nothing", {f"{RULES[0]}/a.rules": "x", f"{RULES[3]}/a.rules": ""},
     f"{RULES[0]}/a.rules: used\n{RULES[3]}/a.rules: hidden by {RULES[0]}/a.rules\n", "", 0),
    ("an unreadable file hides no other", {f"{RULES[0]}/a.rules": Link("none"), f"{RULES[3]}/a.rules": "x"},
     f"{RULES[0]}/a.rules: passed over: link to nothing: none\n{RULES[3]}/a.rules: used\n",
     unread(f"{RULES[0]}/a.rules", "link to nothing: none"), 3),
    ("files that are passed over", {f"{RULES[0]}/README": "x", f"{RULES[0]}/a.rules/x": "", f"{ETC}/a.rules": "x", f"{ETC}/b.hwdb": "x"},
     f"{RULES[0]}/README: passed over: name does not end in .rules\n{RULES[0]}/a.rules: passed over: a folder\n"
     f"{ETC}/a.rules: passed over: name does not end in .hwdb\n{ETC}/b.hwdb: used\n", "", 0),
    ("a path is escaped", {f"{RULES[0]}/\n.rules": "x"}, f"{RULES[0]}/\\x0A.rules: used\n", "", 0),
    ("no file found", {"mnt/lib/udev/hwdb.d/a.hwdb": ""}, "", nothing(absent([*RULES, ETC, LIB]), "devdry: mnt/lib/udev/hwdb.d has 1 file\n"), 1),
]

ROWS = [
    *(Row(name, words, files, given, output=output, messages=messages, status=status) for name, words, files, given, output, messages, status in ANSWERED),
    Row("what can't be read comes before the answers in one stream", "events --all -r mnt", LOST_RULES, BLOCK, together=True, status=3,
        output=unread(f"{RULES[3]}/b.rules", "link to nothing: nowhere") + ANSWER),
    *(Row(name, words, files, output=output, messages=messages, status=status) for name, words, files, output, messages, status in PARTIAL_RUNS),
    *(Row(f"files: {name}", "files -r mnt", files, output=output, messages=messages, status=status)
      for name, files, output, messages, status in LISTED),
]
