"""What is told about whole files: their kind, a root that is not read, a folder, and what no editor shows.

What is wanted follows the reference, docs/behaviour.md; nothing here was taken from the program.
"""
from tables.folders import RULES
from tables.kinds.index_bytes import EMPTY
from tables.kinds.people import FILES
from tables.kinds.row import Link, Row

GOOD = "1 files checked, 1 good, 0 bad\n"
BAD = "1 files checked, 0 good, 1 bad\n"
BARE = "C: add\nP: /d\n"
COMMENT = "# nothing\n"

MARK = "a byte order mark, which no editor shows: save the file as UTF-8 without one"
RETURN = "the line ends in a carriage return, as on Windows: save the file with LF alone"
NO_BREAK = "a no-break space, which looks like a space: write a space"


def is_database(path):
    return f"devdry: {path}: a file of the hardware database by its name, which devdry update checks\n"


def is_rules(path):
    return f"devdry: {path}: a rules file by its name, which devdry verify checks\n"


def beside(root):
    return f"devdry: {root}: its rules are not read beside a FILE that is named: --with FILE reads FILE among them\n"


def is_folder(path):
    return f"devdry: {path}: a folder, of which --all reads the files\n"


def at(place, told):
    return f"devdry: {place}: {told}\n"


KINDS = [
    Row("a database file given to verify, with --strict", "verify --strict a.hwdb", {"a.hwdb": COMMENT}, output=GOOD, messages=is_database("a.hwdb")),
    Row("a database file given to verify, for people", "verify --format=human a.hwdb", {"a.hwdb": COMMENT}, output=GOOD, messages=is_database("a.hwdb")),
    Row("a database file given to verify, for people in colors", "verify --format=human --color=always a.hwdb", {"a.hwdb": COMMENT}, output=GOOD,
        messages=is_database("a.hwdb")),
    Row("a database file given to verify, with messages about its lines", "verify --strict a.hwdb", {"a.hwdb": "usb:v1*\n A=1\n"}, output=BAD, status=1,
        messages=is_database("a.hwdb") + "a.hwdb:1: V1 bad syntax: usb:v1*\na.hwdb:2: V1 bad syntax: A=1\n"),
    *(Row(f"a database file given to verify, {options}", f"verify {options} a.hwdb", {"a.hwdb": COMMENT}, output=GOOD)
      for options in ("--no-style", "--lint", "--udev", "--all", "--format=gcc", "--lint --udev --all")),
    Row("database files among others given to verify", ["verify", "-s", "d/b.hwdb", "a.rules", "a\nb.hwdb", ".hwdb", "hwdb", "c.hwdb.rules", "a.hwd"],
        {path: COMMENT for path in ("d/b.hwdb", "a.rules", "a\nb.hwdb", ".hwdb", "hwdb", "c.hwdb.rules", "a.hwd")},
        output="7 files checked, 7 good, 0 bad\n", messages=is_database("d/b.hwdb") + is_database("a\\x0Ab.hwdb") + is_database(".hwdb")),
    Row("a rules file given to update, with --lint", "update --lint a.rules", {"a.rules": COMMENT}, output=EMPTY, messages=is_rules("a.rules")),
    Row("a rules file given to update, for people", "update --format=human a.rules b.hwdb", {"a.rules": COMMENT, "b.hwdb": COMMENT}, output=EMPTY,
        messages=is_rules("a.rules")),
    Row("a rules file given to update changes no status", "update --strict --lint a.rules", {"a.rules": COMMENT}, output=EMPTY, messages=is_rules("a.rules")),
    *(Row(f"a rules file given to update, {options}", f"update {options} a.rules", {"a.rules": COMMENT}, output=EMPTY)
      for options in ("--strict", "--all", "--format=gcc")),
    Row("a rules file given to query", "query --all m a.rules", {"a.rules": COMMENT}),
    Row("a database file given to events", "events -r none --why a.hwdb a.hwdb", {"a.hwdb": 'ENV{A}="1"\n'}, BARE,
        "event add /d\nenv A=1\nenv ACTION=add\nenv DEVPATH=/d\nwhy a.hwdb:1: reached its end: env A=1 set\n\n"),
    Row("notes are not part of a report for programs", "verify --strict --format=json a.hwdb", {"a.hwdb": COMMENT}, messages=is_database("a.hwdb")),
    Row("notes come after what can't be read", "verify --strict none a.hwdb", {"a.hwdb": COMMENT}, output=GOOD, status=3,
        messages="devdry: cannot read none: no such file\n" + is_database("a.hwdb")),
]

NAMED = f"{RULES[0]}/b.rules"
ROOTS = [
    Row("a root beside a file, with --strict", "verify --strict -r mnt a.rules", {NAMED: COMMENT, "a.rules": COMMENT}, output=GOOD, messages=beside("mnt")),
    Row("a root behind a link", "verify --strict -r there a.rules", {"there": Link("mnt"), NAMED: COMMENT, "a.rules": COMMENT}, output=GOOD,
        messages=beside("there")),
    Row("a root that is not there", "verify --strict -r none a.rules", {"a.rules": COMMENT}, output=GOOD),
    Row("a root beside a file, with all that --strict is", "verify --lint --udev --all -r mnt a.rules", {NAMED: COMMENT, "a.rules": COMMENT}, output=GOOD),
    Row("a root beside a file, for people", "verify --format=human -r mnt a.rules", {NAMED: COMMENT, "a.rules": COMMENT}, output=GOOD),
    Row("a root alone, with --strict", "verify --strict -r mnt", {NAMED: COMMENT}, output=GOOD),
    Row("a root beside a file that is added, with --strict", "verify --strict -r mnt --with a.rules", {NAMED: COMMENT, "a.rules": COMMENT},
        output="2 files checked, 2 good, 0 bad\n"),
    Row("a root beside a database file, with --strict", "update --strict -r mnt a.hwdb", {"mnt/etc/udev/hwdb.d/b.hwdb": COMMENT, "a.hwdb": COMMENT}, output=EMPTY),
    Row("a root beside a file, with --why", "events -r mnt --why a.rules a.rules", {NAMED: COMMENT, "a.rules": 'KERNEL=="x"\n'}, BARE,
        "event add /d\nenv ACTION=add\nenv DEVPATH=/d\nwhy a.rules:1: KERNEL==\"x\": fails, d\nwhy a.rules:1: stops there\n\n", beside("mnt")),
    Row("a root beside a file, without --why", "events -r mnt --sources a.rules", {NAMED: COMMENT, "a.rules": COMMENT}, BARE,
        "event add /d\n-: env ACTION=add\n-: env DEVPATH=/d\n\n"),
    Row("a root with --why, and no file", "events -r mnt --why b.rules", {NAMED: 'KERNEL=="x"\n'}, BARE,
        "event add /d\nenv ACTION=add\nenv DEVPATH=/d\nwhy b.rules:1: KERNEL==\"x\": fails, d\nwhy b.rules:1: stops there\n\n"),
    Row("a root that is told escaped, after the kind of a file", ["verify", "-s", "-r", "a\tb", "x.hwdb"], {"a\tb/c": "", "x.hwdb": COMMENT}, output=GOOD,
        messages=is_database("x.hwdb") + beside("a\\x09b")),
]

IRREGULAR = FILES["not a regular file"]
FOLDERS = [
    Row("a folder given to verify, for people", "verify --format=human d", {"d/a.rules": COMMENT}, messages=is_folder("d") + "devdry: cannot read d\n" + IRREGULAR, status=3),
    Row("a folder given to update, for people", "update --format=human d/", {"d/a.hwdb": COMMENT}, messages=is_folder("d/") + "devdry: cannot read d/\n" + IRREGULAR,
        status=3),
    Row("a folder after a file, for people", ["verify", "--format=human", "a.rules", "d\n"], {"a.rules": COMMENT, "d\n/a.rules": COMMENT},
        messages=is_folder("d\\x0A") + "devdry: cannot read d\\x0A\n" + IRREGULAR, status=3),
    Row("no file, for people", "verify --format=human d", {}, messages="devdry: cannot read d\n" + FILES["no such file"], status=3),
    Row("a folder given to verify", "verify --lint d", {"d/a.rules": COMMENT}, messages="devdry: cannot read d\n", status=3),
    Row("a folder that is added, for people", "verify --format=human --with d.rules", {"d.rules/a.rules": COMMENT}, messages="devdry: cannot read d.rules\n" + IRREGULAR,
        status=3),
    Row("a folder given to verify, for people and with --all", "verify --format=human --all d", {"d/a.rules": COMMENT}, output=GOOD),
]

ETC = "mnt/etc/udev/rules.d"
LIB = "mnt/usr/lib/udev/rules.d"
TAGGED = 'TAG+="t"\n'


def not_read(path):
    return f"devdry: {path}: not read, though --why asks for a file of its name\n"


def no_file(text, near=""):
    return f"devdry: --why {text}: no such rules file{near}\n"


LYING = [
    Row("--why asks for a file of a root that is not read beside a FILE", "events -r mnt --why b.rules c.rules", {f"{LIB}/b.rules": TAGGED, "c.rules": TAGGED}, BARE,
        messages=beside("mnt") + not_read(f"{LIB}/b.rules") + no_file("b.rules", ", the nearest is c.rules"), status=2),
    Row("the same, with a line and a path", "events -r mnt --why x/b.rules:3 long-name.rules", {f"{LIB}/b.rules": TAGGED, "long-name.rules": TAGGED}, BARE,
        messages=beside("mnt") + not_read(f"{LIB}/b.rules") + no_file("x/b.rules:3"), status=2),
    Row("one in each folder", "events -r mnt --why b.rules long-name.rules", {f"{LIB}/b.rules": TAGGED, f"{ETC}/b.rules": TAGGED, f"{LIB}/a.rules": TAGGED,
        "long-name.rules": TAGGED}, BARE,
        messages=beside("mnt") + not_read(f"{ETC}/b.rules") + not_read(f"{LIB}/b.rules") + no_file("b.rules"), status=2),
    Row("a file that is masked", "events -r mnt --why b.rules", {f"{LIB}/b.rules": TAGGED, f"{ETC}/b.rules": Link("/dev/null")}, BARE,
        messages=not_read(f"{LIB}/b.rules") + no_file("b.rules"), status=2),
    Row("a file that is masked by an empty one", "events -r mnt --why b.rules:1", {f"{LIB}/b.rules": TAGGED, f"{ETC}/b.rules": ""}, BARE,
        messages=not_read(f"{LIB}/b.rules") + no_file("b.rules:1"), status=2),
    Row("a file that hides another one is asked for", "events -r mnt --why b.rules", {f"{LIB}/b.rules": "FOO\n", f"{ETC}/b.rules": 'KERNEL=="x"\n'}, BARE,
        "event add /d\nenv ACTION=add\nenv DEVPATH=/d\nwhy b.rules:1: KERNEL==\"x\": fails, d\nwhy b.rules:1: stops there\n\n"),
    Row("a FILE of the name is asked for", "events -r mnt --why b.rules b.rules", {f"{LIB}/b.rules": "FOO\n", "b.rules": 'KERNEL=="x"\n'}, BARE,
        "event add /d\nenv ACTION=add\nenv DEVPATH=/d\nwhy b.rules:1: KERNEL==\"x\": fails, d\nwhy b.rules:1: stops there\n\n", beside("mnt")),
    Row("only names that are asked for are told", "events -r mnt --why a.rules:2 long-name.rules",
        {f"{LIB}/a.rules": "", f"{LIB}/aa.rules": "", f"{LIB}/a.rules.bak": "", f"{LIB}/a.rules:2": "", "long-name.rules": TAGGED}, BARE,
        messages=beside("mnt") + not_read(f"{LIB}/a.rules") + no_file("a.rules:2"), status=2),
    Row("a name that is told escaped", ["events", "-r", "mnt", "--why", "b\n.rules", "long-name.rules"], {f"{LIB}/b\n.rules": "", "long-name.rules": TAGGED}, BARE,
        messages=beside("mnt") + not_read(f"{LIB}/b\\x0A.rules") + no_file("b\\x0A.rules"), status=2),
    Row("the same without --why", "events -r mnt c.rules", {f"{LIB}/b.rules": TAGGED, "c.rules": "# none\n"}, BARE, "event add /d\nenv ACTION=add\nenv DEVPATH=/d\n\n"),
]

SPACED = 'KERNEL=="a", ENV{A}="b\u00a0c"\n'
UNSEEN = [
    *(Row(f"a byte order mark, with {option}", f"verify {option} a.rules", {"a.rules": "\ufeff# a\n\ufeff# b\n"}, output=BAD, status=1,
          messages=at("a.rules:1", MARK) + "a.rules:1: V1 bad syntax: \ufeff# a\na.rules:2: V1 bad syntax: \ufeff# b\n")
      for option in ("--lint", "--udev", "--strict", "--lint --format=plain")),
    *(Row(f"a no-break space, with {option}", f"verify {option} a.rules", {"a.rules": "# \u00a0\n \t#\u00a0\n" + SPACED * 2}, output=GOOD,
          messages=at("a.rules:3", NO_BREAK)) for option in ("--lint", "--udev", "--strict")),
    Row("lines that end in CR LF, with --lint", "verify --lint a.rules", {"a.rules": '# a\n\r\nKERNEL=="a", TAG+="b"\r\n'}, output=BAD, status=1,
        messages=at("a.rules:2", RETURN) + "a.rules:2: V1 bad syntax: \\x0D\na.rules:3: V1 bad syntax: \\x0D\n"),
    Row("a last line that ends in CR, with --lint", "verify --lint a.rules", {"a.rules": "# a\r"}, output=GOOD, messages=at("a.rules:1", RETURN)),
    *(Row(f"lines that end in CR LF, with {option}", f"verify {option} a.rules", {"a.rules": 'KERNEL=="a", TAG+="b"\r\n'}, output=GOOD)
      for option in ("--udev", "--strict")),
    *(Row(f"what no editor shows, {option}", f"verify {option} a.rules", {"a.rules": SPACED}, output=GOOD) for option in ("--all", "--format=human", "-r mnt")),
    Row("signs that are like them", "verify --lint a.rules", {"a.rules": '# \ufeff\r.\nKERNEL=="a", ENV{A}="\u00e0\u0160\u00a1"\n'}, output=GOOD),
    Row("all of them in files that are told in their order", "verify --lint b.rules a.rules",
        {"a.rules": "# a\r\n", "b.rules": "# b\r\n" + SPACED}, output="2 files checked, 2 good, 0 bad\n",
        messages=at("b.rules:1", RETURN) + at("b.rules:2", NO_BREAK) + at("a.rules:1", RETURN)),
    Row("files of folders, and none that is hidden", "verify --lint -r mnt",
        {f"{RULES[0]}/a.rules": COMMENT, f"{RULES[3]}/a.rules": SPACED, f"{RULES[1]}/b.rules": SPACED}, output="2 files checked, 2 good, 0 bad\n",
        messages=at("b.rules:1", NO_BREAK)),
    Row("a database file with them", "update --lint a.hwdb", {"a.hwdb": "# \u00a0\r\n"}, output=EMPTY),
]

ROWS = [*KINDS, *ROOTS, *FOLDERS, *LYING, *UNSEEN]
