"""`events --udev` and `compare --udev`: IMPORT{file}, by the files of the root that rules name.

What the lines of a file set is what udev_rule_apply_token_to_event of systemd 257 makes of them (TK_M_IMPORT_FILE, with
get_property_from_string): blanks before a line and around `=` don't count, `#` begins a comment, a value may stand between quotes,
and a line that is none of this is passed over. Which files are read, and what is said of others, is what docs/behaviour.md says.
"""
from tables.kinds.row import FOLDER, PIPE, Link, Moded, Row
from tables.kinds.why import of

RULE = 'IMPORT{file}=="/run/x", ENV{YES}="1"\nIMPORT{file}!="/run/x", ENV{NO}="1"\n'
BLOCK = "C: add\nP: /devices/x\nU: m\n"
MOST = 65_536
ROOT_NOTE = "devdry: mnt: its rules are not read beside a FILE that is named: --with FILE reads FILE among them\n"


def answer(*lines):
    """The answer with these properties, and after these the notes on rules of r.rules."""
    env = sorted([*(line for line in lines if not line.startswith("note ")), "ACTION=add", "DEVPATH=/devices/x", "SUBSYSTEM=m"])
    notes = [line for line in lines if line.startswith("note ")]
    return "event add /devices/x\n" + "".join(f"env {line}\n" for line in env) + "".join(f"{line}\n" for line in notes) + "\n"


def unrun(*numbers):
    """The notes on rules in these lines."""
    return [f"note r.rules:{number}: import not run: file" for number in numbers]


def row(name, files, *lines, rules=RULE, words="events --udev -r mnt r.rules", block=BLOCK, **more):
    """A run over a root of these files."""
    return Row(name, words, {"r.rules": rules, "mnt/none": "", **{f"mnt{path}": text for path, text in files.items()}}, block, answer(*lines), **more)


def holding(name, text, *lines):
    """A run over a file of this text, which is imported."""
    return row(name, {"/run/x": text}, *lines, "YES=1")


LINES = [
    holding("a line", "A=1\n", "A=1"),
    holding("several lines, the last without an end", "A=1\nB=two words\nC=x=y", "A=1", "B=two words", "C=x=y"),
    holding("blanks before a line, and around the name and the value", " \t A =  1  2 \t\n\tB\t=\t3\t\n", "A=1  2", "B=3"),
    holding("quotes", "A=\"1 2\"\nB=' 3 '\nC=\"4'\nD=\"\nE=\"'5'\"\nF=6\"\n", "A=1 2", "B= 3 ", "E='5'", "F=6\""),
    holding("lines that give nothing", "# A=1\n  #B=2\n\nC\n=4\n = 5\nD=\n#"),
    holding("a carriage return and a NUL end a line", "A=1\r\nB=2\rC=3\0D=4\n", "A=1", "B=2", "C=3", "D=4"),
    holding("the last of several lines counts, and an empty value between quotes takes the property away", "A=1\nB=2\nA=3\nB=\"\"\n", "A=3"),
    holding("nothing is put into a value", "A=$kernel %k\n", "A=$kernel %k"),
    holding("an empty file", ""),
    holding("a file of the most bytes", b"A=" + b"a" * 100 + b"\n#" + b"x" * (MOST - 104), "A=" + "a" * 100),
    row("a file of one byte more", {"/run/x": b"A=" + b"a" * 100 + b"\n#" + b"x" * (MOST - 103)}, "NO=1", *unrun(1, 2)),
]

PLACES = [
    row("a file that is not there", {}, "NO=1"),
    row("its folder is there", {"/run": FOLDER}, "NO=1"),
    row("a link to nothing", {"/run/x": Link("/run/y")}, "NO=1"),
    row("a link to /dev/null is an empty file", {"/run/x": Link("/dev/null")}, "YES=1"),
    row("a link leads on inside the root", {"/run/x": Link("/etc/y"), "/etc/y": "A=1\n"}, "A=1", "YES=1"),
    row("no link leads out of the root", {"/run/x": Link("../../../none")}, "YES=1"),
    row("a folder", {"/run/x": FOLDER}, "NO=1", *unrun(1, 2)),
    row("a pipe is not waited for", {"/run/x": PIPE}, "NO=1", *unrun(1, 2)),
    row("a file in place of a folder", {"/opt": ""}, "NO=1", *unrun(1), rules='IMPORT{file}!="/opt/x", ENV{NO}="1"\n'),
    row("a link to itself", {"/run/x": Link("x")}, "NO=1", *unrun(1, 2)),
    row("a file without permission", {"/run/x": Moded(0, "A=1\n")}, "NO=1", *unrun(1, 2), plain=True),
]

PATHS = [
    row("a path with a substitution is not looked at", {"/run/x": "A=1\n"}, "NO=1", *unrun(1, 2),
        rules='IMPORT{file}=="/run/$kernel", ENV{YES}="1"\nIMPORT{file}!="/run/$kernel", ENV{NO}="1"\n'),
    row("it is answered by a file that another rule names in full", {"/run/x": "A=1\n"}, "A=1", "B=1",
        rules='IMPORT{file}="/run/none"\nIMPORT{file}="/run/$kernel", ENV{B}="1"\nGOTO="end"\nIMPORT{file}="/run/x"\nLABEL="end"\n'),
    row("a path that does not begin with a slash", {"/x": "A=1\n"}, "NO=1", *unrun(1), rules='IMPORT{file}!="x", ENV{NO}="1"\n'),
    row("a path that is written in another way is the same file", {"/run/x": "A=1\n"}, "A=1", "YES=1", rules='IMPORT{file}="//run/./../run/x", ENV{YES}="1"\n'),
    row("an escaped path", {"/run/a b": "A=1\n"}, "A=1", "YES=1", rules='IMPORT{file}=e"/run/a\\x20b", ENV{YES}="1"\n'),
    row("a path of over 1,023 bytes", {}, "note r.rules:1: text too long: IMPORT{file}", rules='IMPORT{file}!="/' + "x/" * 511 + 'xx", ENV{NO}="1"\n'),
    row("two files, and one of them twice", {"/run/x": "A=1\n", "/run/y": "A=2\nB=3\n"}, "A=1", "B=3",
        rules='IMPORT{file}="/run/x"\nIMPORT{file}="/run/y"\nIMPORT{file}="/run/x"\n'),
    row("two files in one rule, and a third that is not there", {"/run/x": "A=1\n", "/run/y": "B=2\n"}, "A=1", "B=2", "YES=1",
        rules='IMPORT{file}="/run/x", IMPORT{file}="/run/y", IMPORT{file}!="/run/z", ENV{YES}="1"\n'),
    row("what an import sets stays where the rule stops", {"/run/x": "A=1\n"}, "A=1", "B=1|", rules='IMPORT{file}!="/run/x", ENV{NO}="1"\nENV{B}="$env{A}|"\n'),
    row("a key that is cut in two is not seen", {"/run/x": "A=1\n"}, "NO=1", *unrun(2), rules='IMPORT{fi\\\nle}!="/run/x", ENV{NO}="1"\n'),
    row("a rules file of the root", {"/run/x": "A=1\n", "/etc/udev/rules.d/r.rules": RULE}, "A=1", "YES=1", words="events --udev -r mnt"),
    row("with --all", {"/run/x": "A=1\n"}, "A=1", "YES=1", words="events --udev --all -r mnt r.rules"),
]

MANUAL = [
    row("by the manual no file is read", {"/run/x": "A=1\n"}, "NO=1", *unrun(1, 2), words="events -r mnt r.rules"),
]


def reported(name, files, lines, *courses, rules=RULE, udev=" --udev"):
    """What rules met."""
    told = "".join(f"why r.rules:{line.decode()}\n" for course in courses for line in course)
    placed = {f"mnt{path}": text for path, text in files.items()}
    return Row(name, f"events{udev} -r mnt --why r.rules r.rules", {"r.rules": rules, "mnt/none": "", **placed}, BLOCK, answer(*lines)[:-1] + told + "\n", ROOT_NOTE)


WHY = [
    reported("--why of a file that is there", {"/run/x": "A=1\nB=2\n"}, ["A=1", "B=2", "YES=1"],
             of(1, 'IMPORT{file}=="/run/x": holds, sets A=1, B=2', "reached its end: env YES=1 set"),
             of(2, 'IMPORT{file}!="/run/x": fails, sets nothing', "stops there")),
    reported("--why of a file that is not there", {}, ["NO=1"],
             of(1, 'IMPORT{file}=="/run/x": fails, sets nothing', "stops there"),
             of(2, 'IMPORT{file}!="/run/x": holds, sets nothing', "reached its end: env NO=1 set")),
    reported("--why of a file that was not read", {"/run/x": FOLDER}, ["NO=1", *unrun(1, 2)],
             of(1, 'IMPORT{file}=="/run/x": fails, not run', "stops there"),
             of(2, 'IMPORT{file}!="/run/x": holds, not run', "reached its end: env NO=1 set")),
    reported("--why of a path that is too long", {}, ["note r.rules:1: text too long: IMPORT{file}"],
             of(1, 'IMPORT{file}!="/' + ("x/" * 511)[:199] + '.. (1025 bytes)": fails, too long', "stops there"),
             rules='IMPORT{file}!="/' + "x/" * 511 + 'xx"\n'),
    reported("--why by the manual", {"/run/x": "A=1\n"}, ["NO=1", *unrun(1, 2)],
             of(1, 'IMPORT{file}=="/run/x": fails, not run', "stops there"),
             of(2, 'IMPORT{file}!="/run/x": holds, not run', "reached its end: env NO=1 set"), udev=""),
]


def compared(name, old, new, output, status=0):
    """Two roots with the same rules, each with a file of its own."""
    rules = {f"{root}/etc/udev/rules.d/r.rules": 'IMPORT{file}="/run/x", TAG+="t"\n' for root in ("old", "new")}
    files = {f"{root}/run/x": text for root, text in (("old", old), ("new", new)) if text is not None}
    return Row(name, "compare --udev old new", rules | files, BLOCK, output, "", status)


COMPARED = [
    compared("the same files", "A=1\n", "A=1\n", ""),
    compared("each root has its own file", "A=1\n", "A=2\n", "event add /devices/x\n-env A=1\n+env A=2\n\n", 1),
    compared("the new root has none", "A=1\n", None, "event add /devices/x\n-tag t\n-env A=1\n\n", 1),
]

QUESTIONS = [
    Row("--questions: what a file sets counts", "events --udev --questions -r mnt r.rules",
        {"r.rules": 'IMPORT{file}="/run/x"\nPROGRAM="/bin/ask $env{A}"\n', "mnt/run/x": "A=1\n"}, BLOCK, "event add /devices/x\nQ: /bin/ask 1\n\n"),
    Row("--questions: no question about a file", "events --udev --questions -r mnt r.rules",
        {"r.rules": 'IMPORT{file}="/run/x"\n', "mnt/none": ""}, BLOCK, "event add /devices/x\n\n"),
]

ROWS = [*LINES, *PLACES, *PATHS, *MANUAL, *WHY, *COMPARED, *QUESTIONS]
