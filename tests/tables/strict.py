"""`verify --strict`: every check with one option, and the users and groups of the root where it has them."""
from tables.folders import RULES
from tables.kinds.row import PIPE, Begins, Link, Row
from tables.partial_runs import absent, nothing, unread
from tables.words import EMPTY_INDEX

GOOD = "1 files checked, 1 good, 0 bad\n"
BAD = "1 files checked, 0 good, 1 bad\n"
LISTS = {"mnt/etc/passwd": "jo:x:1000:1000::/:/bin/sh\n", "mnt/etc/group": "staff:x:50:\n"}
NAMED = f"{RULES[0]}/a.rules"
OWNED = 'KERNEL=="a", OWNER="jo", GROUP="staff"\n'
STRANGE = 'KERNEL=="a", OWNER="jonh", GROUP="stuff"\n'
CASE = 'ATTRS{idVendor}=="0BDA",TAG+="t"\n'
# Lines of which each has something of its own, and what is told of them but for lints.
LINES = f'FOO="b"\n{CASE}KERNEL=="a"\n{CASE}TAG+="c" \\\n'
TOLD = ["1: V2 unknown key: FOO", "2: S2 blank after a comma expected: TAG", "3: V18 rule without effect", "4: S2 blank after a comma expected: TAG",
        "5: V12 line continuation at the file's end"]


def lines(messages):
    """Lines about a file."""
    return "".join(f"a.rules:{message}\n" for message in messages)


# (what is asked, words, files, output, messages, status)
RUNS = [
    ("a good file", "verify --strict -r mnt", {NAMED: 'KERNEL=="a", TAG+="t"\n'}, GOOD, "", 0),
    ("the letter of --strict", "verify -s -r mnt", {NAMED: "NOPE\n"}, BAD, "a.rules:1: V1 bad syntax: NOPE\n", 1),
    ("a lint", "verify --strict -r mnt", {NAMED: 'ATTRS{idVendor}=="0BDA", SYMLINK+="x"\n'}, BAD,
     "a.rules:1: W4 letter case that the kernel does not write: 0BDA\n", 1),
    ("what udev says of a rule", "verify --strict -r mnt", {NAMED: 'KERNEL=="a"\n'}, BAD, "a.rules:1: V18 rule without effect\n", 1),
    ("a message about style", "verify --strict -r mnt", {NAMED: 'KERNEL=="a",TAG+="t"\n'}, BAD, "a.rules:1: S2 blank after a comma expected: TAG\n", 1),
    ("without messages about style", "verify --strict --no-style -r mnt", {NAMED: 'KERNEL=="a",TAG+="t"\n'}, GOOD, "", 0),
    ("classes of codes are left out", "verify --strict --ignore S,W -r mnt", {NAMED: 'ATTRS{idVendor}=="0BDA",TAG+="t"\n'}, GOOD, "", 0),
    ("what is told of each line, and then its lints", "verify --strict -r mnt", {NAMED: LINES, f"{RULES[0]}/b.rules": 'KERNEL=="a", TAG+="t"\n'},
     "2 files checked, 1 good, 1 bad\n",
     lines(sorted([*TOLD, *(f"{line}: W4 letter case that the kernel does not write: 0BDA" for line in (2, 4))])), 1),
    ("the same where comments count", "verify --strict --ignore comments -r mnt", {NAMED: LINES.replace("KERNEL", "# devdry: ignore-file W4\nKERNEL", 1)}, BAD,
     lines([*TOLD[:2], "4: V18 rule without effect", "5: S2 blank after a comma expected: TAG", "6: V12 line continuation at the file's end"]), 1),
    ("the other options may be given, too", "verify --strict --lint --udev --all -r mnt", {NAMED: 'KERNEL=="a", TAG+="t"\n'}, GOOD, "", 0),
    ("what can't be read", "verify --strict -r mnt", {NAMED: 'KERNEL=="a", TAG+="t"\n', f"{RULES[1]}/b.rules": Link("none")}, GOOD,
     unread(f"{RULES[1]}/b.rules", "link to nothing: none"), 3),
    ("no file", "verify --strict -r mnt", {}, "0 files checked, 0 good, 0 bad\n", nothing(absent(RULES)), 1),
    ("users and groups of the root", "verify --strict -r mnt", {**LISTS, NAMED: OWNED}, GOOD, "", 0),
    ("users and groups that the root does not have", "verify --strict -r mnt", {**LISTS, NAMED: STRANGE}, BAD,
     "a.rules:1: V25 unknown user or group: jonh\na.rules:1: V25 unknown user or group: stuff\n", 1),
    ("a root without lists", "verify --strict -r mnt", {NAMED: STRANGE}, GOOD, "", 0),
    ("a root with a list of groups alone", "verify --strict -r mnt", {"mnt/etc/group": LISTS["mnt/etc/group"], NAMED: STRANGE}, BAD,
     "a.rules:1: V25 unknown user or group: stuff\n", 1),
    ("a list of users that is named", "verify --strict --users p -r mnt", {**LISTS, "p": "jonh:x:7:7::/:\n", NAMED: STRANGE}, BAD,
     "a.rules:1: V25 unknown user or group: stuff\n", 1),
    ("a list that is named and does not exist", "verify --strict --users p -r mnt", {NAMED: OWNED}, "", "devdry: cannot read p\n", 3),
    ("lists behind a link of the root", "verify --strict -r mnt", {"mnt/etc/passwd": Link("/usr/passwd"), "mnt/usr/passwd": LISTS["mnt/etc/passwd"], NAMED: STRANGE},
     BAD, "a.rules:1: V25 unknown user or group: jonh\n", 1),
    ("a list that is a link to nothing is no list", "verify --strict -r mnt", {"mnt/etc/passwd": Link("none"), NAMED: OWNED}, GOOD, "", 0),
    ("a list that is a pipe is not waited for", "verify --strict -r mnt", {"mnt/etc/passwd": PIPE, NAMED: OWNED}, "", "devdry: cannot read mnt/etc/passwd\n", 3),
    ("a named file and the lists of a root", "verify --strict -r mnt a.rules", {**LISTS, "a.rules": STRANGE}, BAD,
     "devdry: mnt: its rules are not read beside a FILE that is named: --with FILE reads FILE among them\na.rules:1: V25 unknown user or group: jonh\na.rules:1: V25 unknown user or group: stuff\n", 1),
    ("a strict update reads no lists", "update -s -r mnt", {"mnt/etc/passwd": PIPE}, EMPTY_INDEX, "", 0),
    ("an empty root", ["verify", "--strict", "-r", ""], {}, "", Begins(b"error: an empty value of '--root <DIR>' names no folder\n"), 2),
]

ROWS = [Row(name, words, files, output=output, messages=messages, status=status) for name, words, files, output, messages, status in RUNS]
