"""`verify --lint`: what concerns all lints: their order, their places in each format, and how they are left out.

Apart from the files that are marked by hand (tables/kinds/marked.py), what is wanted was written by hand.
"""
from tables.kinds.linted import OTHERS, lint, linted
from tables.kinds.marked import in_formats
from tables.kinds.row import Row
from tables.kinds.verified import verified

# A rule with most of them, and its lints in their order, among rules that cause some of its lints.
MANY = ('SUBSYSTEM=="block", KERNEL=="*", ATTRS{idVendor}=="1D6B", ATTRS{bAlternateSetting}=="^0", ENV{A}="1", NAME="a", MODE="x", '
        'RUN+="cp > b", SYMLINK+="/dev/b", ATTR{"c"}=="1", DRIVER=="*", ENV{ID_PATH}=="x"',
        lint(1, "x"), lint(2, "cp > b"), lint(3, "cp > b"), lint(4, "1D6B"), lint(5, "bAlternateSetting"), lint(8, "a"), lint(9, "/dev/b"),
        lint(10, '"c"'), lint(11, "^0"), lint(12, "KERNEL"), lint(12, "DRIVER"), lint(6, "ID_PATH"), lint(7, "A"), lint(13, "end"))
FILE = ['GOTO="end"', MANY, 'IMPORT{builtin}="path_id"', 'ENV{A}=="1"', 'LABEL="end"']
# A rule with two.
TWO = ('MODE="x", KERNEL=="*"', lint(1, "x"), lint(12, "KERNEL"))
MODE = f"r.rules:1: {lint(1, 'x')}\n"
BAD = "1 files checked, 0 good, 1 bad\n"


def without(lines, *codes):
    """Lines with what is left of what is said about each if these codes are ignored."""
    return [line if isinstance(line, str) else (line[0], *(said for said in line[1:] if said.split()[0] not in codes)) for line in lines]


def written(lines):
    """Lines without what is said about them."""
    return [line if isinstance(line, str) else line[0] for line in lines]


# Correctly written rules, about which nothing is reported.
GOOD = [
    'ACTION!="add|change", GOTO="end"',
    'SUBSYSTEM=="net", KERNEL=="eth[0-9]*", NAME="lan%n"',
    'CONST{virt}=="kvm", CONST{arch}!="x86*", TAG+="guest"',
    'SYSCTL{kernel/ostype}=="Linux", ENV{OS}="1"',
    'SUBSYSTEMS=="usb", ATTRS{idVendor}=="1d6b", ATTRS{idProduct}=="000?", SYMLINK+="hub"',
    'IMPORT{builtin}="path_id"',
    'ENV{ID_PATH}=="?*", SYMLINK+="by-path/$env{ID_PATH}"',
    'PROGRAM=="/bin/id %k", RESULT=="a*|b", OWNER="root", GROUP="disk", MODE="0660"',
    "TEST{0111}==\"/bin/sh\", RUN+=\"/bin/sh -c 'echo %k > /run/x'\", RUN{builtin}+=\"kmod load $env{MODALIAS}\"",
    'KERNELS=="?*", DRIVERS!="a", TAGS=="b", DEVPATH=="/devices/*", OPTIONS+="watch", SECLABEL{smack}="x"',
    'IMPORT{db}="ID_MINE", IMPORT{cmdline}="mine", IMPORT{file}="/run/x", IMPORT{parent}="ID_*"',
    'ENV{ID_MINE}=="1", ENV{mine}!="1", NAME=="a", SYMLINK!="b", DRIVER=="c"',
    'LABEL="end"',
]

WHOLE = [
    linted("lints of one rule, in their order", *FILE),
    linted("lints come after the other messages about their rule",
        ('KERNEL=="*",MODE="x"', "S2 blank after a comma expected: MODE", lint(1, "x"), lint(12, "KERNEL")),
        ('LABEL="a", MODE="x"', "S4 label unused: a", lint(1, "x")),
        ('GOTO="z", MODE="x",', "V7 no later label: z", "S1 one comma expected", lint(1, "x")), 'TAG+="t"', ('MODE="y"', lint(1, "y"))),
    linted("a line that is not a rule has no lints", ('MODE="x", FOO="1"', "V2 unknown key: FOO"), ('KERNEL=="*", RUN+="a > b", ]', "V1 bad syntax: ]")),
    linted("a line continued at the file's end has no lints", ('MODE="x" \\', "V12 line continuation at the file's end")),
    linted("a line that is too long has no lints", ('TAG+="t", ' * 1_640 + 'MODE="x"', "V9 line too long")),
    linted("a file without lints", *GOOD),
    verified("no lints without --lint", *written(FILE)),
    linted("--lint after the other options", *FILE, words="verify --no-style --format=plain --lint"),
    Row("--lint after the files", "verify r.rules --lint", {"r.rules": 'KERNEL=="a", MODE="x"\n'}, output=BAD, messages=MODE, status=1),
    Row("without the summary", "verify --no-summary --lint r.rules", {"r.rules": 'KERNEL=="a", MODE="x"\n'}, messages=MODE, status=1),
    Row("without style", "verify --lint --no-style r.rules", {"r.rules": 'KERNEL=="a", MODE="x",TAG+="t"\n'}, output=BAD, messages=MODE, status=1),
    Row("each file has its own lints", "verify --lint a.rules r.rules c.rules", {"a.rules": 'ENV{ID_PATH}=="x"\nENV{A}="1", KERNEL=="a"\n',
        "r.rules": 'KERNEL=="a", MODE="x"\n', "c.rules": 'IMPORT{builtin}="path_id"\nENV{A}=="1"\n'}, output="3 files checked, 2 good, 1 bad\n", messages=MODE,
        status=1),
    Row("files of folders", "verify --lint -r mnt", {"mnt/etc/udev/rules.d/r.rules": 'KERNEL=="a", MODE="x"\n', "mnt/usr/lib/udev/rules.d/s.rules": 'TAG+="t"\n'},
        output="2 files checked, 1 good, 1 bad\n", messages=MODE, status=1),
    Row("events has no lints", "events -r none r.rules", {"r.rules": 'KERNEL=="a", MODE="x"\n'}),
]

# Codes that are left out of the file with many.
CODES = ["W1", "W4", "W12", "W6,W7,W13", "W1,W2,W3,W4,W5,W6,W7,W8,W9,W10,W11,W12", ",".join(f"W{number}" for number in range(1, 15)), "V1,S2,H1"]

IGNORED = [
    *(linted(f"without {codes}", *without(FILE, *codes.split(",")), words=f"verify --lint --ignore {codes}") for codes in CODES),
    verified("a code of lints without --lint", *written(FILE), words="verify --ignore W4"),
    linted("a comment about one lint", "# devdry: ignore W1", *without([TWO], "W1"), TWO, words="verify --lint --ignore comments"),
    linted("a comment about several lints", "# devdry: ignore W12, W1", TWO[0], words="verify --lint --ignore comments"),
    linted("a comment about the whole file", TWO[0], "# devdry: ignore-file W1,W12", TWO[0], words="verify --lint --ignore comments"),
    linted("comments without --ignore", "# devdry: ignore W1", TWO),
    linted("comments about lints, without --lint", "# devdry: ignore W1", TWO[0], "# devdry: ignore-file W12",
        words="verify --ignore comments"),
    linted("a comment that ignores nothing", ("# devdry: ignore W2", "I1 nothing to ignore: W2"), TWO, words="verify --lint --ignore comments"),
    linted("a comment that ignores nothing, without --lint", ("# devdry: ignore W2", "I1 nothing to ignore: W2"), TWO[0], words="verify --ignore comments"),
    linted("an unknown code", ("# devdry: ignore W28", "I2 unknown code: W28"), TWO, words="verify --lint --ignore comments"),
]

# For each lint files that cause it, with its places.
EACH = {
    "W1": ['KERNEL=="a", MODE="<W1|rw>"', 'MODE = "<W1|>"', 'MODE=e"<W1=8|\\x38>"'],
    "W2": ['RUN+="<W2|/bin/a; b>"', "  PROGRAM==\"<W2|/bin/a && 'b'>\", TAG+=\"t\""],
    "W3": ['RUN+="<W3|touch /run/a>", RUN{program}+="<W3| ln>"'],
    "W4": ['ATTRS{idVendor}=="<W4|1D6B>"', 'ENV{MODALIAS} != "<W4|usb:v1d6b*>", TAG+="t"'],
    "W5": ['ATTRS{idVendor}=="1d6b", <W5=bInterfaceNumber|ATTRS>{bInterfaceNumber}=="01"'],
    "W6": ['<W6=ID_PATH|ENV>{ID_PATH}=="x"', 'IMPORT{builtin}="path_id"'],
    "W7": ['ENV{A}=="1"', 'TAG+="t", <W7=A|ENV>{A}="1", KERNEL=="a"'],
    "W8": ['SUBSYSTEM=="block", NAME="<W8|disk>"'],
    "W9": ['SYMLINK+="<W9|a /dev/b>"'],
    "W10": ['TAG+="t", <W10="a"|ATTR>{"a"}=="1"'],
    "W11": ['KERNEL=="<W11|^sd$>"', 'ENV{A}!="<W11|sd{a,b}>"', 'KERNEL=="<W11|sd\\d>"'],
    "W12": ['<W12|KERNEL>=="*", <W12|ENV>{A}=="a|*"'],
    "W13": ['GOTO="end"', '\t<W13=end|TAG>+="t"', 'LABEL="end"'],
    "lints with other messages": ['<S3|TAG>:="a",<S2|MODE>="<W1|x>", KERNEL=="<W11|^a>"', '<V2|FOO>="1", MODE="x"'],
    "several lints at one place": ['SYMLINK+="a", RUN+="<W2 W3|cp a; b>"'],
    "lints of a continued rule": ['KERNEL=="a", \\', '  MODE="<W1|rw>", \\', "# between", '  SYMLINK+="<W9|/dev/a>"'],
    "a rule never reached that is continued": ['GOTO="end"', '  <W13=end|KERNEL>=="a", \\', '  MODE="<W1|x>"', 'LABEL="end"'],
    "quotes and backslashes in a value": ['MODE="<W1|a,b::c:d>"', 'RUN+="<W3|rm 50%%, {\'it\': ä}>"'],
    "a long value": ['RUN+="<W3|rm ' + "long/" * 12 + '>"'],
}

# The same for W15 to W27, each in a rule that has no other.
LATER = {
    "W15": ['<W15|MODE>="0660"'],
    "W16": ['KERNEL=="<W16|/dev/sda>"', 'ATTRS{idVendor} == "<W16|421>"'],
    "W17": ['KERNEL=="<W17|a | b>"'],
    "W18": ['<W18=idVendor|ATTR>{idvendor}=="0421"', 'KERNEL=="a", <W18=ID_VENDOR|ENV>{ID_VENDR}="1"'],
    "W19": ['KERNEL=="<W19|%k>"', 'KERNEL=="a", SYMLINK+="<W19|a/%name>"'],
    "W20": ['KERNEL=="a", <W20|RUN>="/bin/a"'],
    "W21": ['KERNEL=="a", <W21|ATTR>{removable}="1"'],
    "W22": ['SUBSYSTEM=="net", NAME="<W22|office-network-first>"'],
    "W23": ['SUBSYSTEM=="usb", <W23|ENV>{SYSTEMD_WANTS}+="a.service"'],
    "W24": ['KERNEL=="a", RUN+="<W24|/bin/mount /dev/a /mnt>"'],
    "W25": ['<W25|RESULT>=="a"'],
    "W26": ['SUBSYSTEM=="net", SYMLINK+="<W26|lan>"'],
    "W27": ['KERNEL=="a", <W27|TAG>+="uaccess"'],
}

ROWS = [
    *WHOLE, *IGNORED,
    *(row for name, lines in EACH.items() for row in in_formats(name, *lines, words=["--lint", "--ignore", OTHERS])),
    *(row for name, lines in LATER.items() for row in in_formats(name, *lines, words=["--lint"])),
]
