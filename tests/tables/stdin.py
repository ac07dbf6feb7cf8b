"""`-` as FILE: the standard input is a file, and `--stdin-name` gives it a name."""
from tables.kinds.row import Begins, Row

FAULTY = 'FOO="x"\n'
STYLED = 'KERNEL=="sda",TAG+="t"\n'
BAD = "1 files checked, 0 good, 1 bad\n"
GOOD = "1 files checked, 1 good, 0 bad\n"
RECORDS = "m*\n A=1\n"


def faulty(name, line=1):
    """The message about the faulty rule."""
    return f"{name}:{line}: V2 unknown key: FOO\n"


RULES = [
    Row("the standard input as rules", "verify -", input=FAULTY, messages=faulty("-"), output=BAD, status=1),
    Row("an empty standard input", "verify -", output=GOOD),
    Row("the standard input by a name", "verify --stdin-name 70-mine.rules -", input=FAULTY, messages=faulty("70-mine.rules"), output=BAD, status=1),
    Row("a path as its name", "verify --stdin-name=d/./70-mine.rules -", input=FAULTY, messages=faulty("d/./70-mine.rules"), output=BAD, status=1),
    Row("an empty name", ["verify", "--stdin-name", "", "-"], input=FAULTY, messages=faulty(""), output=BAD, status=1),
    Row("its name is escaped", ["verify", "--stdin-name", "a\nb", "-"], input=FAULTY, messages=faulty("a\\x0Ab"), output=BAD, status=1),
    Row("its name in the format of compilers", "verify --stdin-name d/a.rules --format gcc --no-summary -", input=FAULTY,
        messages="d/a.rules:1:1: error: unknown key: FOO [V2]\n", status=1),
    Row("files before it and after it", "verify b.rules - a.rules", {"a.rules": FAULTY, "b.rules": "\n" + FAULTY}, input="\n\n" + FAULTY,
        messages=faulty("b.rules", 2) + faulty("-", 3) + faulty("a.rules"), output="3 files checked, 0 good, 3 bad\n", status=1),
    Row("it is named twice", "verify - -", input=FAULTY, messages=faulty("-") * 2, output="2 files checked, 0 good, 2 bad\n", status=1),
    Row("a file of its name is not read", "verify --stdin-name a.rules -", {"a.rules": FAULTY}, input="# good\n", output=GOOD),
    Row("./- is a file", "verify ./-", {"-": FAULTY}, input="# good\n", messages=faulty("./-"), output=BAD, status=1),
    Row("a file that is called - is not read", "verify -", {"-": FAULTY}, input="# good\n", output=GOOD),
    Row("more than one read", "verify -", input="#" * 70 + "\n" * 9000 + FAULTY, messages=faulty("-", 9001), output=BAD, status=1),
    Row("behind two minus signs", "verify --no-summary -- -", input=FAULTY, messages=faulty("-"), status=1),
    Row("with every check", "verify --strict --stdin-name a.rules -", input=STYLED, output=BAD, status=1,
        messages="a.rules:1: S2 blank after a comma expected: TAG\n"),
    Row("a root is not looked at", "verify -r none -", input=STYLED, messages="-:1: S2 blank after a comma expected: TAG\n", output=BAD, status=1),
    Row("with --all, beside a file that does not exist", "verify --all - none.rules", input=FAULTY, output=BAD, status=3,
        messages="devdry: cannot read none.rules: no such file\n" + faulty("-")),
    Row("with --all alone", "verify --all --stdin-name none/a.rules -", input=FAULTY, messages=faulty("none/a.rules"), output=BAD, status=1),
    Row("another file can't be read", "verify - none.rules", input=FAULTY, messages="devdry: cannot read none.rules\n", status=3),
    Row("options of a file are not those of the input", "verify --options ours -", {"ours": "--no-summary\n--stdin-name=a.rules\n"}, input=FAULTY,
        messages=faulty("a.rules"), status=1),
]

DATABASES = [
    Row("the standard input as a database", "query mx -", input=RECORDS, output="A=1\n"),
    Row("sources in the standard input", "query --sources mx -", input=RECORDS, output="-:2: A=1\n"),
    Row("sources by its name", "query --sources --stdin-name 70-a.hwdb mx -", input=RECORDS, output="70-a.hwdb:2: A=1\n"),
    Row("an index of the standard input", "update -", input=RECORDS, output=Begins(b"devdryhw")),
    Row("a message about a database by its name", "update --strict --stdin-name a.hwdb -", input=" A=1\n", output=Begins(b"devdryhw"),
        messages="a.hwdb:1: H1 property without a match: A=1\n", status=1),
]


def refused(name, words, first):
    """Words that are refused, by the first line of what is said."""
    return Row(name, words, {"a.rules": ""}, input=FAULTY, messages=Begins(first.encode()), status=2)


TWICE = "error: '-' can't be '[FILE]...' where the standard input has event blocks or modaliases\n\nFor more information, try '--help'.\n"
UNREAD = "error: the argument '--stdin-name <PATH>' needs '-' as '[FILE]...'\n\nFor more information, try '--help'.\n"

REFUSED = [
    refused("event blocks are there", "events -", TWICE),
    refused("event blocks are there, behind another file", "events a.rules -", TWICE),
    refused("modaliases are there", "query - -", TWICE),
    refused("a name without the standard input", "verify --stdin-name b.rules a.rules", UNREAD),
    refused("a name and no FILE", "update --stdin-name a.hwdb", UNREAD),
    refused("a name beside modaliases", "query --stdin-name a.hwdb -", UNREAD),
    refused("events give it no name", "events --stdin-name a.rules a.rules", "error: unexpected argument '--stdin-name' found\n"),
    refused("compare gives it no name", "compare --stdin-name a.rules old new", "error: unexpected argument '--stdin-name' found\n"),
    refused("two names", "verify --stdin-name a --stdin-name b -", "error: the argument '--stdin-name <PATH>' cannot be used multiple times\n"),
    refused("it is no file to add", "verify --with -", "error: invalid value '-' for '--with <FILE>': its name has to end in .rules\n"),
]

ROWS = [*RULES, *DATABASES, *REFUSED]
