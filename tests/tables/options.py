"""`--options FILE`: options of a file, before those of the command line."""
from tables.kinds.row import FOLDER, Begins, Link, Row

# a rule with a remark on style and a lint
RULES = {"a.rules": 'KERNEL=="sda",MODE="888"\n'}
STYLE = "a.rules:1: S2 blank after a comma expected: MODE\n"
LINT = "a.rules:1: W1 mode is no octal number: 888\n"
BAD = "1 files checked, 0 good, 1 bad\n"
GOOD = "1 files checked, 1 good, 0 bad\n"


def verified(name, options, words="", messages="", output=BAD):
    """A run of `verify` over the rule with a file of options, and the messages that it gives."""
    return Row(name, f"verify --options ours {words} a.rules".split(), {**RULES, "ours": options}, output=output, messages=messages,
               status=1 if messages else 0)


TAKEN = [
    verified("a file of options without a line", "", messages=STYLE),
    verified("a flag of a file of options", "--lint\n", messages=STYLE + LINT),
    verified("an option with a value of a file of options", "--ignore=S2\n", output=GOOD),
    verified("two options of a file, the last without a newline", "--no-summary\n--lint", messages=STYLE + LINT, output=""),
    verified("comments, empty lines and blanks in a file of options", "# --no-summary\n\n \t\n\t--lint \n  # --no-style\n", messages=STYLE + LINT),
    verified("lines of a file of options that end in CR LF", "--lint\r\n\r\n--no-style\r\n", messages=LINT),
    verified("a file of options of over 4,096 bytes", "# a line\n" * 500 + "--lint\n" + "#\n" * 500, messages=STYLE + LINT),
    verified("a value with a blank and an equals sign", "--root=/none/a b=c\n", messages=STYLE),
    verified("an option that the command line gives, too, once", "--format=gcc\n", "--format=plain", messages=STYLE),
    verified("an option that the command line gives with its value in the next word", "--format=gcc\n--lint\n", "--format plain", messages=STYLE + LINT),
    verified("a flag that the command line gives, too", "--lint\n--no-style\n", "--lint", messages=LINT),
    verified("codes of a file and of the command line are both left out", "--ignore=S2\n--lint\n", "--ignore=W1", output=GOOD),
    verified("a value of the command line that is the word false", "--format=gcc\n", "--format=plain --root=false", messages=STYLE),
    Row("a letter of the command line gives the option of the file", "verify -r b --options ours --no-summary",
        {"a/etc/udev/rules.d/a.rules": "A\n", "b/etc/udev/rules.d/b.rules": "B\n", "ours": "--root=a\n"},
        messages="b.rules:1: V1 bad syntax: B\n", status=1),
    Row("the root of a file of options", "verify --options=ours --no-summary", {"a/etc/udev/rules.d/a.rules": "A\n", "ours": "--root=a\n"},
        messages="a.rules:1: V1 bad syntax: A\n", status=1),
    Row("a file of options is not read below the root", "verify -r mnt --options ours --no-summary",
        {"mnt/ours": "--lint=1\n", "ours": "--no-style\n", "mnt/etc/udev/rules.d/a.rules": 'KERNEL=="sda",TAG+="t"\n'}),
    Row("a file of options behind a symlink", "update --options ours a.hwdb", {"a.hwdb": " A=1\n", "ours": Link("there"), "there": "--strict\n"},
        output=Begins(b"devdryhw"), messages="a.hwdb:1: H1 property without a match: A=1\n", status=1),
    Row("a query with a file of options", "query --options ours m a.hwdb", {"a.hwdb": "m\n A=1\n", "ours": "--sources\n"}, output="a.hwdb:2: A=1\n"),
    Row("events with a file of options", "events --options ours b.rules", {"b.rules": 'ENV{A}="1"\n', "ours": "--sources\n"}, input="C: add\nP: /d\n",
        output="event add /d\nb.rules:1: env A=1\n-: env ACTION=add\n-: env DEVPATH=/d\n\n"),
    Row("files with a file of options", "files --options ours", {"mnt/etc/udev/rules.d/a.rules": "", "ours": "--root=mnt\n"},
        output="mnt/etc/udev/rules.d/a.rules: masked\n"),
    Row("a refusal counts what the file and the command line give together", "verify --options ours --users passwd a.rules",
        {**RULES, "passwd": "", "ours": "--udev\n"}, output=BAD, messages=STYLE, status=1),
]


def bad(name, options, number, word, path="ours", shown=None):
    """A run with a file of options that has a bad line, of which this is the number and the word."""
    said = f"error: {shown or path}:{number}: not one option, as --lint or --format=gcc: {word}\n\nFor more information, try '--help'.\n"
    return Row(name, ["verify", "--options", path, "a.rules"], {**RULES, path: options}, messages=said, status=2)


BAD_LINES = [
    bad("a word that is no option", "--lint\nlint\n", 2, "lint"),
    bad("a file in a file of options", "a.rules\n", 1, "a.rules"),
    bad("a letter in a file of options", "\n\n-s\n", 3, "-s"),
    bad("two words in a line", "--format gcc\n", 1, "--format gcc"),
    bad("an option without its value", "--ignore\n", 1, "--ignore"),
    bad("a flag with a value", "--lint=yes\n", 1, "--lint=yes"),
    bad("an option that there is not", "--lints\n", 1, "--lints"),
    bad("two minus signs alone", "--\n", 1, "--"),
    bad("a file of options in a file of options", "--options=others\n", 1, "--options=others"),
    bad("help in a file of options", "--help\n", 1, "--help"),
    bad("a comment behind an option", "--lint # all\n", 1, "--lint # all"),
    bad("a quoted value", '"--root=/a b"\n', 1, '"--root=/a b"'),
    bad("a control character in a value", "--root=/a\x1b[2J\n", 1, "--root=/a\\x1B[2J"),
    bad("a tab in a value", "--root=/a\tb\n", 1, "--root=/a\\x09b"),
    bad("only the first bad line is told, and 32 bytes of it", "-a\n" + "b" * 40 + "\n", 1, "-a"),
    bad("a long bad line", "b" * 40 + "\n", 1, "b" * 32),
    bad("the path of a file of options is escaped", "-a\n", 1, "-a", path="a\nb", shown="a\\x0Ab"),
]

UNREAD = [
    Row("a file of options that does not exist", "verify --options none a.rules", RULES, messages="devdry: cannot read none\n", status=3),
    Row("a folder as a file of options", "verify --options d a.rules", {**RULES, "d": FOLDER}, messages="devdry: cannot read d\n", status=3),
    Row("an empty path of a file of options", "events --options= a.rules", RULES, messages="devdry: cannot read \n", status=3),
    Row("a file of options that does not exist, with --all", "verify --all --options none a.rules", RULES, messages="devdry: cannot read none\n", status=3),
]

REFUSED = [
    Row("two files of options", "verify --options a --options b", {"a": "", "b": ""}, status=2,
        messages=Begins(b"error: the argument '--options <FILE>' cannot be used multiple times\n")),
    Row("explain has no file of options", "explain --options a V6", {"a": ""}, messages=Begins(b"error: unexpected argument '--options' found\n"), status=2),
    Row("an option of the file that the command does not have", "files --options ours", {"ours": "--lint\n"},
        messages=Begins(b"error: unexpected argument '--lint' found\n"), status=2),
    Row("a flag twice in a file of options", "verify --options ours", {"ours": "--lint\n--lint\n"},
        messages=Begins(b"error: the argument '--lint' cannot be used multiple times\n"), status=2),
    Row("words at fault are told before a file of options is read", "query --options none", {}, status=2,
        messages=Begins(b"error: the following required arguments were not provided:\n")),
    Row("a value of a file of options that is refused", "verify --options ours", {"ours": "--format=xml\n"},
        messages=Begins(b"error: invalid value 'xml' for '--format <FORMAT>'\n"), status=2),
    Row("help beside a file of options", "verify --options none --help", {}, output=Begins(b"Checks rules files\n")),
]

ROWS = [*TAKEN, *BAD_LINES, *UNREAD, *REFUSED]
