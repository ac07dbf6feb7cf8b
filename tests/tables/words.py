"""The words of the command line: help, what is not understood, and what each option does.

Of texts on a word that is not known only the first line is wanted here: what clap adds to it, which words are like it and how the
command is used, is its own. tables/usage.py has them whole for a word that is like no other.
"""
from tables.kinds.row import Begins, Row

HELP = """\
A dry run of udev's rules and hardware database

Usage: devdry <COMMAND>

Commands:
  verify   Checks rules files
  query    Prints the properties that the hardware database has for a device
  update   Checks the files of the hardware database and writes its index
  events   Answers the event blocks of the standard input
  files    Lists the files of the folders, and says which of them are read
  compare  Tells where two systems answer the event blocks of the standard input differently
  fmt      Mends commas and blanks in rules files
  explain  Explains a message by its code, with a faulty file and the fixed one
  help     Print this message or the help of the given subcommand(s)

Options:
  -h, --help     Print help
  -V, --version  Print version

Status:
  0  all went well, or help was asked for
  1  verify found a bad file, or there was a message and
     --strict was given, or an event block is faulty, or a
     line of query - is too long, or there are too many rules
     or entries, or the index is refused, or compare found a
     difference, or fmt --check a file that would change, or
     files, compare or --all no file
  2  the command line is wrong
  3  a file, a folder, the input or an output failed
  4  out of memory

Examples:
  devdry verify 60-mine.rules
  devdry query usb:v1D6Bp0002 20-usb.hwdb
  devdry events 60-mine.rules < disk.block
  devdry update 20-usb.hwdb > hwdb.index
  devdry query --index hwdb.index usb:v1D6Bp0002
  devdry compare /mnt/old /mnt/new < disk.block
  devdry fmt 60-mine.rules > mended.rules
  devdry explain V6
"""

UPDATE_HELP = """\
Checks the files of the hardware database and writes its index

Usage: devdry update [OPTIONS] [FILE]...

Arguments:
  [FILE]...  Database files to read in place of the folders

Options:
      --options <FILE>     File of options to put before these, one a line, as --lint or --ignore=S2
  -r, --root <DIR>         Folder to put before each folder that is read
  -s, --strict             Exit with status 1 if there is a message
      --all                Go on where a file can't be read, and fail where there is none
      --format <FORMAT>    How messages are written: plain, gcc, github, gitlab, json, sarif or human
      --color <WHEN>       When messages for people are in colors: auto, always or never
      --ignore <CODES>     Leave out the messages of these codes, as V6,S; comments: as the files say
      --lint               Also tell of lines that are most likely not the ones that were meant
      --stdin-name <PATH>  Name of the standard input, which is the FILE -
  -h, --help               Print help
  -V, --version            Print version

Status:
  0  the index was written
  1  there is a message and --strict was given, or there are
     too many entries, or --all found no file
  2  the command line is wrong
  3  a file, a folder or an output failed
  4  out of memory

Example:
  devdry update 20-usb.hwdb > hwdb.index

devdry-update(1) says more.
"""

QUERY_HELP = """\
Prints the properties that the hardware database has for a device

Usage: devdry query [OPTIONS] <MODALIAS> [FILE]...

Arguments:
  <MODALIAS>  Device to look up, by its modalias; -: those of the standard input
  [FILE]...   Database files to read in place of the folders

Options:
      --options <FILE>     File of options to put before these, one a line, as --lint or --ignore=S2
  -r, --root <DIR>         Folder to put before each folder that is read
      --all                Go on where a file can't be read, and fail where there is none
      --sources            Say where each line comes from
      --index <FILE>       Index to read in place of the database's folders
      --stdin-name <PATH>  Name of the standard input, which is the FILE -
  -h, --help               Print help
  -V, --version            Print version

Status:
  0  the properties were printed, if there are any
  1  a line of query - is too long, or there are too many entries,
     or the index is refused, or --all found no file
  2  the command line is wrong
  3  a file, a folder, the input or an output failed
  4  out of memory

Example:
  devdry query --sources usb:v1D6Bp0002

devdry-query(1) says more.
"""

VERIFY_HELP = """\
Checks rules files

Usage: devdry verify [OPTIONS] [FILE]...

Arguments:
  [FILE]...  Rules files, or with --links .link files, to read in place of the folders

Options:
      --options <FILE>     File of options to put before these, one a line, as --lint or --ignore=S2
  -r, --root <DIR>         Folder to put before each folder that is read
      --with <FILE>        Rules file to read among those of the folders, by its name
  -s, --strict             Make every check: --lint, --udev, --all, users and groups of the root
      --all                Go on where a file can't be read, and fail where there is none
      --format <FORMAT>    How messages are written: plain, gcc, github, gitlab, json, sarif or human
      --color <WHEN>       When messages for people are in colors: auto, always or never
      --ignore <CODES>     Leave out the messages of these codes, as V6,S; comments: as the files say
      --no-summary         Do not count the good and the bad files
      --no-style           Give no messages about style
      --lint               Also tell of rules that are most likely not the ones that were meant
      --links              Check .link files in place of rules
      --udev               Read rules as udev itself reads them
      --users <FILE>       With --udev: users that OWNER may name, as in /etc/passwd
      --groups <FILE>      With --udev: groups that GROUP may name, as in /etc/group
      --stdin-name <PATH>  Name of the standard input, which is the FILE -
  -h, --help               Print help
  -V, --version            Print version

Status:
  0  no file is bad
  1  a file is bad, or there are too many rules, or --all found no file
  2  the command line is wrong
  3  a file, a folder or an output failed
  4  out of memory

Example:
  devdry verify 60-mine.rules

devdry-verify(1) says more.
"""

EVENTS_HELP = """\
Answers the event blocks of the standard input

Usage: devdry events [OPTIONS] [FILE]...

Arguments:
  [FILE]...  Rules files to read in place of the folders

Options:
      --options <FILE>     File of options to put before these, one a line, as --lint or --ignore=S2
  -r, --root <DIR>         Folder to put before each folder that is read
      --with <FILE>        Rules or database file to read among those of the folders, by its name
      --all                Go on where a file can't be read, and fail where there is none
      --format <FORMAT>    How answers are written: plain, json or human (plain, with advice on faults)
      --sources            Say where each line comes from
      --why <FILE[:LINE]>  Say what the rules of this file, or the one of this line, met
      --unused             Report, after the last answer, the rules that no block reached or met
      --questions          Print the commands that the blocks do not answer, in place of answers
      --index <FILE>       Index to read in place of the database's folders
      --udev               Read and evaluate rules as udev itself does
  -h, --help               Print help
  -V, --version            Print version

Status:
  0  all blocks were answered
  1  a block is faulty, or there are too many rules or entries,
     or the index is refused, or --all found no rules file
  2  the command line is wrong, or --why names what no rule has
  3  a file, a folder, the input or an output failed
  4  out of memory

Example:
  devdry events 60-mine.rules < disk.block

devdry-events(1) says more.
"""

FILES_HELP = """\
Lists the files of the folders, and says which of them are read

Usage: devdry files [OPTIONS]

Options:
      --options <FILE>  File of options to put before these, one a line, as --lint or --ignore=S2
  -r, --root <DIR>      Folder to put before each folder that is read
      --with <FILE>     Rules or database file to read among those of the folders, by its name
  -h, --help            Print help
  -V, --version         Print version

Status:
  0  the files were listed
  1  there is no file
  2  the command line is wrong
  3  a file, a folder or an output failed
  4  out of memory

Example:
  devdry files -r /mnt

devdry-files(1) says more.
"""

COMPARE_HELP = """\
Tells where two systems answer the event blocks of the standard input differently

Usage: devdry compare [OPTIONS] <OLD> <NEW>

Arguments:
  <OLD>  Root of the system before
  <NEW>  Root of the system after

Options:
      --options <FILE>   File of options to put before these, one a line, as --lint or --ignore=S2
      --with <FILE>      Rules or database file to read among those of NEW, by its name
      --all              Go on where a file can't be read, and fail where there is none
      --format <FORMAT>  How answers are written: plain, json or human (plain, with advice on faults)
      --sources          Say where each line comes from
      --index <FILE>     Index to read in place of the database's folders
      --udev             Read and evaluate rules as udev itself does
      --rules            OLD and NEW are rules files, or folders of them
  -h, --help             Print help
  -V, --version          Print version

Status:
  0  no answer differs
  1  an answer differs, or a block is faulty, or a root has no
     rules, or there are too many rules or entries, or the index
     is refused
  2  the command line is wrong
  3  a file, a folder, the input or an output failed
  4  out of memory

Example:
  devdry compare /mnt/old /mnt/new < disk.block

devdry-compare(1) says more.
"""

FMT_HELP = """\
Mends commas and blanks in rules files

Usage: devdry fmt [OPTIONS] <FILE>...

Arguments:
  <FILE>...  Rules files to mend; -: the standard input

Options:
      --options <FILE>     File of options to put before these, one a line, as --lint or --ignore=S2
      --check              Only list the files that would change, with status 1
      --stdin-name <PATH>  Name of the standard input, which is the FILE -
  -h, --help               Print help
  -V, --version            Print version

Status:
  0  the files were mended, or with --check none would change
  1  with --check a file would change
  2  the command line is wrong
  3  a file, the input or an output failed
  4  out of memory

Example:
  devdry fmt 60-mine.rules > mended.rules

devdry-fmt(1) says more.
"""

EXPLAIN_HELP = """\
Explains a message by its code, with a faulty file and the fixed one

Usage: devdry explain <CODE>

Arguments:
  <CODE>  Code of a message, as V6

Options:
  -h, --help     Print help
  -V, --version  Print version

Status:
  0  the message was explained
  2  the command line is wrong, or no message has the code
  3  an output failed
  4  out of memory

Example:
  devdry explain V6

devdry-explain(1) says more.
"""

# what is said about S2; tests/test_explain.sh has the others
EXPLAINED = """\
S2 blank after a comma expected

Put a space after the comma.

    $ cat s2.rules
    KERNEL=="sda",TAG+="disk"
    $ devdry verify s2.rules
    s2.rules:1: S2 blank after a comma expected: TAG
    1 files checked, 0 good, 1 bad
    $ cat s2-fixed.rules
    KERNEL=="sda", TAG+="disk"
    $ devdry verify s2-fixed.rules
    1 files checked, 1 good, 0 bad
"""

TWO_DATABASES = """\
error: the argument '--index <FILE>' cannot be used with '[FILE]...'

Usage: devdry query --index <FILE> <MODALIAS>

For more information, try '--help'.
"""

LINKS_AS_RULES = """\
error: the argument '--links' cannot be used with '--with <FILE>', '--udev', '--users <FILE>', '--groups <FILE>' or '--strict'

Usage: devdry verify --links [FILE]...

For more information, try '--help'.
"""

INPUT_TWICE = """\
error: '-' can't be '[FILE]...' where the standard input has event blocks or modaliases

For more information, try '--help'.
"""

ADDED_TO_RULES = """\
error: the argument '--with <FILE>' cannot be used with '--rules'

Usage: devdry compare --rules <OLD> <NEW>

For more information, try '--help'.
"""

ADDED_TO_NAMED = """\
error: the argument '--with <FILE>' cannot be used with '[FILE]...'

For more information, try '--help'.
"""

ADDED_TO_INDEX = """\
error: the argument '--with <FILE>' cannot add to the database with '--index <FILE>'

For more information, try '--help'.
"""

TWO_ANSWERS = """\
error: the argument '--questions' cannot be used with '--sources', '--why <FILE[:LINE]>' or '--unused'

Usage: devdry events --questions [FILE]...

For more information, try '--help'.
"""

NO_NEW = """\
error: the following required arguments were not provided:
  <NEW>

Usage: devdry compare <OLD> <NEW>

For more information, try '--help'.
"""

NO_UDEV = """\
error: the arguments '--users <FILE>' and '--groups <FILE>' need '--udev' or '--strict'

Usage: devdry verify --udev --users <FILE> --groups <FILE> [FILE]...

For more information, try '--help'.
"""

EMPTY_ROOT = """\
error: an empty value of '--root <DIR>' names no folder

For more information, try '--help'.
"""

EMPTY_SIDE = """\
error: an empty value of '<OLD>' or '<NEW>' names no folder; '/' is that of the running system

For more information, try '--help'.
"""

NO_SUCH_FORMAT = """\
error: invalid value 'xml' for '--format <FORMAT>'
  [possible values: plain, gcc, github, gitlab, json, sarif, human]

For more information, try '--help'.
"""

NO_ANSWER_FORMAT = """\
error: invalid value 'gcc' for '--format <FORMAT>'
  [possible values: plain, json, human]

For more information, try '--help'.
"""

LINES_BESIDE_JSON = """\
error: the argument '--format=json' cannot be used with '--unused' or '--questions'

Usage: devdry events --format=json [FILE]...

For more information, try '--help'.
"""

NO_SUCH_COLOR = """\
error: invalid value 'yes' for '--color <WHEN>'
  [possible values: auto, always, never]

For more information, try '--help'.
"""


# what ends each of these texts
MORE = "\nFor more information, try '--help'.\n"


def not_added(path, endings):
    """What is said about a file that can't be added, by how its name may end."""
    return f"error: invalid value '{path}' for '--with <FILE>': its name has to end in {endings}\n{MORE}"


def not_a_command(word):
    """What is said about a word that is no command."""
    return f"error: unrecognized subcommand '{word}'\n\nUsage: devdry <COMMAND>\n{MORE}"


NO_SUCH_CODE = """\
error: invalid value 'V27' for '<CODE>'
  [possible values: V1, V2, V3, V4, V5, V6, V7, V8, V9, V10, V11, V12, V13, V14, V15, V16, V17, V18, V19, V20, V21, V22, V23, V24, V25, V26, S1, S2, S3, S4, S5, S6, H1, H2, H3, H4, H5, H6, W1, W2, W3, W4, W5, W6, W7, W8, W9, W10, W11, W12, W13, W14, W15, W16, W17, W18, W19, W20, W21, W22, W23, W24, W25, W26, W27, D1, D2, D3, D4, D5, D6, D7, D8, D9, D10, D11, D12, D13, L1, L2, L3, L4, L5, I1, I2]

For more information, try '--help'.
"""

HELPS = {
    "verify": VERIFY_HELP,
    "query": QUERY_HELP,
    "update": UPDATE_HELP,
    "events": EVENTS_HELP,
    "files": FILES_HELP,
    "compare": COMPARE_HELP,
    "fmt": FMT_HELP,
    "explain": EXPLAIN_HELP,
}

# (words, the answer)
ASKED = [
    ("--help", HELP),
    ("-h", HELP),
    ("help", HELP),
    *((words, text) for command, text in HELPS.items() for words in (f"{command} --help", f"{command} -h", f"help {command}")),
    ("explain S2", EXPLAINED),
    ("explain s2", EXPLAINED),
    ("--version", "devdry 0.1.0\n"),
    ("-V", "devdry 0.1.0\n"),
    *((f"{command} {word}", f"devdry-{command} 0.1.0\n") for command in HELPS for word in ("--version", "-V")),
]

# (words, the text that says what is wrong with them, or its first line)
NOT_UNDERSTOOD = [
    ("", HELP),
    ("none", not_a_command("none")),
    ("install", not_a_command("install")),
    ("help none", not_a_command("none")),
    ("verify --none", "error: unexpected argument '--none' found\n"),
    ("events --strict", "error: unexpected argument '--strict' found\n"),
    ("verify --sources", "error: unexpected argument '--sources' found\n"),
    ("query --lint m", "error: unexpected argument '--lint' found\n"),
    ("verify --why a.rules", "error: unexpected argument '--why' found\n"),
    ("query m --why a.rules", "error: unexpected argument '--why' found\n"),
    ("verify --questions a.rules", "error: unexpected argument '--questions' found\n"),
    ("compare --questions a b", "error: unexpected argument '--questions' found\n"),
    ("events --questions --sources", TWO_ANSWERS),
    ("events a.rules --why a.rules --udev --questions", TWO_ANSWERS),
    ("events --questions --unused", TWO_ANSWERS),
    ("compare --unused a b", "error: unexpected argument '--unused' found\n"),
    ("verify --unused a.rules", "error: unexpected argument '--unused' found\n"),
    ("events --links", "error: unexpected argument '--links' found\n"),
    ("verify --links --strict", LINKS_AS_RULES),
    ("verify --links --udev a.link", LINKS_AS_RULES),
    ("verify --with a.link --links b.link", LINKS_AS_RULES),
    ("verify --users passwd --links", LINKS_AS_RULES),
    ("verify --links --groups= a.link", LINKS_AS_RULES),
    ("query m --strict", "error: unexpected argument '--strict' found\n"),
    ("update --index a.index", "error: unexpected argument '--index' found\n"),
    ("query --index a.index m a.hwdb", TWO_DATABASES),
    ("query m a.hwdb b.hwdb --index=a.index", TWO_DATABASES),
    ("verify a.rules --with b.rules", ADDED_TO_NAMED),
    ("verify --with a.txt b.rules", ADDED_TO_NAMED),
    ("events --with b.hwdb a.rules", ADDED_TO_NAMED),
    ("events --index a.index --with b.rules --with b.hwdb", ADDED_TO_INDEX),
    ("compare --with b.hwdb --index=a.index old new", ADDED_TO_INDEX),
    ("verify --with a.hwdb", not_added("a.hwdb", ".rules")),
    ("verify --with a.rules --with b.rules.old --with c", not_added("b.rules.old", ".rules")),
    ("events --with a.hwdb --with a.rules/", not_added("a.rules/", ".rules or .hwdb")),
    ("events --with=", not_added("", ".rules or .hwdb")),
    ("files --with a.RULES", not_added("a.RULES", ".rules or .hwdb")),
    ("compare --with rules old new", not_added("rules", ".rules or .hwdb")),
    ("query --with a.hwdb m", "error: unexpected argument '--with' found\n"),
    ("update --with a.hwdb", "error: unexpected argument '--with' found\n"),
    ("compare a", NO_NEW),
    ("compare a b c", "error: unexpected argument 'c' found\n"),
    ("compare -r a b c", "error: unexpected argument '-r' found\n"),
    ("files a.rules", "error: unexpected argument 'a.rules' found\n"),
    ("explain V1 V2", "error: unexpected argument 'V2' found\n"),
    ("explain V27", NO_SUCH_CODE),
    ("files --all", "error: unexpected argument '--all' found\n"),
    ("events --lint", "error: unexpected argument '--lint' found\n"),
    ("query --udev x", "error: unexpected argument '--udev' found\n"),
    ("update --udev", "error: unexpected argument '--udev' found\n"),
    ("verify --users passwd a.rules", NO_UDEV),
    ("verify --groups= --lint", NO_UDEV),
    ("events --users passwd", "error: unexpected argument '--users' found\n"),
    ("update --groups group", "error: unexpected argument '--groups' found\n"),
    ("events --format gcc", NO_ANSWER_FORMAT),
    ("events --format=xml a.rules", NO_ANSWER_FORMAT.replace("gcc", "xml")),
    ("compare --format= a b", NO_ANSWER_FORMAT.replace("gcc", "")),
    ("compare --format=sarif a b", NO_ANSWER_FORMAT.replace("gcc", "sarif")),
    ("events --unused --format=json a.rules", LINES_BESIDE_JSON),
    ("events --format json --questions", LINES_BESIDE_JSON),
    ("compare --rules --with=a.rules a b", ADDED_TO_RULES),
    ("compare --rules a.rules -", INPUT_TWICE),
    ("compare --rules - a.rules", INPUT_TWICE),
    ("events --rules a", "error: unexpected argument '--rules' found\n"),
    ("query --format json m", "error: unexpected argument '--format' found\n"),
    ("events --ignore V6", "error: unexpected argument '--ignore' found\n"),
    ("update --format=xml a.hwdb", NO_SUCH_FORMAT),
    ("verify --color=yes a.rules", NO_SUCH_COLOR),
    ("update --color= a.hwdb", NO_SUCH_COLOR.replace("yes", "")),
    ("events --color=never", "error: unexpected argument '--color' found\n"),
    ("query --color=never m", "error: unexpected argument '--color' found\n"),
    ("verify --all --root=", EMPTY_ROOT),
    ("verify --strict --root=", EMPTY_ROOT),
    (["query", "--all", "-r", "", "m"], EMPTY_ROOT),
    (["update", "-r", "", "--all"], EMPTY_ROOT),
    (["files", "-r", ""], EMPTY_ROOT),
    ("files --root=", EMPTY_ROOT),
    (["compare", "", "new"], EMPTY_SIDE),
    (["compare", "old", ""], EMPTY_SIDE),
    (["compare", "", ""], EMPTY_SIDE),
    (["compare", "--index", "none", "old", ""], EMPTY_SIDE),
    (["verify", b"\xff"], f"error: an argument is not UTF-8\n{MORE}"),
]


def said(text):
    """What is said about words: all of it, if the text has its last line, and otherwise how it begins."""
    return text if text == HELP or text.endswith(MORE) else Begins(text.encode())


# The index of ` K=V` after `a*` in version 1, and in version 2 as of line 2 of t.hwdb; and the one of no entry.
FIRST_VERSION = bytes.fromhex("""\
6465766472796877 01000000 03000000 01000000 00000000 02000000 00000000
00000000 00000000 01000000 01000000 00000000 00000000
01610000 00000000 02000000 01000000 00000000 00000000
03000000 00000000 03000000 00000000 00000000 01000000
00000000 01000000 01000000 01000000 00000000
4b56""")
SECOND_VERSION = bytes.fromhex("""\
6465766472796877 02000000 03000000 01000000 00000000 08000000 00000000
00000000 00000000 01000000 01000000 00000000 00000000
01610000 00000000 02000000 01000000 00000000 00000000
03000000 00000000 03000000 00000000 00000000 01000000
00000000 01000000 01000000 01000000 00000000 02000000 06000000 02000000
4b56742e68776462""")
EMPTY_INDEX = bytes.fromhex("""\
6465766472796877 02000000 01000000 00000000 00000000 00000000 00000000
00000000 00000000 01000000 00000000 00000000 00000000""")

# two rules files: the first has a mistake and a point of style, the second only a point of style
RULES = {"b.rules": 'FOO=="x"\nKERNEL=="a",TAG+="t"\n', "a.rules": 'KERNEL=="a" TAG+="t"\n'}
MISTAKE = "b.rules:1: V2 unknown key: FOO\n"
STYLE = "b.rules:2: S2 blank after a comma expected: TAG\na.rules:1: S1 one comma expected: TAG\n"
# two whose order shows in their answers
ADDING = {"b.rules": 'ENV{A}+="b"\n', "a.rules": 'ENV{A}+="a"\nIMPORT{builtin}="hwdb abc"\n'}
BLOCK = "C: add\nP: /x\n"
ADDED = "event add /x\nenv A=b a\nenv ACTION=add\nenv DEVPATH=/x\n\n"
ADDED_WITH_INDEX = "event add /x\nenv A=b a\nenv ACTION=add\nenv DEVPATH=/x\nenv K=V\n\n"

# (words, files, input, output, messages, status)
UNDERSTOOD = [
    ("query -r /mnt usb:v1 --sources a.hwdb -- -b", {"a.hwdb": "usb:*\n A=1\n", "-b": "usb:v?\n B=2\n"}, "",
     "a.hwdb:2: A=1\n-b:2: B=2\n", "", 0),
    ("query --index a.index abc", {"a.index": FIRST_VERSION}, "", "K=V\n", "", 0),
    ("query abc --index=- --sources", {"-": FIRST_VERSION}, "", "-: K=V\n", "", 0),
    ("query --sources --index a.index abc", {"a.index": SECOND_VERSION}, "", "t.hwdb:2: K=V\n", "", 0),
    ("query --index a.index xbc", {"a.index": FIRST_VERSION}, "", "", "", 0),
    ("query --index t.hwdb abc", {"t.hwdb": "m*\n A=1\n"}, "", "", "devdry: index: short\n", 1),
    ("events --index t.hwdb a.rules", {"t.hwdb": "m*\n A=1\n", "a.rules": 'FOO=="x"\n'}, "C: ", "",
     "devdry: index: short\n", 1),
    ("update -- t.hwdb", {"t.hwdb": "a*\n K=V\n"}, "", SECOND_VERSION, "", 0),
    ("update t.hwdb", {"t.hwdb": " A=1\n"}, "", EMPTY_INDEX, "t.hwdb:1: H1 property without a match: A=1\n", 0),
    ("update -s t.hwdb", {"t.hwdb": " A=1\n"}, "", EMPTY_INDEX, "t.hwdb:1: H1 property without a match: A=1\n", 1),
    ("update t.hwdb --strict", {"t.hwdb": " A=1\n"}, "", EMPTY_INDEX, "t.hwdb:1: H1 property without a match: A=1\n", 1),
    ("update --strict -r none", {}, "", EMPTY_INDEX, "", 0),
    ("verify b.rules a.rules", RULES, "", "2 files checked, 0 good, 2 bad\n", MISTAKE + STYLE, 1),
    ("verify --root /mnt --no-style b.rules a.rules", RULES, "", "2 files checked, 1 good, 1 bad\n", MISTAKE, 1),
    ("verify --no-summary b.rules a.rules", RULES, "", "", MISTAKE + STYLE, 1),
    ("verify --no-summary --no-style a.rules", RULES, "", "", "", 0),
    ("events -r none b.rules a.rules", ADDING, BLOCK, ADDED, "", 0),
    ("events b.rules --index i a.rules", {**ADDING, "i": FIRST_VERSION}, BLOCK, ADDED_WITH_INDEX, "", 0),
    ("events --index a.index -r .", {"a.index": FIRST_VERSION, "run/udev/rules.d/a.rules": ADDING["a.rules"]}, BLOCK,
     "event add /x\nenv A=a\nenv ACTION=add\nenv DEVPATH=/x\nenv K=V\n\n", "", 0),
]


def named(words):
    """The words as the name of a row."""
    if isinstance(words, str):
        return words or "no words"
    return " ".join("an argument that is not UTF-8" if isinstance(word, bytes) else word or "''" for word in words)


ROWS = [
    *(Row(named(words), words, output=output) for words, output in ASKED),
    *(Row(named(words), words, messages=said(text), status=2) for words, text in NOT_UNDERSTOOD),
    *(Row(named(words), words, *rest) for words, *rest in UNDERSTOOD),
]
