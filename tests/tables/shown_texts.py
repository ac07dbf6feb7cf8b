"""Texts as messages and answers show them: what is escaped, what is a sign for people, and where the word of a message ends."""
from tables.kinds.answered import answered
from tables.kinds.people import BLOCKS, FILES, link_to
from tables.kinds.row import FOLDER, Begins, Link, Row

ONE_BAD = "1 files checked, 0 good, 1 bad\n"


def reported(name, file, text, messages):
    """A run of `verify` over one bad file."""
    return Row(name, ["verify", file], {file: text}, output=ONE_BAD, messages=messages, status=1)


# A name with characters that a terminal obeys, that turn a line round, or that end one; and as `human` shows it.
NAME = "a\u009b2J\u061c\u200e\u202e\u2028\u2029\u2066\x1b"
SIGNS = "a\u00bf2J\u0606\u203d\u203d\u203d\u203d\u2047\\x1B"
# The same in the other formats, which escape control bytes of ASCII alone.
ESCAPED = NAME.replace("\x1b", "\\x1B")
RULES = "etc/udev/rules.d"
NETWORK = "etc/systemd/network"
BLOCK = "C: add\nP: /a\nU: net\n\n"
ANSWER = "event add /a\nenv ACTION=add\nenv DEVPATH=/a\nenv SUBSYSTEM=net\n\n"
NOT_USED = "not used: a line of it or of a drop-in is not understood"
OTHER_KIND = "a file of the hardware database by its name, which devdry update checks"


def lost(path):
    """What is said of a file that is not there."""
    return f"devdry: cannot read {path}\n"


def unread(path, target):
    """The same with --all of a link to nothing."""
    return f"devdry: cannot read {path}: link to nothing: {target}\n"


# What is told in lines that are no messages.
LINES = [
    Row("a file that is not there, plain", ["verify", NAME], messages=lost(ESCAPED), status=3),
    Row("a file that is not there, gcc", ["verify", "--format=gcc", NAME], messages=lost(ESCAPED), status=3),
    *(Row(f"a file that is not there, human of {command}", [command, "--format=human", NAME], input=BLOCK,
          messages=lost(SIGNS) + FILES["no such file"], status=3) for command in ("verify", "update", "events")),
    Row("an index that is not there, human of compare", ["compare", "--format=human", "--index", NAME, "old", "new"],
        {f"old/{RULES}/a.rules": "", f"new/{RULES}/a.rules": ""},
        messages=lost(SIGNS) + FILES["no such file"], status=3),
    Row("a link to nothing, human", ["verify", "--format=human", "a"], {"a": Link(NAME)}, messages=lost("a") + link_to(SIGNS), status=3),
    Row("a link to nothing with --all, plain", ["verify", "--all", "a"], {"a": Link(NAME)}, output="0 files checked, 0 good, 0 bad\n",
        messages=unread("a", ESCAPED) + "devdry: no files\n", status=3),
    Row("links to nothing with --all, human", "verify --all --format=human -r mnt", {f"mnt/{RULES}/{NAME}.rules": Link(f"/{NAME}")},
        output="0 files checked, 0 good, 0 bad\n",
        messages=unread(f"mnt/{RULES}/{SIGNS}.rules", f"/{SIGNS}") + link_to(f"/{SIGNS}") + "devdry: no files\n"
        + "".join(f"devdry: mnt/{folder}/udev/rules.d: absent\n" for folder in ("run", "usr/local/lib", "usr/lib")), status=3),
    Row("links to nothing with --all, human of events", "events --all --format=human -r mnt",
        {f"mnt/{RULES}/{NAME}.rules": Link(f"/{NAME}"), f"mnt/{RULES}/b.rules": ""},
        input=BLOCK, output=ANSWER, messages=unread(f"mnt/{RULES}/{SIGNS}.rules", f"/{SIGNS}") + link_to(f"/{SIGNS}"), status=3),
    Row("links to nothing with --all, human of compare", "compare --all --format=human old new",
        {f"old/{RULES}/{NAME}.rules": Link(f"/{NAME}"), f"old/{RULES}/b.rules": "", f"new/{RULES}/b.rules": ""},
        input=BLOCK, messages=unread(f"old/{RULES}/{SIGNS}.rules", f"/{SIGNS}") + link_to(f"/{SIGNS}"), status=3),
    Row("a .link file that is not understood, human of events", "events --udev --format=human -r mnt",
        {f"mnt/{RULES}/b.rules": "", f"mnt/{NETWORK}/{NAME}.link": "[Match\n"},
        input=BLOCK, output=ANSWER, messages=f"devdry: mnt/{NETWORK}/{SIGNS}.link: {NOT_USED}\n"),
    Row("a .link file that is not there, human of verify --links", "verify --links --format=human -r mnt", {f"mnt/{NETWORK}/{NAME}.link": Link("none")},
        output="0 files checked, 0 good, 0 bad\n", messages=unread(f"mnt/{NETWORK}/{SIGNS}.link", "none"), status=3),
    Row("a file of the other kind, human", ["verify", "--format=human", f"{NAME}.hwdb"], {f"{NAME}.hwdb": ""}, output="1 files checked, 1 good, 0 bad\n",
        messages=f"devdry: {SIGNS}.hwdb: {OTHER_KIND}\n"),
    Row("a file of the other kind, plain", ["verify", "--strict", f"{NAME}.hwdb"], {f"{NAME}.hwdb": ""}, output="1 files checked, 1 good, 0 bad\n",
        messages=f"devdry: {ESCAPED}.hwdb: {OTHER_KIND}\n"),
    Row("a folder as a file, human", ["verify", "--format=human", NAME], {NAME: FOLDER},
        messages=f"devdry: {SIGNS}: a folder, of which --all reads the files\n" + lost(SIGNS) + FILES["not a regular file"], status=3),
    Row("no file where --all looked, human", ["verify", "--all", "--format=human", NAME], {NAME: FOLDER}, output="0 files checked, 0 good, 0 bad\n",
        messages=f"devdry: no files\ndevdry: {SIGNS}: empty\n", status=1),
    Row("messages about rules, plain of events", ["events", "-r", "none", f"{NAME}.rules"], {f"{NAME}.rules": f"{NAME}\n"},
        input=BLOCK, output=ANSWER, messages=f"{ESCAPED}.rules:1: V1 bad syntax: {ESCAPED}\n"),
    Row("messages about rules, human of events", ["events", "--format=human", "-r", "none", f"{NAME}.rules"], {f"{NAME}.rules": f"{NAME}\n"},
        input=BLOCK, output=ANSWER, messages=f"{SIGNS}.rules:1: V1 bad syntax: {SIGNS}\n"),
    Row("messages about rules and a faulty block, human of events", ["events", "--format=human", "-r", "none", f"{NAME}.rules"], {f"{NAME}.rules": f"{NAME}\n"},
        input="P: /a\n", messages=f"{SIGNS}.rules:1: V1 bad syntax: {SIGNS}\nblock 1, line 1: no action\n{BLOCKS['no action']}", status=1),
    Row("messages about rules, human of compare", "compare --format=human old new",
        {f"old/{RULES}/{NAME}.rules": f"{NAME}\n", f"new/{RULES}/{NAME}.rules": f"\n{NAME}\n"}, input=BLOCK,
        messages=f"[OLD] {SIGNS}.rules:1: V1 bad syntax: {SIGNS}\n[NEW] {SIGNS}.rules:2: V1 bad syntax: {SIGNS}\n"),
    Row("an answer of events is as in plain, human", "events --format=human -r none a.rules", {"a.rules": f'TAG+="{NAME}"\n'}, input=BLOCK,
        output=ANSWER.replace("env ACTION", f"tag {ESCAPED}\nenv ACTION")),
    Row("an answer to query is its bytes", "query m a.hwdb", {"a.hwdb": f"m\n A={NAME}\n"}, output=f"A={NAME}\n"),
]

# What is said about words has no control byte but the ends of its lines, with every format and with none.
WORDS = [
    *(Row(f"words at fault, {words!r}", words, messages=Begins(said.encode()), status=2) for words, said in [
        (["explain", "V\x1b]8;;x\x07\u009b\u202e\x7f"], "error: invalid value 'V?]8;;x?\u00bf\u203d?' for '<CODE>'\n"),
        (["\x1b[2J\u009b"], "error: unrecognized subcommand '?[2J\u00bf'\n"),
        (["verify", "--\x1b[2J"], "error: unexpected argument '--?[2J' found\n"),
        (["verify", "--format=\x1bgcc\u2028"], "error: invalid value '?gcc\u203d' for "),
        (["verify", "--ignore", "V1,\x1b\x9b"], "error: invalid value '"),
        (["events", "--with", "\x1b[2J.x", "-r", "none"], "error: invalid value '?[2J.x' for "),
    ]),
    *(Row(f"a file of {option} that is not there", ["verify", "--udev", option, NAME, "r.rules"], messages=lost(SIGNS), status=3)
      for option in ("--options", "--users", "--groups")),
    Row("a word of a file of options", "verify --options o", {"o": "--\x1b\u009b\n"}, status=2,
        messages=Begins("error: o:1: not one option, as --lint or --format=gcc: --\\x1B\u00bf\n".encode())),
]

ROWS = [
    *LINES,
    *WORDS,
    answered(
        "control characters and backslashes of an answer",
        ['ENV{X}=e"60-a\\n\\\\x\\177\\037 ~\\377"'],
        ([], [b"env X=60-a\\x0A\\x5Cx\\x7F\\x1F ~\xFF"]),
    ),
    reported(
        "control characters and backslashes of a word",
        "r.rules",
        b"60-a\t\\x\x7F\x1F ~\xFF\n",
        b"r.rules:1: V1 bad syntax: 60-a\\x09\\x5Cx\\x7F\\x1F ~\xFF\n",
    ),
    reported(
        "control characters and backslashes of a file name",
        "60-a\n\\x\x7F\x1F ~.rules",
        "A\n",
        "60-a\\x0A\\x5Cx\\x7F\\x1F ~.rules:1: V1 bad syntax: A\n",
    ),
    reported(
        "a word of 32 bytes is not cut",
        "60-a.rules",
        "\n" * 6 + "0123456789abcdef0123456789abcdef01234567\n",
        "60-a.rules:7: V1 bad syntax: 0123456789abcdef0123456789abcdef\n",
    ),
    reported(
        "a word of 32 bytes that ends in an escape",
        "60-a.rules",
        "0123456789abcdef0123456789abcde\\\\ \n",
        "60-a.rules:1: V1 bad syntax: 0123456789abcdef0123456789abcde\\x5C\n",
    ),
    reported(
        "a word is cut at a byte, even within a character",
        "60-a.rules",
        "0123456789abcdef0123456789abcde\u00E4\n",
        b"60-a.rules:1: V1 bad syntax: 0123456789abcdef0123456789abcde\xC3\n",
    ),
]
