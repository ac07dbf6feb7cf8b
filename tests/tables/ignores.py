"""`--ignore`: messages that are neither reported nor counted, comments in files, and those that ignore nothing."""
from tables.kinds.index_bytes import EMPTY
from tables.kinds.row import Row
from tables.kinds.verified import verified

# A file with four messages, the last two about one line.
UNKNOWN = ('FOO=="x", TAG+="t"', "V2 unknown key: FOO")
LOST = ('KERNEL=="sd*", GOTO="end"', "V7 no later label: end")
STYLE = ('ENV{A}:="1",TAG+="t"', "S3 operator read as =: ENV", "S2 blank after a comma expected: TAG")
EVERY = [UNKNOWN, LOST, STYLE]
TEXT = "".join(f"{line[0]}\n" for line in EVERY)


def silent(line, *codes):
    """A line with the messages that are left if these codes are ignored."""
    return (line[0], *(said for said in line[1:] if said.split()[0] not in codes))


def without(codes, words=None):
    """A run over all of them that ignores these codes."""
    ignored = codes.split(",")
    return verified(f"without {codes}, {words or 'in one argument'}", *(silent(line, *ignored) for line in EVERY),
                    words=words or f"verify --ignore {codes}")


def idle(code):
    return f"I1 nothing to ignore: {code}"


def unknown(code):
    return f"I2 unknown code: {code}"


def commented(name, *lines, words="verify --ignore comments"):
    """A run that honours comments."""
    return verified(name, *lines, words=words)


CODES = [
    *(without(codes) for codes in ["V2", "V7", "S2", "S3", "V2,V7", "S2,S3", "V2,V7,S2", "V2,V7,S2,S3", "S3,S2,V7,V2", "V2,V2",
    "V6", "H1", "S1,V12"]),
    without("V2,S2", "verify --ignore V2 --ignore S2"),
    without("S2,S3", "verify --ignore S"),
    without("V2,V7", "verify --ignore=V"),
    without("V2,V7,S2,S3", "verify --ignore S,V"),
    without("V2,S2,S3", "verify --ignore V2,S"),
    without("", "verify --ignore H,W,I"),
    Row("a class of codes without the lints", "verify --lint --ignore W r.rules", {"r.rules": 'ATTRS{idVendor}=="0BDA", SYMLINK+="x"\n'},
        output="1 files checked, 1 good, 0 bad\n"),
    without("V2,S2,S3", "verify --ignore=V2,S2 --ignore S3"),
    Row("without V2 and V7, and without the summary", "verify --ignore V7 --ignore V7,V2 --no-summary r.rules", {"r.rules": TEXT},
        messages="".join(f"r.rules:3: {said}\n" for said in STYLE[1:]), status=1),
    Row("--ignore with --no-style", "verify --no-style --ignore V2,S2 r.rules", {"r.rules": TEXT},
        output="1 files checked, 0 good, 1 bad\n", messages="r.rules:2: V7 no later label: end\n", status=1),
    Row("a file whose messages are all ignored is good", "verify --ignore V1 a.rules b.rules", {"a.rules": "FOO\n",
        "b.rules": "BAR\n" + 'TAG=="t",\n'},
        output="2 files checked, 1 good, 1 bad\n", messages="b.rules:2: S1 one comma expected\n", status=1),
    Row("--ignore after the files", "verify a.rules --ignore V1", {"a.rules": "FOO\n"}, output="1 files checked, 1 good, 0 bad\n"),
    Row("with --format", "verify --ignore V2,S3 --format=gcc r.rules", {"r.rules": TEXT},
        output="1 files checked, 0 good, 1 bad\n",
        messages="r.rules:2:22: error: no later label: end [V7]\nr.rules:3:13: warning: blank after a comma expected: TAG [S2]\n", status=1),
    # what is dropped stays dropped: it has no label
    verified("an ignored fault still drops its rule", ('GOTO="x"', "V7 no later label: x"), 'LABEL="x", FOO="1"',
        words="verify --ignore V2"),
]

# Files of the database.
H = " A=1\n\nm1\n\nm2\n =x\n"
H1, H2, H5 = "t.hwdb:1: H1 property without a match: A=1\n", "t.hwdb:3: H2 match without a property: m1\n", "t.hwdb:6: H5 empty key: =x\n"


def updated(name, words, messages, status=0, text=H):
    """A run of `update` over a file without an entry."""
    return Row(name, f"update {words} t.hwdb", {"t.hwdb": text}, output=EMPTY, messages=messages, status=status)


DATABASE = [
    updated("update without H1", "--ignore H1", H2 + H5),
    updated("update without two codes", "--ignore H1,H5", H2),
    updated("update --strict, with one message left", "-s --ignore H1,H5", H2, 1),
    updated("update --strict, with no message left", "-s --ignore H1,H5,H2", ""),
    updated("update --strict, without the class of messages about the database", "-s --ignore H", ""),
    updated("update --strict without codes of rules", "-s --ignore V1,S2", H1 + H2 + H5, 1),
    updated("update --strict without codes of lints", "-s --ignore W1,W13", H1 + H2 + H5, 1),
    updated("update with --format", "-s --ignore H2,H5 --format=github",
        "::error file=t.hwdb,line=1,col=2,endColumn=5,title=H1::property without a match: A=1\n", 1),
    updated("a comment in a file of the database", "-s --ignore comments", "",
        text="# devdry: ignore H2\nm1\n\n# devdry: ignore H1\n A=1\n"),
    updated("comments without --ignore, for update", "-s", "t.hwdb:2: H2 match without a property: m1\n", 1, "# devdry: ignore H2\nm1\n"),
    updated("a comment about the whole file", "-s --ignore comments", "", text="m1\n\nm2\n\n# devdry: ignore-file H2\nm3\n"),
    updated("a comment that ignores nothing", "--ignore comments",
        "t.hwdb:1: I1 nothing to ignore: H1\nt.hwdb:2: H2 match without a property: m1\n",
            text="# devdry: ignore H1\nm1\n"),
    updated("a comment that ignores nothing, with --strict", "-s --ignore comments", "t.hwdb:1: I1 nothing to ignore: H1\n", 1,
        "# devdry: ignore H1\n"),
]

COMMENTS = [
    commented("a comment is about the next rule", "# devdry: ignore V2", UNKNOWN[0], UNKNOWN),
    commented("several codes", "# devdry: ignore S3,S2", STYLE[0], STYLE),
    commented("blanks around codes", "# devdry: ignore  S3, S2 ", STYLE[0], "# devdry: ignore \tS2", silent(STYLE, "S2")),
    commented("a comment that ends in a carriage return", "# devdry: ignore-file S3,S2\r", STYLE[0]),
    commented("a reason after a code", "# devdry: ignore S3 -- udev reads it as =", silent(STYLE, "S3")),
    commented("a reason after several codes", "# devdry: ignore S3, S2 -- as upstream has it, V2 -- S4", STYLE[0]),
    commented("a reason for the whole file", "# devdry: ignore-file S2,S3 -- upstream", STYLE[0]),
    commented("a reason with nothing to ignore", ("# devdry: ignore V6 -- upstream", idle("V6")), UNKNOWN),
    commented("an unknown code before a reason", ("# devdry: ignore X -- upstream", unknown("X")), UNKNOWN),
    commented("two dashes without a reason", ("# devdry: ignore V2 --", unknown("V2 --")), UNKNOWN),
    commented("a reason without codes", ("# devdry: ignore  -- upstream", "I2 unknown code"), UNKNOWN),
    commented("a reason after one dash", ("# devdry: ignore V2 - upstream", unknown("V2 - upstream")), UNKNOWN),
    commented("comments on comments are a class", "# devdry: ignore V6,X", UNKNOWN, words="verify --ignore comments,I"),
    commented("one of two codes", "# devdry: ignore S3", silent(STYLE, "S3")),
    commented("two comments about one rule", "# devdry: ignore S3", "# devdry: ignore S2", STYLE[0]),
    commented("another comment between the comment and its rule", "# devdry: ignore V2", "# It is so on purpose.", UNKNOWN[0]),
    commented("an indented comment", " \t# devdry: ignore V2", " " + UNKNOWN[0]),
    commented("an empty line between the comment and its rule", "# devdry: ignore V2", "", UNKNOWN[0]),
    commented("a comment is about the whole of a continued rule", "# devdry: ignore V2", 'KERNEL=="a", \\', '  FOO="1"', UNKNOWN),
    commented("a comment about a jump, and one about a label", "# devdry: ignore V7", LOST[0], "# devdry: ignore S4", 'LABEL="x"'),
    commented("a comment about the last line of a file", "TAG=\"t\"", "# devdry: ignore V12", 'TAG="u" \\'),
    commented("a comment about the whole file may be anywhere in the file", UNKNOWN[0], silent(LOST), "# devdry: ignore-file V2",
        UNKNOWN[0], UNKNOWN[0]),
    commented("a comment about the whole file, and one about a rule", "# devdry: ignore-file S2", silent(STYLE, "S2"), "# devdry: ignore S3", STYLE[0],
        silent(STYLE, "S2")),
    commented("codes on the command line and codes in comments", "# devdry: ignore S2", STYLE[0], silent(STYLE, "S3"),
        words="verify --ignore S3,comments"),
    commented("nothing to ignore", ("# devdry: ignore V6", idle("V6")), UNKNOWN),
    commented("one of two codes has nothing to ignore", ("# devdry: ignore V2,V6", idle("V6")), UNKNOWN[0]),
    commented("a comment without a rule after it", UNKNOWN, ("# devdry: ignore V2", idle("V2"))),
    commented("a comment before a good rule", ("# devdry: ignore V2", idle("V2")), 'TAG="t"', UNKNOWN),
    commented("nothing to ignore in the whole file", 'TAG="t"', ("# devdry: ignore-file S1", idle("S1"))),
    commented("an unknown code", ("# devdry: ignore X6", unknown("X6")), UNKNOWN),
    commented("an unknown code and a known one", ("# devdry: ignore V2,V99", unknown("V99")), UNKNOWN[0]),
    commented("an unknown code for the whole file", ("# devdry: ignore-file none", unknown("none"))),
    commented("other comments have no effect", "# devdry", "# devdry is asked to ignore V2", "# ignore V2", UNKNOWN),
    verified("--ignore with a code, without comments", "# devdry: ignore V2", UNKNOWN, "# devdry: ignore-file X9",
        words="verify --ignore S2"),
    verified("comments without --ignore", "# devdry: ignore V2", UNKNOWN, "# devdry: ignore X9"),
    Row("a comment is about its own file", "verify --ignore comments a.rules b.rules",
        {"a.rules": "# devdry: ignore-file V1\nFOO\n", "b.rules": "FOO\n"}, output="2 files checked, 1 good, 1 bad\n",
        messages="b.rules:1: V1 bad syntax: FOO\n", status=1),
    Row("with --format the place is the code before a reason", "verify --ignore comments --format=gcc r.rules",
        {"r.rules": "# devdry: ignore V6, X -- upstream\n"}, output="1 files checked, 0 good, 1 bad\n",
        messages="r.rules:1:18: warning: nothing to ignore: V6 [I1]\nr.rules:1:22: warning: unknown code: X [I2]\n", status=1),
    Row("with --format the place is the code in the comment", "verify --ignore comments --format json r.rules",
        {"r.rules": "# devdry: ignore V6,  X \nFOO\n"}, output="""\
{"path":"r.rules","line":1,"column":18,"end_column":20,"code":"I1","text":"nothing to ignore","word":"V6","severity":"warning"}
{"path":"r.rules","line":1,"column":23,"end_column":24,"code":"I2","text":"unknown code","word":"X","severity":"warning"}
{"path":"r.rules","line":2,"column":1,"end_column":4,"code":"V1","text":"bad syntax","word":"FOO","severity":"error"}
""", status=1),
]

# what is said about a part of `--ignore` that is neither a code nor `comments`, before any file is looked at
NO_SUCH_CODE = """\
error: invalid value '{}' for '--ignore <CODES>'
  [possible values: V1, V2, V3, V4, V5, V6, V7, V8, V9, V10, V11, V12, V13, V14, V15, V16, V17, V18, V19, V20, V21, V22, V23, V24, V25, V26, S1, S2, S3, S4, S5, S6, H1, H2, H3, H4, H5, H6, W1, W2, W3, W4, W5, W6, W7, W8, W9, W10, W11, W12, W13, W14, W15, W16, W17, W18, W19, W20, W21, W22, W23, W24, W25, W26, W27, D1, D2, D3, D4, D5, D6, D7, D8, D9, D10, D11, D12, D13, L1, L2, L3, L4, L5, I1, I2, V, S, H, W, D, L, I, comments]

For more information, try '--help'.
"""

# (words, the code that does not exist)
UNKNOWN_CODES = [
    ("verify --ignore X6 r.rules", "X6"),
    ("verify --ignore V6,X6 r.rules", "X6"),
    ("verify --ignore V27 r.rules", "V27"),
    ("verify --ignore V0,X r.rules", "V0"),
    ("verify --ignore Q r.rules", "Q"),
    ("verify --ignore V2 --ignore bad r.rules", "bad"),
    ("verify --ignore bad,V2 --ignore worse r.rules", "bad"),
    ("verify --ignore v2 r.rules", "v2"),
    ("verify --ignore i1 r.rules", "i1"),
    ("verify --ignore I3 r.rules", "I3"),
    ("verify --ignore W0 r.rules", "W0"),
    ("verify --lint --ignore W28 r.rules", "W28"),
    ("update --ignore w1 r.rules", "w1"),
    ("verify --ignore comment r.rules", "comment"),
    ("verify --ignore Comments r.rules", "Comments"),
    ("verify --ignore= r.rules", ""),
    ("verify --ignore V2, r.rules", ""),
    ("update --ignore H7 r.rules", "H7"),
    ("verify --ignore X6 none.rules", "X6"),
    ("verify --all --ignore X6 none.rules", "X6"),
    ("update --all --ignore X6 -r none", "X6"),
]


def refused(name, words, code):
    """A run over a file that is refused for this code."""
    return Row(name, words, {"r.rules": "FOO\n"}, messages=NO_SUCH_CODE.replace("{}", code), status=2)


ROWS = [
    *CODES,
    *DATABASE,
    *COMMENTS,
    *(refused(f"an unknown code, {words}", words, code) for words, code in UNKNOWN_CODES),
    refused("a blank before a code", ["verify", "--ignore", "V1, V2", "r.rules"], " V2"),
    refused("a code with a tab", ["verify", "--ignore", "a\tb", "r.rules"], "a b"),
]
