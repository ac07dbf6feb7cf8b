"""`--format` of `verify` and `update`: each format with each message.

What is wanted was written by hand, or follows from places that are marked by hand in the files (tables/kinds/marked.py);
nothing here was taken from the program. tests/read_formats.py reads the formats as other programs do.
"""
from tables.kinds.index_bytes import EMPTY
from tables.kinds.marked import FORMATS, REPORTS, gitlab_report, in_formats, messages, read_marks, sarif_log, sentence, summary, written
from tables.kinds.people import FILES
from tables.kinds.row import Begins, Read, Row

# The example of README.md, and what each format says about it.
MISTAKES = """\
# A key that is misspelled.
SUBSYSTEMM=="block", TAG+="disk"
# A jump whose label is in no later rule.
KERNEL=="sd*", GOTO="end"
# A comma with no blank behind it.
KERNEL=="sr*",TAG+="optical"
"""
SAID = {
    "plain": """\
r.rules:2: V2 unknown key: SUBSYSTEMM
r.rules:4: V7 no later label: end
r.rules:6: S2 blank after a comma expected: TAG
""",
    "gcc": """\
r.rules:2:1: error: unknown key: SUBSYSTEMM [V2]
r.rules:4:22: error: no later label: end [V7]
r.rules:6:15: warning: blank after a comma expected: TAG [S2]
""",
    "github": """\
::error file=r.rules,line=2,col=1,endColumn=11,title=V2::unknown key: SUBSYSTEMM
::error file=r.rules,line=4,col=22,endColumn=25,title=V7::no later label: end
::warning file=r.rules,line=6,col=15,endColumn=18,title=S2::blank after a comma expected: TAG
""",
    "json": """\
{"path":"r.rules","line":2,"column":1,"end_column":11,"code":"V2","text":"unknown key","word":"SUBSYSTEMM","severity":"error"}
{"path":"r.rules","line":4,"column":22,"end_column":25,"code":"V7","text":"no later label","word":"end","severity":"error"}
{"path":"r.rules","line":6,"column":15,"end_column":18,"code":"S2","text":"blank after a comma expected","word":"TAG","severity":"warning"}
""",
    "human": f"""\
r.rules:2:1: error: unknown key [V2]
  SUBSYSTEMM=="block", TAG+="disk"
  ^~~~~~~~~~
  = Did you mean SUBSYSTEM?
r.rules:4:22: error: no later label [V7]
  KERNEL=="sd*", GOTO="end"
                       ^~~
  = {sentence("V7").decode()}
r.rules:6:15: warning: blank after a comma expected [S2]
  KERNEL=="sr*",TAG+="optical"
                ^~~
  = {sentence("S2").decode()}
""",
    "gitlab": Read(gitlab_report, [
        ("r.rules", 2, "major", "V2", "V2 unknown key: SUBSYSTEMM", '1:V2:r.rules:SUBSYSTEMM=="block", TAG+="disk"'),
        ("r.rules", 4, "major", "V7", "V7 no later label: end", '1:V7:r.rules:KERNEL=="sd*", GOTO="end"'),
        ("r.rules", 6, "minor", "S2", "S2 blank after a comma expected: TAG", '1:S2:r.rules:KERNEL=="sr*",TAG+="optical"'),
    ]),
    "sarif": Read(sarif_log, [
        ("r.rules", 2, 1, 11, "error", "V2", "unknown key: SUBSYSTEMM", '1:V2:r.rules:SUBSYSTEMM=="block", TAG+="disk"'),
        ("r.rules", 4, 22, 25, "error", "V7", "no later label: end", '1:V7:r.rules:KERNEL=="sd*", GOTO="end"'),
        ("r.rules", 6, 15, 18, "warning", "S2", "blank after a comma expected: TAG", '1:S2:r.rules:KERNEL=="sr*",TAG+="optical"'),
    ]),
}
# The same for a file of the database.
DATABASE = " A=1\n\nm1\n\nm2\n =x\n   B\nm3\n C=1\n\n[[.a.]]\n D=1\n"
DATABASE_SAID = {
    "plain": """\
t.hwdb:1: H1 property without a match: A=1
t.hwdb:3: H2 match without a property: m1
t.hwdb:6: H5 empty key: =x
t.hwdb:7: H4 no =: B
t.hwdb:8: H3 unindented line after properties: m3
t.hwdb:11: H6 pattern not supported: [[.a.]]
""",
    "gcc": """\
t.hwdb:1:2: error: property without a match: A=1 [H1]
t.hwdb:3:1: error: match without a property: m1 [H2]
t.hwdb:6:2: error: empty key: =x [H5]
t.hwdb:7:4: error: no =: B [H4]
t.hwdb:8:1: error: unindented line after properties: m3 [H3]
t.hwdb:11:1: error: pattern not supported: [[.a.]] [H6]
""",
    "github": """\
::error file=t.hwdb,line=1,col=2,endColumn=5,title=H1::property without a match: A=1
::error file=t.hwdb,line=3,col=1,endColumn=3,title=H2::match without a property: m1
::error file=t.hwdb,line=6,col=2,endColumn=4,title=H5::empty key: =x
::error file=t.hwdb,line=7,col=4,endColumn=5,title=H4::no =: B
::error file=t.hwdb,line=8,col=1,endColumn=3,title=H3::unindented line after properties: m3
::error file=t.hwdb,line=11,col=1,endColumn=8,title=H6::pattern not supported: [[.a.]]
""",
    "json": """\
{"path":"t.hwdb","line":1,"column":2,"end_column":5,"code":"H1","text":"property without a match","word":"A=1","severity":"error"}
{"path":"t.hwdb","line":3,"column":1,"end_column":3,"code":"H2","text":"match without a property","word":"m1","severity":"error"}
{"path":"t.hwdb","line":6,"column":2,"end_column":4,"code":"H5","text":"empty key","word":"=x","severity":"error"}
{"path":"t.hwdb","line":7,"column":4,"end_column":5,"code":"H4","text":"no =","word":"B","severity":"error"}
{"path":"t.hwdb","line":8,"column":1,"end_column":3,"code":"H3","text":"unindented line after properties","word":"m3","severity":"error"}
{"path":"t.hwdb","line":11,"column":1,"end_column":8,"code":"H6","text":"pattern not supported","word":"[[.a.]]","severity":"error"}
""",
    "gitlab": Read(gitlab_report, [
        ("t.hwdb", 1, "major", "H1", "H1 property without a match: A=1", "1:H1:t.hwdb: A=1"),
        ("t.hwdb", 3, "major", "H2", "H2 match without a property: m1", "1:H2:t.hwdb:m1"),
        ("t.hwdb", 6, "major", "H5", "H5 empty key: =x", "1:H5:t.hwdb: =x"),
        ("t.hwdb", 7, "major", "H4", "H4 no =: B", "1:H4:t.hwdb:   B"),
        ("t.hwdb", 8, "major", "H3", "H3 unindented line after properties: m3", "1:H3:t.hwdb:m3"),
        ("t.hwdb", 11, "major", "H6", "H6 pattern not supported: [[.a.]]", "1:H6:t.hwdb:[[.a.]]"),
    ]),
    "sarif": Read(sarif_log, [
        ("t.hwdb", 1, 2, 5, "error", "H1", "property without a match: A=1", "1:H1:t.hwdb: A=1"),
        ("t.hwdb", 3, 1, 3, "error", "H2", "match without a property: m1", "1:H2:t.hwdb:m1"),
        ("t.hwdb", 6, 2, 4, "error", "H5", "empty key: =x", "1:H5:t.hwdb: =x"),
        ("t.hwdb", 7, 4, 5, "error", "H4", "no =: B", "1:H4:t.hwdb:   B"),
        ("t.hwdb", 8, 1, 3, "error", "H3", "unindented line after properties: m3", "1:H3:t.hwdb:m3"),
        ("t.hwdb", 11, 1, 8, "error", "H6", "pattern not supported: [[.a.]]", "1:H6:t.hwdb:[[.a.]]"),
    ]),
}

# For each message lines that cause it, each with its place.
EACH = [
    *in_formats("V1, to the end of the line", '<V1|KERNEL=="sd*>', 'KERNEL=="sd*, TAG+="<V1|disk">', 'TAG+="x" <V1|# b>',
        "<V1|A  >"),
    *in_formats("V2", 'KERNEL=="a" <V2|FOO>="b"', '<V2|subsystem>=="block", TAG+="x"'),
    *in_formats("V3", 'SUBSYSTEM=="x",<V3|ACTION>-="y"', '<V3|KERNEL> = "sda"', 'ENV{A}=="1", <V3|ENV>{B}-="1"'),
    *in_formats("V4", '<V4|ATTR>=="x"', 'KERNEL=="a", <V4|IMPORT>{x}=="y"', '<V4|TEST>{999}=="/run/x"'),
    *in_formats("V5", 'OPTIONS="<V5|link_priority=x>"', 'TAG="t", LABEL="<V5|>"', 'TEST==i"<V5|x>"',
        'PROGRAM!= ie"<V5=A|\\x41>"'),
    *in_formats("V6", 'ENV{B}="<V6|$nope>"', 'ENV{B}="<V6|a %k% b>"', 'SYMLINK+="<V6|disk/$kernel/$device>"',
                'ENV{B}="<V6|$$ %% %>"'),
    *in_formats("V6 in a value with escapes", 'OWNER=e"<V6=$nope|\\x24nope>"', 'OWNER=e"<V6=a\t$nope|a\\t$nope>"'),
    *in_formats("V7", 'GOTO="<V7|y>"', 'TAG="t", GOTO="<V7|z>", TAG+="u"'),
    *in_formats("V8", 'GOTO="a"', 'LABEL="a", LABEL="<V8|b>", LABEL="<V8|c>"'),
    *in_formats("V9", "<V9=|" + "," * 16_385 + ">", formats=["plain", "gcc", "github", "gitlab", "json"]),
    *in_formats("V10", 'KERNEL==<V10|x>"a"', 'SYMLINK+= <V10|ei>"x"', 'KERNEL==<V10|iei>"x'),
    *in_formats("V11", 'KERNEL=="<V11|[[:alpha:]]>"', 'KERNEL=="<V11=[[:x:]]"|[[:x:]]\\">"',
        'KERNEL==e"<V11=[[:x:]]A|[[:x:]]\\x41>"'),
    *in_formats("V12", 'TAG+="a"', 'TAG+="b" <V12=|\\>'),
    *in_formats("S1", 'KERNEL=="a" <S1|TAG>="t"', 'KERNEL=="a",, <S1|TAG>="t"', 'KERNEL=="a"<S1=|,>', 'KERNEL=="a"<S1=| , >'),
    *in_formats("S2", 'KERNEL=="a",<S2|TAG>="t"'),
    *in_formats("S3", '<S3|ENV>{A}:="1"', 'KERNEL=="a", <S3|MODE> += "1"'),
    *in_formats("S4", 'LABEL="<S4|x>"', 'TAG="t", LABEL=e"<S4=x y|x\\sy>"'),
]

PLACES = [
    *in_formats("several messages about one line, some at one place", '<S3|TAG>:="a"<S1 S3|MODE>+="b",<S2 S3|ENV>{C}:="c"<S1=|,>',
                'KERNEL=="a",,<S1 S2|TAG>="t"'),
    *in_formats("V messages come before S, and S4 last", 'LABEL="<S4|e>",<S2|LABEL>="<V8|f>" <S1|GOTO>="<V7|g>"'),
    *in_formats("the same message twice about one line", 'TAG+="a",<S2|TAG>+="b",<S2|TAG>+="c"'),
    *in_formats("leading blanks are counted", ' \t<V2|FOO>="1"', '\t\tTAG+="a",<S2|TAG>+="b"'),
    *in_formats("a continued rule", "# first", 'KERNEL=="a", \\', '  <V2|FOO>="b"', '\tKERNEL=="a", \\', 'TAG+="t",\\',
        '\t <S2|TAG>+="u"'),
    *in_formats("comments in a continued rule", 'KERNEL=="a", \\', "# between", ' \t# and \\', '    TAG+="t" \\',
        '    <S1|TAG>+="u"'),
    *in_formats("a token over several lines", 'KERNEL=="a", <V2=FOOBAR|FOO>\\', 'BAR="b"',
        'OPTIONS="<V5=link_priority=x|link_>\\',
                'priority=x"'),
    *in_formats("bad syntax over several lines", '\t<V1=A, B|A, >\\', "  B", 'TAG+="x", <V1=B C|B >\\', "# between", "C"),
    *in_formats("a value that begins on the next line", 'KERNEL=="\\', ' <V11|[[:x:]]>"', 'GOTO=\\', '   "<V7|y>"'),
    *in_formats("a rule of 20 lines", *['TAG+="t", \\'] * 19, '<V2|FOO>="1"'),
    *in_formats("a line continued at the file's end, with comments after it", 'FOO="b", \\', 'BAR="c" <V12=|\\>', "# c", "#"),
    *in_formats("the last line is only a line continuation", 'TAG+="a"', "<V12=|\\>"),
    *in_formats("a comma at the end of a continued rule", 'KERNEL=="a", \\', '  TAG+="t"<S1=|, >\\', ""),
    *in_formats("a byte order mark", b"<V1|\xEF\xBB\xBFKERNEL==\"a\">"),
    *in_formats("a carriage return", 'TAG="a"<V1|\r>'),
    *in_formats("a word of over 32 bytes", 'SYMLINK+="<V6|' + "x" * 40 + '/$nope/y>"',
        "<V1|" + "long" * 30 + ">"),
    *in_formats("no message", 'TAG+="a"'),
    *in_formats("four thousand messages about one line", 'TAG="",' + ",".join(["<S2|TAG>=\"\""] * 2_000), formats=["plain", "gcc",
        "github", "json", "gitlab", "sarif"]),
]

# Texts that have a meaning in the formats.
SIGNS = [
    *in_formats("special characters in a word", 'SYMLINK+="<V6|%25,a:b;c::d>"',
                '<V1|"quoted", {\'it\': 50%}>', 'LABEL="<S4|a::b,c=d%0Ae>"'),
    *in_formats("control bytes in a word", "<V1|A\x01\x1b[2J\x7f\r>", 'LABEL="<S4|a\tb>"'),
    *in_formats("a newline in a word", 'LABEL=e"<S4=a\nb|a\\nb>"'),
    *in_formats("a backslash in a word", "<V1|a\\b\\c>"),
    *in_formats("characters in a word", "<V1|\u00e4\u20ac\U0001f600>", 'OPTIONS="<V5|' + "0" * 31 + 'ä>"'),
    *in_formats("characters before the place", 'TAG="\u00e4\u20ac\U0001f600",<S2|TAG>+="x"'),
    *in_formats("control characters of two bytes, and marks of direction", 'KERNEL=="sda\u202e\u0085", <V1|FO\u2066\u009bO=="a\u2069">',
                "TAG+=\"\u202d\u202f\u2065\u206a\u00a0\u2028\"<S1=|,>", file="a\u009b2J\u202e.rules"),
    *in_formats("all marks of direction, ends of lines, and the characters beside them", 'TAG+="\u061b\u061c\u061d\u200d\u200e\u200f\u2010"<S1=|,>',
                'TAG+="\u2027\u2028\u2029\u202a\u202b\u202c\u202d\u202e\u202f"<S1=|,>', 'TAG+="\u2065\u2066\u2067\u2068\u2069\u206a"<S1=|,>',
                'TAG+="\u007e\u0080\u0085\u0090\u009c\u009f\u00a0"<S1=|,>', file="\u061c\u200e\u200f\u2028\u2029\u202a\u2069\u0080\u009f.rules"),
    *in_formats("the ends of such characters without their first bytes",
                b"TAG+=\"\x9b\x85 \xc2|\x85 \xd8|\x9c \xe2|\x80\xae \xe2\x80|\xae \xe1\x80\xae \xe2\x82\xae\"<S1=|,>"),
    *in_formats("no-break spaces", 'TAG+="a",<V1|\u00a0TAG+="b">', 'TAG+="a", <V1|\u00a0TAG+="b">'),
    *in_formats("lines that end in CR LF", 'TAG+="a"<V1|\r>', "<V1|\r>"),
    *in_formats("bytes that are not UTF-8", b"<V1|A\xFFB>", b'LABEL="<S4|\xE4>"'),
]

FAULTY = ['<V2|FOO>="1"', 'TAG+="a"<S1=|,>']
NAMES = [
    *(row for file in ["a,b:c=d%25.rules", 'a "b".rules', "ä.rules", "::error file=x::.rules", "d/e/r.rules", "./r.rules",
    "a\\b.rules",
                       "a\nb\rc.rules", "a\tb\x1b.rules"]
      for row in in_formats(f"the name {file!r}", *FAULTY, file=file)),
]

# A path with all signs that have a meaning for GitHub, and some that have none there.
GITHUB_PATH = b"a\\b,c:d%25\n\re\t\x1b \xC3\xA4.rules"


def padded(length):
    """A text in which each group of four digits is its own place."""
    return "".join(f"{at:04}" for at in range(0, length, 4))[:length].encode()


def long_line(at, length, character=b"", is_present=8):
    """A line of so many bytes with a blank missing before its second token, which begins after `at` bytes; a character comes
    after `is_present` bytes."""
    line = bytearray(padded(length))
    line[:5], line[at - 2:at + 5], line[length - 1:] = b'TAG="', b'",TAG="', b'"'
    line[is_present:is_present + len(character)] = character
    return bytes(line)


def in_window(name, line, said, shown, marks):
    """A run of `human` over a line, showing this part of it, with these marks after its indent."""
    place, text, code = said
    return Row(f"{name}, human", "verify --format=human r.rules", {"r.rules": line + b"\n"}, output=summary([("", "", [1])]), status=1,
               messages=b"r.rules:1:%d: %s [%s]\n  %s\n  %s\n  = %s\n" % (
                   place, text.encode(), code.encode(), shown, marks.encode(), sentence(code)))


def blank_missing(column):
    """What is said about the second token of `long_line`."""
    return column, "warning: blank after a comma expected", "S2"


# What `human` shows of lines of more than 160 bytes: where the place is, the line, and which bytes of it are shown, from
# and to. 40 bytes come before a place, more if the line ends.
FAR = long_line(200, 400)
WINDOWS = [
    in_window("a place at the start of a long line", b'FOO="' + padded(394) + b'"', (1, "error: unknown key", "V2"),
              (b'FOO="' + padded(394))[:160], "^~~"),
    in_window("a place after 40 bytes", long_line(40, 400), blank_missing(41), long_line(40, 400)[:160], " " * 40 + "^~~"),
    in_window("a place after 41 bytes", long_line(41, 400), blank_missing(42), long_line(41, 400)[1:161], " " * 40 + "^~~"),
    in_window("a place in the middle of a long line", FAR, blank_missing(201), FAR[160:320], " " * 40 + "^~~"),
    in_window("a place with 120 bytes to the end of the line", long_line(280, 400), blank_missing(281), long_line(280, 400)[240:], " " * 40 + "^~~"),
    in_window("a place with 119 bytes to the end of the line", long_line(281, 400), blank_missing(282), long_line(281, 400)[240:], " " * 41 + "^~~"),
    in_window("a place at the end of a long line", long_line(394, 400), blank_missing(395), long_line(394, 400)[240:],
              " " * 154 + "^~~"),
    in_window("a place at the end of 160 bytes", long_line(154, 160), blank_missing(155), long_line(154, 160), " " * 154 + "^~~"),
    in_window("a place at the end of 161 bytes", long_line(155, 161), blank_missing(156), long_line(155, 161)[1:], " " * 154 + "^~~"),
    in_window("a place that continues beyond what is shown", b'TAG="' + padded(190) + b'", [' + padded(201), (199, "error: bad syntax", "V1"),
              (b'TAG="' + padded(190) + b'", [' + padded(201))[158:318], " " * 40 + "^" + "~" * 119),
    in_window("the whole of a line that is too long", b"," * 16_385, (1, "error: line too long", "V9"), b"," * 160, "^" + "~" * 159),
    *(in_window(f"{character} as the first character that is shown", long_line(200, 400, character.encode(), 160), blank_missing(201),
                long_line(200, 400, character.encode(), 160)[160:320], " " * (41 - len(character.encode())) + "^~~")
      for character in ["ä", "€", "\U0001f600"]),
    *(in_window(f"{character}, {gone} of its bytes before the part that would be shown", long_line(200, 400, character.encode(), 160 - gone),
                blank_missing(201), long_line(200, 400, character.encode(), 160 - gone)[160 + kept:320 + kept], " " * (40 - kept) + "^~~")
      for character, gone, kept in [("ä", 1, 1), ("€", 1, 2), ("€", 2, 1), ("\U0001f600", 1, 3), ("\U0001f600", 2, 2), ("\U0001f600", 3, 1)]),
    *(in_window(f"U+{ord(obeyed):04X} {kept} bytes into the part that is shown", long_line(200, 400, obeyed.encode(), 160 + kept), blank_missing(201),
                long_line(200, 400, sign.encode(), 160 + kept)[160:320], " " * (41 - len(sign.encode())) + "^~~")
      for obeyed, sign in [("\u009b", "\u00bf"), ("\u061c", "\u0606"), ("\u202e", "\u203d"), ("\u2066", "\u2047")] for kept in (0, 1, 2, 7)),
    # (after three bytes that continue a character none more is left out, and what comes before the part counts for what is in it)
    in_window("a character that is cut by what is not UTF-8", long_line(200, 400, b"\xe2\x80\xae\x80\x80", 159), blank_missing(201),
              long_line(200, 400, b"\xe2\x80\xbd\x80\x80", 159)[163:323], " " * 36 + "^~~"),
]

# Lines of the most bytes that a fingerprint has whole, and longer ones, of which it has the ends.
LONG_LINES = [
    *(row for length in (199, 200, 201, 202) for row in in_formats(f"a line of {length} bytes", f'TAG+="{"x" * (length - 16)}",<S2|TAG>+="y"',
                                                                   formats=["gitlab", "sarif"])),
    *in_formats("a long line with a character at the cut", f'TAG+="{"x" * 92}\u20ac{"y" * 300}\u20ac{"z" * 86}",<S2|TAG>+="y"', formats=["gitlab", "sarif"]),
    *in_formats("long lines that differ in a byte at the end, and one that is there twice", *(f'TAG+="{"x" * 400}",<S2|TAG>+="{end}"' for end in "yzy"),
                formats=["gitlab", "sarif"]),
    # (they are counted as lines of the same text are)
    *in_formats("long lines that differ in the middle alone", *(f'TAG+="{"x" * 200}{middle}{"x" * 200}",<S2|TAG>+="z"' for middle in "abc"),
                formats=["gitlab", "sarif"]),
    *in_formats("a long line of bytes that are not UTF-8", b'TAG+="' + b"\xff\xe2\x80" * 100 + b'",<S2|TAG>+="y"', formats=["gitlab", "sarif"]),
]

# Columns of characters, with places that follow one another, that are within one another, and in lines that begin alike.
COLUMNS = [
    *in_formats("places of a line after one another", 'TAG+="\u00e4",<S2|TAG>+="\u20ac",<S2|TAG>+="\U0001f600",<S2|TAG>+="y"', formats=["sarif"]),
    *in_formats("places in lines that begin alike", *(f'TAG+="\u00e4",<S2|TAG>+="{end}",<S2|TAG>+="y"' for end in ("\u20ac", "e", "\u20ac")), formats=["sarif"]),
    *in_formats("a place in the next line, and one before the last place", 'TAG+="\u00e4\u20ac",<S2|TAG>+="y"', '<V2|FOO>=="\u20ac"', 'TAG+="\u00e4\u20ac", <V2|FOO>=="y"',
                formats=["sarif"]),
    *in_formats("places of a line of bytes that are not UTF-8", b'TAG+="\xff\xa4\xa4",<S2|TAG>+="\xa4\xe2\x82",<S2|TAG>+="y"', formats=["sarif"]),
]


def in_image(form):
    """A run over an image whose folders have files; `plain` has only their names."""
    places = ["etc/udev/rules.d", "run/udev/rules.d", "usr/local/lib/udev/rules.d", "usr/lib/udev/rules.d"]
    files, read = {}, []
    for folder, name in zip(places, ["d", "c", "b", "a"]):
        path = f"mnt/{folder}/{name}.rules"
        files[path], found = read_marks(['TAG+="x"', f'<V2|{name.upper() * 3}>="1"'])
        read.insert(0, (f"{name}.rules", path, found))
    return Row(f"files of folders by their full path, {form}", f"verify -r mnt --format {form}", files, status=1,
               **written(form, messages(form, read), summary(read)))


def of_database(form, name, files, words=(), status=0):
    """A run of `update` over files of marked lines: pairs of the name that is shown and the path, to lines."""
    texts, read = {}, []
    for (shown, path), lines in files.items():
        texts[path], found = read_marks(lines, rules=False)
        read.append((shown, path, found))
    words = words or [path for _, path in files]
    return Row(f"{name}, {form}", ["update", f"--format={form}", *words], texts, status=status, **written(form, messages(form, read), EMPTY))


BY_MARKS = [
    ("files of folders", {("a.hwdb", "mnt/usr/lib/udev/hwdb.d/a.hwdb"): [" <H1|A=1>"], ("b.hwdb",
        "mnt/etc/udev/hwdb.d/b.hwdb"): ["<H2|m>"]},
     ["-r", "mnt"]),
    ("leading blanks, and long words", {("t.hwdb", "t.hwdb"): [" \t <H1|A=1>", "", "<H2|" + "m" * 40 + ">", "", "# c", "<H2|\tm>"]}, ()),
    ("two messages about one line", {("t.hwdb", "t.hwdb"): ["<H2 H6|[[.a.]]>"]}, ()),
    ("a comment after a match", {("t.hwdb", "t.hwdb"): ["<H2|m>  # c"]}, ()),
    ("a file name with special characters", {("a,b:%\n.hwdb", "a,b:%\n.hwdb"): ["<H2|m:%,>"]}, ()),
]

ROWS = [
    *(Row(f"the example of README.md, {form}", f"verify --format {form} r.rules", {"r.rules": MISTAKES}, status=1,
          **written(form, said, "1 files checked, 0 good, 1 bad\n")) for form, said in SAID.items()),
    *(Row(f"an example of the database, {form}", f"update --format {form} t.hwdb", {"t.hwdb": DATABASE}, **written(form, said, EMPTY))
      for form, said in DATABASE_SAID.items()),
    *(Row(f"with --strict, {form}", f"update -s --format={form} t.hwdb", {"t.hwdb": DATABASE}, status=1, **written(form, said, EMPTY))
      for form, said in DATABASE_SAID.items()),
    *EACH,
    *PLACES,
    *SIGNS,
    *NAMES,
    *WINDOWS,
    *LONG_LINES,
    *COLUMNS,
    Row("a path is written as it was opened, except for GitHub", ["verify", "--format=github", GITHUB_PATH], {GITHUB_PATH: "FOO\\=\n"},
        output="1 files checked, 0 good, 1 bad\n", status=1,
        messages=b"::error file=a\\b%2Cc%3Ad%2525%0A%0De%09%1B \xC3\xA4.rules,line=1,col=1,endColumn=6,title=V1::bad syntax: FOO\\x5C=\n"),
    *(in_image(form) for form in FORMATS),
    *(of_database(form, *rest) for form in FORMATS for rest in BY_MARKS),
    Row("plain is the default format", "verify --format plain r.rules", {"r.rules": MISTAKES},
        output="1 files checked, 0 good, 1 bad\n",
        messages=SAID["plain"], status=1),
    Row("without style", "verify --format=gcc --no-style r.rules", {"r.rules": MISTAKES},
        output="1 files checked, 0 good, 1 bad\n",
        messages="".join(SAID["gcc"].splitlines(True)[:2]), status=1),
    Row("without the summary", "verify --no-summary --format=json r.rules", {"r.rules": MISTAKES}, output=SAID["json"],
        status=1),
    Row("only messages about style, with --no-style", "verify --no-style --format=gitlab r.rules", {"r.rules": 'TAG="a",TAG="b"\n'},
        output=Read(gitlab_report, [])),
    *(Row(f"a report and the lines about what can't be read go apart, {form}", f"verify --all --format={form} r.rules no", {"r.rules": MISTAKES},
          output=SAID[form], messages="devdry: cannot read no: no such file\n", status=3) for form in REPORTS),
    *(Row(f"lines of the same text are counted, and keep their fingerprints below {'a' if head else 'no'} line more, {form}", f"verify --format={form} r.rules",
          {"r.rules": f'{head}FOO="1"\nFOO="1", BAR="2"\nFOO="1"\n'}, status=1,
          output=Read(lambda text, of=reader: [it[-1] for it in of(text)],
                      ['1:V2:r.rules:FOO="1"', '1:V2:r.rules:FOO="1", BAR="2"', '2:V2:r.rules:FOO="1"']))
      for form, reader in (("gitlab", gitlab_report), ("sarif", sarif_log)) for head in ("", 'KERNEL=="sda", TAG+="x"\n')),
    Row("two files, the named one by its name as given", "verify -r mnt --format gcc b.rules a.rules", {"b.rules": "FOO\n",
        "a.rules": "BAR\n"},
        output="2 files checked, 0 good, 2 bad\n",
        messages="b.rules:1:1: error: bad syntax: FOO [V1]\na.rules:1:1: error: bad syntax: BAR [V1]\n", status=1),
    Row("an empty root", ["verify", "--format=gcc", "-r", "", "r.rules"], {"r.rules": "FOO\n"},
        output="1 files checked, 0 good, 1 bad\n",
        messages="r.rules:1:1: error: bad syntax: FOO [V1]\n", status=1),
    Row("a root with a trailing slash", "verify --format=gcc -r mnt/", {"mnt/etc/udev/rules.d/r.rules": "FOO\n"},
        output="1 files checked, 0 good, 1 bad\n", messages="mnt//etc/udev/rules.d/r.rules:1:1: error: bad syntax: FOO [V1]\n",
        status=1),
    *(Row(f"an unreadable file is reported as without --format, {form}", f"verify --format {form} r.rules x.rules", {"r.rules": MISTAKES},
          messages="devdry: cannot read x.rules\n" + (FILES["no such file"] if form == "human" else ""), status=3) for form in FORMATS),
    *(Row(f"unknown format, {words}", words, {"r.rules": MISTAKES}, messages=Begins(b"error: "), status=2)
      for words in ["verify --format=xml r.rules", "verify --format GCC r.rules", "update --format= r.rules", "verify --format",
                    "verify --format=gcc --format=json r.rules", "query --format=gcc m r.rules", "events --format=gcc r.rules"]),
]
