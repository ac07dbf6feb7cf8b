"""Files of the hardware database: what their lines mean, each message, and which entry counts."""
from tables.kinds.index_bytes import EMPTY
from tables.kinds.row import Row


def query(name, text, modalias, output, messages=""):
    """`query` over t.hwdb, and what it answers."""
    return Row(
        f"{name}, {modalias[:40]!r}",
        ["query", modalias, "t.hwdb"],
        {"t.hwdb": text},
        output=output,
        messages=messages,
    )


def queries(name, text, *asked):
    """The same for pairs of a modalias and what is answered."""
    return [query(name, text, modalias, output) for modalias, output in asked]


def sources(name, files, modalias, output):
    """`query --sources` over files in their order, and what it answers."""
    return Row(f"{name}, {modalias!r}", ["query", "--sources", modalias, *files], files, output=output)


def update(name, text, *messages, strict=False):
    """`update` over s.hwdb, which has no entry, and what it reports about each line, with the line's number first."""
    words = ["update", *(["-s"] if strict else []), "s.hwdb"]
    reported = "".join(f"s.hwdb:{message}\n" for message in messages)
    return Row(name, words, {"s.hwdb": text}, output=EMPTY, messages=reported, status=1 if strict and messages else 0)


# Two records, the later of which has the better A for abc.
RECORDS = "ab*\n A=1\n B=2\n\na?c\n A=3\n"

TRACKBALL = "mouse:*:name:*[tT]rack[bB]all*:*\n ID_INPUT_TRACKBALL=1\n"

# Forty times a star and an `a`.
FORTY = "*a" * 40 + "\n A=1\n"

# A pattern of each kind, each with a key of its own; the third has the same beginning as the first.
KINDS = "ab*\n 0=\n\n*[bc]\n 1=\n\nabb\n 2=\n\na?\n 3=\n\n**b\n 4=\n\n?b*c\n 5=\n\n[!a]*\n 6=\n\na*b?\n 7=\n\n[a-c]?d\n 8=\n"

# What it is asked, and what is answered.
OF_KINDS = [
    ("", ""),
    ("a", ""),
    ("b", "1=\n4=\n6=\n"),
    ("ab", "0=\n1=\n3=\n4=\n"),
    ("ac", "1=\n3=\n"),
    ("ad", "3=\n"),
    ("abb", "0=\n1=\n2=\n4=\n7=\n"),
    ("abc", "0=\n1=\n5=\n7=\n"),
    ("abd", "0=\n7=\n8=\n"),
    ("bad", "6=\n8=\n"),
    ("bbc", "1=\n5=\n6=\n"),
    ("cab", "1=\n4=\n6=\n"),
    ("ddd", "6=\n"),
]

# A file with a message of each kind.
FAULTY = " A=1\n\nm1\n\nm2\n =x\n B\nm3\n C=1\n\n[[.a.]]\n D=1\n"
FAULTS = (
    "1: H1 property without a match: A=1",
    "3: H2 match without a property: m1",
    "6: H5 empty key: =x",
    "7: H4 no =: B",
    "8: H3 unindented line after properties: m3",
    "11: H6 pattern not supported: [[.a.]]",
)

# Files of folders: 70-b.hwdb of the lower rank replaces that of the higher, and no text file is read.
FOLDERS = {
    "r/usr/lib/udev/hwdb.d/60-a.hwdb": "m*\n A=1\n",
    "r/usr/lib/udev/hwdb.d/70-b.hwdb": "m*\n A=2\n",
    "r/usr/lib/udev/hwdb.d/80-c.txt": "m*\n A=4\n",
}
MASKED = {**FOLDERS, "r/etc/udev/hwdb.d/70-b.hwdb": "z\n A=2\n"}

# Each match of a record has each of its properties.
PAIRS = {"60-a.hwdb": "ab*\n\tn\n A=1\n \t B=x=\n", "70-b.hwdb": "m1\n C="}

NAMED = {"70-b.hwdb": "m*\n A=2\n", "60-a.hwdb": "m*\n A=1\n B=3\n", "80-c.txt": "m*\n A=4\n"}

ANSWERS = [
    query("a property of the entry that fits", "m*\n A=1\n", "mx", "A=1\n"),
    *queries("two records", RECORDS, ("abc", "A=3\nB=2\n"), ("ab", "A=1\nB=2\n"), ("x", "")),
    query("a trackball", TRACKBALL, "mouse:usb:name:My TrackBall:x", "ID_INPUT_TRACKBALL=1\n"),
    Row("a file that does not exist", "query x t.hwdb", messages="devdry: cannot read t.hwdb\n", status=3),
    Row("no file", "query -r none x"),
    Row("an empty file", "query x t.hwdb", {"t.hwdb": ""}),
    *queries("forty stars", FORTY, ("a" * 200, "A=1\n")),
    query("forty stars and a last byte that does not fit", FORTY, "a" * 200 + "b", ""),
    *queries("each kind of pattern", KINDS, *OF_KINDS),
    *queries("a query for the empty text", "*\n A=1\n\n?\n B=2\n\nx\n C=3\n", ("", "A=1\n")),
    query(
        "keys in the order of their bytes",
        "m\n b=1\n B=2\n a=3\n A1=4\n A=5\n \xe9=6\n",
        "m",
        "A=5\nA1=4\nB=2\na=3\nb=1\n\xe9=6\n",
    ),
    query("a value is kept as written", "m\n A= 1 \\x\t= \n", "m", "A= 1 \\x\t=\n"),
    query("a property with leading blanks", "m\n \t A=1\n", "m", "A=1\n"),
    query("a match that begins with a tab", "\tn\n A=1\n", "\tn", "A=1\n"),
    query("the last line has no newline", "m1\n C=", "m1", "C=\n"),
    query("a bar is an ordinary byte", "a|b\n A=1\n", "a|b", "A=1\n"),
    query("a bar does not separate alternatives", "a|b\n A=1\n", "a", ""),
    query("a carriage return at the end is dropped", "m\r\n A=1\r\n\r\n", "m", "A=1\n"),
]

ORDER = [
    Row("files of one folder", "query -r r mx", FOLDERS, output="A=2\n"),
    Row("a file that replaces one of the same name", "query -r r mx", MASKED, output="A=1\n"),
    Row("named files are read in their order", "query mx 70-b.hwdb 60-a.hwdb 80-c.txt", NAMED, output="A=4\nB=3\n"),
    sources(
        "the source is the later entry's file",
        {"60-a.hwdb": "m*\n A=1\n", "70-b.hwdb": "m*\n A=2\n"},
        "mx",
        "70-b.hwdb:2: A=2\n",
    ),
    sources("each property has its own line", {"t.hwdb": RECORDS}, "abc", "t.hwdb:6: A=3\nt.hwdb:3: B=2\n"),
    sources(
        "of equal patterns the later counts",
        {"t.hwdb": "ab*\n A=1\n\n*[bc]\n A=2\n\nab*\n A=3\n\na?\n A=4\n"},
        "abd",
        "t.hwdb:8: A=3\n",
    ),
    sources("each match with each property", PAIRS, "abc", "60-a.hwdb:3: A=1\n60-a.hwdb:4: B=x=\n"),
    sources("each match with each property", PAIRS, "\tn", "60-a.hwdb:3: A=1\n60-a.hwdb:4: B=x=\n"),
    sources("each match with each property", PAIRS, "m1", "70-b.hwdb:2: C=\n"),
    sources("the last of ten thousand records", {"s.hwdb": "m*\n A=1\n\n" * 10_000}, "mx", "s.hwdb:29999: A=1\n"),
    sources(
        "a name that is escaped, and a value that is not",
        {"75-\\.hwdb": "m*\n\\=\t\n B=\\\t\n"},
        "mx",
        "75-\\x5C.hwdb:3: B=\\\n",
    ),
    sources(
        "a comment in a record counts as a line",
        {"t.hwdb": "m1 # one\n# skipped\n A=1 \t\r# two\n"},
        "m1",
        "t.hwdb:3: A=1\n",
    ),
]

COMMENTS = "m1 # one\n# skipped\n A=1 \t\r# two\n #x\n B=2\n"

MESSAGES = [
    update("a message of each kind", FAULTY, *FAULTS),
    update("a message of each kind, with --strict", FAULTY, *FAULTS, strict=True),
    Row(
        "a message of each kind, from query",
        "query m2 s.hwdb",
        {"s.hwdb": FAULTY},
        messages="".join(f"s.hwdb:{reported}\n" for reported in FAULTS),
    ),
    update("no message, with --strict", "# none\n", strict=True),
    query("comments", COMMENTS, "m1", "A=1\n", "t.hwdb:5: H1 property without a match: B=2\n"),
    update(
        "each property before a match, and a match without one",
        " A=1\n B=2\nm\n",
        "1: H1 property without a match: A=1",
        "2: H1 property without a match: B=2",
        "3: H2 match without a property: m",
    ),
    update(
        "two messages about one line",
        " A=1\n B=2\n[[.a.]]\n",
        "1: H1 property without a match: A=1",
        "2: H1 property without a match: B=2",
        "3: H2 match without a property: [[.a.]]",
        "3: H6 pattern not supported: [[.a.]]",
    ),
    update(
        "a word is cut after 32 bytes",
        "0123456789abcdef0123456789abcdef01234567\n",
        "1: H2 match without a property: 0123456789abcdef0123456789abcdef",
    ),
    update("a word is escaped", "a\\b\x01\x7f\n", "1: H2 match without a property: a\\x5Cb\\x01\\x7F"),
    update(
        "of several matches without a property the first is reported",
        "m1\nm2\n\nm3\n",
        "1: H2 match without a property: m1",
        "4: H2 match without a property: m3",
    ),
    query(
        "after a match that follows a property nothing is reported",
        "m\n A=1\nn\n B\n =2\n[[.a.]]\n C=3\n",
        "m",
        "A=1\n",
        "t.hwdb:3: H3 unindented line after properties: n\n",
    ),
    query(
        "after an empty line a record begins",
        "m\n A=1\nn\n B=2\n\nm\n C=3\n",
        "m",
        "A=1\nC=3\n",
        "t.hwdb:3: H3 unindented line after properties: n\n",
    ),
    query(
        "a match of 16,385 bytes after a good one",
        "m\n" + "x" * 16_385 + "\n A=1\n",
        "m",
        "A=1\n",
        "t.hwdb:2: H6 pattern not supported: " + "x" * 32 + "\n",
    ),
    query("a match of 16,384 bytes", "m\n" + "x" * 16_384 + "\n A=1\n", "m", "A=1\n"),
]

ROWS = [*ANSWERS, *ORDER, *MESSAGES]
