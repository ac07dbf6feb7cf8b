"""`query -`: modaliases of the standard input, one a line, each answered as `query` answers it, with an empty line after."""
from tables.database import KINDS, OF_KINDS
from tables.kinds.index_bytes import BYTE, MANY, ROOT, WITHOUT_FILE, index, node
from tables.kinds.row import Begins, Row

# Two records, the later of which has the better A for abc.
RECORDS = "ab*\n A=1\n B=2\n\na?c\n A=3\n"
ABC = "A=3\nB=2\n\n"
AB = "A=1\nB=2\n\n"
NONE = "\n"

# Something fits each text, even the empty one.
ANY = "*\n A=1\n\n?\n B=2\n"

# The index of `*` with A=1 and `m` with B=2 of a file t.hwdb, as docs/format.md has it.
INDEX = index(
    2,
    [node(ROOT, children=2), node(BYTE, "m", values=1), node(MANY, values=1)],
    [(0, 1, 1, 1, 1, 4, 6, 5), (2, 1, 3, 1, 0, 4, 6, 2)],
    b"B2A1t.hwdb",
)

# The most bytes of a line.
MOST = 65536
LONG = "a" * MOST


def asked(name, text, lines, output, messages="", status=0):
    """`query -` over t.hwdb and lines, and what it answers."""
    return Row(name, "query - t.hwdb", {"t.hwdb": text}, lines, output=output, messages=messages, status=status)


ANSWERS = [
    asked("each line is answered", RECORDS, "abc\nx\nab\n", ABC + NONE + AB),
    asked("the last line has no newline", RECORDS, "ab\nabc", AB + ABC),
    asked("a single line without a newline", RECORDS, "abc", ABC),
    asked("nothing fits", RECORDS, "x\n", NONE),
    asked("no input", RECORDS, "", ""),
    asked("a single newline is an empty line", ANY, "\n", "A=1\n\n"),
    asked("an empty line is answered", ANY, "\nx\n\n", "A=1\n\nA=1\nB=2\n\nA=1\n\n"),
    asked("an empty line that nothing fits", RECORDS, "\n\nab\n", NONE + NONE + AB),
    asked("a carriage return is part of the line", "ab\n A=1\n\nab?\n B=2\n", "ab\r\nab\n", "B=2\n\nA=1\n\n"),
    asked("blanks are part of the line", "ab\n A=1\n\n?ab\n B=2\n\nab?\n C=3\n", " ab\nab\t\nab\n", "B=2\n\nC=3\n\nA=1\n\n"),
    asked("each kind of pattern", KINDS, "".join(f"{line}\n" for line, _ in OF_KINDS), "".join(f"{found}\n" for _, found in OF_KINDS)),
    asked("any other byte is part of the line", "a??b\n A=1\n", b"a\0\xffb\na\0b\n", "A=1\n\n\n"),
    asked("a line that is a hyphen", "-\n A=1\n\n?\n B=2\n", "-\nx\n", "A=1\nB=2\n\nB=2\n\n"),
    asked("a line that a database file would skip", "?x\n A=1\n", "#x\n", "A=1\n\n"),
    asked("values are not escaped", b"m\n A=a\x01\\b\xff\n", "m\n", b"A=a\x01\\b\xff\n\n"),
    asked("the same line again", RECORDS, "ab\n" * 3000, AB * 3000),
    asked("lines over more than one read", RECORDS, ("a" * 99 + "\nabc\n") * 500, (NONE + ABC) * 500),
    asked("a line over more than one read", "a*b\n A=1\n", "a" * 10000 + "b\nab\n", "A=1\n\nA=1\n\n"),
    Row(
        "messages come first",
        "query - t.hwdb",
        {"t.hwdb": " A=1\n\nm\n B=2\n"},
        "m\nx\n",
        output="B=2\n\n\n",
        messages="t.hwdb:1: H1 property without a match: A=1\n",
    ),
    Row("sources", "query --sources - t.hwdb", {"t.hwdb": RECORDS}, "abc\nx\n", output="t.hwdb:6: A=3\nt.hwdb:3: B=2\n\n\n"),
    Row("sources of a file whose name is escaped", ["query", "--sources", "-", "a\\\n.hwdb"], {"a\\\n.hwdb": RECORDS}, "ab\n",
        output="a\\x5C\\x0A.hwdb:2: A=1\na\\x5C\\x0A.hwdb:3: B=2\n\n"),
    Row("./- among the files is a file", "query - ./-", {"-": RECORDS}, "ab\n", output=AB),
    Row("after two hyphens", "query -- - t.hwdb", {"t.hwdb": RECORDS}, "ab\n", output=AB),
    Row("folders", "query -r r -", {"r/usr/lib/udev/hwdb.d/60-a.hwdb": RECORDS}, "ab\n", output=AB),
    Row("no file", "query -r none -", {}, "ab\n", output=NONE),
    Row("two files", "query - a b", {"a": "m\n A=1\n", "b": "m*\n A=2\n B=3\n"}, "m\nmx\n", output="A=2\nB=3\n\nA=2\nB=3\n\n"),
]

INDEXES = [
    Row("an index", "query --index i -", {"i": INDEX}, "m\nx\n\n", output="A=1\nB=2\n\nA=1\n\nA=1\n\n"),
    Row("an index, with sources", "query --sources --index i -", {"i": INDEX}, "m\n", output="t.hwdb:2: A=1\nt.hwdb:5: B=2\n\n"),
    Row("an index of version 1, with sources", "query --sources --index i -", {"i": WITHOUT_FILE}, "ax\nx\n", output="-: K=V\n\n\n"),
    Row("an index and a file", "query --index i - t.hwdb", {"i": INDEX, "t.hwdb": RECORDS}, "m\n", messages=Begins(b"error: the argument '--index <FILE>'"), status=2),
    Row("an index is refused before the input is read", "query --index i -", {"i": INDEX[:-1]}, "m\n", messages="devdry: index: size\n", status=1),
    Row("an index that does not exist", "query --index i -", {}, "m\n", messages="devdry: cannot read i\n", status=3),
    Row("a file that does not exist", "query - t.hwdb", {}, "m\n", messages="devdry: cannot read t.hwdb\n", status=3),
]

BOUNDS = [
    asked("a line of 65,536 bytes", "a*\n A=1\n", f"{LONG}\nab\n", "A=1\n\nA=1\n\n"),
    asked("a last line of 65,536 bytes", "a*\n A=1\n", LONG, "A=1\n\n"),
    asked("a line of 65,537 bytes", "a*\n A=1\n", f"ab\nx\n{LONG}a\nab\n", "A=1\n\n\n", "devdry: line 3: too long\n", 1),
    asked("a first line of 65,537 bytes", "a*\n A=1\n", f"{LONG}a\n", "", "devdry: line 1: too long\n", 1),
    asked("a last line of 65,537 bytes", "a*\n A=1\n", f"ab\n{LONG}a", "A=1\n\n", "devdry: line 2: too long\n", 1),
    asked("empty lines are counted", "a*\n A=1\n", f"\n\n{LONG}a", "\n\n", "devdry: line 3: too long\n", 1),
    Row(
        "a line that is too long, after messages",
        "query - t.hwdb",
        {"t.hwdb": "m\n"},
        LONG + "a",
        messages="t.hwdb:1: H2 match without a property: m\ndevdry: line 1: too long\n",
        status=1,
    ),
    Row("a line that is too long, with an index", "query --index i -", {"i": INDEX}, f"m\n{LONG}a\nm\n", output="A=1\nB=2\n\n", messages="devdry: line 2: too long\n", status=1),
]

# Both outputs in one stream: the messages come before any answer, and what ended the run after all of them.
TOGETHER = [
    Row("messages come before the answers in one stream", "query - t.hwdb", {"t.hwdb": " A=1\n\nm\n B=2\n"}, "m\nx\n",
        output="t.hwdb:1: H1 property without a match: A=1\nB=2\n\n\n", together=True),
    Row("a line that is too long comes after the answers in one stream", "query - t.hwdb", {"t.hwdb": "m\n\nab\n A=1\n"}, f"ab\n{LONG}a\nab\n",
        output="t.hwdb:1: H2 match without a property: m\nA=1\n\ndevdry: line 2: too long\n", status=1, together=True),
]

ROWS = ANSWERS + INDEXES + BOUNDS + TOGETHER
