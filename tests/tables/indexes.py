"""Indexes: what `update` writes, compared with bytes made by the format, and what `query` and `events` answer from one."""
from tables.kinds.index_bytes import AMONG, BYTE, EMPTY, MANY, ONE, ROOT, WITH_FILE, WITHOUT_FILE
from tables.kinds.index_bytes import byte_set, index, node, with_bytes
from tables.kinds.row import Row


def update(name, files, wanted):
    """`update` over files in their order, and the index that it writes."""
    return Row(name, ["update", *files], files, output=wanted)


def query(name, whole, modalias, output, sources=False):
    """`query` by an index, and what it answers."""
    words = ["query", *(["--sources"] if sources else []), "--index", "i", modalias]
    return Row(f"{name}, {modalias[:40]!r}", words, {"i": whole}, output=output)


def queries(name, whole, *asked):
    """`query --sources` by an index, for pairs of a modalias and what is answered."""
    return [query(name, whole, modalias, output, sources=True) for modalias, output in asked]


# Two patterns with a set, one of them with two entries, of two files.
FOUR_FILES = {"z.hwdb": "b[xy]\n K=1\n\na?\n K=2\n", "y.hwdb": "b[xy]\n K=3\n\nb?\n K=4\n"}

# Level by level: the root; a and b; a? below a, b? and b[xy] below b. The text is key and value by value, then the files,
# sorted: y.hwdb at 8 and z.hwdb at 14.
FOUR = index(
    2,
    [
        node(ROOT, children=2),
        node(BYTE, "a", children=1),
        node(BYTE, "b", children=2),
        node(ONE, values=1),
        node(ONE, values=1),
        node(AMONG, values=2),
    ],
    [
        (0, 1, 1, 1, 1, 14, 6, 5),
        (2, 1, 3, 1, 3, 8, 6, 5),
        (4, 1, 5, 1, 0, 14, 6, 2),
        (6, 1, 7, 1, 2, 8, 6, 2),
    ],
    b"K2K4K1K3y.hwdbz.hwdb",
    [byte_set(b"xy")],
)

# Each match with each property: `ab*` and a match that begins with a tab, each with A and B, and `m1` without a value.
PAIRS_FILES = {"60-a.hwdb": "ab*\n\tn\n A=1\n \t B=x=\n", "70-b.hwdb": "m1\n C="}
PAIRS = index(
    2,
    [
        node(ROOT, children=3),
        node(BYTE, "\t", children=1),
        node(BYTE, "a", children=1),
        node(BYTE, "m", children=1),
        node(BYTE, "n", values=2),
        node(BYTE, "b", children=1),
        node(BYTE, "1", values=1),
        node(MANY, values=2),
    ],
    [
        (0, 1, 1, 1, 2, 11, 9, 3),
        (2, 1, 3, 2, 3, 11, 9, 4),
        (5, 1, 6, 0, 4, 20, 9, 2),
        (6, 1, 7, 1, 0, 11, 9, 3),
        (8, 1, 9, 2, 1, 11, 9, 4),
    ],
    b"A1Bx=CA1Bx=60-a.hwdb70-b.hwdb",
)

# The labels below one node: bytes by their number, then ?, then *, then the sets by their bytes. Here [a] is a 2 and [b]
# a 4 in byte 12 after zeros, and [!a] begins with 255. A pattern that occurs twice is one node with two values, and a set
# that occurs twice is written once.
LABELS_FILES = {
    "l.hwdb": b"[!a]\n A=1\n\n*\n A=2\n\n?\n A=3\n\n\xff\n A=4\n\n[b]\n A=5\n\n"
    b"[a]\n A=6\n\nz\n A=7\n\n?[b]\n A=8\n\nz\n B=9\n"
}
LABELS = index(
    2,
    [
        node(ROOT, children=7),
        node(BYTE, "z", values=2),
        node(BYTE, "\xff", values=1),
        node(ONE, children=1, values=1),
        node(MANY, values=1),
        node(AMONG, number=0, values=1),
        node(AMONG, number=1, values=1),
        node(AMONG, number=2, values=1),
        node(AMONG, number=1, values=1),
    ],
    [
        (0, 1, 1, 1, 6, 18, 6, 20),
        (2, 1, 3, 1, 8, 18, 6, 26),
        (4, 1, 5, 1, 3, 18, 6, 11),
        (6, 1, 7, 1, 2, 18, 6, 8),
        (8, 1, 9, 1, 1, 18, 6, 5),
        (10, 1, 11, 1, 5, 18, 6, 17),
        (12, 1, 13, 1, 4, 18, 6, 14),
        (14, 1, 15, 1, 0, 18, 6, 2),
        (16, 1, 17, 1, 7, 18, 6, 23),
    ],
    b"A7B9A4A3A2A6A5A1A8l.hwdb",
    [byte_set(b"a"), byte_set(b"b"), byte_set(set(range(256)) - set(b"a"))],
)


def numbered(count):
    """The nodes of all numbers of so many digits below `usb:v`: level by level, each digit in its order."""
    chain = [node(ROOT, children=1), *(node(BYTE, letter, children=1) for letter in "usb:"), node(BYTE, "v", children=10)]
    digits = [
        node(BYTE, str(at % 10), children=10 if level < count else 0, values=0 if level < count else 1)
        for level in range(1, count + 1)
        for at in range(10**level)
    ]
    return chain + digits


# 10,000 patterns of four digits: 11,116 nodes. The file's name comes after the 20,000 bytes of keys and values.
NUMBERS_FILES = {"t.hwdb": "".join(f"usb:v{number:04}\n K=V\n\n" for number in range(10_000))}
NUMBERS = index(
    2,
    numbered(4),
    [(2 * at, 1, 2 * at + 1, 1, at, 20_000, 6, 3 * at + 2) for at in range(10_000)],
    b"KV" * 10_000 + b"t.hwdb",
)
assert NUMBERS[12:16] == (11_116).to_bytes(4, "little")

# One pattern, forty times a star and an a: 81 nodes.
FORTY_FILES = {"t.hwdb": "*a" * 40 + "\n K=V\n"}
FORTY = index(
    2,
    [
        node(ROOT, children=1),
        *[node(MANY, children=1), node(BYTE, "a", children=1)] * 39,
        node(MANY, children=1),
        node(BYTE, "a", values=1),
    ],
    [(0, 1, 1, 1, 0, 2, 6, 2)],
    b"KVt.hwdb",
)

# One pattern of ten thousand entries, the last of them in line 29,999.
LONG_FILES = {"s.hwdb": "m*\n A=1\n\n" * 10_000}
LONG = index(
    2,
    [node(ROOT, children=1), node(BYTE, "m", children=1), node(MANY, values=10_000)],
    [(2 * at, 1, 2 * at + 1, 1, at, 20_000, 6, 3 * at + 2) for at in range(10_000)],
    b"A1" * 10_000 + b"s.hwdb",
)

# Files of the folders, in the order of their names: 70-b.hwdb is read once, from the folder of the lowest rank.
FOLDERS_FILES = {
    "r/usr/lib/udev/hwdb.d/60-a.hwdb": "m*\n A=1\n",
    "r/usr/lib/udev/hwdb.d/70-b.hwdb": "m*\n A=2\n",
    "r/usr/lib/udev/hwdb.d/80-c.txt": "m*\n A=4\n",
}
FOLDERS = index(
    2,
    [node(ROOT, children=1), node(BYTE, "m", children=1), node(MANY, values=2)],
    [(0, 1, 1, 1, 0, 4, 9, 2), (2, 1, 3, 1, 1, 13, 9, 2)],
    b"A1A260-a.hwdb70-b.hwdb",
)
MASKED_FILES = {**FOLDERS_FILES, "r/etc/udev/hwdb.d/70-b.hwdb": "z\n A=2\n"}
MASKED = index(
    2,
    [node(ROOT, children=2), node(BYTE, "m", children=1), node(BYTE, "z", values=1), node(MANY, values=1)],
    [(0, 1, 1, 1, 1, 13, 9, 2), (2, 1, 3, 1, 0, 4, 9, 2)],
    b"A2A160-a.hwdb70-b.hwdb",
)

# The longest pattern.
STARS_FILES = {"t.hwdb": "*" * 16_384 + "\n K=V\n"}
STARS = index(
    2,
    [node(ROOT, children=1), *[node(MANY, children=1)] * 16_383, node(MANY, values=1)],
    [(0, 1, 1, 1, 0, 2, 6, 2)],
    b"KVt.hwdb",
)

# A chain of 16,001 nodes, each except the root labeled a and with K=V of order 0, in version 1: 704,058 bytes.
CHAIN = index(
    1,
    [node(ROOT, children=1), *[node(BYTE, "a", children=1, values=1)] * 15_999, node(BYTE, "a", values=1)],
    [(0, 1, 1, 1, 0)] * 16_000,
    b"KV",
)
assert len(CHAIN) == 704_058

# Two records, the later of which has the better A for abc.
RECORDS_FILES = {"t.hwdb": "ab*\n A=1\n B=2\n\na?c\n A=3\n"}
RECORDS = index(
    2,
    [
        node(ROOT, children=1),
        node(BYTE, "a", children=2),
        node(BYTE, "b", children=1),
        node(ONE, children=1),
        node(MANY, values=2),
        node(BYTE, "c", values=1),
    ],
    [(0, 1, 1, 1, 0, 6, 6, 2), (2, 1, 3, 1, 1, 6, 6, 3), (4, 1, 5, 1, 2, 6, 6, 6)],
    b"A1B2A3t.hwdb",
)

# One pattern with stars and two sets, of which [tT] is the lesser by its bytes.
TRACKBALL_FILES = {"t.hwdb": "mouse:*:name:*[tT]rack[bB]all*:*\n ID_INPUT_TRACKBALL=1\n"}
TRACKBALL = index(
    2,
    [
        node(ROOT, children=1),
        *(node(BYTE, letter, children=1) for letter in "mouse:"),
        node(MANY, children=1),
        *(node(BYTE, letter, children=1) for letter in ":name:"),
        node(MANY, children=1),
        node(AMONG, number=0, children=1),
        *(node(BYTE, letter, children=1) for letter in "rack"),
        node(AMONG, number=1, children=1),
        *(node(BYTE, letter, children=1) for letter in "all"),
        node(MANY, children=1),
        node(BYTE, ":", children=1),
        node(MANY, values=1),
    ],
    [(0, 18, 18, 1, 0, 19, 6, 2)],
    b"ID_INPUT_TRACKBALL1t.hwdb",
    [byte_set(b"tT"), byte_set(b"bB")],
)

# What `update` never writes: labels out of order and twice below one node, texts that share bytes, an empty text at the
# end, a node that leads nowhere, orders that fall from node to node, and equal ones.
FOREIGN = index(
    2,
    [
        node(ROOT, children=4, values=1),
        node(MANY, values=2),
        node(BYTE, "a", children=1),
        node(BYTE, "a", children=1, values=1),
        node(ONE),
        node(MANY, values=1),
        node(BYTE, "b", values=1),
    ],
    [
        (0, 2, 3, 0, 9, 1, 2, 7),
        (0, 1, 1, 1, 5, 0, 0, 0),
        (1, 1, 0, 1, 6, 0, 1, 1),
        (0, 1, 2, 1, 5, 2, 1, 2),
        (1, 1, 0, 3, 5, 0, 3, 3),
        (0, 1, 0, 1, 4, 0, 3, 4),
    ],
    b"KVW",
)

READ = [
    *queries("a pattern in version 1", WITHOUT_FILE, ("abc", "-: K=V\n"), ("a", "-: K=V\n"), ("bc", ""), ("", "")),
    *queries(
        "a pattern in version 2",
        WITH_FILE,
        ("abc", "t.hwdb:2: K=V\n"),
        ("a", "t.hwdb:2: K=V\n"),
        ("bc", ""),
        ("", ""),
    ),
    query("no sources in version 1", WITHOUT_FILE, "abc", "K=V\n"),
    query("no sources in version 2", WITH_FILE, "abc", "K=V\n"),
    query("no entry", EMPTY, "x", ""),
    query("two records", RECORDS, "abc", "A=3\nB=2\n"),
    *queries("two records", RECORDS, ("ab", "t.hwdb:2: A=1\nt.hwdb:3: B=2\n"), ("x", "")),
    query("a trackball", TRACKBALL, "mouse:usb:name:My TrackBall:x", "ID_INPUT_TRACKBALL=1\n"),
    query("a trackball", TRACKBALL, "mouse:usb:name:My Mouse:x", ""),
    *queries(
        "two patterns with a set",
        FOUR,
        ("bx", "y.hwdb:5: K=4\n"),
        ("by", "y.hwdb:5: K=4\n"),
        ("bz", "y.hwdb:5: K=4\n"),
        ("ay", "z.hwdb:5: K=2\n"),
        ("b", ""),
    ),
    *queries(
        "each match with each property",
        PAIRS,
        ("abc", "60-a.hwdb:3: A=1\n60-a.hwdb:4: B=x=\n"),
        ("\tn", "60-a.hwdb:3: A=1\n60-a.hwdb:4: B=x=\n"),
        ("m1", "70-b.hwdb:2: C=\n"),
    ),
    *queries(
        "each kind of label",
        LABELS,
        ("z", "l.hwdb:20: A=7\nl.hwdb:26: B=9\n"),
        ("a", "l.hwdb:17: A=6\n"),
        ("b", "l.hwdb:14: A=5\n"),
        ("c", "l.hwdb:8: A=3\n"),
        ("xb", "l.hwdb:23: A=8\n"),
        ("", "l.hwdb:5: A=2\n"),
    ),
    *queries(
        "ten thousand patterns",
        NUMBERS,
        ("usb:v1234", "t.hwdb:3704: K=V\n"),
        ("usb:v9999", "t.hwdb:29999: K=V\n"),
        ("usb:v123", ""),
        ("usb:v12345", ""),
    ),
    *queries("forty stars", FORTY, ("a" * 200, "t.hwdb:2: K=V\n"), ("a" * 39, "")),
    query("forty stars and a last byte that does not fit", FORTY, "a" * 200 + "b", ""),
    *queries("16,384 stars", STARS, ("a" * 10, "t.hwdb:2: K=V\n"), ("", "t.hwdb:2: K=V\n")),
    *queries("a chain", CHAIN, ("a" * 16_000, "-: K=V\n"), ("a", "-: K=V\n")),
    query("a chain, one byte too many", CHAIN, "a" * 16_001, ""),
    *queries(
        "an index written by another program",
        FOREIGN,
        # the empty pattern and `*`
        ("", "-: K=V\nVW:7: KV=\nK:1: V=K\n"),
        ("b", "-: K=V\nK:1: V=K\n"),
        # `*` and the second `a` have K of order 5: the later one counts; `a*` has V of a lower order than `*`
        ("a", "W:2: K=W\nK:1: V=K\n"),
        # `ab` has K of a lower order than `*`
        ("ab", "-: K=V\nK:1: V=K\n"),
    ),
    *queries("files of two folders", FOLDERS, ("mx", "70-b.hwdb:2: A=2\n")),
    *queries("a file that replaces one of the same name", MASKED, ("mx", "60-a.hwdb:2: A=1\n"), ("z", "70-b.hwdb:2: A=2\n")),
    *queries("ten thousand times one pattern", LONG, ("mx", "s.hwdb:29999: A=1\n")),
]

WRITTEN = [
    Row("without folders the index has no entry", "update -r none", output=EMPTY),
    update("of an empty file the index has no entry", {"s.hwdb": ""}, EMPTY),
    update("one entry", {"t.hwdb": "a*\n K=V\n"}, WITH_FILE),
    update("two patterns with a set", FOUR_FILES, FOUR),
    update("each match with each property", PAIRS_FILES, PAIRS),
    update("two records", RECORDS_FILES, RECORDS),
    update("a trackball", TRACKBALL_FILES, TRACKBALL),
    update("each kind of label", LABELS_FILES, LABELS),
    update("ten thousand patterns", NUMBERS_FILES, NUMBERS),
    update("ten thousand times one pattern", LONG_FILES, LONG),
    update("forty stars", FORTY_FILES, FORTY),
    update("16,384 stars", STARS_FILES, STARS),
    Row(
        "a pattern of 16,385 stars is refused",
        "update t.hwdb",
        {"t.hwdb": "*" * 16_385 + "\n K=V\n"},
        output=EMPTY,
        messages="t.hwdb:1: H6 pattern not supported: " + "*" * 32 + "\n",
    ),
    Row("files of two folders", "update -r r", FOLDERS_FILES, output=FOLDERS),
    Row("a file that replaces one of the same name", "update -r r", MASKED_FILES, output=MASKED),
]

# A rule that asks the database for the USB device at or above the event's, and such an event.
ASKS = 'IMPORT{builtin}="hwdb --subsystem=usb"\n'
BELOW_USB = "C: add\nP: /a/b\nP: /a\nU: usb\nE: MODALIAS=usb:v1D6Bp0002\n"

USB = index(
    2,
    [node(ROOT, children=1), *(node(BYTE, letter, children=1) for letter in "usb:v1D6B"), node(MANY, values=1)],
    [(0, 9, 9, 5, 0, 14, 6, 2)],
    b"ID_VENDORLinuxu.hwdb",
)

EVENTS = [
    update("the vendor of hubs", {"u.hwdb": "usb:v1D6B*\n ID_VENDOR=Linux\n"}, USB),
    Row(
        "events reads the index, and opens no folder of the database",
        "events -r r --index i r.rules",
        {"i": USB, "r.rules": ASKS, "r/etc/udev/hwdb.d/bad.hwdb": " A=1\n"},
        BELOW_USB,
        "event add /a/b\nenv ACTION=add\nenv DEVPATH=/a/b\nenv ID_VENDOR=Linux\n\n",
    ),
    Row(
        "a node after a byte that is not UTF-8",
        "events --index i r.rules",
        {"i": with_bytes(WITHOUT_FILE, 57, b"\xff"), "r.rules": ASKS},
        BELOW_USB.encode().replace(b"usb:v1D6Bp0002", b"\xffbc"),
        "event add /a/b\nenv ACTION=add\nenv DEVPATH=/a/b\nenv K=V\n\n",
    ),
]

ROWS = [*WRITTEN, *READ, *EVENTS]
