"""Indexes that are cut off, that continue after their end, and that have one field changed.

The answer to each was worked out by hand from the eight checks of docs/format.md: the first that fails. The header's
numbers have to give the length of the file (`size`). Each node says where its children and its values begin, which
follows from the nodes before it, so a wrong count shows at the next node or at the end (`shape`). What a label does not
use is 0, and only the root has kind 0 (`label`). A place and a length are within the text, and a key is not empty
(`text`). An index that passes all checks gives other answers, or the same.
"""
from tables.kinds.index_bytes import BYTE, MANY, ROOT, WITH_FILE, WITHOUT_FILE, index, node, with_bytes
from tables.kinds.row import Row, as_bytes

CHECKS = ("short", "magic", "version", "size", "shape", "label", "text", "order")
VERSIONS = (("version 1", WITHOUT_FILE), ("version 2", WITH_FILE))


def asked(name, whole, said, modalias="abc", sources=False):
    """`query` by an index: what it answers, or the check that fails."""
    words = ["query", *(["--sources"] if sources else []), "--index", "i", modalias]
    if said in CHECKS:
        return Row(name, words, {"i": whole}, messages=f"devdry: index: {said}\n", status=1)
    return Row(name, words, {"i": whole}, output=as_bytes(said) + b"\n" if said else b"")


def cut():
    """Each beginning of both indexes, and each with one byte more."""
    for version, whole in VERSIONS:
        for length in range(len(whole)):
            yield asked(f"{length} bytes of {version}", whole[:length], "short" if length < 32 else "size")
        yield asked(f"all bytes of {version}", whole, "K=V")
        yield asked(f"one byte more than {version}", whole + b"\0", "size")


# The fields: their place, their length, and the answer to `abc` with the field's first byte raised by one, with all its
# bytes 0, and with all its bytes 255.
NAME = [(at, 1, "magic", "magic", "magic") for at in range(8)]

# How many nodes, values, sets and bytes of text there are, and the number that has to be 0.
COUNTS = [
    (12, 4, "size", "size", "size"),
    (16, 4, "size", "size", "size"),
    (20, 4, "size", "K=V", "size"),
    (24, 4, "size", "size", "size"),
    (28, 4, "size", "K=V", "size"),
]

# The root, which has one child and no value.
ROOT_FIELDS = [
    (32, 1, "label", "K=V", "label"),
    (33, 1, "label", "K=V", "label"),
    (34, 1, "label", "K=V", "label"),
    (35, 1, "label", "K=V", "label"),
    (36, 4, "label", "K=V", "label"),
    (40, 4, "shape", "shape", "shape"),
    (44, 4, "shape", "shape", "shape"),
    (48, 4, "shape", "K=V", "shape"),
    (52, 4, "shape", "K=V", "shape"),
]

# The node after `a`, which has one child and no value. Raised, its kind takes no byte, and its byte is `b`.
BYTE_FIELDS = [
    (56, 1, "label", "label", "label"),
    (57, 1, "", "", ""),
    (58, 1, "label", "K=V", "label"),
    (59, 1, "label", "K=V", "label"),
    (60, 4, "label", "K=V", "label"),
    (64, 4, "shape", "shape", "shape"),
    (68, 4, "shape", "shape", "shape"),
    (72, 4, "shape", "K=V", "shape"),
    (76, 4, "shape", "K=V", "shape"),
]

# The node after `*`, which has no child and one value. Raised, its kind takes a set, and there is none.
STAR_FIELDS = [
    (80, 1, "label", "label", "label"),
    (81, 1, "label", "K=V", "label"),
    (82, 1, "label", "K=V", "label"),
    (83, 1, "label", "K=V", "label"),
    (84, 4, "label", "K=V", "label"),
    (88, 4, "shape", "shape", "shape"),
    (92, 4, "shape", "K=V", "shape"),
    (96, 4, "shape", "K=V", "shape"),
    (100, 4, "shape", "shape", "shape"),
]

# The key and the order of the value: its key may be `V`, or `KV`, and its order any number.
KEY = [
    (104, 4, "V=V", "K=V", "text"),
    (108, 4, "KV=V", "text", "text"),
    (120, 4, "K=V", "K=V", "K=V"),
]

# The version, and the value's text, in version 1, which has 20 bytes for a value and a text that ends after `V`.
FIRST_VERSION = [
    (8, 4, "size", "version", "version"),
    (112, 4, "text", "K=K", "text"),
    (116, 4, "text", "K=", "text"),
]

# The same in version 2, where the text continues; then the place and the length of the file's name, which ends where the
# text does, and the line.
SECOND_VERSION = [
    (8, 4, "version", "version", "version"),
    (112, 4, "K=t", "K=K", "text"),
    (116, 4, "K=Vt", "K=", "text"),
    (124, 4, "text", "K=V", "text"),
    (128, 4, "text", "K=V", "text"),
    (132, 4, "K=V", "K=V", "K=V"),
]

EACH = [*NAME, *COUNTS, *ROOT_FIELDS, *BYTE_FIELDS, *STAR_FIELDS, *KEY]
FIELDS = (("version 1", WITHOUT_FILE, [*EACH, *FIRST_VERSION]), ("version 2", WITH_FILE, [*EACH, *SECOND_VERSION]))


def changed():
    """Each field of both indexes raised, 0, and at its greatest."""
    for version, whole, fields in FIELDS:
        for at, length, raised, zero, greatest in fields:
            yield asked(f"{version}, the field at {at} is one greater", with_bytes(whole, at, bytes([whole[at] + 1])), raised)
            yield asked(f"{version}, the field at {at} is 0", with_bytes(whole, at, bytes(length)), zero)
            yield asked(f"{version}, the field at {at} is the greatest number", with_bytes(whole, at, b"\xff" * length), greatest)


# The byte of a node is the one that leads to it, and each byte of the text is answered.
BYTES = [
    asked("a node after another byte", with_bytes(WITHOUT_FILE, 57, b"b"), "K=V", "bc"),
    *(
        asked(f"version 1, the text has {there} at {at}", with_bytes(WITHOUT_FILE, at, there), answer)
        for at, there, answer in [
            (124, b"L", b"L=V"),
            (124, b"\0", b"\0=V"),
            (124, b"\xff", b"\xff=V"),
            (125, b"W", b"K=W"),
            (125, b"\0", b"K=\0"),
            (125, b"\xff", b"K=\xff"),
        ]
    ),
]

# The source of a property is reported as stored: the file's place and its length, and the line.
SOURCES = [
    asked(f"version 2, {name}", with_bytes(WITH_FILE, at, there), answer, sources=True)
    for name, at, there, answer in [
        ("the file begins with the text", 124, bytes(4), "KVt.hw:2: K=V"),
        ("the file has no name", 128, bytes(4), "-: K=V"),
        ("the line is 0", 132, bytes(4), "t.hwdb:0: K=V"),
        ("the line is the greatest", 132, b"\xff" * 4, "t.hwdb:4294967295: K=V"),
    ]
]

# Each of these fails one check and no earlier one.
ONE = [
    ("31 bytes", WITHOUT_FILE[:31], "short"),
    ("the first byte changed", with_bytes(WITHOUT_FILE, 0, b"D"), "magic"),
    ("the number at 8 is 2", with_bytes(WITHOUT_FILE, 8, b"\x02"), "size"),
    ("the number at 8 is 9", with_bytes(WITHOUT_FILE, 8, b"\x09"), "version"),
    ("the first 125 bytes", WITHOUT_FILE[:125], "size"),
    ("the first 143 bytes of version 2", WITH_FILE[:143], "size"),
    ("two children of the root", with_bytes(WITHOUT_FILE, 44, b"\x02"), "shape"),
    ("a node of kind 9", with_bytes(WITHOUT_FILE, 56, b"\x09"), "label"),
    ("a key of 3 bytes", with_bytes(WITHOUT_FILE, 108, b"\x03"), "text"),
    ("a file's name of 7 bytes", with_bytes(WITH_FILE, 128, b"\x07"), "text"),
]


def twins(second):
    """The index of `a*` with two properties, one of order 0 and then one of another order."""
    nodes = [node(ROOT, children=1), node(BYTE, "a", children=1), node(MANY, values=2)]
    return index(1, nodes, [(0, 1, 1, 1, 0), (0, 1, 1, 1, second)], b"KV")


# The same of ` K=V` and ` L=W` in version 2, as `update` writes it of t.hwdb.
TWO_KEYS = index(
    2,
    [node(ROOT, children=1), node(BYTE, "a", children=1), node(MANY, values=2)],
    [(0, 1, 1, 1, 0, 4, 6, 2), (2, 1, 3, 1, 1, 4, 6, 3)],
    b"KVLWt.hwdb",
)
ORDER_AT = 32 + 3 * 24 + 32 + 16

ORDERS = [
    asked("two properties of order 0", twins(0), "order"),
    asked("orders 0 and 1", twins(1), "K=V"),
    asked("orders 0 and 1 in version 2", TWO_KEYS, "K=V\nL=W"),
    asked("the second order is 0", with_bytes(TWO_KEYS, ORDER_AT, bytes(4)), "order"),
]


def of_events(name, whole, check):
    """`events` by an index that fails a check: nothing is read of the input."""
    words = "events -r none --index i"
    return Row(f"events with an index: {name}", words, {"i": whole}, "C: ", messages=f"devdry: index: {check}\n", status=1)


OF_EVENTS = [
    *ONE,
    ("two properties of order 0", twins(0), "order"),
    ("the second order is 0", with_bytes(TWO_KEYS, ORDER_AT, bytes(4)), "order"),
]

ROWS = [
    *cut(),
    *changed(),
    *BYTES,
    *SOURCES,
    *(asked(name, whole, check) for name, whole, check in ONE),
    *ORDERS,
    *(of_events(name, whole, check) for name, whole, check in OF_EVENTS),
]
