"""Indexes made number by number, as docs/format.md describes the format; nothing here asks the program."""
import struct

# What leads to a node.
ROOT, BYTE, ONE, MANY, AMONG = range(5)

# The index of no entries, and that of `a*` with ` K=V` in version 1 and, from line 2 of t.hwdb, in version 2: as they
# are printed, byte by byte.
EMPTY = bytes.fromhex(
    "6465766472796877 02000000 01000000 00000000 00000000 00000000 00000000"
    "00000000 00000000 01000000 00000000 00000000 00000000"
)
WITHOUT_FILE = bytes.fromhex(
    "6465766472796877 01000000 03000000 01000000 00000000 02000000 00000000"
    "00000000 00000000 01000000 01000000 00000000 00000000"
    "01610000 00000000 02000000 01000000 00000000 00000000"
    "03000000 00000000 03000000 00000000 00000000 01000000"
    "00000000 01000000 01000000 01000000 00000000"
    "4b56"
)
WITH_FILE = bytes.fromhex(
    "6465766472796877 02000000 03000000 01000000 00000000 08000000 00000000"
    "00000000 00000000 01000000 01000000 00000000 00000000"
    "01610000 00000000 02000000 01000000 00000000 00000000"
    "03000000 00000000 03000000 00000000 00000000 01000000"
    "00000000 01000000 01000000 01000000 00000000 02000000 06000000 02000000"
    "4b56742e68776462"
)


def numbers(*values):
    """Numbers of 32 bits, the least significant byte first."""
    return struct.pack(f"<{len(values)}I", *values)


def node(kind, byte=0, number=0, children=0, values=0):
    """What a node says about itself: its label, and how many children and how many values it has."""
    return kind, ord(byte) if byte else 0, number, children, values


def byte_set(members):
    """The 32 bytes of a set."""
    return bytes(sum(1 << bit for bit in range(8) if 8 * at + bit in members) for at in range(32))


def index(version, nodes, values, text, sets=()):
    """An index: the nodes as `node` gives them, each value as its record's numbers, the text and the sets.

    Where the children and the values of a node begin follows from the nodes before it.
    """
    records, first, value = [], 1, 0
    for kind, byte, number, children, own in nodes:
        records.append(bytes([kind, byte, 0, 0]) + numbers(number, first, children, value, own))
        first += children
        value += own
    header = b"devdryhw" + numbers(version, len(nodes), len(values), len(sets), len(text), 0)
    return b"".join([header, *records, *(numbers(*record) for record in values), *sets, text])


def with_bytes(whole, at, there):
    """An index with other bytes at a place."""
    return whole[:at] + there + whole[at + len(there):]
