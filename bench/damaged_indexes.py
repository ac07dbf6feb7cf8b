"""Small indexes, damaged from a seed: each is refused, or answers, as a plain reading of its bytes says.

Some of the changes go together, such as text that grows along with the number that gives its length, so that many of the
files are accepted and have to answer. The plain reading (plain_index.py) shares nothing with the program.
"""
import functools
import os
import struct
import subprocess
import tempfile

import plain_index

# Databases, as their files, and the modaliases that their indexes are asked for: without an entry, with one, with patterns
# that fit one text in many ways, with sets, and one as distributions have it.
SAMPLES = (
    ({"empty.hwdb": "# nothing\n"}, (b"", b"a")),
    ({"t.hwdb": "a*\n K=V\n"}, (b"abc", b"a", b"bc", b"")),
    ({"60-a.hwdb": "*\n A=1\n\n*a*\n A=2\n B=2\n\n*a*b*\na?b\n A=3\n C=3\n",
      "70-b.hwdb": "ab\n*b\n**\n A=4\n D=\n\n???\n B=5\n A=5\n"}, (b"ab", b"aab", b"b", b"xaxbx")),
    ({"sets.hwdb": "[ab]c\n A=1\n\n[!ab]c\n A=2\n B=2\n\n[a-z]*[0-9]\n A=3\n C=3\n\n[[]\n D=1\n\n*[tT]rack[bB]all*\n E=1\n\n"
                   "[!a-z]?c\n F=1\n"},
     (b"ac", b"zc", b"\xc3\xa9c", b"a5", b"my TrackBall:", b"[")),
    ({"20-usb.hwdb": "usb:v1D6B*\n VENDOR=Linux\n\nusb:v1D6Bp0001*\n MODEL=1.1\n\nusb:v1D6Bp0002*\n MODEL=2.0\n\n"
                     "usb:v1D6Bp0003*\n MODEL=3.0\n",
      "70-mouse.hwdb": "mouse:*:name:*:\nmouse:usb:*\n DPI=400\n\nmouse:usb:v046d*:name:*\n DPI=1000@125\n WHEEL=15\n"},
     (b"usb:v1D6Bp0002d0510", b"usb:v1D6Bp0003", b"mouse:usb:v046dpc52b:name:x:", b"mouse:ps2:name:y:")),
)
RULES = b'KERNEL=="x", IMPORT{builtin}="hwdb", TAG+="found"\n'
# The fields of a header and of a record have four bytes each.
FIELD = 4
NODE, SET = 24, 32


def number_at(data, at):
    """The number at a place; after the end of the file there are fewer bytes."""
    return int.from_bytes(data[at:at + FIELD], "little")


def set_number(data, at, number):
    """Sets the number at a place; after the end nothing changes."""
    if at + FIELD <= len(data):
        data[at:at + FIELD] = (number % 2 ** 32).to_bytes(FIELD, "little")


def tables_of(index):
    """The nodes, the values and the sets of an undamaged index: where each table begins, its records and their length."""
    version, nodes, values, sets = struct.unpack_from("<4I", index, 8)
    length = {1: 20, 2: 32}[version]
    following = 32 + NODE * nodes
    return (32, nodes, NODE), (following, values, length), (following + length * values, sets, SET)


def some_record(chance, table):
    """The place of a record of a table."""
    begin, count, length = table
    return begin + chance.randrange(max(count, 1)) * length


def change_length(chance, tables, data):
    """Cuts a file, often where a table begins, or lets it grow."""
    if chance.randrange(2):
        del data[chance.choice((chance.randrange(len(data) + 1), chance.choice(tables)[0])):]
    else:
        data += chance.randbytes(chance.randrange(40))


def change_text(chance, tables, data):
    """Cuts the end of the text or lets it grow, and says so in the header."""
    before = len(data)
    if chance.randrange(2):
        del data[before - min(before, chance.randrange(number_at(data, 24) % 100 + 1)):]
    else:
        data += chance.randbytes(chance.randrange(40))
    set_number(data, 24, number_at(data, 24) + len(data) - before)


def drop_record(chance, tables, data):
    """Removes the last record of a table, and says so in the header."""
    number = chance.randrange(3)
    begin, count, length = tables[number]
    if count:
        del data[begin + (count - 1) * length:begin + count * length]
        set_number(data, 12 + FIELD * number, count - 1)


def move_records(chance, tables, data):
    """Exchanges two records of a table, or copies one to the place of the other."""
    table = chance.choice(tables)
    first, second, length = some_record(chance, table), some_record(chance, table), table[2]
    one, other = data[first:first + length], data[second:second + length]
    if len(one) == len(other):
        data[first:first + length] = other
        if chance.randrange(2):
            data[second:second + length] = one


def move_between_nodes(chance, tables, data):
    """Lets one node have a child or a value more and another one less, and corrects what has to follow from it."""
    nodes = tables[0]
    at = chance.choice((12, 20))
    less, more = some_record(chance, nodes) + at, some_record(chance, nodes) + at
    set_number(data, less, number_at(data, less) - 1)
    set_number(data, more, number_at(data, more) + 1)
    child, value = 1, 0
    begin, count, length = nodes
    for record in range(begin, begin + count * length, length):
        set_number(data, record + 8, child)
        set_number(data, record + 16, value)
        child += number_at(data, record + 12)
        value += number_at(data, record + 20)


def level_orders(chance, tables, data):
    """Gives the values of each node the orders from 0 on, so that those of different nodes are equal."""
    nodes, values = tables[:2]
    for node in range(nodes[0], nodes[0] + nodes[1] * NODE, NODE):
        first, count = number_at(data, node + 16), min(number_at(data, node + 20), values[1])
        for order in range(count):
            set_number(data, values[0] + (first + order) * values[2] + 16, order)


def some_field(chance, tables):
    """The place of a number in the header or in a record."""
    if chance.randrange(4) == 0:
        return 8 + chance.randrange(6) * FIELD
    return some_record(chance, tables[chance.choice((0, 0, 0, 1, 1, 1, 2))]) + chance.randrange(8) * FIELD


def change_number(chance, tables, data):
    """Changes a number: to 0, the greatest one, one more, one less, another of the file, a small one or any."""
    at = some_field(chance, tables)
    number = number_at(data, at)
    set_number(data, at, chance.choice((
        0, 2 ** 32 - 1, number + 1, number - 1, number_at(data, some_field(chance, tables)),
        chance.randrange(8), chance.randrange(1024), chance.randrange(2 ** 32))))


def copy_number(chance, tables, data):
    """Writes a number of a node or a value into another: two values share a text, or have the same order."""
    table = tables[chance.randrange(2)]
    at = chance.randrange(table[2] // FIELD) * FIELD
    set_number(data, some_record(chance, table) + at, number_at(data, some_record(chance, table) + at))


def change_byte(chance, tables, data):
    """Sets a byte."""
    if data:
        data[chance.randrange(len(data))] = chance.randrange(256)


# The changes to an index, and how often each is made in comparison with the others.
WAYS = {
    change_length: 1, change_text: 2, drop_record: 1, move_records: 4, move_between_nodes: 3, level_orders: 1,
    change_number: 3, copy_number: 4, change_byte: 3,
}


def damaged(chance, index):
    """A copy of an index with up to three changes, or seldom none."""
    data = bytearray(index)
    for way in chance.choices(list(WAYS), WAYS.values(), k=chance.choice((0,) + (1, 2, 3) * 5)):
        way(chance, tables_of(index), data)
    return bytes(data)


def in_version_1(index):
    """An index as version 1 has it: its values end after their orders."""
    _, (begin, count, length), _ = tables_of(index)
    values = b"".join(index[at:at + 20] for at in range(begin, begin + count * length, length))
    return index[:8] + struct.pack("<I", 1) + index[12:begin] + values + index[begin + count * length:]


@functools.lru_cache
def originals(program):
    """The indexes that are damaged, those of all samples in both versions, each with its modaliases."""
    made = []
    with tempfile.TemporaryDirectory() as folder:
        for files, modaliases in SAMPLES:
            for name, text in files.items():
                with open(os.path.join(folder, name), "w", encoding="ascii") as file:
                    file.write(text)
            run = subprocess.run([program, "update", *files], cwd=folder, capture_output=True, check=True)
            made += [(run.stdout, modaliases), (in_version_1(run.stdout), modaliases)]
    return made


def escaped(name):
    """A file's name as it is printed."""
    return b"".join(b"\\x%02X" % byte if byte < 0x20 or byte in b"\x7f\\" else bytes((byte,)) for byte in name)


def lines_of(entries, sources):
    """What `query` prints of an answer."""
    lines = []
    for entry in entries:
        origin = b"%b:%d: " % (escaped(entry.file), entry.line) if entry.file else b"-: "
        lines.append((origin if sources else b"") + entry.key + b"=" + entry.value + b"\n")
    return b"".join(lines)


def compare(runs, chance, case, index, modalias):
    """Asks an index by `query`, or sees that `events` opens it or refuses it; notes where the plain reading differs."""
    path = runs.write("damaged", index)
    sources, by_events = chance.randrange(2) == 1, chance.randrange(8) == 0
    try:
        entries = plain_index.answer(plain_index.read(index), modalias)
        wanted = (0, b"event add /devices/x\n" if by_events else lines_of(entries, sources), b"")
        came = "answered with properties" if entries else "answered without properties"
    except plain_index.Refused as fault:
        wanted = (1, b"", b"devdry: index: %b\n" % str(fault).encode())
        came = f"refused: {fault}"
    if by_events:
        got = runs.answer(case, ["events", "--index", path, runs.write("a.rules", RULES)], runs.write("blocks", (
            b"C: add\nP: /devices/x\nE: MODALIAS=%b\n\n" % modalias)))
        same = got[0] == wanted[0] and got[1].startswith(wanted[1]) and got[2] == wanted[2] and (got[0] == 0 or not got[1])
    else:
        got = runs.answer(case, ["query", "--index", path, modalias, *(["--sources"] if sources else [])])
        same = got == wanted
    runs.ends[came] += 1
    if not same:
        runs.faults.append(f"{case}, {modalias!r}: wanted {wanted}, got {got}: {index.hex()}")


def missing(ends):
    """The faults that no damaged index had: if there are any, the changes are not what they should be."""
    return [f"no index was refused: {fault}" for fault in plain_index.FAULTS if not ends[f"refused: {fault}"]]
