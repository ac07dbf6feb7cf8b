"""A plain reading of an index, written from docs/format.md alone: its checks in their order, and then each entry that
it lists, tried against a modalias one by one."""
import struct
from collections import namedtuple

Node = namedtuple("Node", "kind byte zeros set first_child children first_value values")
Value = namedtuple("Value", "key key_len value value_len order file file_len line", defaults=(0, 0, 0))
# A property of an index: `path` is what leads to its node, each step a set of bytes or MANY.
Entry = namedtuple("Entry", "path key value order file line")

HEADER = 32
NODE = struct.Struct("<BBHIIIII")
VALUE = {1: struct.Struct("<5I"), 2: struct.Struct("<8I")}
SET = 32
MANY = None
MAX_NODES, MAX_VALUES, MAX_SETS = 2 ** 26, 2 ** 24, 2 ** 26
FAULTS = ("short", "magic", "version", "size", "shape", "label", "text", "order")


class Refused(Exception):
    """The first check that a file fails, by its name."""


class Plain:
    """The tables of a file that passes the checks before `shape`."""

    def __init__(self, data):
        if len(data) < HEADER:
            raise Refused("short")
        if data[:8] != b"devdryhw":
            raise Refused("magic")
        version, nodes, values, sets, text, zero = struct.unpack_from("<6I", data, 8)
        if version not in VALUE:
            raise Refused("version")
        ends = [HEADER, NODE.size * nodes, VALUE[version].size * values, SET * sets, text]
        ends = [sum(ends[:count]) for count in range(1, len(ends) + 1)]
        bounds = 1 <= nodes <= MAX_NODES and values <= MAX_VALUES and sets <= MAX_SETS
        if not bounds or zero != 0 or len(data) != ends[-1]:
            raise Refused("size")
        parts = [data[begin:end] for begin, end in zip(ends, ends[1:])]
        self.nodes = [Node(*row) for row in NODE.iter_unpack(parts[0])]
        self.values = [Value(*row) for row in VALUE[version].iter_unpack(parts[1])]
        self.sets = [parts[2][at:at + SET] for at in range(0, len(parts[2]), SET)]
        self.text = parts[3]

    def has_shape(self):
        """Whether the children of all nodes follow one another after the root, and whether their values do."""
        children = values = 0
        for number, node in enumerate(self.nodes):
            if node.first_child != 1 + children or node.first_child <= number or node.first_value != values:
                return False
            children += node.children
            values += node.values
        return 1 + children == len(self.nodes) and values == len(self.values)

    def has_labels(self):
        """Whether each node is reached by what it may be reached by."""
        return all(
            (node.kind == 0) == (number == 0) and node.kind <= 4 and (node.kind == 1 or node.byte == 0) and node.zeros == 0
            and (node.set < len(self.sets) if node.kind == 4 else node.set == 0)
            for number, node in enumerate(self.nodes))

    def has_texts(self):
        """Whether each key, value and name of a file is within the text, and no key is empty."""
        return all(
            value.key_len > 0 and value.key + value.key_len <= len(self.text)
            and value.value + value.value_len <= len(self.text) and value.file + value.file_len <= len(self.text)
            for value in self.values)

    def has_orders(self):
        """Whether the orders of each node's values rise."""
        for node in self.nodes:
            own = self.values[node.first_value:node.first_value + node.values]
            if any(value.order >= later.order for value, later in zip(own, own[1:])):
                return False
        return True

    def step(self, node):
        """What leads to a node from its parent."""
        if node.kind == 3:
            return MANY
        if node.kind == 2:
            return frozenset(range(256))
        if node.kind == 1:
            return frozenset((node.byte,))
        return frozenset(byte for byte in range(256) if self.sets[node.set][byte // 8] >> byte % 8 & 1)

    def entries(self):
        """What the file lists, value by value."""
        paths = [()]
        listed = []
        for number, node in enumerate(self.nodes):
            children = self.nodes[node.first_child:node.first_child + node.children]
            paths += [(*paths[number], self.step(child)) for child in children]
            for value in self.values[node.first_value:node.first_value + node.values]:
                key, text, file = (
                    self.text[at:at + length]
                    for at, length in ((value.key, value.key_len), (value.value, value.value_len), (value.file, value.file_len)))
                listed.append(Entry(paths[number], key, text, value.order, file, value.line))
        return listed


def read(data):
    """The entries of a file; `Refused` if it has none."""
    plain = Plain(data)
    for fault, holds in (
        ("shape", plain.has_shape), ("label", plain.has_labels), ("text", plain.has_texts), ("order", plain.has_orders)):
        if not holds():
            raise Refused(fault)
    return plain.entries()


def fits(path, text):
    """Whether a path fits a whole text."""
    # where in the text the steps so far may end
    ends = {0}
    for step in path:
        if step is MANY:
            ends = set(range(min(ends), len(text) + 1)) if ends else ends
        else:
            ends = {end + 1 for end in ends if end < len(text) and text[end] in step}
    return len(text) in ends


def answer(entries, modalias):
    """The entries that count for a modalias, sorted by key."""
    counting = {}
    for entry in entries:
        if fits(entry.path, modalias) and (entry.key not in counting or entry.order >= counting[entry.key].order):
            counting[entry.key] = entry
    return [counting[key] for key in sorted(counting)]
