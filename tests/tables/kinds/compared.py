"""Rows of `compare`: two roots, and which lines of the answers go or come."""
from tables.kinds.answered import block
from tables.kinds.folders import LIB
from tables.kinds.row import Row, as_bytes

OLD, NEW = "old", "new"


def placed(root, name="r.rules"):
    """A rules file of a root."""
    return f"{root}/{LIB.removeprefix('mnt/')}/{name}"


def compared(name, old, new, *asked, messages="", files=(), words=()):
    """A run over two roots with a file `r.rules` of these rules. Each thing asked is a tuple: the path, the lines of its block
    after it, and the lines that go or come, `-LINE` before `+LINE`; none if the event stays the same."""
    texts = {placed(root): b"".join(as_bytes(rule) + b"\n" for rule in rules) for root, rules in ((OLD, old), (NEW, new))}
    output = b"".join(
        b"event add " + as_bytes(path) + b"\n" + b"".join(as_bytes(line) + b"\n" for line in wanted) + b"\n" for path, _, *wanted in asked if wanted)
    return Row(name, ["compare", *words, OLD, NEW], {**texts, **dict(files)}, input=b"".join(block(path, *lines) for path, lines, *_ in asked),
               output=output, messages=messages, status=1 if output else 0)
