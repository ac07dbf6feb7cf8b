"""Rows of `events` over one rules file: what the answers to some blocks are."""
from tables.kinds.row import Row, as_bytes

# The first words of the lines of an answer, in their order.
ORDER = "event name owner group mode priority watch nowatch persist label link tag env attr sysctl run note".split()


def escaped(text):
    """A text as an answer or a message shows it."""
    return b"".join(b"\\x%02X" % byte if byte < 0x20 or byte in b"\x7F\\" else bytes([byte]) for byte in as_bytes(text))


def place(line):
    """Where a line of an answer belongs: by its first word, and lines of `env` also by their names."""
    first = ORDER.index(line.split(b" ")[0].decode())
    return (first, line.split(b"=")[0] if line.startswith(b"env ") else b"")


def answer(path, lines):
    """An answer to the action `add` at a path, with these lines in addition to its own."""
    shown = escaped(path)
    own = [b"event add " + shown, b"env ACTION=add", b"env DEVPATH=" + shown]
    return b"\n".join(sorted(own + [as_bytes(line) for line in lines], key=place)) + b"\n\n"


def block(path, *lines):
    """A block of the action `add` at a path, with these lines."""
    return b"\n".join([b"C: add", b"P: " + as_bytes(path), *(as_bytes(line) for line in lines)]) + b"\n\n"


def answered(name, rules, *asked, path="/d", messages=b""):
    """A run over a file `r.rules` of these lines. Each thing asked is a pair: the lines of a block after its path, and the lines
    that its answer has in addition to the event, ACTION and DEVPATH."""
    return Row(
        name,
        "events -r none r.rules",
        {"r.rules": b"".join(as_bytes(line) + b"\n" for line in rules)},
        input=b"".join(block(path, *lines) for lines, _ in asked),
        output=b"".join(answer(path, wanted) for _, wanted in asked),
        messages=messages,
    )
