"""Rows of `events --why` over one rules file: what the keys of its rules met, and how the rules ended."""
from tables.kinds.answered import answer, block
from tables.kinds.row import Row, as_bytes

# An answer shows at most so many bytes of a text, and a rendered text has at most so many.
SHOWN = 200
LONGEST = 16_384

# A property that is not printed, and a text that is too long if the property has over half of the bytes.
LONG = "E: .L=" + "l" * (LONGEST // 2 + 1)
TWICE = "$env{.L}$env{.L}"


def cut(text):
    """A text over 200 bytes as it is shown, with nothing of it escaped."""
    return f"{text[:SHOWN]}.. ({len(text)} bytes)"


def of(number, *reported):
    """The lines about the rule in one line."""
    return [b"%d: %s" % (number, as_bytes(line)) for line in reported]


def why(name, rules, lines, wanted, *courses, path="/d", asked=("r.rules",), messages=b"", files=(), root="none", options=(), udev=False):
    """A run over a file `r.rules` of these rules, over a block with these lines after its path.

    `wanted` are the lines that its answer has in addition to the event, ACTION and DEVPATH. `courses` are lists of what
    follows them, as `of` gives them: each line without its `why r.rules:`. `files` and `root` may hold a database, and
    `options` are added. `udev` evaluates as udev itself does, a device of the subsystem `m` unless a line says otherwise. A root that exists leaves the note that its rules are not read.
    """
    if udev and not any(as_bytes(line).startswith(b"U: ") for line in lines):
        lines, wanted = ["U: m", *lines], ["env SUBSYSTEM=m", *wanted]
    answered = answer(path, wanted)
    reported = b"".join(b"why r.rules:" + line + b"\n" for course in courses for line in course)
    noted = b"" if root == "none" else b"devdry: %s: its rules are not read beside a FILE that is named: --with FILE reads FILE among them\n" % root.encode()
    words = ["events", *(["--udev"] * udev), *options, "-r", root, *(word for text in asked for word in ("--why", text)), "r.rules"]
    return Row(
        name,
        words,
        {"r.rules": b"".join(as_bytes(rule) + b"\n" for rule in rules), **dict(files)},
        input=block(path, *lines),
        output=answered[:-1] + reported + b"\n",
        messages=noted + as_bytes(messages),
    )
