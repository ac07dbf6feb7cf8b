"""Alternative patterns, as the values of rules have them, with and without a prefix that ignores case."""
from tables.kinds.answered import answer, block
from tables.kinds.verified import verified
from tables.kinds.row import Row, as_bytes

# the value as it is written, with the prefix before its quote; kernel's names that fit; names that don't
OF_NAMES = [
    ('"sd[a-z]|nvme?"', ["sda", "nvme0"], ["sdA", "nvme", "sda|nvme0"]),
    ('"SDA"', ["SDA"], ["sda", "SdA"]),
    # both cases of a letter, and of a member of a set before the set is negated
    ('i"SDA"', ["sda", "SdA", "SDA"], ["sdb"]),
    ('i"[!a]"', ["b"], ["a", "A"]),
    ('i"x|[Y-Z]1"', ["x", "X", "Y1", "z1"], ["w1", "[1"]),
    ('i"@[`{"', ["@[`{"], ["`{@["]),
    (b'i"\xC4"', [b"\xC4"], [b"\xE4"]),
    # escapes are read with the prefix e, before or after i
    ('ie"\\x41"', ["a", "A"], ["\\x41"]),
    ('ei"\\x41"', ["a", "A"], ["\\x41"]),
    ('e"\\x41"', ["A"], ["a", "\\x41"]),
    ('i"\\x41"', ["\\x41", "\\X41"], ["A", "a"]),
    # a part may be a pattern that no name fits
    ('"[b-a]|c"', ["c"], ["a", "b"]),
]

# the same for properties, which may be empty
OF_PROPERTIES = [
    ('"|x"', ["", "x"], ["|x", "|"]),
    ('"x|"', ["", "x"], ["x|"]),
    ('""', [""], ["x"]),
    # a bar splits a set, too
    ('"[a|b]"', ["[a", "b]"], ["a", "b", "|", "[a|b]"]),
    ('i"|X"', ["", "x"], ["|x"]),
]


def asked(key, value, fitting, others, where):
    """Which texts a match by `==` accepts, and that one by `!=` accepts the others. `where` makes a path and lines of a text."""
    rules = b"".join(
        key.encode() + operator + as_bytes(value) + b', TAG+="' + tag + b'"\n'
        for operator, tag in [(b"==", b"equal"), (b"!=", b"unequal")]
    )
    texts = [(text, "tag equal") for text in fitting] + [(text, "tag unequal") for text in others]
    return Row(
        f"texts that fit {key}=={as_bytes(value).decode(errors='backslashreplace')}",
        "events -r none r.rules",
        {"r.rules": rules},
        input=b"".join(block(*where(as_bytes(text))) for text, _ in texts),
        output=b"".join(answer(where(as_bytes(text))[0], [line]) for text, line in texts),
    )


ROWS = [
    *(asked("KERNEL", *choice, lambda text: (b"/x/" + text,)) for choice in OF_NAMES),
    *(asked("ENV{.T}", *choice, lambda text: ("/d", b"E: .T=" + text)) for choice in OF_PROPERTIES),
    verified(
        "the value of a choice with a class is reported in full",
        ('KERNEL=="ab|[[:x]|[[=]"', "V11 set not supported: ab|[[:x]|[[=]"),
        ('KERNEL==i"ab|[[:x]|[[=]"', "V11 set not supported: ab|[[:x]|[[=]"),
        ('KERNEL=="[[:alpha:]]"', "V11 set not supported: [[:alpha:]]"),
        # the bar splits the set before its end, so there is no class
        'KERNEL=="[[:|alpha:]"',
    ),
    verified(
        "the longest value of a line",
        'KERNEL=="' + "|" * 16_374 + '"',
        ('KERNEL=="' + "|" * 16_375 + '"', "V9 line too long"),
    ),
]
