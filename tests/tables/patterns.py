"""Patterns and the texts that fit them, by `query` over a database file and by matches of rules."""
from tables.kinds.answered import answer, block
from tables.kinds.row import Row

TRACKBALL = "mouse:*:name:*[tT]rack[bB]all*:*"

# a pattern, texts that fit it, texts that don't
PATTERNS = [
    # no set is closed: the bracket is a byte
    ("[]", ["[]"], ["]", "[", "a"]),
    ("[!]", ["[!]"], ["a", "!", "[a]"]),
    ("[^]", ["[^]"], ["a", "^"]),
    ("a[b", ["a[b"], ["ab", "b"]),
    # a first bracket is a member, and may begin a range
    ("[]a]", ["]", "a"], ["[]a]", "a]"]),
    ("[!]a]", ["b", "!"], ["]", "a"]),
    ("[]-a]", ["]", "^", "_", "a"], ["[", "b", "-"]),
    ("[a-]", ["a", "-"], ["b"]),
    ("[b-a]", [], ["a", "b", "-"]),
    ("[a-cx-z]", ["a", "b", "c", "x", "z"], ["d", "w", "-"]),
    ("[!a-c]", ["d", "!", "-"], ["a", "b", "c"]),
    ("[*?]", ["*", "?"], ["a"]),
    ("[^a-c]*x?", ["dxxy", "dx?", "d..xy"], ["bxxy", "dx", "dxyz"]),
    (TRACKBALL, ["mouse:usb:name:My TrackBall:x"], ["mouse:usb:name:My Mouse:x"]),
    ("ab*", ["ab", "abc"], ["a", "xab"]),
    ("a?c", ["abc", "a?c"], ["ac", "abbc"]),
    ("a\\*", ["a\\", "a\\x"], ["a*"]),
    ("a", ["a"], ["", "A", "aa"]),
]

# 40 times a star and a letter, and two texts of 200 letters: trying all ways one by one would not end.
MANY_STARS = "*a" * 40
ENDED = "a" * 200
NOT_ENDED = "a" * 200 + "b"

LONGEST = "[" * 16_384


def name_of(text):
    """A text as the name of a row shows it."""
    return repr(text) if len(text) < 40 else f"{text[:6]}.. of {len(text)} bytes"


def queried(pattern, text, fits):
    """Whether a text fits, as `query` answers it. A lone hyphen and a NUL byte can be asked for only in a line of the input."""
    is_line = text in ("-", "\0")
    return Row(
        f"query: {name_of(text)} {'fits' if fits else 'does not fit'} {name_of(pattern)}",
        ["query", "--", "-" if is_line else text, "t.hwdb"],
        {"t.hwdb": f"{pattern}\n HIT=1\n"},
        input=f"{text}\n" if is_line else "",
        output=("HIT=1\n" if fits else "") + ("\n" if is_line else ""),
    )


def matched(pattern, fitting, others):
    """Which texts fit, as a match of a property answers it. (A name that begins with a dot is not printed.)"""
    texts = [(text, ["tag fits"]) for text in fitting] + [(text, []) for text in others]
    return Row(
        f"match: texts that fit {name_of(pattern)}",
        "events -r none r.rules",
        {"r.rules": f'ENV{{.T}}=="{pattern}", TAG="fits"\n'},
        input=b"".join(block("/d", f"E: .T={text}") for text, _ in texts),
        output=b"".join(answer("/d", lines) for _, lines in texts),
    )


def matched_by_bytes(pattern, fits):
    """Which of all bytes that a block may contain fit, as a match of a property answers it."""
    bytes_asked = [byte for byte in range(1, 256) if byte != ord("\n")]
    return Row(
        f"match: which bytes fit {pattern}",
        "events -r none r.rules",
        {"r.rules": f'ENV{{.T}}=="{pattern}", TAG="fits"\n'},
        input=b"".join(block("/d", b"E: .T=" + bytes([byte])) for byte in bytes_asked),
        output=b"".join(answer("/d", ["tag fits"] if fits(byte) else []) for byte in bytes_asked),
    )


def refused(pattern):
    """A pattern with a class, as a database file and as a rules file have it."""
    return [
        Row(
            f"query: {pattern} is not a pattern",
            "query a t.hwdb",
            {"t.hwdb": f"a\n{pattern}\n HIT=1\n"},
            output="HIT=1\n",
            messages=f"t.hwdb:2: H6 pattern not supported: {pattern}\n",
        ),
        Row(
            f"verify: {pattern} is not a pattern",
            "verify r.rules",
            {"r.rules": f'KERNEL=="{pattern}"\n'},
            output="1 files checked, 0 good, 1 bad\n",
            messages=f"r.rules:1: V11 set not supported: {pattern}\n",
            status=1,
        ),
    ]


ROWS = [
    *(queried(pattern, text, True) for pattern, fitting, _ in PATTERNS for text in fitting),
    *(queried(pattern, text, False) for pattern, _, others in PATTERNS for text in others),
    *(matched(pattern, fitting, others) for pattern, fitting, others in PATTERNS),
    matched_by_bytes("[b-a]", lambda byte: False),
    matched_by_bytes("[!b-a]", lambda byte: True),
    matched_by_bytes("?", lambda byte: True),
    matched_by_bytes("[--a]", lambda byte: ord("-") <= byte <= ord("a")),
    matched_by_bytes("[!--a]", lambda byte: not ord("-") <= byte <= ord("a")),
    # a block can't contain a newline, but a word may
    queried("[b-a]", "\n", False),
    queried("[--a]", "\n", False),
    queried("?", "\n", True),
    # nor can a block or a word contain a NUL byte, but a line of the input may
    *(queried(pattern, "\0", fits) for pattern, fits in [("?", True), ("[!--a]", True), ("[--a]", False), ("[b-a]", False)]),
    queried(MANY_STARS, ENDED, True),
    queried(MANY_STARS, NOT_ENDED, False),
    matched(MANY_STARS, [ENDED], [NOT_ENDED]),
    *refused("a[b[:c]"),
    *refused("[[.]"),
    *refused("[[=x=]]"),
    *refused("[[:alpha:]]"),
    queried(LONGEST, LONGEST, True),
    Row(
        "query: a pattern of 16,385 bytes is too long",
        "query a t.hwdb",
        {"t.hwdb": f"a\n{LONGEST}[\n HIT=1\n"},
        output="HIT=1\n",
        messages=f"t.hwdb:2: H6 pattern not supported: {'[' * 32}\n",
    ),
    Row(
        "query: a bar is an ordinary byte of a pattern",
        "query a|b t.hwdb",
        {"t.hwdb": "a|b\n BOTH=1\n\na\n ONE=1\n"},
        output="BOTH=1\n",
    ),
]
