"""Tokens of rules: what is one, what its value means, and each fault."""
from tables.kinds.answered import answered
from tables.kinds.verified import verified
from tables.kinds.row import as_bytes


def bad(line, at=0, shown=None):
    """A line that is faulty from a token on. The rest of it is shown, with nothing escaped."""
    return (line, b"V1 bad syntax: " + as_bytes(shown if shown is not None else line[at:])[:32])


def prefix(line, letters):
    """A value with letters before its quote that it can't have."""
    return (line, f"V10 bad quote prefix: {letters}")


ROWS = [
    verified(
        "lines without a valid token",
        bad('KERNEL=="sd*'),
        bad('KERNEL=="a'),
        bad('KERNEL=="a\\\\ b', shown='KERNEL=="a\\x5C\\x5C b'),
        # a plain value ends at the first quote that has no backslash directly before it
        bad('KERNEL=="a\\\\"', shown='KERNEL=="a\\x5C\\x5C"'),
        bad('KERNEL=="a\\"', shown='KERNEL=="a\\x5C"'),
        bad(',A="x"'),
        bad('A==="x"'),
        bad('A= ="x"'),
        bad('A{b="x"'),
        bad('A=x'),
        bad('A="x'),
        bad('A'),
        bad('="x"'),
        bad('{a}="x"'),
        bad('A-b="x"'),
        bad('A"x"'),
        bad('A {a}="x"'),
        bad('A<="x"'),
        bad(b'\xC3\xA4="x"'),
    ),
    verified(
        "a NUL byte in a token",
        bad(b'A="a\0b"', shown='A="a\\x00b"'),
        bad(b"A{\0}=\"a\"", shown='A{\\x00}="a"'),
        bad(b'KERNEL=="a", A="\0"', shown='A="\\x00"'),
        # a comment is not a token
        b"# \0",
    ),
    verified(
        "faults after tokens are reported at their own token",
        bad('KERNEL=="a" "b"', 12),
        bad('KERNEL=="a", KERNEL=="sd*', 13),
        bad('KERNEL=="a",, B', 14),
        bad('KERNEL=="a"B', 11),
        bad('KERNEL=="a" # b', 12),
    ),
    verified(
        "letters that are not allowed before a quote",
        prefix('KERNEL==x"a"', "x"),
        prefix('KERNEL==ii"x"', "ii"),
        prefix('KERNEL==ee"x"', "ee"),
        prefix('KERNEL==iei"x"', "iei"),
        prefix('KERNEL==E"x"', "E"),
        prefix('KERNEL==I"x"', "I"),
        # letters that ignore case come after operators that only compare
        prefix('SYMLINK=i"x"', "i"),
        prefix('SYMLINK+= ei"x"', "ei"),
        prefix('SYMLINK-=ie"x"', "ie"),
        prefix('SYMLINK:=i"x"', "i"),
        prefix('PROGRAM=i"x"', "i"),
        # they are checked before the key, and the end of the value is not looked for
        prefix('FOO=i"x"', "i"),
        prefix('FOO=abcdefghijklmnopqrstuvwxyzABCDEFGHIJ"x', "abcdefghijklmnopqrstuvwxyzABCDEF"),
        bad('KERNEL==1"x"'),
        bad('KERNEL==i "x"'),
        bad('KERNEL==x'),
    ),
    verified(
        "letters that are allowed before a quote",
        'KERNEL==i"SDA"',
        'KERNEL!=i"SDA"',
        'KERNEL==ie"SDA"',
        'KERNEL==ei"SDA"',
        'KERNEL==e"SDA"',
        'SYMLINK=e"x"',
        'SYMLINK-=e"x"',
    ),
    verified(
        "invalid escapes",
        *(
            bad(f'A=e"{escape}"', shown=f'A=e"{escape}"'.replace("\\", "\\x5C"))
            for escape in [
                "\\400", "\\777", "\\8", "\\18", "\\189", "\\0", "\\000", "\\x00", "\\x4", "\\xG0",
                "\\uD800", "\\uDFFF", "\\u00G0", "\\u0", "\\u0000", "\\U00000000", "\\U00110000", "\\UFFFFFFFF",
                "\\U0000D800", "\\U0001F60", "\\q", "\\S", "\\ ", "\\",
            ]
        ),
    ),
    answered(
        "the meaning of escapes",
        [
            'ENV{A}=e"\\x41\\102\\n"',
            'ENV{B}=e"\\s\\u00E9"',
            'ENV{C}=e"\\a\\b\\f\\n\\r\\t\\v\\\\\\"\\\'"',
            'ENV{D}=e"\\377\\U0001F600\\uFFFF"',
            'ENV{E}=e"\\u00e9\\x7f\\xff\\101\\0011"',
            'ENV{F}=e"\\U0010FFFF\\uD7FF\\uE000"',
        ],
        (
            [],
            [
                "env A=AB\\x0A",
                b"env B= \xC3\xA9",
                "env C=\\x07\\x08\\x0C\\x0A\\x0D\\x09\\x0B\\x5C\"'",
                b"env D=\xFF\xF0\x9F\x98\x80\xEF\xBF\xBF",
                b"env E=\xC3\xA9\\x7F\xFFA\\x011",
                b"env F=\xF4\x8F\xBF\xBF\xED\x9F\xBF\xEE\x80\x80",
            ],
        ),
    ),
    answered(
        "without e a value has one escape",
        ['ENV{A}="a\\"b", ENV{B}="\\n\\\\n", ENV{C}="\\\\\\"", ENV{D}="\\x41"'],
        ([], ['env A=a"b', "env B=\\x5Cn\\x5C\\x5Cn", 'env C=\\x5C\\x5C"', "env D=\\x5Cx41"]),
    ),
    answered(
        "an attribute has any bytes up to a brace",
        ['ENV{a b,="c{\\}="1", ENV{\\n}="2"'],
        ([], ['env \\x5Cn=2', 'env a b,="c{\\x5C=1']),
    ),
    # SYMLINK takes each of the six operators
    verified(
        "each operator, with blanks before and after it",
        'SYMLINK=="1", SYMLINK!="2", SYMLINK +="3", SYMLINK-= "4", SYMLINK := "5", SYMLINK\t=\t"6"',
    ),
    answered(
        "the two operators that compare",
        ['SYMLINK=="a", TAG+="equal"', 'SYMLINK !="b", TAG+="unequal"'],
        (["S: a"], ["link a", "tag equal", "tag unequal"]),
        (["S: b"], ["link b"]),
    ),
    answered("adding", ['SYMLINK += "b"'], (["S: a"], ["link a", "link b"])),
    answered("removing", ['SYMLINK-= "b"'], (["S: a", "S: b"], ["link a"])),
    answered("assigning", ['SYMLINK="b"', 'SYMLINK+="c"'], (["S: a"], ["link b", "link c"])),
    answered("assigning with :=", ['SYMLINK := "b"', 'SYMLINK+="c"'], (["S: a"], ["link b"])),
    answered(
        "a dropped line has no label and no jump",
        ['GOTO="x", FOO="1"', 'ENV{A}="1"', 'GOTO="y"', 'ENV{B}="1"', 'LABEL="y", FOO="1"', 'ENV{C}="1"'],
        ([], ["env A=1", "env B=1", "env C=1"]),
        messages="r.rules:1: V2 unknown key: FOO\nr.rules:3: V7 no later label: y\nr.rules:5: V2 unknown key: FOO\n",
    ),
]
