"""Lines of rules files: how they are joined, which are skipped, and the numbers they have."""
from tables.kinds.answered import answered
from tables.kinds.verified import verified

# The word of a line of bad syntax is the line from its faulty token on, so that it shows what was joined.


def bad(text):
    """The message that a line has bad syntax."""
    return f"V1 bad syntax: {text}"


OPEN = "V12 line continuation at the file's end"

ROWS = [
    verified("each line has its number", ("one", bad("one")), "", ("two", bad("two"))),
    verified("a last line without a newline", "", ("two", bad("two")), ends=b""),
    verified("an empty file", ends=b""),
    verified("a file of only newlines", "", "", ""),
    verified(
        "leading blanks are dropped, trailing blanks are not",
        (" \t a ", bad("a ")),
        (" \t", ),
        # a carriage return is not a blank
        ("\ra", bad("\\x0Da")),
        ("\va", bad("\\x0Ba")),
        # nor is it dropped at the end
        ('TAG="a"\r', bad("\\x0D")),
    ),
    verified("an indented line is a rule", ' \tTAG="a"'),
    verified("two lines are joined", ('KERNEL=="a", \\', "S1 one comma expected"), 'ENV{B}="1",'),
    verified("a message about joined lines has the number of the first", ("\tA, \\", bad("A, B")), "  B", (" C", bad("C"))),
    verified("lines may be joined within a token", 'KERN\\', '  EL=="a\\', '  b"'),
    verified("a backslash before a blank joins nothing", ("a \\ ", bad("a \\x5C ")), ("b", bad("b"))),
    verified("of two backslashes the last joins", ("a\\\\", bad("a\\x5Cb")), "b"),
    verified(
        "comments are skipped, also within a continuation",
        "# first \\",
        ("\tA, \\", bad("A, B")),
        " \t# between",
        "#\\",
        "  B",
        "",
        (" C", bad("C")),
    ),
    verified("a # that does not begin a line is not a comment", ("a # b", bad("a # b")), ('TAG="a" # b', bad("# b"))),
    verified("empty lines are not rules, joined or not", "\\", "", " ", "\\", " \t"),
    verified("an empty line ends a continuation", ("a\\", bad("a")), "", ("b", bad("b"))),
    verified("a line that is continued at the file's end", ('KERNEL=="a" \\', OPEN)),
    verified("a line that is continued at the file's end, without a newline", ('KERNEL=="a" \\', OPEN), ends=b""),
    verified("a line continued at the file's end has the number of its first line", ("A", bad("A")), ("\\", OPEN), "# c", ends=b""),
    verified("a line continued at the file's end has no other message", ('FOO="b", \\', OPEN), 'BAR="c" \\'),
    verified("an empty line continued at the file's end", ("\\", OPEN)),
    verified("a backslash at the end of a comment does not continue the line", "# a \\"),
    verified("a comment after a continued line does not end the continuation", ("\\", OPEN), "# a"),
    answered("a line continued at the file's end is not a rule", ['ENV{A}="1"', 'ENV{B}="1" \\'], ([], ["env A=1"]), messages=f"r.rules:2: {OPEN}\n"),
    answered(
        "joined lines are one rule",
        ['KERNEL=="x", \\', 'ENV{A}="1"', 'KERNEL=="d", \\', "# of d", 'ENV{B}="1"'],
        ([], ["env B=1"]),
    ),
    verified(
        "a line of 16,384 bytes and one of a byte more",
        ("," * 16_384, bad("," * 32)),
        ("," * 16_385, "V9 line too long"),
    ),
    verified(
        "leading blanks and the backslashes of a continuation do not count",
        (" " * 9_000 + "," * 9_000 + "\\", bad("," * 32)),
        "\t" * 9_000 + "," * 7_384,
        ("," * 9_000 + "\\", "V9 line too long"),
        "," * 7_385,
    ),
    answered(
        "a line that is too long is not a rule",
        ['TAG="a"' + " " * 16_377, 'TAG+="b"' + " " * 16_377],
        ([], ["tag a"]),
        messages="r.rules:2: V9 line too long\n",
    ),
]
