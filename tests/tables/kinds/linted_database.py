"""Rows of `update --lint` over one database file."""
from tables.kinds.row import Begins, Row

TEXTS = {
    1: "case of a digit that no modalias has",
    2: "match that no modalias fits",
    3: "end of a match is missing",
    4: "unknown prefix",
    5: "match given twice",
    6: "property given twice",
    7: "blank beside the =",
    8: "key that no program asks for",
    9: "blank at the end of a match",
    10: "byte order mark",
    11: "comment within a word",
    12: "set without ]",
    13: "value that the property does not take",
}

EVERY = Begins(b"")


def said(line, number, word):
    """A lint of a line, by its number."""
    shown = (word if isinstance(word, bytes) else word.encode())[:32].replace(b"\t", b"\\x09").decode()
    return f"l.hwdb:{line}: D{number} {TEXTS[number]}{': ' if shown else ''}{shown}\n"


def linted(name, text, *lints, words="update --lint l.hwdb", status=0):
    """A run over a file, with the line, the number and the word of each lint."""
    return Row(name, words, {"l.hwdb": text}, output=EVERY, messages="".join(said(*lint) for lint in lints), status=status)


def matches(name, number, *texts):
    """Matches that each have this lint alone; none of them if there is no number."""
    lints = [(3 * at + 1, number, text) for at, text in enumerate(texts)] if number else []
    return linted(name, "".join(f"{text}\n A=1\n\n" for text in texts), *lints)


def properties(name, number, *texts):
    """Properties of records of their own that each have this lint alone; none of them if there is no number."""
    lints = [(3 * at + 2, number, text) for at, text in enumerate(texts)] if number else []
    return linted(name, "".join(f"usb:v*{at}\n {text}\n\n" for at, text in enumerate(texts)), *lints)
