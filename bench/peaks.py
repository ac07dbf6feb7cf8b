"""The most memory that `verify`, `verify --strict` and `fmt` take for each byte of a rules file, over files that make them hold much: many short
lines, lines with a message each, labels and jumps, continued lines, long lines of short tokens, long patterns.

usage: peaks.py PROGRAM [WORD]    WORD: only the files whose names have it

Prints the bytes of memory for each byte of each file, all that a run takes divided by the size, and ends in 1 if one is over
the bound. Memory is at least what this script holds, some 12 MB: six bytes for each byte of a file. So the files are written
piece by piece.
"""
import os
import sys
import tempfile
from itertools import chain, count
from pathlib import Path

from timing import MILLION, Run, take

SIZE = 2 * MILLION
PIECE = 10_000
# How many bytes a command may take for each byte of a file.
BOUND = 60
# Each command, and how long the long lines of its files are: `--strict` compares the tokens of a rule two by two, so that the
# longest take long.
COMMANDS = {"verify": (["verify"], 16_000), "strict": (["verify", "--strict"], 2_000), "fmt": (["fmt"], 16_000)}


def lines(text):
    """Copies of a text."""
    while True:
        yield text * (PIECE // len(text) + 1)


def long_lines(token, begin=b"", end=b""):
    """Long lines of copies of a token, by how long they are."""
    return lambda length: lines(begin + token * (length // len(token)) + end + b"\n")


def numbered(template):
    """Copies of a text, each with a number of its own."""
    return (template.replace(b"#", b"%d" % number) for number in count())


def after(first, others):
    """A text, and then others."""
    return chain([first], others)


FILES = {
    "lines with one fault each": lines(b"x\n"),
    "the same with ends of lines that udev reads": lines(b"x\r"),
    "the same ended by NUL": lines(b"x\0"),
    "lines with nothing but an end in CR LF": lines(b"\r\n"),
    "a jump, and then lines with one fault each": after(b'GOTO="x"\n', lines(b"x\n")),
    "rules of one assignment": lines(b'TAG+="a"\n'),
    "rules of one assignment read as =": lines(b'TAG="a"\n'),
    "rules of an empty value": lines(b'RUN=""\n'),
    "rules of a substitution": lines(b'RUN="%k"\n'),
    "rules of one match": lines(b'KERNEL=="a"\n'),
    "rules of two tokens without a comma": lines(b'TAG="a" ,TAG="b"\n'),
    "rules that begin with a comma": lines(b',TAG="a"\n'),
    "rules that end in commas": lines(b'TAG+="a",,\n'),
    "rules with an unknown key": lines(b'A=""\n'),
    "labels of one name": lines(b'LABEL="x"\n'),
    "labels": numbered(b'LABEL="#"\n'),
    "jumps": numbered(b'GOTO="#"\n'),
    "jumps to labels": numbered(b'GOTO="#"\nLABEL="#"\n'),
    "two jumps in a rule": lines(b'GOTO="a"GOTO="a"\n'),
    "empty lines": lines(b"\n"),
    "NUL bytes": lines(b"\0"),
    "lines of a blank": lines(b" \n"),
    "comments": lines(b"#\n"),
    "comments that ignore a fault": lines(b"# devdry: ignore V1\nx\n"),
    "backslashes": lines(b"\\\n"),
    "faults in continued lines": lines(b"\\\nx\n"),
    "lines that are continued once": lines(b"x\\\ny\n"),
    "long lines of empty matches": long_lines(b'TAG==""'),
    "long lines of empty assignments": long_lines(b'TAG="",'),
    "long lines of short assignments": long_lines(b'TAG+="a",'),
    "long lines of jumps": long_lines(b'GOTO="a"'),
    "long patterns with bars": long_lines(b"a|", b'KERNEL=="', b'"'),
    "long patterns of stars": long_lines(b"*", b'KERNEL=="', b'"'),
    "long patterns of sets": long_lines(b"[a]", b'KERNEL=="', b'"'),
    "long values of substitutions": long_lines(b"a%k", b'RUN="', b'"'),
    "long values": long_lines(b"a", b'TAG+="', b'"'),
}


def write(file, pieces):
    """Writes pieces up to the size of a file, and returns what was written."""
    written = 0
    with file.open("wb") as out:
        while written < SIZE:
            written += out.write(next(pieces))
    return written


def over_bounds(program, word):
    """The files over which a command takes more than it may."""
    file = Path("a.rules")
    over = []
    for command, (words, length) in COMMANDS.items():
        for name, pieces in FILES.items():
            if word in name:
                size = write(file, pieces(length) if callable(pieces) else pieces)
                taken = take(Run([program, *words, file.name], statuses=(0, 1))).peak * 2**20 / size
                said = f"{command}: {name}: {taken:.1f} bytes a byte"
                print(said, flush=True)
                if taken > BOUND:
                    over.append(said)
    return over


def main(program, word=""):
    with tempfile.TemporaryDirectory() as folder:
        os.chdir(folder)
        over = over_bounds(program, word)
    print("\n".join(["", f"over {BOUND}:", *over]) if over else f"none is over {BOUND}")
    return bool(over)


if __name__ == "__main__":
    sys.exit(main(str(Path(sys.argv[1]).resolve()), *sys.argv[2:]))
