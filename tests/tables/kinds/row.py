"""What a row of a table is: one run of the program, and everything that it has to write."""
from dataclasses import dataclass, field
from typing import Any, Callable


class Begins(bytes):
    """The text that an output begins with, if the rest belongs to a library, as clap's usage does."""


@dataclass
class Read:
    """What a reader makes of an output, if a format leaves its bytes open."""

    reader: Callable[[bytes], Any]
    wanted: Any


class Link(str):
    """The path that a symbolic link leads to, among the files of a row."""


# an empty folder, and a pipe, among the files of a row
FOLDER = None
PIPE = object()


@dataclass
class Device:
    """A device node among the files of a row, which only root can make: of a block or a character device."""

    is_block: bool
    major: int
    minor: int


@dataclass
class Moded:
    """A file, or an empty folder, with permissions of its own, among the files of a row."""

    mode: int
    content: bytes | str | None = b""


@dataclass
class Row:
    """One run. The name says what is asked. Texts are `str` (UTF-8) or `bytes`; what is not named is empty."""

    name: str
    # the words of the command line; a str is cut at its spaces
    words: list | str
    # the files of the folder that the program is run in: path to content, a Link, a Moded, a Device, FOLDER or PIPE; a path
    # may lead through folders
    files: dict = field(default_factory=dict)
    # the standard input
    input: bytes | str = b""
    # the standard output, the standard error and the status
    output: bytes | str | Read = b""
    messages: bytes | str | Read = b""
    status: int = 0
    # whether it is run by a user for whom permissions count: root is not one
    plain: bool = False
    # whether both outputs are one stream, as on a terminal; `output` then has all that is written, in its order
    together: bool = False


def as_bytes(text):
    """A text of a row as the bytes that it stands for."""
    return text if isinstance(text, bytes) else text.encode()
