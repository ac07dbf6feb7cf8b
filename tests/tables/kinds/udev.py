"""Rows of `verify --udev` over one rules file: cases about which udevadm 257 was asked.

A case has a name, the file, the verdict of `udevadm verify`, the line and the class of each of its messages in its order
(e error, w warning, n notice; `filee` is about the file), and the codes that devdry reports, as LINE:CODE, each once for a
line. The verdicts and classes are those of udevadm of systemd 257.13 in Debian trixie; bench/udev_verify.py asks for them
again. The users and groups of that machine were root, daemon and disk.
"""
import re

from tables.kinds.row import Read, Row

MESSAGE = re.compile(rb"r\.rules:(\d+): ([A-Z]+\d+) ")


def codes_in(reported):
    """The codes of messages, each once for a line, in the order of lines and codes; notes on the file have none."""
    lines = [line for line in reported.splitlines() if not line.startswith(b"devdry: r.rules:")]
    found = {(int(line), code.decode()) for line, code in MESSAGE.findall(reported)}
    if len(MESSAGE.findall(reported)) != len(lines):
        raise ValueError("a line is no message")
    return sorted(found)


def wanted_codes(codes):
    """The codes of a case, as a reader finds them."""
    pairs = (pair.split(":") for pair in codes.split())
    return sorted((int(line), code) for line, code in pairs)


def as_udev(cases, options=(), files=None):
    """A run over the file of each case, with these options and with these files beside it."""
    rows = []
    for name, text, verdict, _, codes in cases:
        good = verdict == "good"
        rows.append(Row(
            name,
            ["verify", "--udev", *options, "r.rules"],
            {"r.rules": text.encode("latin-1"), **(files or {})},
            output=f"1 files checked, {good:d} good, {not good:d} bad\n",
            messages=Read(codes_in, wanted_codes(codes)),
            status=0 if good else 1,
        ))
    return rows
