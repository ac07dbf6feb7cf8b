"""Rows of `events --udev` over one rules file and one block: cases about which udevadm 257 was asked.

A case has a name; the rules; the block; the lines that its answer has in addition to those of the block alone, unescaped; and
the codes of the messages about the rules, as LINE:CODE, if there are any. The lines other than the notes are what
`udevadm test` of systemd 257.13 in Debian trixie reported; bench/udev_events.py asks for them again. All cases have one
database.
"""
import os

from tables.kinds.row import Read, Row
from tables.kinds.udev import codes_in, wanted_codes
from tables.kinds.udev_blocks import DATABASE, answer_lines


def answered_as_udev(cases):
    """A run over the file and the block of each case."""
    rows = []
    for name, rules, block, lines, *codes in cases:
        rows.append(Row(
            name,
            "events --udev -r r r.rules",
            {"r.rules": os.fsencode(rules), "r/etc/udev/hwdb.d/10.hwdb": DATABASE},
            input=os.fsencode(block),
            output=b"".join(line + b"\n" for line in answer_lines(block, lines)) + b"\n",
            messages=Read(codes_in, wanted_codes(" ".join(codes))),
        ))
    return rows


def answered_otherwise(cases):
    """The same for cases in which devdry's answer is not udevadm's: they have udevadm's lines and then devdry's."""
    return answered_as_udev((name, rules, block, own) for name, rules, block, _, own in cases)
