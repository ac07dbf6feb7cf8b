"""Rows of the builtins usb_id, path_id, input_id and net_id under `events --udev`: cases about which udevadm 257 was asked.

A case has a name, the block and the answer of the builtin: `done` or `failed`, then `NAME=VALUE` for each property that it
sets, in the order in which it does, with an empty value if it removes the property, and among them `hwdb TEXT` if a text is
looked up in the database; then `note TEXT` for each thing that the block should contain, which devdry tells in one note.
Everything except for the texts that are looked up and the notes is what `udevadm test-builtin` of systemd 257.13 in Debian
trixie printed; bench/builtins.py asks for it again. If devdry gives another answer, that comes after udevadm's.

In the rows the database has a property LOOKED_UP for any text: 1 for that of the case, and `other` for all others. For that
of the case it also has each property that net_id may set. So those that net_id set before the look-up are replaced, and
those that it sets after it replace the database's.
"""
import os

from tables.kinds.row import Row
from tables.kinds.udev_blocks import answer_lines


# What the database has for the text of a case.
FOUND = {"LOOKED_UP": "1"} | {
    f"ID_NET_{name}": "found" for name in ("NAMING_SCHEME", "NAME_MAC", "NAME_ONBOARD", "NAME_PATH", "NAME_SLOT", "LABEL_ONBOARD")}


def set_by(lines):
    """The properties that an answer leaves, for each name the last; those of the database if a text is looked up."""
    properties = {}
    for line in lines:
        name, _, value = line.partition("=")
        properties |= FOUND if line.startswith("hwdb ") else {name: value}
    return properties


def told(notes):
    """The note that devdry leaves about all that the block should contain, if there is anything."""
    if not notes:
        return []
    needed = [note.split(": ", 2) for note in notes]
    return [f"note r.rules:1: builtin needs: {needed[0][1]}: {', '.join(word for _, _, word in needed)}"]


def devdry_lines(answer):
    """The lines that devdry's answer has for that of a builtin, in addition to those of the block alone."""
    done, *lines = (line for line in answer if not line.startswith("note "))
    notes = [line for line in answer if line.startswith("note ")]
    properties = set_by(lines) | {"DONE": int(done == "done")}
    return [f"env {name}={value}" for name, value in properties.items()] + told(notes)


def without_empty(block, lines):
    """The lines of an answer, without the properties that are removed."""
    return [line for line in answer_lines(block, lines) if not (line.startswith(b"env ") and line.endswith(b"="))]


def looked_up(answer):
    """The texts that are looked up."""
    return [line.removeprefix("hwdb ") for line in answer if line.startswith("hwdb ")]


def importing(builtin):
    """A rule that imports a builtin, and one that shows whether that was done."""
    return f'IMPORT{{builtin}}="{builtin}", ENV{{DONE}}="1"\nENV{{DONE}}!="1", ENV{{DONE}}="0"\n'


def database_for(texts):
    """The database for the texts that a case looks up."""
    found = "".join(f" {name}={value}\n" for name, value in FOUND.items())
    return "*\n LOOKED_UP=other\n" + "".join(f"\n{text}\n{found}" for text in texts)


def answered_by(builtin, cases):
    """A run over the block of each case, by rules that import the builtin."""
    rows = []
    for name, block, answer, *own in cases:
        answer = own[0] if own else answer
        rows.append(Row(
            name,
            "events --udev -r r r.rules",
            {
                "r.rules": importing(builtin),
                "r/etc/udev/hwdb.d/10.hwdb": database_for(looked_up(answer)),
            },
            input=os.fsencode(block),
            output=b"".join(line + b"\n" for line in without_empty(block, devdry_lines(answer))) + b"\n",
        ))
    return rows
