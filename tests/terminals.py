#!/usr/bin/env python3
"""Runs the program at terminals: what is written in colors, what names and words may not make a terminal do, and what is said
before it waits for event blocks; and how far devdry-capture says that it is.

usage: tests/terminals.py PROGRAM

Each terminal is a pseudoterminal that Python makes. Each case is reported in a line `ok CASE`, or `not ok CASE` followed
by what was wanted and what was written.
"""
import os
import pty
import re
import select
import subprocess
import sys
import tempfile
import tty
from pathlib import Path

from read_formats import first_sentence, reported

SECONDS = 10
CAPTURE = Path(__file__).resolve().parent.parent / "tools/devdry-capture"

RED, YELLOW, END = "\x1b[1;31m", "\x1b[1;33m", "\x1b[0m"
RULES = 'FOO="1"\nKERNEL=="sr*",TAG+="optical"\n'
COUNTED = "1 files checked, 0 good, 1 bad\n"


def human(red="", yellow="", end=""):
    """What `human` says of RULES, in these colors."""
    return (f'{red}a.rules:1:1: error: {end}unknown key [V2]\n  FOO="1"\n  {red}^~~{end}\n  = {first_sentence("V2")}\n'
            f'{yellow}a.rules:2:15: warning: {end}blank after a comma expected [S2]\n  KERNEL=="sr*",TAG+="optical"\n'
            f'                {yellow}^~~{end}\n  = {first_sentence("S2")}\n')


PLAIN, PAINTED = human(), human(RED, YELLOW, END)
GCC = "a.rules:1:1: error: unknown key: FOO [V2]\na.rules:2:15: warning: blank after a comma expected: TAG [S2]\n"
OF_DATABASE = (f'{RED}a.hwdb:1:1: error: {END}match without a property [H2]\n  m\n  {RED}^{END}\n  = {first_sentence("H2")}\n')
WAITING = "devdry: waiting for event blocks, each ended by an empty line; devdry-capture DEVICE prints them\n"
BLOCK = "C: add\nP: /devices/x\n\n"


def differs(case, wanted, came):
    reported(case, "" if wanted == came else f"wanted: {wanted!r}\n    got:    {came!r}")


def environment(no_color):
    """The environment of a run, with NO_COLOR as given, or without it."""
    own = {key: value for key, value in os.environ.items() if key != "NO_COLOR"}
    return own if no_color is None else {**own, "NO_COLOR": no_color}


def terminal():
    """The two ends of a terminal: that of the user, and the program's, which passes bytes on unchanged."""
    ours, its = pty.openpty()
    tty.setraw(its)
    return ours, its


def all_of(ours):
    """All that was written to a terminal whose other end is closed."""
    said = b""
    while True:
        try:
            piece = os.read(ours, 4096)
        except OSError:
            piece = b""
        if not piece:
            os.close(ours)
            return said.decode()
        said += piece


def at_terminals(program, folder, words, places, no_color=None):
    """What a run writes to its standard output and its standard error, of which the named ones are terminals."""
    ends = {place: terminal() for place in places}
    files = {place: ends[place][1] if place in ends else subprocess.PIPE for place in ("stdout", "stderr")}
    words = words.split() if isinstance(words, str) else words
    with subprocess.Popen([program, *words], cwd=folder, env=environment(no_color), stdin=subprocess.DEVNULL, **files) as run:
        for _, its in ends.values():
            os.close(its)
        wrote = {place: all_of(ours) for place, (ours, _) in ends.items()}
        rest = [None if it is None else it.decode("utf-8", "replace") for it in run.communicate(timeout=SECONDS)]
    return wrote.get("stdout", rest[0]), wrote.get("stderr", rest[1])


# (what is asked, words, which outputs are terminals, NO_COLOR, output, messages)
COLORS = [
    ("human on a terminal", "verify --format=human a.rules", ["stderr"], None, COUNTED, PAINTED),
    ("both outputs on terminals", "verify --format=human a.rules", ["stdout", "stderr"], None, COUNTED, PAINTED),
    ("an empty NO_COLOR", "verify --format=human a.rules", ["stderr"], "", COUNTED, PAINTED),
    ("NO_COLOR", "verify --format=human a.rules", ["stderr"], "1", COUNTED, PLAIN),
    ("NO_COLOR with a blank", "verify --format=human a.rules", ["stderr"], " ", COUNTED, PLAIN),
    ("NO_COLOR with a 0", "verify --format=human a.rules", ["stderr"], "0", COUNTED, PLAIN),
    ("NO_COLOR that is not UTF-8", "verify --format=human a.rules", ["stderr"], os.fsdecode(b"\xFF"), COUNTED, PLAIN),
    ("human to a pipe", "verify --format=human a.rules", [], None, COUNTED, PLAIN),
    ("human to a pipe, with the output on a terminal", "verify --format=human a.rules", ["stdout"], None, COUNTED, PLAIN),
    ("gcc on a terminal", "verify --format=gcc a.rules", ["stderr"], None, COUNTED, GCC),
    ("human of the database", "update --format=human a.hwdb", ["stderr"], None, None, OF_DATABASE),
    ("--color=always to a pipe", "verify --format=human --color=always a.rules", [], None, COUNTED, PAINTED),
    ("--color=always, and NO_COLOR", "verify --format=human --color=always a.rules", [], "1", COUNTED, PAINTED),
    ("--color=always of the database", "update --format=human --color always a.hwdb", [], None, None, OF_DATABASE),
    ("--color=always of another format", "verify --format=gcc --color=always a.rules", ["stderr"], None, COUNTED, GCC),
    ("--color=never on a terminal", "verify --format=human --color=never a.rules", ["stderr"], None, COUNTED, PLAIN),
    ("--color=auto on a terminal", "verify --format=human --color=auto a.rules", ["stderr"], None, COUNTED, PAINTED),
    ("--color=auto to a pipe", "verify --format=human --color=auto a.rules", [], None, COUNTED, PLAIN),
    ("a line that is not a message", "verify --format=human none.rules", ["stderr"], None, "", "devdry: cannot read none.rules\n  There is no such file.\n"
     "  = Check the path, letter by letter and from its first folder on.\n"),
]


def check_colors(program, folder):
    for case, words, places, no_color, output, messages in COLORS:
        wrote = at_terminals(program, folder, words, places, no_color)
        differs(f"colors: {case}", (wrote[0] if output is None else output, messages), wrote)


# A name of all that a terminal obeys, that changes the order of a line or that ends one, and of the first control bytes.
OBEYED = "".join(map(chr, [*range(0x80, 0xA0), 0x61C, 0x200E, 0x200F, *range(0x2028, 0x202F), *range(0x2066, 0x206A)]))
NAME = f"a\x07\x1b]8;;x{OBEYED}\x7f"
# What may be there of a color, and what may not be there besides.
COLOR = re.compile(r"\x1b\[(?:1;31|1;33|0)m")
NOT_SHOWN = re.compile(f"[\\x00-\\x09\\x0b-\\x1f\\x7f{OBEYED}]")


def check_obeyed(program, folder):
    """Whatever names and words are, a terminal obeys nothing of what `human` writes to it but colors, nor of what is said about words."""
    files = {f"{NAME}.rules": f'FOO=="{OBEYED}"\n', f"{NAME}.hwdb": f"{OBEYED}\n", f"img/etc/systemd/network/{NAME}.link": "[Match\n"}
    links = [f"{NAME}.none", f"img/etc/udev/rules.d/{NAME}.rules", f"img/usr/lib/udev/hwdb.d/{NAME}.hwdb", f"img/etc/systemd/network/b{NAME}.link"]
    for path in [*files, *links]:
        (folder / path).parent.mkdir(parents=True, exist_ok=True)
    for path, text in files.items():
        (folder / path).write_text(text)
    for path in links:
        (folder / path).symlink_to(f"/{NAME}")
    (folder / NAME).mkdir()
    human = "--format=human"
    for words in [
            ["verify", human, f"{NAME}.rules"], ["verify", human, f"{NAME}.hwdb"], ["update", human, f"{NAME}.rules"], ["update", human, f"{NAME}.hwdb"],
            ["verify", human, NAME], ["verify", human, f"{NAME}.none"], ["events", human, f"{NAME}.none"], ["verify", "--all", human, NAME],
            ["verify", "--all", human, f"{NAME}.none"], ["verify", human, "-r", "img"], ["verify", "--strict", human, "-r", "img"],
            ["verify", "--links", human, "-r", "img"], ["events", "--udev", "--all", human, "-r", "img"], ["compare", "--all", "--udev", human, "img", NAME],
            ["compare", human, "img", "img"], ["events", human, "--index", NAME, "good.rules"],
            ["events", human, f"{NAME}.rules"], ["events", human, "--why", NAME, f"{NAME}.rules"],
            [NAME], ["explain", NAME], ["verify", f"--{NAME}"], ["verify", f"--format={NAME}"], ["verify", "--ignore", NAME], ["verify", "--with", NAME, "x"],
            ["verify", "--options", NAME], ["verify", "--options", f"{NAME}.hwdb"], ["verify", "--udev", "--users", NAME, "x"], ["verify", "--udev", "--groups", NAME, "x"],
            ["compare", NAME], ["query", "m", "--why", NAME], ["verify", "--color", NAME, "x"], ["fmt", f"-{NAME}"]]:
        _, wrote = at_terminals(program, folder, words, ["stderr"])
        came = sorted(set(NOT_SHOWN.findall(COLOR.sub("", wrote))))
        reported(f"a terminal obeys nothing of {words[0][:8]!r} {' '.join(words[1:]).replace(NAME, 'NAME')}",
                 "" if wrote and not came else f"it got {came} of {wrote!r}")


def line_of(file):
    """The next line of an output, or what it had after ten seconds."""
    said = b""
    while not said.endswith(b"\n") and select.select([file], [], [], SECONDS)[0]:
        byte = os.read(file.fileno(), 1)
        if not byte:
            break
        said += byte
    return said.decode()


def check_waiting(program, folder, words, answer):
    """Types a block at a terminal that is the standard input, once the line about waiting is there, and then ends the input."""
    ours, its = pty.openpty()
    with subprocess.Popen([program, *words.split()], cwd=folder, stdin=its, stdout=subprocess.PIPE, stderr=subprocess.PIPE) as run:
        os.close(its)
        differs(f"{words}: the line about waiting", WAITING, line_of(run.stderr))
        os.write(ours, BLOCK.encode())
        differs(f"{words}: a typed block is answered", answer, line_of(run.stdout))
        os.write(ours, b"\x04")
        try:
            output, messages = run.communicate(timeout=SECONDS)
        except subprocess.TimeoutExpired:
            run.kill()
            output, messages = b"not finished after ten seconds", b""
        differs(f"{words}: no other messages", b"", messages)
        reported(f"{words}: the program ends", "" if run.returncode in (0, 1) else f"status {run.returncode}, {output!r}")
    os.close(ours)


def check_silence(program, folder, words, at_terminal):
    """A run that takes no blocks, or takes them from something other than a terminal, says nothing about waiting."""
    ours, its = pty.openpty()
    came = subprocess.run([program, *words.split()], cwd=folder, stdin=its if at_terminal else subprocess.DEVNULL, capture_output=True,
                          timeout=SECONDS)
    os.close(its)
    os.close(ours)
    differs(f"{words}: no line about waiting, with {'a terminal' if at_terminal else '/dev/null'} as input", b"", came.stderr)


def check_progress(folder):
    """devdry-capture --all counts devices on a terminal, each count in the place of the one before, and takes the last away."""
    for device in ("devices/one", "devices/one/two"):
        (folder / "sys" / device).mkdir(parents=True)
        (folder / "sys" / device / "uevent").touch()
        (folder / "sys" / device / "subsystem").symlink_to("../class/u")
    block = "C: add\nP: /devices/one\nU: u\nA: subsystem=u\n\n"
    blocks = "C: add\nP: /devices/one/two\nU: u\nA: subsystem=u\nP: /devices/one\nU: u\nA: subsystem=u\n\n" + block
    counts = "".join(f"\r{count:40}\r" for count in ("1 of 2 devices", "2 of 2 devices", ""))
    for places, wanted in ((["stderr"], counts), ([], "")):
        wrote = at_terminals(CAPTURE, folder, "--all --sysfs sys", places)
        differs(f"devdry-capture --all, with {places or 'no terminal'}", (blocks, wanted), wrote)
    wrote = at_terminals(CAPTURE, folder, "--sysfs sys sys/devices/one", ["stderr"])
    differs("devdry-capture of one device counts nothing", (block, ""), wrote)


def main(program):
    with tempfile.TemporaryDirectory() as name:
        folder = Path(name)
        (folder / "a.rules").write_text(RULES)
        (folder / "good.rules").write_text('ACTION=="add", TAG+="t"\n')
        (folder / "a.hwdb").write_text("m\n")
        (folder / "old/etc/udev/rules.d").mkdir(parents=True)
        (folder / "old/etc/udev/rules.d/good.rules").write_text("")
        rules = folder / "new/etc/udev/rules.d"
        rules.mkdir(parents=True)
        (rules / "good.rules").write_text('ACTION=="add", TAG+="t"\n')
        check_colors(program, folder)
        check_obeyed(program, folder)
        check_progress(folder)
        check_waiting(program, folder, "events -r old good.rules", "event add /devices/x\n")
        check_waiting(program, folder, "compare old new", "event add /devices/x\n")
        for words in ("events -r old good.rules", "compare old new"):
            check_silence(program, folder, words, False)
        for words in ("verify good.rules", "files -r new", "query -r old m", "explain V1"):
            check_silence(program, folder, words, True)


if __name__ == "__main__":
    if len(sys.argv) != 2:
        sys.exit(__doc__)
    try:
        main(os.path.realpath(sys.argv[1]))
    except Exception as fault:
        # (so that whoever counts the lines also sees a run that was cut off)
        print(f"not ok tests/terminals.py runs to its end: {fault!r}")
        raise
