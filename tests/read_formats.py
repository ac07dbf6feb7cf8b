#!/usr/bin/env python3
"""Reads each format of `verify`, `update`, `events` and `compare` as other programs do, and compares what they all say.

usage: tests/read_formats.py PROGRAM

`json`, `gitlab` and `sarif` are read by Python's json, and by jq where it is there, `github` as GitHub's runner parses a workflow command, `gcc` by the regular
expression of a problem matcher, `human` line by line, with the part of the line that it shows. Over files with faults,
some of them made from a seed, all formats have to give the messages of `plain`, the place of each has to contain what its
message is about, and messages and places have to be those of a plain reading of the rules (placed_rules.py). The objects of
`events` and `compare` have to give the lines of `plain`, whatever bytes rules and blocks have. Each case is
reported in a line `ok CASE`, or `not ok CASE` followed by what differs.
"""
import json
import os
import random
import re
import shutil
import subprocess
import sys
import tempfile
from pathlib import Path
from urllib.parse import unquote_to_bytes

from placed_rules import findings
from tables.kinds.json_answers import bytes_of, plain_of, shown
from tables.kinds.marked import COMMA_AT_THE_END, UNSEEN, masked
from tables.kinds.near import meant

TOP = Path(__file__).resolve().parent.parent

# A problem matcher for gcc, and a message of `plain`.
GCC = re.compile(r"^(.*):(\d+):(\d+):\s+(warning|error):\s+(.*)\s+\[(.*)\]$")
PLAIN = re.compile(r"^(.*):(\d+): ([VSHIW]\d+) (.*)$")
CARET = re.compile(r"^ *\^~*$")

# The lints whose place is a value, and those whose place is a key and whose word is the name in braces after it.
LINTS_OF_VALUES = ("W1", "W2", "W3", "W4", "W8", "W9", "W11", "W16", "W17", "W19", "W22", "W24", "W26")
LINTS_OF_NAMES = ("W5", "W6", "W7", "W10")

# How much of a line `human` shows, and how much of it before a place at most, unless the line ends there.
SHOWN = 160
BEFORE = 40


def escaped(text):
    """A text as messages show it."""
    return "".join(f"\\x{ord(it):02X}" if ord(it) < 0x20 or it in "\x7f\\" else it for it in text)


def text_of(raw):
    """Bytes as a reader of UTF-8 decodes them."""
    return raw.decode("utf-8", "replace")


def workflow_command(line):
    """A line as GitHub's runner reads it: the command, its properties and what it says."""
    if not line.startswith("::"):
        raise ValueError(f"no command: {line!r}")
    end = line.index("::", 2)
    name, _, rest = line[2:end].partition(" ")
    properties = dict(it.split("=", 1) for it in rest.strip().split(",") if it)
    for sign, letters in (("\r", "%0D"), ("\n", "%0A"), (":", "%3A"), (",", "%2C"), ("%", "%25")):
        properties = {key: value.replace(letters, sign) for key, value in properties.items()}
    said = line[end + 2:]
    for sign, letters in (("\r", "%0D"), ("\n", "%0A"), ("%", "%25")):
        said = said.replace(letters, sign)
    return name, properties, said


# Each reader returns for each message: path, line, column, end column, code, severity, and the text. What a format does
# not contain is None. Paths and words are escaped so that they can be compared: those of `json`, which are complete there,
# by its reader, and the path of `github`, which is as it was opened.


def said(text, word):
    return f"{text}: {escaped(word)}" if word else text


def read_json(text):
    lines = [json.loads(line) for line in text.decode("utf-8").split("\n")[:-1]]
    keys = ["path", "line", "column", "end_column", "code", "text", "word", "severity"]
    for it in lines:
        if list(it) != keys:
            raise ValueError(f"keys {list(it)}")
    return [(escaped(it["path"]), it["line"], it["column"], it["end_column"], it["code"], it["severity"], said(it["text"], it["word"]))
            for it in lines]


def read_gitlab(text):
    report = json.loads(text.decode("utf-8"))
    if len({it["fingerprint"] for it in report}) < len(report):
        raise ValueError("two fingerprints are the same")
    severities = {"major": "error", "minor": "warning"}
    found = []
    for it in report:
        code, _, reported = it["description"].partition(" ")
        if code != it["check_name"]:
            raise ValueError(f"the description {it['description']!r}")
        found.append((escaped(it["location"]["path"]), it["location"]["lines"]["begin"], None, None, code, severities[it["severity"]], reported))
    return found


def read_sarif(text):
    log = json.loads(text.decode("utf-8"))
    [only] = log["runs"]
    if log["version"] != "2.1.0" or only["tool"]["driver"]["name"] != "devdry":
        raise ValueError(f"the head {text[:300]!r}")
    rules = {it["id"]: it["shortDescription"]["text"] for it in only["tool"]["driver"]["rules"]}
    prints = [it["partialFingerprints"]["devdryLine/v1"] for it in only["results"]]
    if len(set(prints)) < len(prints):
        raise ValueError("two fingerprints are the same")
    found = []
    for it in only["results"]:
        [place] = [place["physicalLocation"] for place in it["locations"]]
        path = text_of(unquote_to_bytes(re.sub("^file://", "", place["artifactLocation"]["uri"])))
        reported = it["message"]["text"].replace("{{", "{").replace("}}", "}")
        if not reported.startswith(rules[it["ruleId"]]):
            raise ValueError(f"the message {reported!r}")
        found.append((escaped(path), place["region"]["startLine"], None, None, it["ruleId"], it["level"], reported))
    return found


def read_github(text):
    found = []
    for line in text_of(text).split("\n")[:-1]:
        name, own, reported = workflow_command(line)
        if list(own) != ["file", "line", "col", "endColumn", "title"]:
            raise ValueError(f"properties {own}")
        found.append((escaped(own["file"]), int(own["line"]), int(own["col"]), int(own["endColumn"]), own["title"], name, reported))
    return found


def read_gcc(text):
    found = [GCC.match(line) for line in text_of(text).split("\n")[:-1]]
    return [(it[1], int(it[2]), int(it[3]), None, it[6], it[4], it[5]) for it in found]


def read_human(text):
    lines = text.split(b"\n")[:-1]
    found = []
    for at in range(0, len(lines), 4):
        head, source, caret, sentence = lines[at:at + 4]
        place = GCC.match(text_of(head))
        if not source.startswith(b"  ") or not CARET.match(text_of(caret)) or not sentence.startswith(b"  = "):
            raise ValueError(f"lines {lines[at:at + 4]}")
        found.append((place[1], int(place[2]), int(place[3]), None, place[6], place[4],
                      (place[5], source[2:], text_of(caret[2:]), text_of(sentence[4:]))))
    return found


READERS = {"json": read_json, "gitlab": read_gitlab, "sarif": read_sarif, "github": read_github, "gcc": read_gcc, "human": read_human}


# The reports for programs: they are all of the standard output, and no message goes to the standard error.
REPORTS = ("json", "gitlab", "sarif")


def beside_jq(text):
    """Where jq reads other values than Python's json; nothing without jq."""
    if not shutil.which("jq"):
        return ""
    came = subprocess.run(["jq", "--compact-output", "."], input=text, capture_output=True, timeout=60)
    if came.returncode:
        return text_of(came.stderr)
    return first_difference([json.loads(line) for line in text.decode("utf-8").split("\n")[:-1]],
                            [json.loads(line) for line in came.stdout.decode("utf-8").split("\n")[:-1]])


def run(program, folder, *words):
    came = subprocess.run([program, *words], cwd=folder, stdin=subprocess.DEVNULL, capture_output=True, timeout=60)
    return came.returncode, came.stdout, came.stderr


def first_difference(one, other):
    """The first place where two lists differ, as text; empty if they are the same."""
    for at, (left, right) in enumerate(zip(one, other)):
        if left != right:
            return f"message {at + 1}: {left} and {right}"
    return "" if len(one) == len(other) else f"{len(one)} messages and {len(other)}"


def beside_json(form, whole, read):
    """Where what a format says differs from what `json` says, as far as the format says it."""
    def kept(it):
        return [None if reported is None else mine for mine, reported in zip(it[0], it[1])]
    wanted = [tuple(kept(pair)) for pair in zip(whole, read)] if len(whole) == len(read) else whole
    if form == "human":
        read = [(*it[:-1], it[-1][0]) for it in read]
        wanted = [(*it[:-1], it[-1].split(": ")[0]) for it in wanted]
    return first_difference(wanted, read)


def beside_plain(whole, plain, name_of):
    """Where `json` does not say what `plain` says: the name, the code and the beginning of the word."""
    reported = []
    for path, _, _, _, code, _, text in whole:
        reported.append((name_of(path), code, text))
    lines = [PLAIN.match(line) for line in plain.split("\n")[:-1]]
    # a word is cut in `plain`, possibly inside a character
    short = [(it[1], it[3], text if text.startswith(it[4].rstrip("\ufffd")) else it[4]) for it, (_, _, text) in zip(lines, reported)]
    return first_difference(reported, short) or ("" if len(lines) == len(reported) else f"{len(lines)} lines and {len(reported)}")


def plain_value(line, column):
    """Whether the value around a column is written without escapes, so that its meaning is its text."""
    return "\\" not in line and not re.search(r'\be?ie?"|e"', line[:column])


def wrong_place(folder, it):
    """What is wrong with the place of a message, or nothing."""
    path, number, column, end, code, severity, text = it
    if severity != ("warning" if code[0] in "SIWD" else "error"):
        return f"{it}: its severity"
    lines = (folder / path).read_bytes().split(b"\n")
    line = lines[number - 1]
    if not 1 <= column <= end <= len(line) + 1:
        return f"{it}: the line has {len(line)} bytes"
    place = line[column - 1:end - 1]
    word = text.partition(": ")[2]
    whole = escaped(text_of(place))
    continues = line.endswith(b"\\") and end == len(line)
    if code == "V12":
        good = place == b"\\" and end == len(line) + 1
    elif code == "V9":
        good = not line[:column - 1].strip(b" \t")
    elif code == "S1" and not word:
        good = b"," in place and not place.strip(b", \t")
    elif code in ("V5", "V6", "V7", "V8", "V11", "S4", *LINTS_OF_VALUES) and not plain_value(text_of(line), column):
        good = True
    elif code in LINTS_OF_NAMES:
        good = place.isalpha() and (escaped(text_of(line[end - 1:])).startswith("{" + word + "}") or word == whole)
    elif code == "W18":
        good = place.isalpha()
    elif code == "W13":
        good = place.isalpha() and not line[:column - 1].strip(b" \t")
    else:
        good = word.startswith(whole) if continues else word == whole
    return "" if good else f"{it}: the place has {place!r}"


def continues(byte):
    """Whether a byte continues a character of UTF-8, and so has no column of its own."""
    return 0x80 <= byte < 0xC0


def columns(text):
    return sum(not continues(byte) for byte in text)


def shown_bytes(text):
    """Bytes as `human` shows them."""
    text = masked(text)
    return bytes(0x20 if byte == 0x09 else ord("?") if byte < 0x20 or byte == 0x7F else byte for byte in text)


def window_of(line, column):
    """Where the part of a line that is shown begins: not inside a character of UTF-8."""
    begins = max(0, min(column - 1 - BEFORE, len(line) - SHOWN))
    return begins + len(re.match(rb"[\x80-\xBF]{0,3}", line[begins:])[0]) if begins else 0


def wrong_caret(folder, whole, it):
    """What is wrong with the lines that `human` shows below a message, or nothing."""
    path, number, column, end, code, _, _ = whole
    _, shown, caret, sentence = it[-1]
    line = (folder / path).read_bytes().split(b"\n")[number - 1]
    begins = window_of(line, column)
    marks = " " * columns(line[begins:column - 1]) + "^" + "~" * columns(line[column:min(end - 1, begins + SHOWN)])
    if shown != shown_bytes(line[begins:begins + SHOWN]):
        return f"{whole}: shown: {shown!r}, but the line from byte {begins} on: {line[begins:begins + SHOWN]!r}"
    if caret != marks:
        return f"{whole}: the marks under {shown!r} are {caret!r}, not {marks!r}"
    word = whole[6].partition(": ")[2]
    known = meant(code, word.encode("utf-8", "surrogateescape"))
    # (an escaped byte, and one that is not UTF-8, are several bytes of the word as it is read here)
    if (known or sentence.startswith("Did you mean")) and not {"\\", "\uFFFD"} & set(word):
        return "" if sentence == f"Did you mean {known}?" else f"{it}: {known} is near"
    # (of a few messages it tells more than the first sentence of their section)
    more = code in ("V1", "S1") and sentence in [hint.decode() for hint in (COMMA_AT_THE_END, *(hint for _, hint in UNSEEN))]
    return "" if more or sentence == first_sentence(code) else f"{it}: docs/messages.md begins with {first_sentence(code)!r}"


def beside_a_reading(folder, words, whole):
    """Where `json` does not say what a plain reading of the rules says, file by file in the order in which they are named.
    The plain reading knows nothing of lints."""
    wanted = []
    for path in [it for it in words if (folder / it).is_file()] or dict.fromkeys(it[0] for it in whole):
        wanted += [(path, line, column, end, code, escaped(text_of(word)))
                   for code, _, line, column, end, word in findings((folder / path).read_bytes())]
    return first_difference(wanted, [(*it[:5], it[6].partition(": ")[2]) for it in whole if it[4][0] != "W"])


def first_sentence(code):
    """The first sentence of a section of docs/messages.md, without the backquotes."""
    section = re.search(rf"^### {code} .*\n\n([^#]*)", (TOP / "docs/messages.md").read_text(), re.M)[1]
    return re.match(r"(.*?[.?])(?:\s|$)", section.split("\n\n")[0], re.S)[1].replace("`", "")


def reported(case, wrong):
    print(f"not ok {case}\n    {wrong[:2000]}" if wrong else f"ok {case}")


def check(case, program, folder, words, name_of=lambda path: path):
    """Compares all formats of one run."""
    status, output, plain = run(program, folder, *words)
    plain_lines = text_of(plain)
    read = {}
    for form, reader in READERS.items():
        came = run(program, folder, *words, f"--format={form}")
        try:
            read[form] = reader(came[1] if form in REPORTS else came[2])
        except (AttributeError, IndexError, KeyError, TypeError, ValueError) as fault:
            reported(f"{case}: {form} is readable", f"{fault!r} of {came[1:]!r}"[:2000])
            continue
        beside = (status, b"") if form in REPORTS else (status, output)
        rest = (came[0], came[2]) if form in REPORTS else came[:2]
        reported(f"{case}: {form} is readable, with {len(read[form])} messages", "" if rest == beside else f"{rest}, not {beside}")
        if form in REPORTS:
            reported(f"{case}: jq reads {form} as Python does", beside_jq(came[1]))
    same_plain = run(program, folder, *words, "--format=plain")
    reported(f"{case}: plain is the same as no --format", "" if same_plain == (status, output, plain) else f"{same_plain}")
    whole = read.get("json")
    if whole is None:
        return
    reported(f"{case}: json has the same messages as plain", beside_plain(whole, plain_lines, name_of))
    for form in READERS:
        if form != "json" and form in read:
            reported(f"{case}: {form} has the same messages as json", beside_json(form, whole, read[form]))
    reported(f"{case}: each place contains the word of its message", next(filter(None, (wrong_place(folder, it) for it in whole)), ""))
    if words[0] == "verify" and "--no-style" not in words:
        reported(f"{case}: messages and places are the same as in a plain reading", beside_a_reading(folder, words, whole))
    if "human" in read:
        reported(f"{case}: the caret is below the word, and the sentence is that of docs/messages.md",
             next(filter(None, (wrong_caret(folder, *pair) for pair in zip(whole, read["human"]))), ""))


# Pieces of rules, good and bad, and what may be between and after them.
PIECES = [
    'KERNEL=="sd*"', 'SUBSYSTEM!="block"', 'ATTR{size}=="0"', 'ATTRS{idVendor}=="04[[:x:]]"', 'ENV{A}:="1"', 'ENV{B}="$nope"', 'ENV{C}="a %% %"',
    'FOO="x"', 'TAG-="t"', 'TAG:="t"', 'ACTION-="y"', 'ATTR=="x"', 'IMPORT{x}="y"', 'RUN{shell}+="a"', 'OPTIONS="link_priority=x"', 'LABEL="one"',
    'LABEL="two"', 'GOTO="one"', 'GOTO="two"', 'GOTO="three"', 'LABEL=""', 'SYMLINK+=i"x"', 'KERNEL==x"a"', 'PROGRAM==i"x"', 'MODE+="0600"',
    'SYMLINK+="disk/$kernel/$device and a long rest of the value"', 'OWNER="root', "KERNEL=sda", "# c", 'RESULT=="%c{0}"', 'NAME="%c{0}"',
]
GAPS = [", ", ", ", ", ", ",", " ", "", ",,", " , ", ",\t", ", \\\n  ", " \\\n", ",\\\n\t"]
ENDS = ["", "", "", ",", " ", " \t", ", \\\n", ", \\\n# between\n  TAG+=\"t\""]
# What makes lines long, with characters of two, three and four bytes.
LONG_PIECES = ['ENV{D}="' + "ä" * 30 + '"', 'ENV{E}="' + "a€" * 20 + '"', 'ENV{F}="' + "\U0001f600 " * 20 + '"', 'ENV{G}="' + "long " * 20 + '"']
# What lints report, and what they do not.
LINT_PIECES = [
    'MODE="0888"', 'MODE="0660"', 'RUN+="touch /run/a; b"', 'RUN+="/bin/sh -c \'a | b\'"', 'PROGRAM=="/bin/a && b"', 'ATTRS{idVendor}=="1D6B"',
    'ATTRS{idProduct}=="0002"', 'ATTRS{bInterfaceNumber}=="0A"', 'ENV{MODALIAS}=="usb:v1d6b*"', 'ENV{ID_FS_TYPE}=="ext4"', 'IMPORT{builtin}="blkid"',
    'ENV{A}=="1"', 'ENV{A}="1"', 'ATTR{b}=="2"', 'ATTR{b}="2"', 'SUBSYSTEM=="block"', 'NAME="x"', 'SYMLINK+="a /dev/b"', 'ATTR{"c"}=="3"',
    'KERNEL=="^sd{a,b}$"', 'KERNEL=="*"', 'DRIVERS=="a|*"', 'GOTO="one"', 'LABEL="one"', 'TAG+="t"', 'RESULT==e"\\x5Ea"',
]
STARTS = ["", "", "", " ", "\t", " \t ", "# a comment\n", "\n"]


def made_file(seed, pieces_of=PIECES, most=6):
    """A file of some rules that are assembled from a seed, each of fewer pieces than `most`."""
    pick = random.Random(seed)
    lines = []
    for _ in range(pick.randrange(1, 12)):
        pieces = [pick.choice(pieces_of) for _ in range(pick.randrange(1, most))]
        lines.append(pick.choice(STARTS) + pieces[0] + "".join(pick.choice(GAPS) + piece for piece in pieces[1:]) + pick.choice(ENDS))
    return "\n".join(lines) + pick.choice(["\n", "\n", ""])


NAMES = ["a,b:c=d%25.rules", 'a "b" {c}.rules', "ä€.rules", "::error file=x::.rules", "d e/f.rules", "x:1:2: error: y [V1].rules", "a\nb.rules"]
ODD_WORDS = [
    '::error::50%, "x"', "%0A%25%2C", "[V1] [x]", "\x01\x1b[2J\x7f", "{\"a\": 1}", "ä€" * 20, "x" * 500, "a: b: c", "<b>&amp;</b>", "back\\slash",
]


# Rules and blocks for answers: each kind of line, with texts that JSON has to tell apart.
ANSWERED_RULES = (
    'SUBSYSTEM=="net", NAME="lan", ATTR{mtu}="1400", SYSCTL{net/x}="0"\n'
    'OWNER="o", GROUP="g", MODE="0660", OPTIONS="link_priority=-7", OPTIONS="watch", OPTIONS="db_persist"\n'
    'SECLABEL{smack}+="u=1", SECLABEL{selinux}+="\u00e9", SYMLINK+="a \u20ac", TAG+="t", TAG+="s"\n'
    'ENV{A}="1", ENV{.H}="2", ENV{Q}="a\\"b\\\\c", ENV{$env{NAMED}}="x"\n'
    'KERNEL=="d?", OPTIONS="nowatch", ENV{BOTH}="$env{ODD}$env{ODD}"\n'
    'RUN+="/bin/a b %k", RUN{builtin}+="kmod load", IMPORT{builtin}="path_id", IMPORT{program}="/bin/x $env{ODD}"\n'
    'PROGRAM=="/bin/none", TAG+="never"\n').encode()
ANSWERED_BYTES = [b"plain", b"\xff", b"a\xe9b\\c", b"\xef\xbf\xbd", b"x\xef\xbf\xbd\xef\xbf\xbd", b"\xed\xa0\x80", b"\xf4\x90\x80\x80", b"\x01\x1b[31m",
                  b"\x7f", b'"\\u0041"', b"\\x41", "\u202e\u00e9\U0001f600".encode(), b"\xc3", b"\xe2\x82", b" end "]


def answered_blocks():
    """A block for each of the texts, in a property, an attribute, a link and the path."""
    return b"".join(b"C: add\nP: /d/" + text.replace(b"/", b"") + b"\nU: " + (b"net" if number % 2 else b"block") + b"\nE: ODD=" + text
                    + b"\nE: K" + text.replace(b"=", b"") + b"=1\nS: l" + text + b"\nA: mtu=" + text + b"\n\n"
                    for number, text in enumerate(ANSWERED_BYTES))


def plain_differences(said):
    """The lines of `compare` that an object stands for."""
    lines = [b"event " + shown(said["event"]) + b" " + shown(said["path"])]
    lines += [sign + bytes_of(text) for sign, key in ((b"-", "gone"), (b"+", "come")) for text in said[key]]
    return b"".join(line + b"\n" for line in lines) + b"\n"


def check_answers(case, program, folder, words, plain_from):
    """Compares the objects of a run with its lines."""
    def came(*more):
        done = subprocess.run([program, *words, *more], cwd=folder, input=answered_blocks(), capture_output=True, timeout=60)
        return done.returncode, done.stdout, done.stderr

    status, lines, messages = came()
    other, objects, same = came("--format=json")
    if (status, messages) != (other, same):
        reported(case, f"status {status} and {other}, messages {messages!r} and {same!r}")
        return
    made = b"".join(plain_from(json.loads(line)) for line in objects.decode("utf-8").split("\n")[:-1])
    reported(case, "" if made == lines and lines else first_difference(lines.split(b"\n"), made.split(b"\n")) or "nothing is said")
    reported(f"{case}: jq reads the objects as Python does", beside_jq(objects))


def main(program):
    with tempfile.TemporaryDirectory() as name:
        folder = Path(name)
        for example in ("mistakes.rules", "mistakes.hwdb"):
            shutil.copy(TOP / "examples" / example, folder)
        check("the examples", program, folder, ["verify", "mistakes.rules"])
        check("the examples of the database", program, folder, ["update", "mistakes.hwdb"])

        made = [f"made/{number}.rules" for number in range(200)]
        (folder / "made").mkdir()
        for number, path in enumerate(made):
            (folder / path).write_text(made_file(number))
        check("200 files made from a seed", program, folder, ["verify", *made])
        check("200 files made from a seed, with --no-style", program, folder, ["verify", "--no-style", *made])
        check("200 files made from a seed, with --lint", program, folder, ["verify", "--lint", *made])
        lints = [f"lints/{number}.rules" for number in range(200)]
        (folder / "lints").mkdir()
        for number, path in enumerate(lints):
            (folder / path).write_text(made_file(number, LINT_PIECES, 8))
        check("200 files with faults that --lint reports", program, folder, ["verify", "--lint", *lints])
        long = [f"long/{number}.rules" for number in range(100)]
        (folder / "long").mkdir()
        for number, path in enumerate(long):
            (folder / path).write_text(made_file(number, PIECES[:4] + LONG_PIECES * 2, 12))
        check("100 files of long lines", program, folder, ["verify", *long])

        for path in NAMES:
            (folder / path).parent.mkdir(exist_ok=True)
            (folder / path).write_text('FOO="x"\nTAG="a",TAG="b",TAG="c"\n')
        check("odd names", program, folder, ["verify", *(path for path in NAMES if "\n" not in path)])
        status, text, _ = run(program, folder, "verify", "--format=json", NAMES[-1])
        reported("json has the full name of a file with a newline in its name",
             "" if [json.loads(line)["path"] for line in text.decode().split("\n")[:-1]] == [NAMES[-1]] * 3 else text_of(text))

        words = [f'LABEL="{word}"' for word in ODD_WORDS if '"' not in word] + ODD_WORDS
        (folder / "words.rules").write_text("".join(f"{word}\n" for word in words))
        check("odd words", program, folder, ["verify", "words.rules"])
        (folder / "bytes.rules").write_bytes(b'FOO\xFF="x"\nLABEL="\xE4"\nTAG="a",TAG="b"\n')
        check("bytes that are not UTF-8", program, folder, ["verify", "bytes.rules"])

        image = folder / "image"
        for place, rule in (("etc/udev/rules.d/60-a.rules", 'FOO="1"'), ("usr/lib/udev/rules.d/50-b.rules", 'TAG="a",TAG="b"'),
                            ("run/udev/rules.d/70-c.rules", 'GOTO="x"')):
            (image / place).parent.mkdir(parents=True)
            (image / place).write_text(rule + "\n")
        check("files of an image by their full path", program, folder, ["verify", "-r", "image"], name_of=os.path.basename)

        (folder / "answers.rules").write_bytes(ANSWERED_RULES)
        for options in ([], ["--sources"], ["--why", "answers.rules"], ["--sources", "--why", "answers.rules", "--udev"], ["--udev"]):
            check_answers(f"answers as JSON: {' '.join(options) or 'no option'}", program, folder, ["events", "-r", "none", *options, "answers.rules"],
                          lambda said, sources="--sources" in options: plain_of(said, sources))
        for root, rules in (("one", ANSWERED_RULES), ("two", ANSWERED_RULES.replace(b"0660", b"0600").replace(b"$env{ODD}$env{ODD}", b"$env{ODD}"))):
            (folder / root / "etc/udev/rules.d").mkdir(parents=True)
            (folder / root / "etc/udev/rules.d/a.rules").write_bytes(rules)
        check_answers("differences as JSON", program, folder, ["compare", "one", "two"], plain_differences)

        (folder / "good.rules").write_text('TAG="t"\n')
        check("no message", program, folder, ["verify", "good.rules"])


if __name__ == "__main__":
    if len(sys.argv) != 2:
        sys.exit(__doc__)
    try:
        main(os.path.realpath(sys.argv[1]))
    except Exception as fault:
        # (so that whoever counts the lines also sees a run that was cut off)
        print(f"not ok tests/read_formats.py runs to its end: {fault!r}")
        raise
