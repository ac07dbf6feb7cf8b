"""Files whose faulty places are marked by hand, and what each format says about them.

A mark is `<CODES|PLACE>`: the place is part of the file, and the codes are those of the messages about it. If the word of a
message is not the text of the place, it is added: `<V6=a$nope|$nope>`. Nothing here asks the program: columns are counted in
the text without the marks, and the formats are written anew from docs/behaviour.md.
"""
import json
import re
from collections import Counter
from dataclasses import dataclass
from functools import cache
from pathlib import Path
from urllib.parse import quote

from tables.kinds.near import meant
from tables.kinds.row import Read, Row, as_bytes

DOCS = Path(__file__).resolve().parents[3] / "docs"

# What each code says, from the tables of the reference.
TEXTS = {
    "V1": "bad syntax",
    "V2": "unknown key",
    "V3": "operator not allowed",
    "V4": "attribute missing or not allowed",
    "V5": "bad value",
    "V6": "bad substitution",
    "V7": "no later label",
    "V8": "label or goto given twice",
    "V9": "line too long",
    "V10": "bad quote prefix",
    "V11": "set not supported",
    "V12": "line continuation at the file's end",
    "V13": "reserved property",
    "V14": "name without effect",
    "V15": "unknown builtin",
    "V16": "matches exclude each other",
    "V17": "said twice",
    "V18": "rule without effect",
    "V19": "RESULT before PROGRAM",
    "V20": "empty value",
    "V21": "bad substitution in an attribute",
    "V22": "attribute of another device",
    "V23": "old name of a subsystem",
    "V24": "operator read as =",
    "V25": "unknown user or group",
    "V26": "file with a line too long",
    "S1": "one comma expected",
    "S2": "blank after a comma expected",
    "S3": "operator read as =",
    "S4": "label unused",
    "S5": "comma before the first token",
    "S6": "blank before a comma",
    "H1": "property without a match",
    "H2": "match without a property",
    "H3": "unindented line after properties",
    "H4": "no =",
    "H5": "empty key",
    "H6": "pattern not supported",
    "W1": "mode is no octal number",
    "W2": "sign of the shell, and no shell",
    "W3": "program without a path",
    "W4": "letter case that the kernel does not write",
    "W5": "attributes of different devices",
    "W6": "property imported further down",
    "W7": "value assigned that others compare",
    "W8": "name outside net",
    "W9": "link begins with /dev/",
    "W10": "name in quotes",
    "W11": "regular expression in a pattern",
    "W12": "match that always holds",
    "W13": "rule never reached",
    "W14": "no pattern for udev",
    "W15": "rule without a match",
    "W16": "value that never fits",
    "W17": "blank beside a bar",
    "W18": "name near a known one",
    "W19": "no substitution",
    "W20": "list replaced",
    "W21": "value assigned instead of compared",
    "W22": "name of a network device too long",
    "W23": "unit wanted without a tag",
    "W24": "command that cannot work",
    "W25": "result before its program",
    "W26": "link of a network device",
    "W27": "tag uaccess in a late file",
    "I1": "nothing to ignore",
    "I2": "unknown code",
}
MARK = re.compile(rb"<([VSHIW]\d+(?: [VSHIW]\d+)*)(?:=([^|<>]*))?\|([^<>]*)>")
# Lints of one rule are ordered by their codes, except for these, which come last.
LAST_LINTS = [6, 7, 13]
FORMATS = ["plain", "gcc", "github", "gitlab", "json", "sarif", "human"]
# Those that are reports for programs, and all of the standard output.
REPORTS = ["gitlab", "json", "sarif"]

# A message has so many bytes of a word in `plain`.
WORD = 32


@dataclass
class Found:
    """A message with its place: the line that it reports, and the physical line with the columns of the place in it."""

    code: str
    begins: int
    line: int
    column: int
    end: int
    word: bytes
    source: bytes

    @property
    def severity(self):
        return "warning" if self.code[0] in "SIWD" else "error"

    @property
    def text(self):
        return TEXTS[self.code].encode()

    @property
    def turn(self):
        """Where it comes among the messages of its file: of one rule V by number and place, S by place and number, S4 last,
        then W by number and place, except for the last of them."""
        number, place = int(self.code[1:]), (self.line, self.column)
        if self.code[0] == "W":
            return (self.begins, 3, number in LAST_LINTS, number, place)
        if self.code[0] == "S":
            return (self.begins, 2, (), number) if self.code == "S4" else (self.begins, 1, place, number)
        return (self.begins, 0, number, place)


def escaped(text):
    """A text as messages show it."""
    return b"".join(b"\\x%02X" % byte if byte < 0x20 or byte in b"\x7F\\" else bytes([byte]) for byte in text)


def unmarked(marked):
    """A physical line without its marks, and for each the codes, the word and the columns of the place."""
    line, places, at = b"", [], 0
    for mark in MARK.finditer(marked):
        line += marked[at:mark.start()]
        codes, word, place = mark.groups()
        places.append((codes.decode().split(), place if word is None else word, len(line) + 1, len(line) + 1 + len(place)))
        line += place
        at = mark.end()
    return line + marked[at:], places


def read_marks(lines, rules=True):
    """The bytes of a file of these marked lines, and its messages in their order."""
    text, found, begins, open_line = b"", [], 0, False
    for number, marked in enumerate(map(as_bytes, lines), 1):
        line, places = unmarked(marked)
        text += line + b"\n"
        comment = line.lstrip(b" \t").startswith(b"#")
        begins = begins if open_line else number
        for codes, word, column, end in places:
            reports = number if comment or not rules else begins
            found += [Found(code, reports, number, column, end, word, line) for code in codes]
        open_line = rules and (open_line if comment else line.endswith(b"\\"))
    return text, sorted(found, key=lambda it: it.turn)


@cache
def sentence(code):
    """The first sentence of the section of docs/messages.md about a code, without the backquotes."""
    section = re.search(rf"^### {code} .*\n\n([^#]*)", (DOCS / "messages.md").read_text(), re.M)[1]
    return re.match(r"(.*?[.?])(?:\s|$)", section.split("\n\n")[0], re.S)[1].replace("\n", " ").replace("`", "").encode()


def with_word(found, word):
    """What a message says: its text, and the word if there is one."""
    return found.text + (b": " + word if word else b"")


def plain(found, name, path):
    return b"%s:%d: %s %s\n" % (escaped(name), found.begins, found.code.encode(), with_word(found, escaped(found.word[:WORD])))


def gcc(found, name, path):
    return b"%s:%d:%d: %s: %s [%s]\n" % (
        escaped(path), found.line, found.column, found.severity.encode(), with_word(found, escaped(found.word)), found.code.encode())


def percent(text, signs):
    """A text in which these signs are written as GitHub reads them, and everything else is unchanged."""
    return b"".join(b"%%%02X" % byte if byte in signs else bytes([byte]) for byte in text)


def github(found, name, path):
    return b"::%s file=%s,line=%d,col=%d,endColumn=%d,title=%s::%s\n" % (
        found.severity.encode(), percent(path, b"%:,\x7f" + bytes(range(0x20))), found.line, found.column, found.end, found.code.encode(),
        percent(with_word(found, escaped(found.word)), b"%\r\n"))


def shown(text):
    """Bytes as JSON has them."""
    return text.decode("utf-8", "replace")


def json_line(found, name, path):
    said = {
        "path": shown(path), "line": found.line, "column": found.column, "end_column": found.end, "code": found.code,
        "text": shown(found.text), "word": shown(found.word), "severity": found.severity,
    }
    return json.dumps(said, ensure_ascii=False, separators=(",", ":")).encode() + b"\n"


def columns(text):
    """How many columns bytes take: one for each, except for those that continue a character of UTF-8."""
    return sum(not 0x80 <= byte < 0xC0 for byte in text)


# What a terminal would obey, in UTF-8, and what it shows instead: control characters of two bytes, marks of direction, and
# characters that end a line.
OBEYED = [
    (re.compile(rb"\xC2[\x80-\x9F]"), "\u00BF".encode()),
    (re.compile("\u061C".encode()), "\u0606".encode()),
    (re.compile(rb"\xE2\x80[\x8E\x8F\xA8-\xAE]"), "\u203D".encode()),
    (re.compile(rb"\xE2\x81[\xA6-\xA9]"), "\u2047".encode()),
]
# What `human` says about a text that begins with what nobody sees, and about a comma at a line's end, instead of the sentence.
UNSEEN = [
    ("\uFEFF".encode(), b"The file begins with a byte order mark, which an editor does not show: save it as UTF-8 without one."),
    ("\u00A0".encode(), b"Here is a no-break space, which looks like a space: write a space."),
    (b"\r", b"The line ends in CR LF, as on Windows: save the file with LF alone."),
]
COMMA_AT_THE_END = b"Remove the comma at the end, or write a backslash after it if the rule goes on in the next line."


def masked(text):
    """Bytes without the characters that a terminal would obey."""
    for pattern, sign in OBEYED:
        text = pattern.sub(sign, text)
    return text


def advice(code, word, at_end):
    """How `human` says that a message is to be fixed, by its code, its word, and whether its place ends its line."""
    name = meant(code, word)
    if name:
        return f"Did you mean {name}?".encode()
    if code == "V1":
        return next((hint for start, hint in UNSEEN if word.startswith(start)), sentence(code))
    return COMMA_AT_THE_END if code == "S1" and at_end else sentence(code)


def human(found, name, path):
    # (of a line of more than 160 bytes only a part is shown: such rows are written by hand)
    source = bytes(0x20 if byte == 0x09 else ord("?") if byte < 0x20 or byte == 0x7F else byte for byte in masked(found.source))
    caret = b" " * columns(found.source[:found.column - 1]) + b"^" + b"~" * columns(found.source[found.column:found.end - 1])
    return b"%s:%d:%d: %s: %s [%s]\n  %s\n  %s\n  = %s\n" % (
        masked(escaped(path)), found.line, found.column, found.severity.encode(), found.text, found.code.encode(), source, caret,
        advice(found.code, found.word, found.end == len(found.source) + 1))


def gitlab_report(text):
    """What GitLab reads of a report: for each message its path, its line, its severity, its code and its description."""
    report = json.loads(text.decode("utf-8"))
    prints = [it["fingerprint"] for it in report]
    if not all(isinstance(mark, str) and mark for mark in prints) or len(set(prints)) < len(prints):
        raise ValueError(f"fingerprints {prints}")
    return [
        (it["location"]["path"], it["location"]["lines"]["begin"], it["severity"], it["check_name"], it["description"], it["fingerprint"])
        for it in report
    ]


def gitlab(found, name, path):
    severity = "minor" if found.severity == "warning" else "major"
    return (shown(path), found.line, severity, found.code, f"{found.code} {shown(with_word(found, escaped(found.word)))}")


def line_part(source):
    """What a fingerprint has of a line: of more than 200 bytes the first 100, how many there are, and the last 100."""
    return source if len(source) <= 200 else b"%s:%d:%s" % (source[:100], len(source), source[-100:])


def with_fingerprints(said, every):
    """What is said about messages, each with its fingerprint: which of those with its code, its path and the text of its line it is."""
    seen, given = Counter(), []
    for it, (found, _, path) in zip(said, every):
        mark = shown(b":".join([found.code.encode(), path, line_part(found.source)]))
        seen[mark] += 1
        given.append((*it, f"{seen[mark]}:{mark}"))
    return given


def sarif_log(text):
    """What a reader of SARIF reads of a log: for each result its place, its level, its rule, its message and its fingerprint."""
    log = json.loads(text.decode("utf-8"))
    [only] = log["runs"]
    driver = only["tool"]["driver"]
    rules = {it["id"]: (it["shortDescription"]["text"], it["help"]["text"]) for it in driver["rules"]}
    if (log["version"], driver["name"], only["columnKind"]) != ("2.1.0", "devdry", "unicodeCodePoints"):
        raise ValueError(f"the head of {log}")
    if len(rules) < len(driver["rules"]) or any(
            rules[code] != (said, sentence(code).decode().replace("{", "{{").replace("}", "}}")) for code, said in TEXTS.items()):
        raise ValueError(f"rules {rules}")
    results = []
    for it in only["results"]:
        [place] = [place["physicalLocation"] for place in it["locations"]]
        region = place["region"]
        results.append((place["artifactLocation"]["uri"], region["startLine"], region["startColumn"], region["endColumn"], it["level"], it["ruleId"],
                        it["message"]["text"], it["partialFingerprints"]["devdryLine/v1"]))
    return results


def uri_of(path):
    """A path as a reference of RFC 3986."""
    return ("file://" if path.startswith(b"/") else "") + quote(path, safe="/-._~")


def sarif(found, name, path):
    said = shown(with_word(found, escaped(found.word))).replace("{", "{{").replace("}", "}}")
    begins, ends = (columns(found.source[:at - 1]) + 1 for at in (found.column, found.end))
    return (uri_of(path), found.line, begins, ends, found.severity, found.code, said)


LINES = {"plain": plain, "gcc": gcc, "github": github, "json": json_line, "human": human}


def messages(form, files):
    """Everything that a format says about messages: `files` are name, path and messages of each file."""
    every = [(it, as_bytes(name), as_bytes(path)) for name, path, found in files for it in found]
    if form == "gitlab":
        return Read(gitlab_report, with_fingerprints([gitlab(*it) for it in every], every))
    if form == "sarif":
        return Read(sarif_log, with_fingerprints([sarif(*it) for it in every], every))
    return b"".join(LINES[form](*it) for it in every)


def written(form, said, answer):
    """Where what is said in a format and the answer beside it go."""
    return {"output": said} if form in REPORTS else {"output": answer, "messages": said}


def summary(files):
    """What `verify` counts."""
    bad = sum(1 for _, _, found in files if found)
    return f"{len(files)} files checked, {len(files) - bad} good, {bad} bad\n"


def in_formats(name, *lines, file=b"r.rules", formats=FORMATS, words=(), beside=None):
    """A run of `verify` over a file of these marked lines for each format, with these words, and with other files in the folder."""
    text, found = read_marks(lines)
    file = as_bytes(file)
    files = [(file, file, found)]
    return [
        Row(f"{name}, {form}", ["verify", f"--format={form}", *words, file], {file: text, **(beside or {})}, status=1 if found else 0,
            **written(form, messages(form, files), summary(files)))
        for form in formats
    ]
