"""A plain reading of rules files: each message with its place, as docs/behaviour.md describes them.

It knows nothing of the program. It is written to be read, not to be quick, and says no more about a value than the pieces
of tests/read_formats.py need: what sets, options and substitutions are.
"""
import re

LONGEST = 16_384

COMPARES, ADDS = {"==", "!="}, {"=", "+=", ":="}
ACTS = COMPARES | ADDS

# Each key: the attributes that it takes (None: none, otherwise a pattern), its operators, those that are read as `=` with a
# remark, and how a value is read after `==` and `!=`, and after the others.
ANY = ".+"
KEYS = {
    **{key: (None, COMPARES, set(), "choice", None) for key in
       "ACTION DEVPATH KERNEL SUBSYSTEM DRIVER KERNELS SUBSYSTEMS DRIVERS TAGS RESULT".split()},
    **{key: (ANY, COMPARES, set(), "choice", None) for key in ("ATTRS", "CONST")},
    "TEST": ("(?:[0-7]{1,5})?", COMPARES, set(), "template", None),
    "PROGRAM": (None, ACTS, set(), "template", "template"),
    "IMPORT": ("program|builtin|file|parent|cmdline|db", ACTS, set(), "import", "import"),
    "NAME": (None, COMPARES | {"=", ":="}, {"+="}, "choice", "template"),
    "SYMLINK": (None, ACTS | {"-="}, set(), "choice", "template"),
    "TAG": (None, COMPARES | {"=", "+=", "-="}, {":="}, "choice", "template"),
    **{key: (ANY, COMPARES | {"="}, {"+=", ":="}, "choice", "template") for key in ("ATTR", "SYSCTL")},
    "ENV": (ANY, COMPARES | {"=", "+="}, {":="}, "choice", "template"),
    **{key: (None, {"=", ":="}, {"+="}, None, "template") for key in ("OWNER", "GROUP", "MODE")},
    "SECLABEL": (ANY, {"=", "+="}, {":="}, None, "template"),
    "RUN": ("(?:program|builtin)?", ADDS, set(), None, "template"),
    "OPTIONS": (None, ADDS, set(), None, "option"),
    **{key: (None, {"="}, set(), None, "name") for key in ("LABEL", "GOTO")},
}
# `TEST` and `RUN` need no braces.
WITHOUT = {"TEST", "RUN"}
NO_CASE = {"TEST", "PROGRAM", "IMPORT"}

NAMES = "kernel number devpath id driver major minor result parent name links root sys devnode".split()
SUBSTITUTION = re.compile(
    r"\$\$|%%|[$](?:attr|env)\{[^}]+\}|%[sE]\{[^}]+\}|(?:[$]result|%c)\{[1-9][0-9]{0,4}\+?\}|[$](?:result|" + "|".join(NAMES)
    + r")(?!\{)|%[knpbMmcPrSN](?!\{)|[$](?:" + "|".join(it for it in NAMES if it != "result") + r")|%[knpbMmPrSN]")
OPTION = re.compile(r"string_escape=(none|replace)|watch|nowatch|db_persist|(static_node|log_level)=.*|link_priority=[+-]?[0-9]{1,9}", re.S)
TOKEN = re.compile(r'(?P<key>[A-Za-z_0-9]+)(?P<braces>\{(?P<attribute>[^}]*)\})?[ \t]*(?P<operator>==|!=|\+=|-=|:=|=)[ \t]*(?P<prefix>[A-Za-z]*)"')
GAP = re.compile(r"[ \t,]*")
CLASS = re.compile(r"\[[!^]?\]?[^]]*?\[[:.=]")
ESCAPES = {"a": "\a", "b": "\b", "f": "\f", "n": "\n", "r": "\r", "t": "\t", "v": "\v", "\\": "\\", '"': '"', "'": "'", "s": " "}


class Fault(Exception):
    """The first fault of a line: its code, its place in the joined line and its word."""


def joined_lines(text):
    """Each joined line: its number, its text, the place of each of its bytes, and of the backslash if it stays open."""
    found, number, line, places, begins, last = [], 0, "", [], None, None
    for number, physical in enumerate(text.split("\n"), 1):
        if number > text.count("\n") and not physical:
            break
        indent = len(physical) - len(physical.lstrip(" \t"))
        if physical[indent:indent + 1] == "#":
            continue
        begins = begins or number
        continues = physical.endswith("\\")
        kept = physical[indent:len(physical) - continues]
        line += kept
        places += [(number, indent + at + 1) for at in range(len(kept))]
        last = (number, len(physical))
        if not continues:
            found.append((begins, line, places, None))
            line, places, begins = "", [], None
    if begins:
        found.append((begins, line, places, last))
    return found


def escaped_value(line, at):
    """What a value with escapes means, and where its quote is; None if it is not a value."""
    value = ""
    while at < len(line) and line[at] != '"':
        if line[at] != "\\":
            value, at = value + line[at], at + 1
        elif line[at + 1:at + 2] == "x" and re.match("[0-9A-Fa-f]{2}", line[at + 2:]):
            value, at = value + chr(int(line[at + 2:at + 4], 16)), at + 4
        elif line[at + 1:at + 2] in ESCAPES:
            value, at = value + ESCAPES[line[at + 1]], at + 2
        else:
            return None
    return (value, at) if at < len(line) else None


def read_token(line, at):
    """The token at a place: the match, what its value means, and the places between its quotes."""
    token = TOKEN.match(line, at)
    if not token:
        raise Fault("V1", (at, len(line)), line[at:])
    letters, start = token["prefix"], token.end()
    allowed = "ei" if token["operator"] in COMPARES else "e"
    if not (set(letters) <= set(allowed) and len(set(letters)) == len(letters)):
        raise Fault("V10", token.span("prefix"), letters)
    if "e" in letters:
        read = escaped_value(line, start)
    else:
        end = re.compile(r'(?<!\\)"').search(line, start)
        read = end and (line[start:end.start()].replace('\\"', '"'), end.start())
    if not read or "\0" in line[at:read[1]]:
        raise Fault("V1", (at, len(line)), line[at:])
    return token, read[0], (start, read[1])


def check_token(token, value, place):
    """Raises the fault of a token; otherwise returns whether its operator is read as `=`."""
    key, operator, letters = token["key"], token["operator"], token["prefix"]
    if key not in KEYS:
        raise Fault("V2", token.span("key"), key)
    attributes, operators, read_as, compared, assigned = KEYS[key]
    braces, attribute = token["braces"], token["attribute"]
    if braces if attributes is None else not (re.fullmatch(attributes, attribute, re.S) if braces else key in WITHOUT):
        raise Fault("V4", token.span("key"), key)
    if operator not in operators | read_as:
        raise Fault("V3", token.span("key"), key)
    kind = compared if operator in COMPARES else assigned
    if kind == "import":
        kind = {"parent": "choice", "cmdline": "text", "db": "text"}.get(attribute, "template")
    bad = None
    if "i" in letters and key in NO_CASE or kind == "option" and not OPTION.fullmatch(value) or kind == "name" and not value:
        bad = "V5"
    elif kind == "choice" and CLASS.search(value):
        bad = "V11"
    elif kind == "template":
        if has_bad_sign(value):
            bad = "V6"
    if bad:
        raise Fault(bad, place, value)
    return operator in read_as


def has_bad_sign(value):
    """Whether there is a sign that is not part of a substitution."""
    at = 0
    while at < len(value):
        if value[at] in "$%":
            found = SUBSTITUTION.match(value, at)
            if not found:
                return True
            at = found.end()
        else:
            at += 1
    return False


def read_line(line):
    """The labels, the jumps and the remarks of a joined line; its fault is raised."""
    labels, jumps, remarks, at, first = [], [], [], 0, True
    while True:
        gap = GAP.match(line, at) if not first else re.compile("").match(line, at)
        commas, end = gap[0].count(","), gap.end()
        if end == len(line):
            if commas:
                remarks.append(("S1", gap.span(), ""))
            return labels, jumps, remarks
        token, value, place = read_token(line, end)
        read_as = check_token(token, value, place)
        key = token.span("key")
        if not first and commas != 1:
            remarks.append(("S1", key, token["key"]))
        if not first and gap[0].endswith(","):
            remarks.append(("S2", key, token["key"]))
        if read_as:
            remarks.append(("S3", key, token["key"]))
        if token["key"] in ("LABEL", "GOTO"):
            (labels if token["key"] == "LABEL" else jumps).append((value, place))
        at, first = place[1] + 1, False


def findings(raw):
    """All messages about a file, in order: code, first line of the rule, line, columns of the place, word."""
    found, rules = [], []
    for begins, line, places, still_open in joined_lines(raw.decode("latin-1")):
        def report(code, span, word, begins=begins, places=places, line=line):
            number, column = places[span[0]] if span[0] < len(places) else (places[-1][0], places[-1][1] + 1)
            end = max([it[1] + 1 for it in places[span[0]:span[1]] if it[0] == number], default=column)
            found.append((code, begins, number, column, end, word.encode("latin-1")))
        if still_open:
            found.append(("V12", begins, *still_open, still_open[1] + 1, b""))
        elif len(line) > LONGEST:
            report("V9", (0, len(line)), "")
        elif line:
            try:
                labels, jumps, remarks = read_line(line)
            except Fault as fault:
                report(*fault.args)
                continue
            for code, span, word in remarks:
                report(code, span, word)
            for name, span in labels[1:] + jumps[1:]:
                report("V8", span, name)
            rules.append((labels[:1], jumps[:1], report))
    used = set()
    for at, (_, jumps, report) in enumerate(rules):
        for name, span in jumps:
            later = next((place for place in range(at + 1, len(rules)) if rules[place][0] and rules[place][0][0][0] == name), None)
            if later is None:
                report("V7", span, name)
            used.add(later)
    for at, (labels, _, report) in enumerate(rules):
        for name, span in labels:
            if at not in used:
                report("S4", span, name)
    return sorted(found, key=turn)


def turn(it):
    """The order of messages: by rule, of one rule V by number and place, S by place and number, S4 last."""
    code, begins, *place = it[:5]
    number = int(code[1:])
    return (begins, 2, 0, (), number) if code == "S4" else (begins, 1, 0, place, number) if code[0] == "S" else (begins, 0, number, place, 0)
