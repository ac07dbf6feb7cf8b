"""A plain reading of rules files, written from docs/behaviour.md: the rules with their parts in the order of evaluation, how
choices fit, and how texts are shown. Texts are bytes as characters (latin-1). Lines with a fault have to be left out by
whoever asks, who knows the messages; plain_courses.py evaluates what is read here.
"""
import re
from collections import namedtuple

# At most so many bytes of a text are shown.
SHOWN = 200
PLAIN = "ACTION DEVPATH KERNEL NAME SYMLINK SUBSYSTEM DRIVER ATTR SYSCTL ENV CONST TAG".split()
UPWARD = "KERNELS SUBSYSTEMS DRIVERS ATTRS TAGS".split()
ACTS = ["TEST", "PROGRAM", *(f"IMPORT {kind}" for kind in "file program builtin db cmdline parent".split())]
SETS = "OPTIONS OWNER GROUP MODE TAG SECLABEL ENV NAME SYMLINK ATTR SYSCTL RUN".split()

Token = namedtuple("Token", "key attribute operator blind value")
TOKEN = re.compile(
    r'''[ \t,]*([A-Z]+)(?:\{([^}]*)\})?[ \t]*(==|!=|\+=|-=|:=|=)[ \t]*'''
    r'''(?:(e|ie|ei)"((?:[^"\\]|\\.)*)"|(i?)"((?:[^"\\]|\\"|\\(?!"))*)")''', re.S)


def escape(text):
    """A text with its control bytes and backslashes escaped."""
    return "".join(f"\\x{ord(c):02X}" if ord(c) < 0x20 or c in "\x7F\\" else c for c in text)


def marked(text):
    """A text that is shown whole: between quotes if that has to be."""
    return f'"{escape(text)}"' if not text or text[0] in ' "' or text[-1] == " " else escape(text)


def shown(text):
    """A text as lines that say why show it."""
    return marked(text) if len(text) <= SHOWN else f"{marked(text[:SHOWN])}.. ({len(text)} bytes)"


def shortened(text):
    """A value as a key has it between its quotes."""
    return escape(text) if len(text) <= SHOWN else f"{escape(text[:SHOWN])}.. ({len(text)} bytes)"


def unescaped(text):
    """A value with the escapes of e"..": all that rules have."""
    simple = dict(zip('abfnrtv\\"\'s', '\a\b\f\n\r\t\v\\"\' '))
    number = lambda it: chr(int(it.lstrip("x"), 16 if it[0] == "x" else 8))
    return re.sub(r"\\(x[0-9A-Fa-f]{2}|[0-7]{3}|.)", lambda it: simple.get(it[1]) or number(it[1]), text, flags=re.S)


# the members of a set that have another meaning in a set of a regular expression, and how they are written there
MARKS = r"[\\\[\]^&~|]"


def escaped_mark(found):
    return "\\" + found[0]


def fits(choice, text, blind=False):
    """Whether one of the patterns between bars fits the text."""
    found = ""
    at = 0
    while at < len(choice):
        c, at = choice[at], at + 1
        end = at + (choice[at:at + 1] in ("!", "^")) if c == "[" else 0
        end = choice.find("]", end + 1) if c == "[" and "]" in choice[end + 1:] else 0
        bar = choice.find("|", at) if c == "[" else -1
        if end and not 0 <= bar < end:
            inverted = choice[at] in "!^"
            found += f"[{'^' * inverted}{re.sub(MARKS, escaped_mark, choice[at + inverted:end])}]"
            at = end + 1
        else:
            found += {"*": ".*", "?": ".", "|": "|"}.get(c) or re.escape(c)
    return re.fullmatch(f"(?:{found})", text, re.S | re.I * blind) is not None


class Rule:
    """A rule: its place, and its tokens in the order of evaluation."""

    def __init__(self, file, line, text):
        self.file, self.line, self.place = file, line, f"{escape(file)}:{line}"
        tokens = [Token(it[1], it[2], it[3], "i" in (it[4] or it[6] or ""), unescaped(it[5]) if it[4] else it[7].replace('\\"', '"'))
                  for it in TOKEN.finditer(text)]
        names = {key: [it.value for it in tokens if it.key == key][:1] for key in ("LABEL", "GOTO")}
        self.label, self.goto = (names[key][0] if names[key] else None for key in ("LABEL", "GOTO"))
        match = [it for it in tokens if it.operator in ("==", "!=")]
        self.plain = [it for it in match if it.key in PLAIN]
        self.up = [it for it in match if it.key in UPWARD]
        self.results = [it for it in match if it.key == "RESULT"]
        acts = [it._replace(operator="!=" if it.operator == "!=" else "==") for it in tokens if it.key in ("TEST", "PROGRAM", "IMPORT")]
        self.acts = sorted(acts, key=lambda it: ACTS.index(f"IMPORT {it.attribute}" if it.key == "IMPORT" else it.key))
        self.sets = sorted((it for it in tokens if it.operator not in ("==", "!=") and it.key in SETS), key=lambda it: SETS.index(it.key))


def rules_of(file, text, dropped=()):
    """The rules of a file, except for the dropped lines, with the jumps that have no later label removed."""
    rules, begun, joined, continued = [], None, "", False
    for number, line in enumerate(text.split("\n"), 1):
        line = line.lstrip(" \t")
        if line.startswith("#"):
            continue
        begun, joined = (begun, joined + line) if continued else (number, line)
        continued = joined.endswith("\\")
        joined = joined.removesuffix("\\")
        if not continued and joined and begun not in dropped:
            rules.append(Rule(file, begun, joined))
    for at, rule in enumerate(rules):
        if rule.goto not in {later.label for later in rules[at + 1:]}:
            rule.goto = None
    return rules


def key_text(token):
    """A key with its attribute."""
    attribute = f"{{{escape(token.attribute)}}}" if token.attribute is not None else ""
    return f"{token.key}{attribute}"


def match_text(token):
    """A match or an act, as it was written."""
    return f'{key_text(token)}{token.operator}{"i" * token.blind}"{shortened(token.value)}"'
