"""Makers of rules files for trials of `verify --udev`: of tokens, of real rules with changes, and of lines.

Not made, because devdry reads them differently on purpose:
- `\\u` and `\\U` in e values with a surrogate, with FDD0 to FDEF, or ending in FFFE or FFFF;
- vertical tabs and form feeds in numbers, which udev skips in front of them;
- 16,383 joined bytes that continue with nothing but empty pieces, and two backslashes at the end of a line followed by an empty
  line;
- 0 as owner or group, which for devdry is root, but not for a udevadm that resolves no names.
"""
import re

PATTERNS = ["", "a ", *"a b ab 1 a|b b|a a|b|a a| | ||a ?* ?* bus class subsystem bus|usb a* b* ab?|c* [a]b a*|".split()]
GLOBS = "* ? ?* [a-c] [!a] [^0-9] []a] [a|b] [[:alpha:]] [[:none:]] [[=a=]] [[.a.]] [ ] \\ \\* \\\\x".split()
WORDS = ["a", "b", "ab", "sda", "usb", "1", "a b", "a ", " ", "-", "\xe9", '"']
SUBSTITUTIONS = """%k $kernel %n $number $attr{size} %s{a/b} $sysfs{model} $env{A} %E{ID_A} $driver %d %D %L $links $devnode $tempnode %N
    $devpath %p $id %b $major %m $minor %M $result %c %c{1} $result{2+} $parent %P $name %r $root $sys %S $$ %% $kernels $syst
    $kernel{x}y %n{a}{b} $id{0}""".split()
BAD_SUBSTITUTIONS = """% $ $$$ %%% %? $disk %z $attr $sysfsx %s $env %E $env{x $attr{} $attr{a $kernel{} %k{a %c{} $result{a} %c{1++}
    %c{+} %c{08} %c{-1} %c{4294967296}""".split()
SEVENS = ["7", "07", "0x7", "0X07", "0b111", "0B0b111", "0b 111", "0o7", "+7", " 7", "\t+7", "0b0111"]
SIGNS = ["", "", "", " ", "\t", " +", "+ ", *"+ - 0 0x 0X -0x 0b 0B -0b 0b0b 0b- 0o 0O -0o --".split()]
DIGITS = ["", *"0 1 1 5 7 8 08 10 11 77 ff 1e3 65535 65536 2147483647 2147483648 4294967295 4294967296 99999999999999999999".split()]
MODES = ["0644", "644", "660", "0", "7777", "0000000644", " 644", "\t7"]
NO_MODES = ["10000", "77777", "644 ", "+644", "-0", "8", "0o644", "0x1", "rw", " "]
OWNERS = [*"root disk daemon nobody 1 6 00 01 +1 -1 65534 65535 65536 4294967294 4294967295 4294967296 [a DISK :no:".split(), " disk"]
BUILTINS = "blkid btrfs hwdb input_id keyboard kmod net_driver net_id net_setup_link path_id usb_id uaccess usb net k u".split()
NO_BUILTINS = "path_id2 PATH_ID 'path_id' usb-id factory_reset %k /bin/usb_id ,usb_id".split()
LEVELS = "emerg alert crit err warning notice info debug reset none DEBUG error 8 -1".split()
OPTIONS = "string_escape=none string_escape=replace db_persist watch nowatch static_node=a static_node=%k static_node=".split()
NO_OPTIONS = ["last_rule", "watch ", "watch,nowatch", "string_escape", ""]
RESERVED = "ACTION DEVLINKS DEVNAME DEVPATH DEVTYPE DRIVER IFINDEX MAJOR MINOR SEQNUM SUBSYSTEM TAGS".split()
PROPERTIES = "A ID_A ID_B A % .ACTION devname DISKSEQ CURRENT_TAGS MODALIAS".split()
FILES = "a b a b device queue/x [a/b]b $kernel/x %k".split()
BAD_FILES = "% $disk/a a$attr $kernel{} device/x a/../b device/../b ../x device/%".split()
NAMES = ["a", "b", "end", "", " ", "$x"]
ESCAPES = [*"\\n \\t \\\\ \\\" \\' \\s \\a \\x41 \\x25 \\101 \\044 \\u00e9 \\U0001F600 \\u0024 | a %k $".split(), " "]
BAD_ESCAPES = "\\ \\q \\x4 \\xg1 \\x00 \\000 \\400 \\18 \\u12 \\u0000 \\U00000000 \\U0011zzzz \\U00110000".split()
OPERATORS = "+= += += := := := == != = -= =+ < === !".split()
MATCH, SET, LIST = ["==", "!="], ["=", ":="], ["=", "+=", ":=", "-="]
ODD_KEYS = ["RING", "KER-NEL", "kernel", "KERNEL2", "", "A+B", "\xef\xbb\xbfKERNEL", "WAIT_FOR", "#TAG"]
# the attributes (None: no braces) and the operators that a key goes with
KEYS = {key: ([None], MATCH) for key in "ACTION DEVPATH KERNEL KERNELS SUBSYSTEM SUBSYSTEMS DRIVER DRIVERS TAGS RESULT".split()} | {
    "CONST": (["arch", "virt"], MATCH), "TEST": ([None, None, "", *MODES], MATCH), "ATTRS": (FILES, MATCH), "ATTR": (FILES, [*MATCH, "="]),
    "SYSCTL": (FILES, [*MATCH, "="]), "ENV": (PROPERTIES, [*MATCH, "=", "+="]), "SECLABEL": (["selinux", "b"], ["=", "+="]),
    "NAME": ([None], MATCH + SET), "SYMLINK": ([None], MATCH + LIST), "TAG": ([None], [*MATCH, "=", "+=", "-="]),
    "OPTIONS": ([None], ["=", "+=", ":="]), "PROGRAM": ([None], [*MATCH, "=", "+=", ":="]),
    "IMPORT": ("file program program builtin builtin db cmdline parent".split(), [*MATCH, "=", "+="]),
    "RUN": ([None, "program", "builtin"], ["=", "+=", ":="]), "OWNER": ([None], SET), "GROUP": ([None], SET), "MODE": ([None], SET),
    "LABEL": ([None], ["="]), "GOTO": ([None], ["="]),
}
ODD_ATTRIBUTES = {"TEST": NO_MODES, "ENV": RESERVED, "CONST": ["cvm", "ARCH"]} | dict.fromkeys(["ATTR", "ATTRS", "SYSCTL"], BAD_FILES)
EFFECTS = ['TAG+="d"', 'RUN+="/bin/a"', 'ENV{ID_C}="1"', 'OPTIONS+="watch"', 'GOTO="end"', 'MODE="0600"']
# keys with attributes, and values: tokens of one row may say the same, or exclude each other
ALIKE = [([key], PATTERNS) for key in ["KERNEL", "TAGS", "RESULT", "SUBSYSTEM", "ENV{A}", "NAME"]] + [
    (["DRIVERS"], ["a*", "ab*", "b*", "b?|c*", "ab[0-9]"]), (["ENV{B}"], ["a", "b", "a|b", "c"]),
    (["ATTR{a}", "ATTR{a}", "ATTRS{a}", "ATTR{%k}", "ATTR{[a/b]c}"], ["a", "b", "a ", "b ", "a|b ", "", "?*", "a* ", "b* ", "ab* "]),
    (["TEST", "TEST{}", "TEST{644}", "TEST{0644}", "TEST{ 644}"], ["a", "a", "?*"]), (["PROGRAM"], ["a", "b", "?*", "?*|a"]),
    (["IMPORT{program}", "IMPORT{builtin}", "IMPORT{db}"], ["usb_id", "usb", " usb_id %k", "/bin/usb_id", "?*"]),
    (["RUN", "RUN{program}", "RUN{builtin}"], ["kmod", "km", "kmod load a", " kmod"]), (["OPTIONS"], ["watch", "nowatch", "db_persist"]),
    (["OPTIONS"], ["link_priority=" + seven for seven in [*SEVENS, "-7"]]), (["OPTIONS"], ["static_node=a", "static_node=b"]),
    (["OPTIONS"], ["log_level=" + level for level in [*SEVENS, "debug", "debug", "reset", "6", "info", "0", "-0", "emerg"]]),
    (["MODE"], ["660", "0660", " 660", "00660", "rw"]), (["OWNER", "GROUP"], ["1", "01", "disk", "65535", "$name"]),
]
ENDS = ["\n", "\n", "\r", "\r\n", "\n\r", "\0", "\n\0", "\r\0", "\r\n\0", "\n\r\0"]
TWO_ENDS = ["\n\n", "\r\r", "\0\0", "\0\n", "\n\0\0", "\n\r\n"]
TOKEN = re.compile(r'([A-Z]+)(\{[^}"]*\})?([ \t]*)([-=!+:]+)([ \t]*[ei]*)"((?:[^"\\\n]|\\.)*)"')


def odd(chance, often):
    """Whether something is done that is done with this frequency."""
    return chance.random() < often


def pattern(chance):
    """A value that is compared."""
    if odd(chance, 0.7):
        return chance.choice(PATTERNS)
    return "".join(chance.choice(chance.choice([WORDS, GLOBS, ["|"]])) for _ in range(chance.randint(0, 5)))


def number(chance):
    """A number, or what is nearly one."""
    if odd(chance, 0.4):
        return chance.choice(SEVENS)
    return chance.choice(SIGNS) + chance.choice(DIGITS) + (chance.choice([" ", "+", "x"]) if odd(chance, 0.1) else "")


def text(chance):
    """A value with substitutions, now and then empty or with a fault."""
    value = "".join(chance.choice(chance.choice([WORDS, SUBSTITUTIONS])) for _ in range(chance.randint(1, 3)))
    if odd(chance, 0.08):
        bad, long = chance.choice(BAD_SUBSTITUTIONS), "$attr{" + "x" * chance.randint(1021, 1026) + "}"
        part = chance.choice(["%c{", "$result{"]) + number(chance) + chance.choice(["}", "+}"])
        return chance.choice(["", bad + value, value + bad, value + bad, long, part, value + part, part + value])
    return value


def option(chance):
    """A value of OPTIONS."""
    level = chance.choice([*LEVELS, number(chance), number(chance)])
    given = [chance.choice(OPTIONS), chance.choice(OPTIONS), "link_priority=" + number(chance), "log_level=" + level]
    return chance.choice(NO_OPTIONS if odd(chance, 0.1) else given)


def value_of(chance, key, attribute, operator):
    """A value that a key may have with an attribute and an operator, now and then one that it may not have."""
    if key in ("GOTO", "LABEL"):
        return chance.choice(NAMES)
    if key == "OPTIONS":
        return option(chance)
    if key == "NAME" and operator not in MATCH and odd(chance, 0.3):
        return chance.choice(["%k", "", "%k0", "$kernel"])
    if key in ("IMPORT", "RUN") and (attribute == "builtin" or attribute == "program" and odd(chance, 0.4)):
        return chance.choice(["", "", " "]) + chance.choice(NO_BUILTINS if odd(chance, 0.1) else BUILTINS) + chance.choice(["", "", " %k"])
    if key in ("OWNER", "GROUP") and odd(chance, 0.8):
        return chance.choice(OWNERS)
    if key == "MODE" and odd(chance, 0.8):
        return chance.choice(MODES if odd(chance, 0.7) else NO_MODES)
    if key in ("TEST", "PROGRAM", "IMPORT") and odd(chance, 0.08):
        return "?*"
    return pattern(chance) if operator in MATCH and key not in ("TEST", "PROGRAM", "IMPORT") else text(chance)


def escaped(chance, value):
    """A value as it is written after the prefix e, with some escapes inserted."""
    at = chance.randint(0, len(value))
    beginning, back = (half.replace("\\", "\\\\").replace('"', '\\"') for half in (value[:at], value[at:]))
    return beginning + "".join(chance.choice(BAD_ESCAPES if odd(chance, 0.05) else ESCAPES) for _ in range(chance.randint(0, 4))) + back


def quoted(chance, value, compared):
    """A value in quotes, with a prefix or without."""
    if odd(chance, 0.05):
        return chance.choice(["e", "ei", "ie"] if compared else ["e"]) + f'"{escaped(chance, value)}"'
    prefix = "i" if odd(chance, 0.05 if compared else 0.005) else chance.choice(["ee", "I", "u", "'"]) if odd(chance, 0.005) else ""
    return prefix + '"' + value.replace('"', '\\"') + '"'


def token(chance, key=None):
    """A token: key, attribute, operator and value, each of them sometimes one that does not go with the others."""
    key = key or chance.choice(list(KEYS))
    attributes, operators = KEYS[key]
    if odd(chance, 0.12):
        attributes = ["x", "", None, "program"] if odd(chance, 0.1) else ODD_ATTRIBUTES.get(key, attributes)
    attribute = chance.choice(attributes)
    operator = chance.choice(OPERATORS if odd(chance, 0.04) else operators)
    value = quoted(chance, value_of(chance, key, attribute, operator), operator in MATCH)
    before, following = (chance.choice(" \t") if odd(chance, 0.02) else "" for _ in range(2))
    shown = chance.choice(ODD_KEYS) if odd(chance, 0.005) else key
    return shown + ("" if attribute is None else f"{{{attribute}}}") + before + operator + following + value


def related(chance, other):
    """A token that differs from another in little or nothing."""
    parts = TOKEN.fullmatch(other)
    if not parts:
        return other
    key, braces, gap, operator, prefix, value = parts.groups(default="")
    what = chance.randrange(6)
    if what == 0:
        operator = {"==": "!=", "!=": "=="}.get(operator, chance.choice(["=", "+=", ":="]))
    elif what == 1:
        value = "|".join(reversed(value.split("|")))
    elif what in (2, 3) and key in KEYS:
        value = value_of(chance, key, braces[1:-1], operator).replace('"', "")
    elif what == 4 and operator in MATCH:
        prefix = "i"
    return f'{key}{braces}{gap}{operator}{prefix}"{value}"'


def alike(chance):
    """Two or three tokens that may say the same, or exclude each other."""
    heads, values = chance.choice(ALIKE)
    operators = KEYS[heads[0].split("{")[0]][1]
    if odd(chance, 0.1) and operators[:2] == MATCH:
        operators = ["==i", "==i", "!=i", "=="]
    return [f'{chance.choice(heads)}{chance.choice(operators)}"{chance.choice(values)}"' for _ in range(chance.randint(2, 3))]


def separator(chance):
    """What comes between two tokens."""
    if odd(chance, 0.95):
        return chance.choice([", ", ", ", ", ", ",\t", ",  ", ", \\\n  "])
    return "".join(chance.choice(" \t,,") for _ in range(chance.randint(0, 3)))


def rule(chance):
    """A rule without its end."""
    tokens = alike(chance) if odd(chance, 0.25) else [token(chance)]
    for _ in range(chance.randint(0, 3)):
        tokens.append(related(chance, chance.choice(tokens)) if odd(chance, 0.15) else token(chance))
    if odd(chance, 0.1):
        tokens += [token(chance, chance.choice(["PROGRAM", "RESULT"])) for _ in range(2)]
    if odd(chance, 0.7):
        tokens.append(chance.choice(EFFECTS))
    beginning = chance.choice([",", " ,", ", ", ",,", "\\\n, "]) if odd(chance, 0.015) else ""
    back = chance.choice([",", ", ", " ", " ,", "\\", "#"]) if odd(chance, 0.015) else ""
    return beginning + tokens[0] + "".join(separator(chance) + each for each in tokens[1:]) + back


def made_rules(chance, _):
    """A file of rules that are made of tokens."""
    lines = [rule(chance) for _ in range(chance.choice([1, 1, 2, 3, 5]))]
    if odd(chance, 0.1):
        lines.insert(chance.randint(0, len(lines)), chance.choice(["# a comment", "", " ", ",", " , ", "# one \\"]))
    labels = [f'LABEL="{name}"' for name in sorted(set(re.findall('GOTO="([^"]*)"', " ".join(lines))))]
    if labels and odd(chance, 0.5):
        lines[-1] += ", " + labels.pop()
    lines += labels if odd(chance, 0.9) else []
    return "\n".join(lines) + ("" if odd(chance, 0.05) else "\n")


def change_token(chance, rules):
    """Rules with one token removed, doubled, replaced or moved."""
    found = list(TOKEN.finditer(rules))
    if not found:
        return rules
    at, other = chance.choice(found), chance.choice(found)
    new = chance.choice(["", f"{at[0]}, {other[0]}", token(chance), related(chance, at[0]), f"{token(chance)}, {at[0]}"])
    return rules[:at.start()] + new + rules[at.end():]


def change_bytes(chance, rules):
    """Rules with at most three bytes removed, doubled or replaced, or with one byte more."""
    at, size = chance.randint(0, len(rules)), chance.randint(1, 3)
    new = chance.choice(["", rules[at:at + size] * 2, chance.choice('"{}\\,=+-!:$%|*?[]#ei \t\n\r\0aZ09_\x01\x7f\xc3\xff')])
    return rules[:at] + new + rules[at + (size if odd(chance, 0.5) else 0):]


def changed_rules(chance, real):
    """Some lines of real rules, with at most three changes."""
    lines = chance.choice(real).split("\n")
    first = chance.randrange(len(lines))
    rules = "\n".join(lines[first:first + chance.randint(1, 12)]) + "\n"
    for _ in range(chance.randint(0, 3)):
        rules = chance.choice([change_token, change_token, change_bytes])(chance, rules)
    return rules


def filled(chance, size):
    """A line of so many bytes: a rule with blanks, with a long value or with many tokens, or a comment."""
    begin, unit, end = chance.choice([
        ('RUN+="/bin/a"', " ", ""), ('GOTO="a"', "\t", ""), ('RING="1"', " ", ""), ("# ", "x", ""), ("", " ", ""),
        ('TAG+="', "d", '"'), ('KERNEL=="a', "|[b]", '", TAG+="d"'), ("", 'TAG+="a",', 'TAG+="b"'),
    ])
    room = size - len(begin) - len(end)
    return begin + unit * (room // len(unit)) + end + " " * (room % len(unit))


def continued(chance, end):
    """A rule over some lines, the last of which has a message; sometimes its bytes are about 16,384."""
    size = chance.choice([5461, 8192, 8192]) if odd(chance, 0.3) else 16
    pieces = chance.choice([['TAG+="a", '], [], [], ["", ""], ["# between \\", "# between"], [" \t", 'TAG+="c", '], ['RING="1", ']])
    lines = []
    for piece in ['RUN+="/bin/a", ', *pieces]:
        filling = "" if piece.startswith("#") else " " * max(0, size + chance.randint(-4, 4) - len(piece)) + "\\"
        lines.append(chance.choice(["", "", "  "]) + piece + filling)
    return end.join([*lines, 'TAG+="d"' + " " * max(0, size + chance.randint(-4, 4) - 8)])


def line(chance, end):
    """What a file of lines has before an end."""
    what = chance.randrange(24)
    if what < 2:
        return filled(chance, chance.choice([8192, 16384]) + chance.randint(-3, 2 if odd(chance, 0.4) else -1))
    if what < 8:
        return continued(chance, end)
    if what < 15:
        return chance.choice(["", "", " ", "\t ", "# a", "  # a \\", "#", 'TAG+="b"', ' TAG-="b" ', "\t\tTAG=e\"\\x41\""])
    if what == 15:
        return chance.choice([",", " ,, ", "a\\", 'RING="1"', '\xef\xbb\xbfTAG+="a"', '\x0bTAG+="a"', 'TAG+="a",', ',TAG+="a"'])
    return chance.choice(["", "", " ", "\t"]) + rule(chance).replace("\n", end) + chance.choice(["", "", " ", "\t"])


def made_lines(chance, _):
    """A file of lines with ends of all kinds: some of them continued, some long."""
    ends = [chance.choice(ENDS)] if odd(chance, 0.6) else ENDS + TWO_ENDS
    made = ""
    for _ in range(chance.randint(1, 5)):
        end = chance.choice(ends)
        made += line(chance, end) + end
    return made + (chance.choice(['TAG+="last"', 'TAG+="last" \\', "# \\", "\\", 'RING="1"', " "]) if odd(chance, 0.2) else "")


MAKERS = [made_rules, changed_rules, made_lines]
