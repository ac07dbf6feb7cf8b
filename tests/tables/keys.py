"""Keys of rules: which operators and attributes each may have, and how its value is read."""
from tables.kinds.answered import answered
from tables.kinds.verified import verified

OPERATORS = ["==", "!=", "=", "+=", "-=", ":="]

MATCH = "== !="
ACT = "== != = += :="

# keys; an attribute that they may have, and whether they need it, may have it or have none; the operators that they take;
# those of them that are read as `=`; how a value is read that is matched, and one that is assigned
KEYS = [
    ("ACTION DEVPATH KERNEL SUBSYSTEM DRIVER KERNELS SUBSYSTEMS DRIVERS TAGS RESULT", "", "none", MATCH, "", "choice", ""),
    ("ATTRS CONST", "{a}", "needed", MATCH, "", "choice", ""),
    ("TEST", "{7}", "may", MATCH, "", "template", ""),
    ("PROGRAM", "", "none", ACT, "", "template", "template"),
    ("IMPORT", "{program}", "needed", ACT, "", "template", "template"),
    ("IMPORT", "{builtin}", "needed", ACT, "", "template", "template"),
    ("IMPORT", "{file}", "needed", ACT, "", "template", "template"),
    ("IMPORT", "{parent}", "needed", ACT, "", "choice", "choice"),
    ("IMPORT", "{cmdline}", "needed", ACT, "", "text", "text"),
    ("IMPORT", "{db}", "needed", ACT, "", "text", "text"),
    ("NAME", "", "none", "== != = += :=", "+=", "choice", "template"),
    ("SYMLINK", "", "none", "== != = += -= :=", "", "choice", "template"),
    ("TAG", "", "none", "== != = += -= :=", ":=", "choice", "template"),
    ("ATTR SYSCTL", "{a}", "needed", "== != = += :=", "+= :=", "choice", "template"),
    ("ENV", "{a}", "needed", "== != = += :=", ":=", "choice", "template"),
    ("OWNER GROUP MODE", "", "none", "= += :=", "+=", "", "template"),
    ("SECLABEL", "{a}", "needed", "= += :=", ":=", "", "template"),
    ("RUN", "{program}", "may", "= += :=", "", "", "template"),
    ("RUN", "{builtin}", "may", "= += :=", "", "", "template"),
    ("OPTIONS", "", "none", "= += :=", "", "", "option"),
]

# each way in which a value is read: a value that it accepts, and what it says about a class and an unknown substitution
VALUES = {
    "choice": ("v", "V11 set not supported: [[:x:]]", None),
    "template": ("v", None, "V6 bad substitution: $nope"),
    "text": ("v", None, None),
    "option": ("watch", "V5 bad value: [[:x:]]", "V5 bad value: $nope"),
}

# Types of IMPORT that leave a note.
NOT_RUN = ["program", "file", "cmdline", "db"]

# Each key once, as the table has it.
EACH = [(key, *row) for keys, *row in KEYS for key in keys.split()]


def said(line, *messages):
    """A line with its messages."""
    return (line, *(message for message in messages if message))


def operators_of(key, attribute, taken, as_assign, matched, assigned):
    """A key with each operator."""
    lines = []
    for operator in OPERATORS:
        value = VALUES[matched if operator in MATCH.split() and matched else assigned or matched][0]
        message = None
        if operator not in taken.split():
            message = f"V3 operator not allowed: {key}"
        elif operator in as_assign.split():
            message = f"S3 operator read as =: {key}"
        lines.append(said(f'{key}{attribute}{operator}"{value}"', message))
    return lines


def attributes_of(key, attribute, need, taken, value):
    """A key with its attribute, without one, with an empty one, and, where it takes none, with one."""
    wrong = f"V4 attribute missing or not allowed: {key}"
    operator = taken.split()[0]
    tail = f'{operator}"{value}"'
    return [
        said(f"{key}{attribute}{tail}"),
        said(f"{key}{tail}", wrong if need == "needed" else None),
        said(f"{key}{{}}{tail}", wrong),
        said(f"{key}{{x y}}{tail}", wrong if need == "none" or key in ("TEST", "RUN", "IMPORT") else None),
        # a wrong attribute is reported before a wrong operator
        said(f'{key}{{}}-="{value}"', wrong),
    ]


def values_of(key, attribute, taken, matched, assigned):
    """A key with a class and with an unknown substitution, matched and assigned."""
    lines = []
    for operators, way in [(["==", "!="], matched), (["=", "+=", ":="], assigned)]:
        operator = next((each for each in operators if each in taken.split()), None)
        if operator:
            _, of_class, of_substitution = VALUES[way]
            lines.append(said(f'{key}{attribute}{operator}"[[:x:]]"', of_class))
            lines.append(said(f'{key}{attribute}{operator}"$nope"', of_substitution))
    return lines


ROWS = [
    *(
        verified(f"{key}{attribute} with each operator", *operators_of(key, attribute, taken, as_assign, matched, assigned))
        for key, attribute, _, taken, as_assign, matched, assigned in EACH
    ),
    *(
        verified(
            f"{key}{attribute} with and without an attribute",
            *attributes_of(key, attribute, need, taken, VALUES[matched or assigned][0]),
        )
        for key, attribute, need, taken, _, matched, assigned in EACH
    ),
    *(
        verified(f"how values of {key}{attribute} are read", *values_of(key, attribute, taken, matched, assigned))
        for key, attribute, _, taken, _, matched, assigned in EACH
    ),
    verified(
        "LABEL and GOTO with each operator",
        'GOTO="[[:x:]]$nope"',
        *(
            (f'{key}{operator}"x"', f"V3 operator not allowed: {key}")
            for key in ("LABEL", "GOTO")
            for operator in ["==", "!=", "+=", "-=", ":="]
        ),
        ('LABEL{}="x"', "V4 attribute missing or not allowed: LABEL"),
        ('GOTO{x}="x"', "V4 attribute missing or not allowed: GOTO"),
        'LABEL="[[:x:]]$nope"',
    ),
    verified(
        "names that no key has",
        ('FOO="b"', "V2 unknown key: FOO"),
        ('kernel=="b"', "V2 unknown key: kernel"),
        ('KERNELSS=="b"', "V2 unknown key: KERNELSS"),
        ('KERNE=="b"', "V2 unknown key: KERNE"),
        ('_=="b"', "V2 unknown key: _"),
        ('1=="b"', "V2 unknown key: 1"),
        ('KEY_KEY_KEY_KEY_KEY_KEY_KEY_KEY_KEY="b"', "V2 unknown key: KEY_KEY_KEY_KEY_KEY_KEY_KEY_KEY_"),
        # an unknown key is reported before its attribute and its operator
        ('FOO{}-="b"', "V2 unknown key: FOO"),
    ),
    verified(
        "unknown types of IMPORT and RUN",
        *(
            (f'{key}{{{name}}}="x"', f"V4 attribute missing or not allowed: {key}")
            for key, names in [("IMPORT", ["kernel", "DB", "dbx", "parents"]), ("RUN", ["file", "db", "Program", "builtins"])]
            for name in names
        ),
    ),
    verified(
        "masks of TEST",
        *(f'TEST{{{mask}}}=="x"' for mask in ["0", "7", "00777", "77777"]),
        *(
            (f'TEST{{{mask}}}=="x"', "V4 attribute missing or not allowed: TEST")
            for mask in ["000777", "8", "0x7", "-1", "7 ", ""]
        ),
    ),
    answered(
        "TEST with a mask is not made",
        ['TEST{00777}=="f", TAG="mode"', 'TEST=="f", TAG+="any"'],
        (["A: f="], ["tag any", "note r.rules:1: test not made: f"]),
    ),
    answered(
        "types of IMPORT in notes",
        [f'IMPORT{{{name}}}!="x"' for name in NOT_RUN],
        ([], [f"note r.rules:{line}: import not run: {name}" for line, name in enumerate(NOT_RUN, 1)]),
    ),
    answered(
        "types of RUN",
        ['RUN{builtin}+="b"', 'RUN+="a"', 'RUN{program}+="c"'],
        ([], ["run builtin b", "run program a", "run program c"]),
    ),
    answered("a label is reported with its module", ['SECLABEL{selinux}="u"'], ([], ["label selinux=u"])),
    # the operators that are read as another one
    answered("MODE+= is read as =", ['MODE+="1"', 'MODE+="2"'], ([], ["mode 2"])),
    answered("MODE:= is final", ['MODE:="1"', 'MODE="2"'], ([], ["mode 1"])),
    answered("ENV:= is read as =, and not final", ['ENV{A}:="1"', 'ENV{A}="2"'], ([], ["env A=2"])),
    answered("TAG:= is read as =, and not final", ['TAG:="a"', 'TAG+="b"'], (["G: x"], ["tag a", "tag b"])),
    answered(
        "PROGRAM and IMPORT with assigning operators",
        ['PROGRAM+="p", TAG="p"', 'IMPORT{builtin}:="kmod"', 'IMPORT{parent}="*", TAG+="i"'],
        (["Q: p", "R: 0"], ["tag p", "note r.rules:2: builtin not run: kmod"]),
    ),
    answered(
        "PROGRAM!= holds if the program fails",
        ['PROGRAM!="p", TAG="p"', 'PROGRAM!="q", TAG="q"'],
        (["Q: p", "R: 0", "Q: q", "R: 1"], ["tag q"]),
    ),
    # what a key is for its rule
    answered("KERNEL!= compares the event", ['KERNEL!="sd*", TAG="other"'], ([], ["tag other"])),
    answered(
        "NAME!= compares the name",
        ['NAME!="lan", TAG="other"', 'NAME="lan"', 'NAME!="lan", TAG+="again"'],
        (["U: net"], ["name lan", "tag other", "env SUBSYSTEM=net"]),
    ),
    answered(
        "TAGS compares one device of the chain",
        ['TAGS=="seat", TAG+="found"'],
        (["P: /p", "G: seat"], ["tag found"]),
        (["P: /p", "G: seats"], []),
        path="/p/d",
    ),
    answered(
        "RESULT compares the result of a program",
        ['PROGRAM=="p"', 'RESULT=="1", TAG="one"'],
        (["Q: p", "R: 0 1"], ["tag one"]),
        (["Q: p", "R: 0 2"], []),
    ),
    answered(
        "IMPORT{parent}= imports",
        ['IMPORT{parent}="ID_*"'],
        (["P: /p", "E: ID_A=1", "E: X=2"], ["env ID_A=1"]),
        path="/p/d",
    ),
    answered("GOTO is a jump", ['GOTO="end"', 'TAG="passed"', 'LABEL="end"'], ([], [])),
]
