"""The order in which the keys of one rule are looked at, whatever the order in which they are written."""
from tables.kinds.answered import answered
from tables.kinds.verified import verified

# A match of the event, one of a device, a test, a program, an import, a match of the result and two assignments; written so
# that none is in its turn.
RULE = 'RUN+="r", IMPORT{parent}="x", PROGRAM=="p", RESULT=="q", TEST=="f", ENV{B}="1", ATTRS{a}=="b", ENV{C}=="2"'

NO_ANSWER = "note r.rules:1: no answer for program: p"

# what each key of it asks for
C, A, F, P, Q, X = "E: C=2", "A: a=b", "A: f=", ["Q: p", "R: 0 q"], ["Q: p", "R: 0 z"], ["P: /p", "E: x=1"]

# a text that is too long if it occurs twice
LONG = "l" * 8193
TWICE = "$env{L}$env{L}"

ASSIGNED = ["OWNER", "GROUP", "MODE", "TAG", "SECLABEL{m}", "ENV{E}", "NAME", "SYMLINK", "ATTR{a}", "SYSCTL{s}", "RUN"]

ROWS = [
    verified("a rule may be written in any order", RULE),
    answered(
        "the rule stops at the first key that fails",
        [RULE],
        ([C, A, F, *P, *X], ["env B=1", "env C=2", "env x=1", "run program r"]),
        # no match of the event: nothing is asked
        ([A, F, *X], []),
        # no match of a device
        ([C, F, *X], ["env C=2"]),
        # no test: the program is not asked
        ([C, A, *X], ["env C=2"]),
        # no program: nothing is imported
        ([C, A, F, *X], ["env C=2", NO_ANSWER]),
        # no import: nothing is assigned
        ([C, A, F, *P], ["env C=2"]),
        # not the result: what was imported stays
        ([C, A, F, *Q, *X], ["env C=2", "env x=1"]),
        path="/p/d",
    ),
    answered(
        "tests, then programs, then imports by their types",
        [
            'IMPORT{parent}!="*", IMPORT{cmdline}!="c", IMPORT{db}!="d", IMPORT{builtin}!="kmod", IMPORT{program}!="i", '
            'IMPORT{file}!="f", PROGRAM!="p", TEST!="/t"',
        ],
        (
            [],
            [
                "note r.rules:1: test not made: /t",
                NO_ANSWER,
                "note r.rules:1: import not run: file",
                "note r.rules:1: import not run: program",
                "note r.rules:1: builtin not run: kmod",
                "note r.rules:1: import not run: db",
                "note r.rules:1: import not run: cmdline",
            ],
        ),
    ),
    answered(
        "keys of one kind in the order written",
        ['PROGRAM!="b", PROGRAM!="a", TEST!="/y", TEST!="/x"'],
        (
            [],
            [
                "note r.rules:1: test not made: /y",
                "note r.rules:1: test not made: /x",
                "note r.rules:1: no answer for program: b",
                "note r.rules:1: no answer for program: a",
            ],
        ),
    ),
    answered(
        "matches of the event in the order written",
        ['SYSCTL{a}!="1", KERNEL=="x", SYSCTL{b}!="1"'],
        ([], ["note r.rules:1: sysctl not read: a"]),
    ),
    answered(
        "assignments by their kinds",
        [", ".join(f'{key}="{TWICE}"' for key in reversed(ASSIGNED))],
        ([f"E: L={LONG}"], [f"env L={LONG}", *(f"note r.rules:1: text too long: {key}" for key in ASSIGNED)]),
    ),
    answered(
        "properties are set before links are made and attributes are written",
        ['ATTR{a}="$env{X}", SYMLINK+="l$env{X}", ENV{X}="1"'],
        ([], ["link l1", "env X=1", "attr a=1"]),
    ),
    answered(
        "assignments of one kind in the order written",
        ['ENV{A}="1", ENV{B}="$env{A}", ENV{C}="$env{D}", ENV{D}="2"'],
        (["E: C=0"], ["env A=1", "env B=1", "env D=2"]),
    ),
    answered(
        "commands of both types in the order written",
        ['RUN{builtin}+="b", RUN+="a", RUN{builtin}+="c"'],
        ([], ["run builtin b", "run program a", "run builtin c"]),
    ),
]
