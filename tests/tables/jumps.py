"""Labels and jumps: which jump is lost, which label is unused, and where a jump goes on."""
from tables.kinds.answered import answered
from tables.kinds.verified import verified
from tables.kinds.row import Row


def lost(name):
    """A jump has no later label."""
    return f"V7 no later label: {name}"


def unused(name):
    """No jump ends at a label."""
    return f"S4 label unused: {name}"


# A jump past a label of its name that is before it.
LABELS = ['LABEL="x", ENV{A}="1"', 'GOTO="x"', 'ENV{B}="1"', 'LABEL="x", ENV{C}="1"']

# A jump to a jump, and between them a label that occurs twice, to which no jump goes.
JUMP_BY_JUMP = ['GOTO="e"', 'LABEL="m", ENV{A}="1"', 'LABEL="e", GOTO="f"', 'LABEL="m", ENV{B}="1"', 'LABEL="f", ENV{C}="1"']

NAMES = [f"n{number}" for number in range(1000)]

# A thousand jumps over one another, and the case that the first label is reached.
THOUSAND = [
    f'KERNEL=="{name}", GOTO="{name}"' for name in NAMES
] + [f'LABEL="{name}", ENV{{L}}=="", ENV{{L}}="{name}"' for name in NAMES]

ROWS = [
    verified("a jump goes to a later label", (LABELS[0], unused("x")), *LABELS[1:]),
    answered("a jump continues at the next label of its name", LABELS, ([], ["env A=1", "env C=1"])),
    verified("a jump without a label is dropped", ('GOTO="y"', lost("y"))),
    verified("a jump without a later label is dropped", ('LABEL="y"', unused("y")), ('GOTO="y"', lost("y"))),
    verified("a jump does not end at its own rule", ('LABEL="x", GOTO="x"', lost("x"), unused("x"))),
    verified("names are case-sensitive", ('GOTO="X"', lost("X")), ('LABEL="x"', unused("x"))),
    verified("names are not patterns", ('GOTO="x*"', lost("x*")), ('LABEL="xy"', unused("xy"))),
    answered(
        "only the jump is dropped, not its rule",
        ['GOTO="y", ENV{D}="1"', 'ENV{E}="1"'],
        ([], ["env D=1", "env E=1"]),
        messages=f"r.rules:1: {lost('y')}\n",
    ),
    verified(
        "each jump takes the next label",
        'GOTO="x"',
        'LABEL="x"',
        'GOTO="x"',
        'LABEL="x"',
        ('LABEL="x"', unused("x")),
    ),
    verified("two jumps may end at one label", 'GOTO="x"', 'GOTO="x"', 'LABEL="x"', ('LABEL="x"', unused("x"))),
    verified("a rule may have a jump and a label of the same name", 'GOTO="x"', 'LABEL="x", GOTO="x"', 'LABEL="x"'),
    answered(
        "jumps from label to label of one name",
        ['GOTO="x"', 'ENV{A}="1"', 'LABEL="x", GOTO="x", ENV{B}="1"', 'ENV{C}="1"', 'LABEL="x", ENV{D}="1"'],
        ([], ["env B=1", "env D=1"]),
    ),
    verified("a jump that is never reached uses its label", 'GOTO="e"', 'GOTO="m"', 'LABEL="m"', 'LABEL="e"'),
    verified("a dropped jump uses no label", ('LABEL="x"', unused("x")), ('GOTO="x", TAG="a"', lost("x"))),
    verified(
        "a dropped line has no label and no jump",
        ('GOTO="x"', lost("x")),
        ('LABEL="x", FOO="1"', "V2 unknown key: FOO"),
        ('GOTO="y", FOO="1"', "V2 unknown key: FOO"),
        ('LABEL="y"', unused("y")),
    ),
    verified(
        "labels that are given twice",
        JUMP_BY_JUMP[0],
        (JUMP_BY_JUMP[1], unused("m")),
        JUMP_BY_JUMP[2],
        (JUMP_BY_JUMP[3], unused("m")),
        JUMP_BY_JUMP[4],
    ),
    answered("a jump to a jump", JUMP_BY_JUMP, ([], ["env C=1"])),
    answered(
        "a rule that fails does not jump",
        ['KERNEL=="x", GOTO="e"', 'ENV{A}="1"', 'LABEL="e"'],
        ([], ["env A=1"]),
    ),
    answered(
        "a rule jumps after its assignments",
        ['GOTO="e", ENV{A}="1"', 'ENV{B}="1"', 'LABEL="e", ENV{C}="1"'],
        ([], ["env A=1", "env C=1"]),
    ),
    Row(
        "a jump stays within its file",
        "verify a.rules b.rules",
        {"a.rules": 'GOTO="x"\n', "b.rules": 'LABEL="x"\n'},
        output="2 files checked, 0 good, 2 bad\n",
        messages=f"a.rules:1: {lost('x')}\nb.rules:1: {unused('x')}\n",
        status=1,
    ),
    verified("a thousand nested jumps", *THOUSAND),
    answered("one of a thousand jumps", THOUSAND, ([], ["env L=n700"]), path="/n700"),
]
