"""What `verify` says about rules that have a meaning, but are not written well."""
from tables.kinds.answered import answered
from tables.kinds.verified import verified
from tables.kinds.row import Row


def comma(key=""):
    """A gap does not have exactly one comma."""
    return f"S1 one comma expected: {key}" if key else "S1 one comma expected"


def blank(key):
    """A gap ends in a comma."""
    return f"S2 blank after a comma expected: {key}"


def read_as(key):
    """An operator is read as `=`."""
    return f"S3 operator read as =: {key}"


UNUSED = 'LABEL="x",TAG:="t",\n'

ROWS = [
    verified(
        "gaps between tokens",
        'KERNEL=="a", TAG="t"',
        'KERNEL=="a" , TAG="t"',
        'KERNEL=="a"\t,\t \tTAG="t"',
        ('KERNEL=="a",TAG="t"', blank("TAG")),
        ('KERNEL=="a" ,TAG="t"', blank("TAG")),
        ('KERNEL=="a" TAG="t"', comma("TAG")),
        ('KERNEL=="a"TAG="t"', comma("TAG")),
        ('KERNEL=="a",, TAG="t"', comma("TAG")),
        ('KERNEL=="a", , TAG="t"', comma("TAG")),
        ('KERNEL=="a",,TAG="t"', comma("TAG"), blank("TAG")),
        ('KERNEL=="a", ,TAG="t"', comma("TAG"), blank("TAG")),
    ),
    verified(
        "gaps at the end of a line",
        'KERNEL=="a" \t',
        ('KERNEL=="a",', comma()),
        ('KERNEL=="a" , ', comma()),
        ('KERNEL=="a",,', comma()),
        ('KERNEL=="a", ENV{B}="1",', comma()),
    ),
    verified(
        "messages about one line are sorted by place",
        ('ENV{A}:="1",TAG+="t"', read_as("ENV"), blank("TAG")),
        ('KERNEL=="a"ENV{B}="1" , ,TAG="t"', comma("ENV"), comma("TAG"), blank("TAG")),
        (
            'TAG:="a"MODE+="b",ENV{C}:="c",',
            read_as("TAG"),
            comma("MODE"),
            read_as("MODE"),
            blank("ENV"),
            read_as("ENV"),
            comma(),
        ),
        (
            'SYMLINK=="1" SYMLINK!="2",SYMLINK +="3"  SYMLINK-= "4", SYMLINK := "5",SYMLINK="6",',
            comma("SYMLINK"),
            blank("SYMLINK"),
            comma("SYMLINK"),
            blank("SYMLINK"),
            comma(),
        ),
    ),
    verified(
        "operators that are read as =, and operators that are not",
        ('ENV{A}:="1"', read_as("ENV")),
        'ENV{A}+="1"',
        'IMPORT{db}+="x"',
        'PROGRAM:="x"',
        ('MODE+="1"', read_as("MODE")),
        'MODE:="1"',
    ),
    # names that are given twice come before points of style, and the label that no jump reaches comes after them
    verified(
        "several labels and jumps in one line",
        'GOTO="a"',
        ('LABEL="a", LABEL="b", GOTO="c", GOTO="d"', "V8 label or goto given twice: b", "V8 label or goto given twice: d"),
        'LABEL="c"',
        (
            'LABEL="e",LABEL="f" GOTO="g"',
            "V7 no later label: g",
            "V8 label or goto given twice: f",
            blank("LABEL"),
            comma("GOTO"),
            "S4 label unused: e",
        ),
        (
            'GOTO="h", GOTO="i", LABEL="h", LABEL="i"',
            "V7 no later label: h",
            "V8 label or goto given twice: i",
            "V8 label or goto given twice: i",
            "S4 label unused: h",
        ),
    ),
    answered(
        "the first label and the first jump of a rule count, and the rule is kept",
        [
            'GOTO="a"',
            'ENV{N}="1"',
            'LABEL="b", ENV{B}="1"',
            'LABEL="a", LABEL="b", GOTO="c", GOTO="d", ENV{A}="1"',
            'ENV{M}="1"',
            'LABEL="d", ENV{D}="1"',
            'LABEL="c", ENV{C}="1"',
        ],
        ([], ["env A=1", "env C=1"]),
        messages="r.rules:4: V8 label or goto given twice: b\nr.rules:4: V8 label or goto given twice: d\n",
    ),
    answered(
        "faults of style do not change the meaning",
        ['ENV{A}:="1",ENV{B}="2"ENV{C}="3" , ,'],
        ([], ["env A=1", "env B=2", "env C=3"]),
    ),
    Row(
        "messages about style may be left out",
        "verify --no-style r.rules",
        {"r.rules": UNUSED},
        output="1 files checked, 1 good, 0 bad\n",
    ),
    Row(
        "--no-style does not leave out other messages",
        "verify --no-style r.rules",
        {"r.rules": UNUSED + 'GOTO="y",TAG="t"\n'},
        output="1 files checked, 0 good, 1 bad\n",
        messages="r.rules:2: V7 no later label: y\n",
        status=1,
    ),
    Row(
        "the summary may be left out",
        "verify --no-summary r.rules",
        {"r.rules": UNUSED},
        messages="".join(f"r.rules:1: {said}\n" for said in [blank("TAG"), read_as("TAG"), comma(), "S4 label unused: x"]),
        status=1,
    ),
    Row("messages about style and the summary may be left out", "verify --no-summary --no-style r.rules", {"r.rules": UNUSED}),
]
