"""Faults of a rule: the one message of its line, which of several faults it reports, and its word."""
from tables.kinds.answered import answered
from tables.kinds.verified import verified
from tables.kinds.row import Row

UNUSED = "S4 label unused: {}"

ROWS = [
    verified(
        "a message for each fault of a token",
        ('KERNEL=="a" FOO="b"', "V2 unknown key: FOO"),
        ('SUBSYSTEM=="x",ACTION-="y"', "V3 operator not allowed: ACTION"),
        ('ENV{A}:="1",TAG+="t"', "S3 operator read as =: ENV", "S2 blank after a comma expected: TAG"),
        ('OPTIONS="link_priority=x"', "V5 bad value: link_priority=x"),
        ('KERNEL=="[[:alpha:]]"', "V11 set not supported: [[:alpha:]]"),
        ('ENV{B}="$nope"', "V6 bad substitution: $nope"),
        ('ATTR=="x"', "V4 attribute missing or not allowed: ATTR"),
    ),
    verified(
        "only the first faulty token of a line is reported",
        ('FOO="b", KERNEL=="sd*', "V2 unknown key: FOO"),
        ('KERNEL=="a", KERNEL=="sd*', 'V1 bad syntax: KERNEL=="sd*'),
        ('KERNEL=="[[:x:]]", FOO="b"', "V11 set not supported: [[:x:]]"),
        ('OWNER="$nope", KERNEL==x"a"', "V6 bad substitution: $nope"),
        ('KERNEL==x"a", FOO="b"', "V10 bad quote prefix: x"),
        # neither a point of style before it, nor a name that is given twice
        ('ENV{A}:="1",TAG+="t" , FOO="b"', "V2 unknown key: FOO"),
        ('LABEL="a", LABEL="b", GOTO="c", FOO="b"', "V2 unknown key: FOO"),
    ),
    verified(
        "only the first fault of a token is reported",
        # not a token, letters before its quote, its key, its attribute, its operator, its value
        ('FOO{}-=x"[[:x:]]', "V10 bad quote prefix: x"),
        ('FOO{}-="[[:x:]]"', "V2 unknown key: FOO"),
        ('ATTR-="$nope"', "V4 attribute missing or not allowed: ATTR"),
        ('ATTR-="x"', "V4 attribute missing or not allowed: ATTR"),
        ('KERNEL-="[[:x:]]"', "V3 operator not allowed: KERNEL"),
        ('TEST-="$nope"', "V3 operator not allowed: TEST"),
        ('IMPORT{x}==i"$nope"', "V4 attribute missing or not allowed: IMPORT"),
        # letters that ignore case are refused after `-=` before the operator is
        ('TEST-=i"x"', "V10 bad quote prefix: i"),
    ),
    verified(
        "the prefix i is refused for TEST, PROGRAM and IMPORT",
        ('TEST==i"x"', "V5 bad value: x"),
        ('TEST!=i"x"', "V5 bad value: x"),
        ('PROGRAM==i"x"', "V5 bad value: x"),
        *((f'IMPORT{{{name}}}==i"x"', "V5 bad value: x") for name in ["program", "builtin", "file", "parent", "cmdline", "db"]),
        # this is checked before what the value says
        ('IMPORT{parent}==i"[[:x:]]"', "V5 bad value: [[:x:]]"),
        ('TEST==ie"$nope\\x41"', "V5 bad value: $nopeA"),
        ('PROGRAM!=ei"\\x41"', "V5 bad value: A"),
        'RESULT==i"x"',
        'NAME==i"x", SYMLINK!=i"x", TAG==i"x", ATTR{a}==i"x", CONST{a}==i"x"',
    ),
    verified(
        "a message shows a value without its escapes",
        ('KERNEL=="[[:x:]]\\""', 'V11 set not supported: [[:x:]]"'),
        ('KERNEL==e"[[:x:]]\\x41\\\\"', "V11 set not supported: [[:x:]]A\\x5C"),
        ('OWNER=e"\\x24nope"', "V6 bad substitution: $nope"),
        ('OPTIONS="0123456789abcdef0123456789abcdef0123"', "V5 bad value: 0123456789abcdef0123456789abcdef"),
    ),
    verified(
        "LABEL and GOTO need a name",
        ('LABEL=""', "V5 bad value"),
        ('GOTO=""', "V5 bad value"),
        ('LABEL=e""', "V5 bad value"),
        ('LABEL=" "', UNUSED.format(" ")),
    ),
    verified(
        "known options",
        *(
            f'OPTIONS{operator}"{option}"'
            for operator in ["=", "+=", ":="]
            for option in ["string_escape=none", "string_escape=replace", "watch", "nowatch", "db_persist"]
        ),
        *(f'OPTIONS="{option}"' for option in ["static_node=x", "static_node=", "log_level=debug", "log_level="]),
        *(
            f'OPTIONS="link_priority={number}"'
            for number in ["0", "-0", "+0", "7", "-2147483648", "+02147483647", "2147483647"]
        ),
    ),
    verified(
        "unknown options",
        *(
            (f'OPTIONS="{option}"', f"V5 bad value: {option[:32]}" if option else "V5 bad value")
            for option in [
                "", "watching", "watch ", "Watch", "string_escape", "string_escape=", "string_escape=None", "db_persist=",
                "static_node", "log_level", "link_priority", "link_priority=", "link_priority=x", "link_priority=-",
                "link_priority=+",
                "link_priority=--1", "link_priority=1x", "link_priority= 1", "link_priority=2147483648",
                "link_priority=-2147483649", "link_priority=4294967296", "link_priority=18446744073709551616", "watch,nowatch",
            ]
        ),
    ),
    answered("the least priority", ['OPTIONS="link_priority=-2147483648"'], ([], ["priority -2147483648"])),
    answered("the greatest priority", ['OPTIONS="link_priority=+02147483647"'], ([], ["priority 2147483647"])),
    answered("the option watch", ['OPTIONS+="watch"'], ([], ["watch"])),
    answered("the last of watch and nowatch counts", ['OPTIONS+="watch"', 'OPTIONS+="nowatch"'], ([], ["nowatch"])),
    answered("options that change nothing", ['OPTIONS="log_level=", OPTIONS+="static_node=x"'], ([], [])),
    answered("a priority of 0 is reported", ['OPTIONS="link_priority=0"'], ([], ["priority 0"])),
    answered(
        "only the rule with a fault is dropped",
        ['ENV{A}="1"', 'ENV{B}="1", OWNER="$nope"', 'ENV{C}="1", OWNER="[[:x:]]"'],
        ([], ["owner [[:x:]]", "env A=1", "env C=1"]),
        messages="r.rules:2: V6 bad substitution: $nope\n",
    ),
    Row(
        "files with messages are counted",
        "verify a.rules b.rules c.rules",
        {"a.rules": "A\nB\n", "b.rules": 'TAG="x"\n', "c.rules": 'TAG="x",\n'},
        output="3 files checked, 1 good, 2 bad\n",
        messages="a.rules:1: V1 bad syntax: A\na.rules:2: V1 bad syntax: B\nc.rules:1: S1 one comma expected\n",
        status=1,
    ),
]
