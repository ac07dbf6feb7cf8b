"""`events --why`: what is reported about TEST, PROGRAM and IMPORT: what each looked at, whether it is answered, what it set.

What is wanted follows the reference, docs/behaviour.md, and udev(7); nothing here was taken from the program.
"""
from tables.kinds.why import LONG, SHOWN, TWICE, cut, of, why

# The word of a note has at most so many bytes.
WORD = 32


def note(number, text, word):
    """A note about the rule in one line."""
    return f"note r.rules:{number}: {text}: {word[:WORD]}"


# Tests: of an attribute that exists, of others, and those that a dry run does not make.
TESTS = [
    why(
        "TEST of attributes",
        ['TEST=="model"', 'TEST!="model", TAG+="never"', 'TEST=="sub/$kernel", TAG+="never"', 'TEST!="sub/$kernel"', 'TEST=="%k/a"'],
        ["A: model=Disk", "A: p/a="],
        [],
        of(1, 'TEST=="model": holds, model', "reached its end"),
        of(2, 'TEST!="model": fails, model', "stops there"),
        of(3, 'TEST=="sub/$kernel": fails, sub/p', "stops there"),
        of(4, 'TEST!="sub/$kernel": holds, sub/p', "reached its end"),
        of(5, 'TEST=="%k/a": holds, p/a', "reached its end"),
        path="/devices/p",
    ),
    why(
        "TEST that is not made",
        ['TEST=="/run/%k"', 'TEST!="/run/%k"', 'TEST{0644}=="model"', 'TEST{0644}!="model"'],
        ["A: model=Disk"],
        [
            note(1, "test not made", "/run/p"), note(2, "test not made", "/run/p"),
            note(3, "test not made", "model"), note(4, "test not made", "model"),
        ],
        of(1, 'TEST=="/run/%k": fails, not made: /run/p', "stops there"),
        of(2, 'TEST!="/run/%k": holds, not made: /run/p', "reached its end"),
        of(3, 'TEST{0644}=="model": fails, not made: model', "stops there"),
        of(4, 'TEST{0644}!="model": holds, not made: model', "reached its end"),
        path="/devices/p",
    ),
    why(
        "paths of TEST that are empty, escaped, cut or too long",
        ['TEST=="$env{.NONE}"', 'TEST=="$env{.ODD}"', 'TEST=="$env{.P}"', f'TEST=="{TWICE}"', f'TEST!="{TWICE}"'],
        ["E: .ODD=a\tb", "E: .P=" + "p" * 300, LONG],
        [note(4, "text too long", "TEST"), note(5, "text too long", "TEST")],
        of(1, 'TEST=="$env{.NONE}": fails, ""', "stops there"),
        of(2, 'TEST=="$env{.ODD}": fails, a\\x09b', "stops there"),
        of(3, f'TEST=="$env{{.P}}": fails, {cut("p" * 300)}', "stops there"),
        of(4, f'TEST=="{TWICE}": fails, too long', "stops there"),
        of(5, f'TEST!="{TWICE}": holds, too long', "reached its end"),
    ),
]

# a command that is longer than the word of a note, and one that is longer than what is shown of other texts
ASKING = "/bin/ask --for-a-text-of-over-32-bytes p"
LONG_COMMAND = "/bin/x " + "c" * 300
ANSWERS = ["Q: /bin/id p", "R: 0 ab cd", "Q: /bin/no p", "R: 1 oops", "Q: /bin/quiet", "R: 0"]

PROGRAMS = [
    why(
        "programs with an answer",
        [
            'PROGRAM=="/bin/id %k", ENV{A}="%c"', 'PROGRAM=="/bin/no $kernel", TAG+="never"', 'PROGRAM!="/bin/no $kernel"',
            'PROGRAM=="/bin/quiet"', 'PROGRAM!="/bin/id p", TAG+="never"',
        ],
        ANSWERS,
        ["env A=ab cd"],
        of(1, 'PROGRAM=="/bin/id %k": holds, /bin/id p answers 0 ab cd', "reached its end: env A=ab cd set"),
        of(2, 'PROGRAM=="/bin/no $kernel": fails, /bin/no p answers 1 oops', "stops there"),
        of(3, 'PROGRAM!="/bin/no $kernel": holds, /bin/no p answers 1 oops', "reached its end"),
        of(4, 'PROGRAM=="/bin/quiet": holds, /bin/quiet answers 0', "reached its end"),
        of(5, 'PROGRAM!="/bin/id p": fails, /bin/id p answers 0 ab cd', "stops there"),
        path="/devices/p",
    ),
    why(
        "operators that are read as ==",
        ['PROGRAM="/bin/id %k"', 'PROGRAM+="/bin/id %k"', 'PROGRAM:="/bin/id %k"'],
        ANSWERS,
        [],
        *(of(at, 'PROGRAM=="/bin/id %k": holds, /bin/id p answers 0 ab cd', "reached its end") for at in (1, 2, 3)),
        path="/devices/p",
    ),
    why(
        "a command without an answer is shown in full",
        ['PROGRAM=="/bin/ask --for-a-text-of-over-32-bytes %k", TAG+="never"', 'PROGRAM!="/bin/none"'],
        ["A: ask=1"],
        [note(1, "no answer for program", ASKING), note(2, "no answer for program", "/bin/none")],
        of(1, f'PROGRAM=="/bin/ask --for-a-text-of-over-32-bytes %k": fails, no answer for {ASKING}', "stops there"),
        of(2, 'PROGRAM!="/bin/none": holds, no answer for /bin/none', "reached its end"),
        path="/devices/p",
    ),
    why(
        "an answer is found by its whole command",
        ['PROGRAM=="/bin/ask --for-a-text-of-over-32-bytes %k"'],
        ["Q: " + ASKING, "R: 255 no"],
        [],
        of(1, f'PROGRAM=="/bin/ask --for-a-text-of-over-32-bytes %k": fails, {ASKING} answers 255 no', "stops there"),
        path="/devices/p",
    ),
    why(
        "a command of over 200 bytes is shown in full, its value in the rule is cut",
        ['PROGRAM=="$env{.C}"', f'PROGRAM=="{LONG_COMMAND}"'],
        ["E: .C=" + LONG_COMMAND, "Q: " + LONG_COMMAND, "R: 0 " + "t" * (SHOWN + 1)],
        [],
        of(1, f'PROGRAM=="$env{{.C}}": holds, {LONG_COMMAND} answers 0 {cut("t" * (SHOWN + 1))}', "reached its end"),
        of(2, f'PROGRAM=="{cut(LONG_COMMAND)}": holds, {LONG_COMMAND} answers 0 {cut("t" * (SHOWN + 1))}', "reached its end"),
    ),
    why(
        "a long command without an answer is shown in full",
        ['PROGRAM=="$env{.C}"'],
        ["E: .C=" + LONG_COMMAND],
        [note(1, "no answer for program", LONG_COMMAND)],
        of(1, f'PROGRAM=="$env{{.C}}": fails, no answer for {LONG_COMMAND}', "stops there"),
    ),
    why(
        "commands and answers are escaped",
        ['PROGRAM=="a\\b"', 'PROGRAM=="c\\d"'],
        ["Q: a\\b", "R: 0 x\ty"],
        [note(2, "no answer for program", "c\\x5Cd")],
        of(1, 'PROGRAM=="a\\x5Cb": holds, a\\x5Cb answers 0 x\\x09y', "reached its end"),
        of(2, 'PROGRAM=="c\\x5Cd": fails, no answer for c\\x5Cd', "stops there"),
    ),
    why(
        "a command that is too long",
        [f'PROGRAM=="{TWICE}"', f'PROGRAM!="{TWICE}"'],
        [LONG],
        [note(1, "text too long", "PROGRAM"), note(2, "text too long", "PROGRAM")],
        of(1, f'PROGRAM=="{TWICE}": fails, too long', "stops there"),
        of(2, f'PROGRAM!="{TWICE}": holds, too long', "reached its end"),
    ),
]

PARENT = ["P: /devices/h", "E: ID_A=1", "E: X=2"]
# existing properties keep their places: X of the device comes before the new ones
ODD_PARENT = ["E: X=0", "P: /devices/h", "E: N=", "E: X=1", "E: .P=p", "E: L=" + "l" * 300]

IMPORTS = [
    why(
        "properties of the parent",
        ['IMPORT{parent}=="ID_*"', 'IMPORT{parent}="ID_*"', 'IMPORT{parent}+="none*"', 'IMPORT{parent}!="X", TAG+="never"'],
        PARENT,
        ["env ID_A=1", "env X=2"],
        of(1, 'IMPORT{parent}=="ID_*": holds, sets ID_A=1', "reached its end"),
        of(2, 'IMPORT{parent}=="ID_*": holds, sets nothing', "reached its end"),
        of(3, 'IMPORT{parent}=="none*": holds, sets nothing', "reached its end"),
        of(4, 'IMPORT{parent}!="X": fails, sets X=2', "stops there"),
        path="/devices/h/p",
    ),
    why(
        "properties of the parent, without a parent",
        ['IMPORT{parent}=="*", TAG+="never"', 'IMPORT{parent}!="*"'],
        ["E: X=0"],
        ["env X=0"],
        of(1, 'IMPORT{parent}=="*": fails, sets nothing', "stops there"),
        of(2, 'IMPORT{parent}!="*": holds, sets nothing', "reached its end"),
    ),
    why(
        "imported properties: in their order, also hidden ones, an empty value as two quotes, a long value cut",
        ['IMPORT{parent}="?*"'],
        ODD_PARENT,
        ["env X=1", "env N=", "env L=" + "l" * 300],
        of(1, f'IMPORT{{parent}}=="?*": holds, sets X=1, N="", .P=p, L={cut("l" * 300)}', "reached its end"),
        path="/devices/h/p",
    ),
    why(
        "types of IMPORT that are never run",
        [
            'IMPORT{program}=="/bin/x %k", TAG+="never"', 'IMPORT{file}!="/etc/$kernel"', 'IMPORT{cmdline}="quiet", TAG+="never"',
            'IMPORT{db}:="ID_X", TAG+="never"', 'IMPORT{db}!="ID_X"',
        ],
        [],
        [
            "note r.rules:1: import not run: program", "note r.rules:2: import not run: file",
            "note r.rules:3: import not run: cmdline", "note r.rules:4: import not run: db", "note r.rules:5: import not run: db",
        ],
        of(1, 'IMPORT{program}=="/bin/x %k": fails, not run', "stops there"),
        of(2, 'IMPORT{file}!="/etc/$kernel": holds, not run', "reached its end"),
        of(3, 'IMPORT{cmdline}=="quiet": fails, not run', "stops there"),
        of(4, 'IMPORT{db}=="ID_X": fails, not run', "stops there"),
        of(5, 'IMPORT{db}!="ID_X": holds, not run', "reached its end"),
    ),
    why(
        "builtins that are not run, and invalid arguments of hwdb",
        ['IMPORT{builtin}=="kmod load %k"', 'IMPORT{builtin}!="path_id"', 'IMPORT{builtin}="hwdb --none"', f'IMPORT{{builtin}}="{TWICE}"',
         f'IMPORT{{builtin}}!="{TWICE}"'],
        [LONG],
        [
            note(1, "builtin not run", "kmod"), note(2, "builtin not run", "path_id"), note(3, "bad hwdb arguments", "hwdb --none"),
            note(4, "text too long", "IMPORT{builtin}"), note(5, "text too long", "IMPORT{builtin}"),
        ],
        of(1, 'IMPORT{builtin}=="kmod load %k": fails, kmod load d sets nothing', "stops there"),
        of(2, 'IMPORT{builtin}!="path_id": holds, path_id sets nothing', "reached its end"),
        of(3, 'IMPORT{builtin}=="hwdb --none": fails, hwdb --none sets nothing', "stops there"),
        of(4, f'IMPORT{{builtin}}=="{TWICE}": fails, too long', "stops there"),
        of(5, f'IMPORT{{builtin}}!="{TWICE}": holds, too long', "reached its end"),
    ),
]

# What programs print for an IMPORT{program} of udev: two lines, with a carriage return between them.
PRINTED = ["Q: /bin/ask p", 'R: 0 A=1\rB="2 3"', "Q: /bin/fail", "R: 2 A=9", "Q: /bin/quiet", "R: 0", "Q: " + LONG_COMMAND, "R: 0 L=" + "l" * SHOWN]
REPORTED = '/bin/ask p answers 0 A=1\\x0DB="2 3"'

AS_UDEV = [
    why(
        "IMPORT{program} with --udev",
        [
            'IMPORT{program}=="/bin/ask %k", TAG+="t"', 'IMPORT{program}="/bin/ask $kernel"', 'IMPORT{program}!="/bin/ask p", TAG+="never"',
            'IMPORT{program}!="/bin/fail"', 'IMPORT{program}=="/bin/none %k", TAG+="never"', 'IMPORT{program}=="/bin/quiet"',
        ],
        PRINTED,
        ["tag t", "env A=1", "env B=2 3", note(5, "no answer for program", "/bin/none p")],
        of(1, f'IMPORT{{program}}=="/bin/ask %k": holds, {REPORTED}, sets A=1, B=2 3', "reached its end: tag t added"),
        of(2, f'IMPORT{{program}}=="/bin/ask $kernel": holds, {REPORTED}, sets nothing', "reached its end"),
        of(3, f'IMPORT{{program}}!="/bin/ask p": fails, {REPORTED}, sets nothing', "stops there"),
        of(4, 'IMPORT{program}!="/bin/fail": holds, /bin/fail answers 2 A=9, sets nothing', "reached its end"),
        of(5, 'IMPORT{program}=="/bin/none %k": fails, no answer for /bin/none p', "stops there"),
        of(6, 'IMPORT{program}=="/bin/quiet": holds, /bin/quiet answers 0, sets nothing', "reached its end"),
        path="/devices/p",
        udev=True,
    ),
    why(
        "the command of an import is shown in full, its answer is cut",
        [f'IMPORT{{program}}=="{LONG_COMMAND}"'],
        PRINTED,
        ["env L=" + "l" * SHOWN],
        of(1, f'IMPORT{{program}}=="{cut(LONG_COMMAND)}": holds, {LONG_COMMAND} answers 0 {cut("L=" + "l" * SHOWN)}, sets L={"l" * SHOWN}', "reached its end"),
        udev=True,
    ),
    why(
        "an import whose command is too long stops its rule",
        [f'IMPORT{{program}}=="{TWICE}"', f'IMPORT{{program}}!="{TWICE}", TAG+="never"'],
        [LONG],
        [note(1, "text too long", "IMPORT{program}"), note(2, "text too long", "IMPORT{program}")],
        of(1, f'IMPORT{{program}}=="{TWICE}": fails, too long', "stops there"),
        of(2, f'IMPORT{{program}}!="{TWICE}": fails, too long', "stops there"),
        udev=True,
    ),
    why(
        "the value ?* reverses an operator with --udev",
        ['TEST=="?*", TAG+="t"', 'TEST!="?*", TAG+="never"', 'PROGRAM="?*", TAG+="never"'],
        ["Q: ?*", "R: 0"],
        ["tag t"],
        of(1, 'TEST!="?*": holds, ?*', "reached its end: tag t added"),
        of(2, 'TEST=="?*": fails, ?*', "stops there"),
        of(3, 'PROGRAM!="?*": fails, ?* answers 0', "stops there"),
        path="/devices/p",
        udev=True,
    ),
    why(
        "without --udev IMPORT{program} is not run, even with an answer",
        ['IMPORT{program}=="/bin/ask %k"'],
        PRINTED,
        [note(1, "import not run", "program")],
        of(1, 'IMPORT{program}=="/bin/ask %k": fails, not run', "stops there"),
        path="/devices/p",
    ),
]

DATABASE = {"mnt/etc/udev/hwdb.d/a.hwdb": "usb:v1D6B*\n ID_VENDOR=Linux\n ID_A=1\n\nname:p\n ID_NAME=p\n"}
HUB = ["P: /devices/h", "U: usb", "E: MODALIAS=usb:v1D6Bp0002"]

LOOKED_UP = [
    why(
        "properties of the database",
        [
            'IMPORT{builtin}="hwdb --subsystem=usb"', 'IMPORT{builtin}="hwdb --subsystem=usb"', 'IMPORT{builtin}=="hwdb name:$kernel"',
            'IMPORT{builtin}=="hwdb name:none", TAG+="never"', 'IMPORT{builtin}!="hwdb name:none"',
        ],
        HUB,
        ["env ID_VENDOR=Linux", "env ID_A=1", "env ID_NAME=p"],
        of(1, 'IMPORT{builtin}=="hwdb --subsystem=usb": holds, hwdb --subsystem=usb sets ID_A=1, ID_VENDOR=Linux', "reached its end"),
        of(2, 'IMPORT{builtin}=="hwdb --subsystem=usb": holds, hwdb --subsystem=usb sets nothing', "reached its end"),
        of(3, 'IMPORT{builtin}=="hwdb name:$kernel": holds, hwdb name:p sets ID_NAME=p', "reached its end"),
        of(4, 'IMPORT{builtin}=="hwdb name:none": fails, hwdb name:none sets nothing', "stops there"),
        of(5, 'IMPORT{builtin}!="hwdb name:none": holds, hwdb name:none sets nothing', "reached its end"),
        path="/devices/h/p",
        files=DATABASE.items(),
        root="mnt",
    ),
    why(
        "a long command of a builtin is cut",
        ['IMPORT{builtin}=="hwdb $env{.C}"'],
        ["E: .C=" + "c" * 300],
        [],
        of(1, f'IMPORT{{builtin}}=="hwdb $env{{.C}}": fails, {cut("hwdb " + "c" * 300)} sets nothing', "stops there"),
    ),
]

EMPTY = {"mnt/etc/udev/hwdb.d/a.hwdb": "usb:v1*\n ID_NEW=1\n ID_OLD=\n ID_OTHER=\n\nname:*\n ID_NEW=\n"}
CHANGING = ['ENV{ID_OLD}="old", ENV{ID_OTHER}="other"', 'IMPORT{builtin}="hwdb usb:v1", TAG+="t"', 'IMPORT{builtin}="hwdb name:x", TAG+="u"',
    'IMPORT{builtin}="hwdb name:x", TAG+="v"']
REMOVED = [
    why(
        "an import that removes properties with --udev",
        CHANGING,
        [],
        ["tag t", "tag u", "tag v"],
        of(2, 'IMPORT{builtin}=="hwdb usb:v1": holds, hwdb usb:v1 removes ID_OLD, ID_OTHER, sets ID_NEW=1', "reached its end: tag t added"),
        of(3, 'IMPORT{builtin}=="hwdb name:x": holds, hwdb name:x removes ID_NEW', "reached its end: tag u added"),
        of(4, 'IMPORT{builtin}=="hwdb name:x": holds, hwdb name:x sets nothing', "reached its end: tag v added"),
        files=EMPTY.items(),
        root="mnt",
        asked=["r.rules:2", "r.rules:3", "r.rules:4"],
        udev=True,
    ),
    why(
        "by the manual the same import sets empty properties",
        CHANGING,
        [],
        ["tag t", "tag u", "tag v", "env ID_NEW=", "env ID_OLD=", "env ID_OTHER="],
        of(2, 'IMPORT{builtin}=="hwdb usb:v1": holds, hwdb usb:v1 sets ID_OLD="", ID_OTHER="", ID_NEW=1', "reached its end: tag t added"),
        of(3, 'IMPORT{builtin}=="hwdb name:x": holds, hwdb name:x sets ID_NEW=""', "reached its end: tag u added"),
        of(4, 'IMPORT{builtin}=="hwdb name:x": holds, hwdb name:x sets nothing', "reached its end: tag v added"),
        files=EMPTY.items(),
        root="mnt",
        asked=["r.rules:2", "r.rules:3", "r.rules:4"],
    ),
    why(
        "an IMPORT{program} that removes a property",
        ['IMPORT{program}="/bin/a", TAG+="t"', 'IMPORT{program}="/bin/b", TAG+="u"', 'IMPORT{program}="/bin/b", TAG+="v"'],
        ["E: A=1", "Q: /bin/a", 'R: 0 A=""\rB=2', "Q: /bin/b", "R: 0 B=''"],
        ["tag t", "tag u", "tag v"],
        of(1, 'IMPORT{program}=="/bin/a": holds, /bin/a answers 0 A=""\\x0DB=2, removes A, sets B=2', "reached its end: tag t added"),
        of(2, "IMPORT{program}==\"/bin/b\": holds, /bin/b answers 0 B='', removes B", "reached its end: tag u added"),
        of(3, "IMPORT{program}==\"/bin/b\": holds, /bin/b answers 0 B='', sets nothing", "reached its end: tag v added"),
        udev=True,
    ),
    why(
        "texts of acts are between quotes if their ends could not be seen",
        ['TEST=="$env{.T}"', 'PROGRAM="/bin/p"', 'IMPORT{parent}="X"', 'IMPORT{builtin}="hwdb x "'],
        ["E: .T=t ", "Q: /bin/p", "R: 0  a", "P: /devices/h", "E: X=x "],
        ["env X=x "],
        of(1, 'TEST=="$env{.T}": fails, "t "', "stops there"),
        of(2, 'PROGRAM=="/bin/p": holds, /bin/p answers 0 " a"', "reached its end"),
        of(3, 'IMPORT{parent}=="X": holds, sets X="x "', "reached its end"),
        of(4, 'IMPORT{builtin}=="hwdb x ": fails, "hwdb x " sets nothing', "stops there"),
        path="/devices/h/p",
    ),
]

ORDER = [
    why(
        "tests, then programs, then imports by their types",
        [
            'IMPORT{parent}!="*", IMPORT{cmdline}!="c", IMPORT{db}!="d", IMPORT{builtin}!="kmod", IMPORT{program}!="i", '
            'IMPORT{file}!="f", PROGRAM!="p", TEST!="t"',
        ],
        [],
        [
            note(1, "no answer for program", "p"), note(1, "import not run", "file"), note(1, "import not run", "program"),
            note(1, "builtin not run", "kmod"), note(1, "import not run", "db"), note(1, "import not run", "cmdline"),
        ],
        of(
            1,
            'TEST!="t": holds, t',
            'PROGRAM!="p": holds, no answer for p',
            'IMPORT{file}!="f": holds, not run',
            'IMPORT{program}!="i": holds, not run',
            'IMPORT{builtin}!="kmod": holds, kmod sets nothing',
            'IMPORT{db}!="d": holds, not run',
            'IMPORT{cmdline}!="c": holds, not run',
            'IMPORT{parent}!="*": holds, sets nothing',
            "reached its end",
        ),
    ),
    why("acts after one that failed are not shown", ['TEST=="none", PROGRAM=="p", IMPORT{db}=="d"'], [], [],
        of(1, 'TEST=="none": fails, none', "stops there")),
    why("RESULT after a program that failed is not shown", ['PROGRAM=="p", RESULT==""'], [],
        ["note r.rules:1: no answer for program: p"], of(1, 'PROGRAM=="p": fails, no answer for p', "stops there")),
]

ROWS = [*TESTS, *PROGRAMS, *IMPORTS, *AS_UDEV, *LOOKED_UP, *REMOVED, *ORDER]
