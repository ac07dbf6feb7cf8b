"""`events --unused`: the rules that no block of a run met, with the key that stopped most events, after the last answer.

What is wanted follows the reference, docs/behaviour.md, and udev(7); nothing here was taken from the program.
"""
from tables.kinds.answered import answer, block
from tables.kinds.folders import ETC, ETC_HWDB, LIB
from tables.kinds.row import Row, as_bytes
from tables.kinds.why import cut


def lines(*reported, file="r.rules"):
    """Lines about rules of a file, each without its `unused FILE:`."""
    return b"".join(b"unused %s:%s\n" % (as_bytes(file), as_bytes(line)) for line in reported)


def unused(name, rules, asked, *reported, words="", messages=b""):
    """A run over a file `r.rules` of these rules. Each thing asked is a triple: a path, the lines of a block after it, and the
    lines that its answer has in addition to the event, ACTION and DEVPATH. The last block lacks its empty line."""
    return Row(
        name,
        f"events -r none --unused {words} r.rules",
        {"r.rules": b"".join(as_bytes(rule) + b"\n" for rule in rules)},
        input=b"".join(block(path, *below) for path, below, _ in asked)[:-1],
        output=b"".join(answer(path, wanted) for path, _, wanted in asked) + lines(*reported),
        messages=messages,
    )


A = ("/a", [], [])
TWO = ['KERNEL=="a", ENV{A}="1"', 'KERNEL=="b", ENV{B}="1"']
LONG_VALUE = "v" * 250

RULES = [
    unused("a rule that an event met has no line", TWO, [("/c", [], []), ("/a", [], ["env A=1"]), ("/c", [], [])],
           '2: KERNEL=="b" failed 3 of 3'),
    unused("all rules are met", TWO, [("/a", [], ["env A=1"]), ("/b", [], ["env B=1"])]),
    unused("the key that stopped most events is named", ['ENV{A}=="1", ENV{B}=="1", ENV{C}=="1", NAME="n"'],
           [("/a", ["E: A=1"], ["env A=1"]), ("/a", ["E: A=1"], ["env A=1"]), A], '1: ENV{B}=="1" failed 2 of 3'),
    unused("of keys that stopped equally many events the first is named", ['ENV{A}=="1", ENV{B}=="1", NAME="n"'],
           [("/a", ["E: A=1"], ["env A=1"]), A], '1: ENV{A}=="1" failed 1 of 2'),
    unused("of equal keys of a rule one is named", ['ENV{A}!="1", ENV{A}!="1", NAME="n"'], [("/a", ["E: A=1"], ["env A=1"])],
           '1: ENV{A}!="1" failed 1 of 1'),
    unused("a rule that a jump passes over is not reached", ['KERNEL=="a", GOTO="end"', 'ENV{B}="1"', 'LABEL="end"'], [A], "2: not reached"),
    unused("events that a jump leads past a rule do not count for it", ['KERNEL=="a", GOTO="end"', 'KERNEL=="b", NAME="n"', 'LABEL="end"'],
           [A, ("/c", [], []), A], '2: KERNEL=="b" failed 1 of 1'),
    unused("a label that is sought and reached is met", ['KERNEL=="a", GOTO="end"', 'LABEL="end"'], [A]),
    unused("without blocks no rule is reached", TWO, [], "1: not reached", "2: not reached"),
    unused("without rules there is no line", [], [A]),
    unused("a rule without keys is met where it is reached", ['ENV{B}="1"'], [("/a", [], ["env B=1"])]),
    unused("a rule is met although it assigns nothing", ['KERNEL=="a"'], [A]),
    unused("a rule that udev skips is met if all its keys hold", [f'KERNEL=="{name}", OPTIONS="static_node=x"' for name in "ab"] + ['LABEL="l"'], [("/a", ["U: m"], ["env SUBSYSTEM=m"])],
           '2: KERNEL=="b" failed 1 of 1', words="--udev"),
    unused("a rule that udev does not keep has no line", ['KERNEL=="b"'], [("/a", ["U: m"], ["env SUBSYSTEM=m"])], words="--udev", messages=b"r.rules:1: V18 rule without effect\n"),
]

KEYS = [
    unused("an attribute, and case that is ignored", ['ATTR{x}==i"a", NAME="n"'], [A], '1: ATTR{x}==i"a" failed 1 of 1'),
    unused("matches of one device count as one key", ['SUBSYSTEMS=="usb", ATTRS{x}=="1", NAME="n"'], [("/a", ["U: usb"], ["env SUBSYSTEM=usb"])],
           '1: SUBSYSTEMS=="usb", ATTRS{x}=="1" failed 1 of 1'),
    unused("matches of one device stand behind those of the event", ['SUBSYSTEMS=="usb", KERNEL=="a", NAME="n"'], [A], '1: SUBSYSTEMS=="usb" failed 1 of 1'),
    unused("what acts", ['KERNEL=="a", TEST=="x", NAME="n"'], [A], '1: TEST=="x" failed 1 of 1'),
    unused("the result of a program", ['RESULT=="y", KERNEL=="a", NAME="n"'], [A], '1: RESULT=="y" failed 1 of 1'),
    unused("a long value is cut", [f'KERNEL=="{LONG_VALUE}", NAME="n"'], [A], f'1: KERNEL=="{cut(LONG_VALUE)}" failed 1 of 1'),
    unused("a backslash is escaped", ['KERNEL=="b\\\\c", NAME="n"'], [A], '1: KERNEL=="b\\x5C\\x5Cc" failed 1 of 1'),
]

FILES = [
    Row("all files that are named are reported on", "events -r none --unused a.rules b/b.rules", {"a.rules": TWO[1], "b/b.rules": TWO[1]},
        input=block("/a"), output=answer("/a", []) + lines('1: KERNEL=="b" failed 1 of 1', file="a.rules") + lines('1: KERNEL=="b" failed 1 of 1', file="b/b.rules")),
    Row("without a file that is named all are reported on", "events -r mnt --unused", {f"{ETC}/20-b.rules": TWO[1], f"{LIB}/10-a.rules": TWO[1]},
        input=block("/a"),
        output=answer("/a", []) + lines('1: KERNEL=="b" failed 1 of 1', file="10-a.rules") + lines('1: KERNEL=="b" failed 1 of 1', file="20-b.rules")),
    Row("only a file that is added is reported on", "events -r mnt --unused --with drafts/20-b.rules", {"drafts/20-b.rules": TWO[1], f"{LIB}/10-a.rules": TWO[1]},
        input=block("/a"), output=answer("/a", []) + lines('1: KERNEL=="b" failed 1 of 1', file="20-b.rules")),
    Row("a database that is added names no rules", "events -r mnt --unused --with drafts/20-b.hwdb",
        {"drafts/20-b.hwdb": "", f"{ETC_HWDB}/10-a.hwdb": "", f"{LIB}/10-a.rules": TWO[1]},
        input=block("/a"), output=answer("/a", []) + lines('1: KERNEL=="b" failed 1 of 1', file="10-a.rules")),
]

ENDS = [
    Row("a faulty block leaves no line", "events -r none --unused r.rules", {"r.rules": TWO[1]}, input=block("/a") + b"X\n\n",
        output=answer("/a", []), messages="block 2, line 1: unknown line\n", status=1),
    Row("a faulty last block leaves no line", "events -r none --unused r.rules", {"r.rules": TWO[1]}, input=block("/a") + b"C: add\n",
        output=answer("/a", []), messages="block 2, line 1: no device\n", status=1),
    Row("messages about rules come first", "events -r none --unused r.rules", {"r.rules": 'FOO="1"\n' + TWO[1]}, input=block("/a"),
        output=answer("/a", []) + lines('2: KERNEL=="b" failed 1 of 1'), messages="r.rules:1: V2 unknown key: FOO\n"),
    Row("lines of other options stay in the answers", "events -r none --unused --why r.rules:1 r.rules", {"r.rules": TWO[1]}, input=block("/a"),
        output=answer("/a", [])[:-1] + b'why r.rules:1: KERNEL=="b": fails, a\nwhy r.rules:1: stops there\n\n' + lines('1: KERNEL=="b" failed 1 of 1')),
]

ROWS = [*RULES, *KEYS, *FILES, *ENDS]
