"""`events --questions`: the commands that rules ask for and the block does not answer.

What is wanted follows the reference, docs/behaviour.md; nothing here was taken from the program.
"""
from tables.kinds.index_bytes import WITH_FILE
from tables.kinds.row import Row, as_bytes

BARE = "C: add\nP: /d\nU: m\n"


def asks(name, rules, *commands, block=BARE, options=""):
    """What these rules ask about an event."""
    lines = b"".join(b"Q: " + as_bytes(command) + b"\n" for command in commands)
    return Row(name, f"events -r none --questions {options} r.rules", {"r.rules": rules}, block, b"event add /d\n" + lines + b"\n")


ASKED = [
    asks("no rules", "# none\n"),
    asks("rules without a program", 'KERNEL=="d", TEST=="x", TAG+="t"\nIMPORT{parent}="A", ENV{A}="1", RUN+="/bin/a"\n'),
    asks("a program", 'PROGRAM=="/bin/id %k"\n', "/bin/id d"),
    asks("programs are asked about in the order of evaluation", 'PROGRAM=="/bin/b"\nPROGRAM=="/bin/a"\n', "/bin/b", "/bin/a"),
    asks("a command is asked about once, at its first place", 'PROGRAM=="/bin/b"\nPROGRAM=="/bin/a"\nPROGRAM=="/bin/b"\nPROGRAM=="/bin/a"\n',
         "/bin/b", "/bin/a"),
    asks("a command with an answer", 'PROGRAM=="/bin/id %k"\n', block=BARE + "Q: /bin/id d\nR: 0 x\n"),
    asks("a command whose answer is a failure", 'PROGRAM=="/bin/id %k"\n', block=BARE + "Q: /bin/id d\nR: 1\n"),
    asks("an answer to another command", 'PROGRAM=="/bin/id %k"\n', "/bin/id d", block=BARE + "Q: /bin/id  d\nR: 0\nQ: /bin/id\nR: 0\n"),
    asks("an answer to one of two commands", 'PROGRAM=="/bin/a"\nPROGRAM=="/bin/b"\n', "/bin/b", block=BARE + "Q: /bin/a\nR: 0\n"),
    asks("an answer leads to another question", 'PROGRAM=="/bin/a", ENV{A}="%c"\nENV{A}=="one", PROGRAM=="/bin/b $env{A}"\n', "/bin/b one",
         block=BARE + "Q: /bin/a\nR: 0 one\n"),
    asks("without the first answer there is no second question", 'PROGRAM=="/bin/a", ENV{A}="%c"\nENV{A}=="one", PROGRAM=="/bin/b $env{A}"\n', "/bin/a"),
]

ACTS = [
    asks("a program after one that fails", 'PROGRAM=="/bin/a", PROGRAM=="/bin/b"\n', "/bin/a"),
    asks("a program after one that may fail", 'PROGRAM!="/bin/a", PROGRAM=="/bin/b"\n', "/bin/a", "/bin/b"),
    asks("a program after one with an answer", 'PROGRAM=="/bin/a", PROGRAM=="/bin/b"\n', "/bin/b", block=BARE + "Q: /bin/a\nR: 0\n"),
    asks("a program after a TEST that fails", 'TEST=="x", PROGRAM=="/bin/a"\n'),
    asks("a program after a TEST that holds", 'TEST=="x", PROGRAM=="/bin/a"\n', "/bin/a", block=BARE + "A: x=1\n"),
    asks("a match of the event that fails", 'KERNEL=="x", PROGRAM=="/bin/a"\n'),
    asks("a search for a parent that finds nothing", 'ATTRS{x}=="1", PROGRAM=="/bin/a"\n'),
    asks("a search for a parent that finds a device", 'ATTRS{x}=="1", PROGRAM=="/bin/a %b"\n', "/bin/a d", block=BARE + "A: x=1\n"),
    asks("a result that does not fit", 'PROGRAM!="/bin/a", RESULT=="x", ENV{A}="1"\nENV{A}=="1", PROGRAM=="/bin/b"\n', "/bin/a"),
    asks("a rule that a jump skips", 'GOTO="end"\nPROGRAM=="/bin/a"\nLABEL="end", PROGRAM=="/bin/b"\n', "/bin/b"),
    asks("a jump of a rule that stops", 'KERNEL=="x", GOTO="end"\nPROGRAM=="/bin/a"\nLABEL="end"\n', "/bin/a"),
    asks("a jump of a rule whose program has no answer", 'PROGRAM=="/bin/a", GOTO="end"\nPROGRAM=="/bin/b"\nLABEL="end"\n', "/bin/a", "/bin/b"),
    asks("a jump of a rule whose program has an answer", 'PROGRAM=="/bin/a", GOTO="end"\nPROGRAM=="/bin/b"\nLABEL="end"\n',
         block=BARE + "Q: /bin/a\nR: 0\n"),
    asks("IMPORT{program} without --udev", 'IMPORT{program}="/bin/a"\nIMPORT{file}="/a"\nIMPORT{builtin}="kmod load"\n'),
    asks("IMPORT{program} with --udev", 'IMPORT{program}="/bin/a %k"\nIMPORT{file}="/a"\nIMPORT{builtin}="kmod load"\n', "/bin/a d", options="--udev"),
    asks("IMPORT{program} with --udev and an answer", 'IMPORT{program}="/bin/a %k"\n', block=BARE + "Q: /bin/a d\nR: 0 A=1\n", options="--udev"),
    asks("PROGRAM and IMPORT{program} with the same command", 'IMPORT{program}="/bin/a", ENV{A}="1"\nPROGRAM="/bin/a"\nPROGRAM="/bin/b"\n',
         "/bin/a", "/bin/b", options="--udev"),
    asks("the result in a command", 'PROGRAM=="/bin/a"\nPROGRAM=="/bin/b %c"\n', "/bin/b one", block=BARE + "Q: /bin/a\nR: 0 one\n"),
    asks("the result in a command with --udev", 'PROGRAM=="/bin/a"\nPROGRAM=="/bin/b %c."\n', "/bin/b .", block=BARE + "Q: /bin/a\nR: 0 one\n",
         options="--udev"),
    asks("a program is asked about before an import", 'IMPORT{program}="/bin/b", PROGRAM="/bin/a"\n', "/bin/a", options="--udev"),
    asks("an import after a program that may fail", 'IMPORT{program}="/bin/b", PROGRAM!="/bin/a"\n', "/bin/a", "/bin/b", options="--udev"),
    asks("IMPORT{file} comes before IMPORT{program}", 'IMPORT{program}="/bin/a", IMPORT{file}="/x"\n', options="--udev"),
    asks("IMPORT{program} after an IMPORT{file} that may fail", 'IMPORT{program}="/bin/a", IMPORT{file}!="/x"\n', "/bin/a", options="--udev"),
    asks("IMPORT{program} after IMPORT{parent}", 'IMPORT{parent}="X", IMPORT{program}="/bin/a"\n', "/bin/a", options="--udev"),
    asks("a builtin that is imported as a program", 'IMPORT{program}="kmod load"\n', options="--udev"),
    asks("a rule that udev skips", 'TEST!="x", OWNER="a"\nTEST!="x", PROGRAM="/bin/a"\n', "/bin/a", options="--udev"),
]

LONG = "/bin/long " + "0123456789" * 100
DOUBLED = 'ENV{X}="0123456789abcdef"\n' + 'ENV{X}="$env{X}$env{X}"\n' * 10
LETTERS = f'ENV{{L}}="{"x" * 500}"\n'

WRITTEN = [
    asks("a long command is shown in full", f'PROGRAM=="{LONG}"\n', LONG),
    asks("the longest command", DOUBLED + 'PROGRAM=="$env{X}"\n', "0123456789abcdef" * 1024),
    asks("a command that is too long is not asked about", DOUBLED + 'PROGRAM=="$env{X}."\n'),
    asks("the longest command with --udev", LETTERS + f'PROGRAM="{"c" * 383}{"$env{L}" * 32}"\n', "c" * 383 + "x" * 16000, options="--udev"),
    asks("a command that is too long with --udev is not asked about", LETTERS + f'PROGRAM="{"c" * 384}{"$env{L}" * 32}"\n', options="--udev"),
    asks("an IMPORT{program} command that is too long is not asked about", LETTERS + f'IMPORT{{program}}="{"c" * 384}{"$env{L}" * 32}"\n', options="--udev"),
    asks("a command is not escaped", b'PROGRAM=="/bin/a \\\\ \xc3\xa9 \xff $$ %%"\n', b"/bin/a \\\\ \xc3\xa9 \xff $ %"),
    asks("blanks and control characters", 'PROGRAM=="$env{A}"\n', " \t/bin/a\r\x01 \t", block=BARE + "E: A= \t/bin/a\r\x01 \t\n"),
    asks("an empty command is not asked about", 'PROGRAM=="$env{A}"\nPROGRAM=="/bin/b"\n', "/bin/b"),
    asks("a command with a newline is not asked about", 'PROGRAM==e"/bin/a\\nb"\nPROGRAM==e"/bin/a\\tb"\n', "/bin/a\tb"),
    asks("a command that looks like a line of a block", 'PROGRAM=="R: 0 x"\n', "R: 0 x"),
]

FILLED = BARE + "Q: /bin/id d\nR: 0 ab\n"
UNFILLED = BARE + "Q: /bin/id d\n"
RULE = {"r.rules": 'PROGRAM=="/bin/id %k", ENV{A}="%c"\n'}

ROWS = [
    *ASKED,
    *ACTS,
    *WRITTEN,
    Row("each event has its own questions", "events -r none --questions r.rules", RULE, BARE + "\n\n" + FILLED + "\nC: change\nP: /x\n",
        "event add /d\nQ: /bin/id d\n\nevent add /d\n\nevent change /x\nQ: /bin/id x\n\n"),
    Row("no block, no answer", "events -r none --questions r.rules", RULE),
    Row("the event is escaped", "events -r none --questions r.rules", RULE, "C: a\\b\nP: /d\n", "event a\\x5Cb /d\nQ: /bin/id d\n\n"),
    Row("a copied question with its status filled in", "events -r none r.rules", RULE, FILLED,
        "event add /d\nenv A=ab\nenv ACTION=add\nenv DEVPATH=/d\nenv SUBSYSTEM=m\n\n"),
    Row("a copied question without a status", "events -r none r.rules", RULE, UNFILLED, messages="block 1, line 4: pair\n", status=1),
    Row("a copied question without a status is not asked again", "events -r none --questions r.rules", RULE, BARE + "\n" + UNFILLED,
        "event add /d\nQ: /bin/id d\n\n", "block 2, line 4: pair\n", 1),
    Row("messages come first", "events -r none --questions r.rules", {"r.rules": 'FOO="1"\nPROGRAM=="/bin/a"\n'}, BARE,
        "event add /d\nQ: /bin/a\n\n", "r.rules:1: V2 unknown key: FOO\n"),
    Row("rules and a database of folders", "events --questions -r mnt", {
        "mnt/etc/udev/rules.d/r.rules": 'IMPORT{builtin}="hwdb a"\nPROGRAM=="/bin/a $env{K}"\n',
        "mnt/etc/udev/hwdb.d/a.hwdb": "a*\n K=V\n",
    }, BARE, "event add /d\nQ: /bin/a V\n\n"),
    Row("rules and an index", "events -r none --questions --index i r.rules",
        {"r.rules": 'IMPORT{builtin}="hwdb ab"\nPROGRAM=="/bin/a $env{K}"\n', "i": WITH_FILE}, BARE, "event add /d\nQ: /bin/a V\n\n"),
    Row("an index that is refused", "events -r none --questions --index r.rules r.rules", RULE, BARE, messages="devdry: index: magic\n", status=1),
    Row("an unreadable file", "events --questions none.rules", {}, BARE, messages="devdry: cannot read none.rules\n", status=3),
]
