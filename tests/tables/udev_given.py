"""`events --udev`: what a block gives beside the devices: constants, the kernel's command line, attributes of devices that are not
in it, and answers of builtins. udevadm 257 was asked about CASES; what is in NOTED udevadm can't be asked about, or leaves in notes.
"""
from tables.kinds.json_answers import in_json
from tables.kinds.row import Row
from tables.kinds.udev_blocks import DISK, NET, THING, answer_lines
from tables.kinds.udev_events import answered_as_udev
from tables.kinds.why import of, why
from tables.questions import asks

NAMES = ["nomodeset", "multipath", "no_mode", "no-mode", "rd.a", "ab", "abc"]
IMPORTS = "".join(f'IMPORT{{cmdline}}=="{name}", ENV{{DONE}}+="{number}"\n' for number, name in enumerate(NAMES))


def asked_line(line):
    """A device and a kernel's command line."""
    return THING + f"K: cmdline={line}\n"


# Attributes of a device that is not in the chain, as `devdry-capture` gives them.
ELSEWHERE = DISK.replace("A: size=2048\n", "A: size=2048\nA: [dmi/id]modalias=dmi:x y/z \nA: [dmi/id]power/control=auto\n"
                         f"A: [dmi/id]long={'x' * 600}\n")

CASES = [
    ('words on the command line', IMPORTS, asked_line('quiet nomodeset multipath=off'), ['env DONE=0 1', 'env nomodeset=1', 'env multipath=off']),
    ('a word of which no rule asks, and one that begins alike', IMPORTS, asked_line('quiet abx rd.b=1'), []),
    ('with != the property is set, too', 'IMPORT{cmdline}!="nomodeset", ENV{A}="1"\nIMPORT{cmdline}!="none", ENV{B}="1"\n', asked_line('nomodeset=0'),
     ['env nomodeset=0', 'env B=1']),
    ('- and _ in a name are the same', IMPORTS, asked_line('no-mode=3'), ['env DONE=2 3', 'env no_mode=3', 'env no-mode=3']),
    ('letters in a name are not', IMPORTS, asked_line('NOMODESET AB=1'), []),
    ('the last value counts', IMPORTS, asked_line('ab=1 ab=2'), ['env DONE=5', 'env ab=2']),
    ('a word without a value after one with a value', IMPORTS, asked_line('ab=5 ab'), ['env DONE=5', 'env ab=5']),
    ('a word without a value before one with a value', IMPORTS, asked_line('ab ab=5'), ['env DONE=5', 'env ab=5']),
    ('an empty value removes the property', 'ENV{ab}="old"\nIMPORT{cmdline}=="ab", ENV{A}="1"\n', asked_line('ab='), ['env A=1']),
    ('an empty value after a value', IMPORTS, asked_line('ab=1 ab='), ['env DONE=5']),
    ('an empty value before a word', IMPORTS, asked_line('ab= ab'), ['env DONE=5']),
    ('quotes in a value', IMPORTS, asked_line('''ab="x y" abc='z' nomode'''), ['env DONE=5 6', 'env ab=x y', 'env abc=z']),
    ('quotes around a word', IMPORTS, asked_line('"ab=x y"'), ['env DONE=5', 'env ab=x y']),
    ('a quote that stays open', IMPORTS, asked_line("ab='x y"), ['env DONE=5', 'env ab=x y']),
    ('a backslash separates nothing', IMPORTS, asked_line('ab=x\\ abc'), ['env DONE=5 6', 'env ab=x\\', 'env abc=1']),
    ('a tab between words', IMPORTS, asked_line('ab\tabc'), ['env DONE=5 6', 'env ab=1', 'env abc=1']),
    ('words after --', IMPORTS, asked_line('-- ab=1'), ['env DONE=5', 'env ab=1']),
    ('a name with =', 'IMPORT{cmdline}=="ab=1", ENV{A}="1"\n', asked_line('ab=1=2'), ['env A=1', 'env ab=1=2']),
    ('nothing is put into a name', 'IMPORT{cmdline}=="$kernel", ENV{A}="1"\nENV{B}="1"\n', asked_line('thing'), ['env B=1']),
    ('no word at all', IMPORTS, asked_line(''), []),
    ('builtins that set nothing are done',
     'IMPORT{builtin}=="keyboard", ENV{A}="1"\nIMPORT{builtin}=="kmod load x", ENV{B}="1"\nIMPORT{builtin}=="uaccess", ENV{C}="1"\n'
     'IMPORT{program}=="kmod", ENV{D}="1"\nIMPORT{builtin}=="k", ENV{E}="1"\nIMPORT{builtin}!="keyboard", ENV{F}="1"\n',
     THING, ['env A=1', 'env B=1', 'env C=1', 'env D=1', 'env E=1']),
    ('ATTR of a device that is not in the chain',
     'ATTR{[dmi/id]modalias}=="dmi:x y/z", ENV{A}="1"\nATTR{[dmi/id]modalias}!="dmi:x y/z", ENV{B}="1"\nATTR{[dmi/id]modalias}=="dmi:x y/z ", ENV{C}="1"\n'
     'ATTR{[dmi/id]modalias}!="y", ENV{D}="1"\n',
     ELSEWHERE, ['env A=1', 'env C=1', 'env D=1']),
    ('ATTRS of a device that is not in the chain', 'ATTRS{[dmi/id]modalias}=="dmi:*", ENV{A}="1"\nATTRS{[dmi/id]modalias}=="x", ENV{B}="1"\n', ELSEWHERE, ['env A=1']),
    ('TEST of a device that is not in the chain', 'TEST=="[dmi/id]modalias", ENV{A}="1"\nTEST!="[dmi/id]modalias", ENV{B}="1"\nTEST=="[dmi/id]power", ENV{C}="1"\n',
     ELSEWHERE, ['env A=1', 'env C=1']),
    ('$attr of a device that is not in the chain', 'ENV{A}="$attr{[dmi/id]modalias}|"\nENV{B}="$attr{[dmi/id]power/control}"\n', ELSEWHERE,
     ['env A=dmi:x y/z|', 'env B=auto']),
    ('a long attribute of a device that is not in the chain is cut', 'ENV{A}="$attr{[dmi/id]long}"\n' f'ATTR{{[dmi/id]long}}=="{"x" * 511}", ENV{{B}}="1"\n', ELSEWHERE,
     ['env A=' + 'x' * 511, 'env B=1']),
    ('the architecture of the machine', 'CONST{arch}=="x86-64", ENV{A}="1"\nCONST{arch}!="x86-64", ENV{B}="1"\n', THING + "K: arch=x86-64\n", ['env A=1']),
    ('the virtualization of the machine', 'CONST{virt}=="kvm", ENV{A}="1"\nCONST{virt}!="kvm", ENV{B}="1"\n', THING + "K: virt=kvm\n", ['env A=1']),
]

NOTED = [
    ('constants that the block does not give',
     'CONST{arch}=="?*", ENV{A}="1"\nCONST{virt}!="kvm", ENV{B}="1"\nCONST{virt}=="?*", ENV{C}="1"\n',
     THING + "K: arch=arm64\n", ['env A=1', 'env B=1', 'note r.rules:2: constant not given: virt', 'note r.rules:3: constant not given: virt']),
    ('a constant is asked for only where its rule reaches it', 'KERNEL=="none", CONST{virt}=="kvm", ENV{A}="1"\nCONST{virt}=="kvm", KERNEL=="none", ENV{A}="1"\n', THING,
     ['note r.rules:2: constant not given: virt']),
    ('an empty constant is given', 'CONST{virt}=="", ENV{A}="1"\n', THING + "K: virt=\n", ['env A=1']),
    ('without a command line', 'IMPORT{cmdline}=="nomodeset", ENV{A}="1"\nIMPORT{cmdline}!="nomodeset", ENV{B}="1"\n', THING,
     ['env B=1', 'note r.rules:1: import not run: cmdline', 'note r.rules:2: import not run: cmdline']),
    ('the empty name', 'IMPORT{cmdline}!="", ENV{A}="1"\n', asked_line('quiet'), ['env A=1', 'note r.rules:1: import not run: cmdline']),
    ('an answer of a builtin',
     'IMPORT{builtin}=="blkid --noraid", ENV{A}="1"\nIMPORT{builtin}!="blkid --noraid", ENV{B}="1"\n',
     DISK + "Q: builtin blkid --noraid\nR: 0 ID_FS_TYPE=ext4\rID_FS_UUID=7-8\r\n", ['env A=1', 'env ID_FS_TYPE=ext4', 'env ID_FS_UUID=7-8']),
    ('an answer of which each line has its own',
     'IMPORT{builtin}=="blkid", ENV{A}="1"\n',
     DISK + "Q: builtin blkid\nR: 0 ID_FS_TYPE=ext4\nO: ID_FS_UUID=7-8\rID_B=2\nO: \nO: # x=1\nO: LABEL=a b\n",
     ['env A=1', 'env ID_B=2', 'env ID_FS_TYPE=ext4', 'env ID_FS_UUID=7-8', 'env LABEL=a b']),
    ('a result of several lines', 'PROGRAM=="p", ENV{A}="$result"\n', THING + "Q: p\nR: 0 a\nO: b\nO: \nO: c\n", ['env A=a b  c']),
    ('the first line of an answer may be empty', 'IMPORT{program}=="/p"\n', THING + "Q: /p\nR: 0\nO: A=1\n", ['env A=1']),
    ('lines of an answer that failed', 'IMPORT{program}!="/p", ENV{B}="1"\n', THING + "Q: /p\nR: 1 A=1\nO: B=2\n", ['env B=1']),
    ('an answer of a builtin that fails', 'IMPORT{builtin}=="btrfs ready $devnode", ENV{A}="1"\nIMPORT{builtin}!="btrfs ready $devnode", ENV{B}="1"\n',
     DISK + "Q: builtin btrfs ready /dev/sda\nR: 1 ID_BTRFS_READY=0\n", ['env B=1']),
    ('an answer of a builtin that IMPORT{program} names, by the beginning of its name', 'IMPORT{program}=="net_d", ENV{A}="1"\n',
     THING + "Q: builtin net_d\nR: 0 ID_NET_DRIVER=e1000e\n", ['env A=1', 'env ID_NET_DRIVER=e1000e']),
    ('an answer of a program is none of a builtin', 'IMPORT{builtin}=="blkid", ENV{A}="1"\n', DISK + "Q: blkid\nR: 0 ID_FS_TYPE=ext4\n",
     ['note r.rules:1: builtin not run: blkid']),
    ('a builtin that is computed is not answered', 'IMPORT{builtin}=="input_id", ENV{A}="1"\n', THING + "Q: builtin input_id\nR: 1 ID_INPUT=1\n", ['env A=1']),
    ('a builtin without an answer', 'IMPORT{builtin}!="blkid", ENV{A}="1"\nIMPORT{builtin}=="net_driver", ENV{B}="1"\n', DISK,
     ['env A=1', 'note r.rules:1: builtin not run: blkid', 'note r.rules:2: builtin not run: net_driver']),
    ('files of a device that is not in the chain', 'TEST=="[dmi/id]none", ENV{A}="1"\nTEST=="[dmi/id]", ENV{B}="1"\nATTR{[dmi/id]none}!="x", ENV{C}="1"\n', ELSEWHERE,
     ['note r.rules:1: test not made: [dmi/id]none', 'note r.rules:2: test not made: [dmi/id]', 'note r.rules:3: attribute not read: [dmi/id]none']),
    ('an attribute that the event device has for another, in a command of hwdb', 'IMPORT{builtin}="hwdb usb:v$attr{[dmi/id]x}", ENV{A}="1"\n',
     THING.replace("E: ID_SOME=1\n", "E: ID_SOME=1\nA: [dmi/id]x=1\n"), ['env A=1', 'env ID_X=1']),
    ('a device of the chain goes before what the event device has', 'ATTR{[usb/usb1]serial}=="7", ENV{A}="1"\nENV{B}="$attr{[usb/usb1]serial}"\nENV{C}="$attr{[usb/usb1]none}|"\n',
     DISK.replace("A: size=2048\n", "A: size=2048\nA: [usb/usb1]serial=8\nA: [usb/usb1]none=8\n"), ['env A=1', 'env B=7', 'env C=|']),
]


# What the text of an assignment asks for and the block does not have: the note comes after all others.
UNREAD = [
    ('an attribute of another device in a property', 'ENV{A}="$attr{[dmi/id]modalias}|"\nENV{B}="%s{[net/lo]mtu}|$attr{serial}|"\n', DISK,
     ['env A=|', 'env B=||', 'note r.rules:1: attribute not read: [dmi/id]modalias', 'note r.rules:2: attribute not read: [net/lo]mtu']),
    ('the first of an assignment', 'ENV{A}="$attr{model}$attr{[usb/usb1]none}$attr{../x}$attr{[dmi/id]y}"\n', DISK,
     ['env A=Disk', 'note r.rules:1: attribute not read: ../x']),
    ('one of each assignment of a rule, by kind, those of one kind as they are written',
     'RUN+="/bin/a $attr{../r}", ENV{B}="$attr{[d/i]b}|", SYMLINK+="l$attr{[d/i]l}", ENV{A}="$attr{[d/i]a}|", TAG+="t$attr{[d/i]t}", ATTR{model}="$attr{./../u}"\n', DISK,
     ['link l', 'tag t', 'env A=|', 'env B=|', 'attr model=', 'run program /bin/a ', 'note r.rules:1: attribute not read: [d/i]t', 'note r.rules:1: attribute not read: [d/i]b',
      'note r.rules:1: attribute not read: [d/i]a', 'note r.rules:1: attribute not read: [d/i]l', 'note r.rules:1: attribute not read: ./../u',
      'note r.rules:1: attribute not read: ../r']),
    ('a rule that does not reach its assignments', 'KERNEL=="none", ENV{A}="$attr{[dmi/id]x}"\nGOTO="e"\nENV{B}="$attr{[dmi/id]y}"\nLABEL="e", ENV{C}="$attr{[dmi/id]z}|"\n', DISK,
     ['env C=|', 'note r.rules:4: attribute not read: [dmi/id]z']),
    ('a key that is final', 'RUN:="/bin/a $attr{[dmi/id]x}"\nRUN+="/bin/b $attr{[dmi/id]y}"\n', DISK,
     ['run program /bin/a ', 'note r.rules:1: attribute not read: [dmi/id]x']),
    ('a device without a number has no text for its node', 'OWNER="$attr{[dmi/id]o}"\nSYMLINK+="$attr{[dmi/id]l}"\nSECLABEL{m}="$attr{[dmi/id]s}", ENV{A}="$attr{[dmi/id]e}|"\n', THING,
     ['env A=|', 'note r.rules:1: no device number: OWNER', 'note r.rules:2: no device number: SYMLINK', 'note r.rules:3: no device number: SECLABEL{m}',
      'note r.rules:3: attribute not read: [dmi/id]e']),
    ('a device that is no interface has no text for its name', 'NAME="n$attr{[dmi/id]n}", ENV{A}="1"\n', DISK, ['env A=1', 'note r.rules:1: name ignored: n']),
    ('a name of an interface', 'NAME="n$attr{[dmi/id]n}"\n', NET, ['name n', 'note r.rules:1: attribute not read: [dmi/id]n']),
    ('after the notes of other rules', 'ENV{A}="$attr{[dmi/id]x}|"\nCONST{virt}!="kvm", ENV{B}="1"\n', THING,
     ['env A=|', 'env B=1', 'note r.rules:2: constant not given: virt', 'note r.rules:1: attribute not read: [dmi/id]x']),
    ('what the block has, gives or denies', 'ENV{A}="$attr{[usb/usb1]none}|$attr{[dmi/id]modalias}|$attr{../../none}|$attr{./none}|$attr{[usb]x}|$attr{[dmi/id]}|"\n', ELSEWHERE,
     ['env A=|dmi:x y/z|||||']),
    ('a name is shown in 32 bytes', 'ENV{A}="$attr{[dmi/id]' + "x" * 40 + '}|"\n', DISK, ['env A=|', 'note r.rules:1: attribute not read: [dmi/id]' + "x" * 24]),
]


def by_the_manual(name, rules, block, *lines):
    """The same rules and block without --udev."""
    return Row(name, "events -r none r.rules", {"r.rules": rules}, block, b"".join(line + b"\n" for line in answer_lines(block, list(lines))) + b"\n")


MANUAL = [
    by_the_manual("by the manual a constant that is not given leaves no note", 'CONST{virt}!="kvm", ENV{A}="1"\n', THING, 'env A=1'),
    by_the_manual("by the manual no attribute in a command is of another device", 'IMPORT{builtin}!="hwdb x$attr{[dmi/id]y}", ENV{A}="1"\n', THING,
                  'env A=1'),
    by_the_manual("by the manual a text asks for no attribute of another device", 'ENV{A}="$attr{[dmi/id]y}|$attr{../serial}|"\n', THING, 'env A=||'),
    by_the_manual("by the manual the name of an attribute is no path", 'ATTR{../serial}!="7", ENV{A}="$attr{../serial}|$attr{subsystem}|"\n', THING, 'env A=||'),
    by_the_manual("by the manual no command line is looked at", 'IMPORT{cmdline}!="nomodeset", ENV{A}="1"\n', asked_line("nomodeset"), 'env A=1',
                  'note r.rules:1: import not run: cmdline'),
    by_the_manual("by the manual a result has carriage returns between its lines", 'PROGRAM=="p", ENV{A}="$result"\n', THING + "Q: p\nR: 0 a\nO: b\n", 'env A=a\rb'),
    by_the_manual("by the manual no builtin is answered", 'IMPORT{builtin}!="blkid", ENV{A}="1"\nIMPORT{builtin}!="keyboard", ENV{B}="1"\n',
                  THING + "Q: builtin blkid\nR: 0 A=2\n", 'env A=1', 'env B=1', 'note r.rules:1: builtin not run: blkid', 'note r.rules:2: builtin not run: keyboard'),
]

QUESTIONS = [
    asks("builtins that are not computed, with --udev", 'IMPORT{builtin}!="blkid --noraid"\nIMPORT{program}!="net_driver"\nIMPORT{builtin}!="path_id"\nIMPORT{builtin}!="kmod load x"\n'
         'IMPORT{builtin}!="hwdb usb:v1"\n', "builtin blkid --noraid", "builtin net_driver", options="--udev"),
    asks("a builtin with an answer", 'IMPORT{builtin}!="blkid"\nIMPORT{builtin}!="btrfs"\n', "builtin btrfs", block="C: add\nP: /d\nU: m\nQ: builtin blkid\nR: 2\n", options="--udev"),
    asks("builtins without --udev", 'IMPORT{builtin}!="blkid"\n'),
]

WHY = [
    why("IMPORT{cmdline}, a builtin that the block answers, one that sets nothing, and TEST of a device elsewhere",
        ['IMPORT{cmdline}=="a", IMPORT{cmdline}!="b"', 'IMPORT{builtin}=="blkid"', 'IMPORT{builtin}=="kmod load x"', 'TEST=="[d/i]m", TEST!="[d/i]n", TAG+="t"'],
        ["A: [d/i]m=1", "K: cmdline=a=1 c", "Q: builtin blkid", "R: 0 F=2"],
        ["tag t", "env F=2", "env a=1", "note r.rules:4: test not made: [d/i]n"],
        of(1, 'IMPORT{cmdline}=="a": holds, sets a=1', 'IMPORT{cmdline}!="b": holds, sets nothing', "reached its end"),
        of(2, 'IMPORT{builtin}=="blkid": holds, blkid sets F=2', "reached its end"),
        of(3, 'IMPORT{builtin}=="kmod load x": holds, kmod load x sets nothing', "reached its end"),
        of(4, 'TEST=="[d/i]m": holds, [d/i]m', 'TEST!="[d/i]n": holds, not made: [d/i]n', "reached its end: tag t added"),
        udev=True),
    why("IMPORT{cmdline} without a command line", ['IMPORT{cmdline}!="a"'], [], ["note r.rules:1: import not run: cmdline"],
        of(1, 'IMPORT{cmdline}!="a": holds, not run', "reached its end"), udev=True),
    why("the text of an assignment asks for an attribute of another device", ['TAG+="t$attr{[d/i]m}"'], [], ["tag t", "note r.rules:1: attribute not read: [d/i]m"],
        of(1, "reached its end: tag t added"), udev=True),
]

SOURCED = [
    Row("a note on an attribute of another device beside sources", "events --udev -r none --sources r.rules", {"r.rules": 'TAG+="t$attr{[d/i]m}"\n'}, "C: add\nP: /d\nU: m\n",
        "event add /d\nr.rules:1: tag t\n-: env ACTION=add\n-: env DEVPATH=/d\n-: env SUBSYSTEM=m\nnote r.rules:1: attribute not read: [d/i]m\n\n"),
    *(in_json(f"a note on an attribute of another device, as JSON{' with sources' * sourced}", ['TAG+="t$attr{[d/i]m}"', 'CONST{virt}!="kvm", TAG+="v"'],
              (["U: m"], {"env": {"SUBSYSTEM": {"value": "m"} if sourced else "m"}, "tags": [{"value": tag, "file": "r.rules", "line": number} if sourced else tag for tag, number in (("t", 1), ("v", 2))],
                    "notes": [{"file": "r.rules", "line": 2, "text": "constant not given", "word": "virt"},
                              {"file": "r.rules", "line": 1, "text": "attribute not read", "word": "[d/i]m"}]}),
              words=["--udev", *["--sources"] * sourced], sourced=sourced) for sourced in (False, True)),
]

ROWS = answered_as_udev(CASES) + answered_as_udev(NOTED) + answered_as_udev(UNREAD) + MANUAL + QUESTIONS + WHY + SOURCED
