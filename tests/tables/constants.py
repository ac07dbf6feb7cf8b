"""Whitespace at the end of a text: a constant is compared with it, an attribute by its own rule, everything else with it."""
from tables.kinds.row import Row

DEVICE = "C: add\nP: /devices/x\n"
ANSWER = "event add /devices/x\nenv ACTION=add\nenv DEVPATH=/devices/x\n"


def compared(name, holds, fails, block=DEVICE, answer=ANSWER):
    """Each match is in a rule of its own, which has a command to run: those that hold are numbered from 1.

    The block is that of the device and what is known about it; the answer is what comes before the commands.
    """
    rules = "".join(f'{match}, RUN+="{number}"\n' for number, match in enumerate(holds + fails, 1))
    commands = "".join(f"run program {number}\n" for number, _ in enumerate(holds, 1))
    return Row(name, "events -r none t.rules", {"t.rules": rules}, block, f"{answer}{commands}\n")


CONSTANTS = [
    compared(
        "a constant is compared with its trailing whitespace",
        block=DEVICE + "K: arch=x86-64 \n",
        holds=[
            'CONST{arch}!="x86-64"',
            'CONST{arch}=="x86-64 "',
            'CONST{arch}=="x86-64?"',
            'CONST{arch}=="x86-64[ ]"',
            'CONST{arch}=="x86*"',
            'CONST{arch}!=i"X86-64"',
            'CONST{arch}==i"X86-64 "',
            'CONST{arch}=="x86-64 |arm"',
            'CONST{arch}!="x86-64|arm"',
        ],
        fails=[
            'CONST{arch}=="x86-64"',
            'CONST{arch}!="x86-64 "',
            'CONST{arch}=="x86-64  "',
            'CONST{arch}!="x86-64?"',
            'CONST{arch}!="x86*"',
            'CONST{arch}==i"X86-64"',
            'CONST{arch}!=i"X86-64 "',
            'CONST{arch}=="X86-64 "',
            'CONST{arch}=="x86-64|arm"',
        ],
    ),
    compared(
        "a constant without trailing whitespace",
        block=DEVICE + "K: arch=x86-64\n",
        holds=[
            'CONST{arch}=="x86-64"',
            'CONST{arch}=="arm|x86-64"',
            'CONST{arch}!="x86-64 "',
            'CONST{arch}==i"X86-64"',
            'CONST{arch}!=i"X86-64 "',
            'CONST{arch}!="X86-64"',
        ],
        fails=[
            'CONST{arch}!="x86-64"',
            'CONST{arch}!="arm|x86-64"',
            'CONST{arch}=="x86-64 "',
            'CONST{arch}=="x86-64?"',
            'CONST{arch}!=i"X86-64"',
            'CONST{arch}==i"X86-64 "',
            'CONST{arch}=="X86-64"',
        ],
    ),
    compared(
        "a trailing tab of a constant counts",
        block=DEVICE + "K: virt=kvm\t\nK: cvm=sev \t\n",
        holds=[
            'CONST{virt}!="kvm"',
            'CONST{virt}!="kvm "',
            'CONST{virt}==e"kvm\\t"',
            'CONST{cvm}!="sev"',
            'CONST{cvm}!=e"sev\\t"',
            'CONST{cvm}==e"sev \\t"',
            'CONST{cvm}==ie"SEV \\t"',
        ],
        fails=[
            'CONST{virt}=="kvm"',
            'CONST{virt}=="kvm "',
            'CONST{virt}!=e"kvm\\t"',
            'CONST{cvm}=="sev"',
            'CONST{cvm}==i"SEV"',
            'CONST{cvm}=="sev "',
        ],
    ),
    compared(
        "a constant of only whitespace is not empty",
        block=DEVICE + "K: arch= \nK: virt=\n",
        holds=[
            'CONST{arch}==" "',
            'CONST{arch}=="?"',
            'CONST{arch}!=""',
            'CONST{virt}==""',
            'CONST{virt}==i""',
            'CONST{virt}!=" "',
        ],
        fails=[
            'CONST{arch}!=" "',
            'CONST{arch}==""',
            'CONST{arch}==i""',
            'CONST{virt}!=""',
            'CONST{virt}==" "',
        ],
    ),
    compared(
        "an absent constant fails == and satisfies !=",
        block=DEVICE + "K: virt=kvm\n",
        holds=[
            'CONST{arch}!="kvm"',
            'CONST{arch}!=""',
            'CONST{arch}!="*"',
            'CONST{arch}!=i"KVM"',
            'CONST{cvm}!=" "',
        ],
        fails=[
            'CONST{arch}=="kvm"',
            'CONST{arch}==""',
            'CONST{arch}=="*"',
            'CONST{arch}==i"*"',
            'CONST{cvm}==" "',
        ],
    ),
    compared(
        "a constant with another name fails == and !=, given or not",
        block=DEVICE + "K: a=1 \n",
        holds=[],
        fails=[
            'CONST{a}=="1"',
            'CONST{a}=="1 "',
            'CONST{a}!="1"',
            'CONST{a}!="1 "',
            'CONST{a}!=i"x"',
            'CONST{b}=="*"',
            'CONST{b}!="*"',
            'CONST{ARCH}!="1"',
        ],
    ),
]

# An attribute `m` with two spaces at its end. A value that ends in a byte of whitespace is compared with it as it is.
PADDED = [
    ("==", '"Disk"', True),
    ("==", '"Disk "', False),
    ("==", '"Disk  "', True),
    ("!=", '"Disk"', False),
    ("!=", '"Disk "', True),
    ("!=", '"Disk  "', False),
    ("==", 'i"DISK"', True),
    ("==", 'i"DISK "', False),
    ("==", 'i"DISK  "', True),
    ("!=", 'i"DISK"', False),
    # the last item is a byte, not a set or `?` that accepts whitespace
    ("==", '"Disk?"', False),
    ("==", '"Disk[ ]"', False),
    ("==", '"Disk [ ]"', False),
    ("==", '"Disk*"', True),
    ("==", '"* "', True),
    # of several patterns the last one decides
    ("==", '"x|Disk"', True),
    ("==", '"Disk  |x"', False),
    ("==", '"Disk|x "', False),
    ("==", '"Disk  |x "', True),
    ("==", '"Disk  |"', False),
    ("==", 'e"x|Disk\\s\\s"', True),
]

# An attribute `n` without whitespace at its end.
BARE = [
    ("==", '"Disk"', True),
    ("==", '"Disk "', False),
    ("!=", '"Disk"', False),
    ("!=", '"Disk "', True),
    ("==", 'i"DISK"', True),
    ("==", 'i"DISK "', False),
    ("==", '"Disk|x "', True),
    ("==", '"Disk?"', False),
]

# Attributes of whitespace alone, with other whitespace at the end, and of a name that the device does not have.
OTHERS = [
    ("{blank}", "==", '""', True),
    ("{blank}", "==", '" "', True),
    ("{blank}", "==", '"?"', False),
    ("{blank}", "!=", '""', False),
    ("{tab}", "==", '"Disk"', True),
    ("{tab}", "==", 'e"Disk\\t"', True),
    ("{tab}", "==", '"Disk "', False),
    ("{none}", "==", '"*"', False),
    ("{none}", "==", '""', False),
    ("{none}", "!=", '"*"', True),
    ("{none}", "!=", '" "', True),
]

ATTRIBUTES = "A: m=Disk  \nA: n=Disk\nA: blank= \nA: tab=Disk\t\n"


def attributes(key):
    """The matches of a key, ATTR or ATTRS, over those attributes, and whether each holds."""
    named = [("{m}", *match) for match in PADDED] + [("{n}", *match) for match in BARE] + OTHERS
    return [(f"{key}{name}{operator}{value}", holds) for name, operator, value, holds in named]


def compared_attributes(name, key, block):
    """A row of these matches."""
    matches = attributes(key)
    return compared(name, [m for m, holds in matches if holds], [m for m, holds in matches if not holds], block=block)


# (the device has no parent here, so that ATTRS looks at it alone)
ROWS = CONSTANTS + [
    compared_attributes("ATTR drops trailing whitespace unless the value ends in whitespace", "ATTR", DEVICE + ATTRIBUTES),
    compared_attributes("ATTRS drops trailing whitespace unless the value ends in whitespace", "ATTRS", DEVICE + ATTRIBUTES),
    compared(
        "ATTRS drops trailing whitespace of a parent's attribute",
        block="C: add\nP: /devices/h/x\nP: /devices/h\nA: serial=7 \n",
        answer="event add /devices/h/x\nenv ACTION=add\nenv DEVPATH=/devices/h/x\n",
        holds=[
            'ATTRS{serial}=="7"',
            'ATTRS{serial}=="7 "',
            'KERNELS=="h", ATTRS{serial}!="7  "',
        ],
        fails=[
            'ATTRS{serial}=="7?"',
            'ATTRS{serial}=="7  "',
            'KERNELS=="h", ATTRS{serial}!="7"',
            'KERNELS=="h", ATTRS{serial}!="7 "',
        ],
    ),
    compared(
        "all other keys are compared with trailing whitespace",
        block="C: add \nP: /devices/x \nU: tty \nV: uart \nE: X=1 \nG: g \nS: s \nQ: /bin/p\nR: 0 r \n",
        answer="event add  /devices/x \nlink s \ntag g \n"
        "env ACTION=add \nenv DEVPATH=/devices/x \nenv SUBSYSTEM=tty \nenv X=1 \n",
        holds=[
            'ACTION=="add "',
            'DEVPATH=="/devices/x "',
            'KERNEL=="x "',
            'SUBSYSTEM=="tty "',
            'DRIVER=="uart "',
            'ENV{X}=="1 "',
            'TAG=="g "',
            'SYMLINK=="s "',
            'KERNELS=="x "',
            'SUBSYSTEMS=="tty "',
            'DRIVERS=="uart "',
            'TAGS=="g "',
            'PROGRAM=="/bin/p", RESULT=="r "',
            'ACTION!="add"',
            'ENV{X}!="1"',
            'TAG!="g"',
            'SYMLINK!="s"',
        ],
        fails=[
            'ACTION=="add"',
            'DEVPATH=="/devices/x"',
            'KERNEL=="x"',
            'SUBSYSTEM=="tty"',
            'DRIVER=="uart"',
            'ENV{X}=="1"',
            'TAG=="g"',
            'SYMLINK=="s"',
            'KERNELS=="x"',
            'SUBSYSTEMS=="tty"',
            'DRIVERS=="uart"',
            'TAGS=="g"',
            'PROGRAM=="/bin/p", RESULT=="r"',
        ],
    ),
]
