"""Unknown names, and the known ones that `--format=human` asks for instead. What is wanted was written by hand."""
from tables.kinds.marked import TEXTS, sentence
from tables.kinds.row import Row


def told(name, line, code, word, said, options="", also=()):
    """A run over a rules file of this line: the message of this code, marked at this word, with what is said below it."""
    at = line.index(word)
    return Row(name, f"verify --no-summary --format=human {options} r.rules", {"r.rules": f"{line}\n"}, status=1,
               messages=f"r.rules:1:{at + 1}: error: {TEXTS[code]} [{code}]\n  {line}\n  {' ' * at}^{'~' * (len(word) - 1)}\n  = {said}\n" + "".join(also))


def meant(name, line, code, word, known, **more):
    """The same, with a known name that may have been meant."""
    return told(name, line, code, word, f"Did you mean {known}?", **more)


def unmeant(name, line, code, word, **more):
    """The same, with no known name that is near: the sentence is that of docs/messages.md."""
    return told(name, line, code, word, sentence(code).decode(), **more)


KEYS = [
    meant("a letter left out of a key", 'SYMLNK+="disk"', "V2", "SYMLNK", "SYMLINK"),
    meant("a letter too many in a key", 'SUBSYSTEMM=="block", TAG+="disk"', "V2", "SUBSYSTEMM", "SUBSYSTEM"),
    meant("two letters of a key that are swapped", 'NMAE="eth7"', "V2", "NMAE", "NAME"),
    meant("a key in small letters", 'symlink+="disk"', "V2", "symlink", "SYMLINK"),
    meant("a key in small letters, one of them wrong", 'kernal=="sda", TAG+="disk"', "V2", "kernal", "KERNEL"),
    meant("a key that is as near to two: the first of them", 'ATTRZ{size}=="1", TAG+="disk"', "V2", "ATTRZ", "ATTRS"),
    meant("a key that is nearer to the second of two", 'KERNELSS=="sda", TAG+="disk"', "V2", "KERNELSS", "KERNELS"),
    unmeant("a key that is near none", 'FOO="1"', "V2", "FOO"),
    unmeant("two letters of a short key that are swapped", 'EVN{A}="1"', "V2", "EVN"),
    unmeant("a key that is too far from a long one", 'SYMBOLIC+="1"', "V2", "SYMBOLIC"),
    unmeant("a key of 40 letters", f'{"SYMLINKS" * 5}+="1"', "V2", "SYMLINKS" * 5),
]

VALUES = [
    meant("a letter left out of an option", 'OPTIONS+="wach"', "V5", "wach", "watch"),
    meant("a letter left out of an option with a value", 'OPTIONS+="link_prority=5"', "V5", "link_prority=5", "link_priority"),
    meant("an option in capitals", 'OPTIONS+="DB_PERSIST"', "V5", "DB_PERSIST", "db_persist"),
    unmeant("a known option with a bad value", 'OPTIONS+="link_priority=high"', "V5", "link_priority=high"),
    unmeant("an option of old versions of udev", 'OPTIONS+="last_rule"', "V5", "last_rule"),
    meant("a letter left out of a substitution", 'SYMLINK+="by/$kernl"', "V6", "by/$kernl", "kernel"),
    meant("a letter left out of a substitution with braces", 'SYMLINK+="$atr{serial}"', "V6", "$atr{serial}", "attr"),
    meant("a substitution in capitals", 'SYMLINK+="$KERNEL"', "V6", "$KERNEL", "kernel"),
    meant("the second substitution, after a sign and a known one", 'SYMLINK+="$$maj/$kernel/$numbr"', "V6", "$$maj/$kernel/$numbr", "number"),
    unmeant("a substitution that is near none", 'SYMLINK+="cd/$device"', "V6", "cd/$device"),
    unmeant("a substitution of old versions of udev", 'SYMLINK+="$tempnode"', "V6", "$tempnode"),
    unmeant("an unknown letter after a percent sign", 'SYMLINK+="%kernal-%q"', "V6", "%kernal-%q"),
    unmeant("a sign alone", 'SYMLINK+="a$"', "V6", "a$"),
]

AS_UDEV = [
    meant("a letter left out of a builtin", 'RUN{builtin}+="kmd load"', "V15", "kmd load", "kmod", options="--udev"),
    meant("a sign left out of a builtin, after a blank", 'IMPORT{builtin}=" usbid --x"', "V15", " usbid --x", "usb_id", options="--udev"),
    unmeant("a builtin that is near none", 'IMPORT{builtin}="nothing"', "V15", "nothing", options="--udev"),
    meant("a letter left out of a substitution in an attribute", 'ATTR{$kernl/size}=="1", TAG+="disk"', "V21", "$kernl/size", "kernel", options="--udev"),
]

# In the other formats nothing asks.
ELSEWHERE = [
    Row("the plain line has no question", "verify --no-summary r.rules", {"r.rules": 'SYMLNK+="disk"\n'},
        messages="r.rules:1: V2 unknown key: SYMLNK\n", status=1),
    Row("the line of gcc has no question", "verify --no-summary --format=gcc r.rules", {"r.rules": 'SYMLNK+="disk"\n'},
        messages="r.rules:1:1: error: unknown key: SYMLNK [V2]\n", status=1),
]

ROWS = [*KEYS, *VALUES, *AS_UDEV, *ELSEWHERE]
