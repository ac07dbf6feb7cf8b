"""Makers of rules for trials of `events --udev`: matches, acts and assignments over the devices of tests/tables/kinds/udev_blocks.py.

Not made, because devdry answers otherwise on purpose (docs/differences.md), or because udevadm does not tell it:
- names of users and groups that do not exist, also when they are rendered;
- `driver`, `subsystem`, `uevent` and paths as attributes, a file where TEST looks for a folder, and SYSCTL that is there;
- the properties TAGS, CURRENT_TAGS and DEVLINKS, and a parent's properties that are not in its lines `E:`;
- a link `.`, vertical tabs, form feeds, code points that are not characters, and newlines, which part what udevadm prints;
- `--device` of hwdb without a modalias, paths of TEST that leave a folder that is not there, parts of a result that are not numbers, several links in `$links`, CONST, and `db_persist`.
"""
from udev_makers import odd

from tables.kinds.udev_blocks import BANG, BLOCKS, BOTH, DIGITS, DISK, FOLDERS, NET, PART, STAR, answering, printing

# what the programs answer; a command is rendered, and these are the texts that are left
ANSWERS = [("ata_id one", 0, "one"), ("ata_id xy", 0, "xy"), ("ata_id a b  c", 0, "a b c"), ("ata_id a=3bb=09c", 0, "a;b\tc"),
           ("ata_id exit 3 two", 3, "two"), ("ata_id", 0, ""), printing("A=1", "B=two words"), printing("ID_X=", 'B=""', "C='4 5'", "#D=1")]
PROGRAMS = ["ata_id one", "ata_id one", "ata_id $env{NONE}one", "ata_id x%cy", "ata_id a b  c", "ata_id a=3bb=09c", "ata_id exit 3 two", "ata_id"]
IMPORTED = [ANSWERS[6][0], ANSWERS[7][0], "ata_id exit 3 two", "ata_id $env{NONE}one", "path_id", "usb", "hwdb usb:v1"]
BUILTINS = ["hwdb usb:v1", "hwdb -p usb: v1", "hwdb --device=+none usb:v1", "hwdb -d x usb:v2", "hwdb --subsystem=usb", "hwdb", "hwdb usb:v2", "hwdb --none -f ID_X usb:v1",
            "path_id", "path", "usb_id", "input_id", "net_id", "btrfs"]
WORDS = ["a", "b", "ab", "1", "x y", " ", "a/b", "/dev/c", "../d", "/etc/e", "./f", "a//b/", ";", "'q'", "\xe9", "t\\x41", "a|b", "..", "%%", "$$", "e:f", "*[", "#?"]
SUBSTITUTIONS = """%k $kernel $kernel{x} %n $number $id %b $driver %d $name %D $devnode %N $devpath %p $major %M $minor %m %c $result{1} %c{2+}
    $parent %P $root $sys $env{A} $env{B} $env{ID_X} $env{ID_BUS} $env{NONE} $env{LONG} %E{.T} $attr{serial} $attr{size} $attr{model}
    $attr{[usb/usb1]serial} $attr{[usb/usb1]none} $attr{[usb/none]x} $sysfs{spaces} $attr{control} $tempnode $none 100%""".split()
PATTERNS = ["", "?*", "*", "a*", "*a*", "sd*|vd*", "[!a]*", "a|b", "|a", "*[0-9]", "\\a*", "[[:alpha:]]*", "x", "1", "7", "add|change"]
STARRED = ["q/*/x", "q/*/y", "*/x", "q/*", "q/a/x", "q/*/none", "[usb/usb1]q/*/x", "[usb/none]q/*/x", "[misc/star]*/x", "[usb/usb1]*/a/b/y", "f" * 1000]
PATHS = ["q/", "./model", "q//a", "q/a/../b", "q/b/../a/x", "../../serial", "../..", "q/*/", "./*/x", "q/a/..", "model/", "./q/a/x/.", "..//sda",
         "../thing", "[usb/usb1]../vendor", "[usb/usb1]./serial", "[usb/usb1].."]
FILES = ["serial", "size", "model", "blank", "spaces", "none", "idVendor", "[usb/usb1]serial", "[usb/usb1]none", "[usb/none]serial",
         "[block/sda]size", "[usb/usb1]idVendor", "[misc/star]model", "[pci/pci0]vendor"]
RENDERED = ["$kernel", "%", "si%none", "[usb/$kernel]x", "x%n", "n" * 508 + "%k"]
PROPERTIES = ["A", "B", "C", "ID_A", "ID_X", ".T", "ID_BUS", "A"]
NUMBERS = ["1", "0", "12345", "%M", "1%m", "$env{NONE}", "$attr{serial}", "$env{O}"]
OPTIONS = """string_escape=none string_escape=replace link_priority=5 link_priority=-010 link_priority=0x10 watch nowatch log_level=7
    static_node=a last_rule""".split()
MATCH, SET, LIST = ["==", "==", "!="], ["=", "=", ":="], ["+=", "+=", "=", ":=", "-="]
ESCAPES = ["\\t", "\\x01", "\\x7f", "\\xff", "\\u00e9", "\\x25k", "\\\\"]
# the attributes (None: no braces), the operators and the values that a key goes with
VALUES = {
    "ACTION": ([None], MATCH, ["add", "add|change", "remove", "?*"]),
    "KERNEL": ([None], MATCH, ["sda", "vda1", "thing", "star", "eth0", "both7", "*", "*", "?*", "*[0-9]", "cciss*"]),
    "SUBSYSTEM": ([None], MATCH, ["block", "misc", "net", "usb", "*", "class", "bus", "subsystem", "block|misc|net"]),
    "DEVPATH": ([None], MATCH, ["/devices/*", "*usb1*", "*"]),
    "KERNELS": ([None], MATCH, ["usb1", "pci0", "sda", "*", "?*"]),
    "SUBSYSTEMS": ([None], MATCH, ["usb", "usb", "pci", "*", "?*", ""]),
    "DRIVERS": ([None], MATCH, ["hub", "", "?*"]),
    "ATTRS": ([*FILES, *RENDERED], MATCH, ["7", "?*", "", "*", "2048", "0001"]),
    "TAGS": ([None], MATCH, ["ptag", "a", "?*", "*"]),
    "ATTR": ([*FILES, *FILES, *RENDERED, "q/*/x"], MATCH, ["7", "?*", "", "*", "2048", "Disk", "Disk|m", "  "]),
    "ENV": ([*PROPERTIES, "SUBSYSTEM", "DEVTYPE", "MAJOR"], MATCH, PATTERNS),
    "TAG": ([None], MATCH, ["a", "b", "?*", "", "a-b", "t*"]),
    "SYMLINK": ([None], MATCH, ["a", "a/b", "?*", "", "*"]),
    "NAME": ([None], MATCH, ["", "a", "?*", "*"]),
    "RESULT": ([None], MATCH, ["one", "a*", "", "?*", "xy"]),
    "TEST": ([None], MATCH, [*FILES, *STARRED, *PATHS, "q", "", "?*", "$env{NONE}", "si%none", "[usb/usb1]"]),
    "PROGRAM": ([None], MATCH, PROGRAMS),
}
MATCHES = "ACTION KERNEL SUBSYSTEM DEVPATH KERNELS SUBSYSTEMS SUBSYSTEMS DRIVERS ATTRS TAGS ATTR ATTR ENV ENV TAG SYMLINK NAME".split()
ACTS = "TEST PROGRAM PROGRAM RESULT IMPORT IMPORT IMPORT".split()
ASSIGNED = "OPTIONS OWNER GROUP MODE TAG TAG SECLABEL ENV ENV ENV NAME SYMLINK SYMLINK ATTR ATTR SYSCTL RUN RUN".split()
IMPORTS = {"builtin": BUILTINS, "program": IMPORTED, "parent": ["ID_*", "ID_B*", "NONE*", "ID_BUS|ID_BOTH", "ID_$env{NONE}BUS", "?D_*", ""]}


def text(chance):
    """A text with words and substitutions, now and then long."""
    parts = [chance.choice(chance.choice([WORDS, SUBSTITUTIONS])) for _ in range(chance.randint(0 if odd(chance, 0.1) else 1, 3))]
    return "".join(parts) + ("l" * chance.choice([100, 400, 505, 900]) if odd(chance, 0.03) else "")


def value_of(chance, key):
    """The attribute, the operator and the value of an assignment."""
    if key == "OPTIONS":
        return None, chance.choice(["=", "+=", ":="]), chance.choice(OPTIONS)
    if key in ("OWNER", "GROUP"):
        return None, chance.choice(SET), chance.choice([*NUMBERS, "daemon", "root", {"OWNER": "1", "GROUP": "disk"}[key]])
    if key == "MODE":
        return None, chance.choice(SET), chance.choice(["0640", "660", " 0600", "rw", "0888", "17777", "06%m4", "$env{MODE}", "$env{NONE}", "%M"])
    if key == "TAG":
        return None, chance.choice(LIST), chance.choice(["a", "b", "a-b", "t%n", text(chance)])
    if key == "SECLABEL":
        return chance.choice(["smack", "selinux"]), chance.choice(["=", "+=", "+="]), text(chance)
    if key == "ENV":
        return chance.choice(PROPERTIES if odd(chance, 0.98) else ["DEVNAME", "TAGS"]), chance.choice(["=", "=", "+=", ":="]), text(chance)
    if key == "NAME":
        return None, chance.choice(SET), text(chance) or "n"
    if key == "SYMLINK":
        return None, chance.choice(LIST), text(chance)
    if key == "ATTR":
        return chance.choice([*FILES[:3], *STARRED, *FILES, "$kernel"]), chance.choice(["=", "=", "+="]), text(chance)
    if key == "SYSCTL":
        return chance.choice(["kernel.$kernel", "net/ipv4.x", "/a//b.c", "a.b/c", "x%"]), "=", text(chance)
    if odd(chance, 0.3):
        return "builtin", chance.choice(["+=", "+=", "=", ":="]), chance.choice(["kmod load $env{A}", "uaccess", "k"])
    return chance.choice([None, "program"]), chance.choice(["+=", "+=", "+=", "=", ":="]), chance.choice(["/bin/a ", "b ", ""]) + text(chance)


def written(key, attribute, operator, value):
    """A token as it is written."""
    return key + ("" if attribute is None else f"{{{attribute}}}") + operator + '"' + value.replace('"', '\\"') + '"'


def match(chance, key):
    """A match, or an act."""
    if key == "IMPORT":
        kind = chance.choice(["builtin", "program", "program", "parent"])
        return written(key, kind, chance.choice(["=", "==", "==", "!="]), chance.choice(IMPORTS[kind]))
    attributes, operators, values = VALUES[key]
    operator, value = chance.choice(operators), chance.choice(values)
    if key in MATCHES and odd(chance, 0.05):
        operator, value = operator + "i", value.upper()
    return written(key, chance.choice(attributes), operator, value)


def assignment(chance, key):
    """An assignment, now and then with an escape."""
    attribute, operator, value = value_of(chance, key)
    if key not in ("OWNER", "GROUP") and odd(chance, 0.05):
        return written(key, attribute, operator + "e", value.replace("\\", "\\\\") + chance.choice(ESCAPES))
    return written(key, attribute, operator, value)


def rule(chance):
    """A rule: matches, acts and assignments, some keys of which are given twice."""
    tokens = [match(chance, chance.choice(MATCHES)) for _ in range(chance.choice([0, 0, 0, 1, 1, 2]))]
    tokens += [match(chance, chance.choice(ACTS)) for _ in range(chance.choice([0, 0, 0, 0, 1, 2]))]
    for _ in range(chance.choice([0, 1, 2, 2, 3])):
        key = chance.choice(ASSIGNED)
        tokens += [assignment(chance, key) for _ in range(2 if odd(chance, 0.35) else 1)]
    if odd(chance, 0.3):
        chance.shuffle(tokens)
    if odd(chance, 0.07):
        tokens.append('GOTO="end"')
    return ", ".join(tokens) or 'TAG+="none"'


def made_events(chance):
    """A file of rules, and the block of an event that answers its programs."""
    first = ['ENV{O}="daemon", ENV{MODE}="0604"', f'ENV{{LONG}}="{"l" * chance.choice([1, 50, 250, 500])}"'] if odd(chance, 0.7) else []
    # (of a device without a tag udevadm tells those of before)
    rules = first + [rule(chance) for _ in range(chance.randint(2, 8))] + ['LABEL="end", TAG+="end", ENV{END}="%k $id $env{A} $name"']
    block = chance.choice(BLOCKS + [DISK, FOLDERS, FOLDERS, PART, BOTH, BOTH, NET, NET, BANG, DIGITS, STAR])
    if odd(chance, 0.25):
        block = block.replace("C: add", "C: " + chance.choice(["change", "remove"]), 1)
    return "\n".join(rules) + "\n", answering(block, *ANSWERS)
