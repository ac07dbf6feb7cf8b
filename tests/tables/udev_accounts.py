"""`verify --udev --users FILE --groups FILE`: names of users and groups."""
from tables.kinds.marked import in_formats
from tables.kinds.row import Row
from tables.kinds.udev import as_udev

# users and groups that the cases know in addition to those that udev itself knows
KNOWN = {"passwd": "root:x:0:0::/root:/bin/sh\ndaemon:x:1:1::/:/bin/sh\n", "group": "root:x:0:\ndisk:x:6:\n"}
LISTS = ["--users", "passwd", "--groups=group"]

CASES = [
    ('unknown user', 'OWNER=":no:"\n', 'bad', '1e', '1:V25'),
    ('unknown group', 'GROUP=":no:"\n', 'bad', '1e', '1:V25'),
    ('empty: OWNER', 'OWNER=""\n', 'bad', '1e', '1:V25'),
    ('empty: GROUP', 'GROUP=""\n', 'bad', '1e', '1:V25'),
    ('names: OWNER "root"', 'OWNER="root"\n', 'good', '', ''),
    ('names: OWNER "daemon"', 'OWNER="daemon"\n', 'good', '', ''),
    ('names: OWNER "0"', 'OWNER="0"\n', 'good', '', ''),
    ('names: OWNER "12345"', 'OWNER="12345"\n', 'good', '', ''),
    ('names: OWNER "00"', 'OWNER="00"\n', 'bad', '1e', '1:V25'),
    ('names: OWNER "65535"', 'OWNER="65535"\n', 'bad', '1e', '1:V25'),
    ('names: OWNER "4294967294"', 'OWNER="4294967294"\n', 'good', '', ''),
    ('names: OWNER "4294967295"', 'OWNER="4294967295"\n', 'bad', '1e', '1:V25'),
    ('names: OWNER "nobody"', 'OWNER="nobody"\n', 'good', '', ''),
    ('names: OWNER "nogroup"', 'OWNER="nogroup"\n', 'bad', '1e', '1:V25'),
    ('names: OWNER "missing"', 'OWNER="missing"\n', 'bad', '1e', '1:V25'),
    ('names: OWNER "DAEMON"', 'OWNER="DAEMON"\n', 'bad', '1e', '1:V25'),
    ('names: OWNER " daemon"', 'OWNER=" daemon"\n', 'bad', '1e', '1:V25'),
    ('names: OWNER "[a"', 'OWNER="[a"\n', 'good', '', ''),
    ('names: OWNER "%k"', 'OWNER="%k"\n', 'good', '', ''),
    ('names: OWNER "%"', 'OWNER="%"\n', 'bad', '1e', '1:V6'),
    ('names: OWNER "+0"', 'OWNER="+0"\n', 'bad', '1e', '1:V25'),
    ('names: GROUP "root"', 'GROUP="root"\n', 'good', '', ''),
    ('names: GROUP "disk"', 'GROUP="disk"\n', 'good', '', ''),
    ('names: GROUP "0"', 'GROUP="0"\n', 'good', '', ''),
    ('names: GROUP "12345"', 'GROUP="12345"\n', 'good', '', ''),
    ('names: GROUP "00"', 'GROUP="00"\n', 'bad', '1e', '1:V25'),
    ('names: GROUP "65535"', 'GROUP="65535"\n', 'bad', '1e', '1:V25'),
    ('names: GROUP "4294967294"', 'GROUP="4294967294"\n', 'good', '', ''),
    ('names: GROUP "4294967295"', 'GROUP="4294967295"\n', 'bad', '1e', '1:V25'),
    ('names: GROUP "nobody"', 'GROUP="nobody"\n', 'bad', '1e', '1:V25'),
    ('names: GROUP "nogroup"', 'GROUP="nogroup"\n', 'good', '', ''),
    ('names: GROUP "missing"', 'GROUP="missing"\n', 'bad', '1e', '1:V25'),
    ('names: GROUP "DISK"', 'GROUP="DISK"\n', 'bad', '1e', '1:V25'),
    ('names: GROUP " disk"', 'GROUP=" disk"\n', 'bad', '1e', '1:V25'),
    ('names: GROUP "[a"', 'GROUP="[a"\n', 'good', '', ''),
    ('names: GROUP "%k"', 'GROUP="%k"\n', 'good', '', ''),
    ('names: GROUP "%"', 'GROUP="%"\n', 'bad', '1e', '1:V6'),
    ('names: GROUP "+0"', 'GROUP="+0"\n', 'bad', '1e', '1:V25'),
    ('names: two unknown users are equal', 'OWNER="missing", OWNER="other"\n', 'bad', '1e 1e 1w', '1:V17 1:V25'),
    ('names: by number and by name', 'OWNER="daemon", OWNER="1"\n', 'bad', '1w', '1:V17'),
]

# Lines of such files as the C library 2.36 reads them, which getent was asked, except for 00, which getent takes as a number.
PASSWD = """\
# comment:x:2:2::/:/bin/sh
 \tblank:x:3:3::/:/bin/sh
plus:x:+4:4::/:/bin/sh
+nis:x:5:5::/:/bin/sh
-nis:x:6:6::/:/bin/sh
short:x:7
bare:x:8:8
no number:x:a:9::/:/bin/sh
none:x::10::/:/bin/sh
group:x:11:a::/:/bin/sh
large:x:4294967296:12::/:/bin/sh
minus:x:4294967295:13::/:/bin/sh
old minus:x:65535:14::/:/bin/sh
00:x:15:15::/:/bin/sh
a.b c$:x:16:16::/:/bin/sh
twice:x:65535:17::/:/bin/sh
twice:x:18:18::/:/bin/sh
nobody:x:65535:19::/:/bin/sh
root:x:65535:20::/:/bin/sh
last:x:21:21::/:/bin/sh"""
GROUP = """\
# comment:x:2:
  blank:x:3:
bare:x:4
many:x:5:root,daemon
+nis:x:6:
short:x
none:x::
old minus:x:65535:
nogroup:x:65535:
last:x:7:"""


def unknown(kind, key, text, known, others):
    """A run over assignments of names to a key, some of which are known, from a file with this text, and the others are not."""
    names = [*known, *others]
    return Row(
        f"{kind} listed in a file",
        ["verify", "--udev", f"--{kind}", "list", "r.rules"],
        {"list": text, "r.rules": "".join(f'{key}="{name}"\n' for name in names)},
        output="1 files checked, 0 good, 1 bad\n",
        messages="".join(
            f"r.rules:{line}: V25 unknown user or group{': ' + name if name else ''}\n"
            for line, name in enumerate(names, 1) if name in others),
        status=1,
    )


OTHERS = [
    unknown("users", "OWNER", PASSWD, ["blank", "plus", "bare", "00", "nobody", "root", "last"],
            ["# comment", "comment", "+nis", "nis", "-nis", "short", "no number", "none", "group", "large", "minus",
             "old minus", "twice", "", "daemon"]),
    unknown("groups", "GROUP", GROUP, ["blank", "bare", "many", "nogroup", "root", "last"],
            ["comment", "+nis", "short", "none", "old minus", "daemon"]),
]

LOST = 'OWNER="missing", GROUP="missing"\n'
GOOD = "1 files checked, 1 good, 0 bad\n"
BAD = "1 files checked, 0 good, 1 bad\n"
REPORTED = "a.rules:1: V25 unknown user or group: missing\n"

# (what is asked, words, files, output, messages, status)
LISTED = [
    ("without lists no name is looked up", "verify --udev a.rules", {"a.rules": LOST}, GOOD, "", 0),
    ("only a list of users", "verify --udev --users l a.rules", {"l": "", "a.rules": 'OWNER="a", GROUP="b"\n'}, BAD,
     "a.rules:1: V25 unknown user or group: a\n", 1),
    ("only a list of groups", "verify --udev --groups l a.rules", {"l": "", "a.rules": 'OWNER="a", GROUP="b"\n'}, BAD,
     "a.rules:1: V25 unknown user or group: b\n", 1),
    ("users are not groups", "verify --udev --users l --groups=l a.rules", {"l": "missing:x:1:\n", "a.rules": LOST}, BAD, REPORTED, 1),
    ("with an empty list only root and nobody are known", "verify --udev --users=/dev/null --groups /dev/null a.rules",
     {"a.rules": 'OWNER="root", GROUP="root"\nOWNER="nobody", GROUP="nogroup"\n'}, GOOD, "", 0),
    ("V25 may be left out", "verify --udev --users /dev/null --ignore V25 a.rules", {"a.rules": LOST}, GOOD, "", 0),
    ("V25 may be left out by a comment", "verify --udev --users /dev/null --ignore comments a.rules",
     {"a.rules": "# devdry: ignore V25\n" + LOST}, GOOD, "", 0),
    ("without a list a comment about V25 ignores nothing", "verify --udev --ignore comments a.rules",
     {"a.rules": "# devdry: ignore V25\n" + LOST}, BAD, "a.rules:1: I1 nothing to ignore: V25\n", 1),
    ("the path of a list is used as given, also with a root", "verify --udev -r mnt --users l",
     {"l": "", "mnt/etc/udev/rules.d/a.rules": LOST}, BAD, REPORTED, 1),
    ("an unreadable list of users", "verify --udev --users none a.rules", {"a.rules": LOST}, "", "devdry: cannot read none\n", 3),
    ("an unreadable list of groups", "verify --udev --groups none a.rules", {"a.rules": LOST}, "", "devdry: cannot read none\n", 3),
    ("users are read before groups", "verify --udev --groups g --users u a.rules", {"a.rules": LOST}, "",
     "devdry: cannot read u\n", 3),
    ("lists are read before rules", "verify --udev --groups g a.rules", {}, "", "devdry: cannot read g\n", 3),
    ("a folder as a list", "verify --udev --users d a.rules", {"d/a": "", "a.rules": LOST}, "", "devdry: cannot read d\n", 3),
    ("an empty path as a list", ["verify", "--udev", "--users", "", "a.rules"], {"a.rules": LOST}, "", "devdry: cannot read \n", 3),
    ("--all does not continue after an unreadable list", "verify --all --udev --users none a.rules", {"a.rules": LOST}, "",
     "devdry: cannot read none\n", 3),
    ("--all with lists", "verify --all --udev --users l --groups l a.rules none.rules", {"l": "missing:x:1:1\n", "a.rules": LOST},
     GOOD, "devdry: cannot read none.rules: no such file\n", 3),
]

ROWS = [
    *as_udev(CASES, LISTS, KNOWN),
    *in_formats("V25", 'KERNEL=="sda", OWNER="<V25|missing>", GROUP="disk"', 'GROUP="<V25|>"', words=["--udev", *LISTS], beside=KNOWN),
    *OTHERS,
    *(Row(name, words, files, output=output, messages=messages, status=status)
      for name, words, files, output, messages, status in LISTED),
]
