"""`files`: what becomes of each file of the folders, and why."""
from tables.kinds.folders import ETC, ETC_HWDB, HWDB, LIB, LIB_HWDB, LOCAL, RULES, RUN, folders, unread
from tables.kinds.row import FOLDER, PIPE, Begins, Link, Moded, Row

RULE = 'TAG="t"\n'


def listed(name, files, *lines, messages="", status=0, plain=False):
    """A run over mnt with these files, and each line of the output: the path, and what becomes of it."""
    return Row(name, "files -r mnt", files, output="".join(f"{path}: {reported}\n" for path, reported in lines), messages=messages,
    status=status, plain=plain)


def hidden(path):
    return f"hidden by {path}"


def over(reason):
    return f"passed over: {reason}"


# An image as distributions have it: two files with one name, a mask, a file with another suffix, and a database.
IMAGE = {
    f"{ETC}/60-a.rules": RULE,
    f"{ETC}/80-c.rules": Link("/dev/null"),
    f"{ETC}/README": "",
    f"{LIB}/60-a.rules": RULE,
    f"{LIB}/70-b.rules": RULE,
    f"{LIB}/80-c.rules": RULE,
    f"{LIB_HWDB}/20-usb.hwdb": "m\n A=1\n",
    f"{ETC_HWDB}/90-mine.hwdb": "m\n A=2\n",
}
IMAGE_REPORTED = """\
mnt/etc/udev/rules.d/60-a.rules: used
mnt/usr/lib/udev/rules.d/60-a.rules: hidden by mnt/etc/udev/rules.d/60-a.rules
mnt/usr/lib/udev/rules.d/70-b.rules: used
mnt/etc/udev/rules.d/80-c.rules: masked
mnt/usr/lib/udev/rules.d/80-c.rules: hidden by mnt/etc/udev/rules.d/80-c.rules
mnt/etc/udev/rules.d/README: passed over: name does not end in .rules
mnt/usr/lib/udev/hwdb.d/20-usb.hwdb: used
mnt/etc/udev/hwdb.d/90-mine.hwdb: used
"""

ORDER = [
    Row("an image", "files -r mnt", IMAGE, output=IMAGE_REPORTED),
    Row("an image with --root", "files --root=mnt", IMAGE, output=IMAGE_REPORTED),
    listed("files of all folders are sorted by name, byte by byte", {f"{LIB}/9.rules": RULE, f"{ETC}/10.rules": RULE, f"{RUN}/A.rules": RULE,
        f"{LOCAL}/a.rules": RULE,
                                                      f"{ETC}/.b.rules": RULE},
           (f"{ETC}/.b.rules", "used"), (f"{ETC}/10.rules", "used"), (f"{LIB}/9.rules", "used"), (f"{RUN}/A.rules", "used"),
           (f"{LOCAL}/a.rules", "used")),
    listed("files of one name are sorted by rank", {f"{folder}/a.rules": RULE for folder in (LIB, LOCAL, RUN, ETC)},
           (f"{ETC}/a.rules", "used"), *((f"{folder}/a.rules", hidden(f"{ETC}/a.rules")) for folder in (RUN, LOCAL, LIB))),
    listed("the first existing file hides the others", {f"{LIB}/a.rules": RULE, f"{RUN}/a.rules": RULE, f"{ETC}/b.rules": RULE},
           (f"{RUN}/a.rules", "used"), (f"{LIB}/a.rules", hidden(f"{RUN}/a.rules")), (f"{ETC}/b.rules", "used")),
    listed("rules before the database", {f"{ETC_HWDB}/a.hwdb": "m\n A=1\n", f"{LIB}/z.rules": RULE}, (f"{LIB}/z.rules", "used"),
        (f"{ETC_HWDB}/a.hwdb", "used")),
    listed("two files of the database", {f"{ETC_HWDB}/a.hwdb": "m\n A=1\n", f"{LIB_HWDB}/a.hwdb": "m\n A=1\n"},
           (f"{ETC_HWDB}/a.hwdb", "used"), (f"{LIB_HWDB}/a.hwdb", hidden(f"{ETC_HWDB}/a.hwdb"))),
    listed("a name with the other suffix hides nothing", {f"{ETC}/a.rules": RULE, f"{ETC_HWDB}/a.hwdb": "m\n A=1\n",
        f"{LIB}/a.hwdb": ""},
           (f"{LIB}/a.hwdb", over("name does not end in .rules")), (f"{ETC}/a.rules", "used"), (f"{ETC_HWDB}/a.hwdb", "used")),
]

MASKS = [
    listed("an empty file", {f"{RUN}/a.rules": "", f"{LIB}/a.rules": RULE}, (f"{RUN}/a.rules", "masked"), (f"{LIB}/a.rules",
        hidden(f"{RUN}/a.rules"))),
    listed("an empty file that hides nothing", {f"{LIB}/a.rules": ""}, (f"{LIB}/a.rules", "masked")),
    listed("a symlink to an empty file", {f"{ETC}/a.rules": Link("../empty"), "mnt/etc/udev/empty": ""}, (f"{ETC}/a.rules",
        "masked")),
    listed("a symlink to a file with rules", {f"{ETC}/a.rules": Link("../some"), "mnt/etc/udev/some": RULE}, (f"{ETC}/a.rules",
        "used")),
    listed("a mask in the database", {f"{ETC_HWDB}/a.hwdb": Link("/dev/null"), f"{LIB_HWDB}/a.hwdb": "m\n A=1\n"},
           (f"{ETC_HWDB}/a.hwdb", "masked"), (f"{LIB_HWDB}/a.hwdb", hidden(f"{ETC_HWDB}/a.hwdb"))),
    listed("a hidden mask", {f"{ETC}/a.rules": RULE, f"{LIB}/a.rules": Link("/dev/null")}, (f"{ETC}/a.rules", "used"),
        (f"{LIB}/a.rules", hidden(f"{ETC}/a.rules"))),
    listed("a file of one newline is not a mask", {f"{LIB}/a.rules": "\n"}, (f"{LIB}/a.rules", "used")),
]

SKIPPED = [
    listed("names that don't end in the suffix", {f"{ETC}/a.rules.rpmnew": RULE, f"{ETC}/arules": RULE, f"{ETC}/b.RULES": RULE,
        f"{ETC}/c.rules": RULE,
                                                 f"{LIB_HWDB}/d.rules": ""},
           (f"{ETC}/a.rules.rpmnew", over("name does not end in .rules")), (f"{ETC}/arules", over("name does not end in .rules")),
           (f"{ETC}/b.RULES", over("name does not end in .rules")), (f"{ETC}/c.rules", "used"), (f"{LIB_HWDB}/d.rules",
           over("name does not end in .hwdb"))),
    listed("a folder, and a symlink to a folder", {f"{ETC}/a.rules/b.rules": RULE, f"{ETC}/c.rules": Link("a.rules"),
        f"{ETC}/d.rules": RULE},
           (f"{ETC}/a.rules", over("a folder")), (f"{ETC}/c.rules", over("a folder")), (f"{ETC}/d.rules", "used")),
    listed("a folder hides nothing", {f"{ETC}/a.rules": FOLDER, f"{LIB}/a.rules": RULE}, (f"{ETC}/a.rules", over("a folder")),
        (f"{LIB}/a.rules", "used")),
    listed("a broken symlink", {f"{ETC}/a.rules": Link("/no/where"), f"{ETC}/b.rules": RULE},
           (f"{ETC}/a.rules", over("link to nothing: /no/where")), (f"{ETC}/b.rules", "used"),
           messages=unread(f"{ETC}/a.rules", "link to nothing: /no/where"), status=3),
    listed("a pipe", {f"{ETC}/a.rules": PIPE, f"{ETC}/b.rules": RULE}, (f"{ETC}/a.rules", over("not a regular file")),
        (f"{ETC}/b.rules", "used"), messages=unread(f"{ETC}/a.rules", "not a regular file"), status=3),
    listed("a pipe without the suffix", {f"{ETC}/pipe": PIPE, f"{ETC}/b.rules": RULE}, (f"{ETC}/b.rules", "used"),
           (f"{ETC}/pipe", over("name does not end in .rules"))),
    listed("a symlink to itself", {f"{LIB_HWDB}/a.hwdb": Link("a.hwdb")}, (f"{LIB_HWDB}/a.hwdb", over("input/output error")),
           messages=unread(f"{LIB_HWDB}/a.hwdb", "input/output error") + folders({LIB_HWDB: None}, of=RULES + HWDB), status=3),
    listed("a file without permission", {f"{LIB}/a.rules": Moded(0o000, RULE), f"{LIB}/b.rules": RULE},
           (f"{LIB}/a.rules", over("permission denied")), (f"{LIB}/b.rules", "used"),
           messages=unread(f"{LIB}/a.rules", "permission denied"), status=3, plain=True),
    listed("a folder without permission", {LIB: Moded(0o000, FOLDER), f"{ETC}/b.rules": RULE}, (f"{ETC}/b.rules", "used"),
           messages=unread(LIB, "permission denied"), status=3, plain=True),
    listed("names that are escaped", {f"{ETC}/a\nb.rules": RULE, f"{LIB}/a\nb.rules": RULE, f"{LIB}/c\\.rules": Link("x\ty")},
           (f"{ETC}/a\\x0Ab.rules", "used"), (f"{LIB}/a\\x0Ab.rules", hidden(f"{ETC}/a\\x0Ab.rules")),
           (f"{LIB}/c\\x5C.rules", over("link to nothing: x\\x09y")),
           messages=unread(f"{LIB}/c\\x5C.rules", "link to nothing: x\\x09y"), status=3),
]

NOTHING = [
    listed("no folder", {}, messages=folders({}, of=RULES + HWDB), status=1),
    listed("empty folders", {ETC: FOLDER, LIB_HWDB: FOLDER}, messages=folders({ETC: "empty", LIB_HWDB: "empty"},
        of=RULES + HWDB), status=1),
    listed("files only below lib", {"mnt/lib/udev/rules.d/a.rules": RULE, "mnt/lib/udev/hwdb.d/a.hwdb": ""}, status=1,
           messages=folders({}, of=RULES + HWDB) + "devdry: mnt/lib/udev/rules.d has 1 file\n"
           "devdry: mnt/lib/udev/hwdb.d has 1 file\n"),
    listed("lib is a symlink, and a rules file a broken symlink", {"mnt/lib": Link("usr/lib"), f"{LIB}/a.rules": Link("no")},
           (f"{LIB}/a.rules", over("link to nothing: no")),
           messages=unread(f"{LIB}/a.rules", "link to nothing: no") + folders({LIB: None}, of=RULES + HWDB), status=3),
    listed("a file in place of etc", {"mnt/etc": "", f"{LIB}/a.rules": RULE}, (f"{LIB}/a.rules", "used"),
           messages="".join(unread(path, "not a folder") for path in (ETC, ETC_HWDB)), status=3),
    listed("a symlink to itself in place of etc", {"mnt/etc": Link("etc"), f"{LIB}/a.rules": RULE}, (f"{LIB}/a.rules", "used"),
           messages="".join(unread(path, "input/output error") for path in (ETC, ETC_HWDB)), status=3),
    listed("a folder with a name that is not UTF-8", {f"{ETC}/".encode() + b"\xff.rules": RULE, f"{LIB}/a.rules": RULE},
           (f"{LIB}/a.rules", "used"), messages=unread(ETC, "a name is not UTF-8"), status=3),
    listed("a folder that is a symlink out of the root", {ETC: Link("/no/such/rules.d")},
        messages=unread(ETC, "link to nothing: /no/such/rules.d") + folders({ETC: None}, of=RULES + HWDB), status=3),
    listed("a folder that is an absolute symlink in the root", {ETC: Link("/usr/lib/udev/rules.d"), f"{LIB}/a.rules": RULE},
        (f"{ETC}/a.rules", "used"), (f"{LIB}/a.rules", hidden(f"{ETC}/a.rules"))),
    listed("a file that is an absolute symlink in the root", {f"{ETC}/a.rules": Link("/some"), "mnt/some": RULE, f"{LIB}/a.rules": RULE},
        (f"{ETC}/a.rules", "used"), (f"{LIB}/a.rules", hidden(f"{ETC}/a.rules"))),
    listed("a mask by a symlink to a mask", {f"{ETC}/a.rules": Link("/b"), "mnt/b": Link("/dev/null"), f"{LIB}/a.rules": RULE},
        (f"{ETC}/a.rules", "masked"), (f"{LIB}/a.rules", hidden(f"{ETC}/a.rules"))),
    listed("a name below a mask", {f"{ETC}/a.rules": Link("/b/c"), "mnt/b": Link("/dev/null"), f"{LIB}/a.rules": RULE},
        (f"{ETC}/a.rules", over("not a regular file")), (f"{LIB}/a.rules", "used"),
        messages=unread(f"{ETC}/a.rules", "not a regular file"), status=3),
    listed("only database files", {f"{LIB_HWDB}/a.hwdb": "m\n A=1\n"}, (f"{LIB_HWDB}/a.hwdb", "used")),
]

ROWS = [
    *ORDER,
    *MASKS,
    *SKIPPED,
    *NOTHING,
    Row("files takes no file", "files a.rules", IMAGE, messages=Begins(b"error: unexpected argument 'a.rules' found\n"),
        status=2),
    Row("files takes no --all", "files --all", IMAGE, messages=Begins(b"error: unexpected argument '--all' found\n"), status=2),
]
