"""`--format=human`: what people are told about faulty blocks, and about what can't be read.

What is wanted follows the reference, docs/behaviour.md; nothing here was taken from the program.
"""
from tables.kinds.index_bytes import EMPTY
from tables.kinds.people import BLOCKS, FILES, link_to
from tables.kinds.row import FOLDER, PIPE, Link, Moded, Row

EVENTS = "events --format=human -r none"
RULES = "usr/lib/udev/rules.d"
NONE = {"old/etc/udev/rules.d/a.rules": "", "new/etc/udev/rules.d/a.rules": ""}
BARE = "C: add\nP: /d\n"
ANSWER = "event add /d\nenv ACTION=add\nenv DEVPATH=/d\n\n"
TAGGED = 'TAG+="t"\n'
NO_BLOCK = "devdry: no event block in the input\n"
GOOD, BAD = "1 files checked, 1 good, 0 bad\n", "1 files checked, 0 good, 1 bad\n"

# a block for each fault, and its line
FAULTS = {
    "no action": ("P: /d\n", 1),
    "no device": ("C: add\n", 1),
    "unknown line": ("C: add\n# none\n", 2),
    "given twice": ("C: add\nC: add\n", 2),
    "path": ("C: add\nP: d\n", 2),
    "number": ("C: add\nP: /d\nD: 8\n", 3),
    "pair": ("C: add\nP: /d\nE: A\n", 3),
    "nul byte": ("C: add\nP: /d\nE: A=\0\n", 3),
    "too long": ("C: add\nP: /d\nE: A=" + "a" * 65_536 + "\n", 3),
    "too deep": ("C: add\n" + "".join(f"P: {'/d' * count}\n" for count in range(65, 0, -1)), 66),
}

# inputs without a block
NOTHING = {"nothing": "", "an empty line": "\n", "empty lines": "\n" * 5_000}

ON_BLOCKS = [
    *(Row(f"events, {text}", EVENTS, {}, block, messages=f"block 1, line {line}: {text}\n" + BLOCKS[text], status=1)
      for text, (block, line) in FAULTS.items()),
    *(Row(f"compare, {text}", "compare --format=human old new", NONE, block, messages=f"block 1, line {line}: {text}\n" + BLOCKS[text], status=1)
      for text, (block, line) in FAULTS.items()),
    *(Row(f"events --format={form}, {text}", f"events --format={form} -r none", {}, block, messages=f"block 1, line {line}: {text}\n", status=1)
      for form in ("plain", "json") for text, (block, line) in FAULTS.items()),
    Row("the answers before a faulty block are plain lines", EVENTS, {}, BARE + "\nC: add\n", ANSWER, "block 2, line 1: no device\n" + BLOCKS["no device"], 1),
    Row("messages are plain lines", f"{EVENTS} a.rules", {"a.rules": "FOO\n"}, "C: add\n", "",
        "a.rules:1: V1 bad syntax: FOO\nblock 1, line 1: no device\n" + BLOCKS["no device"], 1),
    Row("no block is faulty", f"{EVENTS} a.rules", {"a.rules": "FOO\n"}, BARE, ANSWER, "a.rules:1: V1 bad syntax: FOO\n"),
    Row("with --sources", f"{EVENTS} --sources", {}, "C: add\n", "", "block 1, line 1: no device\n" + BLOCKS["no device"], 1),
    Row("with --questions", f"{EVENTS} --questions", {}, BARE + "\nC: add\n", "event add /d\n\n",
        "block 2, line 1: no device\n" + BLOCKS["no device"], 1),
    Row("with --unused", f"{EVENTS} --unused a.rules", {"a.rules": TAGGED}, "C: add\n", "", "block 1, line 1: no device\n" + BLOCKS["no device"], 1),
    *(Row(f"events, {what} as input", EVENTS, {}, text, messages=NO_BLOCK) for what, text in NOTHING.items()),
    *(Row(f"compare, {what} as input", "compare --format=human old new", NONE, text, messages=NO_BLOCK) for what, text in NOTHING.items()),
    *(Row(f"{command}, no block, and the format is for others", command, NONE) for command in
      ("events -r none", "events --format=plain -r none", "events --format=json -r none", "compare old new", "compare --format=json old new")),
    Row("events --all, no block", "events --all -r old", NONE, "\n", messages=NO_BLOCK),
    Row("compare --all, no block", "compare --all old new", NONE, "\n", messages=NO_BLOCK),
    Row("compare --rules, no block", "compare --rules old.rules new.rules", {"old.rules": "", "new.rules": ""}, messages=NO_BLOCK),
    Row("no block, after messages", f"{EVENTS} a.rules", {"a.rules": "FOO\n"}, messages="a.rules:1: V1 bad syntax: FOO\n" + NO_BLOCK),
    Row("no block, and the rules that none met", f"{EVENTS} --unused a.rules", {"a.rules": TAGGED}, "", "unused a.rules:1: not reached\n", NO_BLOCK),
    Row("a difference before a faulty block", "compare --format=human old new", {**NONE, "new/etc/udev/rules.d/a.rules": TAGGED},
        BARE + "\nC: add\n", "event add /d\n+tag t\n\n", "block 2, line 1: no device\n" + BLOCKS["no device"], 1),
]


def lost(path, advice, words, files, name, **more):
    """A run that ends at a path that can't be read."""
    return Row(name, words, files, messages=f"devdry: cannot read {path}\n" + advice, status=3, **more)


ON_FILES = [
    *(lost("none.rules", FILES["no such file"], f"{command} none.rules", {}, f"a file that is not there, {command}", input=BARE)
      for command in ("verify --format=human", "verify --format=human --color=always", EVENTS)),
    lost("none.hwdb", FILES["no such file"], "update --format=human none.hwdb", {}, "a database file that is not there"),
    *(Row(f"a file that is not there, {command}", f"{command} none.rules", {}, BARE, messages="devdry: cannot read none.rules\n", status=3)
      for command in ("verify", "verify --format=gcc", "verify --format=json", "events --format=json -r none", "events --format=plain -r none")),
    lost("a.rules", link_to("no\\x0Awhere"), "verify --format=human a.rules", {"a.rules": Link("no\nwhere")}, "a link to nothing"),
    lost("a.rules", FILES["input/output error"], "verify --format=human a.rules", {"a.rules": Link("a.rules")}, "a link to itself"),
    lost("a.rules", FILES["not a regular file"], "verify --format=human a.rules", {"a.rules": PIPE}, "a pipe"),
    lost("a.rules", FILES["permission denied"], "verify --format=human a.rules", {"a.rules": Moded(0o000)}, "a forbidden file", plain=True),
    lost("a.rules/b", FILES["not a regular file"], "verify --format=human a.rules/b", {"a.rules": ""}, "a path below a file"),
    lost(f"mnt/{RULES}/b.rules", link_to("/none"), "verify --format=human -r mnt", {f"mnt/{RULES}/a.rules": "", f"mnt/{RULES}/b.rules": Link("/none")},
         "a link to nothing in a folder"),
    lost(f"mnt/{RULES}/b.rules", link_to("/none"), "events --format=human -r mnt", {f"mnt/{RULES}/b.rules": Link("/none")},
         "a link to nothing in a folder, events", input=BARE),
    lost(f"mnt/{RULES}", FILES["not a folder"], "verify --format=human -r mnt", {f"mnt/{RULES}": ""}, "a file in place of a folder"),
    lost("i", FILES["no such file"], "events --format=human --index i a.rules", {"a.rules": ""}, "an index that is not there", input=BARE),
    lost("i", FILES["not a regular file"], "events --format=human --index i a.rules", {"a.rules": "", "i": FOLDER}, "a folder as an index", input=BARE),
    lost("none.rules", FILES["no such file"], "verify --format=human --with none.rules -r mnt", {f"mnt/{RULES}/a.rules": ""}, "an added file that is not there"),
    lost(f"old/{RULES}/b.rules", link_to("none"), "compare --format=human old new", {f"old/{RULES}/b.rules": Link("none"), **NONE}, "compare, the old root", input=BARE),
    lost(f"new/{RULES}/b.rules", link_to("none"), "compare --format=human old new", {f"new/{RULES}/b.rules": Link("none"), **NONE}, "compare, the new root", input=BARE),
    lost("i", FILES["no such file"], "compare --format=human --index i old new", NONE, "compare, an index that is not there", input=BARE),
]


def passed(words, output, status, *unread, files, **more):
    """A run that goes on after what can't be read: each path with its reason and what people are told."""
    return Row(f"{words}: {unread[0][1]}", words, files, output=output, status=status,
               messages="".join(f"devdry: cannot read {path}: {reason}\n{advice}" for path, reason, advice in unread), **more)


PASSED = [
    passed("verify --all --format=human none.rules a.rules", GOOD, 3, ("none.rules", "no such file", FILES["no such file"]), files={"a.rules": ""}),
    passed("update --all --format=human a.hwdb p.hwdb", EMPTY, 3, ("p.hwdb", "not a regular file", FILES["not a regular file"]),
           files={"a.hwdb": "", "p.hwdb": PIPE}),
    passed("events --all --format=human -r mnt", ANSWER.replace("env ACTION", "tag t\nenv ACTION"), 3,
           (f"mnt/{RULES}/b.rules", "link to nothing: /none", link_to("/none")), (f"mnt/{RULES}/c.rules", "not a regular file", FILES["not a regular file"]),
           files={f"mnt/{RULES}/a.rules": TAGGED, f"mnt/{RULES}/b.rules": Link("/none"), f"mnt/{RULES}/c.rules": PIPE}, input=BARE),
    passed("compare --all --format=human --index i old new", "", 3, ("i", "no such file", FILES["no such file"]), files=NONE, input=BARE),
]

ROWS = [*ON_BLOCKS, *ON_FILES, *PASSED]
