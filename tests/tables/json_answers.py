"""`events --format=json`: one object for each answer, with what the lines of the answer say.

What is wanted follows docs/behaviour.md, Formats; nothing here was taken from the program.
"""
from tables.kinds.answered import block
from tables.kinds.json_answers import in_json, line, object_of
from tables.kinds.row import Row

STARTED = {"ACTION": "add", "DEVPATH": "/d"}
FROM = {"file": "r.rules", "line": 1}


def fault(name, text, output, message):
    """A run over one file without a rule that ends at a faulty block."""
    return Row(name, "events -r none --format=json r.rules", {"r.rules": "# none\n"}, text, output, message, 1)


MEMBERS = [
    in_json("no rule says anything", ["# none"], ([], {})),
    in_json("a line for each answer", ['SYMLINK+="a"'], ([], {"links": ["a"]}), (["E: A=1"], {"links": ["a"], "env": {"A": "1"}})),
    in_json("a name", ['NAME="n"'], (["U: net"], {"name": "n", "env": {"SUBSYSTEM": "net"}})),
    in_json("owner, group and mode", ['OWNER="o", GROUP="g", MODE="0660"'], ([], {"owner": "o", "group": "g", "mode": "0660"})),
    in_json("a priority is a number", ['OPTIONS="link_priority=-5"'], ([], {"priority": -5})),
    in_json("watched", ['OPTIONS="watch"'], ([], {"watch": True})),
    in_json("not watched", ['OPTIONS="nowatch"'], ([], {"watch": False})),
    in_json("kept in the database", ['OPTIONS="db_persist"'], ([], {"persist": True})),
    in_json("labels", ['SECLABEL{smack}+="u", SECLABEL{selinux}+="v"'],
            ([], {"labels": [{"module": "smack", "label": "u"}, {"module": "selinux", "label": "v"}]})),
    in_json("links and tags in the order of plain", ['SYMLINK+="b a", TAG+="t", TAG+="s"'], ([], {"links": ["b", "a"], "tags": ["t", "s"]})),
    in_json("properties by name, without hidden ones", ['ENV{Z}="1", ENV{.H}="2", ENV{B}="3"'], ([], {"env": {"Z": "1", "B": "3"}})),
    in_json("attributes and kernel parameters", ['ATTR{x}="1", SYSCTL{s}="2"'], ([], {"attr": {"x": "1"}, "sysctl": {"s": "2"}})),
    in_json("commands", ['RUN+="/bin/a b", RUN{builtin}+="kmod load"'],
            ([], {"run": [{"type": "program", "command": "/bin/a b"}, {"type": "builtin", "command": "kmod load"}]})),
    in_json("a note", ['IMPORT{builtin}="path_id"'], ([], {"notes": [{"file": "r.rules", "line": 1, "text": "builtin not run", "word": "path_id"}]})),
    in_json("a note about the block", [], (["U: m", "E: USEC_INITIALIZED=5"], {
        "env": {"SUBSYSTEM": "m", "USEC_INITIALIZED": "5"}, "notes": [{"text": "stored by udev", "word": "USEC_INITIALIZED"}]}), words=["--udev"]),
]

TEXTS = [
    in_json("a quote and a backslash", ['ENV{A}="a\\"b\\\\c"'], ([], {"env": {"A": 'a"b\\\\c'}})),
    in_json("what udev encodes stays as it is", [], (["E: ID_MODEL_ENC=USB\\x20Disk"], {"env": {"ID_MODEL_ENC": "USB\\x20Disk"}})),
    in_json("UTF-8 as it is", ['ENV{A}="\u00e9\u20ac"'], ([], {"env": {"A": "\u00e9\u20ac"}})),
    in_json("other bytes after U+FFFD", [], ([b"E: A=a\xe9\\\xff"], {"env": {"A": "\ufffda\\xE9\\x5C\\xFF"}})),
    in_json("a text that begins with U+FFFD", [], (["E: A=\ufffd"], {"env": {"A": "\ufffd\\xEF\\xBF\\xBD"}})),
    in_json("U+FFFD within a text", [], (["E: A=a\ufffd"], {"env": {"A": "a\ufffd"}})),
]

SOURCES = [
    in_json("each value with its rule", ['SYMLINK+="a", ENV{A}="1", MODE="0600", OPTIONS="watch", RUN+="/bin/a"'], (["E: B=1"], {
        "links": [{"value": "a", **FROM}],
        "env": {"A": {"value": "1", **FROM}, "B": {"value": "1"}},
        "mode": {"value": "0600", **FROM},
        "watch": {"value": True, **FROM},
        "run": [{"value": {"type": "program", "command": "/bin/a"}, **FROM}],
    }), words=["--sources"], sourced=True),
    in_json("a priority and a label with their rules", ['OPTIONS="link_priority=7", SECLABEL{smack}="u"', 'ATTR{x}="1", SYSCTL{s}="2"'], ([], {
        "priority": {"value": 7, **FROM},
        "labels": [{"value": {"module": "smack", "label": "u"}, **FROM}],
        "attr": {"x": {"value": "1", "file": "r.rules", "line": 2}},
        "sysctl": {"s": {"value": "2", "file": "r.rules", "line": 2}},
    }), words=["--sources"], sourced=True),
]

FAULTS = [
    fault("a faulty block after an answer", block("/d") + b"C: add\nX\n\n", line(object_of("/d", STARTED, {})), "block 2, line 2: unknown line\n"),
    Row("messages stay on the standard error", "events -r none --format=json r.rules", {"r.rules": 'FOO="x"\n'}, block("/d"),
        line(object_of("/d", STARTED, {})), "r.rules:1: V2 unknown key: FOO\n"),
]

ROWS = [*MEMBERS, *TEXTS, *SOURCES, *FAULTS]
