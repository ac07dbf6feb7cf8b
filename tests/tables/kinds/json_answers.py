"""Rows of `events --format=json`: one object a line, and the plain lines that an object stands for."""
import json
import re

from tables.kinds.answered import block
from tables.kinds.row import Row, as_bytes

# The members of every answer after those that are only there if they were assigned.
EMPTY = {"labels": [], "links": [], "tags": [], "env": {}, "attr": {}, "sysctl": {}, "run": [], "notes": [], "why": []}
ORDER = ["event", "path", "name", "owner", "group", "mode", "priority", "watch", "persist", *EMPTY]


def line(members):
    """An object on a line, without blanks between its parts."""
    return json.dumps(members, ensure_ascii=False, separators=(",", ":")).encode() + b"\n"


def object_of(path, started, members):
    """An answer to the action `add` at a path: the members in their order, `env` by its names."""
    env = {**started, **members.get("env", {})}
    whole = {"event": "add", "path": path, **EMPTY, **members, "env": {name: env[name] for name in sorted(env)}}
    return {key: whole[key] for key in ORDER if key in whole}


def in_json(name, rules, *asked, path="/d", words=(), sourced=False, messages=""):
    """A run over r.rules of these lines. Each thing asked is a pair: the lines of a block after its path, and the members that
    its answer has in addition to the event, its path, ACTION and DEVPATH."""
    started = {"ACTION": "add", "DEVPATH": path}
    if sourced:
        started = {key: {"value": value} for key, value in started.items()}
    return Row(
        name,
        ["events", "-r", "none", "--format=json", *words, "r.rules"],
        {"r.rules": b"".join(as_bytes(rule) + b"\n" for rule in rules)},
        b"".join(block(path, *lines) for lines, _ in asked),
        b"".join(line(object_of(path, started, members)) for _, members in asked),
        messages,
    )


def bytes_of(text):
    """The bytes that a string stands for: after U+FFFD a backslash, a letter and two digits are one byte."""
    if not text.startswith("\ufffd"):
        return text.encode()
    return re.sub(rb"\\x(..)", lambda it: bytes([int(it[1], 16)]), text[1:].encode("ascii"))


def shown(text):
    """A string as plain shows its bytes."""
    return b"".join(b"\\x%02X" % byte if byte < 0x20 or byte in b"\x7f\\" else bytes([byte]) for byte in bytes_of(text))


def valued(said, sources):
    """A value, and with sources what is in front of its line."""
    if not sources:
        return b"", said
    if "file" not in said:
        return b"-: ", said["value"]
    return shown(said["file"]) + b":%d: " % said["line"], said["value"]


def plain_of(answer, sources):
    """The lines of plain that an object stands for."""
    lines = [b"event " + shown(answer["event"]) + b" " + shown(answer["path"])]

    def add(said, text):
        front, value = valued(said, sources)
        lines.append(front + text(value))

    for word in ("name", "owner", "group", "mode"):
        if word in answer:
            add(answer[word], lambda value, word=word: word.encode() + b" " + shown(value))
    if "priority" in answer:
        add(answer["priority"], lambda value: b"priority %d" % value)
    if "watch" in answer:
        add(answer["watch"], lambda value: b"watch" if value else b"nowatch")
    if "persist" in answer:
        add(answer["persist"], lambda value: b"persist")
    for said in answer["labels"]:
        add(said, lambda value: b"label " + shown(value["module"]) + b"=" + shown(value["label"]))
    for key, word in (("links", b"link "), ("tags", b"tag ")):
        for said in answer[key]:
            add(said, lambda value, word=word: word + shown(value))
    for word in ("env", "attr", "sysctl"):
        for name, said in answer[word].items():
            add(said, lambda value, word=word, name=name: word.encode() + b" " + shown(name) + b"=" + shown(value))
    for said in answer["run"]:
        add(said, lambda value: b"run " + shown(value["type"]) + b" " + shown(value["command"]))
    for note in answer["notes"]:
        word = b": " + shown(note["word"]) if note["word"] else b""
        lines.append(b"note " + shown(note["file"]) + b":%d: " % note["line"] + shown(note["text"]) + word)
    lines += [b"why " + bytes_of(text) for text in answer["why"]]
    return b"".join(it + b"\n" for it in lines) + b"\n"
