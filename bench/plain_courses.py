"""A plain reading of events: what an event results in, from which rule each line comes, and what each rule met.

Written from docs/behaviour.md, for courses.py, to be compared with `devdry events`: it goes through the rules as they
are, keeps nothing except for what they change, and uses no database.
"""
import re

from plain_rules import UPWARD, escape, fits, key_text, match_text, shown

WHITESPACE = " \t\n\v\f\r"
LONGEST, WORD = 16_384, 32
FINAL = {"OWNER", "GROUP", "MODE", "NAME", "SYMLINK", "RUN"}
PIECE = re.compile(
    r"\$\$|%%|\$(?:(attr|env)\{([^}]*)\}|result(?:\{(\d+\+?)\})?|(kernel|number|devpath|driver|devnode|id|major|minor|parent|name|links|root|sys))"
    r"|%(?:([sE])\{([^}]*)\}|c(?:\{(\d+\+?)\})?|([knpbMmPrSN]))")
SHORT = {"k": "kernel", "n": "number", "p": "devpath", "b": "id", "M": "major", "m": "minor", "P": "parent", "r": "root", "S": "sys", "N": "devnode"}


def safe(text, extra=""):
    """A text made safe for links: whitespace becomes a space, and every byte that is not allowed there `_`."""
    sequence = re.compile(
        r"[\xC2-\xDF][\x80-\xBF]|\xE0[\xA0-\xBF][\x80-\xBF]|[\xE1-\xEC\xEE\xEF][\x80-\xBF]{2}|\xED[\x80-\x9F][\x80-\xBF]"
        r"|\xF0[\x90-\xBF][\x80-\xBF]{2}|[\xF1-\xF3][\x80-\xBF]{3}|\xF4[\x80-\x8F][\x80-\xBF]{2}|\\(?=x)|[0-9A-Za-z#+\-.:=@_/" + re.escape(extra) + r"]")
    out, at = [], 0
    while at < len(text):
        found = sequence.match(text, at)
        out.append(found[0] if found else " " if text[at] in WHITESPACE else "_")
        at = found.end() if found else at + 1
    return "".join(out)


def named(item):
    """The name of an item: its word, and what it is about."""
    word, space, about = item.partition(" ")
    return word + space + shown(about) if space else word


class Device:
    """A device of the chain, as its block has it."""

    def __init__(self, path):
        self.path, self.attrs, self.env, self.tags, self.links = path, {}, {}, [], []
        self.subsystem = self.driver = self.node = self.number = None

    @property
    def kernel(self):
        return self.path.rsplit("/", 1)[1].replace("!", "/")


class Event:
    """The state of an event: first as its block says, then as rules change it."""

    def __init__(self, block):
        self.chain, self.programs, self.constants = [], {}, {}
        for line in block.split("\n"):
            letter, text = line[:1], line[3:]
            name, _, value = text.partition("=")
            here = self.chain[-1] if self.chain else None
            match letter:
                case "C": self.action = text
                case "P": self.chain.append(Device(text))
                case "U": here.subsystem = text
                case "V": here.driver = text
                case "N": here.node = text
                case "D": here.number = text.split(":")
                case "A": here.attrs[name] = value
                case "E": here.env[name] = value
                case "G": here.tags.append(text)
                case "S": here.links.append(text)
                case "K": self.constants[name] = value
                case "Q": asked = text
                case "R": self.programs[asked] = (int(text.split(" ")[0]), text.partition(" ")[2])
                case "O": self.programs[asked] = (self.programs[asked][0], self.programs[asked][1] + "\r" + text)
        device = self.chain[0]
        said = {"ACTION": self.action, "DEVPATH": device.path, "SUBSYSTEM": device.subsystem, "DEVNAME": device.node and "/dev/" + device.node}
        if device.number:
            said |= {"MAJOR": device.number[0], "MINOR": device.number[1]}
        self.env = {**device.env, **{name: value for name, value in said.items() if value is not None}}
        self.links, self.tags = list(device.links), list(device.tags)
        self.one = {}  # name, owner, group, mode, priority, watch or nowatch, persist
        self.labels, self.attrs, self.sysctls, self.runs, self.notes = {}, {}, {}, [], []
        self.final, self.result, self.selected = {}, "", None

    def items(self):
        """The current state, as the lines of an answer have it, in their order."""
        words = ("name", "owner", "group", "mode", "priority", "watch", "nowatch", "persist")
        items = {word: self.one[word] for word in words if word in self.one}
        for word, pairs in (("label", self.labels), ("link", dict.fromkeys(self.links, "")), ("tag", dict.fromkeys(self.tags, "")), ("env", self.env),
                            ("attr", self.attrs), ("sysctl", self.sysctls)):
            items |= {f"{word} {name}": value for name, value in pairs.items()}
        return items

    def note(self, rule, text, word):
        self.notes.append(f"note {rule.place}: {text}" + f": {escape(word[:WORD])}" * bool(word))

    def word(self, number):
        """A word of the result, or everything from it on."""
        found = list(re.finditer(r"[^ \t\n\v\f\r]+", self.result))
        at = int(number.rstrip("+")) - 1
        return "" if at >= len(found) else self.result[found[at].start():] if number.endswith("+") else found[at][0]

    def piece(self, found):
        """What replaces a substitution, and whether it is a result."""
        device, selected = self.chain[0], self.chain[self.selected] if self.selected is not None else None
        if found[0] in ("$$", "%%"):
            return found[0][0], True
        if found[0].startswith(("$result", "%c")):
            number = found[3] or found[7]
            return (self.word(number) if number else self.result), True
        kind, name = found[1] or {"s": "attr", "E": "env"}.get(found[5]), found[2] if found[1] else found[6]
        if kind == "env":
            return self.env.get(name, ""), False
        if kind == "attr":
            value = device.attrs.get(name, selected.attrs.get(name, "") if selected else "")
            return safe(value.rstrip(WHITESPACE), "$%?,"), False
        node = lambda it: it.node or ""
        return {
            "kernel": lambda: device.kernel, "number": lambda: re.search(r"[0-9]*$", device.kernel)[0], "devpath": lambda: device.path,
            "id": lambda: selected.kernel if selected else "", "driver": lambda: (selected.driver or "") if selected else "",
            "major": lambda: device.number[0] if device.number else "0", "minor": lambda: device.number[1] if device.number else "0",
            "parent": lambda: node(self.chain[1]) if len(self.chain) > 1 else "", "name": lambda: self.one.get("name", device.kernel),
            "links": lambda: " ".join(self.links), "root": lambda: "/dev", "sys": lambda: "/sys",
            "devnode": lambda: "/dev/" + device.node if device.node else "",
        }[found[4] or SHORT[found[8]]](), False

    def render(self, template, as_link=False):
        """A template with its substitutions made; None if that is too long."""
        def text(found):
            value, raw = self.piece(found)
            return value if raw or not as_link else re.sub(r"[ \t\n\v\f\r]+", "_", value.strip(WHITESPACE))
        out = PIECE.sub(text, template)
        return None if len(out) > LONGEST else safe(out) if as_link else out

    # Matches.

    def looked(self, token, at=0):
        """What a match looks at: a kind of subject, and its values."""
        device, key = self.chain[at], token.key.removesuffix("S") if token.key in UPWARD else token.key
        match key:
            case "ACTION": return "one", self.action
            case "DEVPATH": return "one", device.path
            case "KERNEL": return "one", device.kernel
            case "SUBSYSTEM": return "one", device.subsystem or ""
            case "DRIVER": return "one", device.driver or ""
            case "NAME": return "one", self.one.get("name", "")
            case "RESULT": return "one", self.result
            case "ENV": return "one", self.env.get(token.attribute, "")
            case "SYMLINK": return "members", self.links
            case "TAG": return "members", device.tags if at else self.tags
            case "ATTR": return "attribute", device.attrs.get(token.attribute)
            case "CONST" if token.attribute in ("arch", "virt", "cvm"): return "constant", self.constants.get(token.attribute)
            case "CONST": return "unknown", None
            case "SYSCTL": return "not read", None

    def holds(self, token, at=0):
        """Whether a match holds, of the device at a place of the chain."""
        kind, what = self.looked(token, at)
        if kind == "unknown":
            return False
        texts = what if kind == "members" else [] if what is None else [what]
        if kind == "attribute" and not token.value.endswith(tuple(WHITESPACE)):
            texts = [text.rstrip(WHITESPACE) for text in texts]
        return any(fits(token.value, text, token.blind) for text in texts) == (token.operator == "==")

    def reported(self, token, at=0):
        """What a match looked at, as it is reported."""
        kind, what = self.looked(token, at)
        if kind in ("unknown", "not read"):
            return kind
        if kind == "members":
            return " ".join(map(shown, what)) or "none"
        return "none" if what is None else shown(what)

    def search(self, rule, course):
        """The search for one device, and whether it finds one."""
        table = [[self.holds(token, at) for token in rule.up] for at in range(len(self.chain))]
        for column, token in enumerate(rule.up):
            seen = ["holds" if table[at][column] else "has none" if self.looked(token, at) == ("attribute", None) else f"fails, {self.reported(token, at)}"
                    for at in range(len(self.chain))]
            course.append(f"{match_text(token)}: " + ", ".join(f"{shown(device.kernel)} {it}" for device, it in zip(self.chain, seen)))
        self.selected = next((at for at, row in enumerate(table) if all(row)), None)
        if self.selected is not None:
            course.append(f"{shown(self.chain[self.selected].kernel)} meets all")
            return True
        near = [f"{shown(self.chain[at].kernel)} meets {sum(table[at])} of {len(rule.up)}" for at in reversed(range(len(table))) if any(table[at])]
        course.append("no device meets all: " + ", ".join(near) if near else "no device meets any")
        return False

    # Acts.

    def hwdb(self, rule, command):
        """Nothing is found; what a dry run does not do leaves its note."""
        open_quote = command.count("'") % 2 or command.count('"') % 2
        words = re.sub("['\"]", "", command).split()
        if open_quote or (words[:1] == ["hwdb"] and any(re.match("-(?!-(subsystem|lookup-prefix|filter)=)", it) for it in words)):
            self.note(rule, "bad hwdb arguments", command)
        elif words[:1] != ["hwdb"]:
            self.note(rule, "builtin not run", words[0] if words else "")

    def act(self, rule, token):
        """An act: whether it was done, and what it looked at, as it is reported."""
        before, done, kind = dict(self.env), False, token.attribute if token.key == "IMPORT" else token.key
        if kind in ("program", "file", "cmdline", "db"):
            self.note(rule, "import not run", kind)
            return False, "not run"
        text = token.value if kind == "parent" else self.render(token.value)
        if kind == "PROGRAM":
            self.result = ""
        if text is None:
            self.note(rule, "text too long", f"{token.key}{{{token.attribute}}}" if token.attribute else token.key)
            return False, "too long"
        if kind == "TEST":
            if token.attribute is not None or text.startswith("/"):
                self.note(rule, "test not made", text)
                return False, f"not made: {shown(text)}"
            return text in self.chain[0].attrs, shown(text)
        if kind == "PROGRAM":
            if text not in self.programs:
                self.note(rule, "no answer for program", text)
                return False, f"no answer for {escape(text)}"
            status, answer = self.programs[text]
            self.result = "" if status else answer
            return status == 0, f"{escape(text)} answers {status}" + f" {shown(answer)}" * bool(answer)
        if kind == "parent" and len(self.chain) > 1:
            self.env |= {name: value for name, value in self.chain[1].env.items() if fits(text, name)}
            done = True
        elif kind == "builtin":
            self.hwdb(rule, text)
        gone = ", ".join(shown(name) for name in before if name not in self.env)
        new = ", ".join(f"{shown(name)}={shown(value)}" for name, value in self.env.items() if before.get(name) != value)
        did = ", ".join(f"{word} {names}" for word, names in (("removes", gone), ("sets", new)) if names)
        return done, f"{shown(text)} " * (kind == "builtin") + (did or "sets nothing")

    # Assignments.

    # What OPTIONS, the lists and single texts result in.

    def set_one(self, word, text, others=()):
        for other in others:
            self.one.pop(other, None)
        if text is None:
            self.one.pop(word, None)
        else:
            self.one[word] = text

    def option(self, value):
        name, _, number = value.partition("=")
        if name == "link_priority":
            self.set_one("priority", str(int(number)))
        elif name in ("watch", "nowatch"):
            self.set_one(name, "", ("watch", "nowatch"))
        elif name == "db_persist":
            self.set_one("persist", "")

    def listed(self, operator, now, given):
        given = list(dict.fromkeys(it for it in given if it))
        if operator == "-=":
            return [it for it in now if it not in given]
        return [*now, *(it for it in given if it not in now)] if operator == "+=" else given

    def assign(self, rule, token, string_escape):
        """An assignment that is not too late; returns the note that it left, if any."""
        key, name, operator = token.key, token.attribute, token.operator
        if key == "OPTIONS":
            return self.option(token.value)
        if key == "RUN":
            run = ("builtin" if name == "builtin" else "program", token.value, rule, self.selected, name)
            kept = self.runs if operator == "+=" else []
            self.runs = kept if not token.value or run[:2] in [it[:2] for it in kept] else [*kept, run]
            return None
        text = self.render(token.value, key in ("SYMLINK", "NAME") and string_escape != "none")
        if text is not None and key == "ENV" and operator == "+=" and text and self.env.get(name):
            text = f"{self.env[name]} {text}"
        if text is None or len(text) > LONGEST:
            return "too long"
        if key == "NAME" and self.chain[0].subsystem != "net":
            self.note(rule, "name ignored", text)
            return "ignored"
        if key in ("OWNER", "GROUP", "MODE", "NAME"):
            self.set_one(key.lower(), (text.replace(" ", "_") if key == "NAME" and string_escape != "none" else text) or None)
        elif key == "TAG":
            self.tags = self.listed(operator, self.tags, [text])
        elif key == "SYMLINK":
            self.links = self.listed(operator, self.links, (text.replace(" ", "_") if string_escape == "replace" else text).split(" "))
        elif key == "ENV":
            if text:
                self.env[name] = text
            elif operator != "+=":
                self.env.pop(name, None)
        elif key == "SECLABEL":
            self.labels = {**(self.labels if operator == "+=" else {}), name: text}
        else:
            (self.attrs if key == "ATTR" else self.sysctls)[name] = text
        return None

    def effect(self, rule, token, string_escape):
        """An assignment, and what it did, as it is reported."""
        option = token.value.split("=")[0] if token.key == "OPTIONS" else None
        key = token.key if token.key in FINAL else {"link_priority": "link_priority", "watch": "watch", "nowatch": "watch"}.get(option)
        if key in self.final:
            return f"{key} is final since {self.final[key]}"
        was, runs = self.items(), [it[:2] for it in self.runs]
        left = self.assign(rule, token, string_escape)
        if left == "too long":
            self.note(rule, "text too long", f"{token.key}{{{token.attribute}}}" if token.attribute is not None else token.key)
            return f"{key_text(token)} left out, too long"
        if left == "ignored":
            return "NAME ignored, no network device"
        if key and token.operator == ":=":
            self.final[key] = rule.place
        now, kept = self.items(), [it[:2] for it in self.runs]
        did = [f"{named(name)} removed" for name in was if name not in now]
        did += [f"{named(name)}={shown(value)} set" if value else f"{named(name)} added" for name, value in now.items() if was.get(name) != value]
        if runs and not kept:
            did.append("all runs removed")
        else:
            did += [f"run {kind} {shown(text)} removed" for kind, text in runs if (kind, text) not in kept]
        did += [f"run {kind} {shown(text)} added" for kind, text in kept if (kind, text) not in runs]
        return ", ".join(did) or f"{key_text(token)} changes nothing"

    def run(self, rule):
        """One rule over the state of the event: what is reported about it, and whether its end was reached."""
        course, stop = [], "stops there"
        for token in rule.plain:
            if token.key == "SYSCTL":
                self.note(rule, "sysctl not read", token.attribute)
            held = self.holds(token)
            course.append(f"{match_text(token)}: {'holds' if held else 'fails'}, {self.reported(token)}")
            if not held:
                return [*course, stop], False
        if rule.up and not self.search(rule, course):
            return [*course, stop], False
        for token in rule.acts:
            done, looked = self.act(rule, token)
            held = done == (token.operator == "==")
            course.append(f"{match_text(token)}: {'holds' if held else 'fails'}, {looked}")
            if not held:
                return [*course, stop], False
        for token in rule.results:
            held = self.holds(token)
            course.append(f"{match_text(token)}: {'holds' if held else 'fails'}, {self.reported(token)}")
            if not held:
                return [*course, stop], False
        escapes = [it.value.split("=")[1] for it in rule.sets if it.key == "OPTIONS" and it.value.startswith("string_escape=")]
        did = [self.effect(rule, token, escapes[-1] if escapes else None) for token in rule.sets]
        return [*course, "reached its end" + ": " * bool(did) + ", ".join(did)], True


def line_of(name, value):
    """The line of an item."""
    word, _, about = name.partition(" ")
    if not about:
        return f"{word} {escape(value)}" if value else word
    return f"{word} {escape(about)}" + (f"={escape(value)}" if word not in ("link", "tag") else "")


def answers(rules, block, not_read=()):
    """An answer as its lines, each a source and a text, and the lines about all rules, those that are not read first."""
    event = Event(block)
    # the rule since which each item is unchanged
    since, sought, whys = {name: (value, None) for name, value in event.items().items()}, None, [f"why {line}" for line in not_read]
    for rule in rules:
        if sought and (rule.file != sought[0].file or rule.label != sought[1]):
            whys.append(f"why {rule.place}: passed over by GOTO of {sought[0].place}")
            continue
        course, reached = event.run(rule)
        whys += [f"why {rule.place}: {text}" for text in course]
        since = {name: since[name] if name in since and since[name][0] == value else (value, rule.place) for name, value in event.items().items()}
        sought = (rule, rule.goto) if reached and rule.goto is not None else None
    items = event.items()
    names = [name for name in items if not name.startswith("env ")]
    split = sum(name.split(" ")[0] not in ("attr", "sysctl") for name in names)
    properties = sorted(name for name in items if name.startswith("env ") and not name.startswith("env ."))
    lines = [(since[name][1] or "-", line_of(name, items[name])) for name in [*names[:split], *properties, *names[split:]]]
    for kind, text, rule, event.selected, braces in event.runs:
        rendered = event.render(text)
        if rendered is None:
            event.note(rule, "text too long", f"RUN{{{braces}}}" if braces else "RUN")
        else:
            lines.append((rule.place, f"run {kind} {escape(rendered)}"))
    first = f"event {escape(event.action)} {escape(event.chain[0].path)}"
    return [(None, first), *lines, *((None, note) for note in event.notes)], whys
