"""A plain reading of systemd.link(5): what net_setup_link of udev 257 sets for an interface, by the files as text."""
import fnmatch
import re

FOLDERS = ["/etc/systemd/network", "/run/systemd/network", "/usr/local/lib/systemd/network", "/usr/lib/systemd/network"]
SPACES = b" \t\n\r"
CONDITIONS = {key: key for key in ("Host", "Virtualization", "KernelVersion", "Credential", "Architecture", "Firmware")} | {"KernelCommandLine": "cmdline"}
PROPERTIES = {"database": "ID_NET_NAME_FROM_DATABASE"} | {policy: f"ID_NET_NAME_{policy.upper()}" for policy in ("onboard", "slot", "path", "mac")}
HARDWARE = {1: "ether", 32: "infiniband", 772: "loopback"}


def joined(data):
    lines = data.removeprefix(b"\xef\xbb\xbf").split(b"\n")
    held, done = b"", []
    for line in lines[:-1] if lines[-1] == b"" else lines:
        if line.lstrip(SPACES)[:1] in (b"#", b";"):
            continue
        line = line[:-1] if line.endswith(b"\r") else line
        if (len(line) - len(line.rstrip(b"\\"))) % 2:
            held += line[:-1] + b" "
        else:
            done.append(held + line)
            held = b""
    return done + [held]


def settings_of(files):
    """The settings of files, or None if a line cannot be read."""
    settings = []
    for data in files:
        section = ""
        for line in joined(data):
            text = line.strip(SPACES)
            if not text:
                continue
            try:
                text = text.decode()
            except UnicodeDecodeError:
                return None
            if text.startswith("["):
                if not text.endswith("]") or re.search("[\\x00-\\x1f\\x7f\"'\\\\]", text[1:-1]):
                    return None
                section = text[1:-1]
            elif "=" in text:
                key, value = text.split("=", 1)
                settings.append((section, key.strip(" \t\n\r"), value.strip(" \t\n\r")))
    return settings


def words_of(kind, value):
    quotes, escapes = kind in ("glob", "property"), kind != "glob"
    words, word, quote, escaped = [], None, None, False
    for c in value:
        if escaped:
            word, escaped = word + c, False
        elif c == "\\" and escapes:
            word, escaped = word or "", True
        elif c == quote:
            quote = None
        elif quote:
            word += c
        elif c in "\"'" and quotes:
            word, quote = word or "", c
        elif c in " \t\n\r":
            if word is not None:
                words.append(word)
            word = None
        else:
            word = (word or "") + c
    if word is not None and not escaped and not quote:
        words.append(word)
    return words


def is_name(text):
    return (0 < len(text.encode()) <= 15 and all(32 < b < 127 and b not in b":/%" for b in text.encode()) and not text.isdigit()
            and text not in (".", "..", "all", "default"))


def counts(kind, word):
    if kind == "name":
        return is_name(word)
    if kind == "property":
        return "=" in word and bool(re.fullmatch("[A-Za-z_][A-Za-z0-9_]*", word.split("=", 1)[0]))
    return True


def list_of(kind, key, settings):
    held = []
    for section, own, value in settings:
        if (section, own) == ("Match", key):
            negated = kind != "plain" and value.startswith("!")
            held = held + ["!" * negated + w for w in words_of(kind, value[negated:]) if counts(kind, w)] if value else []
    return held


def last_of(section, key, settings):
    return next((v for s, k, v in reversed(settings) if (s, k) == (section, key)), "")


def fits(glob, text):
    return text is not None and bool(re.fullmatch(fnmatch.translate(re.sub(r"\\(.)", r"\1", glob)), text))


def passes(words, text):
    denied = any(fits(w[1:], text) for w in words if w.startswith("!"))
    plain = [w for w in words if not w.startswith("!")]
    return not denied and (not plain or any(fits(w, text) for w in plain))


def digits_of(text):
    for mark, count, width in ((":", 6, 2), ("-", 6, 2), (".", 3, 4), (":", 20, 2), ("-", 20, 2), (".", 10, 4)):
        fields = text.split(mark)
        if len(fields) == count and all(re.fullmatch("[0-9A-Fa-f]{1,%d}" % width, f) for f in fields):
            return "".join(f.lower().zfill(width) for f in fields)
    return None


def check_address(need, words, own):
    if not words:
        return None
    if own is None:
        return need
    if digits_of(own) is not None and digits_of(own) in map(digits_of, words):
        return True
    return False if all(digits_of(w) is not None for w in words) else "MACAddress"


def checks_of(kernel, attrs, env, settings):
    def listed(kind, key, text, need=None):
        words = list_of(kind, key, settings)
        return None if not words else need if need and text is None else passes(words, text)
    yield listed("name", "OriginalName", kernel)
    yield listed("glob", "Path", env.get("ID_PATH"))
    yield listed("glob", "Driver", env.get("ID_NET_DRIVER"), "ID_NET_DRIVER")
    yield listed("glob", "Type", env.get("DEVTYPE") or HARDWARE.get(int(attrs["type"])), "type")
    yield listed("glob", "Kind", None, "Kind")
    yield check_address("address", list_of("plain", "MACAddress", settings), attrs.get("address"))
    yield check_address("permaddr", list_of("plain", "PermanentMACAddress", settings), attrs.get("address") if attrs.get("addr_assign_type") == "0" else None)
    properties = list_of("property", "Property", settings)
    yield None if not properties else all((env.get(w.lstrip("!").split("=", 1)[0]) is not None
        and fits(w.split("=", 1)[1], env[w.lstrip("!").split("=", 1)[0]])) != w.startswith("!") for w in properties)
    for key, need in CONDITIONS.items():
        yield need if last_of("Match", key, settings) else None


def number(text):
    try:
        return int(text, 8 if re.fullmatch("0[0-7]+", text) else 0)
    except ValueError:
        return None


def name_of(action, attrs, env, settings, cmdline):
    present = env.get("INTERFACE")
    if action != "add":
        return present
    given = None
    for section, key, value in settings:
        if (section, key) == ("Link", "Name"):
            given = None if not value else value if is_name(value) else given
    left = given or present
    switch = None
    for word in words_of("glob", cmdline or ""):
        if word.startswith("net.ifnames="):
            switch = word.removeprefix("net.ifnames=")
    if switch is not None and switch.lower() in ("0", "no", "n", "false", "f", "off"):
        return left
    source = number(attrs["name_assign_type"])
    for policy in words_of("plain", last_of("Link", "NamePolicy", settings)):
        if policy == "kernel" and source == 2 or policy == "keep" and source in (3, 4):
            return present
        name = env.get(PROPERTIES.get(policy))
        if name is not None and is_name(name):
            return name
    return left


def listed(path):
    return "".join(chr(b) if 32 <= b < 127 and chr(b) not in ":\\" else f"\\x{b:02x}" for b in path.encode())


def found(files):
    """The files that count, from a map of paths to bytes."""
    def ordered(suffix):
        best = {}
        for path in sorted(files, key=lambda p: next(i for i, f in enumerate(FOLDERS) if p.startswith(f + "/"))):
            name = path.split("systemd/network/", 1)[1]
            if name.endswith(suffix):
                best.setdefault(name, path)
        return [(name.encode(), best[name]) for name in sorted(best, key=str.encode)]
    for name, path in ordered(".link"):
        if b"/" in name or name.startswith(b".") or not files[path]:
            continue
        own = [p for n, p in ordered(".conf") if n.startswith(name + b".d/") and not n[len(name) + 3:].startswith(b".")]
        settings = settings_of([files[path], *(files[p] for p in own)])
        if settings is not None:
            yield path, own, settings


def net_setup_link(files, action, kernel, attrs, env, cmdline=None):
    if action not in ("add", "bind", "move"):
        return {"ID_NET_NAME": env["INTERFACE"]}, []
    if int(attrs["flags"], 16) & 8:
        return {}, []
    needs = []
    for path, own, settings in found(files):
        checks = list(checks_of(kernel, attrs, env, settings))
        if any(c is not None for c in checks) and all(c in (None, True) for c in checks):
            needs += [key for key in ("Property", "ImportProperty", "UnsetProperty") if last_of("Link", key, settings)]
            name = name_of(action, attrs, env, settings, cmdline)
            return {"ID_NET_LINK_FILE": path, "ID_NET_LINK_FILE_DROPINS": ":".join(map(listed, own)), "ID_NET_NAME": name}, needs
        if False not in checks:
            needs += [c for c in checks if isinstance(c, str)]
    return {}, needs
