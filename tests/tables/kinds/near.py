"""The known name that an unknown one may have been meant as, read plainly from docs/messages.md."""
import re

KEYS = """ACTION DEVPATH KERNEL SUBSYSTEM DRIVER KERNELS SUBSYSTEMS DRIVERS TAGS RESULT ATTRS CONST TEST PROGRAM IMPORT NAME SYMLINK TAG
ATTR SYSCTL ENV OWNER GROUP MODE SECLABEL RUN OPTIONS LABEL GOTO""".split()
BUILTINS = "blkid btrfs hwdb input_id keyboard kmod net_driver net_id net_setup_link path_id usb_id uaccess".split()
OPTIONS = "link_priority string_escape static_node watch nowatch db_persist log_level".split()
SIGNS = "kernel number devpath id driver attr env major minor result parent name links root sys devnode".split()
OLD_SIGNS = ["sysfs", "tempnode"]


def distance(name, word):
    """How many bytes are put in, taken out or replaced at least, by the table of Wagner and Fischer."""
    table = [[i + j for j in range(len(word) + 1)] for i in range(len(name) + 1)]
    for i, a in enumerate(name, 1):
        for j, b in enumerate(word, 1):
            table[i][j] = min(table[i - 1][j] + 1, table[i][j - 1] + 1, table[i - 1][j - 1] + (a != b))
    return table[-1][-1]


def unknown_sign(text):
    """The letters after the first `$` that no known name follows; `$$` is one sign."""
    for sign in re.finditer(r"\$(\$|[^$]*)", text):
        if sign[1] != "$" and not any(sign[1].startswith(name) for name in SIGNS + OLD_SIGNS):
            return re.match(r"[A-Za-z]*", sign[1])[0]
    return ""


def nearest(names, word):
    """The first of the names at the least distance, if that is small enough for the word."""
    word = word[:32]
    if word in names:
        return None
    far = [distance(name.lower(), word.lower()) for name in names]
    return names[far.index(min(far))] if min(far) <= (1 if len(word) <= 3 else 2 if len(word) <= 6 else 3) else None


def meant(code, word):
    """The name that the word of a message with this code may have been meant as."""
    text = word.decode("latin-1")
    if code == "V2":
        return nearest(KEYS, text)
    if code == "V15":
        return nearest(BUILTINS, "".join(text.split()[:1]))
    if code == "V5":
        return nearest(OPTIONS, text.split("=")[0])
    if code in ("V6", "V21"):
        return nearest(SIGNS, unknown_sign(text))
    return None
