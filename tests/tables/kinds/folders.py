"""The folders of rules and of the database, and what is reported about them."""
RULES = ["etc/udev/rules.d", "run/udev/rules.d", "usr/local/lib/udev/rules.d", "usr/lib/udev/rules.d"]
HWDB = ["etc/udev/hwdb.d", "usr/lib/udev/hwdb.d"]

ETC, RUN, LOCAL, LIB = (f"mnt/{folder}" for folder in RULES)
ETC_HWDB, LIB_HWDB = (f"mnt/{folder}" for folder in HWDB)


# What is reported if no file is read, before each place that was looked at.
NO_FILES = "devdry: no files\n"


def folders(reported, root="mnt", of=RULES):
    """The lines saying that no file was read: for each folder, by its path below the root, what is reported about it, `absent` if
    nothing else is; nothing for one whose place has None."""
    lines = {f"{root}/{folder}": "absent" for folder in of} | reported
    return NO_FILES + "".join(f"devdry: {path}: {text}\n" for path, text in lines.items() if text is not None)


def unread(path, reason):
    """The line about what can't be read, and why."""
    return f"devdry: cannot read {path}: {reason}\n"


def checked(good, bad=0):
    """What `verify` counts."""
    return f"{good + bad} files checked, {good} good, {bad} bad\n"
