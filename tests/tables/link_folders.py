"""`events --udev` and `compare --udev`: where `.link` files and drop-ins are looked for, and what is said of those that can't be
read.

Which files count follows from systemd.link(5), and the answers from docs/udev/LINKS.md; that a run goes on, with status 3 at its
end, is what docs/behaviour.md says.
"""
from tables.kinds.folders import unread
from tables.kinds.row import FOLDER, PIPE, Link, Moded, Row

ETC, RUN, LOCAL, LIB = (f"mnt/{top}/systemd/network" for top in ("etc", "run", "usr/local/lib", "usr/lib"))
RULE = 'IMPORT{builtin}="net_setup_link", NAME="$env{ID_NET_NAME}"\n'
BLOCK = "C: add\nP: /devices/x/eth0\nU: net\nE: INTERFACE=eth0\nE: IFINDEX=2\nA: flags=0x1002\n"


def naming(name):
    """A .link file that is for the interface of the block."""
    return f"[Match]\nOriginalName=eth*\n[Link]\nName={name}\n"


def setting(name):
    """A drop-in that sets a name."""
    return f"[Link]\nName={name}\n"


def answer(name=None, file=None, drop_ins=""):
    """The answer by a file, or by none."""
    env = {"ACTION": "add", "DEVPATH": "/devices/x/eth0"}
    env |= {"ID_NET_LINK_FILE": f"/{file}"} if file else {}
    env |= {"ID_NET_LINK_FILE_DROPINS": ":".join(f"/{path}" for path in drop_ins.split())} if drop_ins else {}
    env |= {"ID_NET_NAME": name} if name else {}
    env |= {"IFINDEX": "2", "INTERFACE": "eth0", "SUBSYSTEM": "net"}
    named = f"name {name}\n" if name else ""
    return f"event add /devices/x/eth0\n{named}" + "".join(f"env {key}={value}\n" for key, value in env.items()) + "\n"


def row(name, files, output, messages="", status=0, words="events --udev -r mnt r.rules", **more):
    return Row(name, words, {"r.rules": RULE, "mnt/none": "", **files}, BLOCK, output, messages, status, **more)


def below(folder):
    """A folder as it is in a system whose root is mnt."""
    return folder.removeprefix("mnt/")


FIRST = answer("lan0", f"{below(ETC)}/10-a.link")

FOLDERS = [
    *(row(f"a file in {below(folder)}", {f"{folder}/10-a.link": naming("lan0")}, answer("lan0", f"{below(folder)}/10-a.link"))
      for folder in (ETC, RUN, LOCAL, LIB)),
    *(row(f"of one name the file in {below(first)} counts before that in {below(second)}",
          {f"{first}/10-a.link": naming("lan0"), f"{second}/10-a.link": naming("lan1")}, answer("lan0", f"{below(first)}/10-a.link"))
      for first, second in ((ETC, RUN), (RUN, LOCAL), (LOCAL, LIB))),
    row("the first name counts, whatever its folder", {f"{ETC}/20-a.link": naming("lan1"), f"{LIB}/10-a.link": naming("lan0")},
        answer("lan0", f"{below(LIB)}/10-a.link")),
    row("a link to /dev/null masks the file of its name", {f"{ETC}/10-a.link": Link("/dev/null"), f"{LIB}/10-a.link": naming("lan0"),
        f"{LIB}/20-b.link": naming("lan1")}, answer("lan1", f"{below(LIB)}/20-b.link")),
    row("drop-ins are read by name, in all four folders", {
        f"{LIB}/10-a.link": naming("lan0"), f"{ETC}/10-a.link.d/b.conf": setting("lan1"), f"{LIB}/10-a.link.d/c.conf": setting("lan2"),
        f"{RUN}/10-a.link.d/a.conf": setting("lan3"), f"{LOCAL}/10-a.link.d/d.txt": setting("lan4")},
        answer("lan2", f"{below(LIB)}/10-a.link", " ".join(f"{below(folder)}/10-a.link.d/{name}.conf" for folder, name in ((RUN, "a"), (ETC, "b"), (LIB, "c"))))),
    row("of one name the drop-in of the first folder counts", {
        f"{LIB}/10-a.link": naming("lan0"), f"{ETC}/10-a.link.d/b.conf": setting("lan1"), f"{LIB}/10-a.link.d/b.conf": setting("lan2")},
        answer("lan1", f"{below(LIB)}/10-a.link", f"{below(ETC)}/10-a.link.d/b.conf")),
    row("drop-ins without a file", {f"{ETC}/10-a.link.d/b.conf": setting("lan1")}, answer()),
    row("no folder", {}, answer()),
    row("a link in the root leads on inside it", {f"{ETC}/10-a.link": Link("/files/x"), "mnt/files/x": naming("lan0")}, FIRST),
]

UNREAD = [
    row("a link to nothing is passed over, and hides the file of its name", {f"{ETC}/10-a.link": Link("/nothing"), f"{LIB}/10-a.link": naming("lan0"),
        f"{LIB}/20-b.link": naming("lan1")}, answer("lan1", f"{below(LIB)}/20-b.link"), unread(f"{ETC}/10-a.link", "link to nothing: /nothing"), 3),
    row("a pipe is not waited for", {f"{ETC}/05-a.link": PIPE, f"{ETC}/10-a.link": naming("lan0")}, FIRST,
        unread(f"{ETC}/05-a.link", "not a regular file"), 3),
    row("a file without permission", {f"{ETC}/05-a.link": Moded(0, naming("lan1")), f"{ETC}/10-a.link": naming("lan0")}, FIRST,
        unread(f"{ETC}/05-a.link", "permission denied"), 3, plain=True),
    row("a file in place of a folder, where drop-ins can't be looked for either", {RUN: "", f"{ETC}/10-a.link": naming("lan0")}, FIRST,
        unread(RUN, "not a folder") + unread(f"{RUN}/10-a.link.d", "not a folder"), 3),
    row("a name that is not UTF-8", {f"{LIB}/".encode() + b"\xff": "", f"{ETC}/10-a.link": naming("lan0")}, FIRST,
        unread(LIB, "a name is not UTF-8"), 3),
    row("a drop-in that can't be read", {f"{ETC}/10-a.link": naming("lan0"), f"{ETC}/10-a.link.d/b.conf": Link("nothing")},
        answer("lan0", f"{below(ETC)}/10-a.link", f"{below(ETC)}/10-a.link.d/b.conf"),
        unread(f"{ETC}/10-a.link.d/b.conf", "link to nothing: nothing"), 3),
    row("a file in place of a folder of drop-ins", {f"{ETC}/10-a.link": naming("lan0"), f"{LIB}/10-a.link.d": ""}, FIRST,
        unread(f"{LIB}/10-a.link.d", "not a folder"), 3),
    row("drop-ins of a masked file are not looked at", {f"{ETC}/10-a.link": Link("/dev/null"), f"{ETC}/10-a.link.d/b.conf": Link("nothing")}, answer()),
    row("a folder with the name of a file is skipped", {f"{ETC}/05-a.link": FOLDER, f"{ETC}/10-a.link": naming("lan0")}, FIRST),
    row("files with other names are not opened", {f"{ETC}/10-a.network": PIPE, f"{ETC}/10-a.link": naming("lan0")}, FIRST),
    row("a name with a newline and the text of a message", {f"{ETC}/a\nb.link": Link("c"), f"{ETC}/10-a.link": naming("lan0")}, FIRST,
        unread(f"{ETC}/a\\x0Ab.link", "link to nothing: c"), 3),
    row("a line that is not understood changes no status", {f"{ETC}/05\n.link": "[Match\n", f"{ETC}/10-a.link": naming("lan0")}, FIRST,
        f"devdry: {ETC}/05\\x0A.link: not used: a line of it or of a drop-in is not understood\n"),
    row("what can't be read comes before what is not understood", {f"{ETC}/05-a.link": "[Match\n", f"{ETC}/06-a.link": Link("c"), f"{ETC}/10-a.link": naming("lan0")},
        FIRST, unread(f"{ETC}/06-a.link", "link to nothing: c")
        + f"devdry: {ETC}/05-a.link: not used: a line of it or of a drop-in is not understood\n", 3),
    row("with --all, too", {f"{ETC}/05-a.link": Link("c"), f"{ETC}/10-a.link": naming("lan0")}, FIRST, unread(f"{ETC}/05-a.link", "link to nothing: c"), 3,
        "events --udev --all -r mnt r.rules"),
    row("a rules file that can't be read still ends the run", {f"{ETC}/05-a.link": Link("c")}, "",
        unread(f"{ETC}/05-a.link", "link to nothing: c") + "devdry: cannot read none.rules\n", 3, "events --udev -r mnt none.rules"),
]

# Without --udev no .link file is looked at.
WITHOUT = [
    row("without --udev nothing is said of .link files", {f"{ETC}/05-a.link": Link("c"), "x.rules": 'TAG+="t"\n'},
        "event add /devices/x/eth0\ntag t\nenv ACTION=add\nenv DEVPATH=/devices/x/eth0\nenv IFINDEX=2\nenv INTERFACE=eth0\nenv SUBSYSTEM=net\n\n",
        words="events -r mnt x.rules"),
    row("files lists no .link files", {f"{ETC}/05-a.link": Link("c"), "mnt/etc/udev/rules.d/a.rules": "#\n"}, "mnt/etc/udev/rules.d/a.rules: used\n",
        words="files -r mnt"),
]


def compared(name, old, new, output, messages="", status=0, words="compare --udev old new"):
    """Two roots with the same rules, and their .link files."""
    rules = {f"{root}/etc/udev/rules.d/r.rules": RULE for root in ("old", "new")}
    placed = {f"{root}/etc/systemd/network/{path}": text for root, files in (("old", old), ("new", new)) for path, text in files.items()}
    return Row(name, words, rules | placed, BLOCK, output, messages, status)


EVENT = "event add /devices/x/eth0\n"
COMPARED = [
    compared("the same names", {"a.link": naming("lan0")}, {"a.link": naming("lan0")}, ""),
    compared("each root has its own files", {"a.link": naming("lan0")}, {"a.link": naming("lan1")},
             f"{EVENT}-name lan0\n-env ID_NET_NAME=lan0\n+name lan1\n+env ID_NET_NAME=lan1\n\n", status=1),
    compared("what can't be read of the old root is said first", {"a.link": naming("lan0"), "b.link": Link("c")}, {"a.link": naming("lan0"), "d.link": Link("c")}, "",
             unread("old/etc/systemd/network/b.link", "link to nothing: c") + unread("new/etc/systemd/network/d.link", "link to nothing: c"), 3),
    compared("what can't be read, and a difference", {"a.link": naming("lan0")}, {"a.link": naming("lan1"), "b.link": Link("c")},
             f"{EVENT}-name lan0\n-env ID_NET_NAME=lan0\n+name lan1\n+env ID_NET_NAME=lan1\n\n",
             unread("new/etc/systemd/network/b.link", "link to nothing: c"), 3),
]

ROWS = [*FOLDERS, *UNREAD, *WITHOUT, *COMPARED]
