"""`verify --links`: `.link` files and drop-ins, checked in place of rules.

What the lines mean follows from systemd.link(5) and systemd.syntax(7) of systemd 257 and from docs/udev/LINKS.md; the messages are those
of docs/messages.md.
"""
from tables.kinds.folders import checked, unread
from tables.kinds.row import Link, Moded, Row

TEXTS = {1: "L1 unknown section", 2: "L2 unknown key", 3: "L3 bad line", 4: "L4 bad value", 5: "L5 file for no interface"}
WORDS = "verify --links a.link"
MATCH = "[Match]\nOriginalName=eth*\n"


def said(file, line, code, word=""):
    """The line of a message."""
    return f"{file}:{line}: {TEXTS[code]}" + (f": {word}" if word else "") + "\n"


def lines(name, text, *faults, words=WORDS, summary=True, status=None):
    """A row over one file: faults are (line, code, word)."""
    bad = 1 if faults else 0
    return Row(name, words, {"a.link": text}, output=checked(1 - bad, bad) if summary else "",
               messages="".join(said("a.link", line, code, word) for line, code, word in faults), status=bad if status is None else status)


def below(name, *settings, bad=()):
    """A row over lines of [Link]: those of `bad` have the code L4."""
    text = MATCH + "[Link]\n" + "".join(f"{setting}\n" for setting in settings)
    return lines(name, text, *((4 + number, 4, settings[number].partition("=")[2]) for number in bad))


SECTIONS = [
    lines("the four sections", MATCH + "[Link]\nName=lan0\n[SR-IOV]\nVirtualFunction=1\n[EnergyEfficientEthernet]\nEnable=yes\n"),
    lines("an unknown section, whose lines are skipped", MATCH + "[Network]\nDHCP=yes\nno line\n=\n", (3, 1, "Network")),
    lines("a section in other letters", MATCH + "[link]\nName=lan0\n", (3, 1, "link")),
    lines("sections that are free to use", MATCH + "[X-Own]\nName\n"),
    lines("an empty name", MATCH + "[]\n", (3, 1, "")),
    lines("a section that is given again", "[Match]\n[Link]\nName=lan0\n[Match]\nOriginalName=eth0\n"),
    lines("a section without its bracket, behind which all is skipped", MATCH + "[Link\nNane=x\n", (3, 3, "[Link")),
    lines("a quote in the name of a section", MATCH + "[Li\"nk]\n", (3, 3, "[Li\"nk]")),
    lines("text behind a section", MATCH + "[Link] # c\n", (3, 3, "[Link] # c")),
]

KEYS = [
    lines("unknown keys", MATCH + "Nmae=a\n[Link]\nName=lan0\nDriver=e1000e\n", (3, 2, "Nmae"), (6, 2, "Driver")),
    lines("a key in other letters", MATCH + "[Link]\nname=lan0\n", (4, 2, "name")),
    lines("keys that are free to use", MATCH + "X-Own=a\n[Link]\nX-=\n"),
    lines("a key of another section", MATCH + "[Link]\nVLANId=5\n[SR-IOV]\nVLANId=5\nName=a\n", (4, 2, "VLANId"), (7, 2, "Name")),
    lines("keys of all conditions on the machine", "[Match]\n" + "".join(f"{key}=x\n" for key in (
        "Host", "Virtualization", "KernelCommandLine", "KernelVersion", "Credential", "Architecture", "Firmware"))),
]

LONG_LIST = " ".join(f"lan{number}" for number in range(300))

LINES = [
    lines("a list of over 1,024 bytes", f"[Match]\nOriginalName={LONG_LIST} eth0\n[Link]\nNmae=wan0\n", (4, 2, "Nmae")),
    Row("a list of over 1,024 bytes, of which the last word fits", "events --udev -r . --sources",
        {"etc/systemd/network/10-a.link": f"[Match]\nOriginalName={LONG_LIST} eth0\n[Link]\nName=wan0\n",
         "etc/udev/rules.d/r.rules": 'IMPORT{builtin}="net_setup_link", ENV{N}="$env{ID_NET_NAME}"\n'},
        "C: add\nP: /d/eth0\nU: net\nE: INTERFACE=eth0\nE: IFINDEX=2\nA: flags=0x1002\n",
        "event add /d/eth0\n-: env ACTION=add\n-: env DEVPATH=/d/eth0\nr.rules:1: env ID_NET_LINK_FILE=/etc/systemd/network/10-a.link\n"
        "r.rules:1: env ID_NET_NAME=wan0\n-: env IFINDEX=2\n-: env INTERFACE=eth0\nr.rules:1: env N=wan0\n-: env SUBSYSTEM=net\n\n"),
    lines("comments and empty lines", "; a\n\n # b\n\t\n" + MATCH),
    lines("a line without =", MATCH + "[Link]\nName lan0\n", (4, 3, "Name lan0")),
    lines("a line without a key", MATCH + " = a\n", (3, 3, "= a")),
    lines("a line before the first section", "Name=a\n" + MATCH, (1, 3, "Name=a")),
    Row("a line that is not UTF-8", WORDS, {"a.link": MATCH.encode() + b"Path=\xff\n"}, output=checked(0, 1), messages=b"a.link:3: L3 bad line: Path=\xff\n", status=1),
    lines("a line that goes on counts with its first number", MATCH + "[Link]\nNamePolicy=kernel \\\n# c\n  datebase\nName\n",
          (4, 4, "kernel    datebase"), (7, 3, "Name")),
    lines("a comment does not go on", MATCH + "# a\\\nNmae=a\n", (4, 2, "Nmae")),
    lines("carriage returns", "[Match]\r\nOriginalName=eth0\r\n"),
    lines("a byte order mark", b"\xef\xbb\xbf[Match]\nOriginalName=eth0\n"),
    lines("a last line without its end", MATCH + "[Link]\nNmae=a", (4, 2, "Nmae")),
    lines("a last line that goes on in none", MATCH + "[Link]\nNmae=a \\", (4, 2, "Nmae")),
    lines("a word of over 32 bytes", MATCH + "[Link]\n" + "N" * 40 + "=\n", (4, 2, "N" * 32)),
]

VALUES = [
    below("names", "Name=lan0", "Name=", "Name=a:b", "Name=12", "Name=all", "Name=sixteen-bytes-00", bad=(2, 3, 4, 5)),
    below("policies for the name", "NamePolicy=kernel database onboard slot path mac keep", "NamePolicy=", "NamePolicy=Kernel", "NamePolicy=slot, path",
          bad=(2, 3)),
    below("policies for further names", "AlternativeNamesPolicy=database path", "AlternativeNamesPolicy=keep", bad=(1,)),
    below("the policy for the address", "MACAddressPolicy=persistent", "MACAddressPolicy=none", "MACAddressPolicy=random none", bad=(2,)),
    below("yes and no", "AutoNegotiation=YES", "TCPSegmentationOffload=0", "RxFlowControl=t", "NTupleFilter=off", "LargeReceiveOffload=2",
          "UseAdaptiveRxCoalesce=enable", bad=(4, 5)),
    below("duplex", "Duplex=full", "Duplex=auto", bad=(1,)),
    below("packets that wake", "WakeOnLan=magic secureon", "WakeOnLan=off", "WakeOnLan=majic", bad=(2,)),
    below("values that are not looked at", "MTUBytes=x", "Description=a 'b", "Alias=\"", "BitsPerSecond=1G"),
    lines("names of interfaces in [Match]", "[Match]\nOriginalName=en* !eth0 wl?p1s0\nOriginalName=!lo\nOriginalName=enx[[:xdigit:]]*\nOriginalName=a b c this-is-too-long\n",
          (4, 4, "enx[[:xdigit:]]*"), (5, 4, "a b c this-is-too-long")),
    lines("patterns with open quotes", "[Match]\nPath=pci-*\nDriver='a b\nType=\"\nKind=a\\\n", (3, 4, "'a b"), (4, 4, "\"")),
    lines("properties", "[Match]\nProperty=ID_BUS=usb \"ID_MODEL=a b\"\nProperty=ID_BUS\nProperty=1A=b\n", (3, 4, "ID_BUS"), (4, 4, "1A=b")),
]

MATCHES = [
    lines("no [Match]", "[Link]\nName=lan0\n", (1, 5, "")),
    lines("an empty [Match]", "[Match]\n[Link]\nName=lan0\n", (1, 5, "")),
    lines("a [Match] whose values are taken back", MATCH + "OriginalName=\n", (1, 5, "")),
    lines("a [Match] whose words are dropped", "[Match]\nOriginalName=enx[[:xdigit:]]*\n", (1, 5, ""), (2, 4, "enx[[:xdigit:]]*")),
    lines("a [Match] on the machine alone", "[Match]\nHost=nas\n"),
    lines("a [Match] on an address alone", "[Match]\nMACAddress=00:50:b6:aa:bb:cc\n"),
    lines("a comment alone", "# a\n", (1, 5, "")),
    lines("an empty file", ""),
    lines("not if a line keeps the file from being used", "[Match\n", (1, 3, "[Match")),
    Row("a named drop-in", "verify --links b.conf", {"b.conf": "[Link]\nName=lan0\n"}, output=checked(1)),
    Row("a named file with its drop-in", "verify --links a.link a.link.d/b.conf", {"a.link": "[Link]\nName=lan0\n", "a.link.d/b.conf": MATCH}, output=checked(2)),
]

RUNS = [
    lines("--no-summary", MATCH + "[Links]\n", (3, 1, "Links"), words="verify --links --no-summary a.link", summary=False),
    Row("--ignore", "verify --links --ignore L1 a.link", {"a.link": MATCH + "[Links]\n"}, output=checked(1)),
    Row("--ignore of the class", "verify --links --ignore L a.link", {"a.link": "[Links]\n"}, output=checked(1)),
    Row("comments", "verify --links --ignore comments a.link", {"a.link": MATCH + "# devdry: ignore L1\n[Links]\n"}, output=checked(1)),
    Row("a comment that silences none", "verify --links --ignore comments a.link", {"a.link": MATCH + "# devdry: ignore L2\n[Link]\n"}, output=checked(0, 1),
        messages="a.link:3: I1 nothing to ignore: L2\n", status=1),
    Row("gcc", "verify --links --format gcc a.link", {"a.link": MATCH + "[Link]\n  Name = a:b\n"}, output=checked(0, 1),
        messages="a.link:4:10: error: bad value: a:b [L4]\n", status=1),
    Row("human", "verify --links --format human a.link", {"a.link": MATCH + "[Links]\n"}, output=checked(0, 1),
        messages="a.link:3:2: error: unknown section [L1]\n  [Links]\n   ^~~~~\n"
        "  = Write [Match], [Link], [SR-IOV] or [EnergyEfficientEthernet]: all of another section is skipped, and names that begin with X- are free to use.\n",
        status=1),
    Row("a named file that can't be read, and the rest", "verify --links no.link a.link", {"a.link": MATCH + "[Links]\n"}, output=checked(0, 1),
        messages=unread("no.link", "no such file") + said("a.link", 3, 1, "Links"), status=3),
]

ETC, RUN, LOCAL, LIB = (f"mnt/{top}/systemd/network" for top in ("etc", "run", "usr/local/lib", "usr/lib"))


def root(name, files, good, bad=0, messages="", status=None, words="verify --links -r mnt"):
    """A row over the folders of a root."""
    return Row(name, words, {"mnt/none": "", **files}, output=checked(good, bad), messages=messages, status=(1 if bad else 0) if status is None else status)


FOLDERS = [
    root("no folders", {}, 0),
    root("files of all folders, by name", {f"{LIB}/10-a.link": "[A]\n" + MATCH, f"{RUN}/20-b.link": MATCH, f"{LOCAL}/05-c.link": "[C]\n" + MATCH, f"{ETC}/30-d.link": MATCH},
         2, 2, said("05-c.link", 1, 1, "C") + said("10-a.link", 1, 1, "A")),
    root("of one name the first counts", {f"{ETC}/a.link": MATCH, f"{LIB}/a.link": "[A]\n"}, 1),
    root("a masked file is not checked", {f"{ETC}/a.link": Link("/dev/null"), f"{LIB}/a.link": "[A]\n"}, 0),
    root("other names are not checked", {f"{ETC}/a.network": "[A]\n", f"{ETC}/.a.link": "[A]\n", f"{ETC}/b.link": MATCH}, 1),
    root("drop-ins come after the files", {f"{LIB}/a.link": MATCH, f"{LIB}/b.link": "[B]\n" + MATCH, f"{ETC}/a.link.d/c.conf": "[C]\n"}, 1, 2,
         said("b.link", 1, 1, "B") + said("a.link.d/c.conf", 1, 1, "C")),
    root("hidden and empty drop-ins are not checked", {f"{LIB}/a.link": MATCH, f"{ETC}/a.link.d/.c.conf": "[C]\n", f"{ETC}/a.link.d/d.conf": "", f"{LIB}/a.link.d/d.conf": "[D]\n"}, 1),
    root("a [Match] of a drop-in", {f"{LIB}/a.link": "[Link]\nName=lan0\n", f"{ETC}/a.link.d/c.conf": MATCH}, 2),
    root("a [Match] that a drop-in takes back", {f"{LIB}/a.link": MATCH, f"{ETC}/a.link.d/c.conf": "[Match]\nOriginalName=\n"}, 1, 1, said("a.link", 1, 5)),
    root("a drop-in of another file", {f"{LIB}/a.link": "[Link]\nName=lan0\n", f"{LIB}/b.link": MATCH, f"{ETC}/b.link.d/c.conf": MATCH}, 2, 1, said("a.link", 1, 5)),
    root("the path of a file in a folder", {f"{LIB}/a.link": MATCH + "[B]\n"}, 0, 1, "mnt/usr/lib/systemd/network/a.link:3:2: error: unknown section: B [L1]\n",
         words="verify --links --format gcc -r mnt"),
    Row("a file that can't be read, and the rest", "verify --links -r mnt", {f"{LIB}/a.link": Moded(0, MATCH), f"{LIB}/b.link": MATCH}, output=checked(1),
        messages=unread(f"{LIB}/a.link", "permission denied"), status=3, plain=True),
]

# The files that systemd 257 ships, and those of the examples in systemd.link(5).
SHIPPED = [
    lines("99-default.link", "# SPDX-License-Identifier: MIT-0\n#\n[Match]\nOriginalName=*\n\n[Link]\nNamePolicy=keep kernel database onboard slot path\n"
                             "AlternativeNamesPolicy=database onboard slot path mac\nMACAddressPolicy=persistent\n"),
    lines("73-usb-net-by-mac.link", "[Match]\nPath=*-usb-*\n\n[Link]\nNamePolicy=mac\n"),
    lines("10-dmz.link", "[Match]\nMACAddress=00:a0:de:63:7a:e6\n\n[Link]\nName=dmz0\n"),
    lines("10-internet.link", "[Match]\nPath=pci-0000:00:1a.0-*\n\n[Link]\nName=internet0\n"),
    lines("25-wireless.link", "[Match]\nMACAddress=12:34:56:78:9a:bc\nDriver=brcmsmac\nPath=pci-0000:02:00.0-*\nType=wlan\nVirtualization=no\n"
                              "Host=my-laptop\nArchitecture=x86-64\n\n[Link]\nName=wireless0\nMTUBytes=1450\nBitsPerSecond=10M\nWakeOnLan=magic\n"
                              "MACAddress=cb:a9:87:65:43:21\n"),
]

ROWS = SECTIONS + KEYS + LINES + VALUES + MATCHES + RUNS + FOLDERS + SHIPPED
