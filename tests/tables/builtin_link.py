"""`events --udev`: what net_setup_link makes of `.link` files, as `udevadm test-builtin` of 257 answers it."""
from tables.kinds.builtin_rows import devdry_lines, importing, without_empty
from tables.kinds.link_cases import CASES
from tables.kinds.row import Link, Row

FOLDERS = ("etc/systemd/network", "run/systemd/network", "usr/local/lib/systemd/network", "usr/lib/systemd/network")
DEVICE = "veth1"
PATH = f"/devices/virtual/net/{DEVICE}"
# what the kernel reports of the interface of the cases
ATTRIBUTES = {"flags": "0x1002", "type": "1", "address": "12:34:56:78:90:ab", "addr_assign_type": "3"}


# the cases in which a line of the file or of its drop-in makes udev drop the file
NOT_UNDERSTOOD = {name: "etc" for name in (
    "bad header", "bad header later", "quote header", "utf8", "utf8 then", "cr lines", "nul lines", "header junk", "surrogate",
)} | {"dropin bad": "usr/lib"}


def unsound(name):
    """What is reported about the file of a case."""
    top = NOT_UNDERSTOOD.get(name)
    return f"devdry: r/{top}/systemd/network/10-a.link: not used: a line of it or of a drop-in is not understood\n" if top else ""


def placed(name):
    """Where a file of a case is."""
    return name if name.startswith(FOLDERS) else f"{FOLDERS[0]}/{name}"


def block(given):
    """The event of a case. Its properties are those that rules would have set before."""
    attributes = ATTRIBUTES | {"name_assign_type": given.get("source", "3"), "type": given.get("type", ATTRIBUTES["type"])}
    cmdline = given.get("cmdline")
    return "".join(f"{line}\n" for line in (
        f"C: {given.get('action', 'add')}", f"P: {PATH}", "U: net", f"E: INTERFACE={DEVICE}", "E: IFINDEX=3",
        *(f"E: {text}" for text in given.get("properties", ())),
        *(f"A: {name}={value}" for name, value in attributes.items()),
        *([f"K: cmdline={cmdline}"] if cmdline else []),
        *(f"K: {line}" for line in given.get("machine", ())),
    ))


def row(name, files, given, real, own=None):
    """A run over the block of a case, by a rule that imports the builtin."""
    answer = ["done", *(line.replace("note ", "note builtin needs: net_setup_link: ", 1) for line in (real if own is None else own))]
    gone = [b"note -: attributes of a removed device: " + PATH.encode()] if given.get("action") == "remove" else []
    held = {f"r/{placed(path)}": Link("/dev/null") if text is None else text for path, text in files.items()}
    lines = without_empty(block(given), devdry_lines(answer))
    return Row(name, "events --udev -r r r.rules", {"r.rules": importing("net_setup_link")} | held, input=block(given),
               output=b"".join(line + b"\n" for line in [*lines, *gone]) + b"\n", messages=unsound(name))


# A key of [Match] beside what the block says of the machine or the interface, and whether it is met: by `udevadm test-builtin` of 257
# on a machine that is so, and for other machines by systemd.unit(5). A text is what the note says is needed.
MACHINES = [
    ("Architecture", ["arch=x86-64"], {"x86-64": True, "native": True, "arm64": False, "x86": False, "X86-64": False, "x86-*": False, "x86-64 arm64": False,
                                       "!arm64": True, "! arm64": True, "!x86-64": False, "!!arm64": True, "bogus": False, "arm64\nArchitecture=x86-64": True}),
    ("Architecture", ["virt=kvm"], {"x86-64": "Architecture", "!arm64": "Architecture", "native": "Architecture"}),
    ("Virtualization", ["virt=kvm"], {"kvm": True, "KVM": False, "none": False, "qemu": False, "vm": True, "container": False, "yes": True, "no": False, "1": True, "OFF": False,
                                      "!kvm": False, "!qemu": True, "! yes": False, "kvm qemu": False, "private-users": "Virtualization"}),
    ("Virtualization", ["virt=none"], {"none": False, "yes": False, "no": True, "vm": False, "container": False, "!vm": True}),
    ("Virtualization", ["virt=docker"], {"docker": True, "container": True, "vm": False, "true": True}),
    ("Virtualization", ["arch=x86-64"], {"kvm": "Virtualization"}),
    ("Kind", ["kind=veth"], {"veth": True, "v*": True, "bridge veth": True, "!bridge": True, "VETH": False, "!veth": False}),
    ("Kind", ["kind="], {"veth": False, "*": False, "!veth": True}),
    ("PermanentMACAddress", ["permaddr=02:00:00:00:00:01"], {"02:00:00:00:00:01": True, "12:34:56:78:90:ab": False}),
    ("KernelCommandLine", ["cmdline.part=quiet a=1"], {"quiet": True, "a": True, "a=1": True, "!quiet": False, "a=2": "cmdline", "!a=2": "cmdline", "x": "cmdline"}),
    ("KernelCommandLine", ["arch=x86-64"], {"quiet": "cmdline", "!quiet": "cmdline"}),
    ("KernelVersion", ["kernel=6.18"], {"6.*": True, '"6.*': False, '!"6.*': False, '!5 "6': True, ">6": True, "!>": False, "!> 7": True,
                                        '> "5"': "KernelVersion", '"" 6.*': "KernelVersion", ">6 <": False, "!>6 <": False, "!>7 <": True,
                                        ">= 6.18~rc1 <6.18.1": True}),
    ("KernelVersion", ["arch=x86-64"], {"6.*": "KernelVersion", "!6.*": "KernelVersion"}),
]
NAMED = ["ID_NET_LINK_FILE=/etc/systemd/network/10-a.link", "ID_NET_LINK_FILE_DROPINS=", "ID_NET_NAME=abc0"]


def matching(key, machine, value, met):
    """A run over a file with this key alone."""
    real = [f"note {met}"] if isinstance(met, str) else NAMED if met else []
    return row(f"{key}={value.splitlines()[0]} in {len(value.splitlines())} lines where {', '.join(machine)}", {"10-a.link": f"[Match]\n{key}={value}\n[Link]\nName=abc0\n"}, {"machine": machine}, real)


# the numbers of hardware that interfaces have, by linux/if_arp.h of Linux 6.1 (Debian bookworm), each with its name behind ARPHRD_
HARDWARE = """
    1 ETHER; 24 IEEE1394; 32 INFINIBAND; 256 SLIP; 257 CSLIP; 258 SLIP6; 259 CSLIP6; 280 CAN; 290 MCTP; 512 PPP; 519 RAWIP; 768 TUNNEL; 769 TUNNEL6;
    772 LOOPBACK; 776 SIT; 778 IPGRE; 779 PIMREG; 801 IEEE80211; 802 IEEE80211_PRISM; 803 IEEE80211_RADIOTAP; 804 IEEE802154; 805 IEEE802154_MONITOR;
    820 PHONET; 821 PHONET_PIPE; 822 CAIF; 823 IP6GRE; 824 NETLINK; 825 6LOWPAN; 826 VSOCKMON; 65534 NONE; 65535 VOID
"""


def typed(number, name):
    """A run over files of which one is for hardware of this name, and the next for any other."""
    files = {"10-a.link": f"[Match]\nType={name.lower()}\n[Link]\nName=abc0\n", "20-b.link": "[Match]\nOriginalName=*\n[Link]\nName=abc1\n"}
    return row(f"hardware {number} is {name}", files, {"type": number}, NAMED)


ROWS = [
    *(row(*case) for case in CASES),
    *(matching(key, machine, value, met) for key, machine, values in MACHINES for value, met in values.items()),
    *(typed(*one.split()) for one in HARDWARE.split(";")),
]
