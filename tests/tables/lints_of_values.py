"""`verify --lint`: values and names that are most likely not meant (W16 to W19, W22), what rules assign (W20, W21, W23, W24), and
rules among those of their file (W15, W25, and W6 within a rule); links of network devices (W26), and what the name of a file says
about other files (W27, and W6 of what those import).

What is wanted was written by hand, from the tables of docs/behaviour.md.
"""
from dataclasses import replace

from tables.kinds.linted import all_linted, lint, reported


def each_value(number, key, values, *others):
    """A line for each value of a key, in a rule with a match, which each cause a lint of this number with the value as its word."""
    return reported(number, *((", ".join([f'{key}"{value}"', *others]), value) for value in values))


W15 = [
    all_linted("W15", *reported(15, *((f'{key}="a"', key.partition("{")[0]) for key in ["OWNER", "GROUP", "NAME", "ATTR{a}", "SYSCTL{a}", "SECLABEL{a}"])),
        *reported(15, ('SYMLINK+="a"', "SYMLINK"), ('RUN+="/bin/a"', "RUN"), ('  MODE="0660", RUN+="/bin/a"', "MODE"), ('TAG+="t", MODE="0660"', "MODE"))),
    all_linted("no W15 of marks for other rules", 'TAG+="t"', 'ENV{A}="1"', 'OPTIONS+="watch"', 'TAG+="t", ENV{A}="1", OPTIONS+="watch"'),
    all_linted("no W15 of rules that may end", *(f'{key}=="a", MODE="0660"' for key in ["KERNEL", "TEST", "PROGRAM", "IMPORT{db}", "ATTRS{a}"]),
        'PROGRAM=="/bin/a", RESULT=="b", MODE="0660"', 'KERNEL!="a", MODE="0660"', 'IMPORT{builtin}="path_id", MODE="0660"'),
    all_linted("no W15 below a jump", 'ACTION=="remove", GOTO="end"', 'MODE="0660"', 'LABEL="end"', 'GROUP="a"'),
    all_linted("W15 below a jump that is dropped", ('ACTION=="remove", GOTO="end"', "V7 no later label: end"), *reported(15, ('MODE="0660"', "MODE"))),
    all_linted("W15 above a jump", *reported(15, ('MODE="0660"', "MODE")), 'ACTION=="remove", GOTO="end"', 'LABEL="end"'),
]

FOUR = ["idVendor", "idProduct", "bcdDevice", "id/vendor", "id/product", "id/version", "id/bustype"]
TWO = ["bDeviceClass", "bDeviceSubClass", "bDeviceProtocol", "bInterfaceNumber", "bInterfaceClass", "bInterfaceSubClass", "bInterfaceProtocol", "bNumEndpoints"]
W16 = [
    all_linted("W16 of ACTION", *each_value(16, "ACTION==", ["ADD", "plug", "add|removed", "create*", "Add|change"]), *each_value(16, "ACTION!=", ["del"])),
    all_linted("no W16 of ACTION", *(f'ACTION=="{value}"' for value in ["add", "remove|change|move", "a*", "?*e", "on*", "bind|unbind", "offline", "[ab]*"])),
    all_linted("W16 of KERNEL", *each_value(16, "KERNEL==", ["/dev/sda", "/dev/ttyUSB*", "sda|/dev/sdb", "/sys/a"]), *each_value(16, "KERNELS==", ["/dev/a"])),
    all_linted("no W16 of KERNEL", 'KERNEL=="sda"', 'KERNEL=="cciss/c?d?"', 'KERNEL=="*/a"', 'KERNEL=="[/]a"', 'KERNEL=="a|"', 'NAME=="/dev/a"'),
    all_linted("W16 of DEVPATH", *each_value(16, "DEVPATH==", ["/sys/devices/*", "/dev/sda", "/devices/*|/sys/*"])),
    all_linted("no W16 of DEVPATH", *(f'DEVPATH=="{value}"' for value in ["/devices/*", "*/usb1/*", "/system/*", "/module/*", "?sys/*", "devices/pci*"])),
    all_linted("W16 of SUBSYSTEM", *each_value(16, "SUBSYSTEM==", ["USB", "Block", "usb|TTY"]), *each_value(16, "SUBSYSTEMS==", ["PCI"])),
    all_linted("no W16 of SUBSYSTEM", *(f'SUBSYSTEM=="{value}"' for value in ["usb", "mISDN", "USB*", "[Uu]SB", "DAHDI"]), 'SUBSYSTEM==i"USB"'),
    *(all_linted(f"W16 of {name}", *each_value(16, f"ATTRS{{{name}}}==", ["0x04d8", "4d8", "004d8", "04dg", "04d8|x", "?"]),
        *each_value(16, f"ATTR{{{name}}}!=", ["421"])) for name in FOUR),
    *(all_linted(f"W16 of {name}", *each_value(16, f"ATTRS{{{name}}}==", ["0x03", "3", "003", "3h"])) for name in TWO),
    all_linted("no W16 of numbers", *(f'ATTRS{{idVendor}}=="{value}"' for value in ["04d8", "04*", "*", "????", "[0-9]4d?", "", "|04d8", "04d[8-9a]", "*04d8?"]),
        'ATTRS{bInterfaceNumber}=="|00"', 'ATTRS{vendor}=="0x8086"', 'ATTRS{bNumInterfaces}==" 1"'),
    all_linted("W16 of removable", *each_value(16, "ATTR{removable}==", ["true", "yes", "01"])),
    all_linted("no W16 of removable", *(f'ATTR{{removable}}=="{value}"' for value in ["0", "1", "removable", "fixed|unknown", "?"])),
    all_linted("W16 of CONST{arch}", *each_value(16, "CONST{arch}==", ["amd64", "x86_64", "aarch64", "i386|x86"])),
    all_linted("no W16 of constants", *(f'CONST{{arch}}=="{value}"' for value in ["x86-64", "x86*", "arm64|riscv64"]), 'CONST{virt}=="amd64"'),
]

W17 = [
    all_linted("W17", *each_value(17, "KERNEL==", ["sda | sdb", "sda| sdb", "sda |sdb", "sda|sdb | sdc"])),
    all_linted("W17 of each kind of match", *reported(17, ('ENV{A}=="a | b"', "a | b"), ('ATTRS{a}!="a | b"', "a | b"),
        ('PROGRAM=="/bin/a", RESULT=="a | b"', "a | b"), ('TAG=="a | b"', "a | b"))),
    all_linted("no W17", 'KERNEL=="sda|sdb"', 'ATTRS{model}=="a b|c d"', 'ATTRS{a}==" 1| 2"', 'ATTRS{vendor}=="ATA     |HP      "', 'ENV{A}="a | b"'),
]

W18 = [
    all_linted("W18 of attributes", *reported(18, *((f'{key}{{{name}}}=="0001"', known) for key in ["ATTR", "ATTRS"] for name, known in [
        ("idvendor", "idVendor"), ("IDPRODUCT", "idProduct"), ("Serial", "serial"), ("idVendr", "idVendor"), ("idVendors", "idVendor"),
        ("idVedor", "idVendor"), ("idVnedor", "idVendor"), ("idXendor", "idVendor"), ("queue/shceduler", "queue/scheduler"),
        ("ID_VENDOR_ID", "ENV"), ("ID_X", "ENV")]))),
    all_linted("W18 of properties", *reported(18, *((f'ENV{{{name}}}=="x"', known) for name, known in [
        ("SYSTEMD_WANT", "SYSTEMD_WANTS"), ("ID_VENDR", "ID_VENDOR"), ("id_serial", "ID_SERIAL"), ("ID_SERIAL_SHROT", "ID_SERIAL_SHORT"),
        ("idVendor", "ATTRS"), ("bInterfaceNumber", "ATTRS")]))),
    all_linted("W18 of what is assigned", *reported(18, ('KERNEL=="a", ENV{SYSTEMD_WANT}+="a.service"', "SYSTEMD_WANTS"),
        ('KERNEL=="a", ATTR{queue/shceduler}="none"', "queue/scheduler"))),
    all_linted("no W18", *(f'ATTRS{{{name}}}=="0001"' for name in ["idVendor", "modem", "models", "size", "a"]),
        *(f'ENV{{{name}}}=="x"' for name in ["ID_PART", "ID_PATH", "ID_BUSS", "MY_SIDE", "ID_MODEL_ID", "idvendo"]), 'KERNEL=="a", SYMLINK+="$attr{idVendor}-$env{ID_X}"'),
]

W19 = [
    all_linted("W19 of matches", *each_value(19, "KERNEL==", ["%k", "a%n", "$kernel", "a-$env{X}", "%s{a}"]), *reported(19, ('ATTRS{serial}=="$attr{serial}"', "$attr{serial}"))),
    all_linted("no W19 of matches", *(f'ENV{{A}}=="{value}"' for value in ["100%", "a$b", "5%-6%", "$x"])),
    all_linted("W19 of names after a percent sign", *each_value(19, "SYMLINK+=", ["a/%name", "%kernel", "a%number", "%major", "%minor", "%parent", "%root"], 'KERNEL=="a"')),
    all_linted("W19 of words of the result", *each_value(19, "SYMLINK+=", ["a/%c1", "$result[1]", "%k-%c2"], 'PROGRAM=="/bin/a"')),
    all_linted("W19 of attributes and properties", *each_value(19, "SYMLINK+=", ["a/$env{idVendor}", "a/$attr{ID_SERIAL}", "%s{ID_PATH}"], 'KERNEL=="a"'),
        *reported(19, ('KERNEL=="a", RUN+="/bin/a %E{idProduct}"', "/bin/a %E{idProduct}"), ('PROGRAM=="/bin/a $env{idVendor}"', "/bin/a $env{idVendor}"))),
    all_linted("no W19", *(f'KERNEL=="a", SYMLINK+="{value}"' for value in ["%k", "a%n", "%c{1}", "$result{2+}", "$name", "%%name", "%k%n", "%P-a", "$result", "%c0", "100%% %name"])),
]

W20 = [
    all_linted("W20", *reported(20, ('KERNEL=="a", RUN="/bin/a"', "RUN"), ('KERNEL=="a", RUN{builtin}="kmod load a"', "RUN"), ('KERNEL=="a", SYMLINK="b"', "SYMLINK"),
        ('KERNEL=="a", TAG="b"', "TAG"))),
    all_linted("no W20", *(f'KERNEL=="a", {it}' for it in ['RUN+="/bin/a"', 'RUN:="/bin/a"', 'SYMLINK:="b"', 'SYMLINK=""', 'RUN=""', 'TAG+="b"', 'MODE="0660"', 'NAME="b"'])),
]

FIXED = ["idVendor", "idProduct", "bcdDevice", "bDeviceClass", "bDeviceSubClass", "bDeviceProtocol", "bInterfaceNumber", "bInterfaceClass", "bInterfaceSubClass",
    "bInterfaceProtocol", "manufacturer", "product", "serial", "busnum", "devnum", "removable", "partition", "address", "ifindex", "modalias"]
TELLING = ["ID_BUS", "ID_FS_LABEL", "ID_FS_TYPE", "ID_FS_UUID", "ID_MODEL", "ID_MODEL_ID", "ID_PATH", "ID_SERIAL", "ID_SERIAL_SHORT", "ID_TYPE", "ID_USB_DRIVER",
    "ID_USB_INTERFACE_NUM", "ID_VENDOR", "ID_VENDOR_ID"]
W21 = [
    all_linted("W21 of attributes", *reported(21, *((f'KERNEL=="a", ATTR{{{name}}}="1"', "ATTR") for name in FIXED))),
    all_linted("W21 of properties", *reported(21, *((f'KERNEL=="a", ENV{{{name}}}="1", SYMLINK+="b"', "ENV") for name in TELLING))),
    all_linted("W21 with each gift", *reported(21, *((f'KERNEL=="a", ENV{{ID_BUS}}="1", {gift}', "ENV") for gift in ['OWNER="a"', 'GROUP="a"', 'MODE="0660"', 'NAME="b"', 'RUN+="/bin/a"']))),
    all_linted("no W21", *(f'KERNEL=="a", {it}' for it in ['ENV{ID_BUS}="usb"', 'ENV{ID_BUS}="usb", TAG+="t"', 'ENV{ID_BUS}="", MODE="0660"', 'ENV{ID_SERIAL}="$kernel", MODE="0660"',
        'ENV{A}="usb", MODE="0660"', 'ENV{ID_BUS}+="usb", MODE="0660"', 'ATTR{power/control}="auto"', 'ATTR{a}="1"'])),
]

W22 = [
    all_linted("W22", *each_value(22, "NAME=", ["sixteen-bytes-16", "office-network-first"], 'SUBSYSTEM=="net"')),
    all_linted("no W22", *(f'SUBSYSTEM=="net", NAME="{value}"' for value in ["fifteen-bytes15", "a", "office-network-%n-x", "$env{A_LONG_NAME_OF_A_PROPERTY}"]), 'NAME=="office-network-first"'),
]

UNTAGGED = ["hid", "hidraw", "i2c", "input", "pci", "power_supply", "scsi", "usb", "usbmisc", "video4linux"]
W23 = [
    all_linted("W23", *reported(23, *((f'SUBSYSTEM=="{name}", ENV{{SYSTEMD_WANTS}}+="a.service"', "ENV") for name in UNTAGGED)),
        *reported(23, ('SUBSYSTEM=="usb", ENV{SYSTEMD_USER_WANTS}="a.service"', "ENV"))),
    all_linted("no W23", *(f'{it}, ENV{{SYSTEMD_WANTS}}+="a.service"' for it in ['SUBSYSTEM=="block"', 'SUBSYSTEM=="net"', 'SUBSYSTEM=="usb|block"', 'SUBSYSTEM!="usb"', 'KERNEL=="a"']),
        'SUBSYSTEM=="usb", ENV{SYSTEMD_READY}="0"'),
    all_linted("no W23 with the tag", 'SUBSYSTEM=="usb", ENV{SYSTEMD_WANTS}+="a.service", TAG+="systemd"'),
    all_linted("no W23 if another rule is about tags", 'SUBSYSTEM=="usb", ENV{SYSTEMD_WANTS}+="a.service"', 'SUBSYSTEM=="usb", TAG+="systemd"'),
    all_linted("no W23 if tags are compared", 'SUBSYSTEM=="usb", TAG=="systemd", ENV{SYSTEMD_WANTS}+="a.service"'),
]

FORBIDDEN = ["curl", "fusermount", "fusermount3", "mount", "ntfs-3g", "ping", "rsync", "scp", "ssh", "sshfs", "umount", "wget"]
W24 = [
    all_linted("W24", *each_value(24, "RUN+=", [f"/usr/bin/{name} a" for name in FORBIDDEN], 'KERNEL=="a"')),
    all_linted("W24 of other commands", *reported(24, ('PROGRAM=="/bin/ping -c 1 a"', "/bin/ping -c 1 a"), ('IMPORT{program}="/bin/wget a"', "/bin/wget a"))),
    all_linted("no W24", *(f'KERNEL=="a", RUN+="{value}"' for value in ["/usr/bin/systemd-mount a", "/bin/a mount", "/bin/mountpoint a", "/usr/bin/systemctl start a"])),
]

W25 = [
    all_linted("W25", *reported(25, ('RESULT=="a", MODE="0660"', "RESULT")), 'KERNEL=="a", PROGRAM=="/bin/a"', 'RESULT=="b"'),
    all_linted("no W25", 'PROGRAM=="/bin/a"', 'RESULT=="a", MODE="0660"'),
    all_linted("no W25 in one rule", 'PROGRAM=="/bin/a", RESULT=="a"'),
]

W6 = [
    all_linted("W6 behind an import of the same rule", *reported(6, ('IMPORT{program}="/bin/a", ENV{MY_SIDE}=="left"', "MY_SIDE")), 'KERNEL=="a"'),
    all_linted("W6 behind an import of a file", *reported(6, ('IMPORT{file}="/run/a", ENV{MY_SIDE}=="left"', "MY_SIDE"))),
    all_linted("no W6 before the import", 'ENV{MY_SIDE}=="left", IMPORT{program}="/bin/a"'),
    all_linted("no W6 of what is given before", 'IMPORT{program}="/bin/a", ENV{DEVTYPE}=="disk", ENV{ID_BUS}=="usb", ENV{DM_NAME}=="a"'),
    all_linted("no W6 of what a rule above gives", 'ENV{MY_SIDE}="left"', 'IMPORT{program}="/bin/a", ENV{MY_SIDE}=="left"'),
    all_linted("no W6 of what a program above may give", 'IMPORT{program}="/bin/a"', 'IMPORT{program}="/bin/b", ENV{MY_SIDE}=="left"'),
    all_linted("no W6 of other comparisons", 'IMPORT{program}="/bin/a", ENV{MY_SIDE}!="left"', 'IMPORT{program}="/bin/a", ENV{MY_SIDE}=="|left"'),
]

W26 = [
    all_linted("W26", *reported(26, *((f'{match}, SYMLINK+="lan"', "lan") for match in ['SUBSYSTEM=="net"', 'KERNEL=="eth0"', 'KERNEL=="wlan*"', 'ACTION=="add", SUBSYSTEM=="net"']),
        ('SUBSYSTEM=="net", SYMLINK:="a b"', "a b"))),
    all_linted("no W26", *(f'{match}, SYMLINK+="lan"' for match in ['SUBSYSTEM=="usb"', 'SUBSYSTEM!="net"', 'SUBSYSTEM=="net|usb"', 'SUBSYSTEMS=="net"', 'KERNEL=="net0"', 'KERNEL!="eth0"', 'KERNEL=="et*"']),
        'SUBSYSTEM=="net", NAME="lan"', 'SUBSYSTEM=="net", SYMLINK=="lan", TAG+="a"'),
]

TAG = 'KERNEL=="a", TAG+="uaccess"'


def named(title, name, *lines):
    """A run over a file with this name, of lines as `all_linted` takes them."""
    row = all_linted(title, *lines)
    folder = {name: row.files["r.rules"]}
    return replace(row, words=f"verify --lint {name}", files=folder, messages=row.messages.replace(b"r.rules:", name.encode() + b":"))


W27 = [
    *(named(f"W27 in {name}", name, (TAG, lint(27, "TAG"))) for name in ["99-mine.rules", "mine.rules", "73-usb.rules", "73-seat-late2.rules", "73.rules", "8.rules", "70/99.rules"]),
    *(named(f"no W27 in {name}", name, TAG) for name in ["70-mine.rules", "73-seat-late.rules", "73-a.rules", "60-z.rules", "99-mine.txt", "99/70-a.rules", "100-a.rules"]),
    named("W27 of the first tag", "99-mine.rules", 'KERNEL=="b", TAG+="seat"', ('KERNEL=="a", TAG+="uaccess", TAG+="uaccess"', lint(27, "TAG")), TAG),
    named("no W27 of other tags", "99-mine.rules", 'KERNEL=="a", TAG+="seat"', 'KERNEL=="a", TAG-="uaccess"', 'TAG=="uaccess", MODE="0660"'),
    named("no W27 in a file that runs the builtin", "99-mine.rules", TAG, 'TAG=="uaccess", RUN{builtin}+="uaccess"'),
]

LATER_FILES = [
    *(named(f"W6 of {key} in {name}", name, (f'ENV{{{key}}}=="a", TAG+="t"', lint(6, key))) for name, key in [
        ("10-mine.rules", "ID_FS_LABEL"), ("10-mine.rules", "ID_PART_ENTRY_NAME"), ("11-a.rules", "ID_FS_TYPE"), ("49-z.rules", "ID_USB_DRIVER"), ("49-z.rules", "ID_PATH"),
        ("49-z.rules", "ID_PATH_TAG"), ("59-z.rules", "ID_INPUT"), ("60-a.rules", "ID_INPUT_KEY"), ("74-a.rules", "ID_NET_NAME_PATH")]),
    *(named(f"no W6 of {key} in {name}", name, f'ENV{{{key}}}=="a", TAG+="t"') for name, key in [
        ("11-e.rules", "ID_FS_LABEL"), ("99-mine.rules", "ID_FS_LABEL"), ("mine.rules", "ID_FS_LABEL"), ("10-mine.txt", "ID_FS_LABEL"), ("50-v.rules", "ID_USB_DRIVER"), ("50-v.rules", "ID_PATH"),
        ("60-j.rules", "ID_INPUT"), ("76-a.rules", "ID_NET_NAME_PATH"), ("10-mine.rules", "ID_BUS"), ("10-mine.rules", "ID_FS")]),
    named("no W6 of what a rule above imports from a later file", "10-mine.rules", 'KERNEL=="sd*", IMPORT{builtin}="blkid"', 'ENV{ID_FS_LABEL}=="a", TAG+="t"'),
    named("no W6 of other comparisons in a file that comes early", "10-mine.rules", 'ENV{ID_FS_LABEL}!="a", TAG+="t"', 'ENV{ID_FS_LABEL}=="", TAG+="t"', 'ENV{ID_FS_LABEL}="a", TAG+="t"'),
]

ORDER = [
    all_linted("the order of lints", ('RUN="~/a.sh", ATTR{removable}="1", SUBSYSTEM=="NET", ATTRS{idvendor}=="04 | 05"', lint(2, "~/a.sh"), lint(20, "RUN"), lint(21, "ATTR"), lint(16, "NET"),
        lint(17, "04 | 05"), lint(18, "idVendor"))),
]

ROWS = [*W15, *W16, *W17, *W18, *W19, *W20, *W21, *W22, *W23, *W24, *W25, *W6, *W26, *W27, *LATER_FILES, *ORDER]
