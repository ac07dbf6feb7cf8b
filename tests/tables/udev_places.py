"""What `verify --udev` reports with codes of its own, each with its place, in every format."""
from tables.kinds.marked import in_formats

UDEV = ["--udev"]


def reported(name, *lines, **more):
    """A run of `verify --udev` over a file of these marked lines for each format."""
    return in_formats(name, *lines, words=UDEV, **more)


# For each message lines that cause it, each with its place.
ROWS = [
    *reported("V13", 'SUBSYSTEM=="net", ENV{<V13|DEVNAME>}="lan0"', 'ENV{<V13|TAGS>}+="a"', 'ENV{CURRENT_TAGS}="a"'),
    *reported("V14", 'SUBSYSTEM=="net", NAME="<V14|%k>"', 'NAME:="<V14|>"', 'NAME="%k0"'),
    *reported("V15", 'IMPORT{builtin}="<V15|usb-id>"', 'RUN{builtin}+="<V15|kmodx load>"', 'IMPORT{builtin}="usb"'),
    *reported("V16", 'KERNEL=="sda", <V16|KERNEL>=="sdb", TAG+="disk"', 'ENV{A}=="", TAG+="t", <V16|ENV>{A}!=""'),
    *reported("V17", 'KERNEL=="sda", SUBSYSTEM=="block", <V17|KERNEL>=="sda", TAG+="disk"', 'TAG+="a", <V17|TAG>+="a"'),
    *reported("V18", '<V18=|KERNEL=="sda", SUBSYSTEM=="block">', '  <V18=|TEST=="/x">', 'TAG-="t"'),
    *reported("V19", 'RESULT=="disk", <V19|PROGRAM>="/usr/lib/udev/kind %k", TAG+="disk"', 'PROGRAM=="a", RESULT=="b"'),
    *reported("V20", 'KERNEL=="sda", <V20|RUN>+=""', '<V20|TEST>=="", TAG+="t"', '<V20|IMPORT>{db}=""', 'SYMLINK+=""'),
    *reported("V21", 'ATTR{<V21|$disk/size>}=="0", TAG+="empty"', 'ATTR{<V21|%>}="1"', 'ENV{A%}="1"'),
    *reported("V22", 'KERNEL=="sda", ATTRS{<V22|device/model>}=="Mine", TAG+="disk"', 'ATTRS{<V22|a/../b>}=="1", TAG+="t"'),
    *reported("V23", 'SUBSYSTEM=="<V23|bus>", TAG+="x"', 'SUBSYSTEM!="<V23|class>", TAG+="x"', 'SUBSYSTEMS=="bus", TAG+="x"'),
    *reported("V24", 'KERNEL=="sda", <V24|ENV>{DISK}:="1"', '<V24|MODE> += "0660"'),
    *reported("V26", 'TAG+="a"', "<V26=|#" + "-" * 16_383 + ">", 'FOO="b"', formats=["plain", "gcc", "github", "gitlab", "json", "sarif"]),
    *reported("S5", '<S5=|, >KERNEL=="sda", TAG+="disk"', ' <S5=|, >TAG+="a"'),
    *reported("S6", 'KERNEL=="sda" , <S6|TAG>+="disk"'),
]
