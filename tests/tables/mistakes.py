"""Mistakes that authors of rules make, each with what `verify --lint --udev` tells of it: first those that udev itself refuses or
advises against, then those that only lints tell. Nothing is told of those at the end: whether they are mistakes can't be seen in
the file.

The mistakes are those that were tried in a review of 28 November 2026; what is wanted was written by hand.
"""
from tables.kinds.linted import lint
from tables.kinds.marked import TEXTS
from tables.kinds.row import Row
from tables.kinds.verified import verified


def told(name, *lines):
    """A mistake, with what is told of its lines."""
    return verified(name, *lines, words="verify --lint --udev")


def fault(code, word=""):
    """What a message with this code says, with the first 32 bytes of its word."""
    return f"{code} {TEXTS[code]}" + (f": {word[:32]}" if word else "")


def told_from(name, line, at):
    """A line that can't be read from a text on, of which the rest is shown."""
    return told(name, (line, fault("V1", line[line.index(at) :])))


USB = 'SUBSYSTEM=="usb", ENV{DEVTYPE}=="usb_device"'

FAULTY = [
    told("a comma left out between matches", ('KERNEL=="sda" SUBSYSTEM=="block", SYMLINK+="mine"', fault("S1", "SUBSYSTEM"))),
    told("a comma left out before an assignment", ('KERNEL=="sda" SYMLINK+="mine"', fault("S1", "SYMLINK"))),
    told("a property after a dollar sign", ('KERNEL=="sda", RUN+="/usr/local/bin/mine $DEVNAME"', fault("V6", "/usr/local/bin/mine $DEVNAME"))),
    told("one = for a subsystem", ('SUBSYSTEM="block", SYMLINK+="mine"', fault("V3", "SUBSYSTEM"))),
    told("one = for an action", ('KERNEL=="sda", ACTION="add", SYMLINK+="mine"', fault("V3", "ACTION"))),
    told("one = for a result", ('KERNEL=="sda", PROGRAM="/usr/local/bin/info", RESULT="disk", SYMLINK+="mine"', fault("V3", "RESULT"))),
    told("== for a group", ('KERNEL=="sda", GROUP=="disk"', fault("V3", "GROUP"))),
    told("a label of another name", ('KERNEL!="sda", GOTO="mine_end"', fault("V7", "mine_end")), 'KERNEL=="sda", SYMLINK+="mine"', ('LABEL="my_end"', fault("S4", "my_end"))),
    told("a label in small letters", ('KERNEL!="sda", GOTO="mine_end"', fault("V7", "mine_end")), ('label="mine_end"', fault("V2", "label"))),
    told("a label above its jump", ('LABEL="mine"', fault("S4", "mine")), ('KERNEL!="sda", GOTO="mine"', fault("V7", "mine"))),
    told("IMPORT without its type", ('KERNEL=="sda", IMPORT="/usr/local/bin/info"', fault("V4", "IMPORT"))),
    told("ENV without a name", ('KERNEL=="sda", ENV=="1", SYMLINK+="mine"', fault("V4", "ENV"))),
    told("SECLABEL without a module", ('KERNEL=="sda", SECLABEL="mine_t"', fault("V4", "SECLABEL"))),
    told_from("an assignment in braces", 'KERNEL=="sda", ENV{A="1"}', "ENV"),
    told_from("a name in parentheses", 'KERNEL=="sda", ENV(A)="1"', "ENV"),
    told("a substitution in braces", ('KERNEL=="sda", SYMLINK+="disk-${kernel}"', fault("V6", "disk-${kernel}"))),
    told("an option of old versions", ('KERNEL=="sda", OPTIONS+="ignore_device"', fault("V5", "ignore_device"))),
    told("an option of old versions, among others", ('KERNEL=="sda", OPTIONS+="all_partitions", SYMLINK+="mine"', fault("V5", "all_partitions"))),
    told_from("the operator of a regular expression", 'KERNEL=~"sd", SYMLINK+="mine"', "KERNEL"),
    told_from("an operator the wrong way round", 'KERNEL=!"sda", SYMLINK+="mine"', "KERNEL"),
    told("a plain percent sign", ('KERNEL=="sda", ENV{MINE}="50%"', fault("V6", "50%"))),
    told("a substitution with the name of a match", ('KERNEL=="sda", SYMLINK+="disk-$attrs{idVendor}"', fault("V6", "disk-$attrs{idVendor}"))),
    told("a mode that ends in a letter", ('KERNEL=="sda", MODE="0666o"', lint(1, "0666o"))),
    told("a mode in decimal", ('KERNEL=="sda", MODE="438"', lint(1, "438"))),
    told("a mode in letters", ('KERNEL=="sda", MODE="a+rw"', lint(1, "a+rw"))),
    told_from("quotes within quotes", 'KERNEL=="sda", RUN+="/bin/sh -c "echo %k""', 'echo %k""'),
    told_from("a comment behind a rule", 'KERNEL=="sda", SYMLINK+="mine" # my disk', "# my"),
    told_from("two matches with && between", 'KERNEL=="sda" && SUBSYSTEM=="block", SYMLINK+="mine"', "&&"),
    told("SYMLINK that compares and assigns nothing", ('KERNEL=="sda", SYMLINK=="mine"', fault("V18"))),
    told("a constant that udev does not have", ('CONST{hostname}=="mine", KERNEL=="sda", SYMLINK+="mine"', fault("V4", "CONST"))),
    told("two actions at once", ('ACTION=="add", ACTION=="change", KERNEL=="sda", SYMLINK+="mine"', fault("V16", "ACTION"))),
    told("a builtin with a dash", ('KERNEL=="sda", IMPORT{builtin}="path-id"', fault("V15", "path-id"))),
    told("a program taken for a builtin", ('KERNEL=="sda", RUN{builtin}+="mount"', fault("V15", "mount"))),
    Row(
        "letters of a user swapped",
        "verify --lint --udev --users passwd r.rules",
        {"passwd": b"john:x:1000:1000::/home/john:/bin/sh\n", "r.rules": b'KERNEL=="sda", OWNER="jonh"\n'},
        output="1 files checked, 0 good, 1 bad\n",
        messages=b"r.rules:1: V25 unknown user or group: jonh\n",
        status=1,
    ),
]

LINTED = [
    told("a number with 0x", ('SUBSYSTEMS=="usb", ATTRS{idVendor}=="0x0421", MODE="0660"', lint(16, "0x0421"))),
    told("a number without its zero", ('SUBSYSTEMS=="usb", ATTRS{idVendor}=="421", MODE="0660"', lint(16, "421"))),
    told("a number in capitals", ('SUBSYSTEMS=="usb", ATTRS{idProduct}=="007B", MODE="0660"', lint(4, "007B"))),
    told("ATTR for ATTRS", ('SUBSYSTEM=="tty", ATTR{idVendor}=="0421", SYMLINK+="phone"', lint(5, "idVendor"))),
    told("an attribute in small letters", (f'{USB}, ATTR{{idvendor}}=="0421", MODE="0660"', lint(18, "idVendor"))),
    told("attributes of USB and PCI devices", ('ATTRS{idVendor}=="0421", ATTRS{subsystem_vendor}=="0x8086", MODE="0660"', lint(5, "subsystem_vendor"))),
    told("an interface by its name, and a device by its vendor", ('SUBSYSTEM=="tty", KERNELS=="5-2:1.0", ATTRS{idVendor}=="0421", SYMLINK+="phone"', lint(5, "idVendor"))),
    told("an interface by its driver, and a device by its vendor", ('SUBSYSTEM=="tty", DRIVERS=="cdc_acm", ATTRS{idVendor}=="0421", SYMLINK+="phone"', lint(5, "idVendor"))),
    told("SUBSYSTEMS of the device itself", ('SUBSYSTEMS=="tty", ATTRS{idVendor}=="0421", SYMLINK+="phone"', lint(5, "idVendor"))),
    told("RESULT in a rule above its PROGRAM", ('KERNEL=="sda", RESULT=="disk", SYMLINK+="mine"', lint(25, "RESULT")), 'KERNEL=="sda", PROGRAM="/usr/local/bin/info"'),
    told("a property compared in the rule that imports it", ('KERNEL=="sda", IMPORT{program}="/usr/local/bin/info %k", ENV{MY_SIDE}=="left", SYMLINK+="left"', lint(6, "MY_SIDE"))),
    told("a substitution in a match", ('KERNEL=="%k", SYMLINK+="mine"', lint(19, "%k"))),
    told("a long name after a percent sign", ('KERNEL=="ttyUSB0", SYMLINK+="modem-%name"', lint(19, "modem-%name"))),
    told("a word of the result without braces", ('KERNEL=="sda", PROGRAM="/usr/local/bin/info", SYMLINK+="mine-%c1"', lint(19, "mine-%c1"))),
    told("a word of the result in brackets", ('KERNEL=="sda", PROGRAM="/usr/local/bin/info", SYMLINK+="mine-$result[1]"', lint(19, "mine-$result[1]"))),
    told("a letter left out of a property", ('SUBSYSTEM=="block", ENV{ID_VENDR}=="Kingston", SYMLINK+="stick"', lint(18, "ID_VENDOR"))),
    told("an attribute taken for a property", ('SUBSYSTEM=="tty", SYMLINK+="tty-$env{idVendor}"', lint(19, "tty-$env{idVendor}"))),
    told("an action in capitals", ('ACTION=="ADD", SUBSYSTEM=="block", RUN+="/usr/local/bin/mine"', lint(16, "ADD"))),
    told("a subsystem in capitals", ('SUBSYSTEM=="USB", ATTR{idVendor}=="0421", MODE="0660"', lint(16, "USB"))),
    told("/dev/ in KERNEL", ('KERNEL=="/dev/ttyUSB0", SYMLINK+="modem"', lint(16, "/dev/ttyUSB0"))),
    told("/sys in DEVPATH", ('DEVPATH=="/sys/devices/pci0000:00/*", RUN+="/usr/local/bin/mine"', lint(16, "/sys/devices/pci0000:00/*"))),
    told("blanks around a bar", ('KERNEL=="ttyACM0 | ttyACM1", SYMLINK+="modem"', lint(17, "ttyACM0 | ttyACM1"))),
    told("an address in capitals", ('SUBSYSTEM=="net", ATTR{address}=="00:1A:2B:3C:4D:5E", NAME="lan0"', lint(4, "00:1A:2B:3C:4D:5E"))),
    told("removable is true", ('SUBSYSTEM=="block", ATTR{removable}=="true", GROUP="plugdev"', lint(16, "true"))),
    told("an architecture of Debian", ('KERNEL=="sda", CONST{arch}=="amd64", SYMLINK+="mine"', lint(16, "amd64"))),
    told("a plus of a regular expression", ('KERNEL=="ttyUSB[0-9]+", SYMLINK+="modem"', lint(11, "ttyUSB[0-9]+"))),
    told("a rule whose line is not continued", 'KERNEL=="ttyUSB0", ATTRS{serial}=="A1", GROUP="dialout"', ('  SYMLINK+="modem"', lint(15, "SYMLINK"))),
    told("letters of an attribute swapped", ('KERNEL=="sda", ATTR{queue/shceduler}="none"', lint(18, "queue/scheduler"))),
    told("a program in the home folder", ('KERNEL=="sda", RUN+="~/bin/backup"', lint(2, "~/bin/backup"))),
    told("a variable before the program", ('KERNEL=="sda", RUN+="DISPLAY=:0 /usr/bin/xset dpms"', lint(2, "DISPLAY=:0 /usr/bin/xset dpms"))),
    told("a program in the background", ('KERNEL=="sda", RUN+="/usr/local/bin/backup &"', lint(2, "/usr/local/bin/backup &"))),
    told("a sign of the shell", ('KERNEL=="sda", RUN+="/bin/echo %k > /run/disk"', lint(2, "/bin/echo %k > /run/disk"))),
    told("a script without its path", ('KERNEL=="sda", RUN+="mine.sh %k"', lint(3, "mine.sh %k"))),
    told("a command that mounts", ('KERNEL=="sda1", RUN+="/bin/mount /dev/sda1 /mnt"', lint(24, "/bin/mount /dev/sda1 /mnt"))),
    told("RUN that replaces others", ('KERNEL=="sda", RUN="/usr/local/bin/backup"', lint(20, "RUN"))),
    told("SYMLINK that replaces others", ('KERNEL=="sda", SYMLINK="backup"', lint(20, "SYMLINK"))),
    told("a property assigned that was to be compared", ('SUBSYSTEM=="block", ENV{ID_BUS}="usb", SYMLINK+="stick"', lint(21, "ENV"))),
    told("an attribute assigned that was to be compared", ('SUBSYSTEM=="block", ATTR{removable}="0", SYMLINK+="disk"', lint(21, "ATTR"))),
    told("a name of 28 letters", ('SUBSYSTEM=="net", ATTR{address}=="00:1a:2b:3c:4d:5e", NAME="interface-of-the-first-floor"', lint(22, "interface-of-the-first-floor"))),
    told("a unit that is wanted without the tag", (f'{USB}, ATTR{{idVendor}}=="0421", ENV{{SYSTEMD_WANTS}}+="phone.service"', lint(23, "ENV"))),
    told("a letter left out of SYSTEMD_WANTS", (f'{USB}, TAG+="systemd", ENV{{SYSTEMD_WANT}}+="phone.service"', lint(18, "SYSTEMD_WANTS"))),
    told("a link of a network card", ('SUBSYSTEM=="net", ATTR{address}=="00:1a:2b:3c:4d:5e", SYMLINK+="lan"', lint(26, "lan"))),
    told("the tag uaccess in a file that comes late", (f'{USB}, ATTR{{idVendor}}=="0421", TAG+="uaccess"', lint(27, "TAG"))),
    Row(
        "a label of a file system in a file that comes early",
        "verify --lint --udev 10-mine.rules",
        {"10-mine.rules": b'SUBSYSTEM=="block", ENV{ID_FS_LABEL}=="DATA", SYMLINK+="data"\n'},
        output="1 files checked, 0 good, 1 bad\n",
        messages=b"10-mine.rules:1: " + lint(6, "ID_FS_LABEL").encode() + b"\n",
        status=1,
    ),
    told("a link with /dev/, which udev leaves out", 'KERNEL=="ttyUSB0", SYMLINK+="/dev/modem"'),
    told("a name outside net", ('SUBSYSTEM=="tty", NAME="modem"', lint(8, "modem"))),
]

# Nothing is told of these: what is wrong with them depends on the device, on other files, or on what their author means.
SILENT = [
    told("a product in part", 'SUBSYSTEM=="tty", ATTRS{product}=="Arduino", SYMLINK+="arduino"'),
    told("the pattern of a whole disk for its partitions", 'KERNEL=="sd[a-z]", SUBSYSTEM=="block", SYMLINK+="part"'),
    told("a blank in a link, which makes two", 'KERNEL=="ttyUSB0", SYMLINK+="my port"'),
    told("a blank at the end of a value", 'KERNEL=="sda", ATTR{queue/scheduler}="none "'),
    told("a file that is tested by its path", 'KERNEL=="sda", TEST=="/etc/mine", SYMLINK+="mine"'),
]

ROWS = [*FAULTY, *LINTED, *SILENT]
