"""`verify --lint`: rules that are valid, and most likely not the ones that were meant; each lint alone.

What is wanted was written by hand, from the tables of docs/behaviour.md. tables/lints_of_files.py has what concerns all of
them.
"""
from tables.kinds.linted import OTHERS, lint, linted, reported


def each_value(number, key, values):
    """A line for each value of a key, which each cause a lint of this number with the value as its word."""
    return reported(number, *((f'{key}"{value}"', value) for value in values))


W1 = [
    linted("W1", *each_value(1, "MODE=", ["0888", "rw", "rw-rw----", "10000", "017777", "777777777777777777777777", "0o660", "0x1B0", "-1",
        "+7", " 660", "660 ", "06 60", "6,6", "8"])),
    linted("W1 of an empty value", *reported(1, ('MODE=""', ""))),
    linted("W1 with each operator", *reported(1, ('MODE:="9"', "9")), ('MODE+="9"', "S3 operator read as =: MODE", lint(1, "9"))),
    linted("W1 of a value with escapes", *reported(1, ('MODE=e"\\x38"', "8")), 'MODE=e"\\x37"'),
    linted("no W1", *(f'MODE="{value}"' for value in ["0660", "660", "0", "7", "7777", "07777", "00000000000000000000000000000660"])),
    linted("no W1 of a template", 'MODE="%c"', 'MODE="0$env{MODE}"', 'MODE="x$$"', 'MODE="9%%"', 'MODE="%c{2}8"'),
    linted("no W1 of other keys", 'OWNER="0888"', 'GROUP="rw"', 'ENV{MODE}="rw"'),
]

SHELLS = ["sh", "ash", "bash", "dash", "ksh", "zsh"]
W2 = [
    linted("W2 of RUN", *each_value(2, "RUN+=", ["/bin/a > /run/b", "/bin/a | /bin/b", "/bin/a; /bin/b", "/bin/a && /bin/b", "/bin/a >> b",
        "/bin/a || /bin/b", "/bin/a;", "%c > b", "$env{A} | b", " /bin/a > b", "/bin/a >/run/b", "/bin/a 2>&1", "/bin/a>>b", "/bin/a |"])),
    linted("W2 of other commands", *reported(2, ('RUN{program}+="/bin/a > b"', "/bin/a > b"), ('RUN="/bin/a > b"', "/bin/a > b"),
        ('RUN:="/bin/a > b"', "/bin/a > b"), ('PROGRAM=="/bin/a | b"', "/bin/a | b"), ('PROGRAM!="a | b"', "a | b"), ('PROGRAM="a | b"', "a | b"),
        ('IMPORT{program}=="a; b"', "a; b"), ('IMPORT{program}="a && b"', "a && b"))),
    linted("W2 after quotes", *each_value(2, "RUN+=", ["/bin/a 'b' > c", "/bin/a 'b'>/run/c", "/bin/a '>' | 'x'"]),
        *reported(2, ('RUN+=e"/bin/a \\"b\\" > c"', '/bin/a "b" > c'), ('RUN+=e"/bin/a \'\\"\' > c"', "/bin/a '\"' > c"))),
    linted("W2 of programs that only look like a shell", *each_value(2, "RUN+=", ["/bin/shx -c a >b > c", "/bin/xsh -c a > b", "/bin/sh/a > b",
        "/bin/fish -c a > b", "/bin/SH -c a > b", "/bin/a /bin/sh > b"])),
    linted("W2 before W3", ('RUN+="cp > b"', lint(2, "cp > b"), lint(3, "cp > b")),
        ('RUN+="cp > b", RUN+="ln; d"', lint(2, "cp > b"), lint(2, "ln; d"), lint(3, "cp > b"))),
    linted("no W2 of a shell", *(f'RUN+="{folder}{shell} -c a > b | c; d && e"' for folder in ["/bin/", "/usr/local/bin/"] for shell in SHELLS),
        'RUN+="  /bin/sh -c a > b"', 'RUN+="\t/bin/sh\t-c a > b"', 'PROGRAM=="sh -c a > b"'),
    linted("no W2 in quotes", "RUN+=\"/bin/a '|' '>' ';' '&&'\"", "RUN+=\"/bin/a 'b > c' d\"", 'RUN+=e"/bin/a \\"b > c\\""',
        'RUN+=e"/bin/a \\"it\'s > c\\""', "RUN+=\"/bin/a 'b > c\"", 'RUN+=e"/bin/a \'\\" > \'"'),
    linted("no W2 within a word", *(f'RUN+="/bin/a {word}"' for word in ["^fs.(a|b)", "http://h/?a=1;b=2", "a>b", "--only=a|b", "a;b", "1>2"])),
    linted("W2 of what only a shell reads at the start", *each_value(2, "RUN+=", ["~/a b", "A=1 /bin/a", "PATH=/x:/y a", "/bin/a &", "/bin/a & b"])),
    linted("no W2 of other signs", 'RUN+="/bin/a=b c"', 'RUN+="/bin/a b=c ~/d"', 'RUN+="/bin/a < b"', 'RUN+="/bin/a * ? [b] (c) {d,e} ! # ~"',
        "RUN+=\"/bin/a &'&' b\""),
    linted("no W2 of values that are not commands", 'RUN{builtin}+="kmod load a | b"', 'IMPORT{builtin}="hwdb a; b"', 'IMPORT{file}="/run/a | b"',
        'TEST=="a | b"', 'ENV{A}="a > b"', 'RESULT=="a | b"', 'ATTR{a}="x; y"'),
]

COMMANDS = """\
bash chgrp chmod chown cp date echo ethtool ifconfig ip iw kill ln logger mkdir modprobe mount mv nmcli python python3 rm rmmod setfacl sh
sleep su sudo systemctl systemd-run sysctl tee touch udevadm umount""".split()
W3 = [
    linted("W3 of each command", *each_value(3, "RUN+=", [f"{command} /run/a" for command in COMMANDS])),
    linted("W3 of a command without arguments", *each_value(3, "RUN+=", ["touch", " ln", "cp ", "  rm $env{A}", "mv %k"])),
    linted("W3 with each operator and type", *reported(3, ('RUN="touch"', "touch"), ('RUN:="ln a"', "ln a"), ('RUN{program}+="rm"', "rm"))),
    linted("W3 after a tab", *reported(3, ('RUN+="\ttouch\ta"', "\\x09touch\\x09a"))),
    linted("W3 of scripts", *each_value(3, "RUN+=", ["mine.sh", "mine.py %k"]), 'RUN+="/usr/local/bin/mine.sh"', 'RUN+="mine"'),
    linted("no W3", *(f'RUN+="{value}"' for value in ["/bin/touch a", "helper %k", "hdparm", "a", "./touch a", "bin/touch", "Touch a", "touchx", "xtouch",
        "'touch' a", "touch,a", "a touch", "$env{A} touch", "%c", "", "  ", "sync"])),
    linted("no W3 of other commands", 'RUN{builtin}+="kmod load a"', 'RUN{builtin}+="touch"', 'PROGRAM=="touch a"', 'PROGRAM="touch"',
        'IMPORT{program}="touch"', 'IMPORT{builtin}="hwdb"'),
]

SMALL = ["idVendor", "idProduct", "bcdDevice", "bDeviceClass", "bDeviceSubClass", "bDeviceProtocol", "bInterfaceClass", "bInterfaceSubClass",
    "bInterfaceProtocol", "bInterfaceNumber", "bNumEndpoints", "id/vendor", "id/product", "id/version", "id/bustype", "subsystem_vendor",
    "subsystem_device", "address"]
MODALIASES = ["ENV{MODALIAS}", "ATTR{modalias}", "ATTRS{modalias}"]
W4 = [
    linted("W4 of each attribute", *reported(4, *((f'{key}{{{name}}}=="0A*"', "0A*") for name in SMALL for key in ["ATTR", "ATTRS"]))),
    linted("W4 of attributes that begin with 0x", *reported(4, *((f'{key}{{{name}}}=="{value}"', value) for key in ["ATTR", "ATTRS"]
        for name, value in [("vendor", "0x10DE"), ("device", "0X10de"), ("class", "0x0C03*"), ("vendor", "Generic|0x10DE"), ("device", "0x*A")]))),
    linted("W4 in one of several alternatives", *each_value(4, "ATTRS{idVendor}==", ["1d6b|1D6B", "|0A", "?[A]A"])),
    linted("W4 with !=", *reported(4, ('ATTRS{idVendor}!="1D6B"', "1D6B"), ('ENV{MODALIAS}!="usb:v1d6b*"', "usb:v1d6b*"))),
    linted("W4 of a modalias", *(line for key in MODALIASES for line in each_value(4, f"{key}==", ["usb:v1d6bp0002*", "usb:v1D6Bp000a*",
        "usb:va", "pci:v0000104cd*", "pci:v0000104Cd0000803a*", "input:*|usb:v1D6bp*"]))),
    linted("no W4", *(f'ATTRS{{{name}}}=="0a*"' for name in SMALL), 'ATTRS{vendor}=="0x10de"', 'ATTRS{idVendor}=="[0-9A-F]*"',
        'ATTRS{idVendor}=="1[Dd]6b"'),
    linted("no W4 of a value that ignores case", 'ATTRS{idVendor}==i"1D6B"', 'ENV{MODALIAS}==i"usb:v1d6b*"', 'ATTRS{vendor}!=i"0x10DE"',
        'ATTR{idProduct}==ie"0A"'),
    linted("no W4 of other attributes", 'ATTRS{serial}=="ABC"', 'ATTR{model}=="Disk"', 'ATTRS{vendor}=="ATA"', 'ATTRS{device}=="X0x10DE"',
        'ATTRS{class}=="[0]xA"', 'ENV{ID_VENDOR_ID}=="1D6B"', 'ENV{idVendor}=="1D6B"', 'ATTRS{IDVENDOR}=="1D6B"'),
    linted("no W4 of other parts of a modalias", *(f'ENV{{MODALIAS}}=="{value}"' for value in ["usb:v1D6Bp0002d0100dc09dsc00*", "usb:*d6b",
        "usb:v1*d6b", "usb:v[a-f]D6Bp*", "usb:v1D6Bp0002*a", "pci:v0000104Cd0000803Asv*bc0csc03i10", "input:b0003v046dp*", "xusb:v1d6b",
        "of:NabcT*"])),
    linted("no W4 of what is assigned", 'ATTR{idVendor}="1D6B"', 'ENV{MODALIAS}="usb:v1d6b"', 'ATTR{modalias}="pci:v0000104c"'),
]

W5 = [
    linted("W5", *reported(5,
        ('ATTRS{idVendor}=="1d6b", ATTRS{bInterfaceNumber}=="01"', "bInterfaceNumber"),
        ('ATTRS{bInterfaceClass}=="03", ATTRS{idProduct}=="0002"', "idProduct"),
        ('ATTRS{busnum}=="1", ATTRS{bAlternateSetting}==" 0"', "bAlternateSetting"),
        ('ATTRS{id/vendor}=="1d6b", ATTRS{idVendor}=="1d6b"', "idVendor"),
        ('ATTRS{subsystem_vendor}=="0x1d6b", ATTRS{id/bustype}=="0003"', "id/bustype"),
        ('ATTRS{devnum}=="2", ATTRS{subsystem_device}=="0x1"', "subsystem_device"))),
    linted("W5 once for a rule, with the first known attribute", *reported(5, ('ATTRS{serial}=="1", ATTRS{id/vendor}=="0001", ATTRS{id/product}=="2", '
        'ATTRS{idVendor}=="1d6b", ATTRS{bNumEndpoints}=="02"', "idVendor"))),
    linted("W5 of other keys", *reported(5,
        ('SUBSYSTEM=="tty", ATTR{idVendor}=="0421"', "idVendor"), ('ATTR{idVendor}=="0421", KERNEL=="ttyUSB*"', "KERNEL"),
        ('KERNEL=="sd[a-z]", ATTR{bInterfaceNumber}=="00"', "bInterfaceNumber"), ('KERNELS=="5-2:1.0", ATTRS{idVendor}=="0421"', "idVendor"),
        ('DRIVERS=="cdc_acm", ATTRS{idVendor}=="0421"', "idVendor"), ('SUBSYSTEMS=="tty", ATTRS{idVendor}=="0421"', "idVendor"),
        ('SUBSYSTEM=="net", KERNEL=="ttyACM0"', "KERNEL"), ('SUBSYSTEMS=="input", ATTRS{idProduct}=="0001"', "idProduct"))),
    linted("W5 of both sides", ('SUBSYSTEM=="tty", ATTR{idVendor}=="0421", SUBSYSTEMS=="tty", ATTRS{idVendor}=="0421"',
        lint(5, "idVendor"), lint(5, "idVendor"))),
    linted("no W5 of other keys", 'SUBSYSTEM=="tty", ATTRS{idVendor}=="0421"', 'SUBSYSTEM=="usb", ATTR{idVendor}=="0421"',
        'KERNEL=="ttyUSB*|a", ATTR{idVendor}=="0421"',
        'SUBSYSTEM=="tty|net", ATTR{idVendor}=="0421"', 'KERNELS=="5-2", ATTRS{idVendor}=="0421"', 'DRIVERS=="usb", ATTRS{idVendor}=="0421"',
        'SUBSYSTEM!="tty", ATTR{idVendor}=="0421"', 'KERNEL=="ttyUSB*", SUBSYSTEM=="tty", KERNELS=="5-2:1.0", DRIVERS=="ftdi_sio"'),
    linted("no W5", 'ATTRS{idVendor}=="1d6b", ATTRS{idProduct}=="0002", ATTRS{serial}=="x", ATTRS{bNumInterfaces}==" 1"',
        'ATTRS{bInterfaceNumber}=="01", ATTRS{bNumEndpoints}=="02"', 'ATTRS{id/vendor}=="1", ATTRS{id/version}=="2"',
        'ATTRS{subsystem_vendor}=="0x1", ATTRS{subsystem_device}=="0x2", ATTRS{vendor}=="0x3"', 'ATTRS{serial}=="1", ATTRS{manufacturer}=="2"'),
    linted("no W5 of other operators and keys", 'ATTRS{idVendor}=="1d6b", ATTRS{bInterfaceNumber}!="01"',
        'ATTRS{idVendor}!="1d6b", ATTRS{bInterfaceNumber}=="01"', 'ATTR{idVendor}=="1d6b", ATTRS{bInterfaceNumber}=="01"',
        'ATTRS{idVendor}=="1d6b", ENV{bInterfaceNumber}=="01"'),
    linted("no W5 of two rules", 'ATTRS{idVendor}=="1d6b"', 'ATTRS{bInterfaceNumber}=="01"'),
]


def below(name, key, *imports):
    """Runs over a match of a property and imports below it, which is reported; and the same in the other order, which is not."""
    match = f'ENV{{{key}}}=="x"'
    return [linted(f"W6, {name}", *reported(6, (match, key)), *imports), linted(f"no W6, {name} above", *imports, match)]


# Each builtin with properties that it sets.
SET_BY = [("blkid", "ID_FS_TYPE"), ("blkid", "ID_PART_ENTRY_TYPE"), ("path_id", "ID_PATH"), ("path_id", "ID_PATH_TAG"), ("input_id", "ID_INPUT"),
    ("input_id", "ID_INPUT_KEY"), ("net_id", "ID_NET_NAME_SLOT"), ("usb_id", "ID_USB_VENDOR")]
W6 = [
    *(row for builtin, key in SET_BY for row in below(f"{key} by {builtin}", key, f'IMPORT{{builtin}}="{builtin}"')),
    *below("a builtin with arguments", "ID_FS_TYPE", 'IMPORT{builtin}="blkid --noraid"'),
    *below("a builtin with ==", "ID_FS_TYPE", 'IMPORT{builtin}=="blkid"'),
    *below("a builtin with !=", "ID_FS_TYPE", 'IMPORT{builtin}!="blkid", TAG+="t"'),
    *below("the command line of the kernel", "mine", 'IMPORT{cmdline}="mine"'),
    *below("other rules between", "mine", 'TAG+="t"', 'IMPORT{cmdline}="other"', 'ENV{other}=="x"', 'IMPORT{cmdline}="mine"'),
    linted("W6 in the rule of the import", *reported(6, ('ENV{mine}=="x", IMPORT{cmdline}="mine"', "mine"))),
    linted("W6 in a rule that imports the property too", *reported(6, ('ENV{mine}=="x", IMPORT{db}="mine", IMPORT{parent}="*", IMPORT{file}="/a"', "mine")), 'IMPORT{cmdline}="mine"'),
    linted("W6 of each match", ('ENV{ID_PATH}=="x", ENV{ID_PATH_TAG}=="?*"', lint(6, "ID_PATH"), lint(6, "ID_PATH_TAG")),
        *reported(6, ('ENV{ID_PATH}=="y"', "ID_PATH")), 'IMPORT{builtin}="path_id"', 'ENV{ID_PATH}=="z"'),
    linted("W6 in a rule that assigns the property", *reported(6, ('ENV{mine}=="?*", ENV{mine}+="x"', "mine")), 'IMPORT{cmdline}="mine"'),
    linted("W6 after imports of other properties", 'IMPORT{db}="ID_PATH_TAG"', 'IMPORT{parent}="ID_PAT"', 'IMPORT{builtin}="blkid"', 'ENV{ID_PAT}="x"',
        *reported(6, ('ENV{ID_PATH}=="x"', "ID_PATH")), 'IMPORT{builtin}="path_id"'),
    *(linted(f"no W6 of a property that a rule above may set by {line}", line, 'ENV{ID_PATH}=="x"', 'IMPORT{builtin}="path_id"')
      for line in ['ENV{ID_PATH}="x"', 'ENV{ID_PATH}+="x"', 'IMPORT{db}="ID_PATH"', 'IMPORT{parent}="ID_PATH"', 'IMPORT{parent}="ID_*"', 'IMPORT{parent}="A*"',
                   'IMPORT{parent}="?"', 'IMPORT{parent}="[A]"', 'IMPORT{parent}="A|B"', 'IMPORT{program}="/bin/a"', 'IMPORT{file}="/run/a"',
                   'IMPORT{builtin}="hwdb"']),
    linted("no W6 of a property that nothing imports", 'ENV{ID_FS_TYPE}=="x"', 'ENV{mine}=="x"', 'IMPORT{cmdline}="mine_too"', 'IMPORT{db}="mine"',
        'IMPORT{builtin}="path_id"'),
    linted("no W6 of the empty text", 'ENV{mine}==""', 'ENV{mine}=="|x"', *reported(12, ('ENV{mine}=="*"', "ENV")), 'IMPORT{cmdline}="mine"'),
    linted("no W6 with !=", 'ENV{mine}!="x"', 'IMPORT{cmdline}="mine"'),
    linted("no W6 of names that no builtin imports", *(f'ENV{{{name}}}=="x"' for name in ["ID_FS", "ID_PAR", "ID_USB", "ID_NET_NAME", "XID_PATH"]),
        *(f'IMPORT{{builtin}}="{builtin}"' for builtin in ["blkid", "usb_id", "path_id", "net_id", "input_id"])),
    linted("no W6 of other imports", 'ENV{ID_FS_TYPE}=="x"', 'IMPORT{program}="blkid"', 'IMPORT{file}="/run/blkid"',
        'IMPORT{parent}="ID_FS_TYPE"', 'IMPORT{builtin}="hwdb"', 'IMPORT{builtin}="keyboard"', 'IMPORT{builtin}="blkidx"',
        'RUN{builtin}+="blkid"'),
    linted("no W6 of an import that is dropped", 'ENV{mine}=="x"', ('IMPORT{cmdline}="mine", FOO="x"', "V2 unknown key: FOO")),
]

W7 = [
    linted("W7 of a property", 'ENV{A}=="1"', *reported(7, ('ENV{A}="1", KERNEL=="sd*"', "A"))),
    linted("W7 of an attribute", 'ATTR{power/control}=="auto"', *reported(7, ('ATTR{power/control}="auto", KERNEL=="sd*"', "power/control"))),
    linted("W7 before the rule that compares", *reported(7, ('ENV{A}="1", KERNEL=="sd*"', "A")), 'ENV{A}=="1", TAG+="t"'),
    *(linted(f"W7 in {line}", 'ENV{A}=="1"', *reported(7, (line, "A"))) for line in ['ENV{A}="1", KERNELS=="sd*"', 'ENV{A}="1", PROGRAM=="/a", RESULT=="b"',
        'ENV{A}="1", TAG+="t", ENV{B}!="2"', 'TAG=="t", ENV{A}="1", ATTRS{c}!="2", TAG+="t"']),
    linted("W7 of a value with escapes", 'ENV{A}==e"\\x31"', *reported(7, ('ENV{A}="1", KERNEL=="sd*"', "A"))),
    linted("W7 of each assignment", 'ENV{A}=="1"', 'ENV{B}=="2"', ('ENV{B}="2", ENV{A}="1", KERNEL=="sd*"', lint(7, "B"), lint(7, "A"))),
    linted("W7 of a pattern", 'ENV{A}=="a|b*"', *reported(7, ('ENV{A}="a|b*", KERNEL=="sd*"', "A"))),
    *(linted(f"no W7 after the matches, in {line}", 'ENV{A}=="1"', line) for line in ['KERNEL=="sd*", ENV{A}="1"', 'KERNEL=="sd*", ENV{A}="1", TAG+="t"',
        'ENV{A}="1"']),
    *(linted(f"no W7 before only an act, in {line}", 'ENV{A}=="1"', line) for line in ['ENV{A}="1", TEST=="b"', 'ENV{A}="1", PROGRAM=="/b"',
        'ENV{A}="1", IMPORT{db}=="C"']),
    linted("W7 with other assignments in the rule", 'ENV{A}=="1"', *reported(7, ('ENV{A}="1", KERNEL=="sd*"', "A")), 'ENV{A}="2"', 'ENV{B}="1"', 'ATTR{A}="1"',
        ('ENV{A}="1", FOO="x"', "V2 unknown key: FOO")),
    linted("no W7 with other operators", 'ENV{A}=="1"', 'ENV{B}!="1"', 'ENV{A}+="1", KERNEL=="sd*"', 'ENV{B}="1", KERNEL=="sd*"'),
    linted("no W7 of other values, names and keys", 'ENV{A}=="1"', 'ENV{A}="2", KERNEL=="a"', 'ENV{B}="1", KERNEL=="a"', 'ATTR{A}="1", KERNEL=="a"',
        'ENV{A}="1*", KERNEL=="a"', 'ATTRS{C}=="1"', 'ATTR{C}="1", KERNEL=="a"', 'SYSCTL{D}=="1"', 'SYSCTL{D}="1", KERNEL=="a"'),
    linted("no W7 of a match that is dropped", ('ENV{A}=="1", FOO="x"', "V2 unknown key: FOO"), 'ENV{A}="1", KERNEL=="a"'),
]

W8 = [
    linted("W8", *reported(8, ('SUBSYSTEM=="block", NAME="disk"', "disk"), ('NAME="a b", SUBSYSTEM!="net"', "a b"),
        ('SUBSYSTEM=="usb|block", NAME:="%k"', "%k"), ('SUBSYSTEM=="net?", NAME="x"', "x"), ('SUBSYSTEM=="NET", NAME="x"', "x"),
        ('SUBSYSTEM=="", NAME="x"', "x"), ('SUBSYSTEM!="n*", KERNEL=="a", NAME=""', ""))),
    linted("W8 of two subsystems", ('SUBSYSTEM=="net", SUBSYSTEM=="block", NAME="x"', lint(5, "SUBSYSTEM"), lint(8, "x"))),
    linted("W8 with +=", ('SUBSYSTEM=="block", NAME+="x"', "S3 operator read as =: NAME", lint(8, "x"))),
    linted("no W8", *(f'{match}, NAME="x"' for match in ['SUBSYSTEM=="net"', 'SUBSYSTEM=="net|block"', 'SUBSYSTEM=="n*"', 'SUBSYSTEM!="block"',
        'SUBSYSTEM==i"NET"', 'KERNEL=="sda"', 'SUBSYSTEMS=="usb"']), 'NAME="x"', 'SUBSYSTEM=="block", NAME=="x"', 'SUBSYSTEM=="block"', 'NAME="x"'),
]

W9 = [
    linted("W9", *reported(9, ('SYMLINK+="/dev/a"', "/dev/a"), ('SYMLINK="a /dev/b"', "a /dev/b"), ('SYMLINK-="/dev/a"', "/dev/a"),
        ('SYMLINK:="  /dev/"', "  /dev/"), ('SYMLINK+="/dev/$kernel"', "/dev/$kernel"), ('SYMLINK+=e"a\\t/dev/b"', "a\\x09/dev/b"))),
    linted("no W9", *(f'SYMLINK+="{value}"' for value in ["dev/a", "a/dev/b", "/dev", "/devices/a", "a,/dev/b"]), 'SYMLINK=="/dev/a"',
        'SYMLINK!="/dev/a"', 'ENV{A}="/dev/a"', 'TAG+="/dev/a"'),
]

W10 = [
    linted("W10", *reported(10, ('ATTR{"a"}=="1"', '"a"'), ('ENV{"A"}="1"', '"A"'), ('ATTRS{a"b}=="1"', 'a"b'), ('SYSCTL{"a/b"}="1"', '"a/b"'),
        ('SECLABEL{"}="1"', '"'), ('ENV{\\"A\\"}+="1"', '\\x5C"A\\x5C"'))),
    linted("W10 of each token", ('ATTR{"a"}=="1", TAG+="t", ENV{"b"}="2"', lint(10, '"a"'), lint(10, '"b"'))),
    linted("no W10", "ATTR{'a'}==\"1\"", 'ATTR{a}==e"\\"1\\""', ('IMPORT{"program"}="/a"', "V4 attribute missing or not allowed: IMPORT")),
]

W11 = [
    linted("W11", *each_value(11, "KERNEL==", ["^sd*", ".*", ".*a", "sd.*$", "sd[0-9]$", "$", "^", "(sd|sr)*", "a|b(c|d|e)", "sda|^sdb",
        "sd$|sr", "sd{a,b}", "{,}", "a{b{c,d}e"])),
    linted("W11 of a set with a plus", *each_value(11, "KERNEL==", ["ttyUSB[0-9]+", "sd[a-z]+[0-9]"])),
    linted("W11 of classes", *reported(11, *((f'KERNEL=="sd\\{letter}"', f"sd\\x5C{letter}") for letter in "dws"))),
    linted("W11 of each kind of match", *reported(11, ('KERNEL!="^a"', "^a"), ('ATTR{a}=="b$"', "b$"), ('ENV{A}=="^b"', "^b"), ('TAG!="a$"', "a$"),
        ('KERNELS=="^a"', "^a"), ('ATTRS{a}!="b$"', "b$"), ('TAGS=="^a"', "^a"), ('RESULT=="^a"', "^a"), ('NAME=="^a"', "^a"),
        ('SYMLINK=="a$"', "a$"), ('CONST{virt}=="^a"', "^a"))),
    linted("W11 of a value that ignores case", *reported(11, ('KERNEL==i"^A"', "^A"))),
    linted("W11 of a value with escapes", *reported(11, ('KERNEL==e"\\x5Ea"', "^a"), ('KERNEL==e"sd\\\\d"', "sd\\x5Cd")), 'KERNEL=="\\x5Ea"'),
    linted("no W11", *(f'KERNEL=="{value}"' for value in ["a^b", "$a", "a$b", "sd.*", "a.*b", "*.*", ".", "a.", ".a*", "Disk (1)", "()", ")",
        "a(b", "a(b|c", "a|b)", "(a)|(b)", "a)b(c)", "{a}", "a,b", "}a,b{", "{a}b,c", "[$]", "a+", "a?", "[^a]b", "[!a]*", "a|b", "\\D", "a\\b"])),
    linted("no W11 of assignments", 'TEST=="^a"', 'PROGRAM=="/a ^b$$"', 'ENV{A}="^a"', 'RUN+="/a {b,c}"', 'SYMLINK+="a{b,c}"',
        'IMPORT{parent}="^A"'),
]

ALWAYS = ["ACTION", "DEVPATH", "KERNEL", "SUBSYSTEM", "DRIVER", "ENV{A}"]
W12 = [
    linted("W12 of each key", *reported(12, *((f'{key}=="*"', key.partition("{")[0]) for key in ALWAYS))),
    linted("W12 of other patterns", *reported(12, *((f'KERNEL=={value}', "KERNEL") for value in ['"**"', '"a|*"', '"*|a"', '"|***"', 'i"*"']))),
    linted("W12 of each match", ('KERNEL=="*", ENV{A}=="*"', lint(12, "KERNEL"), lint(12, "ENV"))),
    linted("no W12", 'KERNEL!="*"', *(f'KERNEL=="{value}"' for value in ["?*", "*?", "*a", "[*]", "", "|"]), 'ENV{A}=="?*"'),
    linted("no W12 of other keys", *(f'{key}=="*"' for key in ["KERNELS", "SUBSYSTEMS", "DRIVERS", "NAME", "SYMLINK", "ATTR{a}", "ATTRS{a}", "SYSCTL{a}", "CONST{virt}", "TAG", "TAGS",
        "RESULT"])),
]

W13 = [
    linted("W13", 'GOTO="end"', *reported(13, ('KERNEL=="sda", TAG+="t"', "end")), 'KERNEL=="sdb"', 'LABEL="end"'),
    linted("W13 after assignments", 'TAG+="t", GOTO="end", ENV{A}="1"', *reported(13, ('TAG+="u"', "end")), 'LABEL="end"'),
    linted("W13 after lines that are not rules", 'GOTO="end"', "# a comment", "", ('FOO="x"', "V2 unknown key: FOO"), *reported(13, ('TAG+="u"', "end")),
        'LABEL="end"'),
    linted("W13 of a rule that has a jump", 'GOTO="end"', *reported(13, ('GOTO="far"', "end"), ('TAG+="t"', "far")), 'LABEL="end"', 'LABEL="far"'),
    *(linted(f"no W13 after {match}", f'{match}, GOTO="end"', 'TAG+="t"', 'LABEL="end"') for match in ['KERNEL=="a"', 'ENV{A}!="1"',
        'ATTRS{a}=="1"', 'TEST=="a"', 'PROGRAM=="/a"', 'IMPORT{db}="A"', 'RESULT=="a"', 'TAG=="a"']),
    linted("no W13 of a label that is used", 'GOTO="end"', 'LABEL="end"'),
    linted("no W13 of a label that is not used", 'GOTO="end"', ('LABEL="x", TAG+="t"', "S4 label unused: x"), 'LABEL="end"'),
    linted("no W13 of a label that another jump goes to", 'KERNEL=="a", GOTO="here"', 'GOTO="end"', 'LABEL="here", TAG+="t"', 'LABEL="end"'),
    linted("no W13 after a jump that is dropped", ('GOTO="none"', "V7 no later label: none"), 'TAG+="t"'),
]


def by_udev(name, *lines):
    """A run as udev reads rules."""
    return linted(name, *lines, words=f"verify --udev --lint --ignore {OTHERS}")


# With `--udev` lints say what udev itself does with a rule, as docs/udev has it: `?*` is no pattern after some keys, blanks before a mode
# are passed over, and `/dev/` before a link is left out.
W14 = [
    by_udev("W14", *reported(14, *((f'{match}, ENV{{A}}="1"', match.partition("=")[0].rstrip("!").partition("{")[0]) for match in ['TAG=="?*"',
        'TAG!="?*"', 'SYMLINK=="?*"', 'SYMLINK!="?*"', 'TAGS=="?*"', 'TAG==i"?*"', 'TAG==e"\\x3f*"', 'TEST=="?*"', 'TEST!="?*"',
        'TEST{0444}=="?*"', 'IMPORT{parent}=="?*"', 'IMPORT{parent}!="?*"', 'IMPORT{parent}="?*"']))),
    by_udev("W14 among other lints", ('TAG=="?*", KERNEL=="*", MODE="x$kernel", RUN+="rm a"', lint(3, "rm a"), lint(12, "KERNEL"), lint(14, "TAG"))),
    by_udev("no W14", *(f'{match}, ENV{{A}}="1"' for match in ['TAG=="*"', 'TAG=="?"', 'TAG=="??*"', 'TAG=="?*|a"', 'SYMLINK=="a?*"', 'TAGS=="*"',
        'TEST=="a/?*"', 'KERNEL=="?*"', 'KERNELS=="?*"', 'ENV{B}=="?*"', 'ATTR{b}=="?*"', 'IMPORT{parent}=="*"', 'IMPORT{parent}=="A?*"'])),
    linted("no W14 by the manual", 'TAG=="?*", ENV{A}="1"', 'SYMLINK=="?*", ENV{A}="1"', 'TAGS=="?*", ENV{A}="1"', 'TEST=="?*", ENV{A}="1"',
        'IMPORT{parent}=="?*", ENV{A}="1"'),
    linted("W14 left out", 'TAG=="?*", ENV{A}="1"', words="verify --udev --lint --ignore W14"),
]
UDEV = [
    by_udev("no W9 as udev", *(f'SYMLINK+="{links}"' for links in ["/dev/a", "a /dev/b", "/dev/$kernel"])),
    by_udev("no W1 of a mode after blanks as udev", 'MODE=" 0640"', 'MODE="  7777"', 'MODE=e"\\t640"'),
    by_udev("other lints as udev", *reported(12, ('KERNEL=="*", TAG+="t"', "KERNEL"))),
]

ROWS = [*W14, *UDEV, *W1, *W2, *W3, *W4, *W5, *W6, *W7, *W8, *W9, *W10, *W11, *W12, *W13]
