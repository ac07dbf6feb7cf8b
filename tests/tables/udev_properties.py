"""`events --udev`: properties, and how long a text may be, as udevadm 257 answers it."""
from tables.kinds.udev_blocks import DISK, NET, THING, plugged
from tables.kinds.udev_events import answered_as_udev

CASES = [
    ('ENV += of a text that is empty once rendered',
     ('ENV{A}+="$env{NONE}"\n' +
      'ENV{B}="1"\n' +
      'ENV{B}+="$env{NONE}"\n'),
     DISK,
     ['env B=1 ']),
    ('ENV += of a text that is written empty',
     ('ENV{C}="1"\n' +
      'ENV{C}+=""\n'),
     DISK,
     ['env C=1']),
    ('ENV += after += of a text that is empty once rendered',
     ('ENV{B}="1"\n' +
      'ENV{B}+="$env{NONE}"\n' +
      'ENV{B}+="x"\n' +
      'ENV{G}="[$env{B}]"\n'),
     DISK,
     ['env B=1  x', 'env G=[1  x]']),
    ('ENV = of an empty text removes the property',
     ('ENV{D}="1"\n' +
      'ENV{D}="$env{NONE}"\n' +
      'ENV{E}="1"\n' +
      'ENV{E}=""\n'),
     DISK,
     []),
    ('an empty property of the device is none',
     'ENV{EMPTY}+="x"\nENV{ALSO}=="?*", ENV{A}="1"\nENV{ALSO}!="?*", ENV{B}="1"\n',
     THING.replace('E: ID_SOME=1\n', 'E: ID_SOME=1\nE: EMPTY=\nE: ALSO=\n'),
     ['env EMPTY=x', 'env B=1']),
    ('an empty property of the parent is none',
     'ENV{EMPTY}="x"\nIMPORT{parent}="EMPTY", ENV{A}="1"\n',
     THING.replace('E: ID_BUS=usb\n', 'E: ID_BUS=usb\nE: EMPTY=\n'),
     ['env EMPTY=x', 'env A=1']),
    ('an empty modalias is none',
     'IMPORT{builtin}="hwdb --subsystem=usb", ENV{A}="1"\n',
     plugged('E: MODALIAS='),
     ['env ID_HUB=1', 'env A=1']),
    ('ENV := is read as =',
     ('ENV{A}:="1"\n' +
      'ENV{A}="2"\n'),
     DISK,
     ['env A=2'], '1:V24'),
    ('string_escape=replace in ENV',
     ('ENV{A}="a b/c;d\'", OPTIONS+="string_escape=replace"\n' +
      'ENV{B}="a b/c;d\'"\n'),
     DISK,
     ['env A=a_b_c_d_', "env B=a b/c;d'"]),
    ('string_escape=replace in ENV +=',
     ('ENV{C}="p q"\n' +
      'ENV{C}+="r s/", OPTIONS+="string_escape=replace"\n'),
     DISK,
     ['env C=p q r_s_']),
    ('string_escape=replace and bytes',
     'ENV{A}=e"x\\ty\\x01z\\xe9 \\u00e9 #+-.:=@_", OPTIONS+="string_escape=replace"\n',
     DISK,
     ['env A=x_y_z__é_#+-.:=@_']),
    ('string_escape=none in ENV',
     'ENV{A}="a b/c;d\'", OPTIONS+="string_escape=none"\n',
     DISK,
     ["env A=a b/c;d'"]),
    ('control characters in ENV',
     ('ENV{A}=e"a\\tb\\x01c\\x7fd"\n' +
      'ENV{B}="$env{A}"\n' +
      'RUN+="/bin/x $env{A}"\n'),
     DISK,
     ['env A=a\tb\x01c\x7fd', 'env B=a\tb\x01c\x7fd', 'run program /bin/x a\tb\x01c\x7fd']),
    ('properties of any name',
     ('ENV{.A}="1"\n' +
      'ENV{a b}="2"\n' +
      'ENV{.A}=="1", ENV{B}="1"\n'),
     DISK,
     ['env B=1', 'env a b=2']),
    ('a reserved property',
     ('ENV{DEVNAME}="x", TAG+="t"\n' +
      'ENV{DISKSEQ}="1"\n'),
     DISK,
     ['env DISKSEQ=1'], '1:V13'),
    ('511 bytes of a property',
     'ENV{A}="' + 'x' * 511 + '"\n',
     DISK,
     ['env A=' + 'x' * 511]),
    ('512 bytes of a property',
     ('ENV{A}="1"\n' +
      'ENV{A}="' + 'x' * 512 + '"\n'),
     DISK,
     ['env A=1', 'note r.rules:2: text too long: ENV{A}']),
    ('a property of two parts that is too long',
     ('ENV{A}="' + 'x' * 511 + '"\n' +
      'ENV{H}="$env{A}y"\n' +
      'ENV{I}="a$env{A}"\n'),
     DISK,
     ['env A=' + 'x' * 511, 'note r.rules:2: text too long: ENV{H}', 'note r.rules:3: text too long: ENV{I}']),
    ('ENV += up to 511 bytes',
     ('ENV{E}="' + 'x' * 509 + '"\n' +
      'ENV{E}+="y"\n'),
     DISK,
     ['env E=' + 'x' * 509 + ' y']),
    ('ENV += up to 512 bytes',
     ('ENV{F}="' + 'x' * 509 + '"\n' +
      'ENV{F}+="yz"\n'),
     DISK,
     ['env F=' + 'x' * 509, 'note r.rules:2: text too long: ENV{F}']),
    ('ENV += of a text that is empty once rendered, after 510 bytes',
     ('ENV{D}="' + 'x' * 510 + '"\n' +
      'ENV{D}+="$env{NONE}"\n'),
     DISK,
     ['env D=' + 'x' * 510 + ' ']),
    ('ENV += of a text that is empty once rendered, after 511 bytes',
     ('ENV{G}="' + 'x' * 511 + '"\n' +
      'ENV{G}+="$env{NONE}"\n'),
     DISK,
     ['env G=' + 'x' * 511, 'note r.rules:2: text too long: ENV{G}']),
    ('links of 1,023 bytes',
     'SYMLINK="' + 'a' * 204 + ' ' + 'b' * 204 + ' ' + 'c' * 204 + ' ' + 'd' * 204 + ' ' + 'e' * 203 + '"\n',
     DISK,
     ['link ' + 'a' * 204, 'link ' + 'b' * 204, 'link ' + 'c' * 204, 'link ' + 'd' * 204, 'link ' + 'e' * 203]),
    ('= of links of 1,024 bytes removes the links',
     ('SYMLINK+="ok"\n' +
      'SYMLINK="' + 'a' * 204 + ' ' + 'b' * 204 + ' ' + 'c' * 204 + ' ' + 'd' * 204 + ' ' + 'f' * 204 + '"\n' +
      'SYMLINK+="z"\n'),
     DISK,
     ['link z', 'note r.rules:2: text too long: SYMLINK']),
    ('= of a tag of 1,024 bytes keeps the tags',
     ('TAG+="k"\n' +
      'TAG="' + 'x' * 1024 + '"\n'),
     DISK,
     ['tag k', 'note r.rules:2: text too long: TAG']),
    ('a name of 1,024 bytes is final',
     ('NAME="old"\n' +
      'NAME:="' + 'x' * 1024 + '"\n' +
      'NAME="new"\n'),
     NET,
     ['name old', 'note r.rules:2: text too long: NAME']),
    ('owner, group and mode of 512 bytes',
     ('OWNER="daemon", GROUP="disk", MODE="0600"\n' +
      'ENV{A}="' + 'x' * 500 + '"\n' +
      'OWNER="$env{A}xxxxxxxxxxxx", GROUP="$env{A}xxxxxxxxxxxx", MODE="$env{A}xxxxxxxxxxxx"\n'),
     DISK,
     ['owner daemon', 'group disk', 'mode 0600', 'env A=' + 'x' * 500, 'note r.rules:3: text too long: OWNER',
      'note r.rules:3: text too long: GROUP', 'note r.rules:3: text too long: MODE']),
    ('texts that are too long are final',
     ('ENV{A}="' + 'x' * 500 + '"\n' +
      'OWNER:="$env{A}xxxxxxxxxxxx", GROUP:="$env{A}xxxxxxxxxxxx", MODE:="$env{A}xxxxxxxxxxxx", SYMLINK:="' + 'x' * 1024 + '"\n' +
      'OWNER="daemon", GROUP="disk", MODE="0600", SYMLINK+="a"\n'),
     DISK,
     ['env A=' + 'x' * 500, 'note r.rules:2: text too long: OWNER', 'note r.rules:2: text too long: GROUP',
      'note r.rules:2: text too long: MODE', 'note r.rules:2: text too long: SYMLINK']),
    ('values of attributes and of kernel parameters',
     ('ATTR{model}="' + 'x' * 511 + '"\n' +
      'ATTR{size}="' + 'x' * 512 + '"\n' +
      'SYSCTL{a}="' + 'x' * 511 + '"\n' +
      'SYSCTL{b}="' + 'x' * 512 + '"\n'),
     DISK,
     ['attr model=' + 'x' * 511, 'sysctl a=' + 'x' * 511, 'note r.rules:2: text too long: ATTR{size}',
      'note r.rules:4: text too long: SYSCTL{b}']),
    ('names of kernel parameters',
     ('SYSCTL{' + 'x' * 1023 + '}="1"\n' +
      'SYSCTL{' + 'x' * 1024 + '}="1"\n'),
     DISK,
     ['sysctl ' + 'x' * 1023 + '=1', 'note r.rules:2: text too long: SYSCTL{xxxxxxxxxxxxxxxxxxxxxxxxx']),
    ('a label of 16,384 bytes',
     ('ENV{A}="' + 'x' * 511 + '"\n' +
      'SECLABEL{a}="1"\n' +
      'SECLABEL{b}="' + '$env{A}' * 32 + 'xxxxxxxxxxxxxxxxxxxxxxxxxxxxxxxx"\n'),
     DISK,
     ['label a=1', 'env A=' + 'x' * 511, 'note r.rules:3: text too long: SECLABEL{b}']),
    ('= of a command of 16,384 bytes removes the commands',
     ('ENV{A}="' + 'x' * 511 + '"\n' +
      'RUN+="a"\n' +
      'RUN="' + '$env{A}' * 32 + 'xxxxxxxxxxxxxxxxxxxxxxxxxxxxxxxx"\n' +
      'RUN+="z"\n'),
     DISK,
     ['env A=' + 'x' * 511, 'run program z', 'note r.rules:3: text too long: RUN']),
    ('a command of 16,384 bytes is final',
     ('ENV{A}="' + 'x' * 511 + '"\n' +
      'RUN+="a"\n' +
      'RUN{program}:="' + '$env{A}' * 32 + 'xxxxxxxxxxxxxxxxxxxxxxxxxxxxxxxx"\n' +
      'RUN+="z"\n'),
     DISK,
     ['env A=' + 'x' * 511, 'note r.rules:3: text too long: RUN{program}']),
    ('a program of 16,384 bytes fails with either operator',
     ('ENV{A}="' + 'x' * 511 + '"\n' +
      'PROGRAM!="' + '$env{A}' * 32 + 'xxxxxxxxxxxxxxxxxxxxxxxxxxxxxxxx", ENV{B}="1"\n'),
     DISK,
     ['env A=' + 'x' * 511, 'note r.rules:2: text too long: PROGRAM']),
    ('a test of 1,024 bytes fails with either operator',
     ('TEST!="' + 'x' * 1024 + '", ENV{B}="1"\n' +
      'TEST!="' + 'x' * 900 + '", ENV{C}="1"\n'),
     DISK,
     ['env C=1', 'note r.rules:1: text too long: TEST']),
    ('IMPORT{parent} of 1,024 bytes fails with either operator',
     ('IMPORT{parent}!="' + 'x' * 1024 + '", ENV{A}="1"\n' +
      'IMPORT{parent}=="' + 'x' * 1023 + '", ENV{B}="1"\n'),
     DISK,
     ['env B=1', 'note r.rules:1: text too long: IMPORT{parent}']),
]

ROWS = answered_as_udev(CASES)
