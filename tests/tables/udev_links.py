"""`events --udev`: links, and what is only for devices with a number, as udevadm 257 answers it."""
from tables.kinds.udev_blocks import BOTH, DISK, NET, THING, answering, removed
from tables.kinds.udev_events import answered_as_udev

CASES = [
    ('a link is cleaned',
     'SYMLINK+="/dev/a b//c ./d e/ f/. n/./o //dev//q"\n',
     DISK,
     ['link a', 'link b/c', 'link d', 'link e', 'link f', 'link n/o', 'link q']),
    ('several forms of a link are one link',
     'SYMLINK+="a /dev/a ./a a/"\n',
     DISK,
     ['link a']),
    ('an absolute link outside /dev is refused',
     'SYMLINK+="/etc/x ok"\n',
     DISK,
     ['link ok', 'note r.rules:1: link ignored: /etc/x']),
    ('/dev itself is refused',
     ('SYMLINK+="/dev/ ok"\n' +
      'SYMLINK+="/dev"\n' +
      'SYMLINK+="/"\n'),
     DISK,
     ['link ok', 'note r.rules:1: link ignored: /dev/', 'note r.rules:2: link ignored: /dev',
      'note r.rules:3: link ignored: /']),
    ('a link with a component .. is refused',
     ('SYMLINK+="../g ok"\n' +
      'SYMLINK+="h/../i"\n' +
      'SYMLINK+="/dev/../z"\n' +
      'SYMLINK+="a/.."\n'),
     DISK,
     ['link ok', 'note r.rules:1: link ignored: ../g', 'note r.rules:2: link ignored: h/../i',
      'note r.rules:3: link ignored: /dev/../z', 'note r.rules:4: link ignored: a/..']),
    ('other components with dots are ordinary',
     'SYMLINK+="... ..a a..b .c"\n',
     DISK,
     ['link ...', 'link ..a', 'link a..b', 'link .c']),
    ('a component of 255 bytes',
     'SYMLINK+="' + 'e' * 255 + '"\n',
     DISK,
     ['link ' + 'e' * 255]),
    ('a component of 256 bytes is refused',
     'SYMLINK+="' + 'f' * 256 + ' g"\n',
     DISK,
     ['link g', 'note r.rules:1: link ignored: ffffffffffffffffffffffffffffffff']),
    ('two links of a rule are refused',
     'SYMLINK+="../a /etc/b c"\n',
     DISK,
     ['link c', 'note r.rules:1: link ignored: ../a']),
    ('a link is removed in another form',
     ('SYMLINK+="a b c d/e"\n' +
      'SYMLINK-="/dev/a ./b d//e"\n'),
     DISK,
     ['link c']),
    ('a link with a component .. is refused by -=',
     ('SYMLINK+="x"\n' +
      'SYMLINK-="../x"\n'),
     DISK,
     ['link x', 'note r.rules:2: link ignored: ../x']),
    ('SYMLINK is compared with cleaned links',
     ('SYMLINK+="/dev/c d//e"\n' +
      'SYMLINK=="c", ENV{B}="1"\n' +
      'SYMLINK=="d/e", ENV{C}="1"\n' +
      'SYMLINK=="/dev/c", ENV{D}="1"\n'),
     DISK,
     ['link c', 'link d/e', 'env B=1', 'env C=1']),
    ('= replaces the links',
     ('SYMLINK+="a b"\n' +
      'SYMLINK="c"\n' +
      'SYMLINK+="d"\n'),
     DISK,
     ['link c', 'link d']),
    ('= of an empty text removes the links',
     ('SYMLINK+="a b"\n' +
      'SYMLINK=""\n'),
     DISK,
     []),
    ('links are final',
     ('SYMLINK:="a b"\n' +
      'SYMLINK="c"\n' +
      'SYMLINK-="a"\n'),
     DISK,
     ['link a', 'link b']),
    ('$links are cleaned',
     ('SYMLINK+="./d//e"\n' +
      'ENV{A}="[$links]"\n'),
     DISK,
     ['link d/e', 'env A=[d/e]']),
    ('bytes that are not allowed in a link',
     'SYMLINK+="a\'b j;k l\\x41 m(n) $$x %%y z?*[] t,u"\n',
     DISK,
     ['link a_b', 'link j_k', 'link l\\x41', 'link m_n_', 'link _x', 'link _y', 'link z____', 'link t_u']),
    ('whitespace separates links, other control characters do not',
     'SYMLINK+=e"a\\tb\\nc\\vd\\fe\\x01f\\x7fg"\n',
     DISK,
     ['link a', 'link b', 'link c', 'link d', 'link e_f_g']),
    ('a byte that is not UTF-8 in a link',
     'SYMLINK+=e"a\\u00e9 b\\xc3 c\\xff"\n',
     DISK,
     ['link aé', 'link b_', 'link c_']),
    ('blanks of a property in a link',
     ('ENV{X}="  a  b/c;d  "\n' +
      'SYMLINK+="p-$env{X}-q $env{NONE} z"\n'),
     DISK,
     ['link p-a_b/c_d-q', 'link z', 'env X=  a  b/c;d  ']),
    ('control characters of a property in a link',
     ('ENV{X}=e"a\\tb\\x01d"\n' +
      'SYMLINK+="p-$env{X}"\n'),
     DISK,
     ['link p-a_b_d', 'env X=a\tb\x01d']),
    ('string_escape=none in a link',
     'OPTIONS+="string_escape=none", SYMLINK+=e"a\\tb c;d \'e f\' |"\n',
     DISK,
     ['link a', 'link b', 'link c;d', "link 'e", "link f'", 'link |']),
    ('string_escape=none and blanks of a property',
     ('ENV{X}=" a  b/c;d "\n' +
      'OPTIONS+="string_escape=none", SYMLINK+="p-$env{X}-q"\n'),
     DISK,
     ['link p-', 'link a', 'link b/c;d', 'link -q', 'env X= a  b/c;d ']),
    ('a link that is removed and added again',
     ('SYMLINK+="a b"\n' +
      'SYMLINK-="a"\n' +
      'SYMLINK+="a"\n'),
     DISK,
     ['link b', 'link a']),
    ('string_escape=replace in a link',
     'OPTIONS+="string_escape=replace", SYMLINK+="a b;c $attr{model}"\n',
     DISK,
     ['link a_b_c_Disk']),
    ('string_escape is only for its own rule',
     ('OPTIONS="string_escape=none"\n' +
      'SYMLINK+="p\'q"\n'),
     DISK,
     ['link p_q']),
    ('replace wins over none in one rule',
     ('OPTIONS+="string_escape=replace", OPTIONS+="string_escape=none", SYMLINK+="x\'y"\n' +
      'OPTIONS+="string_escape=none", OPTIONS+="string_escape=replace", SYMLINK+="x\'z"\n'),
     DISK,
     ['link x_y', 'link x_z']),
    ('no number: no links',
     'SYMLINK+="x"\n',
     THING,
     ['note r.rules:1: no device number: SYMLINK']),
    ('no number: links with a tag',
     ('SYMLINK+="x", TAG+="t"\n' +
      'ENV{A}="[$links]"\n'),
     THING,
     ['tag t', 'env A=[]', 'note r.rules:1: no device number: SYMLINK']),
    ('no number: owner, group and mode',
     ('OWNER="daemon"\n' +
      'GROUP="disk", TAG+="t"\n' +
      'MODE="0600"\n'),
     THING,
     ['tag t', 'note r.rules:1: no device number: OWNER', 'note r.rules:2: no device number: GROUP',
      'note r.rules:3: no device number: MODE']),
    ('no number: labels',
     'SECLABEL{selinux}="u"\n',
     THING,
     ['note r.rules:1: no device number: SECLABEL{selinux}']),
    ('no number: an interface has no links',
     'SYMLINK+="x", ENV{B}="1"\n',
     NET,
     ['env B=1', 'note r.rules:1: no device number: SYMLINK']),
    ('no number: a rule whose matches fail leaves no note',
     'KERNEL=="none", SYMLINK+="x"\n',
     THING,
     []),
    ('a rule without effect for this device selects nothing',
     ('SUBSYSTEMS=="usb", SYMLINK+="x"\n' +
      'ENV{A}="[$id]"\n' +
      'SUBSYSTEMS=="usb", OWNER="daemon"\n' +
      'ENV{B}="[$id]"\n'),
     THING,
     ['env A=[]', 'env B=[]', 'note r.rules:1: no device number: SYMLINK',
      'note r.rules:3: no device number: OWNER']),
    ('a rule without effect for this device keeps the selection',
     ('SUBSYSTEMS=="pci", TAG+="t"\n' +
      'SUBSYSTEMS=="usb", MODE="0600"\n' +
      'ENV{A}="$id"\n' +
      'SUBSYSTEMS=="none", MODE="0600"\n' +
      'ENV{B}="$id"\n'),
     THING,
     ['tag t', 'env A=pci0', 'env B=pci0', 'note r.rules:2: no device number: MODE']),
    ('a rule that also sets a tag selects',
     ('SUBSYSTEMS=="usb", SYMLINK+="x", TAG+="t"\n' +
      'ENV{A}="[$id]"\n'),
     THING,
     ['tag t', 'env A=[usb1]', 'note r.rules:1: no device number: SYMLINK']),
    ('a rule that also jumps selects and jumps',
     ('SUBSYSTEMS=="pci", SYMLINK+="x", GOTO="end"\n' +
      'ENV{E}="1"\n' +
      'LABEL="end"\n' +
      'ENV{F}="[$id]"\n'),
     THING,
     ['env F=[pci0]', 'note r.rules:1: no device number: SYMLINK']),
    ('NAME alone selects nothing without an interface',
     ('SUBSYSTEMS=="usb", NAME="x"\n' +
      'ENV{C}="[$id]"\n' +
      'SUBSYSTEMS=="usb", SYMLINK+="x"\n' +
      'ENV{D}="[$id]"\n'),
     DISK,
     ['link x', 'env C=[]', 'env D=[usb1]', 'note r.rules:1: name ignored: x']),
    ('an interface: links select nothing, NAME selects',
     ('SUBSYSTEMS=="pci", SYMLINK+="x", MODE="0600"\n' +
      'ENV{C}="[$id]"\n' +
      'SUBSYSTEMS=="pci", NAME="y"\n' +
      'ENV{D}="[$id]"\n'),
     NET,
     ['name y', 'env C=[]', 'env D=[pci0]', 'note r.rules:1: no device number: MODE',
      'note r.rules:1: no device number: SYMLINK']),
    ('remove: links and modes alone select nothing',
     ('SUBSYSTEMS=="usb", SYMLINK+="x", MODE="0600"\n' +
      'ENV{C}="[$id]"\n' +
      'SUBSYSTEMS=="usb", SYMLINK+="x", MODE="0600", TAG+="z"\n' +
      'ENV{D}="[$id]"\n'),
     removed(DISK),
     ['mode 0600', 'link x', 'tag z', 'env C=[]', 'env D=[usb1]', 'note -: attributes of a removed device: /devices/pci0/usb1/block/sda']),
    ('a rule with links and a program is evaluated',
     ('PROGRAM="ata_id one", SYMLINK+="x"\n' +
      'ENV{A}="%c"\n'),
     answering(DISK, ("ata_id one", 0, "one")),
     ['link x', 'env A=one']),
    ('a rule with only a log level is evaluated',
     ('SUBSYSTEMS=="usb", OPTIONS="log_level=debug"\n' +
      'ENV{A}="[$id]"\n'),
     THING,
     ['env A=[usb1]']),
    ('a rule with a log level and a static node is evaluated',
     ('SUBSYSTEMS=="usb", OPTIONS="static_node=x", OPTIONS+="log_level=6"\n' +
      'ENV{A}="[$id]"\n'),
     THING,
     ['env A=[usb1]']),
    ('an unknown option has no effect in events',
     ('SUBSYSTEMS=="usb", OPTIONS="nonsense"\n' +
      'ENV{A}="[$id]"\n'),
     THING,
     ['env A=[]'],
     '1:V5'),
    ('static_node has no effect in events',
     ('SUBSYSTEMS=="usb", OPTIONS="static_node=x"\n' +
      'ENV{G}="[$id]"\n'),
     THING,
     ['env G=[]']),
    ('a device with a number and an interface',
     'SYMLINK+="l", MODE="0600", NAME="n"\n',
     BOTH,
     ['name n', 'mode 0600', 'link l']),
]

ROWS = answered_as_udev(CASES)
