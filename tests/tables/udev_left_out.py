"""`events --udev` where devdry does not do what udevadm 257 does: udevadm's answer, and devdry's. docs/differences.md says why."""
from tables.kinds.udev_blocks import DISK, STAR, THING, numbered
from tables.kinds.udev_events import answered_otherwise

CASES = [
    ('an escape in a link that is not a character',
     'SYMLINK+=e"c\\ufffe"\n',
     DISK,
     ['link c___'],
     ['link c\ufffe']),
    ('tags and links as properties',
     ('SYMLINK+="l", TAG+="t"\n' +
      'ENV{A}="$env{TAGS}|$env{CURRENT_TAGS}|$env{DEVLINKS}|"\n' +
      'ENV{TAGS}=="*:t:*", ENV{B}="1"\n'),
     DISK,
     ['link l', 'tag t', 'env A=:t:|:t:|/dev/l|', 'env B=1'],
     ['link l', 'tag t', 'env A=|||']),
    ('removed tags in properties',
     ('TAG+="t"\n' +
      'TAG+="u"\n' +
      'TAG-="t"\n' +
      'ENV{D}="$env{CURRENT_TAGS}"\n' +
      'ENV{TAGS}=="*:t:*", ENV{E}="1"\n'),
     DISK,
     ['tag u', 'env D=:u:', 'env E=1'],
     ['tag u']),
    ('a vertical tab at the end of an attribute',
     ('ATTR{tab}=="a", ENV{K}="1"\n' +
      'ATTR{tab}==e"a\\v", ENV{L}="1"\n' +
      'ENV{M}="[$attr{tab}]"\n'),
     STAR,
     ['env L=1', 'env M=[a ]'],
     ['env L=1', 'env M=[a]']),
    ('IMPORT{parent} with ?*',
     ('IMPORT{parent}=="ID_?*", ENV{A}="1"\n' +
      'IMPORT{parent}!="?*", ENV{E}="1"\n'),
     THING,
     ['env A=1', 'env DEVPATH=/devices/pci0/usb1', 'env DEVTYPE=usb_device', 'env E=1', 'env ID_BOTH=x',
      'env ID_BUS=usb', 'env SUBSYSTEM=usb'],
     ['env A=1', 'env DEVTYPE=usb_device', 'env E=1', 'env ID_BOTH=x', 'env ID_BUS=usb']),
    ('hwdb with a filter of a class',
     'IMPORT{builtin}="hwdb -f [[:upper:]]* usb:v1", ENV{A}="1"\n',
     THING,
     ['env A=1', 'env ID_X=1'],
     ['note r.rules:1: bad hwdb arguments: hwdb -f [[:upper:]]* usb:v1']),
    ('a dot as a link is the folder of nodes',
     'SYMLINK+="."\n',
     DISK,
     ['link /dev'],
     ['note r.rules:1: link ignored: .']),
    ('an unknown owner removes the earlier one',
     ('OWNER="daemon", MODE="0600"\n' +
      'OWNER="nosuch"\n'),
     DISK,
     ['mode 0600'],
     ['owner nosuch', 'mode 0600']),
    ('an owner and a group that are written empty remove the earlier ones',
     ('OWNER="daemon", GROUP="disk"\n' +
      'OWNER="", GROUP=""\n'),
     DISK,
     [],
     ['owner daemon', 'group disk', 'note r.rules:2: no value: OWNER', 'note r.rules:2: no value: GROUP']),
    ('a file in place of a folder before */ ends all rules',
     ('ENV{A}="1"\n' +
      'TEST=="model/*/x", ENV{B}="1"\n' +
      'ENV{C}="1"\n'),
     STAR,
     ['env A=1'],
     ['env A=1', 'env C=1', 'note r.rules:2: test not made: model/*/x']),
    ('a folder that .. leaves is not looked for',
     ('TEST=="none/../q", ENV{A}="1"\n' +
      'TEST=="q/a/x/..", ENV{B}="1"\n' +
      'TEST=="q/a/x/../x", ENV{C}="1"\n'),
     STAR,
     [],
     ['env A=1', 'env B=1', 'env C=1']),
    ('*/ in a path stands for a folder of one device',
     ('TEST=="../*/size", ENV{A}="1"\n' +
      'TEST=="../../*/sda", ENV{B}="1"\n'),
     DISK,
     ['env A=1', 'env B=1'],
     ['note r.rules:1: test not made: ../*/size', 'note r.rules:2: test not made: ../../*/sda']),
    ('a number with a leading zero is read in base 8',
     'ENV{N}="$major:$minor|$env{MAJOR}:$env{MINOR}"\n',
     numbered('010:07'),
     ['env N=8:7|010:07'],
     ['env N=010:07|010:07']),
    ("the parent's own properties",
     ('IMPORT{parent}="DEVPATH"\n' +
      'IMPORT{parent}="SUBSYS*"\n'),
     THING,
     ['env DEVPATH=/devices/pci0/usb1', 'env SUBSYSTEM=usb'],
     []),
    ('a vertical tab before a property in a link',
     ('ENV{X}=e"\\va"\n' +
      'SYMLINK+="p-$env{X}"\n'),
     DISK,
     ['link p-_a', 'env X=\x0ba'],
     ['link p-a', 'env X=\x0ba']),
    ('blanks that are dropped from a link count for its length',
     ('ENV{X}=e"' + ' ' * 400 + 'b"\n' +
      'SYMLINK+="' + 'a' * 200 + '/' + 'a' * 200 + '/' + 'a' * 200 + '/' + 'a' * 200 + '$env{X}"\n'),
     DISK,
     ['env X=' + ' ' * 400 + 'b'],
     ['link ' + '/'.join(['a' * 200] * 4) + 'b', 'env X=' + ' ' * 400 + 'b']),
    ('a part that is not a number, without a result',
     'ENV{A}="x$result{a}z", ENV{B}="x%c{1}z"\n',
     DISK,
     ['env A=xz', 'env B=xz'],
     ['env A=x', 'env B=xz']),
]

ROWS = answered_otherwise(CASES)
