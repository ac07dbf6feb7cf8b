"""`events --udev`: names, modes, owners, tags, labels and options, as udevadm 257 answers it."""
from tables.kinds.udev_blocks import BANG, BOTH, DIGITS, DISK, NET, PART, PHY, THING, numbered
from tables.kinds.udev_events import answered_as_udev

# What is left without a number.
NO_NODE = ['tag t', 'env N=0:0', 'env M=||/dev/numbered|', 'note r.rules:1: no device number: OWNER', 'note r.rules:1: no device number: GROUP',
           'note r.rules:1: no device number: MODE', 'note r.rules:1: no device number: SYMLINK']


def node_of(name, number, lines):
    """A case of what rules assign to the node of a device with a number."""
    rules = ('SYMLINK+="a", TAG+="t", OWNER="daemon", GROUP="daemon", MODE="0600"\n' +
             'ENV{N}="$major:$minor", ENV{M}="$env{MAJOR}|$env{MINOR}|$env{DEVNAME}|"\n')
    return name, rules, numbered(number), lines


CASES = [
    ('NAME of an interface',
     ('NAME="lan0"\n' +
      'ENV{A}="$name"\n'),
     NET,
     ['name lan0', 'env A=lan0']),
    ('NAME without an interface, in the subsystem net',
     ('NAME="lan0", ENV{A}="1"\n' +
      'ENV{B}="$name"\n'),
     PHY,
     ['env A=1', 'env B=phy0', 'note r.rules:1: name ignored: lan0']),
    ('NAME without an interface, of a node',
     ('NAME="new"\n' +
      'ENV{B}="$name"\n' +
      'NAME=="", ENV{C}="1"\n'),
     DISK,
     ['env B=sda', 'env C=1', 'note r.rules:1: name ignored: new']),
    ('NAME of an interface in another subsystem',
     'NAME="n"\n',
     BOTH,
     ['name n']),
    ('bytes that are not allowed in a name',
     'NAME="a/b c:%%é\'\\t#?*"\n',
     NET,
     ["name a_b_c____'\\t#?*"]),
    ('string_escape=replace in a name',
     'OPTIONS+="string_escape=replace", NAME="a/b c:%%d"\n',
     NET,
     ['name a_b_c__d']),
    ('string_escape=none in a name',
     ('OPTIONS+="string_escape=none", NAME="a/b c:%%é"\n' +
      'ENV{D}="[$name]"\n'),
     NET,
     ['name a/b c:%é', 'env D=[a/b c:%é]']),
    ('names are final',
     ('NAME:="a"\n' +
      'NAME="b"\n'),
     NET,
     ['name a']),
    ('a control character in a name',
     'NAME=e"a\\tb\\x7fc"\n',
     NET,
     ['name a_b_c']),
    ('a name that is empty once rendered',
     ('NAME="lan0"\n' +
      'NAME="$env{NONE}"\n' +
      'ENV{D}="[$name]"\n'),
     NET,
     ['env D=[]']),
    ('blanks of a property in a name',
     ('ENV{X}=" a  b "\n' +
      'NAME="n$env{X}"\n'),
     NET,
     ['name n_a__b_', 'env X= a  b ']),
    ('$name of a node in a folder',
     'ENV{A}="$name|$kernel|%D|$number"\n',
     BANG,
     ['env A=cciss/c0d0|cciss/c0d0|cciss/c0d0|0']),
    ('$name of a node with another name',
     ('ENV{A}="$name|%k"\n' +
      'SYMLINK+="by/$name"\n'),
     PART,
     ['link by/disks/vda1', 'env A=disks/vda1|vda1']),
    ('$name of a device without a node',
     'ENV{A}="$name|$devnode|"\n',
     THING,
     ['env A=thing||']),
    ('$parent is the name of the node above',
     ('ENV{A}="[%P]"\n' +
      'SYMLINK+="p-$parent"\n'),
     PART,
     ['link p-disks/vda', 'env A=[disks/vda]']),
    ('a kernel name of digits has no number',
     'ENV{A}="$kernel|$number|%n"\n',
     DIGITS,
     ['env A=12||']),
    ('a mode is reported with four digits',
     'MODE="660"\n',
     DISK,
     ['mode 0660']),
    ('a mode of zero',
     'MODE="0"\n',
     DISK,
     ['mode 0000']),
    ('a mode with a leading blank and many digits',
     'MODE=" 0000000640"\n',
     DISK,
     ['mode 0640']),
    ('the greatest mode',
     'MODE="7777"\n',
     DISK,
     ['mode 7777']),
    ('a mode above the greatest',
     ('MODE="0600"\n' +
      'MODE="17777"\n'),
     DISK,
     ['mode 0600', 'note r.rules:2: mode ignored: 17777']),
    ('a mode that is not octal',
     'MODE="0888", ENV{A}="1"\n',
     DISK,
     ['env A=1', 'note r.rules:1: mode ignored: 0888']),
    ('a mode of letters keeps the earlier mode',
     ('MODE="660"\n' +
      'MODE="rw"\n'),
     DISK,
     ['mode 0660', 'note r.rules:2: mode ignored: rw']),
    ('a mode with a trailing blank',
     'MODE="0644 "\n',
     DISK,
     ['note r.rules:1: mode ignored: 0644 ']),
    ('an empty mode',
     ('MODE="$env{NONE}"\n' +
      'ENV{M}="0644"\n' +
      'MODE="$env{M}"\n'),
     DISK,
     ['mode 0644', 'env M=0644', 'note r.rules:1: no value: MODE']),
    ('an invalid mode is final',
     ('MODE:="rw"\n' +
      'MODE="0600"\n'),
     DISK,
     ['note r.rules:1: mode ignored: rw']),
    ('a mode written as a number wins over one with a substitution',
     ('ENV{M}="0600"\n' +
      'MODE="0640", MODE="$env{M}"\n'),
     DISK,
     ['mode 0640', 'env M=0600']),
    ('a mode written as a number wins over an earlier one with a substitution',
     ('ENV{M}="0600"\n' +
      'MODE="$env{M}", MODE="0640"\n'),
     DISK,
     ['mode 0640', 'env M=0600']),
    ('of modes written as numbers the last counts, with or without blanks',
     'MODE=" 0640", MODE="$env{NONE}", MODE="0600", MODE="06%m4"\n',
     DISK,
     ['mode 0600', 'note r.rules:1: no value: MODE']),
    ('a mode of letters is set before one written as a number',
     'MODE="0640", MODE="rw"\n',
     DISK,
     ['mode 0640', 'note r.rules:1: mode ignored: rw']),
    ('a final mode with a substitution is set before one written as a number',
     ('ENV{M}="0600"\n' +
      'MODE:="$env{M}", MODE="0640"\n'),
     DISK,
     ['mode 0600', 'env M=0600']),
    ('a final mode written as a number is set after one with a substitution',
     ('ENV{M}="0600"\n' +
      'MODE:="0640", MODE="$env{M}"\n'),
     DISK,
     ['mode 0640', 'env M=0600']),
    ('substitutions in a later rule win over numbers and names',
     ('OWNER="daemon", GROUP="disk", MODE="0600"\n' +
      'OWNER="1%M", GROUP="2$major", MODE="06%m4"\n'),
     DISK,
     ['owner 18', 'group 28', 'mode 0604']),
    ('owner and group',
     'OWNER="daemon", GROUP="disk"\n',
     DISK,
     ['owner daemon', 'group disk']),
    ('owner and group by numbers',
     'OWNER="12345", GROUP="$attr{size}"\n',
     DISK,
     ['owner 12345', 'group 2048']),
    ('an empty owner keeps the earlier owner',
     ('OWNER="daemon"\n' +
      'OWNER="$env{NONE}"\n' +
      'GROUP="audio"\n' +
      'GROUP="$env{NONE}"\n'),
     DISK,
     ['owner daemon', 'group audio', 'note r.rules:2: no value: OWNER', 'note r.rules:4: no value: GROUP']),
    ('an empty owner is final',
     ('OWNER:="$env{NONE}"\n' +
      'OWNER="daemon"\n'),
     DISK,
     ['note r.rules:1: no value: OWNER']),
    ('an owner written as a number wins over one with a substitution',
     'OWNER="1", OWNER="%M"\n',
     DISK,
     ['owner 1']),
    ('an owner written as a name wins over one with a substitution',
     'OWNER="daemon", OWNER="$major"\n',
     DISK,
     ['owner daemon']),
    ('an owner that begins with a bracket is set before one written as a number',
     'OWNER="1", OWNER="[a"\n',
     DISK,
     ['owner 1']),
    ('a group written as a number wins over one with a substitution',
     'GROUP="12345", GROUP="%M"\n',
     DISK,
     ['group 12345']),
    ('a group written as a name wins over one with a substitution',
     'GROUP="disk", GROUP="%M"\n',
     DISK,
     ['group disk']),
    ('bytes that are allowed in a tag',
     'TAG+="a-b_C9"\n',
     DISK,
     ['tag a-b_C9']),
    ('bytes that are not allowed in a tag',
     ('TAG+="a.b", ENV{A}="1"\n' +
      'TAG+="a b"\n' +
      'TAG+="a:b"\n' +
      'TAG+="é"\n' +
      'TAG+="x/y"\n'),
     DISK,
     ['env A=1', 'note r.rules:1: tag ignored: a.b', 'note r.rules:2: tag ignored: a b',
      'note r.rules:3: tag ignored: a:b', 'note r.rules:4: tag ignored: é', 'note r.rules:5: tag ignored: x/y']),
    ('an empty tag',
     'TAG+="$env{NONE}"\n',
     DISK,
     ['note r.rules:1: no value: TAG']),
    ('a tag of 255 bytes',
     'TAG+="' + 'a' * 255 + '"\n',
     DISK,
     ['tag ' + 'a' * 255]),
    ('a tag of 256 bytes',
     'TAG+="' + 'a' * 256 + '"\n',
     DISK,
     ['note r.rules:1: tag ignored: aaaaaaaaaaaaaaaaaaaaaaaaaaaaaaaa']),
    ('= of a refused tag removes the tags',
     ('TAG+="a"\n' +
      'TAG="b c"\n' +
      'TAG+="d"\n'),
     DISK,
     ['tag d', 'note r.rules:2: tag ignored: b c']),
    ('TAG := is read as =',
     ('TAG:="a"\n' +
      'TAG="b"\n'),
     DISK,
     ['tag b'], '1:V24'),
    ('a tag is removed',
     ('TAG+="a"\n' +
      'TAG+="b"\n' +
      'TAG-="a"\n'),
     DISK,
     ['tag b']),
    ('a removed tag still matches TAG',
     ('TAG+="a"\n' +
      'TAG+="b"\n' +
      'TAG-="a"\n' +
      'TAG=="a", ENV{A}="1"\n' +
      'TAGS=="a", ENV{B}="$id"\n' +
      'TAG!="a", ENV{C}="1"\n'),
     DISK,
     ['tag b', 'env A=1', 'env B=sda']),
    ('tags that = replaced no longer match',
     ('TAG+="a"\n' +
      'TAG="b"\n' +
      'TAG=="a", ENV{A}="1"\n'),
     DISK,
     ['tag b']),
    ('labels of two modules',
     'SECLABEL{selinux}="u:r", SECLABEL{smack}+="x"\n',
     DISK,
     ['label selinux=u:r', 'label smack=x']),
    ('= replaces the labels',
     ('SECLABEL{selinux}="u:r"\n' +
      'SECLABEL{smack}="x"\n'),
     DISK,
     ['label smack=x']),
    ('a label twice',
     ('SECLABEL{smack}+="x"\n' +
      'SECLABEL{smack}+="y"\n' +
      'SECLABEL{smack}+="y"\n'),
     DISK,
     ['label smack=x', 'label smack=y', 'label smack=y']),
    ('a label that is empty once rendered is kept as written',
     ('SECLABEL{selinux}+="$env{NONE}"\n' +
      'SECLABEL{smack}+="$kernel$env{NONE}"\n'),
     DISK,
     ['label selinux=$env{NONE}', 'label smack=sda']),
    ('link_priority is never final',
     ('OPTIONS:="link_priority=5", SYMLINK+="a"\n' +
      'OPTIONS="link_priority=6"\n'),
     DISK,
     ['priority 6', 'link a']),
    ('watch is final',
     ('OPTIONS:="watch"\n' +
      'OPTIONS="nowatch"\n'),
     DISK,
     ['watch']),
    ('link_priority in octal',
     'OPTIONS="link_priority=010", SYMLINK+="a"\n',
     DISK,
     ['priority 8', 'link a']),
    node_of('the greatest number', '4095:1048575',
            ['owner daemon', 'group daemon', 'mode 0600', 'link a', 'tag t', 'env N=4095:1048575', 'env M=4095|1048575|/dev/numbered|']),
    node_of('a major of 0 is no number', '0:5', NO_NODE),
    node_of('a number of 0:0', '0:0', NO_NODE),
    node_of('a major of several zeros', '00:5', NO_NODE),
    node_of('a major of 4096 is no number', '4096:1', NO_NODE),
    node_of('a minor of 20 bits at most', '1:1048576', NO_NODE),
]

ROWS = answered_as_udev(CASES)
