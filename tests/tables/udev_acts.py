"""`events --udev`: programs, imports, tests, commands and attributes that are assigned, as udevadm 257 answers it."""
from tables.kinds.udev_blocks import CAMERA, DISK, FOLDERS, NET, STAR, THING, answering, plugged, printing
from tables.kinds.udev_events import answered_as_udev

# What programs print for an import.
ONE = printing('A=1')
TWO = printing('A=1', 'B=two words', 'C=x=y')
BLANKS = printing(' \t A =  1  2 \t', '\tB\t=\t3\t', 'C D=4')
QUOTES = printing('A="1 2"', "B=' 3 '", 'C="4\'', 'D="', 'E="\'5\'"', 'F=6"', 'G="a"b"', 'H="a" x', 'I="7" ')
NOTHING = printing('# A=1', '  #B=2', '', 'C', '=4', ' = 5', 'D=', 'E= \t', '#')
AGAIN = printing('A=1', 'B=2', 'A=3', 'B=""', "C=''")
BYTES = printing('A=a\\x41\\"', 'B=;|$kernel%k', 'C=\u00e9\udcff', 'D=\vx\f', 'E=a\x01b')
NAMES = printing('.X=1', 'a.b/c=4', '\u00e9=3')
OWN = printing('ACTION=x', 'DEVPATH=/y', 'DEVNAME=/dev/zz')
TYPE = printing('DEVTYPE=usb_device')
NO_TYPE = printing('DEVTYPE=none')
FAILS = ('ata_id exit 3 A=3d1', 3, 'A=1')

def words_of_hwdb(name, block, reported, *commands):
    """A case of a file with a rule for each command of hwdb: if something is found, it sets the property of its number."""
    rules = ''.join(f'IMPORT{{builtin}}="{command}", ENV{{A{place}}}="1"\n' for place, (command, _) in enumerate(commands))
    return name, rules, block, [f'env A{place}=1' for place, (_, is_found) in enumerate(commands) if is_found] + reported


def paths_of_test(name, block, *paths):
    """A case of a file with a rule for each path of TEST: if something is there, it sets the property of its number. None stands for a
    path at which nothing is, but of which the block does not tell that."""
    rules = ''.join(f'TEST=="{path}", ENV{{A{place}}}="1"\n' for place, (path, _) in enumerate(paths))
    notes = [f'note r.rules:{place + 1}: test not made: {path}' for place, (path, is_there) in enumerate(paths) if is_there is None]
    return name, rules, block, [f'env A{place}=1' for place, (_, is_there) in enumerate(paths) if is_there] + notes


# An event of a node of an input device, below a device of HID and one of PCI, with these lines.
def pressed(*lines):
    more = ''.join(line + '\n' for line in lines)
    return ('C: add\nP: /devices/pci0/0:1/2:3/input/input5/event5\nU: input\nP: /devices/pci0/0:1/2:3/input/input5\nU: input\n' +
            'P: /devices/pci0/0:1/2:3\nU: hid\nP: /devices/pci0/0:1\nU: pci\nA: modalias=usb:v1\n' + more)


# A device of USB with a vendor and a product.
NUMBERS = ('A: idVendor=0012', 'A: idProduct=00ff')
LOOKS_UP = 'IMPORT{builtin}="hwdb --subsystem=usb", ENV{A}="1"\n'

CASES = [
    ('the words of a result',
     ('PROGRAM="ata_id a  b c", ENV{R}="%c|%c{2}|$result{3}|%c{2+}|%c{9}|%c{0}|%c{0x2}|%c{02+}|%c{4294967295}|"\n' +
      'RESULT=="a b c", ENV{S}="1"\n' +
      'RESULT=="a", ENV{T}="1"\n'),
     answering(DISK, ("ata_id a  b c", 0, "a b c")),
     ['env R=a b c|b|c|b c||a b c|b|b c||', 'env S=1']),
    ('unsafe bytes of a result are replaced',
     ('PROGRAM="ata_id a=01b=7fc;de=c3=a9=ff(f)=09g=0bh/,=20=20=0a=0a", ENV{P}="[%c]"\n' +
      'RESULT=="*g h*", ENV{Q}="1"\n'),
     answering(DISK, ("ata_id a=01b=7fc;de=c3=a9=ff(f)=09g=0bh/,=20=20=0a=0a", 0, "a\x01b\x7fc;de\u00e9\udcff(f)\tg\vh/,  ")),
     ['env P=[a_b_c_deé__f_ g h/,  ]', 'env Q=1']),
    ('blanks at the start of a result',
     ('PROGRAM="ata_id =09=20lead two", ENV{P}="[%c][%c{1}][%c{2}]"\n' +
      'SYMLINK+="l-%c"\n'),
     answering(DISK, ("ata_id =09=20lead two", 0, "\t lead two")),
     ['link l-', 'link lead', 'link two',
      'env P=[  lead two][lead][two]']),
    ('a result in a link',
     'PROGRAM="ata_id p q;r", SYMLINK+="a-%c b-%c{1}"\n',
     answering(DISK, ("ata_id p q;r", 0, "p q;r")),
     ['link a-p', 'link q_r', 'link b-p']),
    ('a program that fails empties the result',
     ('PROGRAM="ata_id one"\n' +
      'PROGRAM!="ata_id exit 3 two", ENV{P}="[%c]"\n'),
     answering(DISK, ("ata_id one", 0, "one"), ("ata_id exit 3 two", 3, "two")),
     ['env P=[]']),
    ('the result is empty while the command is rendered',
     ('PROGRAM="ata_id one"\n' +
      'PROGRAM="ata_id x%cy", ENV{P}="%c"\n'),
     answering(DISK, ("ata_id one", 0, "one"), ("ata_id xy", 0, "xy")),
     ['env P=xy']),
    ('RESULT before PROGRAM',
     'RESULT=="two", PROGRAM="ata_id two", ENV{P}="1"\n',
     answering(DISK, ("ata_id two", 0, "two")),
     ['env P=1']),
    ('a part of a result that is not a number',
     ('PROGRAM="ata_id one two"\n' +
      'ENV{A}="x$result{a}z", ENV{B}="x%c{-1}z", ENV{C}="x%c{2}z"\n' +
      'ENV{D}="x%c{3}z"\n'),
     answering(DISK, ("ata_id one two", 0, "one two")),
     ['env A=x', 'env B=x', 'env C=xtwoz', 'env D=xz']),
    ('RUN is rendered at its rule',
     ('RUN+="/bin/a [$env{LATER}]"\n' +
      'ENV{LATER}="1"\n' +
      'RUN+="/bin/b [$env{LATER}]"\n'),
     DISK,
     ['env LATER=1', 'run program /bin/a []', 'run program /bin/b [1]']),
    ('RUN is rendered with the properties and links at its rule',
     'RUN+="$env{Y} $links", ENV{Y}="2", SYMLINK+="m"\n',
     DISK,
     ['link m', 'env Y=2', 'run program 2 m']),
    ('RUN is rendered with the result at its rule',
     ('RUN+="x %c", PROGRAM="ata_id r1"\n' +
      'PROGRAM="ata_id r2"\n'),
     answering(DISK, ("ata_id r1", 0, "r1"), ("ata_id r2", 0, "r2")),
     ['run program x r1']),
    ('RUN is rendered with the selected device at its rule',
     ('SUBSYSTEMS=="usb", RUN+="y $id"\n' +
      'SUBSYSTEMS=="pci", RUN+="z $id"\n' +
      'RUN+="w $id"\n'),
     DISK,
     ['run program y usb1', 'run program z pci0', 'run program w pci0']),
    ('builtins of a rule come before its programs',
     'RUN+="/bin/a", RUN{builtin}+="kmod load x", RUN+="/bin/b", RUN{builtin}+="kmod load y"\n',
     DISK,
     ['run builtin kmod load x', 'run builtin kmod load y', 'run program /bin/a', 'run program /bin/b']),
    ('commands are in the order of their rules',
     ('RUN+="/bin/a"\n' +
      'RUN{builtin}+="kmod load x"\n' +
      'RUN+="/bin/b"\n'),
     DISK,
     ['run program /bin/a', 'run builtin kmod load x', 'run program /bin/b']),
    ('a command twice',
     ('RUN+="/bin/b"\n' +
      'RUN+="/bin/b", RUN{program}+="/bin/b"\n' +
      'RUN{builtin}+="kmod load x"\n' +
      'RUN{builtin}+="kmod load x"\n' +
      'RUN+="kmod load x"\n'),
     DISK,
     ['run program /bin/b', 'run program /bin/b', 'run program /bin/b', 'run builtin kmod load x',
      'run builtin kmod load x', 'run program kmod load x']),
    ('= replaces the commands',
     ('RUN+="/bin/a"\n' +
      'RUN{builtin}="kmod load x"\n' +
      'RUN+="/bin/b"\n'),
     DISK,
     ['run builtin kmod load x', 'run program /bin/b']),
    ('= of a program removes the builtin of its rule',
     'RUN="/bin/a", RUN{builtin}+="kmod load x"\n',
     DISK,
     ['run program /bin/a']),
    ('commands are final',
     ('RUN+="/bin/a"\n' +
      'RUN:="/bin/b"\n' +
      'RUN+="/bin/c"\n' +
      'RUN=""\n'),
     DISK,
     ['run program /bin/b']),
    ('a final builtin excludes the program of its rule',
     ('RUN{builtin}:="kmod load a", RUN+="b"\n' +
      'RUN+="c"\n'),
     DISK,
     ['run builtin kmod load a']),
    ('an empty command with = removes the commands',
     ('RUN+="/bin/a"\n' +
      'RUN=""\n' +
      'RUN+="/bin/z"\n'),
     DISK,
     ['run program /bin/z', 'note r.rules:2: no value: RUN']),
    ('a command that is empty once rendered',
     ('RUN+="$env{NONE}"\n' +
      'RUN+=" "\n' +
      'RUN+="/bin/x$env{NONE} "\n'),
     DISK,
     ['run program /bin/x ', 'note r.rules:1: no value: RUN', 'note r.rules:2: no value: RUN']),
    ('faults of substitutions',
     ('ENV{A}="x$kernel{foo}y", ENV{B}="a$disk%%z", ENV{C}="q$attr r"\n' +
      'ENV{D}="$syst|$tempnode|%D|$sysfs{model}|%d|%L|$root|%S|%N|%M:%m|%P|%b|"\n' +
      'SYMLINK+="q$kernel{} r"\n' +
      'RUN+="/bin/x 100%"\n'),
     DISK,
     ['link q', 'env A=xsday', 'env B=a$disk%z', 'env C=q',
      'env D=/syst|/dev/sda|sda|Disk|||/dev|/sys|/dev/sda|8:0|||', 'run program /bin/x 100%']),
    ('a $ or % alone',
     ('ENV{E}="100%"\n' +
      'ENV{F}="$%"\n' +
      'ENV{G}="$$$"\n' +
      'ENV{H}="$kernels"\n'),
     DISK,
     ['env E=100%', 'env F=$%', 'env G=$$', 'env H=sdas']),
    ('IMPORT{parent}',
     'IMPORT{parent}="ID_*", ENV{A}="1"\n',
     THING,
     ['env A=1', 'env ID_BOTH=x', 'env ID_BUS=usb']),
    ('IMPORT{parent} is done even if nothing fits',
     ('IMPORT{parent}="NONE_*", ENV{A}="1"\n' +
      'IMPORT{parent}!="NONE_*", ENV{B}="1"\n'),
     THING,
     ['env A=1']),
    ('IMPORT{parent} with !=',
     ('IMPORT{parent}!="ID_*", ENV{A}="1"\n' +
      'ENV{B}="1"\n'),
     THING,
     ['env B=1', 'env ID_BOTH=x', 'env ID_BUS=usb']),
    ('IMPORT{parent} without a parent',
     ('IMPORT{parent}="ID_*", ENV{A}="1"\n' +
      'IMPORT{parent}!="ID_*", ENV{B}="1"\n'),
     STAR,
     ['env B=1']),
    ('IMPORT{parent} with a substitution',
     ('ENV{X}="BUS"\n' +
      'IMPORT{parent}="ID_$env{X}", ENV{A}="1"\n'),
     THING,
     ['env A=1', 'env ID_BUS=usb', 'env X=BUS']),
    ('IMPORT{parent} is one pattern',
     'IMPORT{parent}="ID_BUS|ID_BOTH", ENV{A}="1"\n',
     THING,
     ['env A=1']),
    ('IMPORT{parent} with a class and a backslash',
     ('IMPORT{parent}="ID_[[:upper:]]US", ENV{A}="1"\n' +
      'IMPORT{parent}="ID_BO\\TH", ENV{B}="1"\n'),
     THING,
     ['env A=1', 'env B=1', 'env ID_BOTH=x', 'env ID_BUS=usb']),
    ('an empty value of the database removes the property',
     ('ENV{ID_Y}="old", ENV{ID_X}="old"\n' +
      'IMPORT{builtin}="hwdb usb:v1", ENV{A}="1"\n'),
     THING,
     ['env A=1', 'env ID_X=1']),
    ('a record of the database with only an empty value',
     ('ENV{ID_Y}="old"\n' +
      'IMPORT{builtin}="hwdb usb:v2", ENV{A}="1"\n'),
     THING,
     ['env A=1']),
    ('a filter for an empty value',
     ('ENV{ID_Y}="old", ENV{ID_X}="old"\n' +
      'IMPORT{builtin}="hwdb --filter=ID_Y usb:v1", ENV{A}="1"\n'),
     THING,
     ['env A=1', 'env ID_X=old']),
    ('nothing in the database',
     ('IMPORT{builtin}="hwdb usb:v9", ENV{A}="1"\n' +
      'IMPORT{builtin}!="hwdb usb:v9", ENV{B}="1"\n'),
     THING,
     ['env B=1']),
    ('an attribute of a device that the block does not have, in a command of hwdb',
     ('IMPORT{builtin}!="hwdb \'pci:$attr{[dmi/id]modalias}%s{[dmi/id]x}\'", ENV{A}="1"\n' +
      'IMPORT{builtin}="hwdb usb:v1$attr{[usb/usb1]none}%s{none}", ENV{B}="1"\n'),
     THING,
     ['env A=1', 'env B=1', 'env ID_X=1', 'note r.rules:1: attribute not read: [dmi/id]modalias']),
    ("a prefix of a builtin's name",
     'IMPORT{builtin}="h usb:v1", ENV{A}="1"\n',
     THING,
     ['env A=1', 'env ID_X=1']),
    ('IMPORT{program} of a builtin',
     'IMPORT{program}="hwdb usb:v1", ENV{A}="1"\n',
     THING,
     ['env A=1', 'env ID_X=1']),
    ('IMPORT{program} sets what its command prints',
     f'IMPORT{{program}}="{TWO[0]}", ENV{{Z}}="1"\n',
     answering(DISK, TWO),
     ['env A=1', 'env B=two words', 'env C=x=y', 'env Z=1']),
    ('blanks around names and values that are imported',
     f'IMPORT{{program}}="{BLANKS[0]}", ENV{{Z}}="1"\n',
     answering(DISK, BLANKS),
     ['env A=1  2', 'env B=3', 'env C D=4', 'env Z=1']),
    ('quotes around values that are imported',
     f'IMPORT{{program}}="{QUOTES[0]}", ENV{{Z}}="1"\n',
     answering(DISK, QUOTES),
     ['env A=1 2', 'env B= 3 ', "env E='5'", 'env F=6"', 'env G=a"b', 'env I=7', 'env Z=1']),
    ('lines that give no property',
     f'IMPORT{{program}}="{NOTHING[0]}", ENV{{Z}}="1"\n',
     answering(DISK, NOTHING),
     ['env Z=1']),
    ('an import that prints nothing is done',
     'IMPORT{program}="ata_id exit 0", ENV{Z}="1"\n',
     answering(DISK, ('ata_id exit 0', 0, '')),
     ['env Z=1']),
    ('the last of several lines counts, and an empty value in quotes removes the property',
     f'ENV{{C}}="old"\nIMPORT{{program}}="{AGAIN[0]}"\n',
     answering(DISK, AGAIN),
     ['env A=3']),
    ('an empty value without quotes changes nothing',
     f'ENV{{C}}="old", ENV{{D}}="old"\nIMPORT{{program}}="{NOTHING[0]}"\n',
     answering(DISK, NOTHING),
     ['env C=old', 'env D=old']),
    ('bytes that are imported stay as they are',
     f'IMPORT{{program}}="{BYTES[0]}"\n',
     answering(DISK, BYTES),
     ['env A=a\\x41\\"', 'env B=;|$kernel%k', 'env C=\u00e9\udcff', 'env D=\vx\f', 'env E=a\x01b']),
    ('properties of any name are imported',
     f'IMPORT{{program}}="{NAMES[0]}", ENV{{Z}}="$env{{.X}}"\n',
     answering(DISK, NAMES),
     ['env Z=1', 'env a.b/c=4', 'env \u00e9=3']),
    ('properties of the event are imported, and matches of the event do not use them',
     (f'IMPORT{{program}}="{OWN[0]}"\n' +
      'ACTION=="add", DEVPATH=="*/sda", ENV{B}="1"\n' +
      'ENV{ACTION}=="x", ENV{C}="$env{DEVPATH} $devpath $devnode"\n'),
     answering(DISK, OWN),
     ['env ACTION=x', 'env B=1', 'env C=/y /devices/pci0/usb1/block/sda /dev/sda', 'env DEVNAME=/dev/zz', 'env DEVPATH=/y']),
    ('a program that fails is not imported',
     (f'IMPORT{{program}}="{FAILS[0]}", ENV{{Y}}="1"\n' +
      f'IMPORT{{program}}!="{FAILS[0]}", ENV{{Z}}="1"\n'),
     answering(DISK, FAILS),
     ['env Z=1']),
    ('IMPORT{program} with != sets the properties and fails',
     (f'IMPORT{{program}}!="{ONE[0]}", ENV{{Y}}="1"\n' +
      'ENV{A}=="1", ENV{Z}="1"\n'),
     answering(DISK, ONE),
     ['env A=1', 'env Z=1']),
    ('the result stays where a program is imported',
     ('PROGRAM="ata_id r"\n' +
      f'IMPORT{{program}}="{ONE[0]}", RESULT=="r", ENV{{Y}}="%c"\n' +
      f'IMPORT{{program}}!="{FAILS[0]}", ENV{{Z}}="%c"\n'),
     answering(DISK, ONE, FAILS, ('ata_id r', 0, 'r')),
     ['env A=1', 'env Y=r', 'env Z=r']),
    ('the command of an import is rendered with the result',
     ('PROGRAM="ata_id r", ENV{V}="7"\n' +
      'IMPORT{program}="ata_id $kernel=3d%E{V}%c", ENV{Z}="$env{sda}"\n'),
     answering(DISK, ('ata_id r', 0, 'r'), ('ata_id sda=3d7r', 0, 'sda=7r')),
     ['env V=7', 'env Z=7r', 'env sda=7r']),
    ('IMPORT{program} without an answer',
     ('IMPORT{program}="ata_id exit 4", ENV{Y}="1"\n' +
      'IMPORT{program}!="ata_id exit 4", ENV{Z}="1"\n'),
     DISK,
     ['env Z=1', 'note r.rules:1: no answer for program: ata_id exit 4',
      'note r.rules:2: no answer for program: ata_id exit 4']),
    ('an import whose command is too long',
     (f'ENV{{L}}="{"x" * 500}"\n' +
      f'IMPORT{{program}}="ata_id exit 5 {"$env{L}" * 33}", ENV{{Y}}="1"\n' +
      f'IMPORT{{program}}!="ata_id exit 5 {"$env{L}" * 33}", ENV{{Z}}="1"\n'),
     DISK,
     ['env L=' + 'x' * 500, 'note r.rules:2: text too long: IMPORT{program}', 'note r.rules:3: text too long: IMPORT{program}']),
    words_of_hwdb('words of hwdb', THING, ['env ID_X=1'],
                  ('hwdb --nosuch usb:v1', True), ('hwdb -p usb: v1', True), ('hwdb --lookup-prefix usb: v1', True),
                  ("hwdb 'usb:v1", True), ('hwdb usb:v1 other', True), ('hwdb --lookup=usb: v1', True)),
    words_of_hwdb('short options of hwdb', THING, ['env ID_X=1'],
                  ('hwdb -pusb: v1', True), ('hwdb -xpusb: v1', True), ('hwdb -xp usb: v1', True), ('hwdb -p=usb: v1', False),
                  ('hwdb -x usb:v1', True), ('hwdb -pusb: -f ID_X v1', True), ('hwdb -fID_N usb:v1', False), ('hwdb - usb:v1', False),
                  ('hwdb -f ID_N -f ID_X usb:v1', True)),
    words_of_hwdb('options of hwdb: their end, and options without a value', THING, ['env ID_X=1', 'note r.rules:6: builtin needs: hwdb: MODALIAS of usb1'],
                  ('hwdb -- usb:v1', True), ('hwdb -- -p', False), ('hwdb usb:v1 -f ID_N', False), ('hwdb usb:v1 -- -f ID_N', True),
                  ('hwdb -p -- v1', False), ('hwdb -p', False), ('hwdb usb:v1 -f', True), ('hwdb usb:v1 --filter', True),
                  ('hwdb other usb:v1', False)),
    words_of_hwdb('long options of hwdb', THING, ['env ID_X=1'],
                  ('hwdb --l=usb: v1', True), ('hwdb --l usb: v1', True), ('hwdb --look= usb:v1', True), ('hwdb --lookup-prefixes=usb: v1', False),
                  ('hwdb --=usb: usb:v1', True), ('hwdb --filter=ID_N --fil ID_X usb:v1', True), ('hwdb --f= usb:v1', False)),
    words_of_hwdb('blanks and quotes of hwdb', THING, ['env ID_X=1', 'note r.rules:4: builtin needs: hwdb: MODALIAS of usb1'],
                  ('hwdb \tusb:v1', True), ("hwdb --filter='ID_X' usb:v1", True), ("hwdb usb:'v1' 'a b", True),
                  ("hwdb --filter='ID_X usb:v1", False), ("hwdb '' usb:v1", False)),
    words_of_hwdb('subsystems of hwdb', CAMERA, ['env ID_Z=1'],
                  ('hwdb -s usb', True), ('hwdb -susb', True), ('hwdb --sub usb', True), ('hwdb -s pci', False), ('hwdb -s', True), ('hwdb -s= ', False)),
    ('hwdb of another device',
     'IMPORT{builtin}="hwdb -d +usb:usb1", ENV{A}="1"\n',
     THING,
     ['note r.rules:1: bad hwdb arguments: hwdb -d +usb:usb1']),
    words_of_hwdb('a modalias is looked up whatever device hwdb names', THING, ['env ID_X=1'],
                  ('hwdb --device=+none usb:v1', True), ('hwdb -d +none usb:v1', True), ('hwdb usb:v1 -d+none', True),
                  ('hwdb --device=+none --lookup-prefix=usb: v1 --filter=ID_X --subsystem=usb', True),
                  ('hwdb --device=+none usb:v9', False), ("hwdb --device=+none ''", False)),
    ('a USB device without a modalias',
     LOOKS_UP,
     CAMERA,
     ['env A=1', 'env ID_Z=1']),
    ('a USB device without a modalias, of any subsystem',
     'IMPORT{builtin}="hwdb", ENV{A}="1"\n',
     CAMERA,
     ['env A=1', 'env ID_Z=1']),
    ('a USB device without a modalias, of another subsystem',
     'IMPORT{builtin}="hwdb --subsystem=pci", ENV{A}="1"\n',
     CAMERA,
     []),
    ('a USB device with a modalias',
     LOOKS_UP,
     plugged(*NUMBERS, 'E: MODALIAS=usb:v1'),
     ['env A=1', 'env ID_X=1']),
    ('a USB device whose modalias is not in the database ends the search',
     LOOKS_UP,
     plugged(*NUMBERS, 'E: MODALIAS=usb:v9'),
     []),
    ('a modalias that is made up and not in the database ends the search',
     LOOKS_UP,
     plugged(*NUMBERS, 'A: product=M'),
     []),
    ('a modalias with the name of a product',
     LOOKS_UP,
     plugged(*NUMBERS, 'A: product=N 1'),
     ['env A=1', 'env ID_N=1']),
    ('a modalias without the name of a product',
     LOOKS_UP,
     plugged(*NUMBERS),
     ['env A=1', 'env ID_W=1']),
    ('numbers of a modalias with signs and blanks',
     LOOKS_UP,
     plugged('A: idVendor= 0x12', 'A: idProduct=+ff', 'A: product=N'),
     ['env A=1', 'env ID_N=1']),
    ('a USB device without a vendor: the hub above is the last one',
     LOOKS_UP,
     plugged('A: idProduct=00ff', 'A: product=N'),
     ['env A=1', 'env ID_HUB=1']),
    ('a USB device without a product',
     LOOKS_UP,
     plugged('A: idVendor=0012', 'A: product=N'),
     ['env A=1', 'env ID_HUB=1']),
    ('a product over 16 bits',
     LOOKS_UP,
     plugged('A: idVendor=0012', 'A: idProduct=100ff', 'A: product=N'),
     ['env A=1', 'env ID_HUB=1']),
    ('a product that is not a number',
     LOOKS_UP,
     plugged('A: idVendor=0012', 'A: idProduct=00fg', 'A: product=N'),
     ['env A=1', 'env ID_HUB=1']),
    ('no modalias is made up for an interface',
     LOOKS_UP,
     plugged(*NUMBERS, 'A: product=N', kind='usb_interface'),
     ['env A=1', 'env ID_HUB=1']),
    ('an imported DEVTYPE does not make a device a USB device',
     f'IMPORT{{program}}="{TYPE[0]}"\n' + LOOKS_UP,
     answering(plugged(*NUMBERS, 'A: product=N', kind=None), TYPE),
     ['env A=1', 'env DEVTYPE=usb_device', 'env ID_HUB=1']),
    ('a USB device stays a USB device with any imported DEVTYPE',
     f'IMPORT{{program}}="{NO_TYPE[0]}"\n' + LOOKS_UP,
     answering(plugged(*NUMBERS, 'A: product=N'), NO_TYPE),
     ['env A=1', 'env DEVTYPE=none', 'env ID_N=1']),
    ('a modalias that a rule sets, and one that a rule removes',
     ('ENV{MODALIAS}="usb:v1"\n' +
      'IMPORT{builtin}="hwdb --subsystem=usb", ENV{A}="1"\n' +
      'ENV{MODALIAS}=""\n' +
      'IMPORT{builtin}="hwdb --subsystem=usb", ENV{B}="1"\n'),
     plugged(*NUMBERS, 'A: product=N'),
     ['env A=1', 'env B=1', 'env ID_N=1', 'env ID_X=1']),
    ('a modalias that is made up has at most 2,047 bytes',
     LOOKS_UP,
     plugged(*NUMBERS, 'A: product=' + 'n' * 2040),
     ['env A=1', 'env ID_LONG=1']),
    ('a modalias of 2,046 bytes',
     LOOKS_UP,
     plugged(*NUMBERS, 'A: product=' + 'n' * 2031),
     []),
    ('modaliases that the block lacks are told if nothing is found',
     ('IMPORT{builtin}="hwdb --subsystem=pci", ENV{A}="1"\n' +
      'IMPORT{builtin}="hwdb --subsystem=input", ENV{B}="1"\n' +
      'IMPORT{builtin}="hwdb", ENV{C}="1"\n' +
      'IMPORT{builtin}="hwdb --subsystem=tty", ENV{D}="1"\n' +
      'IMPORT{builtin}="hwdb usb:v9", ENV{E}="1"\n'),
     pressed(),
     ['note r.rules:1: builtin needs: hwdb: MODALIAS of 0:1', 'note r.rules:2: builtin needs: hwdb: MODALIAS of input5',
      'note r.rules:3: builtin needs: hwdb: MODALIAS of input5, MODALIAS of 2:3, MODALIAS of 0:1']),
    ('no modalias is needed where one is found',
     'IMPORT{builtin}="hwdb", ENV{A}="1"\n',
     pressed('E: MODALIAS=usb:v1'),
     ['env A=1', 'env ID_X=1']),
    ('the modalias of the event device is told without a name',
     LOOKS_UP,
     'C: add\nP: /devices/pci0/usb1/1-1/1-1:1.0\nU: usb\nE: DEVTYPE=usb_interface\nP: /devices/pci0/usb1/1-1\nU: usb\nE: DEVTYPE=usb_device\n',
     ['note r.rules:1: builtin needs: hwdb: MODALIAS, MODALIAS of 1-1']),
    ('a modalias after the last device that is looked at is not needed',
     'IMPORT{builtin}="hwdb", ENV{A}="1"\n',
     'C: add\nP: /devices/pci0/usb1\nU: usb\nE: DEVTYPE=usb_device\nE: MODALIAS=usb:v9\nP: /devices/pci0\nU: pci\n',
     []),
    ('a program with ?*',
     ('PROGRAM=="?*", ENV{A}="1"\n' +
      'PROGRAM!="?*", ENV{B}="1"\n' +
      'PROGRAM="?*", ENV{C}="1"\n' +
      'PROGRAM=="?* x", ENV{D}="1"\n'),
     answering(DISK, ("?*", 0, ""), ("?* x", 0, "")),
     ['env B=1', 'env D=1']),
    ('TEST with ?*',
     ('TEST=="?*", ENV{R}="1"\n' +
      'TEST!="?*", ENV{S}="1"\n' +
      'TEST{0644}=="?*", ENV{T}="1"\n' +
      'TEST==e"\\x3f*", ENV{U}="1"\n' +
      'TEST=="?*|", ENV{V}="1"\n'),
     STAR,
     ['env R=1', 'env T=1', 'env U=1', 'note r.rules:3: test not made: ?*']),
    ('imports with ?*',
     ('IMPORT{db}=="?*", ENV{A}="1"\n' +
      'IMPORT{db}!="?*", ENV{B}="1"\n' +
      'IMPORT{program}="?*", ENV{C}="1"\n' +
      'IMPORT{program}!="?*", ENV{D}="1"\n' +
      'IMPORT{file}="?*", ENV{E}="1"\n' +
      'IMPORT{file}!="?*", ENV{F}="1"\n'),
     answering(DISK, ("?*", 0, "")),
     ['env A=1', 'env D=1', 'env E=1', 'note r.rules:1: import not run: db', 'note r.rules:2: import not run: db',
      'note r.rules:5: import not run: file', 'note r.rules:6: import not run: file']),
    ('IMPORT{db} of a new device',
     ('IMPORT{db}=="ID_A", ENV{A}="1"\n' +
      'IMPORT{db}!="ID_A", ENV{B}="1"\n'),
     DISK,
     ['env B=1', 'note r.rules:1: import not run: db', 'note r.rules:2: import not run: db']),
    ('TEST of an attribute, a folder and an absent file',
     ('TEST=="model", ENV{A}="1"\n' +
      'TEST=="q", ENV{E}="1"\n' +
      'TEST=="q/a", ENV{F}="1"\n' +
      'TEST=="q/none", ENV{G}="1"\n' +
      'TEST!="q/none", ENV{H}="1"\n'),
     STAR,
     ['env A=1', 'env E=1', 'env F=1', 'env H=1']),
    ('TEST with */',
     ('TEST=="q/*/x", ENV{B}="1"\n' +
      'TEST=="*/x", ENV{C}="1"\n' +
      'TEST!="r/*/x", ENV{D}="1"\n' +
      'TEST=="*/none", ENV{E}="1"\n'),
     STAR,
     ['env B=1', 'env C=1', 'env D=1', 'note r.rules:4: test not made: */none']),
    ('TEST of a device of the chain',
     ('TEST=="[usb/usb1]serial", ENV{J}="1"\n' +
      'TEST=="[usb/usb1]", ENV{K}="1"\n' +
      'TEST!="[usb/usb1]none", ENV{L}="1"\n'),
     DISK,
     ['env J=1', 'env K=1', 'env L=1']),
    ('TEST of a device that does not exist',
     ('TEST=="[usb/none]x", ENV{L}="1"\n' +
      'TEST!="[usb/none]x", ENV{M}="1"\n'),
     DISK,
     ['env M=1', 'note r.rules:1: test not made: [usb/none]x', 'note r.rules:2: test not made: [usb/none]x']),
    ('TEST of the device',
     'TEST=="", ENV{M}="1"\n',
     STAR,
     ['env M=1']),
    paths_of_test('TEST of paths with components that lead nowhere', STAR,
                  ('q/', True), ('q//a', True), ('./q', True), ('q/.', True), ('q/./a//', True), ('.', True), ('./', True), ('.//model', True),
                  ('q/none/', False), ('./none', False)),
    paths_of_test('TEST of paths that lead up', STAR,
                  ('q/a/../b', True), ('q/a/../b/y', True), ('q/b/../a/x', True), ('q/a/..', True), ('..', True), ('../star/model', True),
                  ('q/a/../c', False), ('q/b/../a/y', False), ('../model', None)),
    paths_of_test('TEST of paths with */ and with components that lead nowhere', STAR,
                  ('q/*/', True), ('*/', True), ('./*/x', True), ('q/*/../b', True), ('q/./*/y', True), ('q//*//y', True), ('q/*', False), ('q/*/none/', False)),
    paths_of_test('TEST of a file where only a folder may be', STAR,
                  ('model/', None), ('model/.', None), ('q/a/x/', False), ('q/a/x/.', False)),
    paths_of_test("TEST of paths out of the device's folder", DISK,
                  ('../../serial', True), ('../../../vendor', True), ('..', True), ('../', True), ('../sda', True), ('../sda/size', True),
                  ('../sda/../sda/size', True), ('../../../usb1/serial', True), ('../../block/sda/', True), ('../../../../pci0/vendor', True),
                  ('../../none', False), ('../none', None), ('../../serial/', None)),
    paths_of_test('TEST of paths in the folder of another device', DISK,
                  ('[usb/usb1]../vendor', True), ('[usb/usb1]/../vendor', True), ('[usb/usb1]./serial', True), ('[usb/usb1]block//', True),
                  ('[usb/usb1]block/sda/size', True), ('[usb/usb1].', True), ('[usb/usb1]..', True), ('[usb/usb1]serial/', False)),
    ('an attribute is assigned with */',
     ('ATTR{q/*/y}="2"\n' +
      'ATTR{q/*}="4"\n' +
      'ATTR{*/x}="5"\n'),
     STAR,
     ['attr q/b/y=2', 'attr q/*=4', 'attr r/x=5']),
    ('*/ of an assigned attribute fits no folder',
     ('ATTR{q/*/none}="1"\n' +
      'ATTR{none/*/y}="3"\n'),
     STAR,
     ['note r.rules:1: attribute not found: q/*/none', 'note r.rules:2: attribute not found: none/*/y']),
    ('the name of an assigned attribute is used as written',
     ('ATTR{%k}="y"\n' +
      'ATTR{$kernel}="z"\n'),
     DISK,
     ['attr %k=y', 'attr $kernel=z']),
    ('an attribute of another device is assigned',
     'ATTR{[usb/usb1]serial}="8"\n',
     DISK,
     ['attr [usb/usb1]serial=8']),
    ('an attribute of another device is assigned with */',
     ('ATTR{[usb/usb1]q/*/x}="2"\n' +
      'ATTR{[usb/usb1]*/a/b/y}="3"\n' +
      'ATTR{[usb/usb1]q/*}="4"\n'),
     FOLDERS,
     ['attr [usb/usb1]q/a/x=2', 'attr [usb/usb1]r/a/b/y=3', 'attr [usb/usb1]q/*=4']),
    ('an attribute of another device is assigned twice, once with */',
     'ATTR{[usb/usb1]q/a/x}="2", ATTR{[usb/usb1]q/*/x}="3"\n',
     FOLDERS,
     ['attr [usb/usb1]q/a/x=3']),
    ('*/ of an assigned attribute of another device fits no folder',
     ('ATTR{[usb/usb1]q/*/none}="1"\n' +
      'ATTR{[pci/pci0]q/*/x}="2"\n' +
      'ATTR{[usb/none]q/*/x}="3"\n' +
      'ATTR{[usb/none]x}="4"\n'),
     FOLDERS,
     ['attr [usb/none]x=4', 'note r.rules:1: attribute not found: [usb/usb1]q/*/none',
      'note r.rules:2: attribute not found: [pci/pci0]q/*/x', 'note r.rules:3: attribute not found: [usb/none]q/*/x']),
    ('*/ after [subsystem/kernel] of the device itself',
     'ATTR{[misc/star]*/x}="5"\n',
     STAR,
     ['attr r/x=5']),
    ('an attribute is assigned twice',
     ('ATTR{model}="a", ATTR{model}="b"\n' +
      'ATTR{size}=""\n' +
      'ATTR{model}="$attr{size}"\n'),
     DISK,
     ['attr model=2048', 'attr size=']),
    ('names of kernel parameters are cleaned',
     ('SYSCTL{net.ipv4.$kernel}="9 "\n' +
      'SYSCTL{/net//x.y}="1"\n' +
      'SYSCTL{net.a/b}="1"\n'),
     DISK,
     ['sysctl net/ipv4/sda=9 ', 'sysctl net/x.y=1', 'sysctl net/a.b=1']),
    ('a match of a kernel parameter',
     'SYSCTL{test/none}=="x", ENV{A}="1"\n',
     DISK,
     ['note r.rules:1: sysctl not read: test/none']),
    ('the order of a rule',
     ('SYMLINK+="l$env{X}", ENV{X}="1", TAG+="t$env{X}"\n' +
      'ATTR{model}="$env{Y}$links", ENV{Y}="2", SECLABEL{a}="[$env{Y}]", SYSCTL{a}="$env{Y}"\n'),
     DISK,
     ['label a=[]', 'link l1', 'tag t', 'env X=1', 'env Y=2', 'attr model=2l1', 'sysctl a=2']),
    ('the name comes before the links',
     'SYMLINK+="l", ENV{A}="[$name]", NAME="n", RUN+="$name"\n',
     NET,
     ['name n', 'env A=[eth0]', 'run program n', 'note r.rules:1: no device number: SYMLINK']),
    ('a jump',
     ('GOTO="end", SYMLINK+="x"\n' +
      'ENV{B}="1"\n' +
      'LABEL="end", ENV{C}="1"\n'),
     DISK,
     ['link x', 'env C=1']),
]

ROWS = answered_as_udev(CASES)
