"""The devices and the database of the rows of `events --udev`, and how an answer is abbreviated.

Bytes that are not UTF-8 are Python's surrogate escapes (`os.fsencode`).
"""
import os

from tables.kinds.answered import escaped, place

DISK = '''C: add
P: /devices/pci0/usb1/block/sda
U: block
N: sda
D: 8:0
A: model=Disk
A: size=2048
P: /devices/pci0/usb1
U: usb
V: hub
A: serial=7
E: ID_BUS=usb
G: ptag
P: /devices/pci0
U: pci
A: vendor=0x8086
'''

# The same below a device with attributes in folders.
FOLDERS = DISK.replace('A: serial=7\n', 'A: serial=7\nA: q/a/x=1\nA: r/a/b/y=2\n')

# A partition of a disk whose node has another name than the kernel's.
PART = '''C: add
P: /devices/virtual/block/vda/vda1
U: block
N: disks/vda1
D: 8:1
P: /devices/virtual/block/vda
U: block
N: disks/vda
D: 8:0
'''

# A device without a number.
THING = '''C: add
P: /devices/pci0/usb1/thing
U: misc
E: ID_SOME=1
P: /devices/pci0/usb1
U: usb
V: hub
A: serial=7
E: ID_BUS=usb
E: ID_BOTH=x
E: DEVTYPE=usb_device
G: ptag
P: /devices/pci0
U: pci
E: ID_FAR=1
'''

# A device alone, without a parent, with attributes in folders and with blanks.
STAR = '''C: add
P: /devices/star
U: misc
A: model=m
A: q/a/x=1
A: q/b/y=6
A: r/x=1
A: b511=''' + 'x' * 511 + '''
A: big=''' + 'x' * 600 + '''
A: blank=  ''' + '''
A: control=a\tb\x01c;d'e/f$g%h?i,j k\udcff\u00e9
A: spaces=  a  b  ''' + '''
A: tab=a\v
'''

# Attributes that end in carriage returns.
RETURNS = '''C: add
P: /devices/returns
U: misc
A: c=y \r
A: d=y\r\r
A: e=y\r\x20
A: f=\r
A: long=''' + 'x' * 511 + '''\r
'''

NET = '''C: add
P: /devices/pci0/net/eth0
U: net
E: IFINDEX=2
E: INTERFACE=eth0
A: mtu=1500
P: /devices/pci0
U: pci
'''

# A device of the subsystem net that is not an interface.
PHY = '''C: add
P: /devices/pci0/net/phy0
U: net
P: /devices/pci0
U: pci
'''

# A device with a number and with an interface.
BOTH = '''C: add
P: /devices/both7
U: misc
N: both7
D: 10:7
E: IFINDEX=7
'''

BANG = '''C: add
P: /devices/12/block/cciss!c0d0
U: block
N: cciss/c0d0
D: 104:0
P: /devices/12
U: pci
E: X=1
'''

DIGITS = '''C: add
P: /devices/12
U: misc
N: some/12
D: 1:1
'''

CLASS = 'C: add\nP: /devices/foo\nU: class\n'
SUBSYSTEM = 'C: add\nP: /devices/foo\nU: subsystem\n'



def numbered(number):
    """A device with a node and a number."""
    return f'C: add\nP: /devices/pci0/numbered\nU: misc\nN: numbered\nD: {number}\nP: /devices/pci0\nU: pci\n'


# A USB device that has no modalias of its own.
CAMERA = '''C: add
P: /devices/pci0/usb1/thing
U: misc
P: /devices/pci0/usb1
U: usb
E: DEVTYPE=usb_device
A: idVendor=0001
A: idProduct=abcd
A: product=Cam
'''

BLOCKS = [DISK, PART, THING, STAR, NET, PHY, BOTH, BANG, DIGITS, CLASS, SUBSYSTEM, CAMERA]

DATABASE = '''usb:v1*
 ID_X=1
 ID_Y=

usb:v0001pABCD:Cam*
 ID_Z=1

usb:v2*
 ID_Y=

usb:v0012p00FF:
 ID_W=1

usb:v0012p00FF:N*
 ID_N=1

usb:v0012p00FF:''' + 'n' * 2032 + '''
 ID_LONG=1

hub:v9*
 ID_HUB=1
'''


def answering(block, *answers):
    """A block in which the event answers commands: each a command, its status and its text, with a carriage return between two lines."""
    return block + ''.join(f'Q: {command}\nR: {status} {text}\n' for command, status, text in answers)


def printing(*lines):
    """A command that the helper of bench/udev_asking.py answers with these lines, and the answer to it."""
    text = '\r'.join(lines)
    shown = [chr(byte) if chr(byte).isalnum() and byte < 128 else f'={byte:02x}' for byte in os.fsencode(text)]
    return 'ata_id ' + ''.join(shown), 0, text


def plugged(*lines, kind='usb_device'):
    """A USB device with these lines, in the socket of a hub with a modalias."""
    reported = [f'E: DEVTYPE={kind}'] * (kind is not None) + list(lines)
    return ('C: add\nP: /devices/pci0/usb1/1-1\nU: usb\n' + ''.join(line + '\n' for line in reported) +
            'P: /devices/pci0/usb1\nU: usb\nE: DEVTYPE=usb_device\nE: MODALIAS=hub:v9\nP: /devices/pci0\nU: pci\n')


def removed(block):
    """The block of a device that is removed."""
    return block.replace('C: add', 'C: remove', 1)


def is_given(major, minor):
    """Whether udev takes a number for that of a device."""
    return 0 < major < 2 ** 12 and minor < 2 ** 20


def begun(block):
    """The lines of an answer that come from the block alone: the event's, and its properties."""
    properties, device = {}, 0
    for line in filter(None, block.split('\n')):
        letter, text = line[0], line[3:]
        if letter == 'C':
            action = properties['ACTION'] = text
        device += letter == 'P'
        if device == 1 and letter == 'P':
            path = properties['DEVPATH'] = text
        elif device == 1 and letter == 'U':
            properties['SUBSYSTEM'] = text
        elif device == 1 and letter == 'N':
            properties['DEVNAME'] = '/dev/' + text
        elif device == 1 and letter == 'D' and is_given(*map(int, text.split(':'))):
            properties['MAJOR'], properties['MINOR'] = text.split(':')
        elif device == 1 and letter == 'E':
            name, value = text.split('=', 1)
            if value:
                properties[name] = value
    return [f'event {action} {path}'] + [f'env {name}={value}' for name, value in properties.items()]


def answer_lines(block, lines):
    """The lines of an answer: those that come from the block alone, with these in place of those of the same property."""
    again = {line.split('=')[0] for line in lines if line.startswith('env ')}
    reported = [line for line in begun(block) if line.split('=')[0] not in again] + lines
    return sorted((escaped(os.fsencode(line)) for line in reported), key=place)
