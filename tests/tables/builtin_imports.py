"""`events --udev`: what an IMPORT{builtin} of usb_id, path_id, input_id or net_id does in its rule, and when it is done again.

What is wanted follows the reference, docs/behaviour.md; nothing here was taken from the program.
"""
import os

from tables.kinds.builtin_blocks import PCI_CARD, capabilities, device, event, hub, stick
from tables.kinds.row import Row
from tables.kinds.udev_blocks import answer_lines

# A device directly below one of PCI, and its path.
CARD = '/devices/pci0000:00/0000:00:1f.0'
BELOW_CARD = event(device(f'{CARD}/thing', 'misc'), device(CARD, 'pci'))
PATH = ('env ID_PATH=pci-0000:00:1f.0', 'env ID_PATH_TAG=pci-0000_00_1f_0')

# A device alone, for which path_id fails.
ALONE = event(device('/devices/star', 'misc'))

# An input device without any capabilities.
INPUT = event(device('/devices/platform/pad/input/input5', 'input', *capabilities()), device('/devices/platform/pad', 'platform'))

# A USB device whose encoded name has four times as many bytes as its name: 80,000.
WORDY = event(stick('A: manufacturer=M', 'A: product=' + '(' * 20000, 'A: serial=1'), hub())

NAMES = ('env ID_NET_NAMING_SCHEME=v257', 'env ID_NET_NAME_MAC=enx54e1ad9c4d18', 'env ID_NET_NAME_PATH=enp3s0', 'env ID_NET_NAME_SLOT=ens3')


def imported(name, rules, block, *lines, database=''):
    """The result of rules over a block and a database: the lines that the block alone does not give."""
    return Row(
        name,
        'events --udev -r r r.rules',
        {'r.rules': rules, 'r/etc/udev/hwdb.d/10.hwdb': database},
        input=os.fsencode(block),
        output=b''.join(line + b'\n' for line in answer_lines(block, list(lines))) + b'\n',
    )


ROWS = [
    imported('a builtin that succeeds is done', 'IMPORT{builtin}="path_id", ENV{A}="1"\n', BELOW_CARD, *PATH, 'env A=1'),
    imported('with != the properties that the builtin sets are kept', 'IMPORT{builtin}!="path_id", ENV{A}="1"\nENV{ID_PATH}=="pci-*", ENV{B}="1"\n', BELOW_CARD, *PATH, 'env B=1'),
    imported('a builtin that fails is not done', 'IMPORT{builtin}="path_id", ENV{A}="1"\nIMPORT{builtin}!="path_id", ENV{B}="1"\n', ALONE, 'env B=1'),
    imported('path_id runs once per event', 'IMPORT{builtin}="path_id"\nENV{ID_PATH}=""\nIMPORT{builtin}="path_id", ENV{B}="[$env{ID_PATH}]"\n', BELOW_CARD,
             PATH[1], 'env B=[]'),
    imported('path_id that failed fails again', 'IMPORT{builtin}!="path_id", ENV{A}="1"\nIMPORT{builtin}!="path_id", ENV{B}="1"\n', ALONE, 'env A=1', 'env B=1'),
    imported('input_id runs each time', 'IMPORT{builtin}="input_id"\nENV{ID_INPUT}=""\nIMPORT{builtin}="input_id", ENV{B}="[$env{ID_INPUT}]"\n', INPUT,
             'env ID_INPUT=1', 'env B=[1]'),
    imported('arguments after the name are ignored', 'IMPORT{builtin}="path_id --a b", ENV{A}="1"\n', BELOW_CARD, *PATH, 'env A=1'),
    imported('an unclosed quote after the name is ignored', 'IMPORT{builtin}="path_id \'b", ENV{A}="1"\n', BELOW_CARD, *PATH, 'env A=1'),
    imported('a builtin is also run by IMPORT{program}', 'IMPORT{program}="path_id", ENV{A}="1"\n', BELOW_CARD, *PATH, 'env A=1'),
    imported('a builtin that would set a text that is too long sets nothing, and fails again', 'IMPORT{builtin}="usb_id", ENV{A}="1"\nIMPORT{builtin}!="usb_id", ENV{B}="1"\n', WORDY,
             'env B=1', 'note r.rules:1: text too long: usb_id'),
    imported('net_id sets what the database has for the address', 'ENV{ID_X}="old"\nIMPORT{builtin}="net_id", ENV{A}="1"\n', PCI_CARD,
             *NAMES, 'env ID_OUI_FROM_DATABASE=Maker', 'env A=1', database='OUI:54E1AD*\n ID_OUI_FROM_DATABASE=Maker\n ID_X=\n'),
    imported('properties of the database replace the scheme and the address name, and the other names replace them', 'IMPORT{builtin}="net_id", ENV{A}="1"\n', PCI_CARD,
             'env ID_NET_NAMING_SCHEME=db', 'env ID_NET_NAME_MAC=db', *NAMES[2:], 'env A=1',
             database='OUI:54E1AD*\n ID_NET_NAMING_SCHEME=db\n ID_NET_NAME_MAC=db\n ID_NET_NAME_PATH=db\n ID_NET_NAME_SLOT=db\n'),
    imported('a name that the database removes', 'IMPORT{builtin}="net_id", ENV{A}="1"\n', PCI_CARD,
             NAMES[0], *NAMES[2:], 'env A=1', database='OUI:54E1AD*\n ID_NET_NAME_MAC=\n ID_NET_NAME_SLOT=\n'),
]
