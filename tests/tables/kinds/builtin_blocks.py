"""The blocks of the cases of builtins. The devices are made up; their chains and attributes are as a kernel 6 has them.

`K: PATH=VALUE` gives a file of /sys by its path, the place where a link leads, or says that a folder exists:
docs/udev/BUILTINS.md.
"""

ROOT = '/devices/pci0000:00'
CONTROLLER = f'{ROOT}/0000:00:14.0'
HUB = f'{CONTROLLER}/usb1'
PORT = f'{HUB}/1-2'
FACE = f'{PORT}/1-2:1.0'


def device(path, subsystem, *lines):
    """the lines of a device; the subsystem may be missing"""
    return ''.join(line + '\n' for line in (f'P: {path}', *([f'U: {subsystem}'] if subsystem else []), *lines))


def outside(path, subsystem, **attributes):
    """the lines of a device outside the chain"""
    return ''.join(f'K: {path}/{name}={value}\n' for name, value in ({'subsystem': subsystem} | attributes).items())


def event(*devices):
    """an event over a chain, the nearest device first"""
    return 'C: add\n' + ''.join(devices)


def lines_of(block, path):
    """the lines of the device with a path"""
    before, _, after = block.partition(f'P: {path}\n')
    return before, after.split('P: ', 1)[0], after


def without(block, path):
    """a block without the device with a path"""
    before, own, after = lines_of(block, path)
    return before + after.removeprefix(own)


def without_subsystem(block, path):
    """a block in which the device with a path has no subsystem"""
    before, own, after = lines_of(block, path)
    rest = ''.join(line for line in own.splitlines(True) if not line.startswith('U: '))
    return f'{before}P: {path}\n{rest}{after.removeprefix(own)}'


def descriptors(*triples, begin='12010003000000098107830600010102030109021f0001010080fa'):
    """descriptors of a device with one configuration: its interfaces, each followed by one endpoint"""
    faces = ''.join(f'0904{number:02x}0001{triple}00' + '0705810200020000'[:14] for number, triple in enumerate(triples))
    return f'K: {PORT}/descriptors={begin}{faces}'


DOMAIN = device(ROOT, None)
ABOVE_USB = device(CONTROLLER, 'pci', 'V: xhci_hcd', 'A: class=0x0c0330') + DOMAIN


def hub(*lines):
    """a root hub and what is above it; given lines replace its own"""
    own = lines or ('A: bDeviceProtocol=01', 'A: speed=480')
    return device(HUB, 'usb', 'V: usb', 'A: idVendor=1d6b', 'A: idProduct=0002', *own, 'E: DEVTYPE=usb_device') + ABOVE_USB


STICK_TEXTS = ('A: manufacturer=SanDisk', 'A: product=Ultra Fit', 'A: serial=4C530001234567890123')


def stick(*lines, descriptor=None):
    """a USB device in a port; given lines replace its texts"""
    return device(PORT, 'usb', 'V: usb', 'A: idVendor=0781', 'A: idProduct=5583', 'A: bcdDevice=0100', *(lines or STICK_TEXTS),
                  'E: DEVTYPE=usb_device', descriptor or descriptors('080650'))


def face(*lines, kind='08', sub='06', driver='usb-storage'):
    """the interface of a USB device"""
    return device(FACE, 'usb', *([f'V: {driver}'] if driver else []), f'A: bInterfaceClass={kind}', f'A: bInterfaceSubClass={sub}',
                  'A: bInterfaceProtocol=50', 'A: bInterfaceNumber=00', *lines, 'E: DEVTYPE=usb_interface')


SCSI_TEXTS = ('A: vendor=SanDisk ', 'A: model=Ultra Fit       ', 'A: rev=1.00', 'A: type=0')


def unit(above, *lines, place='6:0:0:0', host=6):
    """a SCSI device with its target and its host below a device"""
    target = f'{above}/host{host}/target{host}:0:0'
    return (device(f'{target}/{place}', 'scsi', 'V: sd', *(lines or SCSI_TEXTS), 'E: DEVTYPE=scsi_device')
            + device(target, 'scsi', 'E: DEVTYPE=scsi_target') + device(f'{above}/host{host}', 'scsi', 'E: DEVTYPE=scsi_host'))


def disk(above, name='sdb', number='8:16', place='6:0:0:0', host=6, *lines):
    """the node of a disk below a SCSI device"""
    return device(f'{above}/host{host}/target{host}:0:0/{place}/block/{name}', 'block', f'N: {name}', f'D: {number}', *lines, 'E: DEVTYPE=disk')


OWN_HOST = 'A: host6/uevent=DEVTYPE=scsi_host'

USB_DISK = event(disk(FACE), unit(FACE), face(OWN_HOST), stick(), hub())

SERIAL_TEXTS = ('A: manufacturer=FTDI', 'A: product=FT232R USB UART', 'A: serial=A50285BI')
SERIAL_ADAPTER = event(
    device(f'{FACE}/ttyUSB0/tty/ttyUSB0', 'tty', 'N: ttyUSB0', 'D: 188:0'), device(f'{FACE}/ttyUSB0', 'usb-serial', 'V: ftdi_sio'),
    face(kind='ff', sub='ff', driver='ftdi_sio'),
    device(PORT, 'usb', 'V: usb', 'A: idVendor=0403', 'A: idProduct=6001', 'A: bcdDevice=0600', *SERIAL_TEXTS, 'E: DEVTYPE=usb_device',
           descriptors('ffffff', begin='12010002000000080304016000060102030109022000010100a02d')),
    hub())

NVME_CARD = f'{ROOT}/0000:00:1d.0/0000:04:00.0'
ABOVE_NVME = device(NVME_CARD, 'pci', 'V: nvme', 'A: class=0x010802') + device(f'{ROOT}/0000:00:1d.0', 'pci', 'V: pcieport') + DOMAIN
NVME_TEXTS = ('A: model=Samsung SSD 980 1TB                     ', 'A: serial=S649NF0R123456X     ', 'A: firmware_rev=3B4QFXO7', 'A: cntlid=5')
NVME_DISK = event(
    device(f'{NVME_CARD}/nvme/nvme0/nvme0n1', 'block', 'N: nvme0n1', 'D: 259:0', 'A: nsid=1', 'A: wwid=eui.002538d21141a2b3', 'E: DEVTYPE=disk'),
    device(f'{NVME_CARD}/nvme/nvme0', 'nvme', 'N: nvme0', 'D: 239:0', *NVME_TEXTS), ABOVE_NVME)


def capabilities(*, ev='0', key='0', rel='0', abs_='0', props='0', bus='0003'):
    """what an input device reports about itself"""
    return (f'A: capabilities/ev={ev}', f'A: capabilities/key={key}', f'A: capabilities/rel={rel}', f'A: capabilities/abs={abs_}',
            f'A: properties={props}', f'A: id/bustype={bus}')


HID = f'{FACE}/0003:046D:C03E.0001'
MOUSE = event(
    device(f'{HID}/input/input7/event7', 'input', 'N: input/event7', 'D: 13:71'),
    device(f'{HID}/input/input7', 'input', 'A: name=Logitech USB-PS/2 Optical Mouse', *capabilities(ev='17', key='70000 0 0 0 0', rel='903')),
    device(HID, 'hid', 'V: hid-generic'),
    face(kind='03', sub='01', driver='usbhid'),
    device(PORT, 'usb', 'V: usb', 'A: idVendor=046d', 'A: idProduct=c03e', 'A: bcdDevice=2000', 'A: manufacturer=Logitech',
           'A: product=USB-PS/2 Optical Mouse', 'E: DEVTYPE=usb_device', descriptors('030102', begin='12010002000000086d043ec000200102000109022200010100a031')),
    hub())

SERIO = '/devices/platform/i8042/serio1'
TOUCHPAD = event(
    device(f'{SERIO}/input/input12/event5', 'input', 'N: input/event5', 'D: 13:69'),
    device(f'{SERIO}/input/input12', 'input', 'A: name=SynPS/2 Synaptics TouchPad',
           *capabilities(ev='b', key='e520 10000 0 0 0 0', abs_='660800011000003', props='5', bus='0011')),
    device(SERIO, 'serio', 'V: psmouse'), device('/devices/platform/i8042', 'platform', 'V: i8042'), device('/devices/platform', None))


def pad(*lines, name='event5'):
    """a node of an input device on a bus of its own"""
    above = '/devices/platform/pad'
    return event(device(f'{above}/input/input5/{name}', 'input'), device(f'{above}/input/input5', 'input', *lines), device(above, 'platform'))


CARD = f'{ROOT}/0000:00:1c.0/0000:03:00.0'
SINGLE, MULTIPLE = ('8680d31506041000030000021000' + kind + '00' for kind in ('00', '80'))
BRIDGE = 'A: modalias=pci:v00008086d00009D10sv000017AAsd0000224Fbc06sc04i00'
SLOTS = 'K: /bus/pci/slots=\n'


def slots(**places):
    """the slots of the PCI bus, as `_3='0000:03:00'`"""
    return SLOTS + ''.join(f'K: /bus/pci/slots/{name[1:]}/address={place}\n' for name, place in places.items())


ETHERNET = {'iflink': '2', 'type': '1', 'addr_assign_type': '0', 'address': '54:e1:ad:9c:4d:18', 'dev_port': '0', 'dev_id': '0x0'}


def interface(above, *lines, name='eth0', **attributes):
    """an interface below a device; an attribute given as None does not exist"""
    given = ETHERNET | attributes
    return device(f'{above}/net/{name}', 'net', *[f'A: {key}={value}' for key, value in given.items() if value is not None], *lines, 'E: IFINDEX=2', 'E: INTERFACE=eth0')


def card(*lines, path=CARD, config=SINGLE, bridge=(), beside=SLOTS):
    """a PCI card below a bridge, and the slots"""
    alias = 'A: modalias=pci:v00008086d00001533sv00001028sd00000000bc02sc00i00'
    return (device(path, 'pci', 'V: igb', alias, *lines) + device(path.rsplit('/', 1)[0], 'pci', 'V: pcieport', BRIDGE, *bridge) + DOMAIN
            + (f'K: {path}/config={config}\n' if config else '') + beside)


PCI_CARD = event(interface(CARD), card(beside=slots(_3='0000:03:00', _4='0000:04:00')))
