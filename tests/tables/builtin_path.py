"""`events --udev`: what path_id makes of a block, as `udevadm test-builtin` of 257 answers it."""
from tables.kinds.builtin_rows import answered_by
from tables.kinds.builtin_blocks import (ABOVE_NVME, CARD, DOMAIN, FACE, HUB, MOUSE, NVME_CARD, NVME_DISK, OWN_HOST, PCI_CARD, PORT, ROOT, SERIAL_ADAPTER, TOUCHPAD, USB_DISK, card, device, disk,
                            event, face, hub, interface, outside, stick, unit, without, without_subsystem)

SATA = f'{ROOT}/0000:00:17.0'
ABOVE_SATA = device(SATA, 'pci', 'V: ahci') + DOMAIN
HBA = f'{ROOT}/0000:01:00.0'


def below_hub(*lines):
    """the USB disk below a root hub with other attributes"""
    return event(disk(FACE), unit(FACE), face(OWN_HOST), stick(), hub(*lines))


def ata(place='2:0:0:0', port='ata3', lines=('A: ata_port/ata3/port_no=3',), above=ABOVE_SATA):
    """a disk at a port of a SATA controller"""
    host = int(place.split(':', 1)[0])
    folder = f'{SATA}/{port}'
    return event(disk(folder, 'sda', '8:0', place, host), unit(folder, place=place, host=host), device(folder, None, *lines), above)


def sas(*above, place='7:0:1:0'):
    """a disk below an end device; what is above it, nearest first, as name and lines"""
    path = HBA + '/host7'
    devices = []
    for name, lines in reversed(above):
        path += '/' + name
        devices.insert(0, device(path, None, *lines))
    target = f'{path}/target7:0:1'
    return event(device(f'{target}/{place}/block/sda', 'block', 'E: DEVTYPE=disk'), device(f'{target}/{place}', 'scsi', 'E: DEVTYPE=scsi_device'),
                 device(target, 'scsi', 'E: DEVTYPE=scsi_target'), *devices, device(f'{HBA}/host7', 'scsi', 'E: DEVTYPE=scsi_host'), device(HBA, 'pci'), DOMAIN)


END = ('end_device-7:1', ('A: sas_device/end_device-7:1/sas_address=0x5000c500a1b2c3d4', 'A: sas_device/end_device-7:1/phy_identifier=3'))
NARROW, WIDE = ('port-7:1', ('A: sas_port/port-7:1/num_phys=1',)), ('port-7:1', ('A: sas_port/port-7:1/num_phys=4',))
EXPANDER = ('expander-7:0', ('A: sas_device/expander-7:0/sas_address=0x500a098000000001',))


def fibre(lines, place='5:0:2:0'):
    path = f'{HBA}/host5/rport-5:0-2'
    return event(device(f'{path}/target5:0:2/{place}/block/sdc', 'block', 'E: DEVTYPE=disk'), device(f'{path}/target5:0:2/{place}', 'scsi', 'E: DEVTYPE=scsi_device'),
                 device(f'{path}/target5:0:2', 'scsi', *lines, 'E: DEVTYPE=scsi_target'), device(path, None),
                 device(f'{HBA}/host5', 'scsi', 'E: DEVTYPE=scsi_host'), device(HBA, 'pci'), DOMAIN)


FC = ('A: fc_transport/target5:0:2/port_name=0x50060160bce00e9a',)


def iscsi(*lines):
    path = '/devices/platform/host3/session1'
    return event(device(f'{path}/target3:0:0/3:0:0:1/block/sdd', 'block', 'E: DEVTYPE=disk'), device(f'{path}/target3:0:0/3:0:0:1', 'scsi', 'E: DEVTYPE=scsi_device'),
                 device(f'{path}/target3:0:0', 'scsi', 'E: DEVTYPE=scsi_target'), device(path, None, *lines),
                 device('/devices/platform/host3', 'scsi', 'E: DEVTYPE=scsi_host'), device('/devices/platform', None))


TARGET = 'A: iscsi_session/session1/targetname=iqn.2003-01.org.linux-iscsi.x:sn.1'
PORTAL = ('A: connection1:0/iscsi_connection/connection1:0/persistent_address=192.0.2.7', 'A: connection1:0/iscsi_connection/connection1:0/persistent_port=3260')


def hyperv(bus, guid, name=None):
    path = f'{name or "/devices/LNXSYSTM:00/LNXSYBUS:00/ACPI0004:00"}/{bus}'
    return event(disk(path, 'sda', '8:0', '0:0:0:0', 0), unit(path, place='0:0:0:0', host=0), device(path, 'vmbus', f'A: device_id={guid}'),
                 device('/devices/LNXSYSTM:00/LNXSYBUS:00/ACPI0004:00', 'acpi'))


def hosts(host, *others, lines=True):
    """a disk at one of several hosts of one controller"""
    names = [f'A: host{number}/uevent=DEVTYPE=scsi_host' for number in sorted([host, *others])] if lines else []
    return event(disk(HBA, 'sdc', '8:32', f'{host}:0:0:2', host), unit(HBA, place=f'{host}:0:0:2', host=host), device(HBA, 'pci', *names), DOMAIN)


def one(subsystem, name, *lines, below='misc', above=None):
    """a device below one of a subsystem"""
    path = f'/devices/{name}' if above is None else f'{ROOT}/{name}'
    return event(device(f'{path}/{below}/thing', below), device(path, subsystem, *lines), above or '')


VIRTIO = f'{ROOT}/0000:00:03.0/virtio1'
MULTI = '/devices/virtual/nvme-subsystem/nvme-subsys0'


def several_ways(name='nvme0n1', link='nvme0', target=f'{NVME_CARD}/nvme/nvme0', beside=True):
    """an NVMe disk with several ways to it, below its subsystem; the way to it is a device outside the chain"""
    other = outside(target, 'nvme') + (outside(NVME_CARD, 'pci') + outside(NVME_CARD.rsplit('/', 1)[0], 'pci') if target.startswith(NVME_CARD) else '')
    return event(device(f'{MULTI}/{name}', 'block', 'A: nsid=1', 'E: DEVTYPE=disk'), device(MULTI, 'nvme-subsystem', *([f'K: {MULTI}/{link}={target}'] if beside else [])),
                 other if beside else '')


LONG = ['d' * 200, 'e' * 250, 'f' * 250]

CASES = [
    ('a USB disk', USB_DISK,
     ['done', 'ID_PATH_WITH_USB_REVISION=pci-0000:00:14.0-usbv2-0:2:1.0-scsi-0:0:0:0', 'ID_PATH=pci-0000:00:14.0-usb-0:2:1.0-scsi-0:0:0:0', 'ID_PATH_TAG=pci-0000_00_14_0-usb-0_2_1_0-scsi-0_0_0_0']),
    ('a serial adapter', SERIAL_ADAPTER,
     ['done', 'ID_PATH_WITH_USB_REVISION=pci-0000:00:14.0-usbv2-0:2:1.0', 'ID_PATH=pci-0000:00:14.0-usb-0:2:1.0', 'ID_PATH_TAG=pci-0000_00_14_0-usb-0_2_1_0']),
    ('an NVMe disk', NVME_DISK,
     ['done', 'ID_PATH=pci-0000:04:00.0-nvme-1', 'ID_PATH_TAG=pci-0000_04_00_0-nvme-1']),
    ('a mouse', MOUSE,
     ['done', 'ID_PATH_WITH_USB_REVISION=pci-0000:00:14.0-usbv2-0:2:1.0', 'ID_PATH=pci-0000:00:14.0-usb-0:2:1.0', 'ID_PATH_TAG=pci-0000_00_14_0-usb-0_2_1_0']),
    ('a touchpad', TOUCHPAD,
     ['done', 'ID_PATH=platform-i8042-serio-1', 'ID_PATH_TAG=platform-i8042-serio-1']),
    ('a PCI network card', PCI_CARD,
     ['done', 'ID_PATH=pci-0000:03:00.0', 'ID_PATH_TAG=pci-0000_03_00_0']),
    ('a partition of a USB disk', event(device(f'{FACE}/host6/target6:0:0/6:0:0:0/block/sdb/sdb1', 'block', 'E: DEVTYPE=partition'), disk(FACE), unit(FACE), face(OWN_HOST),
                                        stick(), hub()),
     ['done', 'ID_PATH_WITH_USB_REVISION=pci-0000:00:14.0-usbv2-0:2:1.0-scsi-0:0:0:0', 'ID_PATH=pci-0000:00:14.0-usb-0:2:1.0-scsi-0:0:0:0', 'ID_PATH_TAG=pci-0000_00_14_0-usb-0_2_1_0-scsi-0_0_0_0']),
    ('a partition of an NVMe disk has no number of its own', event(device(f'{NVME_CARD}/nvme/nvme0/nvme0n1/nvme0n1p1', 'block', 'E: DEVTYPE=partition'),
                                                                  device(f'{NVME_CARD}/nvme/nvme0/nvme0n1', 'block', 'A: nsid=1', 'E: DEVTYPE=disk'),
                                                                  device(f'{NVME_CARD}/nvme/nvme0', 'nvme'), ABOVE_NVME),
     ['failed']),
    # USB
    ('protocol 0 at 480', below_hub('A: bDeviceProtocol=00', 'A: speed=480'),
     ['done', 'ID_PATH_WITH_USB_REVISION=pci-0000:00:14.0-usbv2-0:2:1.0-scsi-0:0:0:0', 'ID_PATH=pci-0000:00:14.0-usb-0:2:1.0-scsi-0:0:0:0', 'ID_PATH_TAG=pci-0000_00_14_0-usb-0_2_1_0-scsi-0_0_0_0']),
    ('protocol 0 at 12', below_hub('A: bDeviceProtocol=00', 'A: speed=12'),
     ['done', 'ID_PATH_WITH_USB_REVISION=pci-0000:00:14.0-usbv1-0:2:1.0-scsi-0:0:0:0', 'ID_PATH=pci-0000:00:14.0-usb-0:2:1.0-scsi-0:0:0:0', 'ID_PATH_TAG=pci-0000_00_14_0-usb-0_2_1_0-scsi-0_0_0_0']),
    ('protocol 0 without a speed', below_hub('A: bDeviceProtocol=00'),
     ['done', 'ID_PATH=pci-0000:00:14.0-usb-0:2:1.0-scsi-0:0:0:0', 'ID_PATH_TAG=pci-0000_00_14_0-usb-0_2_1_0-scsi-0_0_0_0', 'note builtin needs: path_id: speed']),
    ('protocol 2', below_hub('A: bDeviceProtocol=02'),
     ['done', 'ID_PATH_WITH_USB_REVISION=pci-0000:00:14.0-usbv2-0:2:1.0-scsi-0:0:0:0', 'ID_PATH=pci-0000:00:14.0-usb-0:2:1.0-scsi-0:0:0:0', 'ID_PATH_TAG=pci-0000_00_14_0-usb-0_2_1_0-scsi-0_0_0_0']),
    ('protocol 3', below_hub('A: bDeviceProtocol=03'),
     ['done', 'ID_PATH_WITH_USB_REVISION=pci-0000:00:14.0-usbv3-0:2:1.0-scsi-0:0:0:0', 'ID_PATH=pci-0000:00:14.0-usb-0:2:1.0-scsi-0:0:0:0', 'ID_PATH_TAG=pci-0000_00_14_0-usb-0_2_1_0-scsi-0_0_0_0']),
    ('another protocol', below_hub('A: bDeviceProtocol=04'),
     ['done', 'ID_PATH=pci-0000:00:14.0-usb-0:2:1.0-scsi-0:0:0:0', 'ID_PATH_TAG=pci-0000_00_14_0-usb-0_2_1_0-scsi-0_0_0_0']),
    ('a protocol that is not a number', below_hub('A: bDeviceProtocol=zz'),
     ['done', 'ID_PATH=pci-0000:00:14.0-usb-0:2:1.0-scsi-0:0:0:0', 'ID_PATH_TAG=pci-0000_00_14_0-usb-0_2_1_0-scsi-0_0_0_0']),
    ('no protocol', below_hub('A: speed=480'),
     ['done', 'ID_PATH=pci-0000:00:14.0-usb-0:2:1.0-scsi-0:0:0:0', 'ID_PATH_TAG=pci-0000_00_14_0-usb-0_2_1_0-scsi-0_0_0_0', 'note builtin needs: path_id: bDeviceProtocol']),
    ('a USB device', event(stick(), hub()),
     ['done', 'ID_PATH_WITH_USB_REVISION=pci-0000:00:14.0-usbv2-0:2', 'ID_PATH=pci-0000:00:14.0-usb-0:2', 'ID_PATH_TAG=pci-0000_00_14_0-usb-0_2']),
    ('a root hub has no port', event(hub()),
     ['done', 'ID_PATH=pci-0000:00:14.0', 'ID_PATH_TAG=pci-0000_00_14_0']),
    ('a port of a port', event(device(f'{PORT}/1-2.4/1-2.4:1.0/thing', 'misc'), device(f'{PORT}/1-2.4/1-2.4:1.0', 'usb', 'E: DEVTYPE=usb_interface'),
                               device(f'{PORT}/1-2.4', 'usb', 'E: DEVTYPE=usb_device'), stick(), hub()),
     ['done', 'ID_PATH_WITH_USB_REVISION=pci-0000:00:14.0-usbv2-0:2.4:1.0', 'ID_PATH=pci-0000:00:14.0-usb-0:2.4:1.0', 'ID_PATH_TAG=pci-0000_00_14_0-usb-0_2_4_1_0']),
    ('the DEVTYPE of the USB devices is not in the block', event(device(f'{FACE}/thing', 'misc'), device(FACE, 'usb'), device(PORT, 'usb'), hub()),
     ['done', 'ID_PATH=pci-0000:00:14.0', 'ID_PATH_TAG=pci-0000_00_14_0', 'note builtin needs: path_id: DEVTYPE']),
    ('no known controller', event(device('/devices/x/usb1/1-2/thing', 'misc'), device('/devices/x/usb1/1-2', 'usb', 'E: DEVTYPE=usb_device'),
                                          device('/devices/x/usb1', 'usb', 'A: bDeviceProtocol=01', 'E: DEVTYPE=usb_device'), device('/devices/x', None)),
     ['failed']),
    # SCSI
    ('a SATA disk', ata(),
     ['done', 'ID_PATH=pci-0000:00:17.0-ata-3.0', 'ID_PATH_TAG=pci-0000_00_17_0-ata-3_0', 'ID_PATH_ATA_COMPAT=pci-0000:00:17.0-ata-3']),
    ('a SATA disk at target 1', ata('2:0:1:0'),
     ['done', 'ID_PATH=pci-0000:00:17.0-ata-3.1', 'ID_PATH_TAG=pci-0000_00_17_0-ata-3_1', 'ID_PATH_ATA_COMPAT=pci-0000:00:17.0-ata-3']),
    ('a SATA disk at a port multiplier', ata('2:3:0:0'),
     ['done', 'ID_PATH=pci-0000:00:17.0-ata-3.3.0', 'ID_PATH_TAG=pci-0000_00_17_0-ata-3_3_0', 'ID_PATH_ATA_COMPAT=pci-0000:00:17.0-ata-3']),
    ('the number of a SATA port is not in the block', ata(lines=()),
     ['failed', 'note builtin needs: path_id: port_no']),
    ('a path with /ata, without an ATA port', ata(port='atari', lines=()),
     ['failed', 'note builtin needs: path_id: port_no']),
    ('a SATA disk below a platform', event(disk('/devices/platform/soc/ahci/ata1', 'sda', '8:0', '0:0:0:0', 0), unit('/devices/platform/soc/ahci/ata1', place='0:0:0:0', host=0),
                                           device('/devices/platform/soc/ahci/ata1', None, 'A: ata_port/ata1/port_no=1'), device('/devices/platform/soc/ahci', 'platform'),
                                           device('/devices/platform/soc', 'platform'), device('/devices/platform', None)),
     ['done', 'ID_PATH=platform-ahci-ata-1.0', 'ID_PATH_TAG=platform-ahci-ata-1_0', 'ID_PATH_ATA_COMPAT=platform-ahci-ata-1']),
    ('a SAS disk at one phy', sas(END, NARROW),
     ['done', 'ID_PATH=pci-0000:01:00.0-sas-phy3-lun-0', 'ID_PATH_TAG=pci-0000_01_00_0-sas-phy3-lun-0']),
    ('a SAS disk at an expander', sas(END, NARROW, EXPANDER, ('port-7:0', ())),
     ['done', 'ID_PATH=pci-0000:01:00.0-sas-exp0x500a098000000001-phy3-lun-0', 'ID_PATH_TAG=pci-0000_01_00_0-sas-exp0x500a098000000001-phy3-lun-0']),
    ('a SAS disk at a wide port', sas(END, WIDE),
     ['done', 'ID_PATH=pci-0000:01:00.0-sas-0x5000c500a1b2c3d4-lun-0', 'ID_PATH_TAG=pci-0000_01_00_0-sas-0x5000c500a1b2c3d4-lun-0']),
    ('a unit of 256 and more', sas(END, WIDE, place='7:0:1:16640'),
     ['done', 'ID_PATH=pci-0000:01:00.0-sas-0x5000c500a1b2c3d4-lun-0x4100000000000000', 'ID_PATH_TAG=pci-0000_01_00_0-sas-0x5000c500a1b2c3d4-lun-0x4100000000000000']),
    ('a unit of 65,536 and more', sas(END, WIDE, place='7:0:1:131073'),
     ['done', 'ID_PATH=pci-0000:01:00.0-sas-0x5000c500a1b2c3d4-lun-0x0001000200000000', 'ID_PATH_TAG=pci-0000_01_00_0-sas-0x5000c500a1b2c3d4-lun-0x0001000200000000']),
    ('no phys in the block', sas(END, ('port-7:1', ())),
     ['failed', 'note builtin needs: path_id: num_phys']),
    ('a number of phys that is not a number', sas(END, ('port-7:1', ('A: sas_port/port-7:1/num_phys=x',))),
     ['failed']),
    ('no phy in the block', sas(('end_device-7:1', ('A: sas_device/end_device-7:1/sas_address=0x5',)), NARROW),
     ['failed', 'note builtin needs: path_id: phy_identifier']),
    ('no address at a wide port', sas(('end_device-7:1', ('A: sas_device/end_device-7:1/phy_identifier=3',)), WIDE),
     ['failed', 'note builtin needs: path_id: sas_address']),
    ('a Fibre Channel disk', fibre(FC),
     ['done', 'ID_PATH=pci-0000:01:00.0-fc-0x50060160bce00e9a-lun-0', 'ID_PATH_TAG=pci-0000_01_00_0-fc-0x50060160bce00e9a-lun-0']),
    ('a Fibre Channel disk of a large unit', fibre(FC, '5:0:2:300'),
     ['done', 'ID_PATH=pci-0000:01:00.0-fc-0x50060160bce00e9a-lun-0x012c000000000000', 'ID_PATH_TAG=pci-0000_01_00_0-fc-0x50060160bce00e9a-lun-0x012c000000000000']),
    ('no port name', fibre(()),
     ['failed', 'note builtin needs: path_id: port_name']),
    ('an iSCSI disk', iscsi(TARGET, *PORTAL),
     ['done', 'ID_PATH=ip-192.0.2.7:3260-iscsi-iqn.2003-01.org.linux-iscsi.x:sn.1-lun-1', 'ID_PATH_TAG=ip-192_0_2_7_3260-iscsi-iqn_2003-01_org_linux-iscsi_x_sn_1-lun-1']),
    ('an iSCSI disk without a portal', iscsi(TARGET),
     ['failed', 'note builtin needs: path_id: persistent_address', 'note builtin needs: path_id: persistent_port']),
    ('an iSCSI disk without a target', iscsi(*PORTAL),
     ['failed', 'note builtin needs: path_id: targetname']),
    ('a disk of Hyper-V', hyperv('vmbus_11', '{2dd1ce17-079e-403c-b352-a1921ee207e}'),
     ['done', 'ID_PATH=acpi-ACPI0004:00-vmbus-2dd1ce17079e403cb352a1921ee207e-lun-0', 'ID_PATH_TAG=acpi-ACPI0004_00-vmbus-2dd1ce17079e403cb352a1921ee207e-lun-0']),
    ('a disk of Hyper-V by an ACPI name', hyperv('VMBUS:01', '{f8b3781a-1e82-4818-a1c3-63d806ec15bb}'),
     ['done', 'ID_PATH=acpi-ACPI0004:00-vmbus-f8b3781a1e824818a1c363d806ec15bb-lun-0', 'ID_PATH_TAG=acpi-ACPI0004_00-vmbus-f8b3781a1e824818a1c363d806ec15bb-lun-0']),
    ('a Hyper-V name that is too long', hyperv('vmbus_11', '{f8b3781a-1e82-4818-a1c3-63d806ec15bb}'),
     ['failed']),
    ('no Hyper-V name', hyperv('vmbus_11', ''),
     ['failed']),
    ('a disk at the second host of a controller', hosts(5, 4),
     ['done', 'ID_PATH=pci-0000:01:00.0-scsi-1:0:0:2', 'ID_PATH_TAG=pci-0000_01_00_0-scsi-1_0_0_2']),
    ('the lowest host number counts, not the order', hosts(12, 9, 100),
     ['done', 'ID_PATH=pci-0000:01:00.0-scsi-3:0:0:2', 'ID_PATH_TAG=pci-0000_01_00_0-scsi-3_0_0_2']),
    ('the folders of hosts are not in the block', hosts(5, lines=False),
     ['failed', 'note builtin needs: path_id: host*']),
    ('a FireWire disk', event(disk(HBA), unit(HBA, 'A: ieee1394_id=00a0b80000001234:1:0'), device(HBA, 'pci', OWN_HOST), DOMAIN),
     ['done', 'ID_PATH=pci-0000:01:00.0-ieee1394-0x00a0b80000001234:1:0', 'ID_PATH_TAG=pci-0000_01_00_0-ieee1394-0x00a0b80000001234_1_0']),
    ('a SCSI host itself', event(device(f'{HBA}/host6', 'scsi', 'E: DEVTYPE=scsi_host'), device(HBA, 'pci'), DOMAIN),
     ['done', 'ID_PATH=pci-0000:01:00.0', 'ID_PATH_TAG=pci-0000_01_00_0']),
    ('a SCSI device without a host', event(device(f'{HBA}/6:0:0:0/block/sda', 'block'), device(f'{HBA}/6:0:0:0', 'scsi', 'E: DEVTYPE=scsi_device'), device(HBA, 'pci'), DOMAIN),
     ['failed']),
    ('a SCSI device with three numbers', event(disk(HBA, 'sda', '8:0', '6:0:0'), unit(HBA, place='6:0:0'), device(HBA, 'pci', OWN_HOST), DOMAIN),
     ['failed']),
    ('the type of the SCSI device is not in the block', event(device(f'{HBA}/host6/6:0:0:0/block/sda', 'block'), device(f'{HBA}/host6/6:0:0:0', 'scsi'),
                                                device(f'{HBA}/host6', 'scsi', 'E: DEVTYPE=scsi_host'), device(HBA, 'pci', OWN_HOST), DOMAIN),
     ['done', 'ID_PATH=pci-0000:01:00.0', 'ID_PATH_TAG=pci-0000_01_00_0', 'note builtin needs: path_id: DEVTYPE']),
    ('a tape by its name', event(device(f'{HBA}/host6/target6:0:0/6:0:0:0/scsi_tape/nstm', 'scsi_tape'), unit(HBA), device(HBA, 'pci', OWN_HOST), DOMAIN),
     ['done', 'ID_PATH=pci-0000:01:00.0-scsi-0:0:0:0-nstm', 'ID_PATH_TAG=pci-0000_01_00_0-scsi-0_0_0_0-nstm']),
    ('tapes as the kernel names them', event(device(f'{HBA}/host6/target6:0:0/6:0:0:0/scsi_tape/nst0m', 'scsi_tape'), unit(HBA), device(HBA, 'pci', OWN_HOST), DOMAIN),
     ['done', 'ID_PATH=pci-0000:01:00.0-scsi-0:0:0:0', 'ID_PATH_TAG=pci-0000_01_00_0-scsi-0_0_0_0']),
    ('a disk of cciss', event(device(f'{HBA}/cciss0/c0d3/block/cciss!c0d3', 'block'), device(f'{HBA}/cciss0/c0d3', 'cciss'), device(f'{HBA}/cciss0', 'cciss'),
                              device(HBA, 'pci'), DOMAIN),
     ['done', 'ID_PATH=pci-0000:01:00.0-cciss-disk3', 'ID_PATH_TAG=pci-0000_01_00_0-cciss-disk3']),
    ('an invalid cciss name', event(device(f'{HBA}/disk3/block/x', 'block'), device(f'{HBA}/disk3', 'cciss'), device(HBA, 'pci'), DOMAIN),
     ['failed']),
    # NVMe
    ('an NVMe disk with several paths', several_ways(),
     ['done', 'ID_PATH=pci-0000:04:00.0-nvme-1', 'ID_PATH_TAG=pci-0000_04_00_0-nvme-1']),
    ('another NVMe disk with several paths', several_ways('nvme0n2'),
     ['done', 'ID_PATH=pci-0000:04:00.0-nvme-1', 'ID_PATH_TAG=pci-0000_04_00_0-nvme-1']),
    ('an NVMe disk whose path is not in the block', several_ways(beside=False),
     ['failed', 'note builtin needs: path_id: nvme0']),
    ('an NVMe disk over a network', several_ways(target='/devices/virtual/nvme-fabrics/ctl/nvme0'),
     ['failed']),
    ('a disk below an NVMe subsystem with another name', several_ways('disk0'),
     ['failed']),
    ('an NVMe disk without a number', event(device(f'{NVME_CARD}/nvme/nvme0/nvme0n1', 'block', 'E: DEVTYPE=disk'), device(f'{NVME_CARD}/nvme/nvme0', 'nvme'), ABOVE_NVME),
     ['failed', 'note builtin needs: path_id: nsid']),
    ('an NVMe controller', event(device(f'{NVME_CARD}/nvme/nvme0', 'nvme'), ABOVE_NVME),
     ['done', 'ID_PATH=pci-0000:04:00.0', 'ID_PATH_TAG=pci-0000_04_00_0']),
    # other buses
    ('a virtio disk', event(device(f'{VIRTIO}/block/vda', 'block'), device(VIRTIO, 'virtio'), device(f'{ROOT}/0000:00:03.0', 'pci'), DOMAIN),
     ['done', 'ID_PATH=pci-0000:00:03.0', 'ID_PATH_TAG=pci-0000_00_03_0']),
    ('a virtio disk without PCI', event(device('/devices/x/virtio1/block/vda', 'block'), device('/devices/x/virtio1', 'virtio'), device('/devices/x', None)),
     ['failed']),
    ('a block device of only PCI', event(device(f'{HBA}/block/x', 'block'), device(HBA, 'pci'), DOMAIN),
     ['failed']),
    ('a block device of a platform', one('platform', 'mmc.0', below='block'),
     ['done', 'ID_PATH=platform-mmc.0', 'ID_PATH_TAG=platform-mmc_0']),
    ('a block device of only ACPI', one('acpi', 'PNP0A08:00', below='block'),
     ['failed']),
    ('a device of ACPI', one('acpi', 'PNP0A08:00'),
     ['done', 'ID_PATH=acpi-PNP0A08:00', 'ID_PATH_TAG=acpi-PNP0A08_00']),
    ('a block device of only Xen', one('xen', 'vbd-51712', below='block'),
     ['failed']),
    ('a device of Xen', one('xen', 'vbd-51712'),
     ['done', 'ID_PATH=xen-vbd-51712', 'ID_PATH_TAG=xen-vbd-51712']),
    ('amba', one('amba', '80120000.mmc', below='block'),
     ['done', 'ID_PATH=amba-80120000.mmc', 'ID_PATH_TAG=amba-80120000_mmc']),
    ('scm', one('scm', '0000000000000000', below='block'),
     ['done', 'ID_PATH=scm-0000000000000000', 'ID_PATH_TAG=scm-0000000000000000']),
    ('ccw', one('ccw', '0.0.2000', below='block'),
     ['done', 'ID_PATH=ccw-0.0.2000', 'ID_PATH_TAG=ccw-0_0_2000']),
    ('ccwgroup', one('ccwgroup', '0.0.f5f0'),
     ['done', 'ID_PATH=ccwgroup-0.0.f5f0', 'ID_PATH_TAG=ccwgroup-0_0_f5f0']),
    ('iucv', one('iucv', 'netiucv0'),
     ['done', 'ID_PATH=iucv-netiucv0', 'ID_PATH_TAG=iucv-netiucv0']),
    ('ap by type and functions', one('ap', 'card00', 'A: type=7', 'A: ap_functions=0x92000000'),
     ['done', 'ID_PATH=ap-7-0x92000000', 'ID_PATH_TAG=ap-7-0x92000000']),
    ('ap by name', one('ap', 'card00', 'A: type=7'),
     ['done', 'ID_PATH=ap-card00', 'ID_PATH_TAG=ap-card00']),
    ('bcma', one('bcma', 'bcma0:2', above=device(HBA, 'pci') + DOMAIN).replace(f'{ROOT}/bcma', f'{HBA}/bcma'),
     ['done', 'ID_PATH=pci-0000:01:00.0-bcma-2', 'ID_PATH_TAG=pci-0000_01_00_0-bcma-2']),
    ('an invalid bcma name', one('bcma', 'bcma-x', above=device(HBA, 'pci') + DOMAIN).replace(f'{ROOT}/bcma', f'{HBA}/bcma'),
     ['failed']),
    ('serio without a number', event(device('/devices/platform/i8042/serio/thing', 'misc'), device('/devices/platform/i8042/serio', 'serio'),
                                     device('/devices/platform/i8042', 'platform'), device('/devices/platform', None)),
     ['done', 'ID_PATH=platform-i8042', 'ID_PATH_TAG=platform-i8042']),
    ('spi', event(device(f'{HBA}/spi_master/spi0/spi0.1/thing', 'misc'), device(f'{HBA}/spi_master/spi0/spi0.1', 'spi'), device(f'{HBA}/spi_master/spi0', 'spi_master'),
                  device(HBA, 'pci'), DOMAIN),
     ['done', 'ID_PATH=pci-0000:01:00.0-cs-1', 'ID_PATH_TAG=pci-0000_01_00_0-cs-1']),
    ('of consecutive parents of one subsystem only the lowest is in the path',
     event(device('/devices/platform/a/b/c/thing', 'misc'), device('/devices/platform/a/b/c', 'platform'), device('/devices/platform/a/b', 'platform'),
           device('/devices/platform/a', 'platform'), device('/devices/platform', None)),
     ['done', 'ID_PATH=platform-c', 'ID_PATH_TAG=platform-c']),
    ('of parents of one subsystem with another between, each is in the path',
     event(device('/devices/platform/a/x/c/thing', 'misc'), device('/devices/platform/a/x/c', 'platform'), device('/devices/platform/a/x', 'misc'),
           device('/devices/platform/a', 'platform'), device('/devices/platform', None)),
     ['done', 'ID_PATH=platform-a-platform-c', 'ID_PATH_TAG=platform-a-platform-c']),
    ('no known device', event(device('/devices/virtual/block/loop0', 'block')),
     ['failed']),
    ('a network card of PCI', event(interface(CARD), card()),
     ['done', 'ID_PATH=pci-0000:03:00.0', 'ID_PATH_TAG=pci-0000_03_00_0']),
    ('a name with a slash', one('platform', 'a!b'),
     ['done', 'ID_PATH=platform-a/b', 'ID_PATH_TAG=platform-a_b']),
    ('the tag: other bytes become one _, none at the ends', one('platform', '..a..b,,ü:'),
     ['done', 'ID_PATH=platform-..a..b,,ü:', 'ID_PATH_TAG=platform-_a_b']),
    ('a text that looks like a revision', one('platform', 'x-usbv2-y'),
     ['done', 'ID_PATH_WITH_USB_REVISION=platform-x-usbv2-y', 'ID_PATH=platform-x-usb-y', 'ID_PATH_TAG=platform-x-usb-y']),
    ('a text that does not look like a revision', one('platform', 'x-usbvz-usbv2-y'),
     ['done', 'ID_PATH=platform-x-usbvz-usbv2-y', 'ID_PATH_TAG=platform-x-usbvz-usbv2-y']),
    # bounds
    ('unit 255', sas(END, WIDE, place='7:0:1:255'),
     ['done', 'ID_PATH=pci-0000:01:00.0-sas-0x5000c500a1b2c3d4-lun-255', 'ID_PATH_TAG=pci-0000_01_00_0-sas-0x5000c500a1b2c3d4-lun-255']),
    ('unit 256', sas(END, WIDE, place='7:0:1:256'),
     ['done', 'ID_PATH=pci-0000:01:00.0-sas-0x5000c500a1b2c3d4-lun-0x0100000000000000', 'ID_PATH_TAG=pci-0000_01_00_0-sas-0x5000c500a1b2c3d4-lun-0x0100000000000000']),
    ('unit 65,535', sas(END, WIDE, place='7:0:1:65535'),
     ['done', 'ID_PATH=pci-0000:01:00.0-sas-0x5000c500a1b2c3d4-lun-0xffff000000000000', 'ID_PATH_TAG=pci-0000_01_00_0-sas-0x5000c500a1b2c3d4-lun-0xffff000000000000']),
    ('two phys are a wide port', sas(END, ('port-7:1', ('A: sas_port/port-7:1/num_phys=2',))),
     ['done', 'ID_PATH=pci-0000:01:00.0-sas-0x5000c500a1b2c3d4-lun-0', 'ID_PATH_TAG=pci-0000_01_00_0-sas-0x5000c500a1b2c3d4-lun-0']),
    ('a revision of 9', one('platform', 'x-usbv9-y'),
     ['done', 'ID_PATH_WITH_USB_REVISION=platform-x-usbv9-y', 'ID_PATH=platform-x-usb-y', 'ID_PATH_TAG=platform-x-usb-y']),
    ('a revision of 0', one('platform', 'x-usbv0-y'),
     ['done', 'ID_PATH_WITH_USB_REVISION=platform-x-usbv0-y', 'ID_PATH=platform-x-usb-y', 'ID_PATH_TAG=platform-x-usb-y']),
    ('two digits are not a revision', one('platform', 'x-usbv10-y'),
     ['done', 'ID_PATH=platform-x-usbv10-y', 'ID_PATH_TAG=platform-x-usbv10-y']),
    ('a tag ends after 511 bytes',
     event(device(f'/devices/{LONG[0]}/m/{LONG[1]}/m/{LONG[2]}/x', 'misc'), device(f'/devices/{LONG[0]}/m/{LONG[1]}/m/{LONG[2]}', 'platform'),
           device(f'/devices/{LONG[0]}/m/{LONG[1]}/m', 'misc'), device(f'/devices/{LONG[0]}/m/{LONG[1]}', 'platform'), device(f'/devices/{LONG[0]}/m', 'misc'),
           device(f'/devices/{LONG[0]}', 'platform')),
     ['done', 'ID_PATH=platform-dddddddddddddddddddddddddddddddddddddddddddddddddddddddddddddddddddddddddddddddddddddddddddddddddddddddddddddddddddddddddddddddddddddddddddddddddddddddddddddddddddddddddddddddddddddddddddddddddddddddd-platform-eeeeeeeeeeeeeeeeeeeeeeeeeeeeeeeeeeeeeeeeeeeeeeeeeeeeeeeeeeeeeeeeeeeeeeeeeeeeeeeeeeeeeeeeeeeeeeeeeeeeeeeeeeeeeeeeeeeeeeeeeeeeeeeeeeeeeeeeeeeeeeeeeeeeeeeeeeeeeeeeeeeeeeeeeeeeeeeeeeeeeeeeeeeeeeeeeeeeeeeeeeeeeeeeeeeeeeeeeeeeeeeeeeeeeeeeeeeeeeeeeeeeeeeeee-platform-ffffffffffffffffffffffffffffffffffffffffffffffffffffffffffffffffffffffffffffffffffffffffffffffffffffffffffffffffffffffffffffffffffffffffffffffffffffffffffffffffffffffffffffffffffffffffffffffffffffffffffffffffffffffffffffffffffffffffffffffffffffffffff', 'ID_PATH_TAG=platform-dddddddddddddddddddddddddddddddddddddddddddddddddddddddddddddddddddddddddddddddddddddddddddddddddddddddddddddddddddddddddddddddddddddddddddddddddddddddddddddddddddddddddddddddddddddddddddddddddddddddd-platform-eeeeeeeeeeeeeeeeeeeeeeeeeeeeeeeeeeeeeeeeeeeeeeeeeeeeeeeeeeeeeeeeeeeeeeeeeeeeeeeeeeeeeeeeeeeeeeeeeeeeeeeeeeeeeeeeeeeeeeeeeeeeeeeeeeeeeeeeeeeeeeeeeeeeeeeeeeeeeeeeeeeeeeeeeeeeeeeeeeeeeeeeeeeeeeeeeeeeeeeeeeeeeeeeeeeeeeeeeeeeeeeeeeeeeeeeeeeeeeeeeeeeeeeeee-platform-ffffffffffffffffffffffffffffffff']),
    ('a port with two dashes', event(device(f'{HUB}/1-2-3', 'usb', 'E: DEVTYPE=usb_device'), hub()),
     ['done', 'ID_PATH_WITH_USB_REVISION=pci-0000:00:14.0-usbv2-0:2-3', 'ID_PATH=pci-0000:00:14.0-usb-0:2-3', 'ID_PATH_TAG=pci-0000_00_14_0-usb-0_2-3']),
    ('protocol 0x103', below_hub('A: bDeviceProtocol=103'),
     ['done', 'ID_PATH=pci-0000:00:14.0-usb-0:2:1.0-scsi-0:0:0:0', 'ID_PATH_TAG=pci-0000_00_14_0-usb-0_2_1_0-scsi-0_0_0_0']),
    ('a controller of two digits', several_ways('nvme19n1', 'nvme19', f'{NVME_CARD}/nvme/nvme19'),
     ['done', 'ID_PATH=pci-0000:04:00.0-nvme-1', 'ID_PATH_TAG=pci-0000_04_00_0-nvme-1']),
    ('a host below a folder that is not a device', event(disk('/devices/platform/x/y'), unit('/devices/platform/x/y'), device('/devices/platform/x', 'platform', 'A: y/host6/uevent=DEVTYPE=scsi_host')),
     ['failed', 'note builtin needs: path_id: host*']),
    ('a block device of ccwgroup', one('ccwgroup', '0.0.f5f0', below='block'),
     ['done', 'ID_PATH=ccwgroup-0.0.f5f0', 'ID_PATH_TAG=ccwgroup-0_0_f5f0']),
    ('a block device of iucv', one('iucv', 'netiucv0', below='block'),
     ['done', 'ID_PATH=iucv-netiucv0', 'ID_PATH_TAG=iucv-netiucv0']),
    ('a block device of ap', one('ap', 'card00', below='block'),
     ['done', 'ID_PATH=ap-card00', 'ID_PATH_TAG=ap-card00']),
    ('a block device of bcma', one('bcma', 'bcma0:2', below='block', above=device(HBA, 'pci') + DOMAIN).replace(f'{ROOT}/bcma', f'{HBA}/bcma'),
     ['done', 'ID_PATH=pci-0000:01:00.0-bcma-2', 'ID_PATH_TAG=pci-0000_01_00_0-bcma-2']),
    ('a FireWire disk without PCI', event(disk('/devices/x'), unit('/devices/x', 'A: ieee1394_id=00a0b80000001234:1:0'), device('/devices/x', None)),
     ['done', 'ID_PATH=ieee1394-0x00a0b80000001234:1:0', 'ID_PATH_TAG=ieee1394-0x00a0b80000001234_1_0']),
    ('an NVMe disk without PCI', event(device('/devices/x/nvme/nvme0/nvme0n1', 'block', 'A: nsid=1', 'E: DEVTYPE=disk'), device('/devices/x/nvme/nvme0', 'nvme')),
     ['done', 'ID_PATH=nvme-1', 'ID_PATH_TAG=nvme-1']),
    ('a Hyper-V name without an opening brace', hyperv('vmbus_11', '2dd1ce17-079e-403c-b352-a1921ee207ee}'),
     ['failed']),
    ('a Hyper-V name without a closing brace', hyperv('vmbus_11', '{2dd1ce17-079e-403c-b352-a1921ee207eee'),
     ['failed']),
    ('a Hyper-V name that is too short', hyperv('vmbus_11', '{2dd1ce17-079e-403c-b352-a1921ee207}'),
     ['failed']),
    ('bytes after the closing brace of a Hyper-V name', hyperv('vmbus_11', '{2dd1ce17-079e-403c-b352-a1921ee207e}xyz'),
     ['done', 'ID_PATH=acpi-ACPI0004:00-vmbus-2dd1ce17079e403cb352a1921ee207e-lun-0', 'ID_PATH_TAG=acpi-ACPI0004_00-vmbus-2dd1ce17079e403cb352a1921ee207e-lun-0']),
    ('unit 65,536', sas(END, WIDE, place='7:0:1:65536'),
     ['done', 'ID_PATH=pci-0000:01:00.0-sas-0x5000c500a1b2c3d4-lun-0x0000000100000000', 'ID_PATH_TAG=pci-0000_01_00_0-sas-0x5000c500a1b2c3d4-lun-0x0000000100000000']),
    ('a port of ATA below USB: the compatible path has no port of USB',
     event(disk(f'{FACE}/ata1', 'sdb', '8:16', '6:0:0:0'), unit(f'{FACE}/ata1'), device(f'{FACE}/ata1', None, 'A: ata_port/ata1/port_no=1'), face(), stick(), hub()),
     ['done', 'ID_PATH_WITH_USB_REVISION=pci-0000:00:14.0-usbv2-0:2:1.0-ata-1.0', 'ID_PATH=pci-0000:00:14.0-usb-0:2:1.0-ata-1.0', 'ID_PATH_TAG=pci-0000_00_14_0-usb-0_2_1_0-ata-1_0', 'ID_PATH_ATA_COMPAT=pci-0000:00:14.0-ata-1']),
    ('a port of ATA below NVMe', event(disk('/devices/x/nvme0/ata1'), unit('/devices/x/nvme0/ata1'), device('/devices/x/nvme0/ata1', None, 'A: ata_port/ata1/port_no=1'),
                                       device('/devices/x/nvme0', 'nvme')).replace('E: DEVTYPE=disk', 'A: nsid=4\nE: DEVTYPE=disk'),
     ['done', 'ID_PATH=nvme-4-ata-1.0', 'ID_PATH_TAG=nvme-4-ata-1_0', 'ID_PATH_ATA_COMPAT=nvme-4-ata-1']),
    # devices that the path shows and the block does not have
    ('no function of PCI in the block', without(NVME_DISK, NVME_CARD),
     ['done', 'ID_PATH=pci-0000:00:1d.0-nvme-1', 'ID_PATH_TAG=pci-0000_00_1d_0-nvme-1', 'note builtin needs: path_id: 0000:04:00.0']),
    ('a function of PCI without a subsystem', without_subsystem(NVME_DISK, NVME_CARD),
     ['done', 'ID_PATH=pci-0000:00:1d.0-nvme-1', 'ID_PATH_TAG=pci-0000_00_1d_0-nvme-1', 'note builtin needs: path_id: 0000:04:00.0']),
    ('no NVMe controller in the block', without(NVME_DISK, f'{NVME_CARD}/nvme/nvme0'),
     ['failed', 'note builtin needs: path_id: nvme0']),
    ('no function of PCI above a card', without(PCI_CARD, CARD),
     ['done', 'ID_PATH=pci-0000:00:1c.0', 'ID_PATH_TAG=pci-0000_00_1c_0', 'note builtin needs: path_id: 0000:03:00.0']),
    ('no root hub in the block', without(USB_DISK, HUB).replace('A: bcdDevice', 'A: bDeviceProtocol=00\nA: speed=12\nA: bcdDevice'),
     ['done', 'ID_PATH_WITH_USB_REVISION=pci-0000:00:14.0-usbv1-0:2:1.0-scsi-0:0:0:0', 'ID_PATH=pci-0000:00:14.0-usb-0:2:1.0-scsi-0:0:0:0', 'ID_PATH_TAG=pci-0000_00_14_0-usb-0_2_1_0-scsi-0_0_0_0', 'note builtin needs: path_id: usb1']),
    ('no SCSI device in the block', without(USB_DISK, f'{FACE}/host6/target6:0:0/6:0:0:0'),
     ['done', 'ID_PATH_WITH_USB_REVISION=pci-0000:00:14.0-usbv2-0:2:1.0', 'ID_PATH=pci-0000:00:14.0-usb-0:2:1.0', 'ID_PATH_TAG=pci-0000_00_14_0-usb-0_2_1_0', 'note builtin needs: path_id: 6:0:0:0']),
    ('no target in the block', without(USB_DISK, f'{FACE}/host6/target6:0:0'),
     ['done', 'ID_PATH_WITH_USB_REVISION=pci-0000:00:14.0-usbv2-0:2:1.0-scsi-0:0:0:0', 'ID_PATH=pci-0000:00:14.0-usb-0:2:1.0-scsi-0:0:0:0', 'ID_PATH_TAG=pci-0000_00_14_0-usb-0_2_1_0-scsi-0_0_0_0', 'note builtin needs: path_id: target6:0:0']),
    ('no host in the block', without(USB_DISK, f'{FACE}/host6'),
     ['failed', 'note builtin needs: path_id: host6']),
    ('a host without a subsystem', without_subsystem(USB_DISK, f'{FACE}/host6'),
     ['failed', 'note builtin needs: path_id: host6']),
    ('no interface in the block', without(SERIAL_ADAPTER, FACE),
     ['done', 'ID_PATH_WITH_USB_REVISION=pci-0000:00:14.0-usbv2-0:2', 'ID_PATH=pci-0000:00:14.0-usb-0:2', 'ID_PATH_TAG=pci-0000_00_14_0-usb-0_2', 'note builtin needs: path_id: 1-2:1.0']),
    ('no port of a mouse in the block', without(TOUCHPAD, '/devices/platform/i8042/serio1'),
     ['done', 'ID_PATH=platform-i8042', 'ID_PATH_TAG=platform-i8042', 'note builtin needs: path_id: serio1']),
    ('no device of virtio in the block', event(device(f'{VIRTIO}/block/vda', 'block'), device(f'{ROOT}/0000:00:03.0', 'pci'), DOMAIN),
     ['failed', 'note builtin needs: path_id: virtio1']),
    ('path_id does not look at input devices', without(TOUCHPAD, '/devices/platform/i8042/serio1/input/input12'),
     ['done', 'ID_PATH=platform-i8042-serio-1', 'ID_PATH_TAG=platform-i8042-serio-1']),
    ('no NVMe subsystem in the block', without(several_ways(), MULTI),
     ['failed', 'note builtin needs: path_id: nvme-subsys0']),
    ('the way to an NVMe disk with several paths lacks a function of PCI', several_ways().replace(f'K: {NVME_CARD}/subsystem=pci\n', ''),
     ['done', 'ID_PATH=pci-0000:00:1d.0-nvme-1', 'ID_PATH_TAG=pci-0000_00_1d_0-nvme-1', 'note builtin needs: path_id: 0000:04:00.0']),
]

ROWS = answered_by("path_id", CASES)
