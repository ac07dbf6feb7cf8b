"""Devices as event blocks, for the scripts beside this file: one that is made up, and some of a machine, by what they are."""

DISK = "/devices/pci0000:00/0000:00:14.0/usb1/1-1/1-1:1.0/host6/target6:0:0/6:0:0:0/block/sda"
BLOCK = "\n".join([
    "C: add", "P: /devices/pci0000:00/0000:00:14.0/usb1/1-1/block/sda", "U: block", "N: sda", "D: 8:0",
    *(f"E: K{n}=value" for n in range(20)), "P: /devices/pci0000:00/0000:00:14.0/usb1/1-1", "U: usb",
    "A: serial=7", ""])
USB = ["P: /devices/pci0000:00/0000:00:14.0/usb1/1-1", "U: usb", "V: usb", "E: DEVTYPE=usb_device",
       "E: MODALIAS=usb:v0781p5567d0126dc00dsc00dp00", "A: idVendor=0781", "A: idProduct=5567",
       "A: manufacturer=SanDisk", "A: product=Cruzer Blade", "A: serial=4C530001",
       "P: /devices/pci0000:00/0000:00:14.0/usb1", "U: usb", "V: usb", "E: DEVTYPE=usb_device",
       "P: /devices/pci0000:00/0000:00:14.0", "U: pci", "V: xhci_hcd", "A: vendor=0x8086", "A: class=0x0c0330",
       "E: MODALIAS=pci:v00008086d0000A12Fsv00001028sd000006DBbc0Csc03i30"]
REAL = {
    "a USB disk": [
        "C: add", f"P: {DISK}", "U: block", "N: sda", "D: 8:0", "E: DEVTYPE=disk", "E: DISKSEQ=9",
        "A: removable=1", "A: size=15633408", "A: ro=0", f"P: {DISK[:-10]}", "U: scsi", "V: sd",
        "A: vendor=SanDisk ", "A: model=Cruzer Blade    ", "A: type=0", "A: rev=1.26",
        f"P: {DISK[:-len('/6:0:0:0/block/sda')]}", "U: scsi",
        "P: /devices/pci0000:00/0000:00:14.0/usb1/1-1/1-1:1.0", "U: usb", "V: usb-storage",
        "E: DEVTYPE=usb_interface", "A: bInterfaceNumber=00", *USB],
    "a mouse": [
        "C: add", "P: /devices/pci0000:00/0000:00:14.0/usb1/1-1/1-1:1.0/0003:046D:C077.0001/input/input5/event5",
        "U: input", "N: input/event5", "D: 13:69", "P: /devices/pci0000:00/0000:00:14.0/usb1/1-1/1-1:1.0/0003:046D:C077.0001/input/input5",
        "U: input", "A: name=Logitech USB Optical Mouse", "A: phys=usb-0000:00:14.0-1/input0",
        "E: PRODUCT=3/46d/c077/111", 'E: NAME="Logitech USB Optical Mouse"',
        "P: /devices/pci0000:00/0000:00:14.0/usb1/1-1/1-1:1.0", "U: usb", "V: usbhid", *USB],
    "a network device": [
        "C: add", "P: /devices/pci0000:00/0000:00:1f.6/net/eth0", "U: net", "E: INTERFACE=eth0", "E: IFINDEX=2",
        "A: address=00:11:22:33:44:55", "A: type=1", "A: name_assign_type=4", "P: /devices/pci0000:00/0000:00:1f.6",
        "U: pci", "V: e1000e", "A: vendor=0x8086", "E: MODALIAS=pci:v00008086d000015B7"],
    "a serial line": [
        "C: add", "P: /devices/pci0000:00/0000:00:14.0/usb1/1-1/1-1:1.0/ttyUSB0/tty/ttyUSB0", "U: tty", "N: ttyUSB0",
        "D: 188:0", "P: /devices/pci0000:00/0000:00:14.0/usb1/1-1/1-1:1.0/ttyUSB0", "U: usb-serial", "V: ftdi_sio",
        "P: /devices/pci0000:00/0000:00:14.0/usb1/1-1/1-1:1.0", "U: usb", "V: ftdi_sio", *USB],
    "a USB device": ["C: add", USB[0], "N: bus/usb/001/002", "D: 189:1", *USB[1:]],
    "a mapped disk": [
        "C: change", "P: /devices/virtual/block/dm-0", "U: block", "N: dm-0", "D: 254:0", "E: DEVTYPE=disk",
        "E: DM_COOKIE=6345981", "A: dm/name=root", "A: dm/uuid=LVM-abc", "A: dm/suspended=0", "A: size=1000"],
    "a processor": ["C: add", "P: /devices/system/cpu/cpu0", "U: cpu", "V: processor", "E: MODALIAS=cpu:type:x86"],
}
