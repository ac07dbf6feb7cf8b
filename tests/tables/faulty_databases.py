"""Thirty-three faulty database files, each with one mistake that authors make, and what `update --lint` tells of it.

What is wanted was written by hand. Two of them pass: a key's name that the kernel does not have, since such names go on
growing, and an escape in a value, which is a text like any other.
"""
from tables.kinds.row import Begins, Row

MISTAKES = {
    "property above its match": (" ID_VENDOR=Linux\nusb:v1D6B*\n ID_PDA=1\n", "1: H1 property without a match: ID_VENDOR=Linux"),
    "property without its space": ("usb:v1D6B*\nID_VENDOR=Linux\n", "1: H2 match without a property: usb:v1D6B*", "2: D4 unknown prefix: ID_VENDOR=Linux"),
    "no empty line between records": ("usb:v1D6B*\n ID_PDA=1\nusb:v1D6C*\n ID_PDA=1\n", "3: H3 unindented line after properties: usb:v1D6C*"),
    "no equals sign": ("usb:v1D6B*\n ID_VENDOR Linux\n", "2: H4 no =: ID_VENDOR Linux"),
    "no key": ("usb:v1D6B*\n =Linux\n", "2: H5 empty key: =Linux"),
    "class of the C library": ("usb:v1D6B[[:digit:]]*\n ID_PDA=1\n", "1: H6 pattern not supported: usb:v1D6B[[:digit:]]*"),
    "small digits of USB": ("usb:v1d6bp0002*\n ID_PDA=1\n", "1: D1 case of a digit that no modalias has: usb:v1d6bp0002*"),
    "small digits of PCI": ("pci:v00008086d0000a0f0*\n ID_AUTOSUSPEND=1\n", "1: D1 case of a digit that no modalias has: pci:v00008086d0000a0f0*"),
    "small digits of Bluetooth": ("bluetooth:v000ap00b1*\n ID_PRODUCT=x\n", "1: D1 case of a digit that no modalias has: bluetooth:v000ap00b1*"),
    "small digits of an OUI": ("OUI:00000a*\n ID_OUI_FROM_DATABASE=x\n", "1: D1 case of a digit that no modalias has: OUI:00000a*"),
    "capitals of a mouse": ("mouse:usb:v046DpC53F:name:*:*\n MOUSE_DPI=800\n", "1: D1 case of a digit that no modalias has: mouse:usb:v046DpC53F:name:*:*"),
    "no star at the end": ("usb:v1D6Bp0002\n ID_PDA=1\n", "1: D3 end of a match is missing: usb:v1D6Bp0002"),
    "no colon at the end": ("evdev:atkbd:dmi:bvn*:svnAcer\n KEYBOARD_KEY_86=wlan\n", "1: D3 end of a match is missing: evdev:atkbd:dmi:bvn*:svnAcer"),
    "no leading zeros": ("pci:v8086d1234*\n ID_AUTOSUSPEND=1\n", "1: D2 match that no modalias fits: pci:v8086d1234*"),
    "misspelt second word": ("evdev:nam:Apple*:\n EVDEV_ABS_00=::40\n", "1: D2 match that no modalias fits: evdev:nam:Apple*:"),
    "unknown prefix": ("foo:v1D6B*\n ID_PDA=1\n", "1: D4 unknown prefix: foo:v1D6B*"),
    "match twice in a record": ("usb:v1D6B*\nusb:v1D6B*\n ID_PDA=1\n", "2: D5 match given twice: usb:v1D6B*"),
    "match in a later record": ("usb:v1D6B*\n ID_PDA=1\n\nusb:v1D6B*\n ID_PDA=0\n", "4: D5 match given twice: usb:v1D6B*"),
    "property twice": ("usb:v1D6B*\n ID_PDA=1\n ID_PDA=0\n", "3: D6 property given twice: ID_PDA"),
    "blanks around the equals sign": ("usb:v1D6B*\n ID_X = 1\n", "2: D7 blank beside the =: ID_X = 1"),
    "key in small letters": ("usb:v1D6B*\n id_vendor=Linux\n", "2: D8 key that no program asks for: id_vendor"),
    "key with a blank": ("usb:v1D6B*\n ID VENDOR=Linux\n", "2: D8 key that no program asks for: ID VENDOR"),
    "scan code in capitals": ("evdev:input:b0003v05ACp0221*\n KEYBOARD_KEY_C101=up\n", "2: D8 key that no program asks for: KEYBOARD_KEY_C101"),
    "blank at the end of a match": ("usb:v1D6B* \n ID_PDA=1\n", "1: D9 blank at the end of a match: usb:v1D6B*"),
    "byte order mark": (b"\xef\xbb\xbfusb:v1D6B*\n ID_PDA=1\n", "1: D10 byte order mark: usb:v1D6B*"),
    "number sign in a value": ("usb:v1D6B*\n ID_MODEL=a#b\n", "2: D11 comment within a word: #b"),
    "set without its end": ("usb:v1D6Bp000[2*\n ID_PDA=1\n", "1: D12 set without ]: [2*"),
    "resolution of letters": ("mouse:usb:v046dpc53f:name:*:*\n MOUSE_DPI=abc@x\n", "2: D13 value that the property does not take: MOUSE_DPI=abc@x"),
    "key's name in capitals": ("evdev:input:b0003v05ACp0221*\n KEYBOARD_KEY_c101=UP\n", "2: D13 value that the property does not take: KEYBOARD_KEY_c101=UP"),
    "range of letters": ("evdev:input:b0003v05ACp0221*\n EVDEV_ABS_00=min:max\n", "2: D13 value that the property does not take: EVDEV_ABS_00=min:max"),
    "matrix of two rows": ("sensor:modalias:acpi:A*:*\n ACCEL_MOUNT_MATRIX=1,0,0;0,1,0\n",
                           "2: D13 value that the property does not take: ACCEL_MOUNT_MATRIX=1,0,0;0,1,0"),
    "unknown name of a key": ("evdev:input:b0003v05ACp0221*\n KEYBOARD_KEY_c101=volumeupp\n",),
    "escape in a value": ("usb:v1D6B*\n ID_MODEL=a\\x20b\n",),
}

ROWS = [
    Row(name, "update --strict --lint l.hwdb", {"l.hwdb": text}, output=Begins(b""), messages="".join(f"l.hwdb:{message}\n" for message in messages),
        status=1 if messages else 0)
    for name, (text, *messages) in MISTAKES.items()
]
