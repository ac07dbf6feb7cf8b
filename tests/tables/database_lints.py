"""`update --lint`: lines of database files that are read, and most likely not as they were meant; each lint alone.

What is wanted was written by hand, from the tables of docs/behaviour.md. tables/faulty_databases.py has whole files.
"""
from tables.kinds.linted_database import EVERY, TEXTS, linted, matches, properties, said
from tables.kinds.row import Row


def keys(name, *texts):
    """Keys of which each is no name."""
    return linted(name, "".join(f"usb:v*{at}\n {text}=1\n\n" for at, text in enumerate(texts)), *((3 * at + 2, 8, text) for at, text in enumerate(texts)))


MATCHES = [
    matches("D1, small digits", 1, "usb:v1d6B*", "usb:v1D6Bp000a*", "usb:v1d6b", "pci:v00008086d0000abcd*", "bluetooth:v000a*", "OUI:00000a*",
            "sdio:c0av*", "evdev:input:b0003v046dp*", "id-input:modalias:input:b0003v0a*", "usb:v????pa*"),
    matches("D1, capitals", 1, "mouse:usb:v046Dp*:", "mouse:bluetooth:v046DpB*", "touchpad:usb:v046D*", "joystick:usb:vA*", "camera:usb:v04F2p*:",
            "id-input:usb:v28DEp*:", "id-input:bluetooth:v045epB*", "id-input:i2c:vA*", "vmbus:02780ADA*"),
    matches("no D1", 0, "usb:v1D6B*", "usb:v*p000a*", "usb:v[0-9a-f]*", "mouse:usb:v046d*", "mouse:ps2:*:name:ABC:", "vmbus:02780ada*",
            "evdev:name:abc:*", "acpi:abc*:", "usb:v1D6Bp0002:a hub*", "id-input:usb:v28dep1142:name:A B:", "id-input:i2c:*:name:*Mouse:"),
    matches("D2", 2, "usb:v1D6p0002*", "usb:1D6B*", "usb:V1D6B*", "usb:v0x1D6B*", "usb:v1D6Bd0100*", "usb:v1D6B:p0002*".replace(":p", "-p"),
            "pci:v8086d1234*", "pci:v00008086p*", "bluetooth:v1p*", "evdev:nam:a:", "id-input:usb:p1142*", "evdev:inputb0003*", "id-input:modalius:*", "OUI:00-00*"),
    matches("no D2", 0, "usb:*", "usb:v*", "usb:v1D6Bp0002d0100dc09dsc00dp01ic09isc00ip00in00", "usb:v1D6Bp0002d0100dc09dsc00dp01ic09isc00ip00in00x",
            "evdev:*", "evdev:i?put:*", "usb:v1D6B:a*", "pci:v00008086d*sv*", "mouse:usb::name:a:", "usb:v1D6Bp0002?p*", "usb:?*", "evdev:input:b0003v046DpC52Be0111-e0*"),
    matches("D3", 3, "usb:v1D6B", "usb:v1D6Bp", "usb:", "OUI:000000", "pci:v00008086", "evdev:input:b0003", "acpi:PNP0303", "dmi:bvnA", "evdev:name:a",
            "evdev:atkbd:dmi:bvn*:svnAcer", "mouse:usb:v046dp0001:name:a", "sensor:modalias:acpi:A", "touchpad:i8042", "id-input:bluetooth:v045ep0b13:name:a", "vmbus:02780ada"),
    matches("no D3", 0, "acpi:PNP0303:", "dmi:a?", "evdev:name:a[bc]", "vmbus:02780ada77e3ac4a8e770558eb1073f8", "OUI:0000000000AB",
            "ieee1394:node:ven0x1", "input:a", "usb:v1D6Bp0002:Hub"),
    matches("D4", 4, "foo:bar*", "ubs:v1*", "USB:v1*", "a", "evdevs:*"),
    matches("no D4", 0, "*", "us?:*", "[u]sb:*", "hid:b0003*", "of:N*", "net:naming:drv*", "fb:vmbus:0", "cpu:type:x86", "battery:BAT0:*:dmi:*", "gmobile:name:a:dt:b*", "x\\:a"),
    linted("D5 in a record", "usb:v*\nusb:v1*\nusb:v*\n A=1\n", (3, 5, "usb:v*")),
    linted("D5 in another", "usb:v*\n A=1\n\n# a\n\nusb:v*  # b\n B=1\n\nusb:v*\n C=1\n", (6, 5, "usb:v*"), (9, 5, "usb:v*")),
    linted("no D5", "usb:v*\n A=1\n\nusb:v**\n A=1\n\n#usb:v*\n\n usb:v*=1\n", words="update --lint --ignore H1,D8 l.hwdb"),
    linted("D9", "usb:v* \n A=1\n\nusb:v1*\t\t\n A=1\n\nusb:v2* # a\n A=1\n\nusb:v3*\r\n A=1\n", (1, 9, "usb:v*"), (4, 9, "usb:v1*")),
    linted("D10", b"\xef\xbb\xbfusb:v1d6b\n A=1\n", (1, 10, "usb:v1d6b")),
    linted("D10 before a comment", b"\xef\xbb\xbf# a\nusb:v*\n A=1\n", (1, 10, "")),
    linted("D11", "usb:v1*#a\n A=b#c\n B=#\n C=d # e\n #A=1\n D=\t# e\n\n#usb#\n", (1, 11, "#a"), (2, 11, "#c"), (3, 11, "#"), words="update --lint --ignore H1 l.hwdb"),
    matches("no D12", 0, "usb:v[12]*", "usb:v[[]*", "usb:v*]", "usb:v[]12]*", "hid:]*"),
    linted("D12", "usb:v[1*\n A=1\n\nusb:v[12]*[3*\n A=1\n\nusb:v*[[4\n A=1\n", (1, 12, "[1*"), (4, 12, "[3*"), (7, 12, "[[4")),
    linted("a match with several", "foo:a[ \nfoo:a[#b\n A=1\n", (1, 4, "foo:a["), (1, 9, "foo:a["), (1, 12, "["), (2, 4, "foo:a["), (2, 5, "foo:a["), (2, 11, "#b"),
           (2, 12, "[")),
]

PROPERTIES = [
    linted("D6", "usb:v*\n A=1\n A=1\n B=1\n A=2\n", (3, 6, "A"), (5, 6, "A")),
    linted("no D6", "usb:v*\n A=1\n\nusb:v1*\n A=1\n AB=1\n", words="update --lint l.hwdb"),
    properties("D7", 7, "A =1", "A= 1", "A = 1", "A\t=1", "A=\t1", "ID_PDA= 1", "ID_PDA =1"),
    properties("no D7", 0, "A=1 2", "A=", "A=1=2"),
    keys("D8", "a", "Ab", "1A", "_A", "A-B", "A.B", "A B", "\u00c4", "KEYBOARD_KEY_", "KEYBOARD_KEY_C1", "KEYBOARD_KEY_0x1", "EVDEV_ABS_", "EVDEV_ABS_0", "EVDEV_ABS_000",
         "EVDEV_ABS_0A", "libsane_matched_a", "libsane"),
    properties("no D8", 0, "A=1", "A_1=1", "KEYBOARD_KEY_c1=a", "KEYBOARD_KEY_700e2=a", "EVDEV_ABS_0a=1", "KEYBOARD_LED_CAPSLOCK=0", "EVDEV_ABSX=a", "libsane_matched=yes"),
    properties("D13 of flags", 13, "ID_AUTOSUSPEND=yes", "ID_PERSIST=", "ID_PDA=2", "ID_INPUT_MOUSE=true", "ID_INPUT=01", "KEYBOARD_LED_NUMLOCK=off"),
    properties("no D13 of flags", 0, "ID_AUTOSUSPEND=0", "ID_INPUT_MOUSE=", "ID_INPUT_3D_MOUSE=1", "ID_INPUT_WIDTH_MM=x"),
    properties("D13 of numbers", 13, "MOUSE_WHEEL_CLICK_ANGLE=15.5", "MOUSE_WHEEL_CLICK_COUNT=", "POINTINGSTICK_SENSITIVITY=0x80", "PROXIMITY_NEAR_LEVEL=-"),
    properties("no D13 of numbers", 0, "MOUSE_WHEEL_CLICK_ANGLE=15", "ID_AUTOSUSPEND_DELAY_MS=-1"),
    properties("D13 of words", 13, "ACCEL_LOCATION=lid", "ID_CAMERA_DIRECTION=back", "ID_INTEGRATION=Internal", "SOUND_FORM_FACTOR="),
    properties("no D13 of words", 0, "ACCEL_LOCATION=base", "ID_INPUT_TOUCHPAD_INTEGRATION=external", "SOUND_FORM_FACTOR=webcam"),
    properties("D13 of resolutions", 13, "MOUSE_DPI=", "MOUSE_DPI=800dpi", "MOUSE_DPI=abc@x", "MOUSE_DPI=*400 *800", "MOUSE_DPI=400,800"),
    properties("no D13 of resolutions", 0, "MOUSE_DPI=800", "MOUSE_DPI=400@125 *800@125 1600@125"),
    properties("D13 of a matrix", 13, "ACCEL_MOUNT_MATRIX=", "ACCEL_MOUNT_MATRIX=1, 0, 0", "ACCEL_MOUNT_MATRIX=1,0,0;0,1,0;0,0,z"),
    properties("no D13 of a matrix", 0, "ACCEL_MOUNT_MATRIX=1, 0, 0; 0, -1, 0; 0, 0, +1.5"),
    properties("D13 of keys", 13, "KEYBOARD_KEY_c1=", "KEYBOARD_KEY_c1=F1", "KEYBOARD_KEY_c1=vol up", "KEYBOARD_KEY_c1=!!a", "KEYBOARD_KEY_c1=a-b"),
    properties("no D13 of keys", 0, "KEYBOARD_KEY_c1=f1", "KEYBOARD_KEY_c2=!f1", "KEYBOARD_KEY_c3=!", "KEYBOARD_KEY_c4=btn_left", "KEYBOARD_KEY_c5=0x1ff"),
    properties("D13 of an axis", 13, "EVDEV_ABS_00=max", "EVDEV_ABS_00=0,1", "EVDEV_ABS_00=1:2:3:4:5:6"),
    properties("no D13 of an axis", 0, "EVDEV_ABS_00=::40", "EVDEV_ABS_00=-1:2:3:4:5", "EVDEV_ABS_00="),
    properties("D13 of a layout", 13, "XKB_FIXED_LAYOUT=us de", "XKB_FIXED_VARIANT=a*"),
    properties("no D13 of others", 0, "XKB_FIXED_LAYOUT=us,de", "XKB_FIXED_VARIANT=", "ID_MODEL_FROM_DATABASE=a\\b c", "GPHOTO2_DRIVER=PTP"),
    linted("a property with several", "usb:v*\n A=1\n id = 1\n id = 2#3\n", (3, 7, "id = 1"), (3, 8, "id "), (4, 6, "id "), (4, 7, "id = 2"), (4, 8, "id "), (4, 11, "#3")),
    linted("none of a property with a fault", "usb:v*\n a b\n = 1\n A=1\n", words="update --lint --ignore H4,H5 l.hwdb"),
]

RUNS = [
    linted("not without --lint", "foo:*\n a=1\n", words="update l.hwdb"),
    linted("not with another format alone", "foo:*\n a=1\n", words="update --format json l.hwdb"),
    linted("--strict", "foo:*\n A=1\n", (1, 4, "foo:*"), words="update --strict --lint l.hwdb", status=1),
    linted("--strict without one", "usb:*\n A=1\n", words="update --strict --lint l.hwdb"),
    linted("--ignore", "foo:*\n a=1\n", (2, 8, "a"), words="update --strict --lint --ignore D4 l.hwdb", status=1),
    linted("--ignore of all", "foo:*\n a=1\n", words="update --strict --lint --ignore D4,D8 l.hwdb"),
    linted("comments", "# devdry: ignore D4\nfoo:*\n a=1\n", (3, 8, "a"), words="update --lint --ignore comments l.hwdb"),
    linted("a comment on the file", "# devdry: ignore-file D8\nfoo:*\n a=1\n", (2, 4, "foo:*"), words="update --lint --ignore comments l.hwdb"),
    linted("comments without --lint", "# devdry: ignore D4\nfoo:*\n A=1\n", words="update --ignore comments l.hwdb"),
    Row("a comment that silences none", "update --lint --ignore comments l.hwdb", {"l.hwdb": "# devdry: ignore D4\nusb:*\n A=1\n"}, output=EVERY,
        messages="l.hwdb:1: I1 nothing to ignore: D4\n"),
    Row("messages and lints of a line, and of a file", "update --lint l.hwdb", {"l.hwdb": " a=1\n\nfoo:*\n\nfoo:[[:alpha:]]\n B C\n"}, output=EVERY,
        messages="l.hwdb:1: H1 property without a match: a=1\n" + said(1, 8, "a") + "l.hwdb:3: H2 match without a property: foo:*\n" + said(3, 4, "foo:*")
        + "l.hwdb:5: H6 pattern not supported: foo:[[:alpha:]]\n" + said(5, 4, "foo:[[:alpha:]]") + "l.hwdb:6: H4 no =: B C\n"),
    Row("gcc", "update --lint --format gcc l.hwdb", {"l.hwdb": "usb:v1*\n  ID_PDA =x#y\n"}, output=EVERY,
        messages=f"l.hwdb:2:3: warning: {TEXTS[7]}: ID_PDA =x [D7]\nl.hwdb:2:12: warning: {TEXTS[11]}: #y [D11]\nl.hwdb:2:3: warning: {TEXTS[13]}: ID_PDA =x [D13]\n"),
    Row("human", "update --lint --format human l.hwdb", {"l.hwdb": "usb:v1d6b*\n A=1\n"}, output=EVERY,
        messages="l.hwdb:1:1: warning: case of a digit that no modalias has [D1]\n  usb:v1d6b*\n  ^~~~~~~~~~\n"
        "  = Write the digits in capitals for usb:, pci: and the kernel's other buses, and in small letters for mouse: and the like.\n"),
]

ROWS = MATCHES + PROPERTIES + RUNS
