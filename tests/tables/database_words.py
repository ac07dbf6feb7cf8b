"""`update --lint`: each word that begins matches, each form of them, and each property whose values are known.

The lists are not those of the program: they were taken on 30 November 2026 from where each says. `257` is the source of systemd
257.13-1~deb13u1 (Debian trixie), `Linux` that of Linux 6.1.176 (Debian bookworm).
"""
from tables.kinds.linted_database import linted, matches

# What comes before the first `:`.
FIRST_WORDS = {
    # in hwdb.d/*.hwdb of 257
    "files of hwdb.d": "OUI acpi bluetooth camera dmi evdev fb id-input ieee1394 joystick mouse pci sdio sensor touchpad usb vmbus",
    # TYPES and GENERAL_MATCHES in hwdb.d/parse_hwdb.py of 257, but for ieee1394-unit-function, which no rule looks up
    "the check of those files": "mouse evdev fb id-input touchpad joystick keyboard sensor camera acpi bluetooth dmi ieee1394 OUI pci sdio tpm2 usb vmbus",
    # what IMPORT{builtin}="hwdb .." names in 75-net-description.rules of 257, 60-upower-battery.rules of upower 1.90.9,
    # 61-gmobile.rules of gmobile 0.3.1 and 65-libwacom.rules of libwacom 2.14.0 (Debian trixie)
    "rules": "net battery gmobile libwacom",
    # the same of 90-iocost.rules of 257
    "rules of disks": "block",
    # scripts/mod/file2alias.c of Linux, and the prefixes that include/linux/mod_devicetable.h has for it
    "aliases of drivers": "hid ieee1394 pci ccw ap css serio acpi pcmcia vio input eisa sdio ssb bcma virtio vmbus rpmsg i2c i3c spi dmi platform mdio "
                          "isapnp pnp ipack amba cpu mei rapidio ulpi hdaudio sdw fsl-mc tbsvc typec tee wmi mhi mhi_ep auxiliary ssam dfl ishtp usb of "
                          "slim spmi pci_epf",
    # MODALIAS= in drivers/hsi/hsi_core.c, drivers/mcb/mcb-core.c, drivers/mmc/core/bus.c, include/linux/nd.h,
    # include/scsi/scsi_device.h and drivers/xen/xenbus/xenbus_probe_frontend.c of Linux
    "modaliases of devices": "hsi mcb mmc nd scsi xen",
    # MODALIAS= or a file `modalias` of the buses of these names in Linux; vchiq is of Linux 6.12
    "modaliases of other buses": "apr arm_ffa cxl dax gio mipi-dsi mipscdmm parisc ps3 scm vchiq xen-backend zorro",
    # scripts/mod/modpost of Linux 6.12.107 (Debian trixie)
    "newer aliases of drivers": "cdx coreboot",
    # the names of `struct bus_type` and of classes of Linux, of which no modalias was found there
    "buses and classes": "dio gameport greybus iio memstick parport scmi_protocol tc vdpa backlight drm hidraw leds nvme power_supply rfkill sound",
    # known to the program, and not found in any of the sources above
    "other systems": "libinput pointingstick umc",
}

# Modaliases as the kernel or a rule writes them, each a prefix and what follows it. All digits are letters here, in capitals where
# they are written with %X and small where they are written with %x; small letters among capitals are no digits.
FORMS = [
    # drivers/usb/core/message.c of Linux: usb:v%04Xp%04Xd%04Xdc%02Xdsc%02Xdp%02Xic%02Xisc%02Xip%02Xin%02X
    ("usb:", "vABCDpEFABdCDEFdcABdscCDdpEFicABiscCDipEFinAB"),
    # drivers/pci/pci-driver.c: pci:v%08Xd%08Xsv%08Xsd%08Xbc%02Xsc%02Xi%02X
    ("pci:", "vABCDEFABdCDEFABCDsvEFABCDEFsdABCDEFABbcCDscEFiAB"),
    # src/udev/udev-builtin-net_id.c of 257: OUI: and six bytes, each %02X
    ("OUI:", "ABCDEFABCDEF"),
    # 20-bluetooth-vendor-product.hwdb of 257, and the check of hwdb.d, which stops before the device
    ("bluetooth:", "vABCDpEFABdCDEF"),
    # drivers/mmc/core/sdio_bus.c of Linux: sdio:c%02Xv%04Xd%04X
    ("sdio:", "cABvCDEFdABCD"),
    # drivers/hv/vmbus_drv.c: vmbus:%*phN, the 16 bytes of a GUID
    ("vmbus:", "abcdefabcdefabcdefabcdefabcdefab"),
    # drivers/input/input.c: input:b%04Xv%04Xp%04Xe%04X-; 60-evdev.rules and 60-input-id.rules of 257 put the prefixes before it
    ("evdev:", "input:bABCDvEFABpCDEFeABCD"),
    ("id-input:", "modalias:input:bABCDvEFABpCDEFeABCD"),
]

# The same of 60-input-id.rules, 70-mouse.rules, 70-touchpad.rules, 70-joystick.rules and 70-camera.rules of 257:
# KIND:BUS:v$attr{id/vendor}p$attr{id/product}:name:$attr{name}:, the numbers as %04x of drivers/input/input.c of Linux.
NAMED = "id-input:usb: id-input:bluetooth: id-input:i2c: mouse:usb: mouse:bluetooth: touchpad:usb: joystick:usb: camera:usb:"

# Others that end in `:`: of drivers/acpi/device_sysfs.c and drivers/firmware/dmi-id.c of Linux, and of 60-evdev.rules,
# 70-mouse.rules, 70-touchpad.rules, 70-joystick.rules and 60-sensor.rules of 257.
ENDED = [
    "acpi:LNXPWRBN:",
    "dmi:bvnDell:bvr1.2:bd01/02/2020:svnDell:pnA:",
    "evdev:name:Power Button:dmi:bvnDell:",
    "evdev:atkbd:dmi:bvnDell:",
    "mouse:ps2::name:ImPS/2 Mouse:",
    "touchpad:i8042:v0002p0007:name:A:",
    "joystick:bluetooth:v045ep02e0:name:A:",
    "sensor:modalias:acpi:BOSC0200:dmi:bvnDell:",
]

# Properties by the values that property_grammar in hwdb.d/parse_hwdb.py of 257 has for them: zero_one, then `1` alone, then `0`
# alone, for which the program takes both.
FLAGS = ("ID_INPUT_3D_MOUSE ID_AUTOSUSPEND ID_AV_PRODUCTION_CONTROLLER ID_AV_LIGHTS ID_PERSIST ID_PDA ID_SIGNAL_ANALYZER ID_MAKER_TOOL ID_HARDWARE_WALLET "
         "ID_SOFTWARE_RADIO ID_MM_DEVICE_IGNORE IEEE1394_UNIT_FUNCTION_MIDI IEEE1394_UNIT_FUNCTION_AUDIO IEEE1394_UNIT_FUNCTION_VIDEO ID_INFRARED_CAMERA "
         "ID_SYS_VENDOR_IS_RUBBISH ID_PRODUCT_NAME_IS_RUBBISH ID_PRODUCT_VERSION_IS_RUBBISH ID_BOARD_VERSION_IS_RUBBISH ID_PRODUCT_SKU_IS_RUBBISH "
         "ID_CHASSIS_ASSET_TAG_IS_RUBBISH ID_NET_NAME_INCLUDE_DOMAIN "
         "ID_TAG_MASTER_OF_SEAT "
         "KEYBOARD_LED_NUMLOCK KEYBOARD_LED_CAPSLOCK ID_NET_AUTO_LINK_LOCAL_ONLY TPM2_BROKEN_NVPCR").split()

# known to the program, and neither found in 257 nor in ModemManager 1.24.0 (Debian trixie)
OLDER_FLAGS = ["ID_MM_DEVICE_MANUAL_SCAN_ONLY"]

# id_input_setting
INPUT_FLAGS = ("ID_INPUT ID_INPUT_ACCELEROMETER ID_INPUT_JOYSTICK ID_INPUT_KEY ID_INPUT_KEYBOARD ID_INPUT_MOUSE ID_INPUT_POINTINGSTICK ID_INPUT_SWITCH "
               "ID_INPUT_TABLET ID_INPUT_TABLET_PAD ID_INPUT_TOUCHPAD ID_INPUT_TOUCHSCREEN ID_INPUT_TRACKBALL").split()

# INTEGER
NUMBERS = ("MOUSE_WHEEL_CLICK_ANGLE MOUSE_WHEEL_CLICK_ANGLE_HORIZONTAL MOUSE_WHEEL_CLICK_COUNT MOUSE_WHEEL_CLICK_COUNT_HORIZONTAL ID_AUTOSUSPEND_DELAY_MS "
           "POINTINGSTICK_SENSITIVITY PROXIMITY_NEAR_LEVEL").split()

# xkb_setting
LAYOUTS = "XKB_FIXED_LAYOUT XKB_FIXED_VARIANT XKB_FIXED_MODEL".split()

# Or((..)); `controller` of SOUND_FORM_FACTOR and ID_INTEGRATION are of systemd 262-1 (Debian forky), which has the latter in place of ID_INPUT_JOYSTICK_INTEGRATION
CHOICES = {
    "ID_INPUT_JOYSTICK_INTEGRATION": "internal external",
    "ID_INPUT_TOUCHPAD_INTEGRATION": "internal external",
    "ID_INTEGRATION": "internal external",
    "ACCEL_LOCATION": "display base",
    "ID_CAMERA_DIRECTION": "front rear",
    "SOUND_FORM_FACTOR": "internal webcam speaker headphone headset handset microphone controller",
}


def first_word_rows(origin, words):
    """Words that are known, before a `:` and alone, and the same without their last letter, which are not, but for `ap` of `apr`."""
    known = {word for words in FIRST_WORDS.values() for word in words.split()}
    yield matches(f"first words of {origin}", 0, *(f"{word}:*" for word in words), *words)
    yield matches(f"the same without their last letter: {origin}", 4, *(f"{word[:-1]}:*" for word in words if word[:-1] not in known))


def changed(text, is_changed, change):
    """A text with one byte changed, for each byte of which this is asked."""
    return [text[:at] + change(byte) + text[at + 1:] for at, byte in enumerate(text) if is_changed(byte)]


def form_rows(prefix, form, digits, rest=""):
    """The modaliases of a form, whose letters among these are digits: whole, with a digit in the other case, with another letter in
    place of one that is no digit, and cut short. What follows a form is `rest`."""
    letters = changed(form, lambda byte: byte not in digits, lambda byte: "z")
    yield matches(f"modaliases of {prefix}", 0, prefix + form + rest, f"{prefix}{form[:-1]}*{rest}")
    yield matches(f"{prefix} with a digit in the other case", 1, *(prefix + text + rest for text in changed(form, lambda byte: byte in digits, str.swapcase)))
    if letters:
        yield matches(f"{prefix} with another letter", 2, *(prefix + text + rest for text in letters))
    yield matches(f"{prefix} cut short", 3, *(prefix + form[:length] for length in range(1, len(form))))


def ended_row(modalias):
    """A modalias that ends in `:`, and without that end."""
    return linted(f"the end of {modalias}", f"{modalias}\n{modalias}*\n A=1\n\n{modalias[:-1]}\n A=1\n", (5, 3, modalias[:-1]))


def property_row(name, good, bad):
    """A property with values that it takes and others; of a property that is written almost like it nothing is known."""
    texts = [f"{name}={value}" for value in good] + [f"{name[:-1]}={value}" for value in bad] + [f"{name}={value}" for value in bad]
    lints = [(3 * at + 2, 13, text) for at, text in enumerate(texts) if at >= len(good) + len(bad)]
    return linted(f"values of {name}", "".join(f"usb:v*{at}\n {text}\n\n" for at, text in enumerate(texts)), *lints)


def choice_row(name, words):
    """A property with each of its words; and with these without their last letter, in capitals, and with none."""
    return property_row(name, words, [*(word[:-1] for word in words), *(word.capitalize() for word in words), ""])


ROWS = [
    *(row for origin, words in FIRST_WORDS.items() for row in first_word_rows(origin, words.split())),
    *(row for prefix, form in FORMS for row in form_rows(prefix, form, "abcdef" if form.islower() else "ABCDEF")),
    *(row for prefix in NAMED.split() for row in form_rows(prefix, "vabcdpefab", "abcdef", ":name:A:")),
    *(ended_row(f"{prefix}vabcdpefab:name:A:") for prefix in NAMED.split()),
    *(ended_row(modalias) for modalias in ENDED),
    # (the rules of 257 put nothing but `input:`, `name:` and `atkbd:` behind `evdev:`)
    matches("other words behind evdev:", 2, "evdev:nam:a:", "evdev:names:a:", "evdev:atkb:a:", "evdev:atkbds:a:"),
    *(property_row(name, ["0", "1"], ["", "2", "yes", "01"]) for name in FLAGS + OLDER_FLAGS),
    *(property_row(name, ["0", "1", ""], ["2", "yes", "01"]) for name in INPUT_FLAGS),
    *(property_row(name, ["0", "15"], ["", "15.5", "0x1f", "fast"]) for name in NUMBERS),
    *(property_row(name, ["us", "chromebook_m_ralt", "us+dvorak-intl/1.0@2", ""], ["us de", "us*"]) for name in LAYOUTS),
    *(choice_row(name, words.split()) for name, words in CHOICES.items()),
]
