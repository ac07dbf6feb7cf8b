#!/usr/bin/env bash
# tools/devdry-capture --from, on what udevadm and umockdev-record print.
set -uo pipefail
# shellcheck source=lib.sh
. "$(dirname "$0")/lib.sh"
# shellcheck source=sys_tree.sh
. "$(dirname "$0")/sys_tree.sh"

same "from udevadm info --export-db" "C: add
P: $card
U: pci
V: e1000e
E: DEVPATH=$card
E: SUBSYSTEM=pci
E: DRIVER=e1000e
E: ID_VENDOR_FROM_DATABASE=Intel Corporation

C: add
P: $disk/block/sda
U: block
N: sda
D: 8:0
E: DEVPATH=$disk/block/sda
E: SUBSYSTEM=block
E: DEVNAME=/dev/sda
E: DEVTYPE=disk
E: MAJOR=8
E: MINOR=0
G: systemd
G: seat
S: disk/by-id/ata-Disk_7
S: disk/by-path/pci-0000:00:17.0-ata-1

C: add
P: $card/net/eth0
U: net
E: DEVPATH=$card/net/eth0
E: IFINDEX=2
E: INTERFACE=eth0
E: SUBSYSTEM=net
P: $card
U: pci
V: e1000e
E: DEVPATH=$card
E: SUBSYSTEM=pci
E: DRIVER=e1000e
E: ID_VENDOR_FROM_DATABASE=Intel Corporation" "$("$capture" --from "$work/db")"
same "from udevadm info --export-db, one device, through the standard input" "$("$capture" --from "$work/db" "$disk/block/sda")" \
    "$("$capture" --from - "/sys$disk/block/sda" < "$work/db")"
same "from udevadm info --export-db, one device by its node" "$("$capture" --from "$work/db" "$disk/block/sda")" \
    "$("$capture" --from "$work/db" /dev/sda)"
same "from udevadm info --export-db, a node without a record" "1
devdry-capture: /dev/null: no device of the record" "$(ends "$capture" --from "$work/db" /dev/null)"
same "the keys of one of its devices" "# $card/net/eth0
KERNEL==\"eth0\"
SUBSYSTEM==\"net\"

# $card
KERNELS==\"0000:00:03.0\"
SUBSYSTEMS==\"pci\"
DRIVERS==\"e1000e\"" "$("$capture" --walk --from "$work/db" $card/net/eth0)"
same "from udevadm info --export-db, a device without a record" "1
devdry-capture: /devices/none: no device of the record" \
    "$(said=$("$capture" --from "$work/db" /devices/none 2>&1); printf '%s\n%s' $? "$said")"

# What umockdev-record prints.
cat > "$work/mock" << END
P: $keyboard/1-1:1.0/input/input7/event3
N: input/event3
E: DEVNAME=/dev/input/event3
E: MAJOR=13
E: MINOR=67
E: SUBSYSTEM=input
A: dev=13:67\\n
L: device=../../input7

P: $keyboard
N: bus/usb/001/002=12010002
S: usb/keyboard
E: DEVNAME=/dev/bus/usb/001/002
E: SUBSYSTEM=usb
A: idVendor=046d\\n
A: product=f\\303\\274r \\"alle\\" \\\\ viele  \\n
A: uevents=one\\ntwo\\n
A: ifalias=
H: descriptors=1201
L: driver=../../../../bus/usb/drivers/usb
END
same "from umockdev-record" "C: add
P: $keyboard/1-1:1.0/input/input7/event3
U: input
N: input/event3
D: 13:67
A: dev=13:67
E: DEVNAME=/dev/input/event3
E: MAJOR=13
E: MINOR=67
E: SUBSYSTEM=input
P: $keyboard
U: usb
V: usb
N: bus/usb/001/002
A: idVendor=046d
A: product=für \"alle\" \\ viele  
A: ifalias=
A: driver=usb
E: DEVNAME=/dev/bus/usb/001/002
E: SUBSYSTEM=usb
S: usb/keyboard
K: $keyboard/descriptors=1201" "$("$capture" --from "$work/mock" $keyboard/1-1:1.0/input/input7/event3)"

same "the keys of one of its devices" "# $keyboard
KERNEL==\"1-1\"
SUBSYSTEM==\"usb\"
DRIVER==\"usb\"
ATTR{idVendor}==\"046d\"
ATTR{product}==\"für \\\"alle\\\" \\ viele  \"
ATTR{ifalias}==\"\"" "$("$capture" --walk --from "$work/mock" /dev/bus/usb/001/002)"

# Records with what udev has added: one of udevadm, which prints that last, and one of umockdev-record, which sorts all.
cat > "$work/added" << END
P: $card
U: pci
E: DEVPATH=$card
E: SUBSYSTEM=pci
E: USEC_INITIALIZED=7
E: ID_VENDOR_FROM_DATABASE=Intel Corporation
E: TAGS=:systemd:

P: $card/net/eth0
U: net
S: net/first
E: DEVPATH=$card/net/eth0
E: SUBSYSTEM=net
E: INTERFACE=eth0
E: IFINDEX=2
E: ID_EARLY=1
E: USEC_INITIALIZED=8
E: MINE=1
E: ID_NET_NAME=lan0
E: TAGS=:systemd:
E: CURRENT_TAGS=:systemd:

P: $keyboard
N: bus/usb/001/002
S: usb/keyboard
E: BUSNUM=001
E: DEVNAME=/dev/bus/usb/001/002
E: DRIVER=usb
E: HID_NAME=kept
E: ID_BUS=usb
E: ID=kept
E: LIBINPUT_DEVICE_GROUP=3
E: MODALIAS=usb:v046DpC31C
E: SUBSYSTEM=usb
E: SYSTEMD_WANTS=printer.target
E: TAGS=:seat:
E: UPOWER_VENDOR=Logitech
A: idVendor=046d\\n
END
same "--kernel of a record: without what udevadm prints last" "C: add
P: $card/net/eth0
U: net
E: DEVPATH=$card/net/eth0
E: SUBSYSTEM=net
E: INTERFACE=eth0
E: IFINDEX=2
P: $card
U: pci
E: DEVPATH=$card
E: SUBSYSTEM=pci
E: USEC_INITIALIZED=7
E: ID_VENDOR_FROM_DATABASE=Intel Corporation
G: systemd" "$("$capture" --kernel --from "$work/added" $card/net/eth0)"
same "--kernel of a record: without udev's names" "C: change
P: $keyboard
U: usb
V: usb
N: bus/usb/001/002
A: idVendor=046d
E: BUSNUM=001
E: DEVNAME=/dev/bus/usb/001/002
E: DRIVER=usb
E: HID_NAME=kept
E: ID=kept
E: MODALIAS=usb:v046DpC31C
E: SUBSYSTEM=usb" "$("$capture" --action change --kernel --from "$work/added" $keyboard)"
same "without --kernel everything is kept" "C: add
P: $card/net/eth0
U: net
E: DEVPATH=$card/net/eth0
E: SUBSYSTEM=net
E: INTERFACE=eth0
E: IFINDEX=2
E: ID_EARLY=1
E: USEC_INITIALIZED=8
E: MINE=1
E: ID_NET_NAME=lan0
G: systemd
S: net/first
P: $card" "$("$capture" --from "$work/added" $card/net/eth0 | head -n 14)"

# Rules that no longer give a link can be distinguished from rules that do.
echo 'SUBSYSTEM=="net", SYMLINK+="net/first", TAG+="systemd", ENV{ID_NET_NAME}="lan0"' > "$work/old.rules"
echo 'SUBSYSTEM=="net", TAG+="systemd"' > "$work/new.rules"
# answer RULES OPTION..: what the rules make of the card, captured with these options
answer() {
    local rules=$work/$1.rules
    shift
    "$capture" "$@" --from "$work/added" $card/net/eth0 | "$program" events -r "$work/none" "$rules"
}
same "--kernel: a removed link and a removed property are shown" "< link net/first
< env ID_NET_NAME=lan0" "$(diff <(answer old --kernel) <(answer new --kernel) | grep '^[<>]')"
same "without --kernel: a removed link and a removed property are not shown" "" "$(diff <(answer old) <(answer new))"

# Lines of a record have capital letters; what is none is said, the first few with their numbers. Those that have the letters of
# the script itself are such lines, too.
same "lines that are none of a record" "P: /devices/a
A: kept=1
E: SUBSYSTEM=net
devdry-capture: $work/strange:2: no line of a record
devdry-capture: $work/strange:3: no line of a record
devdry-capture: $work/strange:4: no line of a record
devdry-capture: $work/strange: and 11 more" "$(
    {
        printf 'P: /devices/a\n'
        for letter in a c d e f k m n w x z; do printf '%s: password=x\n' "$letter"; done
        printf 'f:P: /devices/b\nno line\n /devices/c\nA: kept=1\n\nE: SUBSYSTEM=net\n'
    } > "$work/strange"
    "$capture" --from "$work/strange" 2> "$work/said" | sed '/^C:/d; /^$/d; /^U:/d'
    cat "$work/said"
)"
same "their numbers are those of the file, also with devices that are named" "devdry-capture: -:3: no line of a record" \
    "$(printf 'P: /devices/a\n\nw: /devices/b\nP: /devices/b\n' | "$capture" --from - /devices/a a 2>&1 > /dev/null)"
same "three of them" "devdry-capture: -:1: no line of a record
devdry-capture: -:2: no line of a record
devdry-capture: -:4: no line of a record" "$(printf 'a\nb\nP: /devices/a\nc\n' | "$capture" --from - 2>&1 > /dev/null)"
same "a name with a backslash" "devdry-capture: $work/a\\nb:1: no line of a record
devdry-capture: $work/a\\nb: it has no device" "$(echo x > "$work/a\\nb"; "$capture" --from "$work/a\\nb" 2>&1)"
same "no other letter than those of a record is printed" "C: add
P: /devices/a
E: A=b" "$(printf 'P: /devices/a\nC: x\nK: x=y\nG: t\nB: b=c\nQ: q\nR: 0\nO: o\nX: x\nE: A=b\n' | "$capture" --from - 2> /dev/null)"

# Texts that have a NUL byte end there.
nul_record() {
    printf 'P: /devices/a\n'
    printf 'N: sda\000x\nE: SUBSYSTEM=net\000block\nE: EMPTY=\000x\nE: A\000=b\nS: l\000\000m\n\000E: B=c\n'
    printf 'A: octal=ab\\000cd\nA: first=\\000\nA: line=ab\\n\\000cd\\n\nA: raw=ab\000cd\nA: hidden=a\\001b\\000c\n'
}
of_nul="P: /devices/a
U: net
N: sda
A: octal=ab
A: first=
A: line=ab
A: raw=ab
E: SUBSYSTEM=net
E: EMPTY=
S: l"
for awk in awk mawk gawk 'busybox awk' original-awk; do
    if has "${awk%% *}"; then
        mkdir -p "$work/bin" && printf '#!/bin/sh\nexec %s "$@"\n' "$(command -v "${awk%% *}")${awk#"${awk%% *}"}" > "$work/bin/awk"
        chmod +x "$work/bin/awk"
        same "NUL bytes, by $awk" "$of_nul" "$(nul_record | PATH=$work/bin:$PATH "$capture" --from - 2> /dev/null | grep -v ^C)"
        same "strange lines, by $awk" "$("$capture" --from "$work/strange" 2>&1 > /dev/null)" \
            "$(PATH=$work/bin:$PATH "$capture" --from "$work/strange" 2>&1 > /dev/null)"
    fi
done
for shell in dash 'bash --posix' 'busybox sh'; do
    # shellcheck disable=SC2086
    if has "${shell%% *}"; then same "NUL bytes, by $shell" "$of_nul" "$(nul_record | $shell "$capture" --from - 2> /dev/null | grep -v ^C)"; fi
done
: > "$work/none.rules"
# taken: whether devdry events takes the blocks
taken() { "$program" events -r "$work/none" "$work/none.rules" > /dev/null 2>&1; echo $?; }
same "a record with NUL bytes gives a block that events takes" 0 "$(nul_record | "$capture" --from - 2> /dev/null | taken)"
same "a record of bytes at random" 0 "$({
    head -c 200000 /dev/urandom
    printf '\nP: /devices/a\nE: A=b\n'
    head -c 20000 /dev/urandom | sed 's/^/E: A=/'
    printf '\n'
    head -c 20000 /dev/urandom | sed 's/^/P: \/devices\//'
} | "$capture" --from - 2> "$work/said" | taken)"
same "what is said of it can be shown" 0 "$(LC_ALL=C grep -acP '[\x00-\x08\x0b-\x1f\x7f]|\xc2[\x80-\x9f]' "$work/said")"
