#!/usr/bin/env bash
# tools/devdry-capture: what lies behind links, which subsystems are buses, what udev still has of a device that is removed, and
# folders that are no devices to udev.
set -uo pipefail
# shellcheck source=lib.sh
. "$(dirname "$0")/lib.sh"
# shellcheck source=sys_tree.sh
. "$(dirname "$0")/sys_tree.sh"

# The files behind a link (those that a loop device of Linux 6.18 has), and others that no block may have.
sda=$disk/block/sda
device /devices/virtual/bdi/8:0 bdi -
behind=$sys/devices/virtual/bdi/8:0
printf '128\n' > "$behind/read_ahead_kb"
printf '100\n' > "$behind/max_ratio"
printf 'ab\000cd' > "$behind/nul"
printf 'hidden\n' > "$behind/hidden" && chmod 600 "$behind/hidden"
printf 'secret\n' > "$behind/password"
printf 'two\nlines\n' > "$behind/lines"
ln -s read_ahead_kb "$behind/link"
mkdir "$behind/power" && printf 'auto\n' > "$behind/power/control"
ln -s ../../../../../../../../virtual/bdi/8:0 "$sys$sda/bdi"
# A link to the device itself, links to those above, and one whose name is none of those that a device has.
ln -s . "$sys$sda/port" && ln -s ../.. "$sys$sda/device" && ln -s ../.. "$sys$sda/physfn" && ln -s ../../../.. "$sys$sda/master"
ln -s ../../../../../../../../virtual/bdi/8:0 "$sys$sda/other"
of_bdi='A: bdi/max_ratio=100
A: bdi/nul=ab
A: bdi/read_ahead_kb=128'
same "what lies behind bdi" "$of_bdi" "$("$capture" --sysfs "$sys" "$sys$sda" 2> /dev/null | grep '^A: .*/[^q]' | grep -v ^A:.queue | LC_ALL=C sort)"
same "the same by all" "$of_bdi" \
    "$("$capture" --sysfs "$sys" --all 2> /dev/null | awk -v RS='' -v path="P: $sda" 'index($0, "C: add\n" path "\n")' | grep '^A: bdi' | LC_ALL=C sort)"
same "it is of the disk for its partition as well" "$of_bdi" "$("$capture" --sysfs "$sys" "$sys$sda/sda1" 2> /dev/null | grep '^A: bdi' | LC_ALL=C sort)"
same "its keys" 'ATTR{bdi/max_ratio}=="100"
ATTR{bdi/read_ahead_kb}=="128"' "$("$capture" --walk --sysfs "$sys" "$sys$sda" 2> /dev/null | grep 'bdi/[mr]' | LC_ALL=C sort)"
for shell in dash 'bash --posix' 'busybox sh'; do
    if has "${shell%% *}"; then
        # shellcheck disable=SC2086
        same "the same by $shell" "$("$capture" --sysfs "$sys" "$sys$sda" 2> /dev/null)" "$($shell "$capture" --sysfs "$sys" "$sys$sda" 2> /dev/null)"
    fi
done
# shellcheck disable=SC2016
echo 'ATTR{bdi/read_ahead_kb}=="128", ATTRS{bdi/max_ratio}=="100", TEST=="bdi/nul", ENV{A}="$attr{bdi/read_ahead_kb}"' > "$work/r.rules"
same "rules find it" "env A=128" "$("$capture" --kernel --sysfs "$sys" "$sys$sda" 2> /dev/null |
    "$program" events --udev -r "$work/none" "$work/r.rules" | grep '^env A=\|note')"

# Which subsystems of a block are buses, by where the link leads: each once.
buses() { "$capture" --sysfs "$sys" "$@" 2> /dev/null | grep '^K: bus'; }
same "the buses of a disk" "K: bus=scsi pci" "$(buses "$sys$sda")"
same "the bus of a key" "K: bus=usb" "$(buses "$sys$keyboard/1-1:1.0/input/input7/event3")"
device /devices/virtual/net/lo net -
same "no bus" "" "$(buses "$sys/devices/virtual/net/lo")"
same "keys have no buses" "" "$(buses --walk "$sys$sda")"
same "a record does not tell its buses" "" "$("$capture" --from "$work/db" sda | grep '^K: ')"
ln -sfn ../../../../bus/strange "$sys/devices/virtual/net/lo/subsystem"
same "a bus by its folder alone" "K: bus=strange" "$(buses "$sys/devices/virtual/net/lo")"

# When a device is removed, its attributes, files and driver are gone (as udevd 257 sees a veth, a zram and a partition); its
# parents are still there, and what udev has stored is in the event.
removed=$("$capture" --kernel --action remove --sysfs "$sys" "$sys$keyboard/1-1:1.0" 2> /dev/null)
same "a removed device" "C: remove
P: $keyboard/1-1:1.0
U: usb
E: DEVTYPE=usb_interface
E: MODALIAS=usb:v046DpC31C
P: $keyboard
U: usb
V: usb
N: bus/usb/001/002
D: 189:1
A: driver=usb
A: idVendor=046d" "$(head -n 12 <<< "$removed")"
printf '\022\001' > "$sys$keyboard/descriptors"
same "a removed device without its driver and its files" "C: remove
P: $keyboard
U: usb
N: bus/usb/001/002
D: 189:1
E: MAJOR=189
E: MINOR=1
E: DEVNAME=/dev/bus/usb/001/002
E: DEVTYPE=usb_device
K: bus=usb" "$("$capture" --action remove --sysfs "$sys" "$sys$keyboard")"
same "what udev has stored of a removed device" "E: TAGS=
G: seat
G: systemd
S: disk/by-id/ata-Disk_7
S: disk/by-path/pci-0000:00:17.0-ata-1" "$(sed 's/^E: DEVTYPE=disk/&\nE: USEC_INITIALIZED=7/' "$work/db" > "$work/stored"
    echo 'E: TAGS='; "$capture" --kernel --action remove --from "$work/stored" sda | grep '^[GS]: ' | LC_ALL=C sort)"
same "another action" "A: idVendor=046d" "$("$capture" --action unbind --sysfs "$sys" "$sys$keyboard" | grep idVendor)"

# A folder without a subsystem has no events: --all leaves it out, and it is a parent as before.
mkdir "$sys$pci/none" && : > "$sys$pci/uevent" && : > "$sys$pci/none/uevent" && printf '1\n' > "$sys$pci/above"
same "--all: no folders without a subsystem" "0 0" "$("$capture" --sysfs "$sys" --all 2> /dev/null |
    awk -v RS='' -v a="P: $pci\n" -v b="P: $pci/none\n" 'index($0, "C: add\n" a) { x++ } index($0, "C: add\n" b) { y++ } END { print x + 0, y + 0 }')"
same "it is a parent" "A: above=1" "$("$capture" --sysfs "$sys" "$sys$card" | grep above)"
same "it is printed if it is named" "P: $pci/none" "$("$capture" --sysfs "$sys" "$sys$pci/none" | grep -m 1 ^P:)"
