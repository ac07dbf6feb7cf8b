#!/usr/bin/env bash
# tools/devdry-capture --answers: what udev has stored, as answers to what rules ask programs and builtins for.
set -uo pipefail
# shellcheck source=lib.sh
. "$(dirname "$0")/lib.sh"
# shellcheck source=sys_tree.sh
. "$(dirname "$0")/sys_tree.sh"

# A record in the form of `udevadm info --export-db`.
record() { cat > "$work/record"; }
# answers PATH: the questions and answers of a device's block by the record
answers() { "$capture" --kernel --answers --from "$work/record" "$1" | grep '^[QRO]:'; }
ata=/devices/pci0/ata1/host0/target0:0:0/0:0:0:0/block/sda
record << END
P: $ata
U: block
T: disk
D: b 8:0
N: sda
S: disk/by-id/ata-Disk_7
E: DEVNAME=/dev/sda
E: DEVTYPE=disk
E: MAJOR=8
E: MINOR=0
E: SUBSYSTEM=block
E: USEC_INITIALIZED=5
E: ID_ATA=1
E: ID_TYPE=disk
E: ID_BUS=ata
E: ID_MODEL=Disk
E: ID_MODEL_ENC=Disk\x207
E: ID_SERIAL=Disk_7
E: ID_ATA_SATA=1
E: ID_WWN=0x5
E: ID_PATH=pci-0000:00:17.0-ata-1
E: ID_PART_TABLE_TYPE=gpt
E: ID_PART_TABLE_UUID=12-34

P: $ata/sda1
U: block
T: partition
N: sda1
E: DEVNAME=/dev/sda1
E: DEVTYPE=partition
E: MAJOR=8
E: MINOR=1
E: SUBSYSTEM=block
E: USEC_INITIALIZED=6
E: ID_ATA=1
E: ID_SERIAL=Disk_7
E: ID_FS_UUID=7-8
E: ID_FS_TYPE=btrfs
E: ID_FS_LABEL= my disk
E: ID_FS_LABEL_ENC="my"
E: ID_PART_ENTRY_NUMBER=1
E: ID_BTRFS_READY=1

P: /devices/virtual/block/loop0
U: block
N: loop0
E: DEVTYPE=disk
E: SUBSYSTEM=block
E: USEC_INITIALIZED=7

P: /devices/virtual/block/loop1
U: block
N: loop1
E: DEVTYPE=disk
E: SUBSYSTEM=block

P: /devices/virtual/block/dm-1
U: block
N: dm-1
E: DEVTYPE=disk
E: MAJOR=254
E: MINOR=1
E: SUBSYSTEM=block
E: USEC_INITIALIZED=8
E: ID_LOOP_BACKING_INODE=7
E: DM_NAME=vg-home
E: DM_UUID=LVM-abc
E: DM_SUSPENDED=0
E: DM_VG_NAME=vg
E: DM_LV_NAME=home
E: ID_FS_TYPE=ext4

P: /devices/pci0/net/eth0
U: net
E: INTERFACE=eth0
E: SUBSYSTEM=net
E: USEC_INITIALIZED=9
E: ID_NET_DRIVER=e1000e

P: /devices/pci0/usb1/1-1/1-1:1.0/video4linux/video0
U: video4linux
N: video0
E: SUBSYSTEM=video4linux
E: USEC_INITIALIZED=9
E: ID_V4L_VERSION=2
E: ID_V4L_PRODUCT=My camera: "front"
E: ID_V4L_CAPABILITIES=:capture:

P: /devices/pci0/host9/target9:0:0/9:0:0:0
U: scsi
E: SUBSYSTEM=scsi

P: /devices/pci0/host9/target9:0:0/9:0:0:0/block/sr0
U: block
N: sr0
E: DEVTYPE=disk
E: SUBSYSTEM=block
E: USEC_INITIALIZED=9
E: ID_CDROM=1
E: ID_CDROM_DVD=1
E: ID_CDROM_MEDIA_SESSION_LAST_OFFSET=2048
E: ID_FS_TYPE=iso9660
E: ID_SCSI=1
E: ID_VENDOR=HL
E: ID_SCSI_SERIAL=9

P: /devices/pci0/host9/target9:0:0/9:0:0:0/scsi_tape/nst0
U: scsi_tape
N: nst0
E: SUBSYSTEM=scsi_tape
E: USEC_INITIALIZED=9
E: ID_SCSI=1
E: ID_SERIAL=35
END
same "an ATA disk" "Q: builtin blkid
R: 0 ID_PART_TABLE_TYPE=gpt
O: ID_PART_TABLE_UUID=12-34
Q: ata_id --export /dev/sda
R: 0 ID_ATA=1
O: ID_TYPE=disk
O: ID_BUS=ata
O: ID_MODEL=Disk
O: ID_MODEL_ENC=Disk\x207
O: ID_SERIAL=Disk_7
O: ID_ATA_SATA=1
O: ID_WWN=0x5" \
    "$(answers $ata)"
same "a partition with a file system" "Q: builtin blkid
R: 0 ID_FS_UUID=7-8
O: ID_FS_TYPE=btrfs
O: ID_FS_LABEL=\" my disk\"
O: ID_FS_LABEL_ENC=\"\"my\"\"
O: ID_PART_ENTRY_NUMBER=1
Q: builtin btrfs ready /dev/sda1
R: 0 ID_BTRFS_READY=1" "$(answers $ata/sda1)"
same "a disk in which udev has found nothing" "Q: builtin blkid
R: 0" "$(answers /devices/virtual/block/loop0)"
same "a disk of which udev has stored nothing" "" "$(answers /devices/virtual/block/loop1)"
same "a volume of LVM" "Q: builtin blkid
R: 0 ID_LOOP_BACKING_INODE=7
O: ID_FS_TYPE=ext4
Q: /sbin/dmsetup info -j 254 -m 1 -c --nameprefixes --noheadings --rows -o name,uuid,suspended
R: 0 DM_NAME=vg-home
O: DM_UUID=LVM-abc
O: DM_SUSPENDED=0
Q: /sbin/dmsetup info -j 254 -m 1 -c --nameprefixes --noheadings --rows -o suspended
R: 0 DM_SUSPENDED=0
Q: /sbin/dmsetup splitname --nameprefixes --noheadings --rows vg-home
R: 0 DM_VG_NAME=vg
O: DM_LV_NAME=home" "$(answers /devices/virtual/block/dm-1 | awk '/^Q:/ { usr = /^Q: .usr/ } !usr')"
same "by its new path" "Q: /usr/sbin/dmsetup splitname --nameprefixes --noheadings --rows vg-home
R: 0 DM_VG_NAME=vg
O: DM_LV_NAME=home" "$(answers /devices/virtual/block/dm-1 | grep -A 2 '/usr/.*splitname')"
same "a network interface" "Q: builtin net_driver
R: 0 ID_NET_DRIVER=e1000e" "$(answers /devices/pci0/net/eth0)"
same "a camera" "Q: v4l_id /dev/video0
R: 0 ID_V4L_VERSION=2
O: ID_V4L_PRODUCT=My camera: \"front\"
O: ID_V4L_CAPABILITIES=:capture:" \
    "$(answers /devices/pci0/usb1/1-1/1-1:1.0/video4linux/video0)"
same "an optical drive" "Q: builtin blkid --hint=session_offset=2048
R: 0 ID_FS_TYPE=iso9660
Q: builtin blkid --noraid
R: 0 ID_FS_TYPE=iso9660
Q: scsi_id --export --whitelisted -d /dev/sr0
R: 0 ID_SCSI=1
O: ID_VENDOR=HL
O: ID_SCSI_SERIAL=9
Q: scsi_id --export --allowlisted -d /dev/sr0
R: 0 ID_SCSI=1
O: ID_VENDOR=HL
O: ID_SCSI_SERIAL=9
Q: cdrom_id --lock-media /dev/sr0
R: 0 ID_CDROM=1
O: ID_CDROM_DVD=1
O: ID_CDROM_MEDIA_SESSION_LAST_OFFSET=2048" \
    "$(answers /devices/pci0/host9/target9:0:0/9:0:0:0/block/sr0)"
same "a tape" "Q: scsi_id --whitelisted --export --device=/dev/bsg/9:0:0:0
R: 0 ID_SCSI=1
O: ID_SERIAL=35
Q: scsi_id --allowlisted --export --device=/dev/bsg/9:0:0:0
R: 0 ID_SCSI=1
O: ID_SERIAL=35" "$(answers /devices/pci0/host9/target9:0:0/9:0:0:0/scsi_tape/nst0)"
same "a device that no rule asks about" "" "$(answers /devices/pci0/host9/target9:0:0/9:0:0:0)"
same "without the option there are no answers" "" "$("$capture" --from "$work/record" | grep '^[QR]:')"

# What udev has stored about the device itself, for IMPORT{db}.
stored() { "$capture" "${@:2}" --answers --from "$work/record" "$1" | grep '^B:'; }
same "what is stored about a partition" "B: USEC_INITIALIZED=6
B: ID_ATA=1
B: ID_SERIAL=Disk_7
B: ID_FS_UUID=7-8
B: ID_FS_TYPE=btrfs
B: ID_FS_LABEL= my disk
B: ID_FS_LABEL_ENC=\"my\"
B: ID_PART_ENTRY_NUMBER=1
B: ID_BTRFS_READY=1" "$(stored $ata/sda1 --kernel)"
same "the same beside the properties" "$(stored $ata/sda1 --kernel)" "$(stored $ata/sda1)"
same "nothing is stored about a device that udev does not know" "" "$(stored /devices/pci0/host9/target9:0:0/9:0:0:0)"
same "without the option nothing stored is printed" "" "$("$capture" --from "$work/record" | grep '^B:')"

# Rules take the answers as what the builtins and programs set.
cat > "$work/r.rules" << 'END'
SUBSYSTEM=="block", IMPORT{builtin}="blkid", SYMLINK+="disk/by-uuid/$env{ID_FS_UUID}"
SUBSYSTEM=="block", IMPORT{builtin}="btrfs ready $devnode"
SUBSYSTEM=="net", IMPORT{builtin}="net_driver"
SUBSYSTEM=="video4linux", IMPORT{program}="v4l_id $devnode"
END
# imported PATH: what the rules set of a device, without what the kernel says, and their notes
imported() {
    "$capture" --kernel --answers --from "$work/record" "$1" | "$program" events --udev -r "$work/none" "$work/r.rules" \
        | grep 'ID_\|^link\|^note'
}
same "the rules of a partition find what is stored" "link disk/by-uuid/7-8
env ID_BTRFS_READY=1
env ID_FS_LABEL= my disk
env ID_FS_LABEL_ENC=\"my\"
env ID_FS_TYPE=btrfs
env ID_FS_UUID=7-8
env ID_PART_ENTRY_NUMBER=1" "$(imported $ata/sda1)"
same "the rules of an interface find its driver" "env ID_NET_DRIVER=e1000e" "$(imported /devices/pci0/net/eth0)"
same "the rules of a camera find what it can do" "env ID_V4L_CAPABILITIES=:capture:
env ID_V4L_PRODUCT=My camera: \"front\"
env ID_V4L_VERSION=2" "$(imported /devices/pci0/usb1/1-1/1-1:1.0/video4linux/video0)"

# A copy of the script in which the tree takes the place of /sys, with an udevadm and an ethtool of our own.
mkdir -p "$work/own"
sed "s|sysfs=/sys udevadm|sysfs=$sys udevadm|; s|=/proc/cmdline|=$work/none|" "$capture" > "$work/own/capture"
cp "$capture"*.awk "$work/own"
printf '#!/bin/sh\nexit 1\n' > "$work/own/uname"
# shellcheck disable=SC2016
printf '#!/bin/sh\ncase $2 in eth0) printf "driver: e1000e\\nversion: 6\\n" ;; *) echo "no" >&2; exit 71 ;; esac\n' > "$work/own/ethtool"
cat > "$work/own/udevadm" << 'END'
#!/bin/sh
case $* in
    *--path=*/sda1 | *--export-db) printf 'P: %s\nE: USEC_INITIALIZED=1\nE: ID_FS_TYPE=ext4\n\n' "$SDA1" ;;
esac
END
chmod +x "$work/own"/*
own() { PATH=$work/own:$PATH SDA1=$disk/block/sda/sda1 sh "$work/own/capture" --kernel "$@" 2> /dev/null | grep '^P:\|^[QR]:'; }
device /devices/virtual/net/lo net - INTERFACE=lo IFINDEX=1
same "the driver of an interface, by ethtool" "Q: builtin net_driver
R: 0 ID_NET_DRIVER=e1000e" "$(own --answers "$sys$card/net/eth0" | grep -v P:)"
same "an interface without one" "Q: builtin net_driver
R: 1" "$(own --answers "$sys/devices/virtual/net/lo" | grep -v P:)"
same "without the option ethtool is not asked" "" "$(own "$sys$card/net/eth0" | grep -v P:)"
same "what the machine's udev has stored" "Q: builtin blkid
R: 0 ID_FS_TYPE=ext4" "$(own --answers "$sys$disk/block/sda/sda1" | grep -v P:)"
same "of all devices, each has its own answers" "P: $card/net/eth0 R: 0 ID_NET_DRIVER=e1000e
P: $disk/block/sda/sda1 R: 0 ID_FS_TYPE=ext4
P: /devices/virtual/net/lo R: 1" \
    "$(PATH=$work/own:$PATH SDA1=$disk/block/sda/sda1 sh "$work/own/capture" --kernel --answers --all 2> /dev/null \
        | awk 'BEGIN { RS = ""; FS = "\n" } /\nR: / { print $2 " " $NF }')"
rm "$work/own/udevadm"
if ! has udevadm; then
    same "without udevadm it says so" "devdry-capture: there is no udevadm, which says what udev has stored for --answers" \
        "$(PATH=$work/own:$PATH sh "$work/own/capture" --answers "$sys$card/net/eth0" 2>&1 > /dev/null)"
fi
same "--answers with --sysfs" 2 "$("$capture" --answers --sysfs "$sys" "$sys$card" > /dev/null 2>&1; echo $?)"
same "--answers with --walk" 2 "$("$capture" --answers --walk "$sys$card" > /dev/null 2>&1; echo $?)"

answered=$("$capture" --answers --from "$work/record")
for shell in dash 'bash --posix' 'busybox sh'; do
    # shellcheck disable=SC2086
    if has "${shell%% *}"; then same "the same by $shell" "$answered" "$($shell "$capture" --answers --from "$work/record")"; fi
done
for awk in mawk gawk 'busybox awk' original-awk; do
    if has "${awk%% *}"; then
        mkdir -p "$work/bin" && printf '#!/bin/sh\nexec %s "$@"\n' "$awk" > "$work/bin/awk" && chmod +x "$work/bin/awk"
        same "the same by $awk" "$answered" "$(PATH=$work/bin:$PATH "$capture" --answers --from "$work/record")"
    fi
done
