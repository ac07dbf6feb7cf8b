# What the tests of tools/devdry-capture share; to be sourced after lib.sh. It makes a tree like /sys below the temporary
# folder, `$sys`, with a disk, a keyboard and a network card, and what udevadm prints about some of them, `$work/db`.
# shellcheck shell=bash disable=SC2034,SC2154

# (what only its owner may read is for root alone)
umask 022
capture=$top/tools/devdry-capture
sys=$work/sys
bus=$work/sys/bus

# device PATH SUBSYSTEM DRIVER LINE..: a device below the tree, with `-` for no driver, and the lines of its uevent
device() {
    local folder=$sys$1 of=$sys/class/$2
    case $2 in pci | scsi | usb) of=$bus/$2 ;; esac
    mkdir -p "$folder" "$of"
    ln -s "$of" "$folder/subsystem"
    if [ "$3" != - ]; then mkdir -p "$bus/$2/drivers/$3" && ln -s "$bus/$2/drivers/$3" "$folder/driver"; fi
    shift 3
    printf '%s\n' "$@" > "$folder/uevent"
}

# A disk with a partition.
pci=/devices/pci0000:00
disk=$pci/0000:00:17.0/ata1/host0/target0:0:0/0:0:0:0
device $pci/0000:00:17.0 pci ahci DRIVER=ahci PCI_ID=8086:A102
printf '0x8086\n' > "$sys$pci/0000:00:17.0/vendor"
printf 'from 0 to 1\nfrom 2 to 3\n' > "$sys$pci/0000:00:17.0/resource"
printf 'secret\n' > "$sys$pci/0000:00:17.0/rom"
mkdir -p "$sys$pci/0000:00:17.0/ata1"
device $disk scsi sd DEVTYPE=scsi_device DRIVER=sd MODALIAS=scsi:t-0x00
printf 'Disk 7  \n' > "$sys$disk/model"
printf '\000\200\017\001' > "$sys$disk/vpd_pg80"
device $disk/block/sda block - MAJOR=8 MINOR=0 DEVNAME=sda DEVTYPE=disk
mkdir -p "$sys$disk/block/sda/queue"
printf '0\n' > "$sys$disk/block/sda/queue/rotational"
printf '2048' > "$sys$disk/block/sda/size"
printf '\n' > "$sys$disk/block/sda/empty"
printf '1\n' > "$sys$disk/block/sda/a=b"
device $disk/block/sda/sda1 block - MAJOR=8 MINOR=1 DEVNAME=sda1 DEVTYPE=partition PARTN=1
printf '1\n' > "$sys$disk/block/sda/sda1/partition"

# A keyboard.
keyboard=$pci/0000:00:14.0/usb1/1-1
device $keyboard usb usb MAJOR=189 MINOR=1 DEVNAME=bus/usb/001/002 DEVTYPE=usb_device DRIVER=usb
printf '046d\n' > "$sys$keyboard/idVendor"
printf 'Tastatur f\303\274r alle\n' > "$sys$keyboard/product"
device $keyboard/1-1:1.0 usb usbhid DEVTYPE=usb_interface MODALIAS=usb:v046DpC31C
device $keyboard/1-1:1.0/input/input7 input - 'NAME="USB Keyboard"' 'PHYS="usb/input0"' ''
device $keyboard/1-1:1.0/input/input7/event3 input - MAJOR=13 MINOR=67 DEVNAME=input/event3

# A network card.
card=$pci/0000:00:03.0
device $card pci e1000e DRIVER=e1000e MODALIAS=pci:v00008086d000015BE
device $card/net/eth0 net - INTERFACE=eth0 IFINDEX=2
printf '52:54:00:12:34:56\n' > "$sys$card/net/eth0/address"
mkdir -p "$sys/class/net" && ln -s "$sys$card/net/eth0" "$sys/class/net/eth0"

# What `udevadm info --export-db` prints, in two versions.
cat > "$work/db" << END
P: $card
M: 0000:00:03.0
R: 0
U: pci
V: e1000e
E: DEVPATH=$card
E: SUBSYSTEM=pci
E: DRIVER=e1000e
E: ID_VENDOR_FROM_DATABASE=Intel Corporation

P: $disk/block/sda
M: sda
U: block
T: disk
D: b 8:0
N: sda
L: 0
S: disk/by-id/ata-Disk_7
S: disk/by-path/pci-0000:00:17.0-ata-1
Q: 9
E: DEVPATH=$disk/block/sda
E: SUBSYSTEM=block
E: DEVNAME=/dev/sda
E: DEVTYPE=disk
E: MAJOR=8
E: MINOR=0
E: DEVLINKS=/dev/disk/by-path/pci-0000:00:17.0-ata-1 /dev/disk/by-id/ata-Disk_7
E: TAGS=:systemd:seat:
E: CURRENT_TAGS=:systemd:

P: $card/net/eth0
E: DEVPATH=$card/net/eth0
E: IFINDEX=2
E: INTERFACE=eth0
E: SUBSYSTEM=net
END

# ends COMMAND..: its status, followed by all that it prints
ends() { said=$("$@" 2>&1); printf '%s\n%s' $? "$said"; }
