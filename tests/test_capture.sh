#!/usr/bin/env bash
# tools/devdry-capture on a tree like /sys: blocks, nodes, shells, statuses.
set -uo pipefail
# shellcheck source=lib.sh
. "$(dirname "$0")/lib.sh"
# shellcheck source=sys_tree.sh
. "$(dirname "$0")/sys_tree.sh"

of_pci_card="P: $card
U: pci
V: e1000e
A: driver=e1000e
A: subsystem=pci
E: DRIVER=e1000e
E: MODALIAS=pci:v00008086d000015BE"
of_card="C: add
P: $card/net/eth0
U: net
A: address=52:54:00:12:34:56
A: subsystem=net
E: INTERFACE=eth0
E: IFINDEX=2
$of_pci_card"
same "a network card, by its class" "$of_card
K: bus=pci" "$("$capture" --sysfs "$sys" "$sys/class/net/eth0")"
same "a network card with another action" "C: change" "$("$capture" --action change --sysfs "$sys" "$sys/class/net/eth0" | head -n 1)"

of_disk="P: $disk
U: scsi
V: sd
A: driver=sd
A: model=Disk 7  
A: subsystem=scsi
A: vpd_pg80=
E: DEVTYPE=scsi_device
E: DRIVER=sd
E: MODALIAS=scsi:t-0x00
P: $pci/0000:00:17.0
U: pci
V: ahci
A: driver=ahci
A: subsystem=pci
A: vendor=0x8086
E: DRIVER=ahci
E: PCI_ID=8086:A102"
of_sda="P: $disk/block/sda
U: block
N: sda
D: 8:0
A: empty=
A: queue/rotational=0
A: size=2048
A: subsystem=block
E: MAJOR=8
E: MINOR=0
E: DEVNAME=/dev/sda
E: DEVTYPE=disk
$of_disk"
of_sda1="C: add
P: $disk/block/sda/sda1
U: block
N: sda1
D: 8:1
A: partition=1
A: subsystem=block
E: MAJOR=8
E: MINOR=1
E: DEVNAME=/dev/sda1
E: DEVTYPE=partition
E: PARTN=1
$of_sda
K: bus=scsi pci"
same "a partition with its parents" "$of_sda1" \
    "$("$capture" --sysfs "$sys" "$sys$disk/block/sda/sda1" 2> /dev/null)"
same "a name that a block can't contain is reported" \
    "devdry-capture: $sys$disk/block/sda/a=b: its name can't stand in a block" \
    "$("$capture" --sysfs "$sys" "$sys$disk/block/sda" 2>&1 > /dev/null)"

same "a keyboard" "C: add
P: $keyboard/1-1:1.0/input/input7/event3
U: input
N: input/event3
D: 13:67
A: subsystem=input
E: MAJOR=13
E: MINOR=67
E: DEVNAME=/dev/input/event3
P: $keyboard/1-1:1.0/input/input7
U: input
A: subsystem=input
E: NAME=\"USB Keyboard\"
E: PHYS=\"usb/input0\"
P: $keyboard/1-1:1.0
U: usb
V: usbhid
A: driver=usbhid
A: subsystem=usb
E: DEVTYPE=usb_interface
E: MODALIAS=usb:v046DpC31C
P: $keyboard
U: usb
V: usb
N: bus/usb/001/002
D: 189:1
A: driver=usb
A: idVendor=046d
A: product=Tastatur für alle
A: subsystem=usb
E: MAJOR=189
E: MINOR=1
E: DEVNAME=/dev/bus/usb/001/002
E: DEVTYPE=usb_device
E: DRIVER=usb
K: bus=usb" "$("$capture" --sysfs "$sys" "$sys$keyboard/1-1:1.0/input/input7/event3")"

# Devices by their nodes. /dev/null exists on every machine, with the numbers 1:3; for others there are links here.
device /devices/virtual/mem/null mem - MAJOR=1 MINOR=3 DEVNAME=null DEVMODE=0666
mkdir -p "$sys/dev/char" "$sys/dev/block"
ln -s ../../devices/virtual/mem/null "$sys/dev/char/1:3"
of_null="C: add
P: /devices/virtual/mem/null
U: mem
N: null
D: 1:3
A: subsystem=mem
E: MAJOR=1
E: MINOR=3
E: DEVNAME=/dev/null
E: DEVMODE=0666"
same "a character device, by its node" "$of_null" "$("$capture" --sysfs "$sys" /dev/null)"
ln -s /dev/null "$work/by-link"
same "a character device, by a symlink to its node" "$of_null" "$("$capture" --sysfs "$sys" "$work/by-link")"
if mknod "$work/sdx10" b 8 170 2> /dev/null && [ -b "$work/sdx10" ]; then
    ln -s "../..$disk/block/sda/sda1" "$sys/dev/block/8:170"
    same "a block device, by its node" "$of_sda1" "$("$capture" --sysfs "$sys" "$work/sdx10" 2> /dev/null)"
else
    skipped "a block device, by its node" "mknod is not permitted"
fi
same "no such node" "1
devdry-capture: /dev/none/such: no such node" "$(ends "$capture" --sysfs "$sys" /dev/none/such)"
same "a file that is not a node" "1
devdry-capture: /dev/.: no device node" "$(ends "$capture" --sysfs "$sys" /dev/.)"
same "a node whose device does not exist" "1
devdry-capture: /dev/zero: $sys has no char device 1:5" "$(ends "$capture" --sysfs "$sys" /dev/zero)"
same "one node whose device does not exist, and one whose device exists" "1 $of_null" \
    "$(said=$("$capture" --sysfs "$sys" /dev/zero /dev/null 2> /dev/null); echo "$? $said")"

all=$("$capture" --sysfs "$sys" --all 2> /dev/null)
same "all devices" "$(find "$sys/devices" -name uevent | sed "s|^$sys|P: |; s|^P: /|P: /|; s|/uevent$||" | LC_ALL=C sort)" \
    "$(awk 'BEGIN { RS = ""; FS = "\n" } { print $2 }' <<< "$all" | LC_ALL=C sort)"
same "one of all devices has the block of that device" "$of_card
K: bus=pci" "$(awk -v RS='' -v path="P: $card/net/eth0" 'index($0, path "\n")' <<< "$all")"

: > "$work/none.rules"
answers=$("$program" events -r "$work/none" "$work/none.rules" <<< "$all" 2>&1; echo "status $?")
same "devdry events answers each block" "$(grep -c '^C: ' <<< "$all") answers, status 0" \
    "$(grep -c '^event add ' <<< "$answers") answers, ${answers##*$'\n'}"

for shell in dash 'bash --posix' 'busybox sh'; do
    if has "${shell%% *}"; then
        # shellcheck disable=SC2086
        same "all devices by $shell" "$all" "$($shell "$capture" --sysfs "$sys" --all 2> /dev/null)"
        # shellcheck disable=SC2086
        same "a node by $shell" "$of_null" "$($shell "$capture" --sysfs "$sys" /dev/null)"
    fi
done
for awk in mawk gawk 'busybox awk' original-awk; do
    if has "${awk%% *}"; then
        mkdir -p "$work/bin" && printf '#!/bin/sh\nexec %s "$@"\n' "$awk" > "$work/bin/awk" && chmod +x "$work/bin/awk"
        same "all devices by $awk" "$all" "$(PATH=$work/bin:$PATH "$capture" --sysfs "$sys" --all 2> /dev/null)"
    fi
done

# What udev has stored, as an udevadm of our own reports it.
mkdir "$work/own"
cat > "$work/own/udevadm" << END
#!/bin/sh
case \$* in
    *--path=*/net/eth0) sed -n '/eth0\$/,/^\$/p' '$work/db'; printf 'S: net/first\\nE: ID_NET_NAME=lan0\\nE: TAGS=:systemd:\\n' ;;
    *--path=*) ;;
    *) cat '$work/db' ;;
esac
END
chmod +x "$work/own/udevadm"
# (udevadm is asked only about the real /sys: here the tree takes its place)
sed "s|sysfs=/sys udevadm|sysfs=$sys udevadm|" "$capture" > "$work/own/capture" && cp "$capture"*.awk "$work/own"
# (test_capture_machine.sh has the constants of the machine)
own() { PATH=$work/own:$PATH sh "$work/own/capture" "$@" | grep -v '^K: [a-z]*='; }
same "a network card with what udev has stored" "${of_card%%"$of_pci_card"}E: DEVPATH=$card/net/eth0
E: SUBSYSTEM=net
E: ID_NET_NAME=lan0
G: systemd
S: net/first
$of_pci_card" "$(own "$sys/class/net/eth0")"
same "--kernel: only what the kernel has of the device" "$of_card" "$(own --kernel "$sys/class/net/eth0")"
sed -i 's/E: INTERFACE=eth0/E: INTERFACE=lan0/' "$work/db"
same "a property that udev has changed" "E: INTERFACE=lan0" "$(own "$sys/class/net/eth0" | grep INTERFACE)"
same "--kernel: a property that udev has changed" "E: INTERFACE=eth0" "$(own --kernel "$sys/class/net/eth0" | grep INTERFACE)"
same "--kernel: all properties of the parents" "E: ID_VENDOR_FROM_DATABASE=Intel Corporation" \
    "$(own --kernel --all 2> /dev/null | awk -v RS='' -v path="P: $card/net/eth0" 'index($0, path "\n")' | tail -n 1)"

# Files with a NUL byte: udev takes what is before the first one.
nul=/devices/platform/nul
device $nul platform -
mkdir -p "$sys$nul/q"
printf 'ab\000cd\n' > "$sys$nul/cut"
printf 'ab\000' > "$sys$nul/ended"
printf 'ab\n\000\000' > "$sys$nul/filled"
printf '\000\000' > "$sys$nul/q/empty"
printf 'ab\000\001\002\n\n' > "$sys$nul/binary_behind"
printf '\001ab\000cd' > "$sys$nul/binary"
printf 'a\nb\000cd' > "$sys$nul/two_lines"
printf 'ab\000cd' > "$sys$nul/hidden" && chmod 600 "$sys$nul/hidden"
printf 'ab\000cd' > "$sys$nul/password"
printf 'ab\000cd' > "$sys$nul/a:2"
of_nul="A: a:2=ab
A: binary_behind=ab
A: cut=ab
A: ended=ab
A: filled=ab
A: q/empty=
A: subsystem=platform"
same "attributes with NUL bytes" "$of_nul" "$("$capture" --sysfs "$sys" "$sys$nul" 2> /dev/null | grep '^A' | LC_ALL=C sort)"
same "attributes with NUL bytes, with all devices" "$of_nul" \
    "$("$capture" --sysfs "$sys" --all 2> /dev/null | awk -v RS='' -v path="P: $nul" 'index($0, path "\n")' | grep '^A' | LC_ALL=C sort)"
for shell in dash 'bash --posix' 'busybox sh'; do
    if has "${shell%% *}"; then
        # shellcheck disable=SC2086
        same "attributes with NUL bytes by $shell" "$of_nul" "$($shell "$capture" --sysfs "$sys" "$sys$nul" 2> /dev/null | grep '^A' | LC_ALL=C sort)"
    fi
done
same "attributes with NUL bytes, as keys" 'ATTR{a:2}=="ab"
ATTR{cut}=="ab"
ATTR{ended}=="ab"
ATTR{filled}=="ab"
ATTR{q/empty}==""' "$("$capture" --walk --sysfs "$sys" "$sys$nul" 2> /dev/null | grep '^ATTR' | LC_ALL=C sort)"
device $nul/a=b platform - && printf 'ab\000cd' > "$sys$nul/a=b/cut"
same "an attribute with NUL bytes of a device with = in its path" "P: $nul/a=b
A: cut=ab
P: $nul" "$("$capture" --sysfs "$sys" "$sys$nul/a=b" 2> /dev/null | sed -n '/^P: .*nul/p; /^A: a=\|^A: cut/p' | head -n 3)"
same "it is no attribute of the device above" "" \
    "$("$capture" --sysfs "$sys" "$sys$nul" "$sys$nul/a=b" 2> /dev/null | grep '^A: a=')"
rm -r "$sys$nul"

# Devices by their names: those of classes, then those of buses.
mkdir -p "$sys/class/block" "$sys/class/tty" "$sys/class/one" "$sys/class/two" "$bus/pci/devices" "$bus/usb/devices" "$bus/other/devices"
ln -s "../../devices${disk#/devices}/block/sda" "$sys/class/block/sda"
ln -s "$sys$card" "$bus/pci/devices/${card##*/}"
ln -s "$sys$keyboard" "$bus/usb/devices/1-1"
ln -s "$sys$keyboard" "$bus/other/devices/1-1"
ln -s "$sys$card" "$sys/class/one/twice" && ln -s "$sys$keyboard" "$sys/class/two/twice"
ln -s "$sys$keyboard" "$bus/usb/devices/sda"
captured() { (cd "$work" && "$capture" --sysfs "$sys" "$@" 2>&1); }
same "an interface, by its name" "$of_card
K: bus=pci" "$(captured eth0)"
same "a disk, by its name" "P: $disk/block/sda" "$(captured sda | grep -m 1 ^P:)"
same "a PCI function, by its name" "P: $card" "$(captured "${card##*/}" | grep -m 1 ^P:)"
same "a device that two buses have, by its name" "P: $keyboard" "$(captured 1-1 | grep -m 1 ^P:)"
same "several devices with one name" "devdry-capture: twice: several devices: $sys$card $sys$keyboard" "$(captured twice)"
same "no device with the name" "devdry-capture: eth7: no device of this name" "$(captured eth7)"
same "a name with a sign of patterns" "devdry-capture: eth*: no device of this name" "$(captured 'eth*')"
same "the folder of a device, by its relative path" "P: $card" "$(cd "$sys$card/.." && "$capture" --sysfs "$sys" "${card##*/}/" | grep -m 1 ^P:)"
same "keys by a name" 'KERNEL=="eth0"' "$(captured --walk eth0 | grep ^KERNEL=)"
same "a device of a record, by its name" "P: $disk/block/sda" "$("$capture" --from "$work/db" sda | grep -m 1 ^P:)"
same "no device of a record with the name" "devdry-capture: sdz: no device of the record" "$("$capture" --from "$work/db" sdz 2>&1)"
{ cat "$work/db"; printf '\nP: /devices/other/eth0\n'; } > "$work/db2"
same "several devices of a record with one name" "devdry-capture: eth0: several devices: $card/net/eth0 /devices/other/eth0" \
    "$("$capture" --from "$work/db2" eth0 2>&1)"

# A card with so many queues that its block would be too long goes without them.
for ((number = 0; number < 700; number++)); do
    mkdir -p "$sys$card/net/eth0/queues/tx-$number"
    printf '%0100d\n' 0 > "$sys$card/net/eth0/queues/tx-$number/xps_cpus"
done
mkdir "$sys$card/net/eth0/statistics" "$sys$card/msi_irqs"
echo 7 > "$sys$card/net/eth0/statistics/rx_bytes"
echo msi > "$sys$card/msi_irqs/33"
same "a card with many queues" "$of_card
K: bus=pci" "$("$capture" --sysfs "$sys" eth0 2> /dev/null)"
same "with many queues it says so" "devdry-capture: $card/net/eth0: its block has no queues/*, statistics/* and msi_irqs/*, as it would have over 65,536 bytes" \
    "$("$capture" --sysfs "$sys" eth0 2>&1 > /dev/null)"
same "with many queues the status stays" 0 "$("$capture" --sysfs "$sys" eth0 > /dev/null 2>&1; echo $?)"
same "the keys of a card with many queues" 700 "$("$capture" --walk --sysfs "$sys" eth0 | grep -c 'ATTR{queues/')"
for ((number = 3; number < 700; number++)); do rm -r "$sys$card/net/eth0/queues/tx-$number"; done
same "with few queues nothing is left out" "3 1 1" \
    "$("$capture" --sysfs "$sys" eth0 2>&1 | awk '/A: queues/ { q++ } /A: stat/ { s++ } /A: msi/ { m++ } END { print q, s, m }')"
rm -r "$sys$card/net/eth0/queues" "$sys$card/net/eth0/statistics" "$sys$card/msi_irqs"

# too much for a block
mkdir -p "$sys/devices/deep" && : > "$sys/devices/deep/uevent"
deep=/devices/deep
for ((level = 0; level < 64; level++)); do
    deep+=/d
    mkdir "$sys$deep" && : > "$sys$deep/uevent"
done
for ((number = 0; number < 700; number++)); do
    printf '%0100d\n' 0 > "$sys/devices/deep/attribute$number"
done
same "too many parents, and too many bytes" "1
devdry-capture: $deep: it has over 63 parents, and is left out
devdry-capture: ${deep%/d}: its block has over 65,536 bytes, and is left out" \
    "$(said=$("$capture" --sysfs "$sys" "$sys$deep" "$sys${deep%/d}" 2>&1); printf '%s\n%s' $? "$said")"

same "no device" "1
devdry-capture: $sys/class: no device" "$(said=$("$capture" --sysfs "$sys" "$sys/class" 2>&1); printf '%s\n%s' $? "$said")"

# A file that is not a record, one that can't be read, and a tree without a device.
echo "device '/devices/x'" > "$work/text"
same "--from of a file that is not a record" "1
devdry-capture: $work/text:1: no line of a record
devdry-capture: $work/text: it has no device" "$(ends "$capture" --from "$work/text")"
same "--from of an empty input" "1
devdry-capture: -: it has no device" "$(ends "$capture" --from - < /dev/null)"
same "--from of a folder" 1 "$(ends "$capture" --from "$work" | head -n 1)"
mkdir -p "$work/bare/devices"
same "--all of a tree without a device" "1
devdry-capture: $work/bare: it has no device" "$(ends "$capture" --sysfs "$work/bare" --all)"

# An output that fails, by each awk, and one whose reader closes it.
for awk in awk mawk gawk 'busybox awk' original-awk; do
    has "${awk%% *}" || continue
    mkdir -p "$work/bin" && printf '#!/bin/sh\nexec %s "$@"\n' "$(command -v "${awk%% *}")${awk#"${awk%% *}"}" > "$work/bin/awk"
    chmod +x "$work/bin/awk"
    same "a full output, by $awk" "3 devdry-capture: write failed" \
        "$({ said=$(PATH=$work/bin:$PATH "$capture" --from "$work/db" 2>&1 >&3); echo "$? $said"; } 3> /dev/full)"
done
same "a closed output" "3 devdry-capture: write failed" \
    "$({ said=$("$capture" --from "$work/db" 2>&1 >&-); echo "$? $said"; })"
for words in --help --version "--walk --sysfs $sys $sys/class/net/eth0" "--kernel --from $work/db"; do
    # shellcheck disable=SC2086
    same "a full output: ${words%% *}" "3 devdry-capture: write failed" \
        "$({ said=$("$capture" $words 2>&1 >&3); echo "$? $said"; } 3> /dev/full)"
done
{
    sleep 0.2
    "$capture" --from "$work/db" 2> "$work/err"
    echo $? > "$work/status"
} | true
same "a reader that closes early" "3|" "$(cat "$work/status")|$(cat "$work/err")"

status() { "$@" > /dev/null 2>&1; echo $?; }
same "no arguments" 2 "$(status "$capture")"
same "an unknown option" 2 "$(status "$capture" --none)"
same "--all with a device" 2 "$(status "$capture" --all x)"
same "--from without a file" 2 "$(status "$capture" --from)"
same "--walk with an action" 2 "$(status "$capture" --walk --action add --sysfs "$sys" /dev/null)"
same "--walk with --kernel" 2 "$(status "$capture" --kernel --walk --sysfs "$sys" /dev/null)"
same "--from with --sysfs" 2 "$(status "$capture" --from "$work/db" --sysfs "$sys")"
same "--from with --all" 2 "$(status "$capture" --from "$work/db" --all)"
same "an empty action" 2 "$(status "$capture" --action '' --sysfs "$sys" /dev/null)"
same "--help" 0 "$(status "$capture" --help)"
same "--version is that of devdry" "$("$program" --version | sed 's/ /-capture /')" "$("$capture" --version)"
same "-V" "$("$capture" --version)" "$("$capture" -V)"
mkdir "$work/alone" && cp "$capture" "$work/alone"
same "without devdry-capture.awk" "1
devdry-capture: $work/alone/../share/devdry/devdry-capture.awk: can't be read" "$(ends "$work/alone/devdry-capture" --all)"
