#!/usr/bin/env bash
# Each block that tools/devdry-capture prints is one that devdry events takes, with several devices of a kind in a chain, too.
set -uo pipefail
# shellcheck source=lib.sh
. "$(dirname "$0")/lib.sh"
# shellcheck source=sys_tree.sh
. "$(dirname "$0")/sys_tree.sh"

# file PATH: a file of one line below the tree; link PATH TARGET: a link, to a path below the tree
file() { mkdir -p "$(dirname "$sys$1")" && printf '1\n' > "$sys$1"; }
link() { mkdir -p "$(dirname "$sys$1")" && ln -s "$sys$2" "$sys$1"; }

# of_kind KIND PATH: a device of a kind, with all that builtins look at of such a one
of_kind() {
    local path=$2 name
    case $1 in
        pci)
            device "$path" pci vfio DRIVER=vfio MODALIAS=pci:v1
            for name in config acpi_index ari_enabled firmware_node/sun; do file "$path/$name"; done
            link "$path/physfn" /devices/physical
            link "$path/of_node" /firmware/devicetree/base/soc
            ;;
        net)
            device "$path" net - INTERFACE=eth0 IFINDEX=2
            file "$path/address"
            link "$path/of_node" /firmware/devicetree/base/soc
            ;;
        usb)
            device "$path" usb usb MAJOR=189 MINOR=1 DEVNAME=bus/usb/001/002 DEVTYPE=usb_device
            file "$path/descriptors"
            ;;
        nvme-subsystem)
            device "$path" nvme-subsystem -
            link "$path/nvme0" /devices/physical
            link "$path/nvme1" /devices/physical/net/eth9
            ;;
        scsi)
            device "$path" scsi sd DEVTYPE=scsi_host
            for name in ata_port fc_transport sas_device sas_port iscsi_session connection1/iscsi_connection; do
                plain "$path/$name/one" && file "$path/$name/one/port_no"
            done
            plain "$path/host1"
            ;;
        input) device "$path" input - MAJOR=13 MINOR=67 DEVNAME=input/event3 && file "$path/capabilities/ev" ;;
        block) device "$path" block - MAJOR=8 MINOR=0 DEVNAME=sda DEVTYPE=disk && file "$path/queue/rotational" ;;
        iscsi_session | ata_port | sas_port) device "$path" "$1" - ;;
        plain) plain "$path" ;;
    esac
}
plain() { mkdir -p "$sys$1" && : > "$sys$1/uevent"; }

kinds=(pci net usb nvme-subsystem scsi input block iscsi_session ata_port sas_port plain)
# What is elsewhere in /sys: slots, a device tree, a machine's name, and a physical function with a network device.
begin() {
    rm -rf "$sys"
    file /bus/pci/slots/1/address && file /bus/pci/slots/2/address
    file /firmware/devicetree/base/aliases/ethernet0 && file /firmware/devicetree/base/compatible && mkdir "$sys/firmware/devicetree/base/soc"
    file /devices/virtual/dmi/id/modalias && link /class/dmi/id /devices/virtual/dmi/id
    device /devices/physical pci - && device /devices/physical/net/eth9 net -
    for name in virtfn0 virtfn1; do link "/devices/physical/$name" /devices; done
    file /devices/physical/config && file /devices/physical/function_id
}

: > "$work/none.rules"
# taken: whether devdry events takes all blocks, and how many these are; each K: line is once in a block
taken() {
    local said
    said=$(tee "$work/blocks" | "$program" events -r "$work/none" "$work/none.rules" 2>&1)
    printf '%s, %s of %s, %s' $? "$(grep -c '^event ' <<< "$said")" "$(grep -c '^C: ' "$work/blocks")" \
        "$(awk '/^C: / { split("", told) } /^K: / { sub(/=.*/, ""); if (told[$0]++) twice = "K: twice" } END { print twice }' "$work/blocks")"
}

# Two and three devices of each kind in a chain, then each kind below each other, and all in one.
begin
for kind in "${kinds[@]}"; do
    path=/devices/$kind
    for level in 1 2 3; do of_kind "$kind" "$path" && path+=/a/$level; done
    for below in "${kinds[@]:0:6}"; do
        path=/devices/$kind-$below
        for of in "$kind" "$below" "$below"; do of_kind "$of" "$path" && path+=/b; done
    done
done
path=/devices/all
for kind in "${kinds[@]}" "${kinds[@]}"; do of_kind "$kind" "$path" && path+=/c; done
number=$(find "$sys/devices" -name subsystem | wc -l)
same "chains of all kinds" "0, $number of $number, " "$("$capture" --sysfs "$sys" --all 2> "$work/said" | taken)"
same "chains of all kinds give no other message than of secrets" "" "$(grep -v 'secret by name are left out' "$work/said")"
same "chains of all kinds, with --kernel" "0, $number of $number, " "$("$capture" --kernel --sysfs "$sys" --all 2> /dev/null | taken)"
for kind in "${kinds[@]}"; do
    same "three of $kind" "0, 1 of 1, " "$("$capture" --sysfs "$sys" "$sys/devices/$kind/a/1/a/2" 2> /dev/null | taken)"
done

# Two network devices above each other, in full.
begin
rm -rf "$sys/class" "$sys/firmware/devicetree/base/compatible"
device /devices/a net - INTERFACE=one && device /devices/a/b net - INTERFACE=two
same "two network devices" "C: add
P: /devices/a/b
U: net
A: subsystem=net
E: INTERFACE=two
K: /bus/pci/slots=
K: /bus/pci/slots/1/address=1
K: /bus/pci/slots/2/address=1
K: /firmware/devicetree/base/aliases=
K: /firmware/devicetree/base/aliases/ethernet0=1
P: /devices/a
U: net
A: subsystem=net
E: INTERFACE=one" "$("$capture" --sysfs "$sys" "$sys/devices/a/b")"

# An attribute whose name is that of one elsewhere.
mkdir -p "$sys/class/dmi" "$sys/devices/virtual/dmi/id" "$sys/devices/a/[dmi"
ln -s ../../devices/virtual/dmi/id "$sys/class/dmi/id" && printf 'of dmi\n' > "$sys/devices/virtual/dmi/id/modalias"
printf 'own\n' > "$sys/devices/a/[dmi/id]modalias"
same "an attribute with a name in brackets" "0, 1 of 1, " "$("$capture" --sysfs "$sys" "$sys/devices/a" 2> /dev/null | taken)"

# Device numbers that are none.
for number in 4294967296 99999999999999999999999999 1:2 -1 ''; do
    device "/devices/$number" mem - "MAJOR=$number" MINOR=1
    same "the device number ${number@Q}" "0, 1 of 1, " "$("$capture" --sysfs "$sys" "$sys/devices/$number" 2> /dev/null | taken)"
done

# A record, with all that one can say of a device, twice.
for path in /devices/a/b /devices/a /devices/a/b; do
    printf 'P: %s\nN: sda\nS: l\nE: SUBSYSTEM=net\nE: MAJOR=8\nE: MINOR=0\nE: TAGS=:a:b:a:\nE: USEC_INITIALIZED=1\nE: ID_FS_TYPE=x\n' "$path"
    printf 'A: a=1\nA: a=2\nH: config=00\nH: config=01\nL: driver=../a\nL: driver=../b\nU: net\nV: c\n\n'
done > "$work/record"
for options in '' --kernel --answers '--kernel --answers'; do
    # shellcheck disable=SC2086
    same "a record that says all twice${options:+, with $options}" "0, 2 of 2, " "$("$capture" $options --from "$work/record" | taken)"
done
