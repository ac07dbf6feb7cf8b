#!/usr/bin/env bash
# tools/devdry-capture: what a block has of the machine itself, over a tree like /sys and programs of our own.
set -uo pipefail
# shellcheck source=lib.sh
. "$(dirname "$0")/lib.sh"
# shellcheck source=sys_tree.sh
. "$(dirname "$0")/sys_tree.sh"

# A copy of the script in which the tree takes the place of /sys, and a file that of the kernel's command line; `uname`, `ip`,
# `ethtool` and `systemd-detect-virt` say what the files below `machine` hold, and fail without one.
mkdir -p "$work/own" "$work/machine"
sed "s|sysfs=/sys udevadm|sysfs=$sys udevadm|; s|=/proc/cmdline|=$work/machine/cmdline|" "$capture" > "$work/own/capture"
cp "$capture"*.awk "$work/own"
# shellcheck disable=SC2016
for tool in uname ip ethtool; do printf '#!/bin/sh\ncat "%s/machine/%s$1"\n' "$work" $tool > "$work/own/$tool"; done
printf '#!/bin/sh\nexit 1\n' > "$work/own/udevadm"
# shellcheck disable=SC2016
printf '#!/bin/sh\ncat "%s/machine/virt$1"\n' "$work" > "$work/own/systemd-detect-virt"
chmod +x "$work/own"/*
own() { PATH=$work/own:$PATH sh "$work/own/capture" "$@" 2> /dev/null; }
card_of=$sys/class/net/eth0
constants() { own --kernel "$card_of" | grep '^K: ' | grep -v '^K: bus='; }

# The names of systemd for what uname calls a machine; one that it does not know has none.
echo none > "$work/machine/virt"
while read -r machine name; do
    echo "$machine" > "$work/machine/uname-m"
    same "the architecture of $machine" "${name:+K: arch=$name
}K: virt=none" "$(constants)"
done << 'END'
x86_64 x86-64
i386 x86
i686 x86
aarch64 arm64
aarch64_be arm64-be
armv7l arm
armv8b arm-be
ppc64le ppc64-le
ppc64 ppc64
riscv64 riscv64
s390x s390x
loongarch64 loongarch64
mips64 mips64
sparc64 sparc64
sh4a sh
what
END
rm "$work/machine/uname-m"
same "without a name of the machine" "K: virt=none" "$(constants)"
echo kvm > "$work/machine/virt" && echo sev > "$work/machine/virt--cvm"
same "virtualization" "K: virt=kvm
K: cvm=sev" "$(constants)"
rm "$work/machine"/virt*
same "a systemd-detect-virt that fails" "" "$(constants)"
echo 'not a name' > "$work/machine/virt"
same "a systemd-detect-virt that says something else" "" "$(constants)"
rm "$work/machine/virt"

# The kernel's version, and its whole command line (test_capture_secrets.sh has words that are secrets).
echo 6.18.44-fc-v973 > "$work/machine/uname-r"
same "the version of the kernel" "K: kernel=6.18.44-fc-v973" "$(constants)"
rm "$work/machine/uname-r"
said() {
    printf '%s\n' "$1" > "$work/machine/cmdline"
    constants
}
words='BOOT_IMAGE=/vmlinuz nomodeset quiet * net.ifnames=0 -- x'
same "the command line" "K: cmdline=$words" "$(said "$words")"
same "the words answer IMPORT{cmdline}" "env nomodeset=1" \
    "$(echo 'IMPORT{cmdline}="nomodeset"' > "$work/r.rules"; said 'nomodeset x' | { printf 'C: add\nP: /d\nU: m\n'; cat; } \
        | "$program" events --udev -r "$work/none" "$work/r.rules" | grep nomodeset)"
rm "$work/machine/cmdline"

# What ip and ethtool say of an interface (as they did of a veth pair, one in a bridge, and cards of virtio and of a PC).
while IFS='|' read -r link permanent told; do
    rm -f "$work/machine/ip-details" "$work/machine/ethtool-P"
    [ "$link" = - ] || printf '%s\n' "$link" > "$work/machine/ip-details"
    [ "$permanent" = - ] || printf '%s\n' "$permanent" > "$work/machine/ethtool-P"
    same "an interface: $link, $permanent" "$(printf '%b' "$told")" "$(own --kernel "$card_of" | grep '^K: [kp]e*[ir]')"
done << 'END'
[{"ifname":"eth0","ifalias":"a \"info_kind\":\"no\"","linkinfo":{"info_kind":"veth"}}]|Permanent address: not set|K: kind=veth\nK: permaddr=
[{"ifname":"eth0","linkinfo":{"info_kind":"veth","info_slave_kind":"bridge"}}]|-|K: kind=veth
[{"ifname":"eth0","linkinfo":{"info_slave_kind":"bridge"},"parentbus":"pci"}]|Permanent address: 02:fc:00:00:0A:01|K: kind=\nK: permaddr=02:fc:00:00:0A:01
-|Permanent address: 00:00|K: permaddr=00:00
-|Permanent address: x y|
-|-|
END

# Each device has the constants, behind everything else; --sysfs and --from are about other machines, and --walk prints keys.
echo x86_64 > "$work/machine/uname-m"
same "the constants are at the end" "K: arch=x86-64" "$(own "$card_of" | sed '/^$/d' | tail -n 1)"
same "each device has them" "$(own --all | grep -c '^C: ')" "$(own --all | grep -c '^K: arch=x86-64$')"
same "--sysfs: no constants" "K: bus=pci" "$(own --sysfs "$sys" "$card_of" | grep '^K: ')"
same "--from: no constants" "" "$(own --from "$work/db" | grep '^K: ')"
same "--walk: no constants" "" "$(own --walk "$card_of" | grep 'K: \|arch')"

# What rules ask by the name of a device: on the event device alone.
device /devices/virtual/dmi/id dmi - MODALIAS=dmi:bvnX
mkdir -p "$sys/class/dmi" && ln -s "$sys/devices/virtual/dmi/id" "$sys/class/dmi/id"
printf 'dmi:bvnX:svnMaker:pnBook:\n' > "$sys/devices/virtual/dmi/id/modalias"
mkdir -p "$sys/firmware/devicetree/base"
printf 'maker,board\000maker,chip\000' > "$sys/firmware/devicetree/base/compatible"
same "the modalias of the machine, and the first of what its device tree is compatible with" "A: [dmi/id]modalias=dmi:bvnX:svnMaker:pnBook:
A: [devicetree/base]compatible=maker,board" "$("$capture" --sysfs "$sys" "$card_of" | grep '^A: \[')"
same "they are of the event device" "P: $card/net/eth0" "$("$capture" --sysfs "$sys" "$card_of" | grep '^P: \|^A: \[' | grep -B 1 '^A: \[dmi' | head -n 1)"
same "they are no keys" "" "$("$capture" --walk --sysfs "$sys" "$card_of" | grep 'dmi')"
# shellcheck disable=SC2016
echo 'ATTR{[dmi/id]modalias}=="dmi:*:svnMaker:*", TEST=="[dmi/id]modalias", ENV{A}="$attr{[devicetree/base]compatible}"' > "$work/r.rules"
same "rules find them" "env A=maker,board" \
    "$("$capture" --sysfs "$sys" "$card_of" | "$program" events --udev -r "$work/none" "$work/r.rules" | grep '^env A=\|note')"
for shell in dash 'bash --posix' 'busybox sh'; do
    if has "${shell%% *}"; then
        # shellcheck disable=SC2086
        same "the machine by $shell" "$(own "$card_of")" "$(PATH=$work/own:$PATH $shell "$work/own/capture" "$card_of" 2> /dev/null)"
    fi
done
