#!/usr/bin/env bash
# Runs a command beside the udevd of systemd 257, after this has handled an event of each device of the machine: in namespaces
# of their own, where `udevadm` asks that udevd. Nothing of the machine is changed: udevd has nodes of its own in place of
# /dev, a /sys that it can't write to, no modules to load, and no network interface of the machine, only `lo` and those that
# are made here. The machine's devices are told to announce themselves, by their files `uevent`, which is all that is written.
# usage: bench/udevd.sh ROOT COMMAND..
# ROOT is a folder into which bench/udev_root.sh has unpacked udev; its database is compiled there. It needs root and iproute2.
set -euo pipefail
if [ "${inside:-}" != yes ]; then
    root=$(realpath "$1")
    shift
    [ -e "$root/usr/lib/udev/hwdb.bin" ] || chroot "$root" /usr/bin/systemd-hwdb update --usr
    exec env inside=yes unshare --mount --net --pid --fork --kill-child --mount-proc "$0" "$root" "$@"
fi
unset inside
root=$1
shift
mount -t sysfs sysfs /sys
for folder in sys proc dev run tmp; do mkdir -p "$root/$folder"; done
mount --bind /sys "$root/sys" && mount -o remount,bind,ro "$root/sys"
mount --bind /proc "$root/proc"
for folder in dev run tmp; do mount -t tmpfs tmpfs "$root/$folder"; done

# the nodes that the kernel would make
for kind in block char; do
    for device in "/sys/dev/$kind"/*; do
        node=$root/dev/$(sed -n 's/^DEVNAME=//p' "$device/uevent")
        numbers=${device##*/}
        mkdir -p "${node%/*}"
        mknod "$node" "${kind:0:1}" "${numbers%:*}" "${numbers#*:}"
    done
done
mkdir -p "$root/etc" && cp /etc/passwd /etc/group "$root/etc"

# interfaces of several kinds, as far as the kernel has them
for words in 'dummy0 type dummy' 'veth0 type veth peer name veth1' 'br0 type bridge' 'bond7 type bond' 'lo.5 link lo type vlan id 5'; do
    # shellcheck disable=SC2086
    ip link add $words 2> /dev/null || true
done

mkdir "$root/tmp/bin"
printf '#!/bin/sh\nSYSTEMD_IGNORE_CHROOT=1 exec chroot %q /usr/bin/udevadm "$@"\n' "$root" > "$root/tmp/bin/udevadm"
chmod +x "$root/tmp/bin/udevadm"
PATH=$root/tmp/bin:$PATH
SYSTEMD_IGNORE_CHROOT=1 chroot "$root" /usr/lib/systemd/systemd-udevd 2> "$root/tmp/log" &
until [ -e "$root/run/udev/control" ]; do sleep 0.1; done
find /sys/devices -name uevent | sort | while IFS= read -r file; do echo add > "$file" 2> /dev/null || true; done
udevadm settle
"$@"
