#!/usr/bin/env bash
# tools/devdry-capture prints nothing from outside the folder of --sysfs, whatever is in it: names with a newline, and links
# that lead out, at each place where it takes a path from the tree.
set -uo pipefail
# shellcheck source=lib.sh
. "$(dirname "$0")/lib.sh"
# shellcheck source=sys_tree.sh
. "$(dirname "$0")/sys_tree.sh"

# What lies outside: a folder that looks like a device of each kind, with a text that no line may have.
out=$work/outside
nl=$'\n'
mkdir -p "$out/net/eth9" "$out/class_of/dev9" "$out/0000:09:00.0/firmware_node"
for folder in "$out" "$out/net/eth9" "$out/class_of/dev9" "$out/0000:09:00.0" "$out/0000:09:00.0/firmware_node"; do
    printf 'NAME=canary\ncanary=canary\n' > "$folder/uevent"
    for name in secret_free sun modalias address acpi_index index function_id compatible port_no targetname persistent_port ethernet0; do
        printf 'canary\n' > "$folder/$name"
    done
    printf 'canary\000canary\000' > "$folder/nul"
    # (written as digits)
    for name in config descriptors; do printf 'canary' > "$folder/$name"; done
done
canary='canary|63616e617279'

# clean CASE: all devices, the keys of all, and each device by its folder, have nothing from outside; the device of the tree
# that is as it should be is printed still
clean() {
    local case=$1 said folders how
    mapfile -d '' folders < <(find "$sys" -name uevent -printf '%h\0')
    for how in --all --walk named named-walk; do
        case $how in
            --all) said=$(timeout 60 "$capture" --sysfs "$sys" --all 2>&1) ;;
            --walk) said=$(timeout 60 "$capture" --sysfs "$sys" --walk --all 2>&1) ;;
            named) said=$(timeout 60 "$capture" --sysfs "$sys" "${folders[@]}" 2> /dev/null) ;;
            named-walk) said=$(timeout 60 "$capture" --sysfs "$sys" --walk "${folders[@]}" 2> /dev/null) ;;
        esac
        same "$case, $how" "0 1 0" "$(grep -cE "$canary" <<< "$said") $(grep -cE '^(A: whole=|ATTR[{]whole[}]==)' <<< "$said") $(
            grep -cE "$out|^(# |P: )/?(etc|usr|outside|tmp|work)" <<< "$said"
        )"
    done
}

# begin: a new tree, with one device that is as it should be
begin() {
    rm -rf "$sys"
    device /devices/whole leds -
    printf 'yes\n' > "$sys/devices/whole/whole"
}

# Names with a newline: the second part of each is a path outside, or nothing.
begin
mkdir -p "$sys/devices/x$nl$out" "$sys/devices/whole/x$nl$out" "$sys/devices/y$nl$out/net/eth9" "$sys/devices/whole/sub/x$nl$out"
for folder in "$sys/devices/x$nl$out" "$sys/devices/whole/x$nl$out" "$sys/devices/y$nl$out/net/eth9"; do : > "$folder/uevent"; done
printf 'a\000b\000' > "$sys/devices/whole/sub/x$nl$out/nul"
clean "a folder with a newline and a path"
same "what is left out is counted" "devdry-capture: 4 names with a newline are left out" "$("$capture" --sysfs "$sys" --all 2>&1 > /dev/null)"
same "what is left out of one device is counted" "devdry-capture: 2 names with a newline are left out" \
    "$("$capture" --sysfs "$sys" "$sys/devices/whole" 2>&1 > /dev/null)"
same "with names left out the status stays" 0 "$("$capture" --sysfs "$sys" --all > /dev/null 2>&1; echo $?)"

begin
mkdir -p "$sys/devices/$nl" "$sys/devices/whole/$nl" "$sys/devices/z$nl"
for folder in "$sys/devices/$nl" "$sys/devices/whole/$nl" "$sys/devices/z$nl"; do : > "$folder/uevent"; done
clean "a folder whose name is a newline, or ends in one"

begin
for name in "nul${nl}$out/nul" "sun${nl}x: /devices/whole/whole" "a${nl}P: /etc" "b${nl}${nl}P: /devices/whole"; do
    mkdir -p "$(dirname "$sys/devices/whole/$name")"
    printf 'a\000b\000' > "$sys/devices/whole/$name"
    printf 'one\n' > "$sys/devices/whole/$name.text"
    chmod 600 "$sys/devices/whole/$name"
done
clean "files with newlines in their names"

# The same as lines that the second step would take for its own.
begin
for text in "a${nl}a: from_link=canary" "--help" "--version" "a${nl}P: /etc${nl}a: x=canary" "$nl" "" "a$nl"; do
    for link in driver subsystem module; do
        rm -f "$sys/devices/whole/$link"
        if [ -n "$text" ]; then ln -s -- "$text" "$sys/devices/whole/$link"; fi
    done
    same "links that say ${text@Q}" "0 1" "$("$capture" --sysfs "$sys" "$sys/devices/whole" 2>&1 |
        awk '/canary|Usage|usage|opyright|etc/ { odd++ } /^A: whole=/ { whole++ } END { print odd + 0, whole }')"
done

# Links that lead out: absolute, and by `..`.
up=$(realpath --relative-to "$sys/devices/whole" "$out")
for to in "$out" "$up"; do
    begin
    ln -s "$to/uevent" "$sys/devices/whole/link" && ln -s "$to" "$sys/devices/whole/folder"
    ln -s "$to" "$sys/devices/whole/device"
    mkdir -p "$sys/devices/linked"
    ln -s "$to/uevent" "$sys/devices/linked/uevent" && ln -s "$to" "$sys/devices/linked/inner"
    clean "links to files, folders and uevents"
    for link in driver module subsystem; do rm -f "$sys/devices/whole/$link" && ln -s "$to" "$sys/devices/whole/$link"; done
    same "the last names of driver, module and subsystem, and nothing behind them" "A: driver=outside
A: module=outside
A: subsystem=outside
A: whole=yes" "$("$capture" --sysfs "$sys" "$sys/devices/whole" | grep ^A:)"
    same "the same by all" "A: driver=outside
A: module=outside
A: subsystem=outside
A: whole=yes" "$("$capture" --sysfs "$sys" --all | grep ^A:)"
    rm "$sys/devices/whole/uevent" && ln -s "$to/uevent" "$sys/devices/whole/uevent"
    same "a device whose uevent is a link is none" 1 "$("$capture" --sysfs "$sys" "$sys/devices/whole" > /dev/null 2>&1; echo $?)"
done

# What builtins look at: kinds of devices, each with links in place of the files and folders that are read.
begin
function=/devices/0000:00:01.0
device $function pci -
device $function/net/eth0 net -
ln -s "$out/0000:09:00.0" "$sys$function/physfn"
ln -s "$out/firmware_node" "$sys$function/firmware_node"
ln -s "$out" "$sys$function/of_node" && ln -s "$out" "$sys$function/net/eth0/of_node"
ln -s "$out/config" "$sys$function/config"
mkdir -p "$sys/bus/pci/slots/one" && ln -s "$out/net" "$sys/bus/pci/slots/two" && ln -s "$out/net/eth9/address" "$sys/bus/pci/slots/one/address"
ln -s "$out/net/eth9" "$sys/bus/pci/slots/three"
mkdir -p "$sys/firmware/devicetree/base" && ln -s "$out" "$sys/firmware/devicetree/base/aliases"
ln -s "$out/compatible" "$sys/firmware/devicetree/base/compatible"
mkdir -p "$sys/class/dmi" && ln -s "$out" "$sys/class/dmi/id"
ln -s "$work" "$work/of_node" 2> /dev/null
clean "an interface whose links lead out"
# (a physical function in the tree with links of its own)
device /devices/0000:00:02.0 pci -
rm "$sys$function/physfn" && ln -s "$sys/devices/0000:00:02.0" "$sys$function/physfn"
for name in acpi_index index modalias function_id config; do ln -s "$out/$name" "$sys/devices/0000:00:02.0/$name"; done
ln -s "$out/0000:09:00.0/firmware_node" "$sys/devices/0000:00:02.0/firmware_node"
ln -s "$out" "$sys/devices/0000:00:02.0/virtfn0" && mkdir "$sys/devices/0000:00:02.0/virtfn1${nl}k: a=canary"
clean "a physical function whose links lead out"
# (the path is cut at the end of a name: what is left is a link)
mkdir "$sys/devices/p$nl" && ln -s "$out/0000:09:00.0" "$sys/devices/p"
rm "$sys$function/physfn" && ln -s "$sys/devices/p$nl" "$sys$function/physfn"
clean "a physical function with a newline at its end"
rm -rf "$sys/firmware/devicetree/base" "$sys/class/dmi"
mkdir -p "$sys/firmware/devicetree" && ln -s "$out" "$sys/firmware/devicetree/base" && ln -s "$out" "$sys/class/dmi"
clean "a device tree that is a link"

begin
device /devices/usb usb - && ln -s "$out/descriptors" "$sys/devices/usb/descriptors"
device /devices/nvme nvme-subsystem - && ln -s "$out" "$sys/devices/nvme/nvme0" && ln -s "../nvme1${nl}k: a=canary" "$sys/devices/nvme/nvme1"
mkdir "$sys/devices/nvme1${nl}k: a=canary" && : > "$sys/devices/nvme1${nl}k: a=canary/uevent"
device /devices/scsi scsi -
ln -s "$out" "$sys/devices/scsi/host1" && ln -s "$out" "$sys/devices/scsi/connection1" && ln -s "$out/class_of" "$sys/devices/scsi/ata_port"
mkdir "$sys/devices/scsi/sas_port" "$sys/devices/scsi/host2${nl}a: b=canary" "$sys/devices/scsi/fc_transport"
: > "$sys/devices/scsi/host2${nl}a: b=canary/uevent"
ln -s "$out/class_of/dev9" "$sys/devices/scsi/sas_port/one"
mkdir "$sys/devices/scsi/fc_transport/one" && ln -s "$out/uevent" "$sys/devices/scsi/fc_transport/one/uevent"
mkdir "$sys/devices/scsi/iscsi_connection" && ln -s "$out/class_of" "$out/iscsi_connection"
clean "USB, NVMe and SCSI devices whose links lead out"

# Devices by their names, by links and by paths.
begin
mkdir -p "$sys/class/net" "$sys/bus/net/devices" "$sys/class/more${nl}lines"
ln -s "$out/net/eth9" "$sys/class/net/eth9" && ln -s "$out/net/eth9" "$sys/bus/net/devices/eth8" && ln -s "$out/net" "$sys/class/odd"
ln -s "../../devices/whole" "$sys/class/more${nl}lines/eth7"
for device in eth9 eth8 dev9 "$out/net/eth9" "$sys/class/net/eth9" "$sys/devices/whole/../../../outside" "eth9${nl}eth8" "$sys/devices/whole$nl"; do
    same "a device outside: ${device@Q}" "1 0" "$(said=$("$capture" --sysfs "$sys" "$device" 2> /dev/null); echo "$? $(grep -c . <<< "$said")")"
done
same "a name by a class with a newline" "P: /devices/whole" "$("$capture" --sysfs "$sys" eth7 | grep ^P:)"
same "a folder with a newline in place of /sys" "1
devdry-capture: $work/a\\x0Ab: its path has a newline" "$(mkdir -p "$work/a${nl}b/devices" && ends "$capture" --sysfs "$work/a${nl}b" --all)"

# A record says paths, and none is read.
printf 'P: %s\nE: A=b\nA: c=d\n\nP: /devices/x\nx: %s\nA: whole=yes\nz: %s/nul=a\n' "$out" "$out" "$out" > "$work/record"
same "a record with a path of this machine" "0 1" \
    "$("$capture" --from "$work/record" 2>&1 | awk '/canary/ { odd++ } /^A: whole=/ { whole++ } END { print odd + 0, whole }')"
same "a record, asked for a path with a newline" "1 0" \
    "$(said=$("$capture" --from "$work/record" "/devices/x${nl}w: $out" 2> /dev/null); echo "$? $(grep -c "^C" <<< "$said")")"

# The same by each shell and awk, and by a user without rights.
begin
mkdir -p "$sys/devices/x$nl$out" "$sys/devices/whole/x$nl$out" "$sys/devices/$nl"
for folder in "$sys/devices/x$nl$out" "$sys/devices/whole/x$nl$out" "$sys/devices/$nl"; do : > "$folder/uevent"; done
ln -s "$out/0000:09:00.0" "$sys/devices/whole/physfn"
# both COMMAND..: what it prints, and after that its messages
both() { timeout 60 "$@" 2> "$work/said"; cat "$work/said"; }
all=$(both "$capture" --sysfs "$sys" --all)
for shell in dash 'bash --posix' 'busybox sh'; do
    # shellcheck disable=SC2086
    if has "${shell%% *}"; then same "the same by $shell" "$all" "$(both $shell "$capture" --sysfs "$sys" --all)"; fi
done
for awk in mawk gawk 'busybox awk' original-awk; do
    if has "${awk%% *}"; then
        mkdir -p "$work/bin" && printf '#!/bin/sh\nexec %s "$@"\n' "$awk" > "$work/bin/awk" && chmod +x "$work/bin/awk"
        same "the same by $awk" "$all" "$(PATH=$work/bin:$PATH both "$capture" --sysfs "$sys" --all)"
    fi
done
if has busybox; then
    mkdir -p "$work/box"
    for tool in find sort tr sed grep readlink od; do ln -sf "$(command -v busybox)" "$work/box/$tool"; done
    same "the same by the tools of busybox" "$all" "$(PATH=$work/box:$PATH both "$capture" --sysfs "$sys" --all)"
fi
as=()
if [ "$(id -u)" = 0 ]; then as=(setpriv --reuid=65534 --regid=65534 --clear-groups); fi
if [ ${#as[@]} = 0 ] || has setpriv; then
    mkdir "$work/tools" && cp "$capture" "$capture"*.awk "$work/tools" && chmod 755 "$work" "$work/tools"
    same "the same without rights" "$all" "$(both "${as[@]}" "$work/tools/devdry-capture" --sysfs "$sys" --all)"
else
    skipped "the same without rights" "root needs setpriv"
fi
