#!/usr/bin/env bash
# tools/devdry-capture --walk: the keys of devices, and that each holds for its device.
# shellcheck disable=SC1003,SC2016
set -uo pipefail
# shellcheck source=lib.sh
. "$(dirname "$0")/lib.sh"
# shellcheck source=sys_tree.sh
. "$(dirname "$0")/sys_tree.sh"

# The attributes of `cciss!c0d1` have everything that can go wrong in a value.
odd=$card/cciss0/block/cciss!c0d1
device "$odd" block - MAJOR=104 MINOR=16 'DEVNAME=cciss!c0d1'
# value NAME TEXT: an attribute
value() { printf '%s\n' "$2" > "$sys$odd/$1"; }
value a_quotes 'say "x"'
value b_slash '\back\slash'
value c_last 'C:\'
value d_pattern 'a*b?[c]'
value e_choice 'a|b\c'
value f_both '\"\'
value g_blanks '  Disk 7 '
value h_other "$(printf 't\tf\303\274r\377')"
value i_empty ''
value j_signs '$kernel %k {x}, #'
value k_class '[[:alpha:]]!'
value dev 104:16
value l%k 1
value 'm}' 1
printf '%016000d\n' 0 > "$sys$odd/o_long"
printf 'two\nlines\n' > "$sys$odd/p_lines"
mkdir "$sys$odd/power" "$sys$odd/statistics"
value stat '1 2 3'
value inflight '0 0'
value statistics/rx_bytes 12
value power/runtime_active_time 12
value power/runtime_status active
mkdir "$sys$odd/queue" && printf '0\n' > "$sys$odd/queue/rotational"
of_odd="# $odd
KERNEL==\"cciss/c0d1\"
SUBSYSTEM==\"block\"
"'ATTR{a_quotes}=="say \"x\""
ATTR{b_slash}=="\back\slash"
ATTR{c_last}=="C:[\\]"
ATTR{d_pattern}=="a[*]b[?][[]c]"
ATTR{e_choice}=="a?b[\\]c"
ATTR{f_both}=="[\\]\"[\\]"
ATTR{g_blanks}=="  Disk 7 "
ATTR{h_other}=="'"$(printf 't\tf\303\274r\377')"'"
ATTR{i_empty}==""
ATTR{j_signs}=="$kernel %k {x}, #"
ATTR{k_class}=="[[][[]:alpha:]]!"
# ATTR{l%k}: no rule can hold this name
# ATTR{m}}: no rule can hold this name
# ATTR{o_long}: too long for a rule
ATTR{power/runtime_status}=="active"
ATTR{queue/rotational}=="0"

'"# $card
KERNELS==\"0000:00:03.0\"
SUBSYSTEMS==\"pci\"
DRIVERS==\"e1000e\""
walked=$("$capture" --walk --sysfs "$sys" "$sys$odd")
same "the keys of a device and of its parent" "$of_odd" "$walked"
walk_of_disk="# $disk/block/sda
KERNEL==\"sda\"
SUBSYSTEM==\"block\"
ATTR{empty}==\"\"
ATTR{queue/rotational}==\"0\"
ATTR{size}==\"2048\"

# $disk
KERNELS==\"0:0:0:0\"
SUBSYSTEMS==\"scsi\"
DRIVERS==\"sd\"
ATTRS{model}==\"Disk 7  \"

# $pci/0000:00:17.0
KERNELS==\"0000:00:17.0\"
SUBSYSTEMS==\"pci\"
DRIVERS==\"ahci\"
ATTRS{vendor}==\"0x8086\""
same "the keys of several devices" "$walk_of_disk

$of_odd" "$("$capture" --walk --sysfs "$sys" "$sys$disk/block/sda" "$sys$odd" 2> /dev/null)"

# met DEVICE: those of its keys that are not a rule, and those that hold for a device other than their own, by devdry.
# Each is in a rule with the name of its device, which sets that name as a property.
met() {
    local walk block
    walk=$("$capture" --walk --sysfs "$sys" "$sys$1" 2> /dev/null)
    block=$("$capture" --sysfs "$sys" "$sys$1" 2> /dev/null)
    "$program" verify --no-summary - <<< "$walk" 2>&1
    awk '/^# \// { own = $2; sub(/.*\//, "", own); gsub(/!/, "/", own); next }
        /^#/ || !NF { next }
        { print $0 ", KERNELS==\"" own "\", ENV{K" ++n "}=\"$id\"" > rules; print "env K" n "=" own > wanted }
        END { if (!n) print "no key" > wanted }' rules="$work/walk.rules" wanted="$work/wanted" <<< "$walk"
    "$program" events -r "$work/none" "$work/walk.rules" <<< "$block" 2>&1 | grep '^env K[0-9]' \
        | diff <(sort "$work/wanted") <(sort)
}
for path in "$odd" "$disk/block/sda" "$disk/block/sda/sda1" "$keyboard/1-1:1.0/input/input7/event3" "$card/net/eth0"; do
    same "devdry reads each key of ${path##*/}, and each holds for its device" "" "$(met "$path")"
done
# The same by udev's reading of a value and by its patterns, which are those of the C library.
if has python3; then
    said=$("$capture" --walk --sysfs "$sys" "$sys$odd" | python3 -c '
import ctypes, re, sys
libc = ctypes.CDLL(None)
for line in sys.stdin.buffer.read().split(b"\n")[:-1]:
    found = re.fullmatch(rb"ATTR\{(.*?)\}==\"((?:\\\"|[^\"])*)\"", line)
    if found:
        value = found[2].replace(b"\\\"", b"\"")
        text = open(sys.argv[1].encode() + b"/" + found[1], "rb").read().rstrip(b"\n")
        glob = any(sign in value for sign in b"*?[")
        fits = [libc.fnmatch(part, text, 0) == 0 if glob else part == text for part in value.split(b"|")]
        print(found[1].decode()[:2], *fits)' "$sys$odd")
    same "each key holds as udev compares keys" "$(printf '%s_ True\n' a b c d e f g h i j k; printf '%s True\n' po qu)" "$said"
else
    skipped "each key holds as udev compares keys" "there is no python3"
fi

for shell in dash 'bash --posix' 'busybox sh'; do
    if has "${shell%% *}"; then
        # shellcheck disable=SC2086
        same "the keys of a device by $shell" "$walked" "$($shell "$capture" --walk --sysfs "$sys" "$sys$odd")"
    fi
done
for awk in mawk gawk 'busybox awk' original-awk; do
    if has "${awk%% *}"; then
        mkdir -p "$work/bin" && printf '#!/bin/sh\nexec %s "$@"\n' "$awk" > "$work/bin/awk" && chmod +x "$work/bin/awk"
        same "the keys of a device by $awk" "$walked" "$(PATH=$work/bin:$PATH "$capture" --walk --sysfs "$sys" "$sys$odd")"
    fi
done
