#!/usr/bin/env bash
# tools/devdry-capture --from, on what else udevadm info prints: the walk of -a, and JSON. The texts are those of udevadm 252 and
# 257 about one machine.
# shellcheck disable=SC1003,SC2016
set -uo pipefail
# shellcheck source=lib.sh
. "$(dirname "$0")/lib.sh"
capture=$top/tools/devdry-capture
cd "$work" || exit 1
# both COMMAND..: its status, what it prints, and after that what it says
both() {
    "$@" > printed 2> said
    printf '%s\n' $?
    sed '/^$/d' printed said
}
lacking="udevadm info -a tells no node, device number, property, tag or link, no attribute modalias, and none that begins with / or is not printable ASCII"

# udevadm info -a -n /dev/vda, shortened
cat > walk << 'END'

Udevadm info starts with the device specified by the devpath and then
walks up the chain of parent devices. It prints for every device
found, all possible attributes in the udev rules key format.
A rule to match, can be composed by the attributes of the device
and the attributes from one single parent device.

  looking at device '/devices/pci0000:00/0000:00:02.0/virtio1/block/vda':
    KERNEL=="vda"
    SUBSYSTEM=="block"
    DRIVER==""
    ATTR{cache_type}=="write back"
    ATTR{events}==""
    ATTR{inflight}=="       0        0"
    ATTR{mq/0/cpu_list}=="0, 1, 2, 3"
    ATTR{queue/scheduler}=="none [mq-deadline] kyber bfq "
    ATTR{serial}=="overlayblk"
    ATTR{size}=="536870912"

  looking at parent device '/devices/pci0000:00/0000:00:02.0/virtio1':
    KERNELS=="virtio1"
    SUBSYSTEMS=="virtio"
    DRIVERS=="virtio_blk"
    ATTRS{device}=="0x0002"
    ATTRS{status}=="0x0000000f"

  looking at parent device '/devices/pci0000:00/0000:00:02.0':
    KERNELS=="0000:00:02.0"
    SUBSYSTEMS=="pci"
    DRIVERS=="virtio-pci"
    ATTRS{driver_override}=="(null)"
    ATTRS{remove}=="(not readable)"
    ATTRS{rescan}=="(not readable)"
    ATTRS{vendor}=="0x1af4"

  looking at parent device '/devices/pci0000:00':
    KERNELS=="pci0000:00"
    SUBSYSTEMS==""
    DRIVERS==""
    ATTRS{waiting_for_supplier}=="0"

END
of_vda="C: add
P: /devices/pci0000:00/0000:00:02.0/virtio1/block/vda
U: block
A: cache_type=write back
A: events=
A: inflight=       0        0
A: mq/0/cpu_list=0, 1, 2, 3
A: queue/scheduler=none [mq-deadline] kyber bfq 
A: serial=overlayblk
A: size=536870912
P: /devices/pci0000:00/0000:00:02.0/virtio1
U: virtio
V: virtio_blk
A: device=0x0002
A: status=0x0000000f
P: /devices/pci0000:00/0000:00:02.0
U: pci
V: virtio-pci
A: driver_override=(null)
A: vendor=0x1af4
P: /devices/pci0000:00
A: waiting_for_supplier=0"
same "a walk: the device that was asked for, and what the text lacks" "0
$of_vda
devdry-capture: walk: $lacking" "$(both "$capture" --from walk)"
same "a walk with --kernel" "$of_vda" "$("$capture" --kernel --from walk 2> /dev/null)"
same "a parent, by its name" "C: change
P: /devices/pci0000:00/0000:00:02.0
U: pci
V: virtio-pci
A: driver_override=(null)
A: vendor=0x1af4
P: /devices/pci0000:00
A: waiting_for_supplier=0" "$("$capture" --action change --from walk 0000:00:02.0 2> /dev/null)"
same "the keys of a walk" 'ATTRS{driver_override}=="(null)"
ATTRS{vendor}=="0x1af4"' "$("$capture" --walk --from walk 2> /dev/null | grep 'ATTRS{[dv].*[rd]\(_override\|or\)}')"
same "blanks are lost, others are there, and lines end in CR LF" "$of_vda" \
    "$(sed 's/^ *//; s/$/ \t\r/' walk | "$capture" --from - 2> /dev/null)"
same "what stands around a walk is said" "devdry-capture: -:1: no line of a record
devdry-capture: -:43: no line of a record
devdry-capture: -: $lacking" "$({ echo 'me@there:~$ udevadm info -a -n /dev/vda'; cat walk; echo 'What do I do?'; } | "$capture" --from - 2>&1 > /dev/null)"
same "two walks of one machine" "P: /devices/pci0000:00/0000:00:02.0/virtio1/block/vda
P: /devices/pci0000:00/0000:00:02.0" \
    "$({ cat walk; sed -n "/0000:00:02.0':/,\$p" walk | sed '1s/parent device/device/; 1,/^$/s/^\( *[A-Z]*\)S\([{=]\)/\1\2/'; } | "$capture" --from - 2> /dev/null | grep -A 1 ^C: | grep ^P:)"

# udevadm info -n /dev/vda, with links and tags, and properties that have everything that JSON escapes
cat > record << END
P: /devices/pci0000:00/0000:00:02.0/virtio1/block/vda
M: vda
J: b254:0
U: block
T: disk
D: b 254:0
N: vda
L: 5
S: disk/by-id/x
S: disk/by-label/my\\x20disk
Q: 9
E: DEVPATH=/devices/pci0000:00/0000:00:02.0/virtio1/block/vda
E: DEVNAME=/dev/vda
E: DEVTYPE=disk
E: DISKSEQ=9
E: MAJOR=254
E: MINOR=0
E: SUBSYSTEM=block
E: USEC_INITIALIZED=1234
E: ID_FS_TYPE=ext4
E: ID_Q=a"b\\c	ü$(printf '\001')
E: DEVLINKS=/dev/disk/by-id/x /dev/disk/by-label/my\\x20disk
E: TAGS=:systemd:seat:
E: CURRENT_TAGS=:systemd:

P: /devices/pci0000:00/0000:00:02.0/virtio1
M: virtio1
R: 1
J: +virtio:virtio1
U: virtio
V: virtio_blk
E: DEVPATH=/devices/pci0000:00/0000:00:02.0/virtio1
E: SUBSYSTEM=virtio
E: DRIVER=virtio_blk
E: MODALIAS=virtio:d00000002v00001AF4

END
cat > short << 'END'
{"SYSNAME":"vda","DEVICE_ID":"b254:0","DEVPATH":"/devices/pci0000:00/0000:00:02.0/virtio1/block/vda","DEVNAME":"/dev/vda","DEVTYPE":"disk","DISKSEQ":"9","MAJOR":"254","MINOR":"0","SUBSYSTEM":"block","USEC_INITIALIZED":"1234","ID_FS_TYPE":"ext4","ID_Q":"a\"b\\c\tü\u0001","DEVLINKS":"/dev/disk/by-id/x /dev/disk/by-label/my\\x20disk","TAGS":":systemd:seat:","CURRENT_TAGS":":systemd:"}
{"SYSNAME":"virtio1","SYSNUM":"1","DEVICE_ID":"+virtio:virtio1","DEVPATH":"/devices/pci0000:00/0000:00:02.0/virtio1","SUBSYSTEM":"virtio","DRIVER":"virtio_blk","MODALIAS":"virtio:d00000002v00001AF4"}
END
cat > pretty << 'END'
{
	"SYSNAME" : "vda",
	"DEVICE_ID" : "b254:0",
	"DEVPATH" : "/devices/pci0000:00/0000:00:02.0/virtio1/block/vda",
	"DEVNAME" : "/dev/vda",
	"DEVTYPE" : "disk",
	"DISKSEQ" : "9",
	"MAJOR" : "254",
	"MINOR" : "0",
	"SUBSYSTEM" : "block",
	"USEC_INITIALIZED" : "1234",
	"ID_FS_TYPE" : "ext4",
	"ID_Q" : "a\"b\\c\tü\u0001",
	"DEVLINKS" : "/dev/disk/by-id/x /dev/disk/by-label/my\\x20disk",
	"TAGS" : ":systemd:seat:",
	"CURRENT_TAGS" : ":systemd:"
}
{
	"SYSNAME" : "virtio1",
	"SYSNUM" : "1",
	"DEVICE_ID" : "+virtio:virtio1",
	"DEVPATH" : "/devices/pci0000:00/0000:00:02.0/virtio1",
	"SUBSYSTEM" : "virtio",
	"DRIVER" : "virtio_blk",
	"MODALIAS" : "virtio:d00000002v00001AF4"
}
END
# (a byte that a terminal obeys is in none)
of_record="C: add
P: /devices/pci0000:00/0000:00:02.0/virtio1/block/vda
U: block
N: vda
D: 254:0
E: DEVPATH=/devices/pci0000:00/0000:00:02.0/virtio1/block/vda
E: DEVNAME=/dev/vda
E: DEVTYPE=disk
E: DISKSEQ=9
E: MAJOR=254
E: MINOR=0
E: SUBSYSTEM=block
E: USEC_INITIALIZED=1234
E: ID_FS_TYPE=ext4
G: systemd
G: seat
S: disk/by-id/x
S: disk/by-label/my\\x20disk
P: /devices/pci0000:00/0000:00:02.0/virtio1
U: virtio
V: virtio_blk
E: DEVPATH=/devices/pci0000:00/0000:00:02.0/virtio1
E: SUBSYSTEM=virtio
E: DRIVER=virtio_blk
E: MODALIAS=virtio:d00000002v00001AF4"
for form in record short pretty; do
    same "a device of a $form" "$of_record" "$("$capture" --from $form vda 2> /dev/null)"
    same "all devices of a $form" "2 devdry-capture: 1 line with a control byte is left out" \
        "$("$capture" --from $form 2> said | grep -c ^C:) $(< said)"
    same "--kernel --answers of a $form" "N: vda
D: 254:0
B: USEC_INITIALIZED=1234
B: ID_FS_TYPE=ext4
Q: builtin blkid
R: 0 ID_FS_TYPE=ext4" "$("$capture" --kernel --answers --from $form /dev/vda 2> /dev/null | grep '^[NDBGSQR]:')"
done
same "a record and a walk of one device have it all" "$(sed '/^E: DEVTYPE/i A: size=536870912' <<< "$of_record" | grep -v -e MODALIAS | sort)" \
    "$(cat record walk | "$capture" --from - vda 2> said | sed '/^P: .*02.0$/,$d' | grep -v -e MODALIAS -e '^A: [^s]' -e '^A: s[^i]' | sort)"
same "then the text lacks nothing" "devdry-capture: 1 line with a control byte is left out" "$(< said)"

# udevadm info -a --json=short and --json=pretty: before each object there is the byte RS
printf '\036%s\n' \
    '{"DEVPATH":"/devices/pci0000:00/0000:00:02.0/virtio1/block/vda","KERNEL":"vda","SUBSYSTEM":"block","DRIVER":null,"ATTR":{"cache_type":"write back","events":"","inflight":"       0        0","mq/0/cpu_list":"0, 1, 2, 3","queue/scheduler":"none [mq-deadline] kyber bfq ","serial":"overlayblk","size":"536870912"}}' \
    '{"DEVPATH":"/devices/pci0000:00/0000:00:02.0/virtio1","KERNELS":"virtio1","SUBSYSTEMS":"virtio","DRIVERS":"virtio_blk","ATTRS":{"device":"0x0002","status":"0x0000000f"}}' \
    '{"DEVPATH":"/devices/pci0000:00/0000:00:02.0","KERNELS":"0000:00:02.0","SUBSYSTEMS":"pci","DRIVERS":"virtio-pci","ATTRS":{"driver_override":"(null)","remove":"(not readable)","rescan":"(not readable)","vendor":"0x1af4"}}' \
    '{"DEVPATH":"/devices/pci0000:00","KERNELS":"pci0000:00","SUBSYSTEMS":null,"DRIVERS":null,"ATTRS":{"waiting_for_supplier":"0"}}' > walk.short
cat > walk.pretty << END
$(printf '\036'){
	"DEVPATH" : "/devices/pci0000:00/0000:00:02.0/virtio1/block/vda",
	"KERNEL" : "vda",
	"SUBSYSTEM" : "block",
	"DRIVER" : null,
	"ATTR" : {
		"cache_type" : "write back",
		"size" : "536870912"
	}
}
$(printf '\036'){
	"DEVPATH" : "/devices/pci0000:00/0000:00:02.0/virtio1",
	"KERNELS" : "virtio1",
	"SUBSYSTEMS" : "virtio",
	"DRIVERS" : "virtio_blk",
	"ATTRS" : {
		"device" : "0x0002"
	}
}
END
same "a walk in JSON" "0
$of_vda
devdry-capture: walk.short: $lacking" "$(both "$capture" --from walk.short)"
same "a walk in JSON of several lines" "C: add
P: /devices/pci0000:00/0000:00:02.0/virtio1/block/vda
U: block
A: cache_type=write back
A: size=536870912
P: /devices/pci0000:00/0000:00:02.0/virtio1
U: virtio
V: virtio_blk
A: device=0x0002" "$("$capture" --from walk.pretty 2> /dev/null)"

# What strings of JSON may have.
# text STRING: the property with this string, and what is said
text() { printf '{"DEVPATH":"/devices/a","X":"%s"}\n' "$1" | "$capture" --from - 2>&1 | sed -n 's/^E: X=//p; /capture/p'; }
same "escapes" 'a"\/b' "$(text 'a\"\\\/b')"
same "a tab is kept" "$(printf 'a\tb')" "$(text 'a\tb')"
for sign in b f n r u0001 u001f u007f u0085; do
    same "a control byte as \\$sign is left out" "devdry-capture: 1 line with a control byte is left out" "$(text "a\\$sign")"
done
same "characters by their numbers" 'Aéß€😀z' "$(text '\u0041\u00e9\u00DF\u20ac\ud83d\ude00z')"
same "the ends of each length" "$(printf '\302\240 \337\277 \340\240\200 \357\277\277 \360\220\200\200 \364\217\277\277')" \
    "$(text '\u00a0 \u07ff \u0800 \uffff \ud800\udc00 \udbff\udfff')"
odd="devdry-capture: -:1: no object as udevadm prints it
devdry-capture: -: it has no device"
for string in '\u0000' '\ud800' '\udc00' '\ud800\u0041' '\ud800x' '\u12' '\uzzzz' '\q' '\' 'a","X":7,"Y":"' 'a","X":{"b":"c"},"Y":"' \
    'a","X":["b"],"Y":"' 'a","X":true,"Y":"' 'a",,"Y":"' 'a" "Y":"' 'a":"' 'a","Y":"b",}' 'a","ATTR":{"b":{"c":"d"}},"Y":"'; do
    same "what is no object of udevadm: $string" "$odd" "$(text "$string")"
done
same "objects around one that is none" "P: /devices/a
P: /devices/c
devdry-capture: -:2: no object as udevadm prints it" \
    "$(printf '{"DEVPATH":"/devices/%s","X":%s}\n' a '"1"' b 2 c '"3"' | "$capture" --from - 2> said | grep ^P:; cat said)"
same "objects of several lines around one that is none" "P: /devices/a
P: /devices/c
devdry-capture: -:7: no object as udevadm prints it" \
    "$(printf '{\n\t"DEVPATH" : "/devices/%s",\n\t"X" : %s\n}\n' a '"1"' b 2 c '"3"' | "$capture" --from - 2> said | grep ^P:; cat said)"
same "an object without a path" "devdry-capture: -:1: an object without DEVPATH
devdry-capture: -: it has no device" "$(echo '{"SYSNAME":"a","X":"b"}' | "$capture" --from - 2>&1)"
same "an object without an end" "devdry-capture: -:2: an object before this has no end
devdry-capture: -: it has no device" "$(printf '{"DEVPATH":"/devices/a",\n"X":"b"\n' | "$capture" --from - 2>&1)"
same "a record behind an object without an end" "P: /devices/b
devdry-capture: -:2: an object before this has no end" "$(printf '{"DEVPATH":"/devices/a",\nP: /devices/b\n' | "$capture" --from - 2> said | grep ^P; cat said)"
same "a path that is none" "devdry-capture: devices/a: no path of a device" "$(echo '{"DEVPATH":"devices/a","X":"b"}' | "$capture" --from - 2>&1)"
same "a path with a control byte" 'devdry-capture: /devices/a\x1Bb: its path has control bytes' \
    "$(echo '{"DEVPATH":"/devices/a\u001bb","X":"b"}' | "$capture" --from - 2>&1)"
same "many lines that are none" "devdry-capture: -:1: no object as udevadm prints it
devdry-capture: -:2: no object as udevadm prints it
devdry-capture: -:3: no object as udevadm prints it
devdry-capture: -: and 7 more
devdry-capture: -: it has no device" "$(for ((number = 0; number < 10; number++)); do echo '{7}'; done | "$capture" --from - 2>&1)"
same "an attribute whose name has =" "A: b=2
devdry-capture: -:2: the name of an attribute that can't stand in a block" \
    "$(printf "looking at device '/devices/a':\nATTR{a=c}==\"1\"\nATTR{b}==\"2\"\n" | "$capture" --from - 2> said | grep ^A; grep name said)"
same "an attribute with quotes and braces" 'A: a}b=x"==y{z}' \
    "$(printf "looking at device '/devices/a':\nATTR{a}b}==\"x\"==y{z}\"\n" | "$capture" --from - 2> /dev/null | grep ^A)"
same "keys without a device" "devdry-capture: -:1: no line of a record
devdry-capture: -: it has no device" "$(echo 'ATTR{a}=="b"' | "$capture" --from - 2>&1)"
same "keys behind a record are none of its device" "" "$(printf 'P: /devices/a\nATTR{a}=="b"\n' | "$capture" --from - 2> /dev/null | grep ^A)"

# Secrets, and letters of the script itself.
cat > secrets << 'END'
looking at device '/devices/a':
SUBSYSTEM=="net"
ATTR{password}=="gone"
ATTR{iscsi_session/session1/username}=="gone"
ATTR{kept}=="kept"
x: /devices/a/kept
k: /devices/a/config=gone
{"DEVPATH":"/devices/a","WIFI_PASSWORD":"gone","wpa_psk":"gone","MINE":"kept"}
{"DEVPATH":"/devices/a","KERNEL":"a","ATTR":{"key":"gone","more":"kept"}}
END
same "no secret is printed" "0
C: add
P: /devices/a
U: net
A: kept=kept
A: more=kept
E: DEVPATH=/devices/a
E: MINE=kept
devdry-capture: secrets:6: no line of a record
devdry-capture: secrets:7: no line of a record
devdry-capture: 5 lines for root alone or secret by name are left out" "$(both "$capture" --from secrets)"
# taken: whether devdry events takes the blocks
taken() { "$program" events -r none /dev/null > /dev/null 2>&1; echo $?; }
same "bytes at random behind a walk" 0 "$({
    cat walk
    head -c 20000 /dev/urandom | sed 's/^/    ATTR{a}=="/; s/$/"/'
    head -c 20000 /dev/urandom | sed "s/^/  looking at device '\\/devices\\//; s/$/':/"
    head -c 20000 /dev/urandom | sed 's/^/{"DEVPATH":"\/devices\//; s/$/"}/'
} | "$capture" --from - 2> said | taken)"
same "what is said of it can be shown" 0 "$(LC_ALL=C grep -acP '[\x00-\x08\x0b-\x1f\x7f]|\xc2[\x80-\x9f]' said)"

# The same by each shell and awk.
cat walk record short walk.short secrets > all
printf '{"DEVPATH":"/devices/%s","X":"%s"}\n' b 'A\u00e9\u20ac\ud83d\ude00\"\\' c '\u0000' d '\u0001' >> all
by_all=$(both "$capture" --from all)
for shell in dash 'bash --posix' 'busybox sh'; do
    # shellcheck disable=SC2086
    if has "${shell%% *}"; then same "the same by $shell" "$by_all" "$(both $shell "$capture" --from all)"; fi
done
for awk in mawk gawk 'busybox awk' original-awk; do
    if has "${awk%% *}"; then
        mkdir -p bin && printf '#!/bin/sh\nexec %s "$@"\n' "$awk" > bin/awk && chmod +x bin/awk
        same "the same by $awk" "$by_all" "$(PATH=$work/bin:$PATH both "$capture" --from all)"
    fi
done
