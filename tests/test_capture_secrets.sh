#!/usr/bin/env bash
# tools/devdry-capture prints no secret: what the kernel gives to root alone, unless a builtin of udev looks at it; and no
# line for what can't be read.
set -uo pipefail
# shellcheck source=lib.sh
. "$(dirname "$0")/lib.sh"
# shellcheck source=sys_tree.sh
. "$(dirname "$0")/sys_tree.sh"

# plain PATH: a device without a subsystem
plain() { mkdir -p "$sys$1" && : > "$sys$1/uevent"; }

# A disk of an iSCSI session, and devices of other kinds that hold secrets or what a builtin looks at.
session=/devices/platform/host3/session1
plain $session
device $session/iscsi_session/session1 iscsi_session -
plain $session/connection1:0
device $session/connection1:0/iscsi_connection/connection1:0 iscsi_connection -
own=/devices/platform/host3/session2/iscsi_session/session2
device $own iscsi_session -
lun=$session/target3:0:0/3:0:0:1
device $lun scsi sd DEVTYPE=scsi_device
device $lun/block/sdc block - DEVNAME=sdc
controller=/devices/virtual/nvme-fabrics/ctl/nvme5
device $controller nvme -
device $controller/nvme5n1 block - DEVNAME=nvme5n1
device $controller/ng5n1 nvme-generic - DEVNAME=ng5n1
dock=$pci/0000:00:0d.0/domain0/0-0/0-1
device $dock thunderbolt - DEVTYPE=thunderbolt_device
device $dock/0-1.1 thunderbolt - DEVTYPE=thunderbolt_service
device $dock/0-1.2 thunderbolt - DEVTYPE=thunderbolt_service
dmi=/devices/virtual/dmi/id
device $dmi dmi -
firmware=/devices/virtual/firmware-attributes/bios
device $firmware firmware-attributes -
host=$pci/0000:00:17.0/ata1/host0
plain $pci/0000:00:17.0/ata1
device $pci/0000:00:17.0/ata1/ata_port/ata1 ata_port -
for class in fc_transport sas_device sas_port; do device $host/target0:0:0/$class/one $class -; done
device $host scsi - DEVTYPE=scsi_host
device $host/target0:0:0 scsi - DEVTYPE=scsi_target
vmbus=/devices/LNXSYSTM:00/VMBUS:00/one
device $vmbus vmbus -
crypto=/devices/ap/card00
device $crypto ap -
keys=$keyboard/1-1:1.0/input/input7

# What is in no block whatever its mode, also if it comes from a record: DEVICE NAME.
by_name=(
    "$session iscsi_session/session1/"{password,password_in,username,username_in}
    "$own "{password,password_in,username,username_in}
    "$controller "{dhchap_secret,dhchap_ctrl_secret,dhchap_other}
    "$firmware "{authentication/Admin/current_password,passphrase,my_secret,secrets/one}
    "$dock key"
    "$dmi "{product_uuid,product_serial,board_serial,chassis_serial}
    "$card "{Password,SECRET,PassPhrase,passwd,pwd,bios_PWD,psk,wpa_psk,WpaPsk,api_token,Token,private,is_private,credentials,config_info}
    "$card/net/eth0 "{key,pin,PIN,Key,sub/key,ltk,wep_key,wepkey,tls_key,hostkey,link_key,tokens/0000_value,Private/one,DHCHAP_x,UserName}
    "$dock/0-1.1 "{pin,psk}
)
# What is in no block, as nobody but root may read it: DEVICE NAME MODE.
by_mode=(
    "$card closed 600"
    "$card closed_4 400"
    "$card closed_2 200"
    "$card deep/er/closed 600"
    "$card serial 600"
    "$card/net/eth0 label 600"
    "$dmi idVendor 600"
    "$dock/0-1.2 key 600"
    "$host/target0:0:0 fc_transport/one/node_name 600"
)
# What is printed: what a builtin looks at, even if only root may read it, and what others may read.
printed=(
    "$session iscsi_session/session1/targetname 600"
    "$session connection1:0/iscsi_connection/connection1:0/"{persistent_address,persistent_port}" 600"
    "$pci/0000:00:17.0/ata1 ata_port/ata1/port_no 600"
    "$host/target0:0:0 "{fc_transport/one/port_name,sas_port/one/num_phys,sas_device/one/sas_address}" 600"
    "$host/target0:0:0 sas_device/one/phy_identifier 600"
    "$lun "{vendor,model,type,rev,ieee1394_id}" 600"
    "$vmbus device_id 600"
    "$crypto "{type,ap_functions}" 600"
    "$controller/nvme5n1 nsid 600"
    "$controller/ng5n1 nsid 600"
    "$keyboard "{idVendor,idProduct,bcdDevice,manufacturer,product,serial,speed,bDeviceProtocol}" 600"
    "$keyboard/1-1:1.0 bInterface"{Number,Class,SubClass}" 600"
    "$keys "{capabilities/ev,capabilities/abs,capabilities/rel,capabilities/key,properties,id/bustype}" 600"
    "$card/net/eth0 "{iflink,type,addr_assign_type,address,dev_port,dev_id,phys_port_name}" 600"
    "$card "{acpi_index,index,label,ari_enabled,function_id,modalias,firmware_node/sun}" 600"
    "$dock unique_id 444"
    "$dock/0-1.1 key 444"
    "$dmi modalias 444"
    "$card product_serial 444"
    "$card "{keys,pins/one,pinctrl,input_key,key_code,monkey,keyboard/one,spin,username_of/one}" 444"
    "$card for_a_group 640"
    "$card for_others 604"
    "$card deep/er/open 644"
)

# write TEXT NUMBER PATH NAME MODE: the attribute, with a value that is only its own
write() {
    mkdir -p "$(dirname "$sys$3/$4")" && rm -f "$sys$3/$4"
    printf '%s-%03d\n' "$1" "$2" > "$sys$3/$4" && chmod "$5" "$sys$3/$4"
}
devices=()
for place in "${!by_name[@]}"; do
    read -r path name <<< "${by_name[place]}"
    write name "$place" "$path" "$name" 444
    devices+=("$path")
done
for place in "${!by_mode[@]}"; do
    read -r path name mode <<< "${by_mode[place]}"
    write mode "$place" "$path" "$name" "$mode"
    devices+=("$path")
done
for place in "${!printed[@]}"; do
    read -r path name mode <<< "${printed[place]}"
    write open "$place" "$path" "$name" "$mode"
    devices+=("$path")
done
write own 1 $session/iscsi_session/session1 initiatorname 444
write own 2 $session/connection1:0/iscsi_connection/connection1:0 address 444
mapfile -t devices < <(printf '%s\n' "${devices[@]}" | sort -u)

# values: those of this test among what is captured, each once, between blanks
values() { printf ' %s' "$(grep -oE '(name|mode|open)-[0-9]{3}' | sort -u | tr '\n' ' ')"; }
# by_options OPTION..: the blocks or keys of these devices, by their folders
by_options() { "$capture" "$@" --sysfs "$sys" "${devices[@]/#/$sys}" 2> /dev/null; }
all=$("$capture" --kernel --all --sysfs "$sys" 2> /dev/null)
# A record of the same attributes; of a device the subsystem comes last, where a secret can't be told before.
for path in "${devices[@]}"; do
    printf 'P: %s\n' "$path"
    for row in "${by_name[@]}" "${printed[@]}"; do
        read -r of name mode <<< "$row"
        if [ "$of" = "$path" ]; then printf 'A: %s=%s\\n\n' "$name" "$(< "$sys$path/$name")"; fi
    done
    if [ -h "$sys$path/subsystem" ]; then printf 'E: SUBSYSTEM=%s\n' "$(basename "$(readlink "$sys$path/subsystem")")"; fi
    sed -n 's/^DEVTYPE/E: &/p' "$sys$path/uevent"
    echo
done > "$work/record"
declare -A found=(
    [named]=$(by_options | values)
    [kernel]=$(by_options --kernel | values)
    [walk]=$(by_options --walk | values)
    [all]=$(values <<< "$all")
    [record]=$("$capture" --from "$work/record" 2> /dev/null | values)
    [walk_of_record]=$("$capture" --walk --from "$work/record" 2> /dev/null | values)
)
# ways VALUE WAY..: those that print the value
ways() {
    local value=$1 way
    shift
    for way in "$@"; do if [[ ${found[$way]} = *" $value "* ]]; then printf ' %s' "$way"; fi; done
}
for place in "${!by_name[@]}"; do
    same "never printed: ${by_name[place]}" "" "$(ways "$(printf 'name-%03d' "$place")" named kernel walk all record walk_of_record)"
done
for place in "${!by_mode[@]}"; do
    same "for root alone: ${by_mode[place]}" "" "$(ways "$(printf 'mode-%03d' "$place")" named kernel walk all)"
done
for place in "${!printed[@]}"; do
    same "printed: ${printed[place]}" " named kernel walk all record walk_of_record" \
        "$(ways "$(printf 'open-%03d' "$place")" named kernel walk all record walk_of_record)"
done
# Of a session and its connection a block of the disk has only what a builtin looks at; their own blocks have the rest.
same "the disk's session as a block has it" "P: $session
A: iscsi_session/session1/targetname=open-000
A: connection1:0/iscsi_connection/connection1:0/persistent_address=open-001
A: connection1:0/iscsi_connection/connection1:0/persistent_port=open-002
K: bus=scsi" \
    "$("$capture" --sysfs "$sys" "$sys$lun/block/sdc" 2> /dev/null | sed -n "/^P: ${session//\//\\/}\$/,\$p")"
same "the session itself" "A: initiatorname=own-001" \
    "$("$capture" --sysfs "$sys" "$sys$session/iscsi_session/session1" 2> /dev/null | grep own-)"
same "the connection itself" "A: address=own-002" \
    "$("$capture" --sysfs "$sys" "$sys$session/connection1:0/iscsi_connection/connection1:0" 2> /dev/null | grep own-)"

for shell in dash 'bash --posix' 'busybox sh'; do
    if has "${shell%% *}"; then
        # shellcheck disable=SC2086
        same "the same by $shell" "$all" "$($shell "$capture" --kernel --all --sysfs "$sys" 2> /dev/null)"
    fi
done
for awk in mawk gawk 'busybox awk' original-awk; do
    if has "${awk%% *}"; then
        mkdir -p "$work/bin" && printf '#!/bin/sh\nexec %s "$@"\n' "$awk" > "$work/bin/awk" && chmod +x "$work/bin/awk"
        same "the same by $awk" "$all" "$(PATH=$work/bin:$PATH "$capture" --kernel --all --sysfs "$sys" 2> /dev/null)"
    fi
done

# Folders whose names have blanks and signs of patterns.
odd="/devices/platform/a b*[c]"
device "$odd" leds -
write odd 1 "$odd" 'x y/closed' 600
write odd 2 "$odd" 'x y/open' 644
same "folders with blanks and signs" "A: x y/open=odd-002" "$("$capture" --sysfs "$sys" "$sys$odd" 2> /dev/null | grep odd-)"

# Properties, by the same names: those of the kernel, those that udev has stored, and those of answers.
gone=(WIFI_PASSWORD Wifi_Passphrase MY_SECRET ROOTPWD WPA_PSK API_TOKEN PRIVATE_DATA CREDENTIAL KEY PIN key WEP_KEY username ID_FS_PASSWORD
    .PASSWORD ID_SECURITY_TOKEN_2 ID_API_TOKEN)
kept=(ID_SECURITY_TOKEN ID_FIDO_TOKEN ID_INPUT_KEY ID_INPUT_KEYBOARD SYSTEMD_USER_WANTS KEYBOARD_KEY_70031 ID_FS_UUID MONKEY KEYS)
device /devices/properties leds - "${gone[@]/%/=gone}" "${kept[@]/%/=kept}"
{
    printf 'P: /devices/properties\nE: SUBSYSTEM=block\nE: DEVTYPE=disk\nN: sda\nE: USEC_INITIALIZED=1\n'
    printf 'E: %s=gone\n' "${gone[@]}"
    printf 'E: %s=kept\n' "${kept[@]}"
} > "$work/properties"
# names_of: the names of those that are printed
names_of() { sed -n 's/^\(R: 0\|[EBO]:\) \([^=]*\)=kept$/\2/p' | LC_ALL=C sort -u | tr '\n' ' '; }
of_kept=$(printf '%s\n' "${kept[@]}" | LC_ALL=C sort | tr '\n' ' ')
for options in '' --kernel --all; do
    folder=$sys/devices/properties
    if [ "$options" = --all ]; then folder=''; fi
    # shellcheck disable=SC2086
    said=$("$capture" $options --sysfs "$sys" $folder 2> /dev/null)
    same "properties that are secrets${options:+, $options}" 0 "$(grep -c '=gone' <<< "$said")"
    same "properties that are none${options:+, $options}" "$of_kept" "$(names_of <<< "$said")"
done
for options in '' --answers '--kernel --answers'; do
    # shellcheck disable=SC2086
    said=$("$capture" $options --from "$work/properties" 2> /dev/null)
    same "properties of a record that are secrets${options:+, $options}" 0 "$(grep -c '=gone' <<< "$said")"
    same "properties of a record that are none${options:+, $options}" "$of_kept" "$(names_of <<< "$said")"
done
same "an answer without a secret" "Q: builtin blkid
R: 0 ID_FS_UUID=kept" "$("$capture" --answers --from "$work/properties" 2> /dev/null | grep '^[QRO]')"
device /devices/keyboard input - KEY=10000 EV=3 PIN=gone
same "the keys of an input device" "E: KEY=10000
E: EV=3" "$("$capture" --sysfs "$sys" "$sys/devices/keyboard" 2> /dev/null | grep ^E)"
same "the keys of an input device in a record" "E: KEY=10000" \
    "$(printf 'P: /devices/k\nE: KEY=10000\nE: PIN=gone\nE: SUBSYSTEM=input\n' | "$capture" --from - 2> /dev/null | grep '^E: [KP]')"
same "an attribute of a record, written with escapes" "" \
    "$(printf 'P: /devices/k\nA: password=a\\n\nA: PIN=\\061\n' | "$capture" --from - 2> /dev/null | grep ^A)"

# What is left out is said once, of what is printed.
said() { { "$capture" "$@" > /dev/null; } 2>&1; }
same "secrets are counted" "devdry-capture: ${#gone[@]} lines for root alone or secret by name are left out" \
    "$(said --sysfs "$sys" "$sys/devices/properties")"
same "the secrets of a device are counted once" "devdry-capture: ${#gone[@]} lines for root alone or secret by name are left out" \
    "$(device /devices/properties/below leds - && said --sysfs "$sys" "$sys/devices/properties" "$sys/devices/properties/below")"
same "one secret" "devdry-capture: 1 line for root alone or secret by name is left out" \
    "$(said --sysfs "$sys" "$sys/devices/keyboard")"
same "a secret by its mode" "devdry-capture: 1 line for root alone or secret by name is left out" \
    "$(device /devices/closed leds - && write odd 3 /devices/closed any 400 && said --sysfs "$sys" "$sys/devices/closed")"
same "no secret" "" "$(device /devices/open leds - && said --sysfs "$sys" "$sys/devices/open")"
same "with secrets left out the status stays" 0 "$("$capture" --sysfs "$sys" "$sys/devices/keyboard" > /dev/null 2>&1; echo $?)"
same "keys have no properties, so none is left out of them" "" "$(said --walk --sysfs "$sys" "$sys/devices/keyboard")"

# Words of the kernel's command line that are secrets by their names, or an address with a password: without them it is a part.
mkdir -p "$work/own" && cp "$capture"*.awk "$work/own"
sed "s|sysfs=/sys udevadm|sysfs=$sys udevadm|; s|=/proc/cmdline|=$work/cmdline|" "$capture" > "$work/own/capture"
printf '#!/bin/sh\nexit 1\n' > "$work/own/udevadm" && chmod +x "$work/own"/*
line() { printf '%s\n' "$1" > "$work/cmdline" && PATH=$work/own:$PATH "$work/own/capture" "$sys/devices/open" 2>&1 | grep 'cmdline\|word'; }
while IFS='|' read -r words left number; do
    same "the command line $words" "devdry-capture: $number left out
K: cmdline.part=$left" "$(line "$words" | LC_ALL=C sort -r | sed 's/ of the command line that may be secret / /')"
done << 'END'
nomodeset rd.luks.key=gone my.password=gone wpa-psk=gone pin=1 PIN=2 pin|nomodeset|6 words are
quiet password="a b" splash|quiet splash|1 word is
quiet password="a b splash|quiet|1 word is
token='a "b' x=1 c' quiet||1 word is
x="a b" psk=gone y='c  d'|x="a b" y='c d'|1 word is
netroot=iscsi:user:gone@10.0.0.1::3260:: proxy=http://a:b@c quiet|quiet|2 words are
END
for words in '' 'quiet  splash' 'crashkernel=2G-4G:320M@16M root=UUID=7-8' 'rd.luks.uuid=1 keys=2' 'x="a b" -- --flag'; do
    same "the whole command line ${words@Q}" "K: cmdline=$words" "$(line "$words")"
done

# Without find, nothing says what is for root alone.
mkdir "$work/few"
for tool in awk basename cat dirname od readlink sort tr; do ln -s "$(command -v $tool)" "$work/few"; done
same "without find" "1
devdry-capture: there is no find, which says what is for root alone" "$(PATH=$work/few ends "$capture" --sysfs "$sys" "$sys$card")"

# Files that can't be read, as a user for whom they are closed.
write open 0 "$keyboard" descriptors 644
write open 1 "$card" config 644
constants() { "${as[@]}" "$work/tools/devdry-capture" --sysfs "$sys" "$sys$1" 2> /dev/null | grep '^K: /'; }
as=()
if [ "$(id -u)" = 0 ]; then as=(setpriv --reuid=65534 --regid=65534 --clear-groups); fi
if [ ${#as[@]} = 0 ] || has setpriv; then
    mkdir "$work/tools" && cp "$capture" "$capture"*.awk "$work/tools" && chmod 755 "$work" "$work/tools"
    same "descriptors that can be read" "K: $keyboard/descriptors=6f70656e2d3030300a" "$(constants $keyboard)"
    same "a configuration that can be read" "K: $card/config=6f70656e2d3030310a" "$(constants $card/net/eth0)"
    chmod 0 "$sys$keyboard/descriptors" "$sys$card/config"
    same "descriptors that can't be read give no line" "" "$(constants $keyboard)"
    same "a configuration that can't be read gives no line" "" "$(constants $card/net/eth0)"
else
    skipped "descriptors and a configuration that can't be read" "root needs setpriv"
fi
: > "$sys$keyboard/descriptors" && chmod 644 "$sys$keyboard/descriptors"
same "descriptors without a byte give no line" "" "$("$capture" --sysfs "$sys" "$sys$keyboard" 2> /dev/null | grep '^K: /')"
