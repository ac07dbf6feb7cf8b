#!/usr/bin/env bash
# tools/devdry-capture prints nothing that a terminal obeys, neither in blocks nor in messages: no control byte but a tab, and
# none of U+0080 to U+009F, wherever a tree or a record has them.
set -uo pipefail
# shellcheck source=lib.sh
. "$(dirname "$0")/lib.sh"
# shellcheck source=sys_tree.sh
. "$(dirname "$0")/sys_tree.sh"

signs=($'\e]0;x\a' $'\r' $'\001' $'\177' $'\302\233m' $'\302\200' $'\302\237' $'\b')
# obeyed: the lines, of the standard input, that have such a sign
obeyed() { LC_ALL=C grep -acP '[\x00-\x08\x0b-\x1f\x7f]|\xc2[\x80-\x9f]'; }

# A tree with the sign in each kind of text.
tree() {
    local sign=$1 path=/devices/it/here
    rm -rf "$sys"
    device $path input "of$sign" "NAME=a${sign}b" "N${sign}=x" "$sign=x" 'KEPT=täglich' $'TAB=a\tb' "DEVNAME=a$sign" "MAJOR=$sign"
    printf '%s\n' "a${sign}b" > "$sys$path/value"
    printf 'täglich\n' > "$sys$path/plain"
    printf 'a\n' > "$sys$path/name$sign"
    printf 'a\n' > "$sys$path/equal$sign=x"
    printf 'a%sb\000c' "$sign" > "$sys$path/begun"
    printf 'a\000c' > "$sys$path/begun$sign"
    ln -s "../module/a$sign" "$sys$path/module"
    device /devices/it "sub$sign" - "DRIVER=a$sign" "SUBSYSTEM=a$sign" "TAGS=:a$sign:"
    device "/devices/na${sign}me" leds -
    device "/devices/na${sign}me/eth0" net -
    mkdir -p "$bus/pci/slots/a$sign" "$sys/class/leds" "$sys/class/tty" "$sys/class/dmi" "$sys/devices/virtual/dmi/id" "$sys/devices/it/closed$sign"
    printf '1\n' > "$bus/pci/slots/a$sign/address"
    printf 'dmi:%s\n' "$sign" > "$sys/devices/virtual/dmi/id/modalias"
    ln -s ../../devices/virtual/dmi/id "$sys/class/dmi/id"
    ln -s "../../devices/na${sign}me" "$sys/class/leds/led" && ln -s ../../devices/it/here "$sys/class/tty/twice"
    ln -s "../../devices/na${sign}me" "$sys/class/leds/twice"
    device /devices/it/net net - && ln -s "$sys/devices/na${sign}me" "$sys/devices/it/net/of_node"
    device /devices/it/host1 scsi - && device "/devices/it/host1/host2$sign" scsi -
    chmod 0 "$sys/devices/it/closed$sign"
}

shells=()
for shell in dash 'bash --posix' 'busybox sh'; do if has "${shell%% *}"; then shells+=("$shell"); fi; done
for sign in "${signs[@]}"; do
    tree "$sign"
    for options in --all '--walk --all' "$sys/devices/it/here $sys/devices/it/net led twice" '--walk led twice'; do
        # shellcheck disable=SC2086
        same "the sign ${sign@Q}: ${options//"$sys"/SYS}" 0 "$("$capture" --sysfs "$sys" $options 2>&1 | obeyed)"
    done
    same "the sign ${sign@Q} in words" 0 "$({
        "$capture" --sysfs "$sys" "$sys/devices/na${sign}me" "no$sign" "/dev/$sign"
        "$capture" "--un$sign"
        "$capture" --sysfs "$sys/$sign" --all
        "$capture" --from "$sys/$sign"
        "$capture" --action "$sign" --sysfs "$sys" "$sys/devices/it"
        "$capture" --from "$work/db" "sd$sign"
        printf 'no record\n' > "$work/record$sign"
        "$capture" --from "$work/record$sign"
    } 2>&1 | obeyed)"
    case $sign in *m | *\]*) ;; *) continue ;; esac
    for shell in "${shells[@]}"; do
        # shellcheck disable=SC2086
        same "the sign ${sign@Q} by $shell" "0 $("$capture" --sysfs "$sys" --all 2> /dev/null | cksum)" \
            "$($shell "$capture" --sysfs "$sys" --all 2>&1 | obeyed) $($shell "$capture" --sysfs "$sys" --all 2> /dev/null | cksum)"
    done
done

# What is left, what is said, and what other texts are not touched.
tree $'\e]0;x\a'
same "the rest of a device" "P: /devices/it/here
U: input
A: plain=täglich
A: subsystem=input
A: tab=a	b
E: KEPT=täglich
E: TAB=a	b
P: /devices/it
U: input
A: subsystem=input" "$(
    tree $'\e]0;x\a'
    printf 'a\tb\n' > "$sys/devices/it/here/tab"
    rm "$sys/devices/it/subsystem" && ln -s "$sys/class/input" "$sys/devices/it/subsystem"
    "$capture" --sysfs "$sys" "$sys/devices/it/here" 2> /dev/null | sed '/^E: [MD]/d; /^C/d; /^A: host/d'
)"
device /devices/count leds of$'\e' NAME=a$'\e'b NAME=a$'\e'b OTHER=$'\r' KEPT=1
same "lines that are left out are counted" "devdry-capture: 3 lines with a control byte are left out" \
    "$("$capture" --sysfs "$sys" "$sys/devices/count" 2>&1 > /dev/null)"
same "lines that are left out of other devices are not counted" "" \
    "$(device /devices/clean leds - && "$capture" --sysfs "$sys" "$sys/devices/clean" 2>&1 > /dev/null)"
same "the status stays" 0 "$("$capture" --sysfs "$sys" "$sys/devices/count" > /dev/null 2>&1; echo $?)"
device /devices/odd$'\e[m' leds -
same "a device whose path has one" "1
devdry-capture: /devices/odd\\x1B[m: its path has control bytes" "$(ends "$capture" --sysfs "$sys" "$sys/devices/odd"$'\e[m')"
same "a message with a newline and U+009B" "1
devdry-capture: a\\x0Ab\\xC2\\x9Bm: no device of this name" "$(ends "$capture" --sysfs "$sys" $'a\nb\302\233m')"

# A record, whose lines are those of a stranger.
for sign in "${signs[@]}"; do
    octal=$(printf %s "$sign" | od -An -v -to1 | sed 's/ /\\/g' | tr -d '\n')
    {
        printf 'P: /devices/a%s\nE: A=b\n\nP: /devices/a\nN: n%s\nS: s%s\nE: SUBSYSTEM=a%s\nE: A%s=b\nE: B=%s\nE: DRIVER=%s\n' "$sign" "$sign" "$sign" \
            "$sign" "$sign" "$sign" "$sign"
        printf 'U: %s\nV: %s\nA: a%s=b\nA: b=%s\nA: c=a%sb\nL: driver=../a%s\nH: config=a%s\nT: %s\n%s\nE: ID_FS_LABEL=%s\nE: KEPT=1\n' "$sign" \
            "$sign" "$sign" "$sign" "$octal" "$sign" "$sign" "$sign" "$sign" "$sign"
    } > "$work/record"
    for options in '' --walk --answers '--kernel --answers'; do
        # shellcheck disable=SC2086
        same "the sign ${sign@Q} in a record${options:+, $options}" 0 "$("$capture" $options --from "$work/record" 2>&1 | obeyed)"
    done
    # (at the end of a line it counts as a part of that)
    if [ "$sign" = $'\r' ]; then continue; fi
    same "the sign ${sign@Q} in a record: what is left" "P: /devices/a
E: KEPT=1" "$("$capture" --from "$work/record" 2> /dev/null | grep -v '^C\|^$')"
done
same "lines that end in CR LF" "P: /devices/a
U: net
E: SUBSYSTEM=net
E: A=b" "$(printf 'P: /devices/a\r\nE: SUBSYSTEM=net\r\nE: A=b\r\n' | "$capture" --from - | grep -v ^C)"
for awk in mawk gawk 'busybox awk' original-awk; do
    if has "${awk%% *}"; then
        mkdir -p "$work/bin" && printf '#!/bin/sh\nexec %s "$@"\n' "$awk" > "$work/bin/awk" && chmod +x "$work/bin/awk"
        # both COMMAND..: what it prints, and after that its messages
        both() { "$@" 2> "$work/said"; cat "$work/said"; }
        same "a record by $awk" "$(both "$capture" --from "$work/record")" "$(PATH=$work/bin:$PATH both "$capture" --from "$work/record")"
        same "all devices by $awk" "$(both "$capture" --sysfs "$sys" --all)" "$(PATH=$work/bin:$PATH both "$capture" --sysfs "$sys" --all)"
        same "a message by $awk" "devdry-capture: \\x1B\\xC2\\x9B\\x0A: no device of this name" \
            "$(PATH=$work/bin:$PATH both "$capture" --sysfs "$sys" $'\e\302\233\n')"
    fi
done
if has busybox; then
    mkdir -p "$work/box"
    for tool in find sort tr sed grep readlink od; do ln -sf "$(command -v busybox)" "$work/box/$tool"; done
    same "all devices by the tools of busybox" "$(both "$capture" --sysfs "$sys" --all)" "$(PATH=$work/box:$PATH both "$capture" --sysfs "$sys" --all)"
fi

# What find says of folders that it can't read, as a user without rights.
as=()
if [ "$(id -u)" = 0 ]; then as=(setpriv --reuid=65534 --regid=65534 --clear-groups); fi
if [ ${#as[@]} = 0 ] || has setpriv; then
    mkdir "$work/tools" && cp "$capture" "$capture"*.awk "$work/tools" && chmod 755 "$work" "$work/tools"
    for sign in "${signs[@]}"; do
        tree "$sign"
        same "the sign ${sign@Q} without rights" 0 "$("${as[@]}" "$work/tools/devdry-capture" --sysfs "$sys" --all 2>&1 | obeyed)"
        if has busybox; then
            same "the sign ${sign@Q} without rights, by the tools of busybox" 0 \
                "$(PATH=$work/box:$PATH "${as[@]}" "$work/tools/devdry-capture" --sysfs "$sys" --all 2>&1 | obeyed)"
        fi
    done
else
    skipped "a user without rights" "root needs setpriv"
fi
