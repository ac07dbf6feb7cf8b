#!/usr/bin/env bash
# tools/devdry-capture --answer-questions, over a tree like /sys, with an udevadm of our own that says what it was asked.
set -uo pipefail
# shellcheck source=lib.sh
. "$(dirname "$0")/lib.sh"
# shellcheck source=sys_tree.sh
. "$(dirname "$0")/sys_tree.sh"

# The script, in which the tree takes the place of /sys.
mkdir -p "$work/own" "$work/tools"
sed "s|sysfs=/sys udevadm|sysfs=$sys udevadm|; s|=/proc/cmdline|=$work/none|" "$capture" > "$work/own/capture"
cp "$capture"*.awk "$work/own"
part=$disk/block/sda/sda1
rm "$sys$disk/block/sda/a=b"
# What test-builtin prints, as those of systemd 252 and 257 do: what it sets on the standard output, all else on the other.
cat > "$work/tools/udevadm" << END
#!/bin/sh
echo "\$*" >> "$work/asked"
case \$1:\$2 in
    info:*) case \$* in *--path=*/sda1) cat '$work/stored' ;; esac ;;
    test-builtin:blkid) printf 'ID_FS_UUID=7-8\nID_FS_LABEL=my disk \nID_FS_TYPE=vfat\nID_FS_PASSWORD=gone\nID_ESC=a\033b\nID_EMPTY=\nno property\n' ;;
    test-builtin:blkid\ *) ;;
    test-builtin:path_id) echo 'ID_PATH="pci-0000:00:17.0"' ;;
    test-builtin:usb_id) echo "Builtin command 'usb_id' fails: No such file or directory" >&2; exit 1 ;;
    test-builtin:net_driver) echo "Unknown command 'net_driver'" >&2; exit 1 ;;
    test-builtin:net_id) echo "Failed to read \$container of PID 1, ignoring: Permission denied" >&2; exit 1 ;;
    test-builtin:input_id) cat; echo ID_INPUT=1 ;;
    test-builtin:hwdb*) printf 'vda: Failed to open block device /dev/vda: Operation not permitted\n' >&2; exit 1 ;;
    *) echo CHANGED=1 ;;
esac
END
chmod +x "$work/tools/udevadm"
cd "$work" || exit 1
: > stored
# own WORD..: what it prints, without constants of the machine
own() { PATH=$work/tools:$PATH sh "$work/own/capture" "$@" | grep -v '^K: [a-z]*='; }
# both: the blocks of what it reads, and after that what it says
both() { own --answer-questions - 2> said | sed '/^$/d'; cat said; }
# answers: the answers to the questions that it reads
answers() { own --answer-questions - 2> said | grep -e '^[QRO]:'; }

# A block with questions, and its answers in it.
own --kernel "$sys$part" > sda1.block 2> /dev/null
of_sda1=$(sed '/^$/d' sda1.block)
same "a block with a question" "$of_sda1
Q: builtin blkid
R: 0 ID_FS_UUID=7-8
O: ID_FS_LABEL=\"my disk \"
O: ID_FS_TYPE=vfat" "$({ echo "$of_sda1"; echo 'Q: builtin blkid'; } | own --answer-questions - 2> said)"
same "what is left out of an answer" "devdry-capture: 1 line with a control byte is left out
devdry-capture: 1 line secret by name is left out" "$(< said)"
same "udev takes the answer" "env ID_FS_LABEL=my disk 
env ID_FS_TYPE=vfat
env ID_FS_UUID=7-8" "$(echo 'IMPORT{builtin}="blkid"' > r.rules; { echo "$of_sda1"; echo 'Q: builtin blkid'; } | own --answer-questions - 2> said \
    | "$program" events --udev -r none r.rules | grep ID_)"
: > asked
questions='Q: builtin path_id
Q: builtin usb_id
Q: builtin net_id
Q: builtin input_id
Q: builtin blkid --noraid'
same "several questions" 'Q: builtin path_id
R: 0 ID_PATH=""pci-0000:00:17.0""
Q: builtin usb_id
R: 1
Q: builtin net_id
R: 1
Q: builtin input_id
R: 0 ID_INPUT=1
Q: builtin blkid --noraid
R: 0' "$({ echo "$of_sda1"; echo "$questions"; } | answers)"
same "what is asked" "test-builtin path_id $sys$part
test-builtin usb_id $sys$part
test-builtin usb_id $sys$part
test-builtin net_id $sys$part
test-builtin net_id $sys$part
test-builtin input_id $sys$part
test-builtin blkid --noraid $sys$part" "$(< asked)"

# What is never run, or not answered.
: > asked
unanswered="devdry-capture: $part: not answered:"
same "what changes the machine, programs and others" "$unanswered builtin kmod load x: only builtins that change nothing are run
$unanswered builtin btrfs ready /dev/sda1: only builtins that change nothing are run
$unanswered builtin keyboard: only builtins that change nothing are run
$unanswered builtin uaccess: only builtins that change nothing are run
$unanswered builtin net_setup_link: only builtins that change nothing are run
$unanswered builtin blkidx: only builtins that change nothing are run
$unanswered builtin: programs are not run
$unanswered blkid: programs are not run
$unanswered /bin/touch $work/ran; \$(touch $work/ran) \`touch $work/ran\`: programs are not run
$unanswered builtin net_driver: udevadm has no such builtin
$unanswered builtin hwdb -x: the device can't be opened" "$({
    echo "$of_sda1"
    printf 'Q: %s\n' 'builtin kmod load x' 'builtin btrfs ready /dev/sda1' 'builtin keyboard' 'builtin uaccess' 'builtin net_setup_link' \
        'builtin blkidx' builtin blkid "/bin/touch $work/ran; \$(touch $work/ran) \`touch $work/ran\`" 'builtin net_driver' 'builtin hwdb -x'
} | own --answer-questions - 2>&1 > printed)"
same "then the block is as it was" "$of_sda1" "$(sed '/^$/d' printed)"
same "and nothing of them is run" "test-builtin net_driver $sys$part
test-builtin net_driver $sys$part
test-builtin hwdb -x $sys$part
test-builtin hwdb -x $sys$part no" "$(< asked) $(if [ -e ran ]; then echo yes; else echo no; fi)"

# What --questions prints, without a block, and with it.
printf 'IMPORT{builtin}="blkid"\nPROGRAM=="/bin/x"\n' > ask.rules
"$program" events --udev --questions -r none ask.rules < sda1.block > questions
same "what it prints is this" "event add $part
Q: builtin blkid
Q: /bin/x" "$(sed '/^$/d' questions)"
of_blkid="Q: builtin blkid
R: 0 ID_FS_UUID=7-8
O: ID_FS_LABEL=\"my disk \"
O: ID_FS_TYPE=vfat"
same "the questions of a device: its block is captured" "$of_sda1
$of_blkid" "$(own --kernel --answer-questions questions 2> /dev/null)"
same "with another action" "C: change" "$(sed 's/add/change/' questions | own --kernel --answer-questions - 2> /dev/null | head -n 1)"
same "questions behind their block" "C: add
P: $part
E: MINE=1
$of_blkid" "$({ printf 'C: add\nP: %s\nE: MINE=1\n\n' "$part"; cat questions; } | own --answer-questions - 2> /dev/null)"
same "questions of another event of the device" "C: change
C: add" "$({ printf 'C: change\nP: %s\nE: MINE=1\n\n' "$part"; cat questions; } | own --answer-questions - 2> /dev/null | grep ^C)"
same "two devices, their blocks apart" "C: add
P: $part
$of_blkid

C: add
P: $card/net/eth0
Q: builtin path_id
R: 0 ID_PATH=\"\"pci-0000:00:17.0\"\"

." "$(printf 'C: add\nP: %s\nQ: builtin blkid\n\nC: add\nP: %s\nQ: builtin path_id\n' "$part" "$card/net/eth0" | own --answer-questions - 2> /dev/null; echo .)"
printf 'P: %s\nE: USEC_INITIALIZED=1\nE: ID_FS_UUID=stored\n' "$part" > stored
same "an answer that udev has stored is not asked for again" "Q: builtin blkid
R: 0 ID_FS_UUID=stored" "$(own --kernel --answers --answer-questions questions 2> /dev/null | grep '^[QRO]:')"
: > stored

# What is answered stays.
same "questions with answers, and one without" "Q: builtin blkid
R: 0 MINE=1
O: MORE=2
Q: /bin/x
R: 0 y
Q: builtin input_id
R: 0 ID_INPUT=1" "$({ echo "$of_sda1"; printf 'Q: builtin blkid\nR: 0 MINE=1\nO: MORE=2\nQ: builtin input_id\nQ: /bin/x\nR: 0 y\nQ: builtin blkid\nQ: builtin input_id\n'; } \
    | answers)"

# Devices that are none of this machine, and files that are none of these.
none=/devices/none
same "a block of another machine stays as it is" "C: add
P: $none
A: a=b
devdry-capture: $none: not answered: builtin blkid: no device of this machine" \
    "$(printf 'C: add\nP: %s\nA: a=b\nQ: builtin blkid\n' $none | both)"
# status WORD..: its status
status() { PATH=$work/tools:$PATH sh "$work/own/capture" "$@" > /dev/null 2>&1; echo $?; }
same "its status" 0 "$(printf 'C: add\nP: %s\nQ: builtin blkid\n' $none | status --answer-questions -)"
same "the questions of a device of another machine" "1 devdry-capture: $none: no device of this machine" \
    "$(printf 'event add %s\nQ: builtin blkid\n' $none > other; status --answer-questions other | tr '\n' ' '; own --answer-questions other 2>&1)"
: > asked
for path in "$part/../sda1" /class/block/sda1 "$disk" "/devices/../$part" "$part/" devices/a "/..$part"; do
    mkdir -p "$sys/class/block" && ln -sfn "$sys$part" "$sys/class/block/sda1"
    if [ "$path" = "$disk" ]; then path=$pci/0000:00:17.0/ata1; fi
    same "no device of this machine: $path" "" "$(printf 'C: add\nP: %s\nQ: builtin blkid\n' "$path" | answers)"
done
same "udevadm is not asked about them" "" "$(< asked)"
same "a question about a parent is one about the device" "Q: builtin input_id
R: 0 ID_INPUT=1" "$(: > asked; printf 'C: add\nP: %s\nP: %s\nQ: builtin input_id\n' "$part" "$disk/block/sda" | answers)"
same "that is asked" "test-builtin input_id $sys$part" "$(< asked)"
same "a file without an event" "1 devdry-capture: -:1: no line of a block
devdry-capture: -: it has no device" "$(echo x | status --answer-questions - | tr '\n' ' '; echo x | own --answer-questions - 2>&1)"
same "an empty file" "devdry-capture: -: it has no device" "$(own --answer-questions - < /dev/null 2>&1)"
same "a block without a device" "1 devdry-capture: -: an event without a device" \
    "$(echo 'C: add' | status --answer-questions - | tr '\n' ' '; echo 'C: add' | own --answer-questions - 2>&1)"
same "lines that are none" "C: add
P: $none
A: a=b
devdry-capture: -:1: no line of a block
devdry-capture: -:4: no line of a block
devdry-capture: -:7: no line of a block
devdry-capture: -: and 1 more" "$(printf 'Q: x\nC: add\nP: %s\nx\nA: a=b\n\nA: c=d\ny\n' $none | both)"
same "a file that can't be read" "1 devdry-capture: $work/absent: can't be read" "$(status --answer-questions absent | tr '\n' ' '; own --answer-questions "$work/absent" 2>&1)"

# Control bytes and secrets of the file.
same "control bytes and secrets of a block" "C: add
P: $none
A: a=b
Q: x
R: 0
Q: y
R: 0 z
O: a=b
devdry-capture: 3 lines with a control byte are left out
devdry-capture: 4 lines secret by name are left out" "$({
    printf 'C: add\nP: %s\nA: password=gone\nA: a=b\nA: c=\033d\nE: WPA_PSK=gone\n' $none
    printf 'Q: x\nR: 0 TOKEN=gone\nQ: w\033\nR: 0 gone\nO: gone\nQ: y\nR: 0 z\nO: PIN=gone\nO: a=b\nO: x\302\205\n'
} | both)"
same "a question with a control byte is none" "" "$(printf 'C: add\nP: %s\nQ: builtin blkid\001\n' "$part" | answers)"
same "one with a NUL byte is none" "" "$(printf 'C: add\nP: %s\nQ: builtin blkid\000\n' "$part" | answers)"
same "lines that end in CR LF" "$of_blkid" "$(printf 'C: add\r\nP: %s\r\nQ: builtin blkid\r\n' "$part" | answers)"
slash="$card/net/a\\b"
device "$slash" net - INTERFACE=x
same "a path with a backslash" "P: $slash" "$(printf 'event add %s\nQ: builtin blkid\n' "${slash//\\/\\x5C}" | own --answer-questions - 2> /dev/null | grep -m 1 ^P)"

# Words.
misused() { PATH=$work/tools:$PATH sh "$work/own/capture" "$@" 2>&1 > /dev/null | head -n 1; }
only="devdry-capture: --answer-questions goes with --kernel and --answers alone"
for words in --all "--action add" --walk "--sysfs $sys" "--from questions" sda1; do
    before=''
    if [ "$words" != sda1 ]; then before=$words words=''; fi
    # shellcheck disable=SC2086
    same "--answer-questions with ${before%% *}$words" "2 $only" \
        "$(status $before --answer-questions questions $words | tr '\n' ' '; misused $before --answer-questions questions $words)"
done
same "--answer-questions without a file" "devdry-capture: --answer-questions wants a value" "$(misused --answer-questions)"
same "a full output" "3 devdry-capture: write failed" \
    "$({ PATH=$work/tools:$PATH sh "$work/own/capture" --answer-questions questions 2> said >&3; echo "$? $(tail -n 1 said)"; } 3> /dev/full)"
mkdir few
for tool in awk basename cat chmod dirname find grep head od readlink sed sh sort tr uname; do ln -s "$(command -v $tool)" few; done
same "without udevadm" "devdry-capture: $part: not answered: builtin blkid: there is no udevadm
devdry-capture: $part: not answered: /bin/x: programs are not run" \
    "$(PATH=$work/few sh "$work/own/capture" --answer-questions questions 2>&1 > /dev/null)"

# The same by each shell and awk.
{
    echo "$of_sda1"
    echo "$questions"
    printf 'Q: /bin/x\nQ: z\nR: 0 y\n\n'
    cat questions other
} > all
# by WORD..: what it prints, run by this shell, and after that what it says
by() { PATH=$work/tools:$PATH "$@" "$work/own/capture" --kernel --answer-questions all 2> said; cat said; }
by_all=$(by sh)
for shell in dash 'bash --posix' 'busybox sh'; do
    # shellcheck disable=SC2086
    if has "${shell%% *}"; then same "the same by $shell" "$by_all" "$(by $shell)"; fi
done
for awk in mawk gawk 'busybox awk' original-awk; do
    if has "${awk%% *}"; then
        printf '#!/bin/sh\nexec %s "$@"\n' "$awk" > tools/awk && chmod +x tools/awk
        same "the same by $awk" "$by_all" "$(by sh)"
    fi
done
