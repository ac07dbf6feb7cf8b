#!/usr/bin/env bash
# tools/devdry-test, over a tree like /sys and an udevadm of our own: what it prints, in which colors, and its status.
set -uo pipefail
# shellcheck source=lib.sh
. "$(dirname "$0")/lib.sh"
# shellcheck source=sys_tree.sh
. "$(dirname "$0")/sys_tree.sh"

# The script with a devdry-capture beside it in which the tree takes the place of /sys, and the program; the tools in `tools`
# take the place of those of this machine.
mkdir -p "$work/own" "$work/here" "$work/tools" "$work/none"
sed "s|sysfs=/sys udevadm|sysfs=$sys udevadm|; s|=/proc/cmdline|=$work/none/cmdline|" "$capture" > "$work/own/devdry-capture"
cp "$capture"*.awk "$top/tools/devdry-test" "$work/own"
ln -s "$(realpath "$program")" "$work/own/devdry"
cat > "$work/tools/udevadm" << END
#!/bin/sh
case \$* in
    *--path=*/sda1) printf 'P: $disk/block/sda/sda1\nE: USEC_INITIALIZED=1\nE: ID_FS_UUID=7-8\nE: ID_FS_TYPE=vfat\nS: disk/old\n\n' ;;
esac
END
chmod +x "$work/own/devdry-capture" "$work/tools/udevadm"
mkdir -p "$sys/class/block"
ln -s "$sys$disk/block/sda/sda1" "$sys/class/block/sda1"
rm "$sys$disk/block/sda/a=b"
cd "$work/here" || exit 1
# test_of WORD..: what it prints, without the rules of this machine
test_of() { PATH=$work/tools:$PATH "$work/own/devdry-test" -r "$work/none" "$@"; }
# ends_in WORD..: the status, and then all that it prints and says
ends_in() { said=$(test_of "$@" 2>&1); printf '%s\n%s' $? "$said"; }
status_of() { test_of "$@" > /dev/null 2>&1; echo $?; }

# What the kernel says about the partition.
of_sda1="event add $disk/block/sda/sda1"
env_of_sda1="env ACTION=add
env DEVNAME=/dev/sda1
env DEVPATH=$disk/block/sda/sda1
env DEVTYPE=partition
env MAJOR=8
env MINOR=1
env PARTN=1
env SUBSYSTEM=block"

cat > mine.rules << 'END'
# a comment
SUBSYSTEM=="block", ENV{DEVTYPE}=="partition", ATTRS{model}=="Disk 7", SYMLINK+="mine"
SUBSYSTEM=="net", SYMLINK+="not"
END
same "a rule that is met: the answer, then why" "0
$of_sda1
link mine
$env_of_sda1
why mine.rules:2: SUBSYSTEM==\"block\": holds, block
why mine.rules:2: ENV{DEVTYPE}==\"partition\": holds, partition
why mine.rules:2: ATTRS{model}==\"Disk 7\": sda1 has none, sda has none, 0:0:0:0 holds, 0000:00:17.0 has none
why mine.rules:2: 0:0:0:0 meets all
why mine.rules:2: reached its end: link mine added
why mine.rules:3: SUBSYSTEM==\"net\": fails, block
why mine.rules:3: stops there" "$(ends_in "$sys$disk/block/sda/sda1" mine.rules)"
echo 'SUBSYSTEM=="net", NAME="lan0"' > net.rules
same "a rule that is not met" "1
$of_sda1
$env_of_sda1
why net.rules:1: SUBSYSTEM==\"net\": fails, block
why net.rules:1: stops there
devdry-test: no rule of net.rules was met" "$(ends_in "$sys$disk/block/sda/sda1" net.rules)"
same "one of two files is met" 0 "$(status_of sda1 net.rules mine.rules)"
cp net.rules other.rules
same "none of two files is met" "devdry-test: no rule of net.rules, other.rules was met" "$(test_of sda1 net.rules other.rules 2>&1 > /dev/null)"
same "without a file the rules of the system answer" "0
$of_sda1
$env_of_sda1" "$(ends_in sda1)"

# Rules of an image, and one's own among them.
mkdir -p "$work/image/usr/lib/udev/rules.d"
echo 'SUBSYSTEM=="block", TAG+="image"' > "$work/image/usr/lib/udev/rules.d/50-image.rules"
# image WORD..: links and tags by these words
image() { PATH=$work/tools:$PATH "$work/own/devdry-test" "$@" | grep -e ^tag -e ^link; }
same "rules of an image, by -r" "tag image" "$(image -r "$work/image" sda1)"
same "rules of an image, by --root" "tag image" "$(image --root "$work/image" sda1)"
same "rules of an image, by --root=" "tag image" "$(image "--root=$work/image" sda1)"
same "a file of one's own among those of an image" "link mine
tag image" "$(image -r "$work/image" sda1 mine.rules)"
cp mine.rules 50-image.rules
same "a file of one's own in place of one of an image" "link mine" "$(image -r "$work/image" sda1 50-image.rules)"
echo 'ACTION=="change", TAG+="changed"' > action.rules
same "another action" "event change $card/net/eth0
tag changed" "$(test_of --action change eth0 action.rules | head -n 2)"
same "the action add" 1 "$(status_of eth0 action.rules)"

# What udev has stored answers what rules ask, and what it has added is not there from the start.
cat > stored.rules << 'END'
IMPORT{builtin}="blkid", SYMLINK+="by-uuid/$env{ID_FS_UUID}"
IMPORT{db}="ID_FS_TYPE"
END
same "what udev has stored" "link by-uuid/7-8
env ID_FS_TYPE=vfat
env ID_FS_UUID=7-8" "$(test_of sda1 stored.rules | grep -e ^link -e ^env.ID_)"

# Which rules are met.
# met RULES: the status of the partition with these rules
met() { printf '%s\n' "$1" > case.rules && status_of sda1 case.rules; }
same "met: a property" 0 "$(met 'ENV{A}="1"')"
same "met: it changes nothing" 0 "$(met 'SUBSYSTEM=="block", SYMLINK-="nothing"')"
same "not met: a text that is like an end" 1 "$(met 'ENV{A}=="case.rules:1: reached its end: x", TAG+="y"')"
same "not met: a text that is like a file, and an end" 1 "$(met 'ENV{A}=="
why case.rules:1: reached its end: x", TAG+="y"')"
same "met: properties that are imported" 0 "$(met 'IMPORT{parent}="DEV*"')"
same "met: a program that should fail" 0 "$(met 'PROGRAM!="/bin/false"')"
same "not met: an import, and a key that fails" 1 "$(met 'IMPORT{parent}="DEV*", RESULT=="1"')"
same "not met: a jump" 1 "$(met 'SUBSYSTEM!="net", GOTO="end"
TAG+="x"
LABEL="end"')"
same "not met: a label" 1 "$(met 'SUBSYSTEM=="net", TAG+="x"
LABEL="end"')"
same "not met: a label behind a rule that imports and stops" 1 "$(met 'IMPORT{parent}="DEV*", RESULT=="1"
LABEL="end"')"
same "met: what is behind the label" 0 "$(met 'SUBSYSTEM!="net", GOTO="end"
TAG+="x"
LABEL="end", TAG+="y"')"
same "not met: nothing counts for the device" 1 "$(met 'NAME="x"')"
same "not met: a rule that is not read" 1 "$(met 'KERNEL=="sda1", MODEE="0600"')"

# Names of files: in other folders, and with all that can be in a name.
mkdir -p 'a b'
for name in 'a b/c.rules' ./x.rules 'reached its end: 1.rules' 'a:1: reached its end: b.rules' $'tab\tand\\\001\177.rules' $'new\nline.rules' \
    -x.rules --why=a.rules; do
    echo 'SUBSYSTEM=="block", TAG+="named"' > "./$name"
    same "a file called ${name@Q}, met" "0 tag named" "$(said=$(test_of sda1 -- "$name"); echo "$? $(grep ^tag <<< "$said")")"
    same "its reason is in color" 1 "$(test_of --color always sda1 -- "$name" | grep -c $'^why .*: \033\[32mreached its end')"
    echo 'SUBSYSTEM=="net", TAG+="named"' > "./$name"
    same "a file called ${name@Q}, not met" 1 "$(status_of sda1 -- "$name")"
done
same "a name in the message has nothing that a terminal obeys" "devdry-test: no rule of new?line.rules was met" \
    "$(test_of sda1 $'new\nline.rules' 2>&1 > /dev/null)"
printf 'mine:*\n OF_MINE=1\n' > keys.hwdb
echo 'IMPORT{builtin}="hwdb mine:x"' > hwdb.rules
same "a file of the database" "env OF_MINE=1" "$(test_of sda1 hwdb.rules keys.hwdb | grep ^env.OF_)"
same "a file of the database alone has no rules to be met" 0 "$(status_of sda1 keys.hwdb)"

# What devdry says is passed on, with its status.
cp mine.rules mine.txt
same "a name that udev would not read" "2
error: invalid value 'mine.txt' for '--with <FILE>': its name has to end in .rules or .hwdb

For more information, try '--help'." "$(ends_in sda1 mine.txt)"
same "a file that is not there" "3
devdry: cannot read absent.rules" "$(ends_in sda1 absent.rules)"
: > empty.rules
same "a file without a rule" "2
devdry: --why empty.rules: no such rules file" "$(ends_in sda1 empty.rules)"
same "messages about a rule" "case.rules:1: V2 unknown key: MODEE
devdry-test: no rule of case.rules was met" "$(test_of sda1 case.rules 2>&1 > /dev/null)"
same "no device" "1
devdry-capture: sdz: no device of this name" "$(ends_in sdz mine.rules)"

# JSON: the object that devdry prints.
if has python3; then
    json='import json, sys; it = json.load(sys.stdin); print(it["path"], it["links"], len(it["why"]), it["why"][-3])'
    same "an object with its why" "$disk/block/sda/sda1 ['mine'] 7 mine.rules:2: reached its end: link mine added" \
        "$(test_of --json sda1 mine.rules | python3 -c "$json")"
else
    skipped "an object with its why" "there is no python3"
fi
same "an object is one line" "1 0" "$(test_of --json sda1 mine.rules > object; echo "$(wc -l < object) $?")"
same "an object of a rule that is not met" "1 devdry-test: no rule of net.rules was met" \
    "$(said=$(test_of --json sda1 net.rules 2>&1 > /dev/null); echo "$? $said")"
same "messages are said once with --json" 1 "$(test_of --json sda1 case.rules 2>&1 > /dev/null | grep -c MODEE)"
same "an object without a file" 0 "$(status_of --json sda1)"
same "an object has no colors" 0 "$(test_of --json --color always sda1 mine.rules | grep -c $'\033')"

# Colors.
paint() { printf '\033[%sm%s\033[0m' "$1" "$2"; }
same "colors" "$(paint 1 "$of_sda1")
link mine
$env_of_sda1
why mine.rules:2: $(paint 32 'SUBSYSTEM=="block": holds, block')
why mine.rules:2: $(paint 32 'ENV{DEVTYPE}=="partition": holds, partition')
why mine.rules:2: ATTRS{model}==\"Disk 7\": sda1 has none, sda has none, 0:0:0:0 holds, 0000:00:17.0 has none
why mine.rules:2: $(paint 32 '0:0:0:0 meets all')
why mine.rules:2: $(paint 32 'reached its end: link mine added')
why mine.rules:3: $(paint 31 'SUBSYSTEM=="net": fails, block')
why mine.rules:3: $(paint 31 'stops there')" "$(test_of --color=always sda1 mine.rules)"
echo 'PROGRAM=="/bin/x"' > case.rules
same "a note is yellow" "$(paint 33 'note case.rules:1: no answer for program: /bin/x')" "$(test_of --color always sda1 case.rules 2> /dev/null | grep note)"
same "colors change no status" "1 0" "$(status_of --color always sda1 net.rules) $(status_of --color always sda1 mine.rules)"
plain=$(test_of sda1 mine.rules)
same "no colors into a pipe" "$plain" "$(test_of --color auto sda1 mine.rules)"
same "no colors where none are wanted" "$plain" "$(test_of --color never sda1 mine.rules)"
if has python3; then
    # on_terminal WORD..: how many colors it writes on a terminal
    on_terminal() {
        PATH=$work/tools:$PATH python3 -c '
import os, pty, sys
got = bytearray()
def read(file):
    some = os.read(file, 65536)
    got.extend(some)
    return some
out = os.dup(1)
null = os.open(os.devnull, os.O_RDWR)
os.dup2(null, 0)
os.dup2(null, 1)
pty.spawn(sys.argv[1:], read)
os.write(out, b"%d\n" % got.count(b"\x1b["))' "$work/own/devdry-test" -r "$work/none" "$@"
    }
    same "colors on a terminal" 14 "$(NO_COLOR='' on_terminal sda1 mine.rules)"
    same "no colors on a terminal with NO_COLOR" 0 "$(NO_COLOR=1 on_terminal sda1 mine.rules)"
    same "no colors on a terminal where none are wanted" 0 "$(NO_COLOR='' on_terminal --color never sda1 mine.rules)"
    same "colors on a terminal with NO_COLOR where they are wanted" 14 "$(NO_COLOR=1 on_terminal --color always sda1 mine.rules)"
else
    skipped "colors on a terminal" "there is no python3"
fi

# A record in place of this machine, by devdry-capture as it is, and what a walk lacks.
mkdir "$work/as_it_is" && cp "$capture" "$capture"*.awk "$top/tools/devdry-test" "$work/as_it_is" && cp -P "$work/own/devdry" "$work/as_it_is"
of_record() { "$work/as_it_is/devdry-test" -r "$work/none" "$@" 2>&1; }
cat > post.txt << 'END'
  looking at device '/devices/usb1/1-2/1-2:1.0/ttyUSB0/tty/ttyUSB0':
    KERNEL=="ttyUSB0"
    SUBSYSTEM=="tty"
    DRIVER==""

  looking at parent device '/devices/usb1/1-2':
    KERNELS=="1-2"
    SUBSYSTEMS=="usb"
    DRIVERS=="usb"
    ATTRS{idVendor}=="0403"
END
echo 'SUBSYSTEM=="tty", ATTRS{idVendor}=="0403", ENV{MINE}="1", SYMLINK+="mine"' > post.rules
same "a walk from a post" "env MINE=1" "$(of_record --from post.txt ttyUSB0 post.rules | grep ^env.MINE)"
same "a walk from a post, through the standard input" "env MINE=1" "$(of_record --from=- ttyUSB0 post.rules < post.txt | grep ^env.MINE)"
echo 'SUBSYSTEM=="tty", ATTRS{idVendor}=="0403", SYMLINK+="mine"' > link.rules
same "a link of a device without a number" "1
why link.rules:1: skipped: SYMLINK does nothing without a device number
devdry-test: no rule of link.rules was met" "$(said=$(of_record --from post.txt ttyUSB0 link.rules); echo $?; grep -e skipped -e 'was met' <<< "$said")"

# Words.
same "options behind the others" "$plain" "$(test_of sda1 --color never mine.rules)"
same "help" 0 "$(status_of --help)"
same "--version is that of devdry" "$("$program" --version | sed 's/ /-test /')" "$(test_of --version)"
same "-V and -h" "$(test_of --version) $(test_of --help | head -n 1)" "$(test_of sda1 -V) $(test_of -h | head -n 1)"
usage=$(test_of --help | grep ^usage)
# misused WORD..: the status, and what it says
misused() { said=$("$work/own/devdry-test" "$@" 2>&1); printf '%s %s' $? "$said"; }
same "no words" "2 devdry-test: no device is named
$usage" "$(misused)"
same "an unknown option" "2 devdry-test: unknown option --none
$usage" "$(misused sda1 --none)"
same "a color that is none" "2 devdry-test: --color wants auto, always or never
$usage" "$(misused --color=red sda1)"
for option in --action -r --root --from --color; do
    same "$option without a value" "2 devdry-test: $option wants a value
$usage" "$(misused sda1 "$option")"
done
same "an action that is none" 2 "$(status_of --action '' sda1)"

# Outputs that fail.
for words in --help --version "-r $work/none sda1 mine.rules" "-r $work/none --json sda1" "-r $work/none --color always sda1"; do
    # shellcheck disable=SC2086
    same "a full output: ${words/$work\//}" "3 devdry-test: write failed" \
        "$({ said=$(PATH=$work/tools:$PATH "$work/own/devdry-test" $words 2>&1 >&3); echo "$? $said"; } 3> /dev/full)"
    # shellcheck disable=SC2086
    same "a closed output: ${words/$work\//}" "3 devdry-test: write failed" \
        "$({ said=$(PATH=$work/tools:$PATH "$work/own/devdry-test" $words 2>&1 >&-); echo "$? $said"; })"
done
{
    sleep 0.2
    test_of --color always sda1 mine.rules 2> "$work/err"
    echo $? > "$work/status"
} | true
same "a reader that closes early" "3|" "$(cat "$work/status")|$(cat "$work/err")"

# The programs: beside it, also through a link, or on PATH; that there is none is said.
mkdir "$work/bin" "$work/alone" && ln -s "$work/own/devdry-test" "$work/bin"
same "through a link" "$plain" "$(PATH=$work/tools:$PATH "$work/bin/devdry-test" -r "$work/none" sda1 mine.rules)"
cp "$top/tools/devdry-test" "$work/alone"
same "with programs on PATH" "$plain" "$(PATH=$work/tools:$work/own:$PATH "$work/alone/devdry-test" -r "$work/none" sda1 mine.rules)"
mkdir "$work/few"
for tool in awk basename cat dirname readlink sed sh tr; do ln -s "$(command -v $tool)" "$work/few"; done
alone() { PATH=$work/few ends "$work/alone/devdry-test" sda1; }
same "without devdry-capture" "3
devdry-test: there is no devdry-capture beside this script or on PATH" "$(alone)"
printf '#!/bin/sh\n' > "$work/alone/devdry-capture" && chmod +x "$work/alone/devdry-capture"
same "without devdry" "3
devdry-test: there is no devdry beside this script or on PATH" "$(alone)"

# The same by other shells and by each awk.
for shell in dash 'bash --posix' 'busybox sh'; do
    if has "${shell%% *}"; then
        # shellcheck disable=SC2086
        same "the same by $shell" "$plain" "$(PATH=$work/tools:$PATH $shell "$work/own/devdry-test" sda1 -r "$work/none" mine.rules)"
    fi
done
colored=$(test_of --color always sda1 mine.rules)
odd=$'tab\tand\\\001\177.rules'
echo 'SUBSYSTEM=="block", TAG+="named"' > "$odd"
for awk in mawk gawk 'busybox awk' original-awk; do
    if has "${awk%% *}"; then
        printf '#!/bin/sh\nexec %s "$@"\n' "$awk" > "$work/tools/awk" && chmod +x "$work/tools/awk"
        same "the same by $awk" "$colored" "$(test_of --color always sda1 mine.rules)"
        same "what is met by $awk" "0 1 0" "$(status_of sda1 mine.rules) $(status_of sda1 net.rules) $(status_of sda1 "$odd")"
    fi
done
rm -f "$work/tools/awk"

# It asks for no root, and runs nothing that rules name.
if [ "$(id -u)" = 0 ] && has setpriv; then
    chmod -R go+rX "$work"
    same "the same without rights" "$plain" "$(PATH=$work/tools:$PATH setpriv --reuid=65534 --regid=65534 --clear-groups \
        "$work/own/devdry-test" -r "$work/none" sda1 mine.rules)"
fi
echo "PROGRAM==\"/bin/touch $work/ran\", RUN+=\"/bin/touch $work/ran\"" > run.rules
same "no program is run" no "$(test_of sda1 run.rules > /dev/null 2>&1; if [ -e "$work/ran" ]; then echo yes; else echo no; fi)"
