#!/usr/bin/env bash
# Which paths a command opens, and how often: a folder to list it, a file to read it, and once more where a look has to tell
# whether it may be opened. Nothing else is opened.
set -uo pipefail
# shellcheck source=lib.sh
. "$(dirname "$0")/lib.sh"
if ! has cc; then
    skipped "what is opened" "cc is missing"
    exit
fi
goes_well "the library that notes what is opened is built" cc -shared -fPIC -O2 -o "$work/refusing.so" "$top/tests/refusing.c" -ldl
cd "$work" || exit 1
mkdir -p root/{etc/{udev/{rules,hwdb}.d,systemd/network},run/own}
echo 'IMPORT{file}="/run/own/f", IMPORT{builtin}="net_setup_link"' > root/etc/udev/rules.d/a.rules
cp root/etc/udev/rules.d/a.rules root/etc/udev/rules.d/other
echo 'F=1' > root/run/own/f
printf 'm*\n A=1\n' > root/etc/udev/hwdb.d/a.hwdb
printf '[Match]\nOriginalName=*\n[Link]\nName=a0\n' > root/etc/systemd/network/a.link
mkfifo root/etc/udev/rules.d/a.pipe

# opened CASE WORDS PATH..: the paths that are opened, in any order, each as often as it is
opened() {
    local case=$1 words=$2
    shift 2
    rm -f opened
    # shellcheck disable=SC2086 # (the words are several)
    LD_PRELOAD=$work/refusing.so OPENED=$work/opened "$program" $words < /dev/null > out 2> err
    same "$case" "$(printf '%s\n' "$@" | sort)" "$(sed 's|/$||' opened | sort)"
}
rules=root/etc/udev/rules.d hwdb=root/etc/udev/hwdb.d links=root/etc/systemd/network
opened "what verify opens" "verify -r root" $rules $rules/a.rules
opened "what verify FILE opens" "verify $rules/a.rules" $rules/a.rules
opened "what verify --all opens" "verify --all -r root" $rules $rules $rules/a.rules $rules/a.rules
opened "what query opens" "query -r root m" $hwdb $hwdb/a.hwdb
opened "what events opens" "events -r root" $rules $rules/a.rules $hwdb $hwdb/a.hwdb
opened "what events --udev opens" "events --udev -r root" $rules $rules/a.rules $hwdb $hwdb/a.hwdb \
    $links $links $links/a.link $links/a.link root/run/own/f root/run/own/f
opened "what events --udev FILE opens" "events --udev -r root $rules/a.rules" $rules/a.rules $hwdb $hwdb/a.hwdb \
    $links $links $links/a.link $links/a.link root/run/own/f root/run/own/f
