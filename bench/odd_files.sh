#!/usr/bin/env bash
# What the program does with a pipe, with a folder whose names are not text, with a folder that it may not enter, and with
# files, inputs and outputs that fail half way: a test of a crate can make none of these. Says which case goes wrong, and
# then ends in 1.
# usage: bench/odd_files.sh [PROGRAM]    PROGRAM is build/devdry by default; as root it needs setpriv
# (functions below are called by name)
# shellcheck disable=SC2317
set -euo pipefail
top=$(cd "$(dirname "$0")/.." && pwd)
program=${1:-$top/build/devdry}
work=$(mktemp -d)
trap 'rm -rf "$work"' EXIT
chmod 755 "$work"
folder=$work/etc/udev/hwdb.d
mkdir -p "$folder"

failed=0
# expect CASE STATUS OUTPUT COMMAND..: the command ends in this way and writes this, errors included
expect() {
    local case=$1 status=$2 output=$3 got code=0
    shift 3
    got=$("$@" 2>&1) || code=$?
    if [ "$code" = "$status" ] && [ "$got" = "$output" ]; then
        echo "$case: ok"
    else
        echo "$case: status $code, output: $got"
        failed=1
    fi
}

# A pipe gives a little at a time, and has no length.
mkfifo "$work/pipe"
{ head -c 2097152 < <(yes '# a line that is skipped'); printf '\nm\n A=1\n'; } >"$work/pipe" &
expect "a pipe of 2 MB" 0 "A=1" "$program" query m "$work/pipe"
wait

name=$folder/$(printf '\377').hwdb
touch "$name"
expect "a file name that is not UTF-8" 3 "devdry: cannot read $folder" "$program" query -r "$work" m
rm "$name"

as_another=()
if [ "$(id -u)" = 0 ]; then
    as_another=(setpriv --reuid=65534 --regid=65534 --clear-groups)
fi
chmod 000 "$folder"
expect "a folder without permission" 3 "devdry: cannot read $folder" "${as_another[@]}" "$program" query -r "$work" m
chmod 755 "$folder"

to_full() { "$@" >/dev/full; }
expect "help to a full output" 3 "devdry: write failed" to_full "$program" --help

# A file that can be opened but not read, a link to nothing, a folder that is not one.
expect "a file that can't be read to its end" 3 "devdry: cannot read /proc/self/mem" "$program" verify /proc/self/mem
ln -s nothing "$folder/a.hwdb"
expect "a broken symlink in a folder" 3 "devdry: cannot read $folder/a.hwdb" "$program" query -r "$work" m
rm "$folder/a.hwdb"

# Inputs and outputs of `events` that fail, at once or half way.
rules=$work/a.rules
echo 'TAG+="a"' >"$rules"
block=$'C: add\nP: /devices/x\n'
answer=$'event add /devices/x\ntag a\nenv ACTION=add\nenv DEVPATH=/devices/x'
from_folder() { "$@" <"$work"; }
from_nothing() { "$@" <&-; }
from_half() { printf '%s' "${block%$'\n'}" | "$@"; }
to_nothing() { printf '%s\n' "$block" | "$@" >&-; }
blocks_to_full() { printf '%s\n' "$block" | "$@" >/dev/full; }
# to_reader COMMAND..: more blocks than fit into a pipe, whose answers are read up to the tenth byte
to_reader() {
    { for _ in {1..10000}; do printf '%s\n' "$block"; done | { "$@"; echo $? >"$work/status"; } 2>"$work/errors"; } | head -c 10 >"$work/head"
    cat "$work/errors" "$work/head"
    return "$(cat "$work/status")"
}
events=("$program" events -r none "$rules")
expect "an input that can't be read" 3 "devdry: read failed" from_folder "${events[@]}"
expect "a closed input" 3 "devdry: read failed" from_nothing "${events[@]}"
expect "an input that ends in the middle of a line" 0 "$answer" from_half "${events[@]}"
expect "a closed output" 3 "devdry: write failed" to_nothing "${events[@]}"
expect "answers to a full output" 3 "devdry: write failed" blocks_to_full "${events[@]}"
expect "a reader that closes early" 3 $'devdry: write failed\nevent add ' to_reader "${events[@]}"

# The same for `query -`: the lines of that block and the empty line after them, one of which is answered.
printf 'P*\n A=1\n' >"$work/a.hwdb"
lines=("$program" query - "$work/a.hwdb")
expect "modaliases: an input that can't be read" 3 "devdry: read failed" from_folder "${lines[@]}"
expect "modaliases: a closed input" 3 "devdry: read failed" from_nothing "${lines[@]}"
expect "modaliases: an input that ends in the middle of a line" 0 $'\nA=1' from_half "${lines[@]}"
expect "modaliases: a closed output" 3 "devdry: write failed" to_nothing "${lines[@]}"
expect "modaliases: answers to a full output" 3 "devdry: write failed" blocks_to_full "${lines[@]}"
expect "modaliases: a reader that closes early" 3 $'devdry: write failed\n\nA=1\n\n\n\nA=' to_reader "${lines[@]}"
exit $failed
