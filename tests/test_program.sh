#!/usr/bin/env bash
# The statuses and the two outputs over the examples, answers before the next block, and outputs that fail: what a row of
# tests/tables/ can't check, since it gives the program its whole input and takes its whole output.
set -uo pipefail
# shellcheck source=lib.sh
. "$(dirname "$0")/lib.sh"
cd "$work" || exit 1
cp "$top"/examples/*.rules "$top"/examples/*.hwdb .

# ends CASE STATUS OUTPUT ERRORS WORD..: the program ends in this way; only the first line of each text is compared
ends() {
    local case=$1 status=$2 output=$3 errors=$4 got=0
    shift 4
    "$program" "$@" > out 2> err < /dev/null || got=$?
    same "$case" "$status|$output|$errors" "$got|$(head -n 1 out)|$(head -n 1 err)"
}
ends "a good file" 0 "1 files checked, 1 good, 0 bad" "" verify disk.rules
ends "a good file, with --no-summary" 0 "" "" verify --no-summary disk.rules
ends "a bad file" 1 "1 files checked, 0 good, 1 bad" "mistakes.rules:2: V2 unknown key: SUBSYSTEMM" verify mistakes.rules
ends "messages of the database" 0 "" "mistakes.hwdb:1: H1 property without a match: A=1" query none mistakes.hwdb
ends "a query without a match" 0 "" "" query none trackball.hwdb

# /dev/stdin is read if it is a file, but not if it is a pipe, which would be waited for: with --all and without.
for words in "verify" "verify --all" "verify --strict"; do
    status=0
    # shellcheck disable=SC2086 # (the words are several)
    "$program" $words /dev/stdin < disk.rules > out 2> err || status=$?
    same "$words with a file as /dev/stdin" "0|1 files checked, 1 good, 0 bad|" "$status|$(cat out)|$(cat err)"
done
unread="devdry: cannot read /dev/stdin"
for row in "verify --all|: not a regular file|devdry: no files" "verify --strict|: not a regular file|devdry: no files" \
    "update --all|: not a regular file|devdry: no files" "verify|" "update|" "query m|" "fmt|" "events|" "query m --index|" \
    "verify --udev disk.rules --users|" "verify disk.rules --options|"; do
    words=${row%%|*} status=0
    # shellcheck disable=SC2086
    { sleep 0.2; echo 'TAG="t"'; } | timeout 5 "$program" $words /dev/stdin > out 2> err || status=$?
    same "$words with a pipe as /dev/stdin" "3|$unread${row#*|}" "$status|$(paste -s -d "|" err)"
done

# A block is answered before the next one is there.
block=$'C: add\nP: /devices/x\nU: block\nN: sda\n'
mkfifo blocks answers
"$program" events -r none disk.rules < blocks > answers 2> err &
exec 3> blocks 4< answers
printf '%s\n' "$block" >&3
read -r -t 10 first <&4 || first="nothing in 10 seconds"
same "an answer before the next block" "event add /devices/x" "$first"
printf 'C: change\n' >&3
exec 3>&-
rest=$(cat <&4)
exec 4<&-
status=0
wait $! || status=$?
same "a faulty block after an answer" "1|block 2, line 1: no device|env SUBSYSTEM=block" "$status|$(cat err)|$(tail -n 1 <<< "$rest")"
# A modalias is answered before the next one is there.
mkfifo lines
"$program" query - trackball.hwdb < lines > answers 2> err &
exec 3> lines 4< answers
echo 'mouse:usb:name:My TrackBall:x' >&3
read -r -t 10 first <&4 || first="nothing in 10 seconds"
same "an answer before the next modalias" "ID_INPUT_TRACKBALL=1" "$first"
printf mouse:x >&3
exec 3>&-
rest=$(cat - <(echo end) <&4 | paste -s -d "|" -)
exec 4<&-
status=0
wait $! || status=$?
same "a last modalias without a newline" "0||MOUSE_DPI=1600@125|||end" "$status|$(cat err)|$rest"
ends "events with a file that does not exist" 3 "" "devdry: cannot read none.rules" events -r none none.rules
ends "events without a block" 0 "" "" events -r none disk.rules
ends "a dropped rule" 0 "" "mistakes.rules:2: V2 unknown key: SUBSYSTEMM" events -r none mistakes.rules

# A reader that closes early.
{
    sleep 0.2
    "$program" query 'mouse:usb:name:My TrackBall:x' trackball.hwdb 2> err
    echo $? > status
} | true
same "a reader that closes early" "3|devdry: write failed" "$(cat status)|$(cat err)"
status=0
"$program" verify mistakes.rules 2> /dev/full > out || status=$?
same "a full error output" "3|" "$status|$(cat out)"

if [ "$(id -u)" != 0 ] || has setpriv; then
    # (a user without rights must be able to reach the program)
    chmod 755 "$work" && cp "$program" "$work/devdry" && program=$work/devdry
    goes_well "pipes, odd names, a full output (bench/odd_files.sh)" "$top/bench/odd_files.sh" "$program"
else
    skipped "bench/odd_files.sh" "root needs setpriv"
fi
