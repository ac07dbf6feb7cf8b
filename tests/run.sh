#!/usr/bin/env bash
# What a user meets apart from the proofs: the runs of tests/tables/, options in the pages and completions, installing, what
# docs/ and README.md show, the recipes, devdry-capture, terminals, damaged indexes, the language server, and the programs when
# their system refuses something; that each wrong body still fits its file, and that the house has not grown. The scripts
# tests/test_*.sh run side by side, and each prints its lines once it is done. At the end what failed and what was skipped is
# listed; the last line is `N passed, M failed, K skipped`.
# usage: tests/run.sh [PROGRAM [EDITOR_PROGRAM]]    build/devdry and build/devdry-lsp by default
set -uo pipefail
cd "$(dirname "$0")/.." || exit 1
PROGRAM=$(realpath "${1:-build/devdry}") EDITOR_PROGRAM=$(realpath "${2:-build/devdry-lsp}")
export PROGRAM EDITOR_PROGRAM
# (if it is run by make, it passes nothing of that on to the programs that the tests run)
unset MAKEFLAGS MFLAGS DESTDIR BINDIR MANDIR BASHDIR ZSHDIR FISHDIR CAPTUREDIR
for it in "$PROGRAM" "$EDITOR_PROGRAM"; do
    [ -x "$it" ] || { echo "tests/run.sh: there is no program $it" >&2; echo '0 passed, 1 failed, 0 skipped'; exit 1; }
done
case $PROGRAM in
    */unproved/*) echo "over $PROGRAM, of which no proof was looked at" ;;
    *) echo "over $PROGRAM" ;;
esac
logs=$(mktemp -d)
trap 'rm -rf "$logs"' EXIT

# run_script SCRIPT: runs it, and then prints what it reported
run_script() {
    local status=0
    bash "$1" > "$2/${1##*/}" 2>&1 || status=$?
    [ "$status" = 0 ] || echo "not ok $1 ends in status 0, not $status" >> "$2/${1##*/}"
    {
        flock 9
        echo "== $1"
        cat "$2/${1##*/}"
    } 9> "$2/lock"
}
export -f run_script
# (the longest first)
# shellcheck disable=SC2016
printf '%s\n' tests/test_refusals.sh tests/test_rows.sh tests/test_capture_secrets.sh tests/test_*.sh | awk '!seen[$0]++' \
    | xargs -P "$(nproc)" -I{} bash -c 'run_script "$1" "$2"' bash {} "$logs"

cat "$logs"/test_*.sh > "$logs/all"
passed=$(grep -c '^ok ' "$logs/all") failed=$(grep -c '^not ok ' "$logs/all") skipped=$(grep -c '^skipped ' "$logs/all")
grep '^skipped ' "$logs/all"
grep '^not ok ' "$logs/all"
echo "$passed passed, $failed failed, $skipped skipped"
[ "$failed" = 0 ]
