#!/usr/bin/env bash
# What `devdry explain` prints about a code is its section in docs/messages.md, which tests/explained.py makes of it; and codes that
# there are not are refused.
set -uo pipefail
# shellcheck source=lib.sh
. "$(dirname "$0")/lib.sh"

if has python3; then
    told_by python3 "$top/tests/explained.py" "$program"
else
    skipped "tests/explained.py" "there is no python3"
fi
codes=$(sed -nE 's/^### ([A-Z][0-9]+) .*/\1/p' "$top/docs/messages.md")
same "the number of sections" "85" "$(wc -w <<< "$codes")"

for code in '' none V V0 V27 V01 ' V1' 'V1 ' 'V1 bad syntax' S0 S7 H7 W0 W28 L0 L6 X1; do
    said=$("$program" explain "$code" 2>&1 > "$work/output")
    same "explain '$code' exits with status 2" 2 $?
    same "explain '$code' prints nothing" "" "$(cat "$work/output")"
    same "explain '$code' lists the codes" "$(tr '\n' ' ' <<< "$codes" | sed 's/ $//; s/ /, /g')" \
        "$(sed -n 's/^  \[possible values: \(.*\)\]$/\1/p' <<< "$said")"
done
