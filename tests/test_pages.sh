#!/usr/bin/env bash
# The man pages pass what checks man pages, if that is installed.
set -uo pipefail
# shellcheck source=lib.sh
. "$(dirname "$0")/lib.sh"
cd "$top/man" || exit 1

for page in *.1; do
    if has mandoc; then
        # (which other pages this machine has does not matter here)
        same "$page by mandoc -T lint" "" \
            "$(mandoc -T lint "$page" 2>&1 | grep -F "$page:" | grep -v 'referenced manual not found')"
    else
        skipped "$page by mandoc -T lint" "there is no mandoc"
    fi
    if has man && has groff && man --help 2>&1 | grep -q -- --warnings; then
        same "$page by man --warnings" "" "$(man --warnings -E UTF-8 -Tutf8 -Z -l "$page" 2>&1 > /dev/null)"
    else
        skipped "$page by man --warnings" "there is no man of man-db"
    fi
done
