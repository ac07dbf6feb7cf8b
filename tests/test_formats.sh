#!/usr/bin/env bash
# What readers of other programs make of each format: Python's json, GitHub's runner, a problem matcher.
set -uo pipefail
# shellcheck source=lib.sh
. "$(dirname "$0")/lib.sh"
if has python3; then
    told_by python3 "$top/tests/read_formats.py" "$program"
else
    skipped "tests/read_formats.py" "there is no python3"
fi
