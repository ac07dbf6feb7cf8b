#!/usr/bin/env bash
# What the program does if its standard input or its standard error is a terminal.
set -uo pipefail
# shellcheck source=lib.sh
. "$(dirname "$0")/lib.sh"
if has python3; then
    told_by python3 "$top/tests/terminals.py" "$program"
else
    skipped "tests/terminals.py" "there is no python3"
fi
