#!/usr/bin/env bash
# What the program answers to the rows of the tables in tests/tables/.
set -uo pipefail
# shellcheck source=lib.sh
. "$(dirname "$0")/lib.sh"
told_by python3 "$top/tests/rows.py" "$program"
