#!/usr/bin/env bash
# What docs/proved.md, docs/architecture.md and docs/walk.md name and quote is in the source: functions with their contracts, clauses, the number of
# laws; and each law has a sentence of its own.
set -uo pipefail
# shellcheck source=lib.sh
. "$(dirname "$0")/lib.sh"
if has python3; then
    told_by python3 "$top/tests/proved.py"
else
    skipped "tests/proved.py" "there is no python3"
fi
