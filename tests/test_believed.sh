#!/usr/bin/env bash
# The lines of what a reader has to believe, as docs/architecture.md counts them, are those of the files, and no file is left out.
set -uo pipefail
# shellcheck source=lib.sh
. "$(dirname "$0")/lib.sh"
if has python3; then
    goes_well "docs/architecture.md has the counts of lines to believe" python3 "$top/bench/believe.py"
else
    skipped "docs/architecture.md has the counts of lines to believe" "there is no python3"
fi
