#!/usr/bin/env bash
# How much memory commands take: those that read an input over a long one as much as over a short one, the formats for lines with
# many messages, and what checks rules files at most so much for each byte of a file.
set -uo pipefail
# shellcheck source=lib.sh
. "$(dirname "$0")/lib.sh"
goes_well "events, query - and compare take no more memory over 12 MB than over 2 MB" python3 "$top/bench/endless.py" "$program" 2 12
goes_well "no format takes ten times the memory of plain, or writes a hundred times the file, for lines of 1,800 messages" python3 "$top/bench/many_messages.py" "$program"
goes_well "verify, verify --strict and fmt take at most 60 bytes for each byte of a rules file" python3 "$top/bench/peaks.py" "$program"
