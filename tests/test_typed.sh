#!/usr/bin/env bash
# Everything that the documents show is typed, and prints what they show; and so are the sessions of tests/profiles.md.
set -uo pipefail
# shellcheck source=lib.sh
. "$(dirname "$0")/lib.sh"
cd "$top" || exit 1
if has python3; then
    # (each session has its own line)
    told_by python3 tests/typed.py "$program" README.md docs/*.md tests/profiles.md
else
    skipped "tests/typed.py" "there is no python3"
fi

# Each code with its text is in the reference and in the examples, and each page has those of its command: V and S of
# rules, W of rules by --lint, H of the database, D of the database by --lint, L of .link files, I of comments in both.
codes() { grep -oE '[VSHIWDL][0-9]+ [a-z][^|]*' | sed 's/ *$//' | LC_ALL=C sort; }
reference=$(sed -nE 's/^\| ([VSHIWDL][0-9]+) \| ([^|]*[^| ]) *\|.*/\1 \2/p' docs/behaviour.md | codes)
same "docs/behaviour.md has each code once" "" "$(cut -d ' ' -f 1 <<< "$reference" | uniq -d)"
same "docs/messages.md has each message" "$reference" "$(sed -n 's/^### //p' docs/messages.md | codes)"
listed() { sed -nE 's/^\.It (\\&)?([VSHIWDL][0-9]+ .*)/\2/p' "man/$1.1" | codes; }
same "devdry-verify(1) has each message on rules" "$(grep '^[VSIWL]' <<< "$reference")" "$(listed devdry-verify)"
same "devdry-update(1) has each message on the database" "$(grep '^[HID]' <<< "$reference")" "$(listed devdry-update)"
