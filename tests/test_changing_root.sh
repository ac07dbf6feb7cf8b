#!/usr/bin/env bash
# A root that is changed while a command reads it: nothing of outside is printed, and nothing is waited for.
set -uo pipefail
# shellcheck source=lib.sh
. "$(dirname "$0")/lib.sh"
if ! { has cc && has python3; }; then
    skipped "a root that is changed" "cc or python3 is missing"
    exit
fi
goes_well "the library that exchanges paths is built" cc -shared -fPIC -O2 -o "$work/refusing.so" "$top/tests/refusing.c" -ldl
python3 "$top/tests/changing_root.py" "$program" "$work/refusing.so"
