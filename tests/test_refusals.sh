#!/usr/bin/env bash
# Each growth of memory refused in turn, and then each call that opens, looks at, lists, reads or writes, in runs of
# each command: the status is 4 or 3, and what was written until then is the beginning of the right answer.
set -uo pipefail
# shellcheck source=lib.sh
. "$(dirname "$0")/lib.sh"
# A statically linked program asks no library for memory.
goes_well "the program gets its memory from the C library" grep -q 'libc\.so' <(ldd "$program")
goes_well "the refusing library is built" cc -shared -fPIC -O2 -o "$work/refusing.so" "$top/tests/refusing.c" -ldl
told_by python3 "$top/tests/refusals.py" "$program" "$work/refusing.so" "${EDITOR_PROGRAM:-$top/build/devdry-lsp}"
