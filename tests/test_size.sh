#!/usr/bin/env bash
# The house is no larger than tests/limits.txt says.
set -uo pipefail
# shellcheck source=lib.sh
. "$(dirname "$0")/lib.sh"
told_by python3 "$top/tests/size.py"
