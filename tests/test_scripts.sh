#!/usr/bin/env bash
# The scripts of the repository: shellcheck finds nothing to say about those for shells, and pyflakes nothing about those in
# Python.
set -uo pipefail
# shellcheck source=lib.sh
. "$(dirname "$0")/lib.sh"
cd "$top" || exit 1
if has shellcheck; then
    goes_well "shellcheck" shellcheck tools/devdry-capture tools/devdry-test tools/*.sh .ci/run tests/*.sh bench/*.sh packaging/*.sh
else
    skipped "shellcheck" "there is no shellcheck"
fi
if has pyflakes3; then
    goes_well "pyflakes" pyflakes3 tools/*.py tests/*.py tests/tables/*.py tests/tables/kinds/*.py bench/*.py
else
    skipped "pyflakes" "there is no pyflakes3"
fi
