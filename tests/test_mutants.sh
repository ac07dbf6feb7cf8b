#!/usr/bin/env bash
# Wrong bodies, those of the gate and those that are tried on demand: whether each can still be applied, so that none is
# lost when code changes, and whether the gate has no more than it has time for. No prover is run.
set -uo pipefail
# shellcheck source=lib.sh
. "$(dirname "$0")/lib.sh"
cd "$top" || exit 1
told_by python3 tests/edits.py
