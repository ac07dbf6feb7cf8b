#!/usr/bin/env bash
# Small indexes that are damaged from a seed: each is refused, or answers, as a plain reading of its bytes says.
# bench/hostile.sh tries as many more as it is asked for.
set -uo pipefail
# shellcheck source=lib.sh
. "$(dirname "$0")/lib.sh"
PYTHONDONTWRITEBYTECODE=1 goes_well "3,000 damaged indexes are read as by a plain reading" \
    python3 "$top/bench/damaged.py" "$program" 3000 1 indexes
