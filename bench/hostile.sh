#!/usr/bin/env bash
# What the built program does when it is treated badly: inputs without end through a pipe, in constant memory; files,
# folders and pipes that fail half way (bench/odd_files.sh); the most expensive inputs of each kind, of which ten times as
# much may take no more than fifteen times as long (bench/worst_inputs.py); and rules files, blocks, database files and
# indexes that are damaged from a seed. Each of these runs has to end by itself with a status of the table in README.md,
# within a second of processor time. Ends in 1 if one doesn't, and says which: the seed makes the same files again.
# usage: bench/hostile.sh [COUNT] [SEED]    COUNT damaged files of each kind, 100,000 by default
set -euo pipefail
top=$(cd "$(dirname "$0")/.." && pwd)
program=${PROGRAM:-$top/build/devdry}
failed=0
"$top/bench/odd_files.sh" "$program" || failed=1
python3 "$top/bench/endless.py" "$program" || failed=1
python3 "$top/bench/worst_inputs.py" "$program" || failed=1
python3 "$top/bench/damaged.py" "$program" "${1:-100000}" "${2:-1}" || failed=1
exit $failed
