#!/usr/bin/env bash
# The gate: every proof, edit, test and run of `rt ci`, then tests/run.sh over the programs that it built. It fails, too, if a
# test is skipped that tests/skips.txt does not name, and if fewer cases passed than tests/limits.txt says. It prints what it cost
# near its end; the last line is `N passed, M failed, K skipped`, over all of it. With SKIPS=told any test may be skipped, and
# fewer may pass: then `skips-told: ` stands before the last line.
# usage: tests/all.sh [RT]    RT is the toolchain's command, rt by default
set -uo pipefail
cd "$(dirname "$0")/.." || exit 1
work=$(mktemp -d)
trap 'rm -rf "$work"' EXIT

# As many crates side by side as there are processors, each with one job: a second job for a crate reads everything that
# its proof depends on once more. If there is less than 4 GB for each, the toolchain itself divides the memory.
if awk -v most="$(nproc)" '/^MemAvailable/ { exit $2 < most * 4000000 }' /proc/meminfo; then
    RT_JOBS=$(nproc)
    export RT_JOBS
fi

# The kit by which all of this is proved.
"${1:-rt}" version

"${1:-rt}" ci | tee "$work/proofs"
status=${PIPESTATUS[0]}
tests/run.sh crates/devdry/out/devdry crates/devdry_lsp/out/devdry_lsp | tee "$work/uses"
status=$((status | PIPESTATUS[0]))

passed=0 failed=0 skipped=0
for log in proofs uses; do
    read -r p f s < <(tail -n 1 "$work/$log" | sed -nE 's/^([0-9]+) passed, ([0-9]+) failed(, ([0-9]+) skipped)?$/\1 \2 \4/p')
    # a run that was cut off gives no count, and is a failure
    passed=$((passed + ${p:-0})) failed=$((failed + ${f:-1})) skipped=$((skipped + ${s:-0}))
    uses=${p:-0}
done
[ "$status" = 0 ] || [ "$failed" != 0 ] || failed=1

# What was skipped without leave, and what became of the number of cases.
sed -n 's/^skipped //p' "$work/uses" | sort -u > "$work/skipped"
grep -v '^#' tests/skips.txt | grep . > "$work/allowed"
awk 'NR == FNR { allowed[++n] = $0; next } { for (i = 1; i <= n; i++) if (index($0, allowed[i]) == 1) next; print }' "$work/allowed" "$work/skipped" > "$work/lacking"
least=$(sed -n 's/^passed //p' tests/limits.txt)
told=''
if [ -s "$work/lacking" ] || [ "$uses" -lt "$least" ]; then
    sed 's/^/skipped, and not in tests\/skips.txt (tests\/tools.sh installs what tests use): /' "$work/lacking"
    if [ "$uses" -lt "$least" ]; then echo "$uses cases of tests/run.sh passed, and tests/limits.txt says at least $least"; fi
    if [ "${SKIPS:-}" = told ]; then told='skips-told: '; else failed=$((failed + 1)); fi
elif [ "$uses" -gt "$least" ]; then
    echo "$uses cases of tests/run.sh passed: tests/limits.txt can say so"
fi

# What the gate cost, by what the shell counts for the processes that it waited for.
times > "$work/times"
awk -v clock="$SECONDS" -v processors="$(nproc)" '
    function seconds(told) { split(told, part, /[ms]/); return 60 * part[1] + part[2] }
    NR == 2 { printf "the gate took %.0f minutes of processor time, %.0f of them in the kernel, and %.0f minutes of elapsed time on %d processors\n",
        (seconds($1) + seconds($2)) / 60, seconds($2) / 60, clock / 60, processors }' "$work/times"
echo "$told$passed passed, $failed failed, $skipped skipped"
[ "$failed" = 0 ]
