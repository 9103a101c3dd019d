#!/usr/bin/env bash
# Measures `replay --seed 31 --blocks N --summary` against a plain C program of the same steps
# (generated_baseline.c), turn about in one run; how its time grows with the blocks; how many steps of
# its history it makes in a second; the most memory that it holds; and where the time goes, where `perf`
# is there (bench/against). It reports what it finds and judges nothing.
#
#   bench/generated.sh [BLOCKS [ROUNDS]]     of 5000 blocks and 5 rounds, where not said otherwise; BLOCKS is at most 5000
set -euo pipefail
cd "$(dirname "$0")/.."

blocks=${1:-5000}
rounds=${2:-5}
. bench/against
build_baseline bench/generated_baseline.c

for part in 4 1; do
    count=$((blocks / part))
    words=(replay --seed 31 --blocks "$count" --summary) their_words=(31 "$count")
    steps=$("$program" replay --seed 31 --blocks "$count" | tail -n 1 | cut -d ' ' -f 5)
    turn_about /dev/null
    cmp -s "$work/ours" "$work/theirs" || { echo "the two summaries differ" >&2; exit 1; }
    report "$count blocks" 'four times the blocks'
    echo "$steps steps, $((steps * 1000000 / ours)) in a second"
done
held /dev/null "${words[@]}"
if command -v perf >/dev/null; then
    perf record -q -o "$work/perf" "$program" "${words[@]}" >/dev/null
    perf report -q --stdio -i "$work/perf" | grep -v '^#\|^$' | head -n 15
fi
