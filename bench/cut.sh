#!/usr/bin/env bash
# Measures the command `cut` against the plain C program of cut_baseline.c, turn about in one run, on
# random bytes and on zeros, in which no end is marked, and how its time grows with the input
# (bench/against). The times are those of the processor, user and system, medians of all rounds. It
# reports what it finds and judges nothing.
#
#   bench/cut.sh [MIB [ROUNDS]]     of 64 MiB and 7 rounds, where not said otherwise; MIB is at
#                                   most 64, since `cut` takes no more, and ROUNDS is odd
set -euo pipefail
cd "$(dirname "$0")/.."

mib=${1:-64}
rounds=${2:-7}
. bench/against
build_baseline bench/cut_baseline.c

# Looks that both programs cut FILE alike, and measures them: compare FILE. The medians are in `ours`
# and `theirs` then.
compare() {
    "$program" cut <"$1" >"$work/ours"
    "$work/baseline" <"$1" >"$work/theirs"
    if ! cmp -s "$work/ours" "$work/theirs"; then
        echo "the two programs cut differently" >&2
        exit 1
    fi
    local our_times=() their_times=()
    for _ in $(seq "$rounds"); do
        our_times+=("$(worked "$1" "$program" cut)")
        their_times+=("$(worked "$1" "$work/baseline")")
    done
    ours=$(median "${our_times[@]}")
    theirs=$(median "${their_times[@]}")
}

"$work/baseline" make $((mib * 1048576)) >"$work/random"
head -c $((mib * 1048576)) /dev/zero >"$work/zeros"

for kind in random zeros; do
    before=''
    for part in 4 2 1; do
        size=$((mib * 1048576 / part))
        head -c "$size" "$work/$kind" >"$work/part"
        compare "$work/part"
        report "cut of $size bytes, $kind" 'twice the input'
    done
done
