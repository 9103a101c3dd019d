#!/usr/bin/env bash
# Measures `replay` of a close whose chunks the server has all, against a plain C program of the same
# hashing and cutting alone (close_baseline.c), turn about in one run. What the close takes is the time
# of an open and a close, less that of the same open alone. The times are those of the processor, user
# and system, the least of all rounds. It reports what it finds and judges nothing.
#
#   bench/close.sh [MIB [ROUNDS]]     of 64 MiB and 5 rounds, where not said otherwise; MIB is at most 64
set -euo pipefail
cd "$(dirname "$0")/.."

mib=${1:-64}
rounds=${2:-5}
. bench/against
build_baseline bench/close_baseline.c

size=$((mib * 1048576))
printf '%s\n' 'lbfs-trace 1' 'term 60000' 'drift 100' 'clients 1' "file f r:1:$size" 'join 1 0 0' 'do 1 0 open #2' \
    'pass 1 100000 0 0' >"$work/open"
{
    cat "$work/open"
    printf '%s\n' 'do 1 0 close #2' 'pass 1 100000 0 0' 'settle 0' 'pass 1 1 0 0'
} >"$work/close"

opened='' both='' theirs=''
for _ in $(seq "$rounds"); do
    opened=$(least "$opened" "$(worked "$work/open" "$program" replay)")
    both=$(least "$both" "$(worked "$work/close" "$program" replay)")
    theirs=$(least "$theirs" "$("$work/baseline" "$size")")
done
grep -q ' Closed 2 .* tmp 0 ' "$work/out" || { echo "the close did not succeed, or sent bytes" >&2; exit 1; }
echo "$size bytes: the close $((both - opened)) us (of $both us with the open), C $theirs us, ratio $(ratio $((both - opened)) "$theirs")"
