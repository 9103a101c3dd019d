#!/usr/bin/env bash
# Measures `replay` of one open, one write of a byte and one close of a large file, against a plain C
# program of the same hashing, cuts and copies (large_baseline.c), turn about in one run; how its time
# grows with the file; and the most memory that it holds (bench/against). It reports what it finds and
# judges nothing.
#
#   bench/large.sh [MIB [ROUNDS]]     of 64 MiB and 5 rounds, where not said otherwise; MIB is at most 64
set -euo pipefail
cd "$(dirname "$0")/.."

mib=${1:-64}
rounds=${2:-5}
. bench/against
build_baseline bench/large_baseline.c

# A trace for a file of so many bytes.
make() {
    printf '%s\n' 'lbfs-trace 1' 'term 60000' 'drift 100' 'clients 1' "file f r:1:$1" 'join 1 0 0' 'do 1 0 open #2' \
        'pass 1 100000 0 0' "do 1 0 write #2 $(($1 / 2)) t:x" 'do 1 0 close #2' 'pass 1 100000 0 0' 'settle 0' 'pass 1 1 0 0'
}

for part in 4 1; do
    size=$((mib * 1048576 / part))
    make "$size" >"$work/trace"
    words=(replay) their_words=("$size")
    turn_about "$work/trace"
    grep -q ' Closed 2 ' "$work/ours" || { echo "the close did not succeed" >&2; exit 1; }
    report "$size bytes" 'four times the file'
done
echo "of a file of $((size / 1024)) KiB:"
held "$work/trace" replay
