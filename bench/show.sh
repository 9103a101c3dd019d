#!/usr/bin/env bash
# Measures how the time and the memory of `show` grow with its stream: 16 MiB of records against
# 4 MiB of the same kind, turn about in one run, and the longest stream that is taken. It reports
# what it finds and judges nothing. The times are those of the processor, the least of all rounds;
# they too move with the machine's load, so only the ratios of one run say something.
#
#   bench/show.sh [ROUNDS [PROGRAM]]     5 rounds and the program that release/program names, where not
#                                        said otherwise
set -euo pipefail
cd "$(dirname "$0")/.."

rounds=${1:-5}
program=${2:-$(release/program)}
[[ -n $program ]] || { echo "no program is built for the sources as they are: run 'rt ci'" >&2; exit 1; }
work=$(mktemp -d)
trap 'rm -rf "$work"' EXIT

# The words of four bytes.
words() {
    local word
    for word in "$@"; do
        printf '%b' "$(printf '\\x%02x\\x%02x\\x%02x\\x%02x' $((word >> 24 & 255)) $((word >> 16 & 255)) $((word >> 8 & 255)) $((word & 255)))"
    done
}

# One record: record KIND
#   small      NULL of LBFS
#   large      TMPWRITE of 65,536 bytes
#   fragments  NULL of LBFS in fragments of a byte each
#   answers    an answer SUCCESS to NULL
#   versions   a call in another version of RPC, of which nothing more stands there
#   empty      a record without contents
record() {
    case $1 in
    small) words 0x80000028 7 0 2 0x20004c42 1 0 0 0 0 0 ;;
    large)
        words $((0x80000000 + 40 + 16 + 65536)) 7 0 2 0x20004c42 1 4 0 0 0 0 3 0 0 65536
        head -c 65536 /dev/zero
        ;;
    fragments)
        words 7 0 2 0x20004c42 1 0 0 0 0 0 >"$work/contents"
        local place
        for place in $(seq 0 39); do
            words $((place == 39 ? 0x80000001 : 1))
            tail -c +$((place + 1)) "$work/contents" | head -c 1
        done
        ;;
    answers) words 0x80000018 7 1 0 0 0 0 ;;
    versions) words 0x8000000c 7 0 3 ;;
    empty) words 0x80000000 ;;
    esac
}

# So many bytes of a kind's records, the last maybe cut off: make KIND BYTES
make() {
    record "$1" >"$work/block"
    while [[ $(stat -c %s "$work/block") -lt $2 ]]; do
        cat "$work/block" "$work/block" >"$work/twice"
        mv "$work/twice" "$work/block"
    done
    head -c "$2" "$work/block"
}

# The processor time of a run, in milliseconds.
spent() {
    local TIMEFORMAT='%3U %3S'
    { time "$program" show <"$1" >"$work/out" 2>"$work/err"; } 2>&1 |
        awk '{ printf "%d\n", ($1 + $2) * 1000 }'
}

# The most memory that a run held, in KiB, or nothing where the machine can't say.
held() {
    command -v /usr/bin/time >/dev/null || return 0
    /usr/bin/time -f %M -o "$work/held" "$program" show <"$1" >/dev/null
    cat "$work/held"
}

mib=1048576
for kind in small large fragments answers versions empty; do
    make "$kind" $((4 * mib)) >"$work/short"
    make "$kind" $((16 * mib)) >"$work/long"
    short='' long=''
    for _ in $(seq "$rounds"); do
        time=$(spent "$work/short")
        [[ -n $short && $short -le $time ]] || short=$time
        time=$(spent "$work/long")
        [[ -n $long && $long -le $time ]] || long=$time
    done
    awk -v kind="$kind" -v a="$short" -v b="$long" \
        'BEGIN { printf "%s: 4 MiB %d ms, 16 MiB %d ms, ratio %.2f\n", kind, a, b, b / a }'
    echo "  $(wc -l <"$work/out") lines; held at most $(held "$work/short") and $(held "$work/long") KiB"
    make "$kind" $((64 * mib)) >"$work/long"
    echo "  64 MiB $(spent "$work/long") ms, $(wc -l <"$work/out") lines; held at most $(held "$work/long") KiB"
done
