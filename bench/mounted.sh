#!/usr/bin/env bash
# Measures `mount` over `serve` on loopback: a `put` of a new file and a `get` of it by another mount, against a
# plain C program of the same hashing, cuts, messages and flushes (mounted.c), by turns and the least of the
# rounds, each from its process's start to its end; what
# goes over the line for both (examples/relay); and how much 16 mounts store beside each other in the time in
# which one stores its part. It judges nothing.
#
#   bench/mounted.sh [MIB [ROUNDS]]     of 64 MiB and 5 rounds, where not said otherwise; MIB is at most 64
set -euo pipefail
cd "$(dirname "$0")/.."

mib=${1:-64}
rounds=${2:-5}
. bench/against
build_baseline bench/mounted.c
. bench/over-loopback

# The microseconds of the C program with these words: theirs WORD..
theirs() {
    local from to
    from=$(date +%s%N)
    (cd "$work" && ./baseline "$@")
    to=$(date +%s%N)
    echo $(((to - from) / 1000))
}

mkdir "$work/one" "$work/other" "$work/stored"
head -c "$((mib * 1048576))" /dev/urandom >"$work/one/h"
put='' get='' their_put='' their_get=''
for _ in $(seq "$rounds"); do
    served
    put=$(least "$put" "$(mounted "$port" "$work/one" 'make a' 'put h a')")
    get=$(least "$get" "$(mounted "$port" "$work/other" 'get a k')")
    cmp "$work/one/h" "$work/other/k"
    ended
    rm -f "$work/stored/h"
    at=$((port + 10000)) # the server's own may not be free at once
    "$work/baseline" serve "$at" "$work/stored/h" "$((mib * 1048576))" &
    server=$!
    disown "$server"
    listened "$at"
    their_put=$(least "$their_put" "$(theirs put "$at" one/h)")
    their_get=$(least "$their_get" "$(theirs get "$at" copy "$((mib * 1048576))")")
    cmp "$work/one/h" "$work/copy"
done
echo "put of $mib MiB: $put us, C $their_put us, ratio $(ratio "$put" "$their_put")"
echo "get of $mib MiB: $get us, C $their_get us, ratio $(ratio "$get" "$their_get")"

served
to=$((port + 10000))
examples/relay "$to" "$port" >"$work/counts" 2>/dev/null &
relay=$!
disown "$relay"
listened "$to"
mounted "$to" "$work/one" 'make a' 'put h a' >/dev/null
mounted "$to" "$work/other" 'get a k' >/dev/null
sleep 0.5
sed "1s/^/over the line, make and put: /; 2s/^/over the line, get: /" "$work/counts"

part=$((mib * 1048576 / 8))
for at in {1..16}; do
    head -c "$part" /dev/urandom >"$work/one/h$at"
done
one='' all=''
for _ in $(seq "$rounds"); do
    one=$(least "$one" "$(beside 1)")
    all=$(least "$all" "$(beside 16)")
done
awk -v a="$one" -v b="$all" -v n="$part" 'BEGIN {
    printf "16 mounts beside each other, %d bytes each: %.2f times as much a second as one\n", n, 16 * a / b
}'
