#!/usr/bin/env bash
# Measures a directory of many names in use: a mount makes so many files in it over a server of an empty folder,
# lists it, and removes them all, each by a command of its own; against a directory of a quarter of the names,
# by turns and the least of the rounds, from the mount's start to its end. The names come in an order of their
# own. It reports what it finds and judges nothing, but for what is told; at most 4.4 times is wanted.
#
#   bench/names.sh [NAMES [ROUNDS [PLACE]]]     65,000 names and 3 rounds, where not said otherwise; the server's
#                                               folder lies in PLACE (a file system in memory, say), else in TMPDIR
set -euo pipefail
cd "$(dirname "$0")/.."

names=${1:-65000}
rounds=${2:-3}
place=${3:-}
. bench/against
folder=${place:+$(mktemp -d -p "$place")}
folder=${folder:-$work}
server=
trap 'ended; rm -rf "$work" "$folder"' EXIT

# The server is gone.
ended() {
    [[ -z $server ]] || kill -9 "$server" 2>/dev/null || true
    server=''
}

# Waits until a port of this host is listened on: listened PORT
listened() {
    for _ in {1..400}; do
        grep -q "0100007F:$(printf %04X "$1") .* 0A " /proc/net/tcp && return
        sleep 0.01
    done
    echo "nobody listens at port $1" >&2
    exit 1
}

# The lines of a mount: lines NAMES
lines() {
    awk -v names="$1" 'BEGIN {
        print "mkdir d"
        for (i = 0; i < names; i++) print "make d/f" i * 7919 % names
        print "list d"
        for (i = 0; i < names; i++) print "remove d/f" i * 104729 % names
    }'
}

# The microseconds of a mount that runs them over a server of an empty folder: used NAMES
used() {
    local port from to
    ended
    port=$((20000 + RANDOM % 10000))
    rm -rf "$folder/store" && mkdir "$folder/store"
    "$program" serve --port "$port" --term 1 --sessions 1000 --store "$folder/store" >"$work/log" 2>&1 &
    server=$!
    disown "$server"
    listened "$port"
    from=$(date +%s%N)
    "$program" mount --port "$port" --drift 0 <"$work/lines$1" >"$work/told"
    to=$(date +%s%N)
    [[ $(grep -c '^Done$' "$work/told") -eq $((2 * $1 + 1)) && $(grep -c "^Names $1 " "$work/told") -eq 1 ]] ||
        { echo "a mount was told: $(sort "$work/told" | cut -c1-40 | uniq -c | sort -rn | head -3)" >&2; exit 1; }
    spent=$(((to - from) / 1000))
}

few=$((names / 4))
lines "$few" >"$work/lines$few"
lines "$names" >"$work/lines$names"
some='' all=''
for _ in $(seq "$rounds"); do
    used "$few"
    some=$(least "$some" "$spent")
    used "$names"
    all=$(least "$all" "$spent")
done
awk -v a="$some" -v b="$all" -v few="$few" -v names="$names" 'BEGIN {
    printf "%d names %d us, %d names %d us, ratio %.2f\n", few, a, names, b, b / a
}'
