#!/usr/bin/env bash
# Measures a served folder over loopback: how many GETATTR of one client that waits for each answer are
# answered, beside a bare exchange of as many bytes (bench/served.c), by turns, the medians and the least of the rounds;
# and how much of a processor a server takes to which 64 clients are connected that ask for nothing.
# It judges nothing.
#
# Both exchanges are bound in the same way: first with both ends on one processor, then with the client on
# another one. Left alone, the kernel moves the ends of either from round to round, and an exchange takes twice
# as long on two processors as on one: the two would be compared at different places.
#
#   bench/served.sh [CALLS [ROUNDS [PROGRAM]]]     20000 calls, 9 rounds and bin/lbfs, where not said otherwise
set -euo pipefail
cd "$(dirname "$0")/.."

calls=${1:-20000}
rounds=${2:-9}
program=${3:-bin/lbfs}
port=$((20000 + RANDOM % 10000))
work=$(mktemp -d)
server=
trap '[[ -z $server ]] || kill -9 "$server" 2>/dev/null || true; rm -rf "$work"' EXIT
mkdir "$work/store"
cc -O2 -o "$work/served" bench/served.c
"$program" serve --port "$port" --term 1 --sessions 1000 --store "$work/store" >"$work/log" 2>&1 &
server=$!
disown "$server"
for _ in {1..200}; do
    (exec 3<>"/dev/tcp/127.0.0.1/$port") 2>/dev/null && break
    sleep 0.05
done

# The hundredths of a second of a processor that the server took so far.
spent() {
    sed 's/.*) //' "/proc/$server/stat" | awk '{ print $12 + $13 }'
}

# The server on one processor, and the client on one: exchanged WHAT CLIENT SERVER
exchanged() {
    local served bare least least_bare
    taskset -a -c -p "$3" "$server" >/dev/null
    read -r served bare least least_bare < <("$work/served" ask "$port" "$calls" "$rounds" "$2" "$3")
    awk -v w="$1" -v n="$calls" -v s="$served" -v b="$bare" -v t="$least" -v c="$least_bare" 'BEGIN {
        printf "GETATTR, one client, %s: %.1f us each, bare %.1f us: %.2f times as many a second", w, s / n, b / n, b / s
        printf " (the least of the rounds: %.1f and %.1f us, %.2f)\n", t / n, c / n, c / t
    }'
}

# The first two processors that this may run on; the second is the first where there is one alone.
mapfile -t processors < <(taskset -c -p $$ | sed 's/.*: //' | tr , '\n' | awk -F- '{ for (i = $1; i <= $NF; i++) print i }')
first=${processors[0]}
second=${processors[1]:-$first}
exchanged 'both ends on one processor' "$first" "$first"
exchanged 'the ends on two processors' "$first" "$second"
taskset -a -p "$(taskset -p $$ | sed 's/.*: //')" "$server" >/dev/null

seconds=10
exec 4< <("$work/served" idle "$port" 64 $((seconds + 1)))
read -r _ <&4
before=$(spent)
sleep "$seconds"
awk -v t="$(($(spent) - before))" -v s="$seconds" 'BEGIN { printf "64 idle clients: %.2f%% of a processor\n", t / s }'
