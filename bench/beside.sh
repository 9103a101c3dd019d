#!/usr/bin/env bash
# Measures two programs over loopback, by turns, and the least of the rounds: GETATTR by one client that waits for each
# answer, on one processor and on two; a put of a new file and a get of it by another mount; how much 16 mounts
# store beside each other in the time in which one stores its part; and how much of a processor a server takes to which
# 64 clients are connected that ask for nothing. It judges nothing.
#
#   bench/beside.sh OTHER [MIB [ROUNDS]]     of 64 MiB and 5 rounds, where not said otherwise; MIB is at most 64.
#                                            OTHER is the program, of other sources, to measure beside
set -euo pipefail
cd "$(dirname "$0")/.."

other=$(realpath "$1")
mib=${2:-64}
rounds=${3:-5}
. bench/against
. bench/over-loopback
cc -O2 -o "$work/served" bench/served.c
mkdir "$work/one" "$work/other"
head -c "$((mib * 1048576))" /dev/urandom >"$work/one/h"
part=$((mib * 1048576 / 8))
for at in {1..16}; do
    head -c "$part" /dev/urandom >"$work/one/h$at"
done
mapfile -t processors < <(taskset -c -p $$ | sed 's/.*: //' | tr , '\n' | awk -F- '{ for (i = $1; i <= $NF; i++) print i }')
first=${processors[0]}
second=${processors[1]:-$first}

# The hundredths of a second of a processor that the server took so far.
taken() {
    sed 's/.*) //' "/proc/$server/stat" | awk '{ print $12 + $13 }'
}

# GETATTR of the program, with the client on a processor and the server on one: the least microseconds of 9 rounds of
# 20,000, and those of a bare exchange: exchanged CLIENT SERVER
exchanged() {
    trap ended EXIT
    served
    taskset -a -c -p "$2" "$server" >/dev/null
    "$work/served" ask "$port" 20000 9 "$1" "$2" | awk '{ print $3, $4 }'
}

# The hundredths of a processor that the program takes where 64 clients ask for nothing.
idled() {
    local before
    trap ended EXIT
    served
    exec 4< <("$work/served" idle "$port" 64 11)
    read -r _ <&4
    before=$(taken)
    sleep 10
    awk -v t="$(($(taken) - before))" 'BEGIN { printf "%.2f\n", t / 10 }'
}

# What one round of the program comes to, each as KEY VALUE.
round() {
    local times
    read -r -a times < <(exchanged "$first" "$first")
    echo "getattr-one ${times[0]}"
    echo "bare-one ${times[1]}"
    read -r -a times < <(exchanged "$first" "$second")
    echo "getattr-two ${times[0]}"
    echo "bare-two ${times[1]}"
    served
    echo "put $(mounted "$port" "$work/one" 'make a' 'put h a')"
    echo "get $(mounted "$port" "$work/other" 'get a k')"
    echo "alone $(beside 1)"
    echo "beside $(beside 16)"
    echo "idle $(idled)"
}

ours=$program
for _ in $(seq "$rounds"); do
    program=$ours
    round | sed 's/^/ours /'
    program=$other
    round | sed 's/^/other /'
done | awk '
    { key = $1 " " $2; if (!(key in least) || $3 < least[key]) least[key] = $3 }
    function line(what, key, unit) { printf "%s: %s %s, the other %s: %.3f times\n", what, least["ours " key], unit, least["other " key], least["ours " key] / least["other " key] }
    END {
        for (at = 1; at <= 2; at++) {
            where = at == 1 ? "one" : "two"
            line("20000 GETATTR, " where " processor(s)", "getattr-" where, "us")
            printf "  as many a second as bare: %.2f, the other %.2f\n", least["ours bare-" where] / least["ours getattr-" where], least["other bare-" where] / least["other getattr-" where]
        }
        line("put", "put", "us")
        line("get", "get", "us")
        printf "16 mounts store as much as one: %.2f times, the other %.2f\n", 16 * least["ours alone"] / least["ours beside"], 16 * least["other alone"] / least["other beside"]
        line("64 idle clients", "idle", "% of a processor")
    }'
