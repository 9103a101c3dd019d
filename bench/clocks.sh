#!/usr/bin/env bash
# Measures how the time of `replay` grows with the events of a client's clock that lie within one
# term: 60,000 of them against 15,000, turn about in one run, each time of 20 runs. It reports what it
# finds and judges nothing, but for the status of each run. Single times move with the machine's load:
# only the ratios of one run say something, and about 4 is what linear time gives.
#
# It runs the program that release/program names by itself, since the script bin/lbfs around it takes
# longer than all of the events.
#
#   bench/clocks.sh [ROUNDS]     5 rounds, where not said otherwise
set -euo pipefail
cd "$(dirname "$0")/.."

rounds=${1:-5}
program=$(release/program)
[[ -n $program ]] || { echo "no program is built for the sources as they are: run 'rt ci'" >&2; exit 1; }
work=$(mktemp -d)
trap 'rm -rf "$work"' EXIT

# A trace of so many events of a client's clock within one term: make KIND EVENTS
#   even     the server's clock goes on as the client's does
#   ahead    the server's clock goes on by more, so that every event has to be kept
#   behind   it goes on by less, so that only the last event has to be kept
#   broken   as with ahead, and the last event breaks the rule with the first
make() {
    awk -v kind="$1" -v events="$2" 'BEGIN {
        print "lbfs-trace 1\nterm 3600000\ndrift 3600000\nclients 1\njoin 1 0 0"
        for (i = 1; i < events; i++) {
            server = i
            if (kind == "ahead" || kind == "broken") server = 2 * i
            if (kind == "behind") server = int(i / 2)
            if (kind == "broken" && i == events - 1) server = 3600001 + i
            print "pass 1 1 " server " " i
        }
    }'
}

# The time of 20 replays of a trace, which end with this status, in microseconds: spent STATUS TRACE
spent() {
    local from to status
    from=$(date +%s%N)
    for _ in $(seq 20); do
        status=0
        "$program" replay <"$2" >"$work/out" || status=$?
        if [[ $status -ne $1 ]]; then
            echo "status $status in place of $1: $(tail -n 1 "$work/out")" >&2
            exit 1
        fi
    done
    to=$(date +%s%N)
    echo $(((to - from) / 1000))
}

for kind in even ahead behind broken; do
    make "$kind" 15000 >"$work/short"
    make "$kind" 60000 >"$work/long"
    want=0 short='' long=''
    if [[ $kind == broken ]]; then want=5; fi
    for _ in $(seq "$rounds"); do
        time=$(spent "$want" "$work/short")
        [[ -n $short && $short -le $time ]] || short=$time
        time=$(spent "$want" "$work/long")
        [[ -n $long && $long -le $time ]] || long=$time
    done
    awk -v kind="$kind" -v a="$short" -v b="$long" \
        'BEGIN { printf "%s: 15000 events %d us, 60000 events %d us, ratio %.2f\n", kind, a, b, b / a }'
    tail -n 1 "$work/out"
done
