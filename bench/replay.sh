#!/usr/bin/env bash
# Measures how the time of `replay` grows with its trace: 65,536 lines against 16,384 of the same
# kind, turn about in one run. It reports what it finds and judges nothing. Single times move with
# the machine's load: only the ratios of one run say something. It runs the program that release/program
# names by itself.
#
#   bench/replay.sh [ROUNDS]     5 rounds, where not said otherwise
set -euo pipefail
cd "$(dirname "$0")/.."

rounds=${1:-5}
program=$(release/program)
[[ -n $program ]] || { echo "no program is built for the sources as they are: run 'rt ci'" >&2; exit 1; }
work=$(mktemp -d)
trap 'rm -rf "$work"' EXIT

# A trace of so many lines: make KIND LINES
#   files    as many files as lines allow, each of which is opened over the wire
#   opens    one file, opened again and again
#   closes   one file, opened, written to, closed and settled again and again
#   clients  the same by 16 clients, one after the other, each with a file of its own
#   leased   16 clients open and abandon one file by turns, under leases
#   asked    the same with a term that isn't above the drift, so that each open asks
#   skipped  lines that are skipped
make() {
    awk -v kind="$1" -v lines="$2" 'BEGIN {
        clients = kind ~ /clients|leased|asked/ ? 16 : 1
        print "lbfs-trace 1\n" (kind == "asked" ? "term 1\ndrift 1" : "term 60000\ndrift 100") "\nclients " clients
        left = lines - 4
        if (kind == "files") {
            count = int((left - 1) / 3)
            for (i = 1; i <= count; i++) print "file f" i " t:content" i "+z:64"
            print "join 1 0 0"
            for (i = 1; i <= count; i++) print "do 1 0 open #" (i + 1) "\npass 1 9 0 0"
            left -= 3 * count + 1
        }
        if (kind == "opens") {
            print "file f t:abc\njoin 1 0 0\ndo 1 0 open #2\npass 1 9 0 0"
            left -= 4
            while (left-- > 0) print "do 1 0 open #2"
        }
        if (kind == "closes" || kind == "clients") {
            for (c = 1; c <= clients; c++) print "file f" c " t:abc"
            for (c = 1; c <= clients; c++) print "join " c " 0 0"
            left -= 2 * clients
            for (c = 1; left >= 7; left -= 7) {
                print "do " c " 0 open #" (c + 1) "\npass " c " 9 0 0\ndo " c " 0 write #" (c + 1) " 0 r:" left ":2048"
                print "do " c " 0 close #" (c + 1) "\npass " c " 9 0 0\nsettle 0\npass " c " 9 0 0"
                c = c % clients + 1
            }
        }
        if (kind == "leased" || kind == "asked") {
            print "file f t:abc"
            for (c = 1; c <= clients; c++) print "join " c " 0 0"
            left -= 1 + clients
            for (c = 1; left >= 3; left -= 3) {
                print "do " c " 0 open #2\npass " c " 9 0 0\ndo " c " 0 abandon #2"
                c = c % clients + 1
            }
        }
        while (left-- > 0) print "# a line that is skipped"
    }'
}

# The time of a replay, in microseconds.
spent() {
    local from to
    from=$(date +%s%N)
    "$program" replay <"$1" >"$work/out"
    to=$(date +%s%N)
    echo $(((to - from) / 1000))
}

declare -A longest
for kind in files opens closes clients leased asked skipped; do
    make "$kind" 16384 >"$work/short"
    make "$kind" 65536 >"$work/long"
    short='' long=''
    for _ in $(seq "$rounds"); do
        time=$(spent "$work/short")
        [[ -n $short && $short -le $time ]] || short=$time
        time=$(spent "$work/long")
        [[ -n $long && $long -le $time ]] || long=$time
    done
    awk -v kind="$kind" -v a="$short" -v b="$long" \
        'BEGIN { printf "%s: 16384 lines %d us, 65536 lines %d us, ratio %.2f\n", kind, a, b, b / a }'
    tail -n 1 "$work/out"
    longest[$kind]=$long
done
awk -v many="${longest[clients]}" -v one="${longest[closes]}" 'BEGIN { printf "65536 lines of 16 clients against as many of one: %.2f\n", many / one }'
awk -v under="${longest[leased]}" -v without="${longest[asked]}" 'BEGIN { printf "65536 lines of 16 clients under leases against as many without: %.2f\n", under / without }'
if command -v /usr/bin/time >/dev/null; then
    make files 65536 >"$work/long"
    /usr/bin/time -f 'files, 65536 lines: at most %M KiB held' "$program" replay <"$work/long" >/dev/null
fi
