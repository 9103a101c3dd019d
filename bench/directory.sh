#!/usr/bin/env bash
# Measures how the time of `replay` grows with the names of a directory, each time the processor's, user
# and system, the least of all rounds. A trace has at most 65,536 lines, and each command wants two at
# the least, so no one trace makes 65,000 names by commands. So the directory of 65,000 names is there
# from the start: it is listed, and some of its files are removed, against a directory of 16,250 of which
# a quarter as many are. And as many are made by commands, listed and removed as lines allow: 16,250
# directories against 4,062, and 10,900 files against 2,725. It reports what it finds and judges nothing,
# but for what is listed and done; at most 4.4 is wanted.
#
#   bench/directory.sh [ROUNDS]     5 rounds, where not said otherwise
set -euo pipefail
cd "$(dirname "$0")/.."

rounds=${1:-5}
. bench/against

# A trace of so many names: make KIND NAMES
#   opened        the directory has them from the start; one of 500 is removed
#   directories   they are made and removed by mkdir and rmdir
#   files         they are made and removed by make and remove
make() {
    awk -v kind="$1" -v names="$2" 'BEGIN {
        print "lbfs-trace 1\nterm 60000\ndrift 100\nclients 1\ndir d"
        if (kind == "opened") for (i = 0; i < names; i++) print "file d/f" i " -"
        print "join 1 0 0"
        made = kind == "directories" ? "mkdir" : "make"
        gone = kind == "directories" ? "rmdir" : "remove"
        if (kind != "opened") for (i = 0; i < names; i++) print "do 1 0 " made " d/f" i "\npass 1 2 0 0"
        print "do 1 0 list d\npass 1 1000 0 0"
        for (i = 0; i < names; i += kind == "opened" ? 500 : 1) {
            print "do 1 0 " gone " d/f" i "\npass 1 2 0 0"
            if (gone == "remove") print "settle 0\npass 1 1 0 0"
        }
    }'
}

# Whether all were listed, and all else was done: looked NAMES
looked() {
    grep -q " Names $1 " "$work/out" || { echo "the names are not listed" >&2; exit 1; }
    [[ $(grep -c '^op ' "$work/out") -eq $(grep -c -e ' Done ' -e ' Names ' "$work/out") ]] || { echo "something was not done" >&2; exit 1; }
}

measure() {
    make "$1" "$2" >"$work/many"
    make "$1" "$3" >"$work/few"
    many='' few=''
    for _ in $(seq "$rounds"); do
        few=$(least "$few" "$(worked "$work/few" "$program" replay)")
        looked "$3"
        many=$(least "$many" "$(worked "$work/many" "$program" replay)")
        looked "$2"
    done
    echo "$1: $3 names $few us, $2 names $many us, ratio $(ratio "$many" "$few")"
}

measure opened 65000 16250
measure directories 16250 4062
measure files 10900 2725
