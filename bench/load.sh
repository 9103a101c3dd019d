#!/usr/bin/env bash
# Measures the load of a tree from a store's records (`load` of tree_load): so many nodes, and a quarter
# as many, turn about; once in 256 directories, and once in one. The nodes come by rising ids, and their
# names in another order; every other file has a content of eight bytes, the others an empty one. The
# program that does it is made in a copy outside the repository (bench/made), and times the load alone:
# neither the making of the records nor the tree's end. The script reports the least of the rounds and
# judges nothing; n log n is 4.57 times the time of a quarter, with 65536 nodes.
#
#   bench/load.sh [NODES [ROUNDS [run|try]]]     65536, 7 rounds and run, where not said otherwise
#
# `run` proves the program and the crates below it first, and measures what LLVM built (minutes, where
# no check of these crates is kept on the machine). `try` proves nothing and measures a slow build of
# the same sources, which `rt try` ends where it takes too long: 512 nodes, not 65536.
set -euo pipefail
cd "$(dirname "$0")/.."

nodes=${1:-65536}
rounds=${2:-7}
how=${3:-run}
. bench/made
copy_for load_bench "tree_load store shared_bytes lb_base"
cat >"$work/crates/load_bench/src/main.rt" <<'EOF'
//! Loads trees of as many nodes as said and of a quarter, in many directories and in one, and prints
//! the microseconds of each load.
#![tactic(auto)]

use lb_base::items::{Bytes, Name};
use shared_bytes::SharedBytes;
use std::alloc::{AllocError, Global};
use std::rt::Runtime;
use std::time::Instant;
use std::{env, io};
use store::record::{ContentRecord, Head, Kept, NodeKind, NodeRecord};
use tree_load::load;

/// The id of the root.
const ROOT: u64 = 1;

/// How many directories the many are.
const MANY: u64 = 256;

/// Eight letters: those of numbers that come one after the other are far apart.
fn letters(alloc: Global, number: u64) -> Result<Name, AllocError> {
    let mut left = number.wrapping_mul(2_654_435_761) & 0xffff_ffff;
    let mut name = Name::new(alloc);
    for _i in 0..8 {
        name.push(97 + (left % 16) as u8)?;
        left /= 16;
    }
    Ok(name)
}

/// What a file contains: every other is empty.
fn content(alloc: Global, id: u64) -> Result<Bytes, AllocError> {
    if id % 2 == 0 {
        return Ok(Bytes::new(alloc));
    }
    letters(alloc, id)
}

/// The record of a node.
fn node(alloc: Global, id: u64, parent: u64, kind: NodeKind) -> Result<Kept, AllocError> {
    let name = letters(alloc, id)?;
    Ok(Kept::Node(NodeRecord {
        id,
        parent,
        kind,
        name,
    }))
}

/// The id of a file's directory; the directories have the first ids.
fn above(id: u64, directories: u64) -> u64 {
    if directories == 0 {
        return ROOT;
    }
    (id % directories).wrapping_add(2)
}

/// The records of a file and of what it contains.
fn add_file(
    alloc: Global,
    records: &mut Vec<Kept>,
    id: u64,
    directories: u64,
) -> Result<(), AllocError> {
    let file = node(alloc, id, above(id, directories), NodeKind::File)?;
    records.push(file)?;
    let bytes = SharedBytes::new(alloc, content(alloc, id)?)?;
    records.push(Kept::Content(ContentRecord {
        id,
        version: 1,
        bytes,
    }))?;
    Ok(())
}

/// The records of so many nodes, of which the first are directories in the root.
fn records_of(alloc: Global, nodes: u64, directories: u64) -> Result<Vec<Kept>, AllocError> {
    let mut records = Vec::new(alloc);
    records.push(Kept::Head(Head {
        next: nodes.wrapping_add(2),
        changes: nodes,
    }))?;
    for number in 0..nodes {
        let id = number.wrapping_add(2);
        if number < directories {
            let directory = node(alloc, id, ROOT, NodeKind::Directory)?;
            records.push(directory)?;
        } else {
            add_file(alloc, &mut records, id, directories)?;
        }
    }
    Ok(records)
}

/// The microseconds of a load.
fn timed(rt: &impl Runtime, alloc: Global, nodes: u64, directories: u64) -> io::Result<u128> {
    let records = records_of(alloc, nodes, directories)?;
    let start = Instant::now(rt)?;
    let loaded = load::load(alloc, records);
    let spent = start.elapsed(rt)?;
    if loaded.is_err() {
        println!(rt; "wrong: {nodes} nodes in {directories} directories are no tree")?;
    }
    Ok(spent.as_micros())
}

/// The rounds and the nodes.
fn numbers(words: &[String]) -> Option<(usize, u64)> {
    let [rounds, nodes] = words else {
        return None;
    };
    Some((rounds.parse().ok()?, nodes.parse().ok()?))
}

fn main(rt: HostRuntime) -> io::Result<()> {
    let alloc = rt.alloc();
    let words: Vec<String> = env::args(&rt)?.skip(1).collect(alloc)?;
    let Some((rounds, nodes)) = numbers(&words) else {
        println!(rt; "two numbers are wanted")?;
        return Ok(());
    };
    for _round in 0..rounds {
        let quarter = timed(&rt, alloc, nodes / 4, MANY)?;
        let all = timed(&rt, alloc, nodes, MANY)?;
        let quarter_in_one = timed(&rt, alloc, nodes / 4, 1)?;
        let all_in_one = timed(&rt, alloc, nodes, 1)?;
        println!(rt; "{quarter} {all} {quarter_in_one} {all_in_one}")?;
    }
    Ok(())
}
EOF

if [[ $how == try ]]; then
    (cd "$work/crates/load_bench" && rt try -- "$rounds" "$nodes") >"$work/log" 2>&1 || { cat "$work/log" >&2; exit 1; }
    keep 4
else
    build load_bench 0 1
    measure 4 load_bench "$rounds" "$nodes"
fi

# What a load took in one of the shapes: shown SHAPE COLUMN-OF-A-QUARTER COLUMN-OF-ALL
shown() {
    local quarter all
    quarter=$(fewest "$2")
    all=$(fewest "$3")
    echo "$nodes nodes in $1: $all us, $((nodes / 4)) nodes $quarter us, ratio $(ratio "$all" "$quarter") (least of $rounds rounds, $how)"
}

shown "256 directories" 1 2
shown "one directory" 3 4
