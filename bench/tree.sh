#!/usr/bin/env bash
# Measures a directory of many names in the server's tree (`Tree` of file_tree): files are made in it,
# its names are listed page by page, and all are removed, against a quarter as many, turn about. The names
# come in an order of their own, not in that of their bytes. The program that does it is made in a copy
# outside the repository (bench/made). The script reports the medians and judges nothing; at most 4.4 is
# wanted.
#
#   bench/tree.sh [NAMES [ROUNDS [run|try]]]     65000, 5 rounds and run, where not said otherwise
#
# `run` proves the program and the crates below it first, and measures what LLVM built (minutes, where
# no check of these crates is kept on the machine). `try` proves nothing and measures a slow build of
# the same sources.
set -euo pipefail
cd "$(dirname "$0")/.."

names=${1:-65000}
rounds=${2:-5}
how=${3:-run}
. bench/made
copy_for tree_bench "file_tree tree_reading nfs3_calls xdr_codec lb_base"
cat >"$work/crates/tree_bench/src/main.rt" <<'EOF'
//! Makes files in a directory, lists it and removes them, as many as said and a quarter, and prints
//! the microseconds of each.
#![tactic(auto)]

use file_tree::tree::Tree;
use lb_base::items::Name;
use std::alloc::{AllocError, Global};
use std::rt::Runtime;
use std::time::Instant;
use std::{env, io};
use tree_reading::call::{CreateMode, Held};

/// Nothing waits.
const NONE: Held = Held {
    entries: 0,
    bytes: 0,
};

/// The id of the root.
const ROOT: u64 = 1;

/// The name of a file, of eight letters: the numbers that come one after the other are far apart.
fn name_of(alloc: Global, number: u64) -> Result<Name, AllocError> {
    let mut left = number.wrapping_mul(2_654_435_761) & 0xffff_ffff;
    let mut name = Name::new(alloc);
    for _i in 0..8 {
        name.push(97 + (left % 16) as u8)?;
        left /= 16;
    }
    Ok(name)
}

/// Makes so many files, and counts those that are made.
fn make(alloc: Global, tree: &mut Tree, names: u64) -> Result<u64, AllocError> {
    let mut made = 0u64;
    for number in 0..names {
        tree.reserve(1)?;
        if tree.create(ROOT, name_of(alloc, number)?, CreateMode::Guarded, NONE).is_ok() {
            made = made.wrapping_add(1);
        }
    }
    Ok(made)
}

/// Lists the names page by page, and counts them.
fn list(tree: &Tree, names: u64) -> u64 {
    let version = match tree.version(ROOT) {
        Ok(version) => version,
        Err(_) => return 0,
    };
    let mut seen = 0u64;
    for _page in 0..names {
        let Ok(page) = tree.list(ROOT, seen, version, 65_536) else {
            return 0;
        };
        seen = seen.wrapping_add(page.entries.len() as u64);
        if page.eof {
            return seen;
        }
    }
    seen
}

/// Removes them all, and counts those that are.
fn remove(alloc: Global, tree: &mut Tree, names: u64) -> Result<u64, AllocError> {
    let mut gone = 0u64;
    for number in 0..names {
        if tree.remove(ROOT, name_of(alloc, number)?.as_slice(), NONE).is_ok() {
            gone = gone.wrapping_add(1);
        }
    }
    Ok(gone)
}

/// The microseconds of all three.
fn timed(rt: &impl Runtime, alloc: Global, names: u64) -> io::Result<u128> {
    let mut tree = Tree::new(alloc)?;
    let start = Instant::now(rt)?;
    let made = make(alloc, &mut tree, names)?;
    let seen = list(&tree, names);
    let gone = remove(alloc, &mut tree, names)?;
    let spent = start.elapsed(rt)?;
    if made != names || seen != names || gone != names {
        println!(rt; "wrong: {made} were made, {seen} listed, {gone} removed")?;
    }
    Ok(spent.as_micros())
}

/// The rounds and the names.
fn numbers(words: &[String]) -> Option<(usize, u64)> {
    let [rounds, names] = words else {
        return None;
    };
    Some((rounds.parse().ok()?, names.parse().ok()?))
}

fn main(rt: HostRuntime) -> io::Result<()> {
    let alloc = rt.alloc();
    let words: Vec<String> = env::args(&rt)?.skip(1).collect(alloc)?;
    let Some((rounds, names)) = numbers(&words) else {
        println!(rt; "two numbers are wanted")?;
        return Ok(());
    };
    for _round in 0..rounds {
        let quarter = timed(&rt, alloc, names / 4)?;
        let all = timed(&rt, alloc, names)?;
        println!(rt; "{quarter} {all}")?;
    }
    Ok(())
}
EOF

if [[ $how == try ]]; then
    (cd "$work/crates/tree_bench" && rt try -- "$rounds" "$names") >"$work/log" 2>&1 || { cat "$work/log" >&2; exit 1; }
    keep 2
else
    build tree_bench 0 1
    measure 2 tree_bench "$rounds" "$names"
fi

quarter=$(median 1)
all=$(median 2)
echo "$names names made, listed and removed: $all us, $((names / 4)) names $quarter us, ratio $(ratio "$all" "$quarter") (medians of $rounds rounds, $how)"
