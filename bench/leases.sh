#!/usr/bin/env bash
# Measures what a new lease costs in `lease_table`: each of 64 sessions has leases on 64 files, on 2,048
# or on 4,096; in each table 256 leases on further files are granted, to sessions and on files as a
# generator of numbers picks them, and dropped again, each by a RECALL and its answer; then as often one
# before all others. The program that does it is made in a copy outside the repository (bench/made). The
# script reports the medians and judges nothing.
#
#   bench/leases.sh [ROUNDS]     9 rounds, where not said otherwise
#
# The program and the crates below it are proved first, and what LLVM built is measured (some minutes,
# where no check of them is kept on the machine).
set -euo pipefail
cd "$(dirname "$0")/.."

rounds=${1:-9}
. bench/made
copy_for lease_bench "lease_table"
words_of lease_bench
cat >"$work/crates/lease_bench/src/main.rt" <<'EOF'
//! Grants leases in tables of several sizes, and prints the microseconds of a thousand of each kind.
#![tactic(auto)]

mod words;

use lease_table::table::Leases;
use std::alloc::AllocError;
use std::io;
use std::rt::Runtime;
use std::time::Instant;

/// How many sessions have leases.
const SESSIONS: u32 = 64;

/// How often a lease is granted in a measurement.
const GRANTS: usize = 256;

/// The next of a generator's numbers.
fn next(state: u64) -> u64 {
    state
        .wrapping_mul(6_364_136_223_846_793_005)
        .wrapping_add(1_442_695_040_888_963_407)
}

/// A session that a number picks, from 1 to 64.
fn session_of(state: u64) -> u32 {
    u32::from(state.to_be_bytes()[0] & 63) + 1
}

/// A file that a number picks among as many as the table has, and has no lease on.
fn file_of(state: u64, files: u64) -> u64 {
    ((state >> 20) & files.wrapping_sub(1))
        .wrapping_mul(2)
        .wrapping_add(3)
}

/// Grants each session a lease on a file.
fn fill_file(leases: &mut Leases, file: u64) -> Result<(), AllocError> {
    for session in 0..SESSIONS {
        leases.grant(session + 1, file, 0, 60_000)?;
    }
    Ok(())
}

/// Grants each session a lease on each of so many files.
fn fill(leases: &mut Leases, files: u64) -> Result<(), AllocError> {
    for file in 0..files {
        fill_file(leases, file.wrapping_mul(2).wrapping_add(2))?;
    }
    Ok(())
}

/// Grants leases, to sessions and on files as numbers pick them.
fn grant_all(leases: &mut Leases, files: u64) -> Result<(), AllocError> {
    let mut state = 1;
    for _ in 0..GRANTS {
        state = next(state);
        leases.grant(session_of(state), file_of(state, files), 0, 60_000)?;
    }
    Ok(())
}

/// A session's lease goes: it is asked for, and the answer gives it up.
fn drop_one(leases: &mut Leases, session: u32, file: u64) {
    leases.mark_recalled(session, file, 1);
    leases.answered(session, 1);
}

/// Drops them again.
fn drop_all(leases: &mut Leases, files: u64) {
    let mut state = 1;
    for _ in 0..GRANTS {
        state = next(state);
        drop_one(leases, session_of(state), file_of(state, files));
    }
}

/// Grants a lease before all others, and drops it again, as often.
fn turn_first(leases: &mut Leases) -> Result<(), AllocError> {
    for _ in 0..GRANTS {
        leases.grant(1, 1, 0, 60_000)?;
        drop_one(leases, 1, 1);
    }
    Ok(())
}

/// The microseconds that granting took.
fn timed_grants(rt: &impl Runtime, leases: &mut Leases, files: u64) -> io::Result<u128> {
    let start = Instant::now(rt)?;
    grant_all(leases, files)?;
    Ok(start.elapsed(rt)?.as_micros())
}

/// The microseconds that dropping took.
fn timed_drops(rt: &impl Runtime, leases: &mut Leases, files: u64) -> io::Result<u128> {
    let start = Instant::now(rt)?;
    drop_all(leases, files);
    Ok(start.elapsed(rt)?.as_micros())
}

/// The microseconds of both in the first place.
fn timed_turns(rt: &impl Runtime, leases: &mut Leases) -> io::Result<u128> {
    let start = Instant::now(rt)?;
    turn_first(leases)?;
    Ok(start.elapsed(rt)?.as_micros())
}

/// Prints the three times of a table.
fn measure(rt: &impl Runtime, leases: &mut Leases, files: u64) -> io::Result<()> {
    let granted = timed_grants(rt, leases, files)?;
    let dropped = timed_drops(rt, leases, files)?;
    let turned = timed_turns(rt, leases)?;
    if leases.has(1, 1) || !leases.has(1, 2) {
        println!(rt; "wrong: what was granted was not dropped")?;
    }
    print!(rt; "{granted} {dropped} {turned}")
}

/// Fills three tables, and prints a line of times for each round.
fn run(
    rt: &impl Runtime,
    small: &mut Leases,
    middle: &mut Leases,
    large: &mut Leases,
    rounds: usize,
) -> io::Result<()> {
    fill(small, 64)?;
    fill(middle, 2048)?;
    fill(large, 4096)?;
    for _ in 0..rounds {
        measure(rt, small, 64)?;
        print!(rt; " ")?;
        measure(rt, middle, 2048)?;
        print!(rt; " ")?;
        measure(rt, large, 4096)?;
        println!(rt; "")?;
    }
    Ok(())
}

fn main(rt: HostRuntime) -> io::Result<()> {
    let alloc = rt.alloc();
    let Some(rounds) = words::rounds(&rt)? else {
        return Ok(());
    };
    let mut small = Leases::new(alloc);
    let mut middle = Leases::new(alloc);
    let mut large = Leases::new(alloc);
    let done = run(&rt, &mut small, &mut middle, &mut large, rounds);
    drop(small);
    drop(middle);
    drop(large);
    done
}
EOF

build lease_bench 0
measure 9 lease_bench "$rounds"

# The microseconds of one of 256, from a column of the times.
each() {
    awk -v all="$(median "$1")" 'BEGIN { printf "%.2f", all / 256 }'
}

echo "64 sessions, medians of $rounds rounds, in us"
for size in 64 2048 4096; do
    case $size in 64) column=1 ;; 2048) column=4 ;; *) column=7 ;; esac
    echo "leases on $size files each: a grant $(each $column), dropped $(each $((column + 1))), both in the first place $(each $((column + 2)))"
done
