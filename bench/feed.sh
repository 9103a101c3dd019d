#!/usr/bin/env bash
# Measures `Records::feed`: a stream of records of 65,536 bytes in pieces of 65,536 bytes and of
# 1,024, and a quarter of the stream in each, in turns. The program that does it is made in a copy
# outside the repository (bench/made). The script reports the medians and judges nothing.
#
#   bench/feed.sh [MIB [ROUNDS [run|try]]]     of 64 MiB, 5 rounds and run, where not said otherwise
#
# `run` proves the program and the crates below it first, and measures what LLVM built (minutes, where
# no check of these crates is kept on the machine). `try` proves nothing and measures a slow build of
# the same sources; give it a few MiB.
set -euo pipefail
cd "$(dirname "$0")/.."

mib=${1:-64}
rounds=${2:-5}
how=${3:-run}
. bench/made
copy_for feed_bench "rpc_record lb_base limits"
cat >"$work/crates/feed_bench/src/main.rt" <<'EOF'
//! Feeds one end of a stream of records in large and in small pieces, all of it and a quarter of
//! it, and prints the microseconds of each.
#![tactic(auto)]

ghost use Rattle.std.specs.Prelude.{◌<◌};

use rpc_record::marking::mark;
use rpc_record::records::Records;
use std::alloc::{AllocError, Global};
use std::rt::Runtime;
use std::time::Instant;
use std::{env, io};

/// So many records, each of 65,536 bytes in one fragment.
fn stream(alloc: Global, count: usize) -> Result<Vec<u8>, AllocError> {
    let contents = vec![in alloc; 7u8; 65_536]?;
    let mut bytes = Vec::new(alloc);
    if let Ok(record) = mark(alloc, &contents) {
        for _ in 0..count {
            bytes.extend_from_slice(record.as_slice())?;
        }
    }
    Ok(bytes)
}

/// Feeds them all, and counts the records that come.
fn feed(alloc: Global, bytes: &[u8], piece: usize) -> Result<u64, AllocError>
    requires { 0 < piece }
{
    let mut records = Records::new(alloc);
    let mut count = 0u64;
    for part in bytes.chunks(piece) {
        count = count.wrapping_add(records.feed(alloc, part)?.records.len() as u64);
    }
    Ok(count)
}

/// The microseconds that it takes to feed them all in pieces of this size.
fn timed(rt: &impl Runtime, alloc: Global, bytes: &[u8], piece: usize) -> io::Result<u128>
    requires { 0 < piece }
{
    let start = Instant::now(rt)?;
    let count = feed(alloc, bytes, piece)?;
    let spent = start.elapsed(rt)?;
    if count != (bytes.len() / 65_540) as u64 {
        println!(rt; "wrong: {count} records came")?;
    }
    Ok(spent.as_micros())
}

/// The rounds and the MiB of the whole stream.
fn numbers(words: &[String]) -> Option<(usize, usize)> {
    let [rounds, mib] = words else {
        return None;
    };
    Some((rounds.parse().ok()?, mib.parse().ok()?))
}

fn main(rt: HostRuntime) -> io::Result<()> {
    let alloc = rt.alloc();
    let words: Vec<String> = env::args(&rt)?.skip(1).collect(alloc)?;
    let Some((rounds, mib)) = numbers(&words) else {
        println!(rt; "two numbers are wanted")?;
        return Ok(());
    };
    let whole = stream(alloc, mib.min(1024) * 16)?;
    let quarter = stream(alloc, mib.min(1024) * 4)?;
    for _ in 0..rounds {
        let large = timed(&rt, alloc, &whole, 65_536)?;
        let small = timed(&rt, alloc, &whole, 1024)?;
        let large_quarter = timed(&rt, alloc, &quarter, 65_536)?;
        let small_quarter = timed(&rt, alloc, &quarter, 1024)?;
        println!(rt; "{large} {small} {large_quarter} {small_quarter}")?;
    }
    Ok(())
}
EOF

if [[ $how == try ]]; then
    (cd "$work/crates/feed_bench" && rt try -- "$rounds" "$mib") >"$work/log" 2>&1 || { cat "$work/log" >&2; exit 1; }
    keep 4
else
    build feed_bench 0 1
    measure 4 feed_bench "$rounds" "$mib"
fi

large=$(median 1)
small=$(median 2)
large_quarter=$(median 3)
small_quarter=$(median 4)
echo "$mib MiB, medians of $rounds rounds ($how)"
echo "pieces of 65536: $large us, a quarter of the stream $large_quarter us: $(ratio "$large" "$large_quarter") times as long for four times as much"
echo "pieces of 1024: $small us, a quarter of the stream $small_quarter us: $(ratio "$small" "$small_quarter") times as long for four times as much"
echo "pieces of 1024 against 65536: $(ratio "$small" "$large")"
