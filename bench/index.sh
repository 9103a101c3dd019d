#!/usr/bin/env bash
# Measures `chunk_index` beside the kit's `lru` alone: 65,536 places are put under the keys of as many
# digests, and each is found again, twice a round, each once before the other. The program that does it
# is made in a copy outside the repository (bench/made). The script reports the medians and their
# ratios and judges nothing.
#
#   bench/index.sh [ROUNDS]     9 rounds, where not said otherwise
#
# The program and the crate below it are proved first, and what LLVM built is measured (some minutes,
# where no check of it is kept on the machine).
set -euo pipefail
cd "$(dirname "$0")/.."

rounds=${1:-9}
. bench/made
copy_for index_bench "chunk_index lru"
words_of index_bench
cat >"$work/crates/index_bench/src/main.rt" <<'EOF'
//! Puts and finds 65,536 places through the index and through `lru` alone, and prints the
//! microseconds of each.
#![tactic(auto)]

mod words;

use chunk_index::index::Index;
use chunk_index::place::Place;
use lru::LruCache;
use std::alloc::{AllocError, Global};
use std::io;
use std::num::NonZeroUsize;
use std::rt::Runtime;
use std::time::Instant;

/// How many places.
const PLACES: usize = 65_536;

/// Digests, as random as a generator of numbers makes them.
fn digests(alloc: Global) -> Result<Vec<[u8; 20]>, AllocError> {
    let mut all = Vec::new(alloc);
    let mut state = 1u64;
    for _ in 0..PLACES {
        state = state
            .wrapping_mul(6_364_136_223_846_793_005)
            .wrapping_add(1_442_695_040_888_963_407);
        let front = (state ^ (state >> 29)).to_be_bytes();
        let mut digest = [0; 20];
        digest[0] = front[7];
        digest[1] = front[6];
        digest[2] = front[5];
        digest[3] = front[4];
        digest[4] = front[3];
        digest[5] = front[2];
        digest[6] = front[1];
        digest[7] = front[0];
        all.push(digest)?;
    }
    Ok(all)
}

/// The same place for each of them.
fn place() -> Place {
    Place {
        file: 2,
        offset: 0,
        count: 8192,
    }
}

/// Puts them all into an index, and counts what went in.
fn put_all(index: &mut Index, digests: &[[u8; 20]]) -> u64 {
    let mut count = 0u64;
    for digest in digests {
        if index.put(digest, place()).is_ok() {
            count = count.wrapping_add(1);
        }
    }
    count
}

/// Finds them all in an index, and counts what was there.
fn find_all(index: &mut Index, digests: &[[u8; 20]]) -> u64 {
    let mut count = 0u64;
    for digest in digests {
        if index.find(digest).is_some() {
            count = count.wrapping_add(1);
        }
    }
    count
}

/// A digest's key.
fn key_of(digest: &[u8; 20]) -> u64 {
    u64::from_be_bytes([
        digest[0], digest[1], digest[2], digest[3], digest[4], digest[5], digest[6], digest[7],
    ])
}

/// The same by `lru` alone.
fn put_alone(cache: &mut LruCache<u64, Place>, digests: &[[u8; 20]]) -> u64 {
    let mut count = 0u64;
    for digest in digests {
        if cache.put(key_of(digest), place()).is_ok() {
            count = count.wrapping_add(1);
        }
    }
    count
}

/// The same by `lru` alone.
fn find_alone(cache: &mut LruCache<u64, Place>, digests: &[[u8; 20]]) -> u64 {
    let mut count = 0u64;
    for digest in digests {
        if cache.get(&key_of(digest)).copied().is_some() {
            count = count.wrapping_add(1);
        }
    }
    count
}

/// The microseconds of filling and of finding through the index.
fn through(rt: &impl Runtime, alloc: Global, most: NonZeroUsize, digests: &[[u8; 20]]) -> io::Result<(u128, u128)> {
    let mut index = Index::new(alloc, most)?;
    let start = Instant::now(rt)?;
    let put = put_all(&mut index, digests);
    let filled = start.elapsed(rt)?;
    let start = Instant::now(rt)?;
    let found = find_all(&mut index, digests);
    let searched = start.elapsed(rt)?;
    drop(index);
    if put != PLACES as u64 || found != PLACES as u64 {
        println!(rt; "wrong: {put} went in, {found} were found")?;
    }
    Ok((filled.as_micros(), searched.as_micros()))
}

/// The same by `lru` alone.
fn alone(rt: &impl Runtime, alloc: Global, most: NonZeroUsize, digests: &[[u8; 20]]) -> io::Result<(u128, u128)> {
    let mut cache: LruCache<u64, Place> = LruCache::sparse(alloc, most)?;
    let start = Instant::now(rt)?;
    let put = put_alone(&mut cache, digests);
    let filled = start.elapsed(rt)?;
    let start = Instant::now(rt)?;
    let found = find_alone(&mut cache, digests);
    let searched = start.elapsed(rt)?;
    drop(cache);
    if put != PLACES as u64 || found != PLACES as u64 {
        println!(rt; "wrong: {put} went in, {found} were found")?;
    }
    Ok((filled.as_micros(), searched.as_micros()))
}

fn main(rt: HostRuntime) -> io::Result<()> {
    let alloc = rt.alloc();
    let Some(rounds) = words::rounds(&rt)? else {
        return Ok(());
    };
    let digests = digests(alloc)?;
    let Some(most) = NonZeroUsize::new(PLACES) else {
        return Ok(());
    };
    for _ in 0..rounds {
        let (put, found) = through(&rt, alloc, most, &digests)?;
        let (put_alone, found_alone) = alone(&rt, alloc, most, &digests)?;
        println!(rt; "{put} {put_alone} {found} {found_alone}")?;
        let (put_alone, found_alone) = alone(&rt, alloc, most, &digests)?;
        let (put, found) = through(&rt, alloc, most, &digests)?;
        println!(rt; "{put} {put_alone} {found} {found_alone}")?;
    }
    Ok(())
}
EOF

build index_bench 0
measure 4 index_bench "$rounds"

put=$(median 1)
put_alone=$(median 2)
found=$(median 3)
found_alone=$(median 4)
echo "65536 places, medians of $rounds rounds"
echo "put: $put us, by lru alone $put_alone us: $(ratio "$put" "$put_alone")"
echo "found: $found us, by lru alone $found_alone us: $(ratio "$found" "$found_alone")"
