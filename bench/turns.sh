#!/usr/bin/env bash
# Measures turns of the post (crates/turn_post), by a program of its own that is proved and built here: an empty turn
# of one thread and of 16, by the clock, and what a turn takes of a processor where 64 threads take turns in which
# they sleep for 1 ms. The least of the rounds. It judges nothing.
#
#   bench/turns.sh [ROUNDS]        5 rounds, where not said otherwise
set -euo pipefail
cd "$(dirname "$0")/.."

rounds=${1:-5}
. bench/against
crate=$work/crates/turns
mkdir -p "$crate/src" "$crate/proofs/take_turns" "$crate/proofs/start_all"
cp -r crates/turn_post "$work/crates/"
rm -rf "$work/crates/turn_post/out" "$work/crates/turn_post/must-fail"
cp HANDLES "$work/"
printf 'turn_post: atomic_table\nturns: turn_post atomic_table\n' >"$work/crates.txt"
cat >"$crate/proofs/take_turns/Invariants.antt" <<'END'
use Rattle.turn_post.specs.Passes.{IsPassOf}
use Rattle.turns.proofs.take_turns.Given as goal

abbrev pub invariant-loop-at : goal.invariant-loop-at
invariant-loop-at g l = IsPassOf l.post l.pass
END
cat >"$crate/proofs/start_all/Invariants.antt" <<'END'
use Rattle.turn_post.specs.Passes.{IsPassOf}
use Rattle.turns.proofs.start_all.Given as goal

abbrev pub invariant-loop-at : goal.invariant-loop-at
invariant-loop-at g l = IsPassOf l.post l.rest
END
cat >"$crate/src/main.rt" <<'END'
//! Threads take turns at a post: how many threads, how many turns each, and how many microseconds each sleeps in
//! its turn, are the words. What a turn took by the clock is printed, in nanoseconds.
#![tactic(auto)]

ghost use Rattle.std.specs.Prelude.{◌≡◌, [], List};
ghost use Rattle.turn_post.specs.Passes.{IsPassOf};

use std::rt::Clock;
use std::sync::Wait;
use std::thread::{Scope, Threads};
use std::time::{Duration, Instant};
use std::{env, io, thread};
use turn_post::journaled::Journaled;
use turn_post::post::{Pass, Post};

/// A number, with a journal that stays empty.
#[derive(Drop)]
struct Count {
    turns: u64,
}

impl Journaled for Count {
    type Entry = u64;

    ghost journal = { λ _. [] };

    fn count(&self) -> u64 {
        0
    }
}

/// Takes turns, and sleeps in each.
fn take_turns<R: Wait + Clock>(
    rt: &R,
    post: &Post<Count>,
    pass: Pass<Count>,
    turns: u64,
    sleep: Duration,
)
    requires { IsPassOf post.now pass }
{
    let mut pass = pass;
    for _at in 0..turns {
        let mut turn = post.enter(rt, pass);
        let count = turn.value();
        count.turns = count.turns.wrapping_add(1);
        if !sleep.is_zero() {
            thread::sleep(rt, sleep);
        }
        pass = turn.leave();
    }
}

/// Starts as many threads.
fn start_all<'s, 'e, R: Threads + Wait + Clock + Sync>(
    scope: &'s Scope<'s, &'e ()>,
    rt: &'e R,
    post: &'e Post<Count>,
    pass: Pass<Count>,
    threads: u64,
    turns: u64,
    sleep: Duration,
)
    requires { IsPassOf post.now pass }
{
    let mut rest = pass;
    for _at in 0..threads {
        let (one, others) = post.split(rest);
        rest = others;
        let started = scope.spawn(
            move ||
                requires { IsPassOf post.now one }
            { take_turns(rt, post, one, turns, sleep) },
        );
        drop(started);
    }
}

/// Runs the threads to their ends.
fn run_all<'x, R: Threads + Wait + Clock + Sync>(
    rt: &'x R,
    post: &'x Post<Count>,
    pass: Pass<Count>,
    threads: u64,
    turns: u64,
    sleep: Duration,
)
    requires { IsPassOf post.now pass }
{
    thread::scope(
        thread::scope_env(),
        rt,
        move |scope|
            requires { IsPassOf post.now pass }
        { start_all(scope, rt, post, pass, threads, turns, sleep) },
    )
}

/// The number that a word is.
fn number(word: Option<&String>) -> u64 {
    match word {
        Some(word) => word.parse::<u64>().unwrap_or(1),
        None => 1,
    }
}

fn main(rt: HostRuntime) -> io::Result<()> {
    let words: Vec<String> = env::args(&rt)?.collect(rt.alloc())?;
    let threads = number(words.get(1)).max(1);
    let turns = number(words.get(2)).max(1);
    let sleep = Duration::from_micros(number(words.get(3)));
    let Ok((post, pass)) = Post::new(rt.alloc(), Count { turns: 0 }) else {
        return Ok(());
    };
    let began = Instant::now(&rt)?;
    run_all(&rt, &post, pass, threads, turns, sleep);
    let took = began.elapsed(&rt)?.as_nanos();
    let all = u128::from(threads.saturating_mul(turns).max(1));
    let each = took / all;
    println!(rt; "{each}")?;
    Ok(())
}
END
: >"$crate/stdin"
(cd "$crate" && rt fmt && rt run -- 1 1 0) >"$work/built" 2>&1 || { cat "$work/built" >&2; exit 1; }
turns=$(find "$crate/out" -type f -perm -u+x | head -n 1)

# The least nanoseconds of a turn: clocked THREADS TURNS
clocked() {
    local least=''
    for _ in $(seq "$rounds"); do
        least=$(least "$least" "$("$turns" "$1" "$2" 0)")
    done
    echo "$least"
}

# The least microseconds of a processor a turn, of threads that sleep: worked_at THREADS TURNS SLEEP
worked_at() {
    local least='' one TIMEFORMAT='%3U %3S'
    for _ in $(seq "$rounds"); do
        one=$({ time "$turns" "$1" "$2" "$3" >/dev/null; } 2>&1 | awk -v n="$(($1 * $2))" '{ printf "%d\n", ($1 + $2) * 1000000 / n }')
        least=$(least "$least" "$one")
    done
    echo "$least"
}

echo "an empty turn of one thread: $(clocked 1 4000000) ns"
echo "an empty turn, 16 threads: $(clocked 16 200000) ns"
# So many that each thread runs out of patience several times: 63 others sleep 32 times each within 2,016 turns.
echo "a turn of 1 ms, 64 threads: $(worked_at 64 200 1000) us of a processor"
