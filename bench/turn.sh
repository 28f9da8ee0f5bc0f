#!/usr/bin/env bash
# What a call of a turn costs that meets no other: 1000000 calls of an object that counts, by one caller, in instructions per
# call and in seconds, and 500000 calls each by two callers on two threads, in seconds; beside them a plain Rust ticket lock
# with the same orderings, the same object and the same history. The program stands in a folder that goes when the shell
# ends. Wants valgrind and rustc.
set -eu
. "$(dirname "$0")/common.sh"
mkdir -p "$work/crates/turn_loop/src" "$work/crates/turn_loop/proofs"/{call_all,two_threads}
cp "$here/HANDLES" "$work"
cp -r "$here/crates/store_turn" "$work/crates"
rm -rf "$work"/crates/*/must-fail
printf '%s\n' 'store_turn: atomic_table' 'turn_loop: store_turn' >"$work/crates.txt"
cat >"$work/crates/turn_loop/src/main.rt" <<'RT'
#![tactic(auto)]

ghost use Rattle.std.specs.Prelude.{◌≡◌};

use std::io;
use std::marker::Model;
use std::rt::Env;
use std::sync::Wait;
use std::thread::Threads;
use std::{env, thread};
use store_turn::{Caller, NoMemory, Object, Turn};

#[derive(Drop)]
struct Counter {
    sum: u64,
}

impl Model for Counter {
    ghost use Rattle.std.specs.Prelude.{ℕ};

    ghost Value = { ℕ };

    ghost view = { λ counter. counter.sum };
}

impl Object for Counter {
    ghost use Rattle.std.specs.Prelude.{◌+◌, ◌%◌, ◌^◌, false, ⊤};

    type Op = u32;

    type Answer = u64;

    ghost next = { λ sum op. (sum + op) % 2 ^ 64 };

    ghost answer = { λ sum op. sum };

    ghost fits = { λ op. ⊤ };

    ghost is_quiet = { λ given. false };

    fn apply(&mut self, op: &u32) -> Result<u64, NoMemory> {
        let before = self.sum;
        self.sum = before.wrapping_add(u64::from(*op));
        Ok(before)
    }

    fn quiet(_given: &u64) -> bool {
        false
    }
}

fn call_all<R: Wait>(
    rt: &R,
    turn: &Turn<Counter>,
    mut caller: Caller<Counter>,
    calls: u32,
) -> Caller<Counter>
    requires { caller.turn ≡ turn.now.id }
    ensures { result.turn ≡ turn.now.id }
{
    for op in 0..calls {
        let _ = turn.call(rt, &mut caller, op);
    }
    caller
}

fn two_threads<R: Threads + Wait + Sync>(
    rt: &R,
    turn: &Turn<Counter>,
    one: Caller<Counter>,
    two: Caller<Counter>,
) -> (Caller<Counter>, Caller<Counter>)
    requires { (one.turn ≡ turn.now.id) × (two.turn ≡ turn.now.id) }
    ensures { (result.0.turn ≡ turn.now.id) × (result.1.turn ≡ turn.now.id) }
{
    thread::join(
        rt,
        move || -> Caller<Counter>
            requires { one.turn ≡ turn.now.id }
            ensures { result.turn ≡ turn.entry.now.id }
        { call_all(rt, turn, one, 500000) },
        move || -> Caller<Counter>
            requires { two.turn ≡ turn.now.id }
            ensures { result.turn ≡ turn.entry.now.id }
        { call_all(rt, turn, two, 500000) },
    )
}

fn main(rt: HostRuntime) -> io::Result<()> {
    let words: Vec<String> = env::args(&rt)?.skip(1).collect(rt.alloc())?;
    let in_one = words.len() == 1;
    let (turn, mut callers) = Turn::new(rt.alloc(), Counter { sum: 0 }, 2)?;
    let Some(one) = callers.take() else {
        return Ok(());
    };
    let Some(two) = callers.take() else {
        return Ok(());
    };
    let (one, two) = if in_one {
        (call_all(&rt, &turn, one, 1000000), two)
    } else {
        two_threads(&rt, &turn, one, two)
    };
    callers.give(one);
    callers.give(two);
    if callers.all_there() {
        let (counter, history) = turn.close(callers);
        println!(rt; "{} {}", counter.sum, history.len())?;
    }
    Ok(())
}
RT
cat >"$work/crates/turn_loop/proofs/call_all/Invariants.antt" <<'ANTT'
use Rattle.std.proofs.Common.{◌≡◌}
use Rattle.turn_loop.proofs.call_all.Given as goal

abbrev pub invariant-loop-op : goal.invariant-loop-op
invariant-loop-op g l = l.caller.turn ≡ l.initial.caller.turn
ANTT
# the answer of the crate's own test of two threads, with the object of this program
sed -e 's/store_turn\.proofs\.tests\.call_beside/turn_loop.proofs.two_threads/; s/store_turn\.proofs\.tests\.Numbers/turn_loop.proofs.Counter/' \
  -e 's/store_turn\.specs\.contracts\.tests\.Numbers/turn_loop.specs.contracts.Counter/' \
  "$here/crates/store_turn/proofs/tests/call_beside/Answers.antt" >"$work/crates/turn_loop/proofs/two_threads/Answers.antt"
cat >"$work/plain.rs" <<'RS'
use std::cell::UnsafeCell;
use std::hint;
use std::sync::atomic::{AtomicU64, Ordering::SeqCst};
use std::thread;

struct Counter {
    sum: u64,
}

impl Counter {
    fn apply(&mut self, op: u32) -> u64 {
        let before = self.sum;
        self.sum = before.wrapping_add(u64::from(op));
        before
    }
}

struct Entry {
    caller: u32,
    op: u32,
}

struct Desk {
    counter: Counter,
    entries: Vec<Entry>,
}

struct Turn {
    ticket: AtomicU64,
    serving: AtomicU64,
    desk: UnsafeCell<Desk>,
}

unsafe impl Sync for Turn {}

impl Turn {
    fn new() -> Turn {
        let desk = Desk { counter: Counter { sum: 0 }, entries: Vec::new() };
        Turn { ticket: AtomicU64::new(0), serving: AtomicU64::new(0), desk: UnsafeCell::new(desk) }
    }

    fn call(&self, caller: u32, op: u32) -> Option<u64> {
        let ticket = self.ticket.fetch_add(1, SeqCst);
        let mut looks = 0;
        while self.serving.load(SeqCst) != ticket {
            if looks < 64 {
                looks += 1;
                hint::spin_loop();
            } else {
                thread::yield_now();
            }
        }
        let desk = unsafe { &mut *self.desk.get() };
        let mut answer = None;
        if desk.entries.try_reserve(1).is_ok() {
            answer = Some(desk.counter.apply(op));
            desk.entries.push(Entry { caller, op });
        }
        self.serving.store(ticket.wrapping_add(1), SeqCst);
        answer
    }

    fn call_all(&self, caller: u32, calls: u32) {
        for op in 0..calls {
            let _ = self.call(caller, op);
        }
    }
}

fn main() {
    let words: Vec<String> = std::env::args().collect();
    let turn = Turn::new();
    if words.len() == 2 {
        turn.call_all(0, 1000000);
    } else {
        thread::scope(|scope| {
            scope.spawn(|| turn.call_all(0, 500000));
            turn.call_all(1, 500000);
        });
    }
    let desk = turn.desk.into_inner();
    let last = desk.entries.last().map(|entry| (entry.caller, entry.op));
    println!("{} {} {last:?}", desk.counter.sum, desk.entries.len());
}
RS
rustc -O -C target-cpu=x86-64-v2 "$work/plain.rs" -o "$work/plain"
(cd "$work/crates/turn_loop" && rt run -- turn >/dev/null)
loop=$work/crates/turn_loop/out/turn_loop

cost() { # cost PROGRAM WORD: instructions per call of 1000000 calls
  valgrind --tool=callgrind --callgrind-out-file=/dev/null "$@" 2>&1 >/dev/null |
    sed -n 's/.*Collected : \([0-9]*\).*/\1/p' | awk '{ printf "%.1f\n", $1 / 1000000 }'
}
seconds() { # seconds PROGRAM WORD..
  local begin end
  begin=$(date +%s.%N); "$@" >/dev/null; end=$(date +%s.%N)
  awk -v a="$begin" -v b="$end" 'BEGIN { printf "%.2f\n", b - a }'
}
echo "a call that meets no other: $(cost "$loop" turn) instructions; plain Rust: $(cost "$work/plain" turn)"
echo "1000000 calls by one caller: $(seconds "$loop" turn) s; plain Rust: $(seconds "$work/plain" turn) s"
echo "500000 calls each by two callers: $(seconds "$loop" two threads) s; plain Rust: $(seconds "$work/plain" two threads) s"
