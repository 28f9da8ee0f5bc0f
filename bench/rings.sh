#!/usr/bin/env bash
# What a byte costs through a ring of words: put and take of 1000 bytes in turn on one thread, in instructions per byte, and
# 100000000 bytes from one thread to another, in seconds; beside them a plain Rust ring of the same words with the same
# orderings. The program stands in a folder that goes when the shell ends. Wants valgrind and rustc.
set -eu
. "$(dirname "$0")/common.sh"
mkdir -p "$work/crates/ring_loop/src" "$work/crates/ring_loop/proofs"/{in_turn,put_all,take_all}
cp "$here/HANDLES" "$work"
cp -r "$here/crates/ring_words" "$here/crates/ring_ends" "$work/crates"
rm -rf "$work"/crates/*/must-fail
printf '%s\n' 'ring_words: atomic_table thiserror' 'ring_ends: ring_words atomic_table' 'ring_loop: ring_ends' >"$work/crates.txt"
cat >"$work/crates/ring_loop/src/main.rt" <<'RT'
#![tactic(auto)]

ghost use Rattle.std.specs.Prelude.{◌≡◌};

use ring_ends::{Consumer, Producer, RingTable, ring};
use std::io;
use std::rt::Env;
use std::sync::Wait;
use std::thread::Threads;
use std::{env, thread};

fn in_turn(table: &RingTable, mut producer: Producer, mut consumer: Consumer, rounds: u64) -> u64
    requires producer { producer.table ≡ table.now.shared.table_id }
    requires consumer { consumer.table ≡ table.now.shared.table_id }
{
    let from = [7; 1000];
    let mut into = [0; 1000];
    let mut moved: u64 = 0;
    for _ in 0..rounds {
        let _ = producer.put(table, &from);
        if let Ok(took) = consumer.take(table, &mut into) {
            moved = moved.wrapping_add(took.n as u64);
        }
    }
    moved
}

fn put_all<R: Wait>(rt: &R, table: &RingTable, mut producer: Producer, total: u64) -> u64
    requires { producer.table ≡ table.now.shared.table_id }
{
    let from = [7; 1000];
    let mut left = total;
    for _ in rt.forever() {
        if left == 0 {
            break;
        }
        let size = left.min(1000) as usize;
        let Ok(put) = producer.put(table, &from[..size]) else {
            break;
        };
        if put.n == 0 {
            thread::yield_now();
        }
        left = left.saturating_sub(put.n as u64);
    }
    left
}

fn take_all<R: Wait>(rt: &R, table: &RingTable, mut consumer: Consumer, total: u64) -> u64
    requires { consumer.table ≡ table.now.shared.table_id }
{
    let mut into = [0; 1000];
    let mut left = total;
    for _ in rt.forever() {
        if left == 0 {
            break;
        }
        let size = left.min(1000) as usize;
        let Ok(took) = consumer.take(table, &mut into[..size]) else {
            break;
        };
        if took.n == 0 {
            thread::yield_now();
        }
        left = left.saturating_sub(took.n as u64);
    }
    left
}

fn two_threads<R: Threads + Wait + Sync>(
    rt: &R,
    table: &RingTable,
    producer: Producer,
    consumer: Consumer,
    total: u64,
) -> u64
    requires producer { producer.table ≡ table.now.shared.table_id }
    requires consumer { consumer.table ≡ table.now.shared.table_id }
{
    let (put, took) = thread::join(
        rt,
        move || -> u64
            requires { producer.table ≡ table.now.shared.table_id }
        { put_all(rt, table, producer, total) },
        move || -> u64
            requires { consumer.table ≡ table.now.shared.table_id }
        { take_all(rt, table, consumer, total) },
    );
    total.wrapping_sub(put.max(took))
}

fn main(rt: HostRuntime) -> io::Result<()> {
    let words: Vec<String> = env::args(&rt)?.skip(1).collect(rt.alloc())?;
    let in_one = words.len() == 1;
    let rounds: u64 = 2000;
    let (table, producer, consumer) = ring(rt.alloc(), 4294967000)?;
    let moved = if in_one {
        in_turn(&table, producer, consumer, rounds)
    } else {
        two_threads(&rt, &table, producer, consumer, 100000000)
    };
    println!(rt; "{moved}")?;
    Ok(())
}
RT
cat >"$work/crates/ring_loop/proofs/in_turn/Invariants.antt" <<'ANTT'
use Rattle.std.proofs.Common.{◌≡◌}
use Rattle.ring_loop.proofs.in_turn.Given as goal

abbrev pub invariant-loop : goal.invariant-loop
invariant-loop l = (l.producer.table ≡ l.initial.producer.table) × (l.consumer.table ≡ l.initial.consumer.table)
ANTT
for end in put:producer take:consumer; do
  name=${end%:*}_all
  cat >"$work/crates/ring_loop/proofs/$name/Invariants.antt" <<ANTT
use Rattle.std.proofs.Common.{◌≡◌}
use Rattle.ring_loop.proofs.$name.Given as goal

abbrev pub invariant-loop : goal.invariant-loop
invariant-loop g l =
    (goal.iterator-loop g).can_next l.iterator' × (goal.iterator-loop g).is_finite l.iterator' × (l.${end#*:}.table ≡ l.initial.${end#*:}.table)
ANTT
done
cat >"$work/plain.rs" <<'RS'
use std::sync::atomic::{AtomicU64, Ordering::SeqCst};

struct Ring {
    words: Vec<AtomicU64>,
}

impl Ring {
    fn new(start: u32) -> Ring {
        let words: Vec<AtomicU64> = (0..1027).map(|_| AtomicU64::new(0)).collect();
        words[1024].store(start.into(), SeqCst);
        words[1025].store(start.into(), SeqCst);
        Ring { words }
    }

    #[inline(never)]
    fn put(&self, own: &mut u32, from: &[u8]) -> Option<usize> {
        let used = own.wrapping_sub(self.words[1025].load(SeqCst) as u32);
        if used > 1024 {
            return None;
        }
        let n = from.len().min((1024 - used) as usize);
        for (k, byte) in from[..n].iter().enumerate() {
            let place = own.wrapping_add(k as u32) % 1024;
            self.words[place as usize].store(u64::from(*byte), SeqCst);
        }
        *own = own.wrapping_add(n as u32);
        self.words[1024].store(u64::from(*own), SeqCst);
        Some(n)
    }

    #[inline(never)]
    fn take(&self, own: &mut u32, into: &mut [u8]) -> Option<usize> {
        let used = (self.words[1024].load(SeqCst) as u32).wrapping_sub(*own);
        if used > 1024 {
            return None;
        }
        let n = into.len().min(used as usize);
        for (k, byte) in into[..n].iter_mut().enumerate() {
            let place = own.wrapping_add(k as u32) % 1024;
            *byte = self.words[place as usize].load(SeqCst) as u8;
        }
        *own = own.wrapping_add(n as u32);
        self.words[1025].store(u64::from(*own), SeqCst);
        Some(n)
    }
}

fn in_turn(rounds: usize) -> usize {
    let ring = Ring::new(4294967000);
    let (mut prod, mut cons) = (4294967000, 4294967000);
    let from = [7; 1000];
    let mut into = [0; 1000];
    let mut moved = 0;
    for _ in 0..rounds {
        ring.put(&mut prod, &from);
        moved += ring.take(&mut cons, &mut into).unwrap_or(0);
    }
    moved
}

fn two_threads(rounds: usize) -> usize {
    let ring = Ring::new(4294967000);
    let total = rounds * 1000;
    std::thread::scope(|scope| {
        scope.spawn(|| {
            let (mut own, mut left) = (4294967000, total);
            let from = [7; 1000];
            while left > 0 {
                let n = ring.put(&mut own, &from[..left.min(1000)]).unwrap_or(0);
                if n == 0 {
                    std::thread::yield_now();
                }
                left -= n;
            }
        });
        let (mut own, mut left) = (4294967000, total);
        let mut into = [0; 1000];
        while left > 0 {
            let n = ring.take(&mut own, &mut into[..left.min(1000)]).unwrap_or(0);
            if n == 0 {
                std::thread::yield_now();
            }
            left -= n;
        }
    });
    total
}

fn main() {
    let words: Vec<String> = std::env::args().collect();
    let rounds: usize = words[2].parse().unwrap();
    let moved = if words[1] == "turn" { in_turn(rounds) } else { two_threads(rounds) };
    println!("{moved}");
}
RS
rustc -O -C target-cpu=x86-64-v2 "$work/plain.rs" -o "$work/plain"
(cd "$work/crates/ring_loop" && rt run -- turn >/dev/null)
loop=$work/crates/ring_loop/out/ring_loop

cost() { # cost PROGRAM WORD..: instructions per byte of 2000 rounds of 1000 bytes
  valgrind --tool=callgrind --callgrind-out-file=/dev/null "$@" 2>&1 >/dev/null |
    sed -n 's/.*Collected : \([0-9]*\).*/\1/p' | awk '{ printf "%.1f\n", $1 / 2000000 }'
}
seconds() { # seconds PROGRAM WORD..
  local begin end
  begin=$(date +%s.%N); "$@" >/dev/null; end=$(date +%s.%N)
  awk -v a="$begin" -v b="$end" 'BEGIN { printf "%.2f\n", b - a }'
}
echo "put and take in turn: $(cost "$loop" turn) instructions per byte; plain Rust: $(cost "$work/plain" turn 2000)"
echo "100000000 bytes between two threads: $(seconds "$loop" two threads) s; plain Rust: $(seconds "$work/plain" threads 100000) s"
