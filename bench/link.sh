#!/bin/sh
# How long messages take to pass a link: n messages with a fault row for each hundredth (lost, repeated, held by 7, held
# to the end, in turn), and 2n messages with twice as many rows, in one process. Each is run three times, and the
# shortest time counts. A cost that grows as fast as the messages has the ratio 2.
#
# Usage: bench/link.sh [MESSAGES]   (n, a multiple of 400; 1000000 if left out, which has 10000 rows)
#
# The program is written into a scratch folder, proved there over the crates of this repository, and run.
set -eu
messages=${1:-1000000}
. "$(dirname "$0")/scratch.sh"
new_program link_bench 'link_bench: mama_memory mama_link anyhow' mama_memory mama_link
sed "s/MESSAGES_THAT_PASS/$messages/" > "$bench/src/main.rt" <<'PROGRAM'
//! How long messages take to pass a link.
#![tactic(auto)]

use mama_link::{Cuttable, Duplicate, Fault, FaultRow, Faults, Link, OutOfMemory};
use mama_memory::Outbox;
use std::alloc::Global;
use std::time::{Duration, Instant};

const MESSAGES: u32 = MESSAGES_THAT_PASS;

/// A message that is its number, of which a cut leaves all.
#[derive(Clone, Copy, Drop)]
struct Item {
    number: u32,
}

impl Duplicate for Item {
    fn try_clone(&self) -> Result<Item, OutOfMemory> {
        Ok(*self)
    }
}

impl Cuttable for Item {
    ghost use Rattle.std.specs.Prelude.{ℕ};

    ghost cut_to = { λ (keep : ℕ) (item : Item). item };

    fn cut(&mut self, _keep: u32) {}
}

fn fault_of(row: u32, messages: u32) -> Fault {
    match row % 4 {
        0 => Fault::Lose,
        1 => Fault::Dup,
        2 => Fault::Hold(7),
        _ => Fault::Hold(messages),
    }
}

fn rows(alloc: Global, messages: u32) -> anyhow::Result<Vec<FaultRow>> {
    let mut rows = Vec::new(alloc);
    for row in 0..messages / 100 {
        rows.push(FaultRow {
            index: row.wrapping_mul(100).wrapping_add(1),
            fault: fault_of(row, messages),
        })?;
    }
    Ok(rows)
}

// Takes all out, and adds their numbers.
fn drain(out: &mut Outbox<Item>, sum: u64) -> u64 {
    let mut sum = sum;
    for _ in 0..out.len() {
        if let Some(item) = out.take_first() {
            sum = sum.wrapping_add(item.number as u64);
        }
    }
    sum
}

// Passes numbered messages, and answers the sum of what came out.
fn pass_all(alloc: Global, messages: u32) -> anyhow::Result<u64> {
    let faults = Faults::new(alloc, rows(alloc, messages)?)?;
    let mut link = Link::new(alloc, faults);
    let mut out = Outbox::new(alloc);
    let mut sum = 0;
    for number in 0..messages {
        let item = Item {
            number: number.wrapping_add(1),
        };
        if link.pass(item, &mut out).is_err() {
            return Err(anyhow::Error::msg("out of memory"));
        }
        sum = drain(&mut out, sum);
    }
    if link.finish(&mut out).is_err() {
        return Err(anyhow::Error::msg("out of memory"));
    }
    Ok(drain(&mut out, sum))
}

// What the sum is to be: of four rows one is lost, and one a hundred further on comes twice.
fn expected(messages: u32) -> u64 {
    let all = (messages as u64).wrapping_mul(messages as u64 + 1) / 2;
    all.wrapping_add(messages as u64 / 400 * 100)
}

// The shortest of three times.
fn shortest(rt: HostRuntime, messages: u32) -> anyhow::Result<Duration> {
    let mut best = Duration::MAX;
    for _ in 0..3 {
        let start = Instant::now(&rt)?;
        let sum = pass_all(rt.alloc(), messages)?;
        best = best.min(start.elapsed(&rt)?);
        if sum != expected(messages) {
            return Err(anyhow::Error::msg("the sum is wrong"));
        }
    }
    Ok(best)
}

fn main(rt: HostRuntime) -> anyhow::Result<()> {
    let once = shortest(rt, MESSAGES)?.as_micros();
    let twice = shortest(rt, MESSAGES.wrapping_mul(2))?.as_micros();
    println!(rt; "{} messages, {} rows: {} us", MESSAGES, MESSAGES / 100, once)?;
    println!(rt; "twice as many: {} us", twice)?;
    println!(rt; "ratio: {} hundredths", twice.saturating_mul(100) / once.max(1))?;
    Ok(())
}
PROGRAM
cd "$bench"
rt run
