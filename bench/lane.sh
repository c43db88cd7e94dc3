#!/bin/sh
# Events per second over a lane, beside the same program over the plain queue that a lane is built on: one putter and
# one taker, and two putters and one taker, each in a thread of its own; and takes alone, of events that all wait. All are
# run three times, in one process.
#
# Usage: bench/lane.sh [EVENTS]   (how many events each putter puts; 1000000 if left out)
#
# The program is written into a scratch folder, proved there over the crates of this repository, and run.
set -eu
events=${1:-1000000}
. "$(dirname "$0")/scratch.sh"
cp "$top/HANDLES" "$scratch/"
new_program lane_bench 'lane_bench may_wait=14: mama_event mama_lane crossbeam_queue anyhow' \
    mama_memory mama_journal mama_msg mama_payload mama_link mama_packet mama_event mama_lane
mkdir "$bench/proofs/put_on_lane" "$bench/proofs/take_from_lane"
cat > "$bench/proofs/put_on_lane/Invariants.antt" <<'PROOF'
use Rattle.std.proofs.Common.{◌≡◌}
use Rattle.lane_bench.proofs.put_on_lane.Given as goal

abbrev pub invariant-loop-number : goal.invariant-loop-number
invariant-loop-number g l = l.port.lane ≡ l.initial.port.lane
PROOF
cat > "$bench/proofs/take_from_lane/Invariants.antt" <<'PROOF'
use Rattle.std.proofs.Common.{◌≡◌}
use Rattle.lane_bench.proofs.take_from_lane.Given as goal

abbrev pub invariant-loop : goal.invariant-loop
invariant-loop g l = l.taker.lane ≡ l.initial.taker.lane

abbrev pub invariant-loop-2 : goal.invariant-loop-2
invariant-loop-2 g l = l.taker.lane ≡ l.fn.taker.lane
PROOF
sed "s/EVENTS_OF_EACH_PUTTER/$events/" > "$bench/src/main.rt" <<'PROGRAM'
//! Events per second over a lane, and over the plain queue below it.
#![tactic(auto)]

ghost use Rattle.std.specs.Prelude.{◌≡◌};
ghost use Rattle.mama_lane.specs.Values.{new_port};

use crossbeam_queue::SegQueue;
use mama_event::{Bounds, OutOfMemory, Stream};
use mama_lane::{Lane, Port, Taker, open_lane};
use std::alloc::Global;
use std::sync::Wait;
use std::thread;
use std::thread::Threads;
use std::time::{Clock, Duration, Instant};

const EVENTS: u64 = EVENTS_OF_EACH_PUTTER;

// An event that may stand anywhere.
#[derive(Clone, Copy)]
struct Tick(u64);

impl Stream for Tick {
    ghost use Rattle.std.specs.Prelude.{false, true};
    ghost use Rattle.std.proofs.lemmas.Bool.{false≢true};

    type Note = u64;

    ghost noted = { λ tick. tick.0 };

    ghost last = { λ _. false };

    ghost lawful = { λ _ _ _. Unit {0} };

    fn note(&self) -> Result<u64, OutOfMemory> {
        Ok(self.0)
    }

    fn is_last(&self) -> bool {
        false
    }

    ghost lawful_start = { λ _ _. tt };

    ghost lawful_prefix = { λ _ _ _ _ _. tt };

    ghost lawful_end = { λ _ _ _ _ _ _ h. absurd (false≢true h) };
}

fn put_on_lane<R: Wait + Copy>(rt: R, lane: &Lane<Tick>, mut port: Port<Tick>) -> bool
    requires { port.lane ≡ lane.now.id }
{
    for number in 0..EVENTS {
        if port.put(rt, lane, Tick(number)).is_err() {
            return false;
        }
    }
    true
}

fn take_from_lane<R: Wait + Copy>(
    rt: R,
    lane: &Lane<Tick>,
    mut taker: Taker<Tick>,
    count: u64,
) -> u64
    requires { taker.lane ≡ lane.now.id }
{
    let mut sum = 0u64;
    for _ in 0..count {
        for _ in rt.forever() {
            match taker.take(rt, lane) {
                Some((_, Tick(number))) => {
                    sum = sum.wrapping_add(number);
                    break;
                }
                None => thread::yield_now(),
            }
        }
    }
    sum
}

fn push_on_queue<R: Wait + Copy>(rt: R, queue: &SegQueue<(u32, Tick)>) -> bool {
    for number in 0..EVENTS {
        if queue.push(&rt, (0, Tick(number))).is_err() {
            return false;
        }
    }
    true
}

fn pop_from_queue<R: Wait + Copy>(rt: R, queue: &SegQueue<(u32, Tick)>, count: u64) -> u64 {
    let mut sum = 0u64;
    for _ in 0..count {
        for _ in rt.forever() {
            match queue.pop(&rt) {
                Some((_, Tick(number))) => {
                    sum = sum.wrapping_add(number);
                    break;
                }
                None => thread::yield_now(),
            }
        }
    }
    sum
}

fn one_on_lane<R: Threads + Wait + Copy + Sync + Send>(
    rt: R,
    lane: &Lane<Tick>,
    port: Port<Tick>,
    taker: Taker<Tick>,
    count: u64,
) -> u64
    requires { (port.lane ≡ lane.now.id) × (taker.lane ≡ lane.now.id) }
{
    thread::join(
        &rt,
        move || -> bool
            requires { port.lane ≡ lane.now.id }
        { put_on_lane(rt, lane, port) },
        move || -> u64
            requires { taker.lane ≡ lane.now.id }
        { take_from_lane(rt, lane, taker, count) },
    )
    .1
}

fn two_on_lane<R: Threads + Wait + Copy + Sync + Send>(
    rt: R,
    lane: &Lane<Tick>,
    port: Port<Tick>,
    other: Port<Tick>,
    taker: Taker<Tick>,
    count: u64,
) -> u64
    requires { (port.lane ≡ lane.now.id) × (other.lane ≡ lane.now.id) × (taker.lane ≡ lane.now.id) }
{
    thread::join(
        &rt,
        move || -> bool
            requires { other.lane ≡ lane.now.id }
        { put_on_lane(rt, lane, other) },
        move || -> u64
            requires { (port.lane ≡ lane.now.id) × (taker.lane ≡ lane.now.id) }
        { one_on_lane(rt, lane, port, taker, count) },
    )
    .1
}

fn one_on_queue<R: Threads + Wait + Copy + Sync + Send>(
    rt: R,
    queue: &SegQueue<(u32, Tick)>,
    count: u64,
) -> u64 {
    thread::join(
        &rt,
        move || push_on_queue(rt, queue),
        move || pop_from_queue(rt, queue, count),
    )
    .1
}

fn two_on_queue<R: Threads + Wait + Copy + Sync + Send>(
    rt: R,
    queue: &SegQueue<(u32, Tick)>,
    count: u64,
) -> u64 {
    thread::join(
        &rt,
        move || push_on_queue(rt, queue),
        move || one_on_queue(rt, queue, count),
    )
    .1
}

// What a run took, and the sum of the numbers that it took.
#[derive(Clone, Copy)]
struct Run {
    sum: u64,
    took: Duration,
}

const BOUNDS: Bounds = Bounds {
    topics: 0,
    queues: 0,
};

fn one_lane<R: Threads + Wait + Clock + Copy + Sync + Send>(
    rt: R,
    alloc: Global,
) -> anyhow::Result<Run> {
    let (lane, mut ports, taker) = open_lane::<Tick, R>(rt, alloc, 1, BOUNDS)?;
    let start = Instant::now(&rt)?;
    let sum = one_on_lane(rt, &lane, ports.remove(0), taker, EVENTS);
    let took = start.elapsed(&rt)?;
    Ok(Run { sum, took })
}

fn two_lane<R: Threads + Wait + Clock + Copy + Sync + Send>(
    rt: R,
    alloc: Global,
) -> anyhow::Result<Run> {
    let (lane, mut ports, taker) = open_lane::<Tick, R>(rt, alloc, 2, BOUNDS)?;
    let other = ports.remove(1);
    let start = Instant::now(&rt)?;
    let sum = two_on_lane(rt, &lane, ports.remove(0), other, taker, 2 * EVENTS);
    let took = start.elapsed(&rt)?;
    Ok(Run { sum, took })
}

// All events are put before the first is taken. Only the takes are timed.
fn waiting_lane<R: Threads + Wait + Clock + Copy + Sync + Send>(
    rt: R,
    alloc: Global,
) -> anyhow::Result<Run> {
    let (lane, mut ports, taker) = open_lane::<Tick, R>(rt, alloc, 1, BOUNDS)?;
    put_on_lane(rt, &lane, ports.remove(0));
    let start = Instant::now(&rt)?;
    let sum = take_from_lane(rt, &lane, taker, EVENTS);
    let took = start.elapsed(&rt)?;
    Ok(Run { sum, took })
}

fn waiting_queue<R: Threads + Wait + Clock + Copy + Sync + Send>(
    rt: R,
    alloc: Global,
) -> anyhow::Result<Run> {
    let queue = SegQueue::new(alloc)?;
    push_on_queue(rt, &queue);
    let start = Instant::now(&rt)?;
    let sum = pop_from_queue(rt, &queue, EVENTS);
    let took = start.elapsed(&rt)?;
    Ok(Run { sum, took })
}

fn plain_queue<R: Threads + Wait + Clock + Copy + Sync + Send>(
    rt: R,
    alloc: Global,
    two: bool,
) -> anyhow::Result<Run> {
    let queue = SegQueue::new(alloc)?;
    let start = Instant::now(&rt)?;
    let sum = if two {
        two_on_queue(rt, &queue, 2 * EVENTS)
    } else {
        one_on_queue(rt, &queue, EVENTS)
    };
    let took = start.elapsed(&rt)?;
    Ok(Run { sum, took })
}

// Events per second.
fn rate(count: u64, took: Duration) -> u128 {
    count as u128 * 1_000_000 / took.as_micros().max(1)
}

// Both rates, and the lane's time in hundredths of the queue's.
fn compare(rt: &HostRuntime, name: &str, count: u64, lane: Run, queue: Run) -> anyhow::Result<()> {
    if lane.sum != queue.sum {
        return Err(anyhow::Error::msg("the sums differ"));
    }
    let ratio = lane.took.as_micros().saturating_mul(100) / queue.took.as_micros().max(1);
    println!(rt;
        "{name}: {} events; lane {} a second, plain queue {} a second, time {} hundredths",
        count,
        rate(count, lane.took),
        rate(count, queue.took),
        ratio
    )?;
    Ok(())
}

fn main(rt: HostRuntime) -> anyhow::Result<()> {
    for _ in 0..3 {
        compare(
            &rt,
            "one putter ",
            EVENTS,
            one_lane(rt, rt.alloc())?,
            plain_queue(rt, rt.alloc(), false)?,
        )?;
        compare(
            &rt,
            "two putters",
            2 * EVENTS,
            two_lane(rt, rt.alloc())?,
            plain_queue(rt, rt.alloc(), true)?,
        )?;
        compare(
            &rt,
            "all waiting",
            EVENTS,
            waiting_lane(rt, rt.alloc())?,
            waiting_queue(rt, rt.alloc())?,
        )?;
    }
    Ok(())
}
PROGRAM
cd "$bench"
rt run
