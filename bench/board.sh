#!/bin/sh
# Looks per second of readers of image boards, by 1, 2 and 4 readers in a thread each, beside a writer that sets without
# pause; in the same run, loads of an atomic word in as many threads while another stores in it, and looks by the base of a
# board alone, at a map of the same rows. Sets per second with and without readers, and the peak memory of a board of 10,000
# subscriptions.
#
# A board has one reader, so that several readers have a board each, which one writer sets in turn.
#
# Usage: bench/board.sh [LOOKS]   (how often each reader looks; 1000000 if left out)
#
# The program is written into a scratch folder, proved there over the crates of this repository, and run.
set -eu
looks=${1:-1000000}
. "$(dirname "$0")/scratch.sh"
cp "$top/HANDLES" "$scratch/"
new_program board_bench 'board_bench may_wait=12: mama_memory mama_msg mama_event mama_board left_right indexmap anyhow' \
    mama_memory mama_journal mama_msg mama_payload mama_link mama_packet mama_event mama_board
sed "s/LOOKS_OF_EACH_READER/$looks/" > "$bench/src/main.rt" <<'PROGRAM'
//! Looks and sets per second of image boards.
#![tactic(auto)]

ghost use Rattle.std.specs.Prelude.{◌≡◌, false};

use indexmap::IndexMap;
use left_right::{Absorb, ReadHandle, WriteHandle};
use mama_board::{Board, ImageReader, open_board};
use mama_event::{ImageHead, Quality, SubId};
use mama_msg::{Field, Msg, Name, Value};
use std::alloc::{AllocError, Global};
use std::sync::Wait;
use std::sync::atomic::{AtomicU64, Ordering};
use std::thread::Threads;
use std::time::{Clock, Duration, Instant};
use std::{env, thread};

const LOOKS: u64 = LOOKS_OF_EACH_READER;

const SUB: SubId = SubId {
    client: 0,
    number: 0,
};

/// A board that is open.
#[derive(Drop)]
struct Open<R: Wait + Drop> {
    board: Board<R>,
    ghost open: { board.sealed ≡ false },
}

impl<R: Wait + Copy + Drop> Open<R> {
    // Sets an image, and says whether there was memory.
    fn set(&mut self, rt: R, sub: SubId, last: u32, body: &Msg) -> bool {
        self.board.set(rt, sub, head(last), body).is_ok()
    }
}

fn opened<R: Wait + Copy + Drop>(rt: R, alloc: Global) -> anyhow::Result<(Open<R>, ImageReader)> {
    let (board, reader) = open_board(rt, alloc, 0)?;
    Ok((Open { board }, reader))
}

// A body of three numbers.
fn body(alloc: Global) -> anyhow::Result<Msg> {
    let mut body = Msg::new(alloc);
    for fid in 1..4 {
        let field = Field::new(fid, Name::default(), Value::U32(1000)).ok_or_else(
            || anyhow::Error::msg("no field"),
        )?;
        if body.add(field).is_err() {
            return Err(anyhow::Error::msg("no room"));
        }
    }
    Ok(body)
}

// Looks so often, and then counts one reader less. It answers how many looks found an image.
fn look<R: Copy>(rt: R, mut reader: ImageReader, left: &AtomicU64) -> u64 {
    let mut found = 0u64;
    for _ in 0..LOOKS {
        if let Ok(Some(_)) = reader.fixed(rt, SUB) {
            found = found.wrapping_add(1);
        }
    }
    left.fetch_sub(1, Ordering::SeqCst);
    found
}

// One, two and four readers.
fn look_all<R: Threads + Copy + Sync + Send>(
    rt: R,
    mut readers: Vec<ImageReader>,
    left: &AtomicU64,
) -> u64 {
    let Some(first) = readers.pop() else {
        return 0;
    };
    let Some(second) = readers.pop() else {
        return look(rt, first, left);
    };
    let Some(third) = readers.pop() else {
        return look_two(rt, first, second, left);
    };
    let Some(fourth) = readers.pop() else {
        return 0;
    };
    let (a, b) = thread::join(
        &rt,
        move || look_two(rt, first, second, left),
        move || look_two(rt, third, fourth, left),
    );
    a.wrapping_add(b)
}

fn look_two<R: Threads + Copy + Sync + Send>(
    rt: R,
    first: ImageReader,
    second: ImageReader,
    left: &AtomicU64,
) -> u64 {
    let (a, b) = thread::join(
        &rt,
        move || look(rt, first, left),
        move || look(rt, second, left),
    );
    a.wrapping_add(b)
}

// Sets images on the boards in turn while readers are left, and counts them.
fn set_all<R: Wait + Copy + Drop>(
    rt: R,
    mut boards: Vec<Open<R>>,
    body: &Msg,
    left: &AtomicU64,
) -> (Vec<Open<R>>, u64) {
    let mut sets = 0u64;
    for round in 0..u32::MAX {
        if left.load(Ordering::SeqCst) == 0 {
            break;
        }
        for board in boards.iter_mut() {
            if board.set(rt, SUB, round, body) {
                sets = sets.wrapping_add(1);
            }
        }
    }
    (boards, sets)
}

// Loads a word so often, and then counts one reader less.
fn load(word: &AtomicU64, left: &AtomicU64) -> u64 {
    let mut sum = 0u64;
    for _ in 0..LOOKS {
        sum = sum.wrapping_add(word.load(Ordering::SeqCst));
    }
    left.fetch_sub(1, Ordering::SeqCst);
    sum
}

fn load_two<R: Threads + Copy + Sync + Send>(rt: R, word: &AtomicU64, left: &AtomicU64) -> u64 {
    let (a, b) = thread::join(&rt, move || load(word, left), move || load(word, left));
    a.wrapping_add(b)
}

fn load_all<R: Threads + Copy + Sync + Send>(
    rt: R,
    readers: u64,
    word: &AtomicU64,
    left: &AtomicU64,
) -> u64 {
    match readers {
        1 => load(word, left),
        2 => load_two(rt, word, left),
        _ => {
            let (a, b) = thread::join(
                &rt,
                move || load_two(rt, word, left),
                move || load_two(rt, word, left),
            );
            a.wrapping_add(b)
        }
    }
}

// Stores while readers are left.
fn store_all(word: &AtomicU64, left: &AtomicU64) -> u64 {
    let mut stores = 0u64;
    for number in 0..u64::MAX {
        if left.load(Ordering::SeqCst) == 0 {
            break;
        }
        word.store(number, Ordering::SeqCst);
        stores = stores.wrapping_add(1);
    }
    stores
}

/// Rows over the base of a board alone. No clause says what is in them.
#[derive(Drop)]
struct Heads {
    rows: IndexMap<SubId, ImageHead>,
}

impl Absorb<(SubId, ImageHead)> for Heads {
    type State = u64;

    ghost state = { λ _. 0 };

    ghost applied = { λ _ _. 0 };

    fn absorb_first(&mut self, row: &(SubId, ImageHead), _other: &Heads) -> Result<(), AllocError> {
        match self.rows.insert(row.0, row.1) {
            Ok(_) => Ok(()),
            Err(_) => Err(AllocError),
        }
    }

    fn absorb_second(
        &mut self,
        row: (SubId, ImageHead),
        _other: &Heads,
    ) -> Result<(), (SubId, ImageHead)> {
        match self.rows.insert(row.0, row.1) {
            Ok(_) => Ok(()),
            Err(_) => Err(row),
        }
    }
}

fn head(last: u32) -> ImageHead {
    ImageHead {
        sender: 1,
        last,
        quality: Quality::Ok,
    }
}

fn enter(mut reader: ReadHandle<Heads>, left: &AtomicU64) -> u64 {
    let mut found = 0u64;
    for _ in 0..LOOKS {
        if let Some(guard) = reader.enter() {
            if guard.rows.get(&SUB).is_some() {
                found = found.wrapping_add(1);
            }
        }
    }
    left.fetch_sub(1, Ordering::SeqCst);
    found
}

fn publish_all<R: Wait + Drop>(
    mut writer: WriteHandle<Heads, (SubId, ImageHead), R>,
    left: &AtomicU64,
) -> (WriteHandle<Heads, (SubId, ImageHead), R>, u64) {
    let mut published = 0u64;
    for last in 0..u32::MAX {
        if left.load(Ordering::SeqCst) == 0 {
            break;
        }
        if writer.append((SUB, head(last))).is_ok() && writer.publish().is_ok() {
            published = published.wrapping_add(1);
        }
    }
    (writer, published)
}

// So many in this time, for each second.
fn rate(count: u64, took: Duration) -> u128 {
    count as u128 * 1_000_000 / took.as_micros().max(1)
}

// So many readers of a board each, and one writer: looks and sets per second.
fn boards<R: Threads + Wait + Clock + Copy + Drop + Sync + Send>(
    rt: R,
    alloc: Global,
    readers: u64,
) -> anyhow::Result<(u128, u128)> {
    let body = body(alloc)?;
    let mut open_boards = Vec::new(alloc);
    let mut open_readers = Vec::new(alloc);
    for _ in 0..readers {
        let (board, reader) = opened(rt, alloc)?;
        open_boards.push(board)?;
        open_readers.push(reader)?;
    }
    let left = AtomicU64::new(readers);
    let (body, counted) = (&body, &left);
    let start = Instant::now(&rt)?;
    let (_found, (_boards, sets)) = thread::join(
        &rt,
        move || look_all(rt, open_readers, counted),
        move || set_all(rt, open_boards, body, counted),
    );
    let took = start.elapsed(&rt)?;
    Ok((rate(readers.saturating_mul(LOOKS), took), rate(sets, took)))
}

// Loads per second by so many threads.
fn words<R: Threads + Clock + Copy + Sync + Send>(rt: R, readers: u64) -> anyhow::Result<u128> {
    let word = AtomicU64::new(0);
    let left = AtomicU64::new(readers);
    let (shared, counted) = (&word, &left);
    let start = Instant::now(&rt)?;
    let _sums = thread::join(
        &rt,
        move || load_all(rt, readers, shared, counted),
        move || store_all(shared, counted),
    );
    let took = start.elapsed(&rt)?;
    Ok(rate(readers.saturating_mul(LOOKS), took))
}

// Rows over the base alone, with one row, and a reader of them.
fn rows<R: Wait + Copy + Drop>(
    rt: R,
    alloc: Global,
) -> anyhow::Result<(WriteHandle<Heads, (SubId, ImageHead), R>, ReadHandle<Heads>)> {
    let first = Heads {
        rows: IndexMap::new(alloc),
    };
    let second = Heads {
        rows: IndexMap::new(alloc),
    };
    let mut writer = WriteHandle::new(alloc, rt, first, second, 32)?;
    if writer.append((SUB, head(0))).is_err() {
        return Err(anyhow::Error::msg("no memory"));
    }
    writer.publish()?;
    let reader = writer.handle()?;
    Ok((writer, reader))
}

// Looks per second by the base alone, beside a writer.
fn base<R: Threads + Wait + Clock + Copy + Drop + Sync + Send>(
    rt: R,
    alloc: Global,
) -> anyhow::Result<u128> {
    let (writer, reader) = rows(rt, alloc)?;
    let left = AtomicU64::new(1);
    let counted = &left;
    let start = Instant::now(&rt)?;
    let _counts = thread::join(
        &rt,
        move || enter(reader, counted),
        move || publish_all(writer, counted),
    );
    let took = start.elapsed(&rt)?;
    Ok(rate(LOOKS, took))
}

// Looks per second with nobody who writes: of a board, and by the base alone.
fn quiet<R: Wait + Clock + Copy + Drop>(rt: R, alloc: Global) -> anyhow::Result<(u128, u128)> {
    let body = body(alloc)?;
    let (mut board, reader) = opened(rt, alloc)?;
    board.set(rt, SUB, 0, &body);
    let left = AtomicU64::new(2);
    let start = Instant::now(&rt)?;
    look(rt, reader, &left);
    let looked = start.elapsed(&rt)?;
    let (_writer, reader) = rows(rt, alloc)?;
    let start = Instant::now(&rt)?;
    enter(reader, &left);
    let entered = start.elapsed(&rt)?;
    Ok((rate(LOOKS, looked), rate(LOOKS, entered)))
}

// Sets per second with nobody who looks.
fn alone<R: Wait + Clock + Copy + Drop>(rt: R, alloc: Global) -> anyhow::Result<u128> {
    let body = body(alloc)?;
    let (mut board, _reader) = opened(rt, alloc)?;
    let mut sets = 0u64;
    let start = Instant::now(&rt)?;
    for round in 0..200_000 {
        if board.set(rt, SUB, round, &body) {
            sets = sets.wrapping_add(1);
        }
    }
    Ok(rate(sets, start.elapsed(&rt)?))
}

// A board of so many subscriptions. It answers for how many of them its reader finds an image.
fn wide<R: Wait + Copy + Drop>(rt: R, alloc: Global, count: u32) -> anyhow::Result<u32> {
    let body = body(alloc)?;
    let (mut board, mut reader) = opened(rt, alloc)?;
    let mut found = 0u32;
    for number in 0..count {
        board.set(rt, SubId { client: 0, number }, 1, &body);
    }
    for number in 0..count {
        if let Ok(Some(_)) = reader.fixed(rt, SubId { client: 0, number }) {
            found = found.wrapping_add(1);
        }
    }
    Ok(found)
}

fn main(rt: HostRuntime) -> anyhow::Result<()> {
    let mut wanted = 0u32;
    if let Ok(args) = env::args(&rt) {
        for word in args {
            wanted = word.parse().unwrap_or(wanted);
        }
    }
    if wanted > 0 {
        let found = wide(rt, rt.alloc(), wanted.saturating_sub(1))?;
        println!(rt; "{found} subscriptions")?;
        return Ok(());
    }
    for _ in 0..3 {
        for readers in [1, 2, 4] {
            let (looks, sets) = boards(rt, rt.alloc(), readers)?;
            let loads = words(rt, readers)?;
            println!(rt; "{readers} readers: looks {looks} a second, loads {loads}, sets {sets}")?;
        }
        println!(rt;
            "one reader of the base alone: looks {} a second",
            base(rt, rt.alloc())?
        )?;
        let (looks, enters) = quiet(rt, rt.alloc())?;
        println!(rt; "nobody writes: looks {looks} a second, by the base alone {enters}")?;
        println!(rt; "nobody looks: sets {} a second", alone(rt, rt.alloc())?)?;
    }
    Ok(())
}
PROGRAM
cd "$bench"
rt run
for count in 1 10001; do
    printf '%s' "KiB at most with "
    /usr/bin/env time -f '%M' -o "$scratch/cost" "$bench/out/board_bench" "$count"
    cat "$scratch/cost"
done
