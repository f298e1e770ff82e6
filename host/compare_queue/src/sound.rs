//! Runs on sound queues: as accepted calls leave them, records that are not queued changed between.

use kernel::oracle::*;
use tables::generator::Random;
use tables::make;
use tables::tally::Tally;
use tables::values::Picks;

use crate::board::{Board, Call};

/// A place of the table, at times a number outside it.
pub fn place(random: &mut Random, count: u64) -> u64 {
    match random.below(64) {
        0 => random.of([count, count + 1, 1 << 32, u64::MAX]),
        _ => random.below(count),
    }
}

/// The call that is not refused as Already or Damaged for a thread that is queued or not, at times any.
pub fn sensible(random: &mut Random, queued: bool, growing: bool) -> Call {
    let any = random.of(Call::ALL);
    if random.below(16) == 0 {
        return any;
    }
    match (queued, growing) {
        (true, true) if random.below(4) != 0 => any,
        (true, _) => Call::Remove,
        (false, false) if random.below(4) != 0 => Call::Remove,
        (false, _) => random.of([Call::Enqueue, Call::EnqueueFront]),
    }
}

pub fn processor(random: &mut Random) -> u8 {
    match random.below(32) {
        0 => random.of([1, 255]),
        _ => 0,
    }
}

/// One call; before it at times another record in the place of one that is not queued, with links of any kind.
fn step(tally: &mut Tally, random: &mut Random, board: &mut Board, growing: bool) {
    let count = board.count();
    let id = place(random, count);
    if id < count && !board.is_queued(id) && random.below(4) == 0 {
        board.put(id, changed(random, count));
    }
    let queued = id < count && board.is_queued(id);
    let call = sensible(random, queued, growing);
    board.call(tally, call, id, processor(random));
}

/// A record that is not queued by a call; its membership may say that it is.
pub fn changed(random: &mut Random, count: u64) -> Record {
    let mut record = make::any_thread(random);
    record.tree.left = make::link(random, count);
    record.tree.height = make::height(random);
    record.list.previous = make::link(random, count);
    record.list.next = make::link(random, count);
    if random.below(32) == 0 {
        record.membership = Membership::Waiting { queue: 3 };
    }
    record
}

/// A new queue over records of every kind.
pub fn new(tally: &mut Tally, random: &mut Random, count: u64) -> Board {
    let records = (0..count).map(|_| make::any_thread(random));
    Board::new(tally, records.collect())
}

/// A queue of this many records that grows and shrinks.
pub fn seeded(tally: &mut Tally, random: &mut Random, count: u64, calls: u64) {
    let mut board = new(tally, random, count);
    for number in 0..calls {
        let growing = number / (2 * count + 8) % 2 == 0;
        step(tally, random, &mut board, growing);
    }
}

/// Every thread of a table that the queue takes whole, in any order, with other calls between; then some out again.
pub fn filled(tally: &mut Tally, random: &mut Random, count: u64, removals: u64) {
    let records = (0..count).map(|_| make::thread(random));
    let mut board = Board::new(tally, records.collect());
    let mut order: Vec<u64> = (0..count).collect();
    for at in (1..order.len()).rev() {
        order.swap(at, random.below(at as u64 + 1) as usize);
    }
    for id in order {
        let call = random.of([Call::Enqueue, Call::EnqueueFront]);
        board.call(tally, call, id, 0);
        if random.below(16) == 0 {
            step(tally, random, &mut board, true);
        }
    }
    for _ in 0..removals {
        step(tally, random, &mut board, false);
    }
}

/// A sound queue of few records, most of them queued.
pub fn small(tally: &mut Tally, random: &mut Random) -> Board {
    let count = 1 + random.below(12);
    let mut board = new(tally, random, count);
    for _ in 0..2 * count {
        step(tally, random, &mut board, true);
    }
    board
}

/// Tables at the most records and beyond: every call is refused there, a halted queue's too.
pub fn limits(tally: &mut Tally, random: &mut Random) {
    let thread = make::thread(random);
    for count in [4096, 4097, 5000] {
        let mut board = Board::new(tally, vec![thread; count]);
        for halted in [false, true] {
            board.mark(halted);
            for id in [0, 4095, 4096, 4097, 5000, u64::MAX] {
                for call in Call::ALL {
                    board.call(tally, call, id, 0);
                }
            }
        }
    }
}
