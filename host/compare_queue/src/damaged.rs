//! Runs on damaged queues and tables: each call for each thread, and for numbers outside the table.

use kernel::oracle::*;
use tables::generator::Random;
use tables::make;
use tables::queues::MarkedQueue;
use tables::rows::row_of;
use tables::tally::Tally;
use tables::values::Picks;

use crate::board::{Board, Call};
use crate::sound;

/// Each call on a copy of the board, for each thread and for numbers outside the table.
fn each_call(tally: &mut Tally, random: &mut Random, board: &Board) {
    let count = board.count();
    for id in (0..count).chain([count, 1 << 32, u64::MAX]) {
        for call in Call::ALL {
            let cpu = random.of([0, 0, 0, 0, 0, 1, 255]);
            board.clone().call(tally, call, id, cpu);
        }
    }
}

/// From a board on: calls on copies, then some one after the other.
fn from(tally: &mut Tally, random: &mut Random, board: &mut Board) {
    each_call(tally, random, board);
    for _ in 0..8 {
        let id = random.below(board.count() + 1);
        let call = random.of(Call::ALL);
        board.call(tally, call, id, 0);
    }
}

/// One part of a record overwritten.
pub fn damage_record(random: &mut Random, record: &mut Record, place: u64, count: u64) {
    match random.below(14) {
        0 => record.tree.left = make::link(random, count),
        1 => record.tree.right = make::link(random, count),
        2 => record.tree.height = make::height(random),
        3 => record.tree.left = Some(place),
        4 => record.list.previous = make::link(random, count),
        5 => record.list.next = make::link(random, count),
        6 => {
            record.list = ListLinks {
                previous: Some(place),
                next: Some(place),
            }
        }
        7 => record.membership = make::membership(random),
        8 => record.cpu = random.of([0, 1, 255]),
        9 => record.turn = random.turn(),
        10 => record.runtime = make::any_thread(random).runtime,
        11 => record.params = make::any_thread(random).params,
        12 => record.params.policy = random.policy(),
        _ => record.params.budget = Some(random.budget(10)),
    }
}

/// What a budget has left, the priority or the turn of a queued record changed: its tree or its key is then another.
pub fn touch(random: &mut Random, record: &mut Record) {
    match &mut record.runtime {
        Runtime::Budget(runtime) => runtime.remaining = random.of([0, 1, u64::MAX]),
        Runtime::Fair { pass, .. } => *pass = random.pass(),
        _ => record.turn = random.of([record.turn, 0, u64::MAX]),
    }
    if let Policy::Fifo(priority) = &mut record.params.policy {
        *priority = random.of([*priority, 0, 7, 255]);
    }
}

fn damage_list(random: &mut Random, list: &mut List, count: u64) {
    match random.below(3) {
        0 => list.head = make::link(random, count),
        1 => list.tail = make::link(random, count),
        _ => list.len = random.of([0, 1, list.len.wrapping_add(1), u64::MAX - 1, u64::MAX]),
    }
}

/// One part of a queue overwritten; the lists of few priorities, so that a thread often meets one.
pub fn damage_queue(random: &mut Random, queue: &mut Queue, count: u64) {
    let tree = random.below(12) as usize;
    match random.below(8) {
        0 | 1 => queue.roots[tree] = make::link(random, count),
        2 => queue.roots[tree] = queue.roots[random.below(12) as usize],
        3 => damage_list(random, &mut queue.fair, count),
        4 => {
            let priority = random.of([0, 1, 7, 128, 254, 255]);
            damage_list(random, &mut queue.fifo[priority], count);
        }
        5 => queue.fifo_length = random.of([0, 1, u64::MAX - 1, u64::MAX]),
        6 => queue.budget_count = random.of([0, 1, u64::MAX - 1, u64::MAX]),
        _ => queue.epoch = random.of([None, Some(0), Some(u64::MAX)]),
    }
}

/// A sound queue with parts of it and of its records overwritten, at times halted.
pub fn parts(tally: &mut Tally, random: &mut Random) {
    let mut board = sound::small(tally, random);
    let count = board.count();
    for _ in 0..random.of([0, 1, 1, 2, 3, 4 * count]) {
        let place = random.below(count);
        let mut record = board.table.records[place as usize];
        damage_record(random, &mut record, place, count);
        board.put(place, record);
    }
    for _ in 0..random.of([0, 0, 1, 1, 2, 8]) {
        damage_queue(random, &mut board.marked.queue, count);
    }
    board.marked.halted = random.below(16) == 0;
    let mut board = Board::of(board.marked, board.table.records);
    from(tally, random, &mut board);
}

/// Queued records touched: a budget thread then stands in the partner tree, another key may not be found.
pub fn touched(tally: &mut Tally, random: &mut Random) {
    let mut board = sound::small(tally, random);
    let count = board.count();
    for _ in 0..random.of([1, 1, 2, count]) {
        let place = random.below(count);
        let mut record = board.table.records[place as usize];
        touch(random, &mut record);
        board.put(place, record);
    }
    from(tally, random, &mut board);
}

/// Every word of a few rows and of the queue may be any number, also one that nothing encodes to.
pub fn words(tally: &mut Tally, random: &mut Random) {
    let board = sound::small(tally, random);
    let mut rows: Vec<_> = board.table.records.iter().map(row_of).collect();
    let mut words = board.words();
    for _ in 0..random.of([1, 4, 16]) {
        let place = random.below(board.count()) as usize;
        rows[place][random.below(32) as usize] = random.number();
        words[random.below(270) as usize][random.below(5) as usize] = random.number();
        words[256 + random.below(14) as usize][random.below(5) as usize] = random.number();
    }
    words[269][4] = random.of([0, 0, 0, 0, 1, 2, u64::MAX]);
    let mut board = Board::of_words(words, rows);
    from(tally, random, &mut board);
}

/// Threads 0 to `linked` − 1 in the fair list, one after the other.
pub fn in_fair_list(records: &mut [Record], linked: u64) -> List {
    for (record, place) in records.iter_mut().zip(0..linked) {
        record.membership = Membership::ReadyFair { cpu: 0 };
        record.list = ListLinks {
            previous: place.checked_sub(1),
            next: Some(place + 1).filter(|next| *next < linked),
        };
    }
    List {
        head: Some(0),
        tail: Some(linked - 1),
        len: linked,
    }
}

/// Trees that are lines of about MAX_PATH nodes: a 40th entry is taken, a 41st is not.
pub fn long_paths(tally: &mut Tally, random: &mut Random) {
    for height in [1, 40, 254, 255] {
        for linked in 37..=43 {
            for side in 0..3 {
                let mut records = make::chain(linked, side, height);
                let mut marked = MarkedQueue::NEW;
                marked.queue.fair = in_fair_list(&mut records, linked);
                marked.queue.roots[3] = Some(0);
                each_call(tally, random, &Board::of(marked, records));
            }
        }
    }
}
