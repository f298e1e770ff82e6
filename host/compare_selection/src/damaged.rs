//! Selections on damaged queues and tables, with the other calls between.

use compare_queue::board::{Board, Call};
use compare_queue::damaged::{damage_queue, damage_record, in_fair_list, touch};
use kernel::oracle::*;
use tables::generator::Random;
use tables::make;
use tables::queues::MarkedQueue;
use tables::rows::row_of;
use tables::tally::Tally;
use tables::values::Picks;

use crate::selecting::{Peek, select};
use crate::sound::{self, Course};

/// A selection of the course's, at times for another processor.
fn any_peek(random: &mut Random, course: &mut Course, board: &Board) -> Peek {
    let peek = course.peek(random, board);
    match random.below(8) {
        0 => Peek {
            cpu: random.of([1, 255]),
            ..peek
        },
        _ => peek,
    }
}

/// Selections on copies of a board, then calls of every kind one after the other.
fn from(tally: &mut Tally, random: &mut Random, course: &mut Course, board: &mut Board) {
    tally.note("damaged queues");
    for _ in 0..4 {
        let peek = any_peek(random, course, board);
        select(tally, &mut board.clone(), &peek);
    }
    for _ in 0..8 {
        if random.flag() {
            let peek = any_peek(random, course, board);
            select(tally, board, &peek);
        } else {
            let id = random.below(board.count() + 1);
            let call = random.of(Call::ALL);
            board.call(tally, call, id, 0);
        }
    }
}

/// One of the budget trees' roots overwritten, so that a change of period meets it.
fn damage_budgets(random: &mut Random, queue: &mut Queue, count: u64) {
    let tree = 6 + random.below(6) as usize;
    queue.roots[tree] = match random.below(3) {
        0 => make::link(random, count),
        _ => queue.roots[random.below(12) as usize],
    };
}

/// A sound queue with parts of it and of its records overwritten, at times halted.
pub fn parts(tally: &mut Tally, random: &mut Random) {
    let (mut course, run) = sound::small(tally, random);
    let mut board = run.board;
    let count = board.count();
    for _ in 0..random.of([0, 1, 1, 2, 3, 4 * count]) {
        let place = random.below(count);
        let mut record = board.table.records[place as usize];
        damage_record(random, &mut record, place, count);
        board.put(place, record);
    }
    for _ in 0..random.of([0, 0, 1, 1, 2, 8]) {
        damage_queue(random, &mut board.marked.queue, count);
    }
    for _ in 0..random.of([0, 0, 1, 2]) {
        damage_budgets(random, &mut board.marked.queue, count);
    }
    board.marked.halted = random.below(32) == 0;
    let mut board = Board::of(board.marked, board.table.records);
    from(tally, random, &mut course, &mut board);
}

/// Queued records touched, and given to another processor: a budget thread then stands in the partner tree, a head is
/// another's.
pub fn touched(tally: &mut Tally, random: &mut Random) {
    let (mut course, run) = sound::small(tally, random);
    let mut board = run.board;
    let count = board.count();
    for _ in 0..random.of([1, 1, 2, count]) {
        let place = random.below(count);
        let mut record = board.table.records[place as usize];
        match random.below(4) {
            0 => record.membership = make::membership(random),
            1 => record.runtime = make::any_thread(random).runtime,
            _ => touch(random, &mut record),
        }
        board.put(place, record);
    }
    from(tally, random, &mut course, &mut board);
}

/// Threads in trees of any shape: links at random among few records, every tree's root too, at times the same thread
/// among the exhausted of every role.
pub fn tangled(tally: &mut Tally, random: &mut Random) {
    let mut course = Course::new(random);
    let count = 1 + random.below(6);
    let mut records: Vec<Record> = (0..count).map(|_| course.thread(random)).collect();
    let mut queue = Queue::EMPTY;
    for record in &mut records {
        record.tree.left = make::link(random, count).filter(|_| random.flag());
        record.tree.right = make::link(random, count).filter(|_| random.flag());
        record.tree.height = random.of([1, 1, 2, 3, 255]);
        record.membership = Membership::ReadyFair { cpu: 0 };
    }
    for root in &mut queue.roots {
        *root = make::link(random, count).filter(|_| random.below(3) == 0);
    }
    if random.flag() {
        let shared = random.below(count);
        queue.roots[9..].fill(Some(shared));
    }
    queue.epoch = random.of([None, Some(0)]);
    let marked = MarkedQueue {
        queue,
        halted: false,
    };
    from(tally, random, &mut course, &mut Board::of(marked, records));
}

/// Every word of a few rows, of the queue, of the window and of the current thread may be any number, also one that
/// nothing encodes to.
pub fn words(tally: &mut Tally, random: &mut Random) {
    let (mut course, run) = sound::small(tally, random);
    let mut rows: Vec<_> = run.board.table.records.iter().map(row_of).collect();
    let mut words = run.board.words();
    for _ in 0..random.of([1, 4, 16]) {
        let place = random.below(run.count()) as usize;
        rows[place][random.below(32) as usize] = random.number();
        words[256 + random.below(14) as usize][random.below(5) as usize] = random.number();
    }
    words[269][4] = random.of([0, 0, 0, 0, 0, 0, 0, 1, 2, u64::MAX]);
    let mut board = Board::of_words(words, rows);
    tally.note("damaged queues");
    for _ in 0..8 {
        let mut peek = course.peek(random, &board);
        any_words(random, &mut peek);
        select(tally, &mut board, &peek);
    }
}

fn any_words(random: &mut Random, peek: &mut Peek) {
    if random.flag() {
        peek.window[random.of([3, 4, 5, 6, 7, 8, 9, 10, 11])] = random.number();
    }
    for word in peek.current.iter_mut().flatten() {
        if random.below(8) == 0 {
            *word = random.number();
        }
    }
}

/// Trees that are lines of about MAX_PATH nodes, of fair threads and among the exhausted: a 40th entry is taken, a 41st
/// is not.
pub fn long_paths(tally: &mut Tally, random: &mut Random) {
    for height in [1, 40, 254, 255] {
        for linked in 37..=43 {
            for side in 0..3 {
                for tree in [3, 9] {
                    let mut records = make::chain(linked, side, height);
                    let mut marked = MarkedQueue::NEW;
                    marked.queue.fair = in_fair_list(&mut records, linked);
                    marked.queue.roots[tree] = Some(0);
                    let mut course = Course::new(random);
                    from(tally, random, &mut course, &mut Board::of(marked, records));
                }
            }
        }
    }
}
