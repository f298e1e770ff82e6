//! Runs of a board: threads wake, run to a deadline or a wake, give way, wait; and calls that no board should make
//! between.

use compare_queue::board::{Board as Sides, Call};
use compare_queue::damaged::damage_record;
use compare_queue::sound::place;
use compare_selection::history::{CPU, History};
use compare_selection::sound::Course;
use kernel::oracle::*;
use tables::generator::Random;
use tables::make;
use tables::tally::Tally;
use tables::values::Picks;

use crate::board::Board;

fn turns(random: &mut Random) -> Turns {
    match random.below(16) {
        0 => Turns {
            back: u64::MAX - random.below(6),
            front: 1 + random.below(6),
        },
        _ => Turns::NEW,
    }
}

/// A board of so many threads, none of them queued.
fn new(tally: &mut Tally, random: &mut Random, count: u64) -> Board {
    let course = Course::steady(random);
    let records = (0..count).map(|_| course.thread(random));
    let run = History::new(tally, records.collect());
    let config = course.config();
    let now = random.below(4 * config.period);
    let window = random.window(config, now);
    Board::new(run, window, turns(random), now)
}

/// A thread that neither waits in the queue nor runs.
fn sleeper(random: &mut Random, board: &Board) -> Option<u64> {
    let id = random.below(board.run.count());
    (!board.run.is_queued(id) && board.current != Some(id)).then_some(id)
}

/// The clock goes on, to the deadline or not so far, at times back; the running thread is charged.
fn tick(tally: &mut Tally, random: &mut Random, board: &mut Board, deadline: Option<u64>) {
    let period = board.window.config.period.max(1);
    let edge = period - board.now % period;
    let step = random.of([
        1,
        period / 7,
        period / 3,
        edge - 1,
        edge,
        period.saturating_mul(3),
    ]);
    let later = board.now.saturating_add(step);
    let end = match random.below(64) {
        0 => board.now.saturating_sub(period / 2),
        1 => u64::MAX - random.below(period),
        _ => deadline.map_or(later, |due| due.clamp(board.now, later)),
    };
    if let Some(id) = board.current {
        board.account(tally, id, end);
    }
    board.now = end;
}

/// A call that a board should not make: a number outside the table, a thread that is queued already or not at all,
/// another processor, a bad window.
fn stray(tally: &mut Tally, random: &mut Random, board: &mut Board) {
    let id = place(random, board.run.count());
    match random.below(4) {
        0 => {
            let call = random.of(Call::ALL);
            let running = board.current == Some(id);
            let cpu = if running { 1 } else { CPU };
            board.run.call(tally, call, id, cpu);
        }
        1 if !board.run.is_queued(id) => {
            board.prepare(tally, id, random.flag());
        }
        2 if !board.run.is_queued(id) => board.account(tally, id, board.now),
        _ => with_bad_window(tally, random, board),
    }
}

/// A choice and a deadline under a configuration that may not be sound; then the window is the one from before.
fn with_bad_window(tally: &mut Tally, random: &mut Random, board: &mut Board) {
    let (before, config) = (board.window, random.config());
    board.window = random.window(config, board.now);
    board.choose(tally, false, None);
    board.arm(tally);
    board.window = before;
}

/// One cycle: wakes, the choice, the deadline, the stretch; at times the running thread waits from there on.
pub fn cycle(tally: &mut Tally, random: &mut Random, board: &mut Board, growing: bool) {
    let wakes = if growing { 3 } else { 1 };
    for _ in 0..random.below(wakes + 1) {
        if let Some(id) = sleeper(random, board) {
            board.enqueue(tally, id, random.below(8) == 0);
        }
    }
    let deferred = random.of([None, None, Some(Deferred::Head), Some(Deferred::Tail)]);
    board.choose(tally, random.below(8) == 0, deferred);
    let deadline = board.arm(tally);
    tick(tally, random, board, deadline);
    if random.below(4) == 0 {
        board.current = None;
    }
    if random.below(16) == 0 {
        stray(tally, random, board);
    }
}

pub fn seeded(tally: &mut Tally, random: &mut Random, count: u64, cycles: u64) {
    let mut board = new(tally, random, count);
    for number in 0..cycles {
        let growing = number / (count + 8) % 2 == 0;
        cycle(tally, random, &mut board, growing);
    }
}

/// Nearly all threads are queued before the cycles begin.
pub fn filled(tally: &mut Tally, random: &mut Random, count: u64, cycles: u64) {
    let mut board = new(tally, random, count);
    for id in 0..count {
        board.enqueue(tally, id, random.below(16) == 0);
    }
    for _ in 0..cycles {
        cycle(tally, random, &mut board, false);
    }
}

/// Records or queue words overwritten after some cycles, or the queue marked as halted; then cycles go on.
pub fn damaged(tally: &mut Tally, random: &mut Random) {
    let count = 1 + random.below(16);
    let mut board = new(tally, random, count);
    for _ in 0..8 {
        cycle(tally, random, &mut board, true);
    }
    let mut words = board.run.board.words();
    let mut rows = board.run.board.table.rows.clone();
    match random.below(4) {
        0 => {
            let row = random.of([256, 257, 260, 263, 266, 269]);
            words[row][random.below(5) as usize] = random.of([0, 1, count - 1, count, u64::MAX]);
        }
        1 => words[269][4] = 1,
        _ => {
            let id = random.below(count);
            let mut record = board.run.board.table.records[id as usize];
            damage_record(random, &mut record, id, count);
            rows[id as usize] = tables::bytes::rows_of(&[record])[0];
        }
    }
    board.run = History::of(Sides::of_words(words, rows));
    for _ in 0..8 {
        cycle(tally, random, &mut board, true);
        let record = make::any_thread(random);
        if let Some(id) = sleeper(random, &board) {
            board.run.put(id, record);
        }
    }
}
