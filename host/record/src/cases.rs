//! The cases: histories of sound and of damaged queues, and tables at their limit.

use compare_queue::board::{Board, Call};
use compare_queue::damaged::{damage_queue, damage_record};
use compare_queue::sound::{changed, place, processor, sensible};
use compare_runtime::inputs;
use compare_runtime::port::Others;
use compare_selection::sound::Course;
use kernel::oracle::*;
use tables::generator::Random;
use tables::make;
use tables::rows::record_of;
use tables::tally::Tally;
use tables::values::Picks;

use crate::calls::Run;
use crate::state::State;

/// So many calls make a case.
const CALLS: u64 = 40;

fn new_board(run: &mut Run, records: Vec<Record>) {
    run.board = Board::new(&mut run.tally, records);
    run.turns = Turns::NEW;
}

/// The running thread of a decision, refreshed to now; none where its record does not agree.
fn refreshed(run: &mut Run, id: u64, now: u64) -> Option<()> {
    let mut record = *run.board.table.records.get(usize::try_from(id).ok()?)?;
    if !record_agrees(&record) {
        return None;
    }
    record.runtime = runtime_epoch_refresh(record.runtime, now, record.params).ok()?;
    run.board.put(id, record);
    Some(())
}

/// The thread that a selection would name among good ones, or none.
fn ready(random: &mut Random) -> Option<Ready> {
    inputs::decision(random).ready
}

fn queue_call(run: &mut Run, random: &mut Random, growing: bool) {
    let count = run.board.count();
    let id = place(random, count);
    if id < count && !run.board.is_queued(id) && random.below(4) == 0 {
        run.board.put(id, changed(random, count));
    }
    let queued = id < count && run.board.is_queued(id);
    let call = sensible(random, queued, growing);
    run.queue_call(call, id, processor(random));
}

fn decide(run: &mut Run, random: &mut Random, window: Window, now: u64, id: u64) {
    let (demand, ready) = (random.demand(), ready(random));
    if refreshed(run, id, now).is_some() && random.flag() {
        return run.switch(id, window, now, ready, demand, random.below(4) == 0);
    }
    let others = Others {
        competition: random.flag(),
        budget_peer: random.flag(),
        ready: ready.is_some(),
        demand,
    };
    run.deadline(id, window, now, ready, others);
}

/// A call of any kind.
fn call(run: &mut Run, random: &mut Random, course: &mut Course, growing: bool) {
    if random.below(2) == 0 {
        return queue_call(run, random, growing);
    }
    let peek = course.peek(random, &run.board);
    let (window, now) = (random.damaged(peek.window()), peek.now);
    let id = place(random, run.board.count());
    match random.below(8) {
        0 | 1 | 2 => run.select(&peek),
        3 => {
            if random.below(4) == 0 {
                run.turns = inputs::turns(random);
            }
            run.prepare(id, random.flag(), now);
        }
        4 | 5 => {
            let start = random.start(now, window.config.period);
            run.account(id, window, random.mode(), start, now);
        }
        6 => run.finish(id),
        _ => decide(run, random, window, now, id),
    }
    if random.below(32) == 0 {
        let period = random.any_period();
        run.budget(random.any_budget(period));
    }
}

/// Parts of records and of the queue overwritten.
fn damage(run: &mut Run, random: &mut Random) {
    let count = run.board.count();
    for _ in 0..random.of([0, 1, 1, 2, 3]) {
        let place = random.below(count);
        let mut record = run.board.table.records[place as usize];
        damage_record(random, &mut record, place, count);
        run.board.put(place, record);
    }
    let mut marked = run.board.marked.clone();
    for _ in 0..random.of([0, 0, 1, 1, 2]) {
        damage_queue(random, &mut marked.queue, count);
    }
    run.board = Board::of(marked, run.board.table.records.clone());
}

fn history(run: &mut Run, random: &mut Random, number: u64) {
    let damaged = number % 3 == 2;
    run.state
        .case(if damaged { "damaged" } else { "sound" }, number);
    let mut course = Course::new(random);
    let most = random.of([8, 12, 32]);
    let count = 1 + random.below(most);
    let records = (0..count).map(|_| match random.below(8) {
        0 => make::any_thread(random),
        _ => course.thread(random),
    });
    let records = records.collect();
    new_board(run, records);
    for at in 0..CALLS {
        call(run, random, &mut course, at < CALLS / 2);
        if damaged && at % 16 == 7 {
            damage(run, random);
        }
    }
}

/// Tables of 4,096 records and of one more: rows of zeros, which are FIFO threads.
fn limits(run: &mut Run, random: &mut Random) {
    for count in [4096, 4097] {
        run.state.case("records", count as u64);
        new_board(run, vec![record_of(&[0; 32]); count]);
        let mut course = Course::new(random);
        for id in [0, 4095, 4096, u64::MAX] {
            for call in [Call::Enqueue, Call::Remove, Call::EnqueueFront] {
                run.queue_call(call, id, 0);
            }
            let peek = course.peek(random, &run.board);
            run.select(&peek);
            run.prepare(id, true, peek.now);
            run.account(id, peek.window(), Mode::Priority, 1, 2);
            run.finish(id);
        }
        for id in [0, 4095] {
            run.queue_call(Call::Remove, id, 0);
        }
    }
}

/// All cases of a seed.
pub fn recorded(seed: u64, cases: u64, head: String) -> Run {
    let mut random = Random::new(seed);
    let mut tally = Tally::default();
    let board = Board::new(&mut tally, Vec::new());
    let mut run = Run {
        state: State::new(head),
        tally,
        board,
        turns: Turns::NEW,
    };
    limits(&mut run, &mut random);
    for number in 1..=cases {
        history(&mut run, &mut random, number);
    }
    run
}
