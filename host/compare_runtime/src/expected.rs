//! What the port must answer: the kernel's own answer, and document 01's numbers where the port judges what it is
//! handed and the source does not.

use kernel::oracle::*;

use crate::port::{Answer, Others};

const ALREADY: u64 = 3;
const NO_THREAD: u64 = 4;
const BAD_CONFIG: u64 = 5;
const BACK_IN_TIME: u64 = 7;
const TURNS_SPENT: u64 = 8;
const BAD_TABLE: u64 = 10;
const BAD_RECORD: u64 = 11;

/// The source answered what it must not: no port answers this.
const UNEXPECTED: u64 = u64::MAX;

fn sound_config(config: Config) -> bool {
    config_new(config.period, config.allowance, config.floor, config.order).is_some()
}

/// Policy, budget and runtime agree, and the budget is one that can be made.
fn agrees(record: &Record) -> bool {
    let whole = |b: Budget| budget_new(b.budget, b.period, b.burst).is_some();
    match (record.params.policy, record.runtime, record.params.budget) {
        (Policy::Fifo(_), Runtime::Fifo, None) => true,
        (Policy::Fair, Runtime::Fair { .. }, None) => true,
        (Policy::Budget, Runtime::Budget(_), Some(budget)) => whole(budget),
        (Policy::Idle, Runtime::Idle, None) => true,
        _ => false,
    }
}

/// NoThread and BadRecord, after BadTable and, of a call with a window, BadConfig.
pub fn judged(records: &[Record], id: u64, window: Option<&Window>) -> Answer<usize> {
    if records.len() > 4096 {
        return Err(BAD_TABLE);
    }
    if window.is_some_and(|window| !sound_config(window.config)) {
        return Err(BAD_CONFIG);
    }
    if id >= records.len() as u64 {
        return Err(NO_THREAD);
    }
    let place = id as usize;
    match agrees(&records[place]) {
        true => Ok(place),
        false => Err(BAD_RECORD),
    }
}

pub fn new_window(config: Config, window: &mut Window) -> Answer<()> {
    let made = config_new(config.period, config.allowance, config.floor, config.order);
    let made = made.ok_or(BAD_CONFIG)?;
    *window = window_new(config_with_prefer_fair(made, config.prefer_fair));
    Ok(())
}

pub fn prepare_enqueue(
    records: &mut [Record],
    id: u64,
    front: bool,
    now: u64,
    turns: &mut Turns,
) -> Answer<()> {
    let place = judged(records, id, None)?;
    let (mut record, mut counters) = (records[place], *turns);
    if record.membership != Membership::None {
        return Err(ALREADY);
    }
    match kernel::oracle::prepare_enqueue(&mut counters, &mut record, front, now) {
        Ok(()) => {
            (records[place], *turns) = (record, counters);
            Ok(())
        }
        Err(Refusal::Halted(_)) => Err(TURNS_SPENT),
        Err(_) => Err(UNEXPECTED),
    }
}

pub fn account_current(
    records: &mut [Record],
    id: u64,
    window: &mut Window,
    mode: Mode,
    start: u64,
    end: u64,
) -> Answer<()> {
    let place = judged(records, id, Some(window))?;
    let (mut record, mut state) = (records[place], *window);
    match kernel::oracle::account_current(&mut record, &mut state, mode, start, end) {
        Ok(()) => {
            (records[place], *window) = (record, state);
            Ok(())
        }
        Err(Refusal::PreemptionInvariant) if (record, state) == (records[place], *window) => {
            Err(BACK_IN_TIME)
        }
        Err(_) => Err(UNEXPECTED),
    }
}

pub fn finish_turn(records: &mut [Record], id: u64) -> Answer<()> {
    let place = judged(records, id, None)?;
    let record = &mut records[place];
    record.runtime = runtime_finish_turn(record.runtime, record.params);
    Ok(())
}

pub fn expired(records: &[Record], id: u64) -> Answer<bool> {
    let place = judged(records, id, None)?;
    Ok(match records[place].runtime {
        Runtime::Fair { remaining, .. } => remaining == 0,
        Runtime::Budget(budget) => budget.burst == 0,
        _ => false,
    })
}

pub fn current_candidate(
    records: &mut [Record],
    id: u64,
    now: u64,
    window: Window,
) -> Answer<Option<Candidate>> {
    let place = judged(records, id, None)?;
    let mut processor = Processor {
        cpu: records[place].cpu,
        current: 0,
        queue: Queue::EMPTY,
        window,
        now: Some(now),
        mode: Mode::Ordinary,
        armed_deadline: None,
        deadline_generation: 0,
        fair_floor: 0,
    };
    let record = core::slice::from_mut(&mut records[place]);
    kernel::oracle::current_candidate(&mut processor, record).map_err(|_| UNEXPECTED)
}

/// `choose_ready` for a given selection: the front flag where it switches.
pub fn switch(
    record: &mut Record,
    window: &mut Window,
    now: u64,
    ready: Option<Ready>,
    demand: Demand,
    yielding: bool,
) -> Answer<Option<bool>> {
    switch_rule(record, window, now, ready, demand, yielding).map_err(|_| UNEXPECTED)
}

pub fn deadline(
    record: &mut Record,
    window: &mut Window,
    mode: &mut Mode,
    now: u64,
    ready: Option<Ready>,
    others: Others,
) -> Answer<Option<u64>> {
    let Others {
        competition,
        budget_peer,
        demand,
        ..
    } = others;
    deadline_rule(
        record,
        window,
        mode,
        now,
        ready,
        demand,
        competition,
        budget_peer,
    )
    .map_err(|_| UNEXPECTED)
}
