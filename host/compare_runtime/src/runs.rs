//! All small values; every boundary value with every other, thinned out where the product is too large; and seeded
//! rounds.

use kernel::oracle::*;

use crate::checks::{Checks, Decision, Named};
use crate::inputs;
use crate::port::Others;
use tables::generator::Random;
use tables::product::each;
use tables::tally::Tally;
use tables::values::Picks;

fn prepare(tally: &mut Tally, picks: &mut impl Picks, count: u64) {
    let period = picks.of([10, 7, 1_000_000_000]);
    let now = picks.reading(period);
    let named = inputs::named(picks, count, period, now);
    let (front, turns) = (picks.flag(), inputs::turns(picks));
    tally.prepare_enqueue(&named, front, now, turns);
}

fn account(tally: &mut Tally, picks: &mut impl Picks, count: u64) {
    let config = match picks.below(4) {
        0 => picks.config(),
        _ => picks.sound_config(),
    };
    let end = picks.reading(config.period);
    let start = picks.start(end, config.period);
    let window = picks.window(config, end);
    tally.new_window(config, window);
    let named = inputs::named(picks, count, config.period, end);
    tally.account_current(&named, window, picks.mode(), start, end);
}

fn readers(tally: &mut Tally, picks: &mut impl Picks, count: u64) {
    let config = match picks.below(4) {
        0 => picks.config(),
        _ => picks.sound_config(),
    };
    let now = picks.reading(config.period);
    let window = picks.window(config, now);
    let named = inputs::named(picks, count, config.period, now);
    tally.finish_turn(&named);
    tally.expired(&named);
    tally.current_candidate(&named, now, window);
    let others = Others {
        competition: picks.flag(),
        budget_peer: picks.flag(),
        ready: picks.flag(),
        demand: picks.demand(),
    };
    tally.deadline_refused(&named, window, now, others);
}

fn decide(tally: &mut Tally, picks: &mut impl Picks) {
    let decision = inputs::decision(picks);
    tally.switch(&decision, picks.flag());
    let (mode, competition) = (picks.mode(), picks.flag());
    tally.deadline(&decision, mode, competition, picks.flag());
}

/// Every pair of a current and a ready policy and role, with every answer of the switch rule's tests.
pub fn every_pair(tally: &mut Tally) {
    each(4_000_000, |picks| {
        let config = Config {
            period: 10,
            allowance: 2,
            floor: 3,
            order: DEFAULT_ORDER,
            prefer_fair: picks.flag(),
        };
        let (now, window) = (picks.of([0, 6, 7, 9, 10]), window_new(config));
        let demand = picks.demand();
        let mut current = one(picks, 5);
        current.running = true;
        current.deferred = picks.of([None, Some(Deferred::Tail)]);
        let number = picks.of([4, 5, 6]);
        let other = one(picks, number);
        let candidate = Candidate {
            params: other.params,
            fair_pass: u128::from(other.turn),
            turn: other.turn,
            budget_available: picks.flag(),
        };
        let given = window_candidate_key(window, now, candidate, demand);
        let key = given.ok().and_then(|(_, key)| key);
        let ready = key.map(|(key, _)| Ready {
            number: 1,
            policy: other.params.policy,
            key,
        });
        let decision = Decision {
            current,
            window,
            now,
            ready,
            demand,
        };
        tally.switch(&decision, picks.flag());
    });
}

/// A thread of any policy and role whose turn and pass are this number, its slice or burst spent or not.
fn one(picks: &mut impl Picks, number: u64) -> Record {
    const BUDGET: Budget = Budget {
        budget: 2,
        period: 10,
        burst: 2,
    };
    let role = picks.role();
    let left = picks.of([0, 1]);
    let fair = Runtime::Fair {
        pass: number.into(),
        remaining: left,
    };
    let (params, runtime) = match picks.below(5) {
        0 => (params_fifo(number as u8, 1, role), Runtime::Fifo),
        1 => (
            params_fair(16, 5, 1, role, Backend::Stride).expect("a quantum"),
            fair,
        ),
        2 => (
            params_fair(16, 5, 1, role, Backend::RoundRobin).expect("a quantum"),
            fair,
        ),
        3 => {
            let runtime = BudgetRt {
                epoch: Some(0),
                remaining: picks.of([0, 2]),
                burst: left,
            };
            (params_budget(BUDGET, 1, role), Runtime::Budget(runtime))
        }
        _ => (params_idle(), Runtime::Idle),
    };
    Record::new(params, runtime, number, 0)
}

fn small_config() -> Config {
    Config {
        period: 4,
        allowance: 1,
        floor: 1,
        order: DEFAULT_ORDER,
        prefer_fair: false,
    }
}

fn small_window(picks: &mut impl Picks) -> Window {
    Window {
        epoch: picks.of([None, Some(0), Some(1), Some(2)]),
        priority_remaining: picks.below(3),
        protected_remaining: picks.below(3),
        ..window_new(small_config())
    }
}

fn small_budget(picks: &mut impl Picks) -> Record {
    let budget = Budget {
        budget: 1 + picks.below(4),
        period: 4,
        burst: 1 + picks.below(4),
    };
    let runtime = BudgetRt {
        epoch: picks.of([None, Some(0), Some(1), Some(2)]),
        remaining: picks.below(5),
        burst: picks.below(5),
    };
    let params = params_budget(budget, 1, Role::Protected);
    Record::new(params, Runtime::Budget(runtime), 1, 0)
}

/// All small values, none left out: a period of 4, readings below 10, budgets and bursts to 4 with any part of them
/// left, windows with any part of allowance and floor left, counters at both ends of their range.
pub fn small(tally: &mut Tally) {
    let alone = |record| Named {
        records: vec![record],
        id: 0,
    };
    each(u128::MAX, |picks| {
        let named = alone(small_budget(picks));
        let (start, end) = (picks.below(10), picks.below(10));
        let window = window_new(small_config());
        tally.account_current(&named, window, Mode::Protected, start, end);
    });
    each(u128::MAX, |picks| {
        let named = alone(one(picks, 5));
        let (start, end) = (picks.below(10), picks.below(10));
        let window = small_window(picks);
        tally.account_current(&named, window, picks.mode(), start, end);
    });
    each(u128::MAX, |picks| {
        let mut record = one(picks, 5);
        record.turn = picks.of([0, 5]);
        let (front, turns) = (picks.flag(), inputs::turns(picks));
        tally.prepare_enqueue(&alone(record), front, picks.below(25), turns);
    });
    each(u128::MAX, |picks| {
        let decision = Decision {
            current: Record {
                running: true,
                ..one(picks, 5)
            },
            window: small_window(picks),
            now: picks.below(10),
            ready: None,
            demand: Demand::default(),
        };
        let (mode, competition) = (picks.mode(), picks.flag());
        tally.deadline(&decision, mode, competition, picks.flag());
    });
}

/// A table of more records than document 01 takes, and one of just as many.
pub fn large(tally: &mut Tally, random: &mut Random) {
    for count in [4096, 4097] {
        let records = vec![inputs::good(random, 10, 15); count];
        let window = window_new(Config {
            period: 10,
            allowance: 2,
            floor: 3,
            order: DEFAULT_ORDER,
            prefer_fair: false,
        });
        let named = Named { records, id: 4095 };
        tally.prepare_enqueue(&named, true, 15, Turns::NEW);
        tally.account_current(&named, window, Mode::Priority, 9, 15);
        tally.finish_turn(&named);
        tally.expired(&named);
        tally.current_candidate(&named, 15, window);
        let others = Others {
            competition: true,
            budget_peer: true,
            ready: true,
            demand: random.demand(),
        };
        tally.deadline_refused(&named, window, 15, others);
    }
}

pub fn boundary(tally: &mut Tally, limit: u128) {
    each(limit, |picks| prepare(tally, picks, 1));
    each(limit, |picks| account(tally, picks, 1));
    each(limit, |picks| readers(tally, picks, 1));
    each(limit, |picks| decide(tally, picks));
}

/// Readings, turns, counters and what remains are any numbers.
fn free(tally: &mut Tally, random: &mut Random) {
    let mut decision = inputs::decision(random);
    decision.now = random.number();
    decision.current.turn = random.number();
    decision.window.priority_remaining = random.number();
    decision.window.protected_remaining = random.number();
    tally.switch(&decision, random.flag());
    let (mode, competition) = (random.mode(), random.flag());
    tally.deadline(&decision, mode, competition, random.flag());
    let named = Named {
        records: vec![decision.current],
        id: 0,
    };
    let (start, end) = (random.number(), random.number());
    tally.account_current(&named, decision.window, mode, start, end);
    let turns = Turns {
        back: random.number(),
        front: random.number(),
    };
    tally.prepare_enqueue(&named, random.flag(), end, turns);
}

pub fn round(tally: &mut Tally, random: &mut Random) {
    for _ in 0..1024 {
        let count = 1 + random.below(3);
        prepare(tally, random, count);
        account(tally, random, count);
        readers(tally, random, count);
        decide(tally, random);
        free(tally, random);
    }
}

/// Calls one after another on one pair of counters: the turns of both sides stay the same, until they are spent.
pub fn sequence(tally: &mut Tally, random: &mut Random) {
    let mut turns = inputs::turns(random);
    let mut records: Vec<Record> = (0..4).map(|_| inputs::good(random, 10, 0)).collect();
    let mut now = random.below(40);
    for _ in 0..32 {
        let named = Named {
            records: records.clone(),
            id: random.below(4),
        };
        let front = random.flag();
        tally.prepare_enqueue(&named, front, now, turns);
        let answer =
            crate::expected::prepare_enqueue(&mut records, named.id, front, now, &mut turns);
        if answer.is_err() {
            break;
        }
        now = now
            .wrapping_add(random.below(9))
            .wrapping_sub(random.below(3));
    }
}
