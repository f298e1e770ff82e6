//! Seeded random runs: boundary values mixed with any number, and states that are carried along.

use std::time::{Duration, Instant};

use kernel::oracle::*;

use tables::generator::Random;
use tables::tally::Tally;
use tables::values::Picks;

use crate::checks::Checks;

/// A budget's life: refreshed, charged, reconfigured.
fn budget_run(tally: &mut Tally, random: &mut Random) {
    let period = random.any_period();
    let mut budget = random.any_budget(period);
    let mut now = random.reading(period);
    let mut runtime = random.budget_runtime(now, budget);
    tally.budget_new(budget);
    tally.budget_runtime_new(budget);
    for _ in 0..16 {
        let end = random.later(now, period);
        tally.budget_period_deadline(end, budget);
        tally.budget_refresh(runtime, end, budget);
        tally.budget_account(runtime, now, end, budget);
        tally.budget_finish_turn(runtime, budget);
        let borrow = random.flag();
        tally.budget_deadline(runtime, end, budget, borrow);
        let other = if random.flag() {
            period
        } else {
            random.any_period()
        };
        let new = random.any_budget(other);
        tally.budget_reconfigure(runtime, budget, new);
        if let Ok(after) = crate::port::budget_account_interval(runtime, now, end, budget) {
            runtime = after;
        }
        if let Ok(Some(after)) = crate::port::budget_reconfigure(runtime, budget, new) {
            (runtime, budget) = (after, new);
        }
        now = end;
    }
}

/// Runtimes and policies, which may disagree.
fn runtime_run(tally: &mut Tally, random: &mut Random) {
    let period = random.any_period();
    let budget = random.any_budget(period);
    let held = if random.below(6) == 0 {
        None
    } else {
        Some(budget)
    };
    let params = random.params(held);
    let fair = Runtime::Fair {
        pass: crate::words::whole(random.number(), random.number()),
        remaining: random.number(),
    };
    tally.runtime_new(params, fair);
    let mut now = random.reading(period);
    let mut runtime = random.runtime(now, budget);
    if random.below(3) != 0 {
        runtime = crate::port::runtime_new(params, fair).unwrap_or(runtime);
    }
    for _ in 0..8 {
        let end = random.later(now, period);
        tally.runtime_same_kind(runtime, params);
        tally.runtime_account(runtime, params, now, end);
        tally.runtime_epoch_refresh(runtime, end, params);
        tally.runtime_finish_turn(runtime, params);
        tally.runtime_candidate_key(runtime, params, random.number());
        let (competition, borrow) = (random.below(4) != 0, random.flag());
        tally.runtime_next_deadline(runtime, end, params, competition, borrow);
        if let Ok(after) = crate::port::runtime_account(runtime, params, now, end) {
            runtime = after;
        }
        now = end;
    }
}

/// A window's life, with keys and deadlines on the way.
fn window_run(tally: &mut Tally, random: &mut Random) {
    let config = random.any_config();
    let period = config.period;
    tally.config_new(config);
    tally.window_new(config);
    let mut now = random.reading(period);
    let mut window = random.window(config, now);
    let mut last_key = None;
    for _ in 0..16 {
        let whole = window.config;
        window = random.damaged(window);
        let end = random.later(now, period);
        let candidate = random.candidate(period);
        let (demand, mode) = (random.demand(), random.mode());
        tally.config_accepts(window.config, candidate.params);
        let backend = random.backend();
        tally.config_admits(window.config, candidate.params, backend);
        tally.config_with_prefer_fair(window.config, demand.fair);
        tally.window_period_ns(window);
        tally.window_period_deadline(window, end);
        tally.window_refresh(window, end);
        tally.window_protection(window, end, demand.protected);
        let competition = random.below(4) != 0;
        tally.window_next_deadline(window, end, mode, competition, demand);
        let (key, _) = tally.window_candidate_key(window, end, candidate, demand);
        if let (Some(a), Some(b)) = (key, last_key) {
            tally.key_compare(a, b);
        }
        let (a, b) = (random.key(), random.key());
        tally.key_compare(a, key.unwrap_or(b));
        last_key = key;
        window = tally.window_account(window, now, end, candidate.params, mode);
        window.config = whole;
        now = end;
    }
}

fn parameters_run(tally: &mut Tally, random: &mut Random) {
    let (weight, quantum) = (random.next() as u16, random.number());
    let (priority, band) = (random.next() as u8, random.next() as u8);
    let (role, backend) = (random.role(), random.backend());
    tally.weight_new(weight);
    tally.params_fair(weight, quantum, band, role, backend);
    tally.params_fifo(priority, band, role);
    let policy = random.policy();
    tally.policy(policy);
    let period = random.any_period();
    let budget = random.any_budget(period);
    tally.params_budget(budget, band, role);
    tally.params_read(Params {
        policy,
        band,
        role,
        weight,
        quantum,
        backend,
        budget: random.flag().then_some(budget),
    });
}

pub fn run(tally: &mut Tally, seed: u64, time: Duration) {
    let began = Instant::now();
    let mut random = Random::new(seed);
    while began.elapsed() < time {
        for _ in 0..64 {
            parameters_run(tally, &mut random);
            budget_run(tally, &mut random);
            runtime_run(tally, &mut random);
            window_run(tally, &mut random);
        }
    }
}
