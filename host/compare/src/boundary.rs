//! Every boundary value with every other, thinned out evenly where the product is too large.

use kernel::oracle::{Budget, Config, Params, Runtime};

use tables::product::{Digits, each};
use tables::tally::Tally;
use tables::values::Picks;

use crate::checks::Checks;

fn parameters(tally: &mut Tally, limit: u128) {
    for value in 0..=u16::MAX {
        tally.weight_new(value);
    }
    for value in 0..=u8::MAX {
        tally.priority_new(value);
    }
    tally.constants();
    tally.params_idle();
    each(limit, |p| {
        let (policy, band, role) = (p.policy(), p.byte(), p.role());
        let (weight, quantum, backend) = (p.weight(), p.quantum(), p.backend());
        let period = p.period();
        let budget = p.budget_about(period);
        tally.params_read(Params {
            policy,
            band,
            role,
            weight,
            quantum,
            backend,
            budget,
        });
    });
    each(limit, |p| {
        let period = p.period();
        let budget = p.budget(period);
        tally.budget_new(budget);
        tally.budget_runtime_new(budget);
        let (band, role) = (p.byte(), p.role());
        tally.params_budget(budget, band, role);
    });
    each(limit, |p| {
        tally.params_fair(p.weight(), p.quantum(), p.byte(), p.role(), p.backend())
    });
    each(limit, |p| tally.params_fifo(p.byte(), p.byte(), p.role()));
    each(limit, |p| tally.policy(p.policy()));
}

fn budgets(tally: &mut Tally, limit: u128) {
    each(limit, |p| {
        let period = p.period();
        let budget = p.budget(period);
        let now = p.reading(period);
        tally.budget_period_deadline(now, budget);
        let runtime = p.budget_runtime(now, budget);
        tally.budget_refresh(runtime, now, budget);
        tally.budget_finish_turn(runtime, budget);
        let borrow = p.flag();
        tally.budget_deadline(runtime, now, budget, borrow);
    });
    each(limit, |p| {
        let period = p.period();
        let budget = p.budget(period);
        let end = p.reading(period);
        let start = p.start(end, period);
        let runtime = p.budget_runtime(end, budget);
        tally.budget_account(runtime, start, end, budget);
    });
    each(limit, |p| {
        let period = p.period();
        let old = p.budget(period);
        let other = if p.flag() { p.period() } else { period };
        let new = p.budget(other);
        let runtime = p.budget_runtime(period, old);
        tally.budget_reconfigure(runtime, old, new);
    });
}

fn runtimes(tally: &mut Tally, limit: u128) {
    each(limit, |p| {
        let period = p.period();
        let budget = p.budget_about(period);
        let params = p.params(budget);
        let fair = p.fair();
        tally.runtime_new(params, fair);
    });
    each(limit, |p| {
        let period = p.period();
        let budget = p.budget_about(period);
        let params = p.params(budget);
        let end = p.reading(period);
        let start = p.start(end, period);
        let none = Budget {
            budget: 1,
            period,
            burst: 1,
        };
        let runtime = p.runtime(end, budget.unwrap_or(none));
        tally.runtime_same_kind(runtime, params);
        tally.runtime_account(runtime, params, start, end);
        tally.runtime_epoch_refresh(runtime, end, params);
        tally.runtime_finish_turn(runtime, params);
        let (competition, borrow) = (p.flag(), p.flag());
        tally.runtime_next_deadline(runtime, end, params, competition, borrow);
        let turn = p.turn();
        tally.runtime_candidate_key(runtime, params, turn);
    });
    each(limit, |p| {
        let runtime = match p.below(3) {
            0 => Runtime::Fifo,
            1 => Runtime::Idle,
            _ => p.fair(),
        };
        let params = p.params(None);
        tally.runtime_candidate_key(runtime, params, p.turn());
    });
}

fn configs(tally: &mut Tally, limit: u128) {
    each(limit, |p| {
        let config = p.config();
        tally.config_new(config);
        tally.window_new(config);
        let budget = p.budget_about(config.period);
        let params = p.params(budget);
        tally.config_accepts(config, params);
        let backend = p.backend();
        tally.config_admits(config, params, backend);
        let prefer = p.flag();
        tally.config_with_prefer_fair(config, prefer);
    });
}

fn windows(tally: &mut Tally, limit: u128, pick: fn(&mut Digits) -> Config) {
    each(limit, |p| {
        let config = pick(p);
        let now = p.reading(config.period);
        let window = p.window(config, now);
        tally.window_period_ns(window);
        tally.window_refresh(window, now);
        tally.window_period_deadline(window, now);
        let waiting = p.flag();
        tally.window_protection(window, now, waiting);
    });
    each(limit, |p| {
        let config = pick(p);
        let end = p.reading(config.period);
        let start = p.start(end, config.period);
        let window = p.window(config, end);
        let mode = p.mode();
        let params = p.params(None);
        tally.window_account(window, start, end, params, mode);
    });
    each(limit, |p| {
        let config = pick(p);
        let now = p.reading(config.period);
        let window = p.window(config, now);
        let candidate = p.candidate(config.period);
        let demand = p.demand();
        tally.window_candidate_key(window, now, candidate, demand);
        let (mode, competition) = (p.mode(), p.flag());
        tally.window_next_deadline(window, now, mode, competition, demand);
    });
}

pub fn run(tally: &mut Tally, limit: u128) {
    parameters(tally, limit);
    budgets(tally, limit);
    runtimes(tally, limit);
    configs(tally, limit);
    windows(tally, limit, Digits::sound_config);
    windows(tally, limit, Digits::config);
    each(limit, |p| tally.key_compare(p.key(), p.key()));
}
