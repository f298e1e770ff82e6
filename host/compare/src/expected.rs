//! What the port must answer: the kernel's own answer, and document 01's numbers where the source
//! refuses, or where the port judges what it is handed and the source does not.

use kernel::oracle::*;

use crate::port::Answer;

pub const BAD_CONFIG: u64 = 5;
pub const BAD_BUDGET: u64 = 6;
pub const BACK_IN_TIME: u64 = 7;
pub const BAD_RECORD: u64 = 11;

/// The source panicked, or changed what it refused, where it must not: no port answers this.
const UNEXPECTED: u64 = u64::MAX;

fn sound_budget(budget: Budget) -> bool {
    budget_new(budget.budget, budget.period, budget.burst).is_some()
}

pub fn sound_config(config: Config) -> bool {
    config_new(config.period, config.allowance, config.floor, config.order).is_some()
}

fn judged<T>(budget: Budget, call: impl FnOnce() -> Run<T>) -> Answer<T> {
    if !sound_budget(budget) {
        return Err(BAD_BUDGET);
    }
    call().map_err(|_| UNEXPECTED)
}

/// An accounting that the source took, or its refusal, which must leave the state as it was.
fn taken<T: PartialEq>(before: T, (after, accepted): (T, bool)) -> Answer<T> {
    match accepted {
        true => Ok(after),
        false if after == before => Err(BACK_IN_TIME),
        false => Err(UNEXPECTED),
    }
}

pub fn budget_made(budget: u64, period: u64, burst: u64) -> Answer<Budget> {
    budget_new(budget, period, burst).ok_or(BAD_BUDGET)
}

pub fn runtime_of_budget(budget: Budget) -> Answer<BudgetRt> {
    judged(budget, || Ok(budget_runtime_new(budget)))
}

pub fn refresh(runtime: BudgetRt, now: u64, budget: Budget) -> Answer<BudgetRt> {
    judged(budget, || budget_refresh(runtime, now, budget))
}

pub fn account_interval(
    runtime: BudgetRt,
    start: u64,
    end: u64,
    budget: Budget,
) -> Answer<BudgetRt> {
    judged(budget, || {
        budget_account_interval(runtime, start, end, budget)
    })
    .and_then(|result| taken(runtime, result))
}

pub fn period_deadline(now: u64, budget: Budget) -> Answer<Option<u64>> {
    judged(budget, || budget_period_deadline(now, budget))
}

pub fn deadline(
    runtime: BudgetRt,
    now: u64,
    budget: Budget,
    borrow: bool,
) -> Answer<(BudgetRt, Option<u64>)> {
    judged(budget, || budget_deadline(runtime, now, budget, borrow))
}

pub fn finish_turn(runtime: BudgetRt, budget: Budget) -> Answer<BudgetRt> {
    judged(budget, || Ok(budget_finish_turn(runtime, budget)))
}

pub fn reconfigure(runtime: BudgetRt, old: Budget, new: Budget) -> Answer<Option<BudgetRt>> {
    let (after, changed) = judged(old, || Ok(()))
        .and_then(|()| judged(new, || Ok(budget_reconfigure(runtime, old, new))))?;
    match changed {
        true => Ok(Some(after)),
        false if after == runtime => Ok(None),
        false => Err(UNEXPECTED),
    }
}

/// A fair thread's values are given to the port; the source makes its own.
pub fn policy_runtime_new(params: Params, fair: Runtime) -> Answer<Runtime> {
    match (params.policy, params.budget) {
        (Policy::Fair, _) => Ok(fair),
        (Policy::Budget, None) => match runtime_new(params) {
            Err(Panic::Invariant(_)) => Err(BAD_RECORD),
            _ => Err(UNEXPECTED),
        },
        (Policy::Budget, Some(budget)) => judged(budget, || runtime_new(params)),
        (Policy::Fifo(_) | Policy::Idle, _) => runtime_new(params).map_err(|_| UNEXPECTED),
    }
}

/// What the source makes of the kinds: given a sound budget, `account` takes an empty interval where they agree, and
/// nothing else.
pub fn kinds_agree(runtime: Runtime, params: Params) -> bool {
    let sound = Budget {
        budget: 1,
        period: 1,
        burst: 1,
    };
    let params = Params {
        budget: Some(sound),
        ..params
    };
    matches!(runtime_account(runtime, params, 0, 0), Ok((_, true)))
}

/// The constants, in the order of the port's answer.
pub fn constants() -> [u64; 6] {
    [
        HIGHEST_PRIORITY.into(),
        NORMAL_PRIORITY.into(),
        LOWEST_PRIORITY.into(),
        DEFAULT_WEIGHT.into(),
        MAX_WEIGHT.into(),
        MAX_PERIOD_NS,
    ]
}

fn same_kind(runtime: Runtime, policy: Policy) -> bool {
    matches!(
        (runtime, policy),
        (Runtime::Fifo, Policy::Fifo(_))
            | (Runtime::Fair { .. }, Policy::Fair)
            | (Runtime::Budget(_), Policy::Budget)
            | (Runtime::Idle, Policy::Idle)
    )
}

pub fn account(runtime: Runtime, params: Params, start: u64, end: u64) -> Answer<Runtime> {
    let budgeted = matches!(runtime, Runtime::Budget(_));
    if !same_kind(runtime, params.policy) || budgeted && params.budget.is_none() {
        // The source hands back false here, whatever the readings are.
        return match runtime_account(runtime, params, start, end) {
            Ok((after, false)) if after == runtime => Err(BAD_RECORD),
            _ => Err(UNEXPECTED),
        };
    }
    let call = || runtime_account(runtime, params, start, end);
    let result = match params.budget {
        Some(budget) if budgeted => judged(budget, call)?,
        _ => call().map_err(|_| UNEXPECTED)?,
    };
    taken(runtime, result)
}

/// Judges the budget that a Budget runtime would use.
fn of_runtime<T>(runtime: Runtime, params: Params, call: impl FnOnce() -> Run<T>) -> Answer<T> {
    match (runtime, params.budget) {
        (Runtime::Budget(_), Some(budget)) => judged(budget, call),
        _ => call().map_err(|_| UNEXPECTED),
    }
}

pub fn epoch_refresh(runtime: Runtime, now: u64, params: Params) -> Answer<Runtime> {
    of_runtime(runtime, params, || {
        runtime_epoch_refresh(runtime, now, params)
    })
}

pub fn runtime_deadline(
    runtime: Runtime,
    now: u64,
    params: Params,
    competition: bool,
    borrow: bool,
) -> Answer<(Runtime, Option<u64>)> {
    let call = || runtime_next_deadline(runtime, now, params, competition, borrow);
    if !competition {
        return call().map_err(|_| UNEXPECTED);
    }
    of_runtime(runtime, params, call)
}

pub fn runtime_turn_finished(runtime: Runtime, params: Params) -> Answer<Runtime> {
    of_runtime(runtime, params, || Ok(runtime_finish_turn(runtime, params)))
}

pub fn config_made(config: Config) -> Answer<Config> {
    config_new(config.period, config.allowance, config.floor, config.order).ok_or(BAD_CONFIG)
}

pub fn window_made(config: Config) -> Answer<Window> {
    if !sound_config(config) {
        return Err(BAD_CONFIG);
    }
    Ok(window_new(config))
}

/// A window that `ArbitrationConfig::new` would refuse comes back as it was.
fn of_window<T>(window: Window, call: impl FnOnce() -> Run<(Window, T)>) -> (Answer<T>, Window) {
    if !sound_config(window.config) {
        return (Err(BAD_CONFIG), window);
    }
    match call() {
        Ok((after, value)) => (Ok(value), after),
        Err(_) => (Err(UNEXPECTED), window),
    }
}

pub fn refreshed(window: Window, now: u64) -> (Answer<()>, Window) {
    of_window(window, || {
        window_refresh(window, now).map(|after| (after, ()))
    })
}

pub fn account_dispatch(
    window: Window,
    start: u64,
    end: u64,
    params: Params,
    mode: Mode,
) -> (Answer<()>, Window) {
    let (accepted, after) = of_window(window, || {
        window_account_dispatch(window, start, end, params, mode)
    });
    match accepted {
        Ok(accepted) => match taken(window, (after, accepted)) {
            Ok(after) => (Ok(()), after),
            Err(number) => (Err(number), window),
        },
        Err(number) => (Err(number), after),
    }
}

pub fn window_period(window: Window, now: u64) -> (Answer<Option<u64>>, Window) {
    of_window(window, || {
        window_period_deadline(window, now).map(|end| (window, end))
    })
}

pub fn protection(window: Window, now: u64, waiting: bool) -> (Answer<Option<u64>>, Window) {
    of_window(window, || window_protection_deadline(window, now, waiting))
}

pub fn candidate_key(
    window: Window,
    now: u64,
    candidate: Candidate,
    demand: Demand,
) -> (Answer<Option<(Key, Mode)>>, Window) {
    of_window(window, || {
        window_candidate_key(window, now, candidate, demand)
    })
}

pub fn window_deadline(
    window: Window,
    now: u64,
    mode: Mode,
    competition: bool,
    demand: Demand,
) -> (Answer<Option<u64>>, Window) {
    of_window(window, || {
        window_next_deadline(window, now, mode, competition, demand)
    })
}
