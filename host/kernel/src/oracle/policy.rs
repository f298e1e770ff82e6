//! Scheduling parameters, budget runtimes and policy runtimes, run by the source.

use super::convert::Mirror;
use super::stop::{Run, run};
use super::types::*;
use crate::task::policy::{
    BudgetParameters, SchedulingParameters, SchedulingPolicy, ThreadPriority, ThreadWeight,
};
use crate::task::scheduler::algorithms::{BudgetRuntime, PolicyRuntime};

pub const MAX_PERIOD_NS: u64 = BudgetParameters::MAX_PERIOD_NS;
pub const DEFAULT_WEIGHT: u16 = ThreadWeight::DEFAULT.get();
pub const MAX_WEIGHT: u16 = ThreadWeight::MAX;
pub const HIGHEST_PRIORITY: u8 = ThreadPriority::HIGHEST.get();
pub const NORMAL_PRIORITY: u8 = ThreadPriority::NORMAL.get();
pub const LOWEST_PRIORITY: u8 = ThreadPriority::LOWEST.get();

/// `BudgetParameters::new`.
pub fn budget_new(budget: u64, period: u64, burst: u64) -> Option<Budget> {
    BudgetParameters::new(budget, period, burst).map(Mirror::from_source)
}

/// `ThreadWeight::new`.
pub fn weight_new(value: u16) -> Option<u16> {
    ThreadWeight::new(value).map(ThreadWeight::get)
}

/// `ThreadPriority::new`.
pub fn priority_new(value: u8) -> u8 {
    ThreadPriority::new(value).get()
}

/// `SchedulingPolicy::fifo`.
pub fn policy_fifo(priority: u8) -> Policy {
    Mirror::from_source(SchedulingPolicy::fifo(ThreadPriority::new(priority)))
}

/// `SchedulingPolicy::fair`.
pub fn policy_fair() -> Policy {
    Mirror::from_source(SchedulingPolicy::fair())
}

/// `SchedulingPolicy::class`.
pub fn policy_class(policy: Policy) -> Class {
    Mirror::from_source(policy.to_source().class())
}

/// `SchedulingPolicy::priority`.
pub fn policy_priority(policy: Policy) -> Option<u8> {
    policy.to_source().priority().map(ThreadPriority::get)
}

/// `SchedulingParameters::fair`; the weight is taken as it is, in range or not.
pub fn params_fair(
    weight: u16,
    quantum: u64,
    band: u8,
    role: Role,
    backend: Backend,
) -> Option<Params> {
    SchedulingParameters::fair(
        ThreadWeight::of_any(weight),
        quantum,
        ThreadPriority::new(band),
        role.to_source(),
        backend.to_source(),
    )
    .map(Mirror::from_source)
}

/// `SchedulingParameters::budget`; the budget is taken as it is, sound or not.
pub fn params_budget(budget: Budget, band: u8, role: Role) -> Params {
    Mirror::from_source(SchedulingParameters::budget(
        budget.to_source(),
        ThreadPriority::new(band),
        role.to_source(),
    ))
}

/// `SchedulingParameters::fifo`.
pub fn params_fifo(priority: u8, band: u8, role: Role) -> Params {
    Mirror::from_source(SchedulingParameters::fifo(
        ThreadPriority::new(priority),
        ThreadPriority::new(band),
        role.to_source(),
    ))
}

/// `SchedulingParameters::idle`.
pub fn params_idle() -> Params {
    Mirror::from_source(SchedulingParameters::idle())
}

/// Parameters of any value, read back through the source's readers.
pub fn params_read(params: Params) -> Params {
    Mirror::from_source(params.to_source())
}

/// `BudgetRuntime::new`.
pub fn budget_runtime_new(params: Budget) -> BudgetRt {
    Mirror::from_source(BudgetRuntime::new(params.to_source()))
}

/// `BudgetRuntime::refresh`.
pub fn budget_refresh(runtime: BudgetRt, now: u64, params: Budget) -> Run<BudgetRt> {
    run(|| {
        let mut state = runtime.to_source();
        state.refresh(now, params.to_source());
        Mirror::from_source(state)
    })
}

/// `BudgetRuntime::account_interval`; false is an end before the start.
pub fn budget_account_interval(
    runtime: BudgetRt,
    start: u64,
    end: u64,
    params: Budget,
) -> Run<(BudgetRt, bool)> {
    run(|| {
        let mut state = runtime.to_source();
        let accepted = state.account_interval(start, end, params.to_source());
        (Mirror::from_source(state), accepted)
    })
}

/// `BudgetRuntime::period_deadline`.
pub fn budget_period_deadline(now: u64, params: Budget) -> Run<Option<u64>> {
    run(|| BudgetRuntime::period_deadline(now, params.to_source()))
}

/// `BudgetRuntime::deadline`.
pub fn budget_deadline(
    runtime: BudgetRt,
    now: u64,
    params: Budget,
    borrow: bool,
) -> Run<(BudgetRt, Option<u64>)> {
    run(|| {
        let mut state = runtime.to_source();
        let deadline = state.deadline(now, params.to_source(), borrow);
        (Mirror::from_source(state), deadline)
    })
}

/// `BudgetRuntime::finish_turn`.
pub fn budget_finish_turn(runtime: BudgetRt, params: Budget) -> BudgetRt {
    let mut state = runtime.to_source();
    state.finish_turn(params.to_source());
    Mirror::from_source(state)
}

/// `BudgetRuntime::reconfigure`; false is a changed period.
pub fn budget_reconfigure(runtime: BudgetRt, old: Budget, new: Budget) -> (BudgetRt, bool) {
    let mut state = runtime.to_source();
    let accepted = state.reconfigure(old.to_source(), new.to_source());
    (Mirror::from_source(state), accepted)
}

/// `PolicyRuntime::new`; a Fair runtime begins with pass 0 and the quantum left.
pub fn runtime_new(params: Params) -> Run<Runtime> {
    run(|| Mirror::from_source(PolicyRuntime::new(params.to_source())))
}

/// `PolicyRuntime::account`; false is an end before the start, or runtime and policy that disagree.
pub fn runtime_account(
    runtime: Runtime,
    params: Params,
    start: u64,
    end: u64,
) -> Run<(Runtime, bool)> {
    run(|| {
        let mut state = runtime.to_source();
        let accepted = state.account(params.to_source(), start, end);
        (Mirror::from_source(state), accepted)
    })
}

/// `PolicyRuntime::epoch_refresh`.
pub fn runtime_epoch_refresh(runtime: Runtime, now: u64, params: Params) -> Run<Runtime> {
    run(|| {
        let mut state = runtime.to_source();
        state.epoch_refresh(now, params.to_source());
        Mirror::from_source(state)
    })
}

/// `PolicyRuntime::candidate_key`: pass and turn.
pub fn runtime_candidate_key(runtime: Runtime, params: Params, turn: u64) -> (u128, u64) {
    runtime.to_source().candidate_key(params.to_source(), turn)
}

/// `PolicyRuntime::next_deadline`.
pub fn runtime_next_deadline(
    runtime: Runtime,
    now: u64,
    params: Params,
    competition: bool,
    borrow: bool,
) -> Run<(Runtime, Option<u64>)> {
    run(|| {
        let mut state = runtime.to_source();
        let deadline = state.next_deadline(now, params.to_source(), competition, borrow);
        (Mirror::from_source(state), deadline)
    })
}

/// `PolicyRuntime::finish_turn`.
pub fn runtime_finish_turn(runtime: Runtime, params: Params) -> Runtime {
    let mut state = runtime.to_source();
    state.finish_turn(params.to_source());
    Mirror::from_source(state)
}
