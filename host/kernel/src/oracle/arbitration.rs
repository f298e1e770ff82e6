//! Arbitration configurations, processor windows and dispatch keys, run by the source.

use core::cmp::Ordering;

use super::convert::Mirror;
use super::stop::{Run, run};
use super::types::*;
use crate::task::scheduler::algorithms::arbitration::{
    ArbitrationConfig, ArbitrationOrder, CpuWindow,
};

/// `ArbitrationOrder::DEFAULT`.
pub const DEFAULT_ORDER: Order = Order {
    priority: ArbitrationOrder::DEFAULT.priority_rank,
    budget: ArbitrationOrder::DEFAULT.budget_rank,
    fair: ArbitrationOrder::DEFAULT.fair_rank,
    borrow: ArbitrationOrder::DEFAULT.borrow_rank,
};

/// `ArbitrationConfig::new`.
pub fn config_new(period: u64, allowance: u64, floor: u64, order: Order) -> Option<Config> {
    ArbitrationConfig::new(period, allowance, floor, order.to_source()).map(Mirror::from_source)
}

/// `ArbitrationConfig::with_prefer_fair`.
pub fn config_with_prefer_fair(config: Config, prefer_fair: bool) -> Config {
    Mirror::from_source(config.to_source().with_prefer_fair(prefer_fair))
}

/// `ArbitrationConfig::accepts`.
pub fn config_accepts(config: Config, params: Params) -> bool {
    config.to_source().accepts(params.to_source())
}

/// `ArbitrationConfig::admits`.
pub fn config_admits(config: Config, params: Params, backend: Backend) -> bool {
    config
        .to_source()
        .admits(params.to_source(), backend.to_source())
}

/// `CpuWindow::new`.
pub fn window_new(config: Config) -> Window {
    Mirror::from_source(CpuWindow::new(config.to_source()))
}

/// `CpuWindow::period_ns`.
pub fn window_period_ns(window: Window) -> u64 {
    window.to_source().period_ns()
}

/// `CpuWindow::refresh`.
pub fn window_refresh(window: Window, now: u64) -> Run<Window> {
    run(|| {
        let mut state = window.to_source();
        state.refresh(now);
        Mirror::from_source(state)
    })
}

/// `CpuWindow::account_dispatch`; false is an end before the start.
pub fn window_account_dispatch(
    window: Window,
    start: u64,
    end: u64,
    params: Params,
    mode: Mode,
) -> Run<(Window, bool)> {
    run(|| {
        let mut state = window.to_source();
        let accepted = state.account_dispatch(start, end, params.to_source(), mode.to_source());
        (Mirror::from_source(state), accepted)
    })
}

/// `CpuWindow::period_deadline`.
pub fn window_period_deadline(window: Window, now: u64) -> Run<Option<u64>> {
    run(|| window.to_source().period_deadline(now))
}

/// `CpuWindow::protection_deadline`.
pub fn window_protection_deadline(
    window: Window,
    now: u64,
    protected_waiting: bool,
) -> Run<(Window, Option<u64>)> {
    run(|| {
        let mut state = window.to_source();
        let deadline = state.protection_deadline(now, protected_waiting);
        (Mirror::from_source(state), deadline)
    })
}

/// `CpuWindow::candidate_key`: key and mode together.
pub fn window_candidate_key(
    window: Window,
    now: u64,
    candidate: Candidate,
    demand: Demand,
) -> Run<(Window, Option<(Key, Mode)>)> {
    run(|| {
        let mut state = window.to_source();
        let answer = state.candidate_key(now, candidate.to_source(), demand.to_source());
        (
            Mirror::from_source(state),
            answer.map(|(key, mode)| (Mirror::from_source(key), Mirror::from_source(mode))),
        )
    })
}

/// `CpuWindow::next_deadline`.
pub fn window_next_deadline(
    window: Window,
    now: u64,
    mode: Mode,
    competition: bool,
    demand: Demand,
) -> Run<(Window, Option<u64>)> {
    run(|| {
        let mut state = window.to_source();
        let deadline = state.next_deadline(now, mode.to_source(), competition, demand.to_source());
        (Mirror::from_source(state), deadline)
    })
}

/// The order of `DispatchKey` as the source declares it.
pub fn key_compare(left: Key, right: Key) -> Ordering {
    left.to_source().cmp(&right.to_source())
}
