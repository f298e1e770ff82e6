//! Records, windows and keys for the runs, by picks: good ones of every policy, and any.

use kernel::oracle::*;

use crate::checks::{Decision, Named};
use tables::values::Picks;

const MAX: u64 = u64::MAX;

/// A budget that can be made, at its limits.
fn sound_budget(picks: &mut impl Picks, period: u64) -> Budget {
    Budget {
        budget: picks.of([1, period / 2 + 1, period]),
        period,
        burst: picks.of([1, period / 2 + 1, period]),
    }
}

/// A record whose policy, budget and runtime agree; a budget's period is that of the window, or another.
pub fn good(picks: &mut impl Picks, period: u64, now: u64) -> Record {
    let (band, role) = (picks.of([0, 1, 255]), picks.role());
    let turn = picks.of([0, 1, 1 << 63, MAX]);
    let (params, runtime) = match picks.below(5) {
        0 => (
            params_fifo(picks.of([0, 1, 255]), band, role),
            Runtime::Fifo,
        ),
        1 | 2 => {
            let backend = picks.backend();
            let params = params_fair(16, 1_000_000, band, role, backend).expect("a quantum");
            (params, picks.fair())
        }
        3 => {
            let period = match picks.below(4) {
                0 => picks.of([7, 10, 1_000_000_000]),
                _ => period,
            };
            let budget = sound_budget(picks, period);
            let runtime = picks.budget_runtime(now, budget);
            (params_budget(budget, band, role), Runtime::Budget(runtime))
        }
        _ => (params_idle(), Runtime::Idle),
    };
    Record::new(params, runtime, turn, 0)
}

/// Any policy with any budget and any runtime, which may disagree.
pub fn any(picks: &mut impl Picks, now: u64) -> Record {
    let period = picks.period();
    let budget = picks.budget_about(period);
    let params = picks.params(budget);
    let own = picks.budget(period);
    let runtime = picks.runtime(now, own);
    Record::new(params, runtime, picks.turn(), 0)
}

/// Counters at their start and near their ends.
pub fn turns(picks: &mut impl Picks) -> Turns {
    Turns {
        back: picks.of([1 << 63, MAX - 2, MAX - 1, MAX, 0, 1]),
        front: picks.of([1 << 63, 3, 2, 1, 0, MAX]),
    }
}

fn membership(picks: &mut impl Picks) -> Membership {
    match picks.below(8) {
        0 => Membership::ReadyFifo {
            cpu: 0,
            priority: 1,
        },
        1 => Membership::ReadyFair { cpu: 0 },
        2 => Membership::Waiting { queue: 1 },
        3 => Membership::Terminated,
        _ => Membership::None,
    }
}

/// A table of so many records with any memberships, and a number in it or just beyond.
pub fn named(picks: &mut impl Picks, count: u64, period: u64, now: u64) -> Named {
    let mut records: Vec<Record> = Vec::new();
    for _ in 0..count {
        let mut record = match picks.below(4) {
            0 => any(picks, now),
            _ => good(picks, period, now),
        };
        record.membership = membership(picks);
        record.running = picks.flag();
        records.push(record);
    }
    let id = match picks.below(8) {
        0 => picks.of([count, count + 1, 1 << 32, MAX]),
        _ => picks.below(count),
    };
    Named { records, id }
}

/// A ready thread: any good thread's key under the window, or any key.
fn ready(picks: &mut impl Picks, window: Window, now: u64, demand: Demand) -> Option<Ready> {
    let policy = picks.policy();
    match picks.below(8) {
        0 => None,
        1 => Some(Ready {
            number: 9,
            policy,
            key: picks.key(),
        }),
        _ => {
            let record = good(picks, window.config.period, now);
            let pass = match record.runtime {
                Runtime::Fair { pass, .. } => pass,
                _ => 0,
            };
            let candidate = Candidate {
                params: record.params,
                fair_pass: pass,
                turn: record.turn,
                budget_available: picks.flag(),
            };
            let key = window_candidate_key(window, now, candidate, demand)
                .ok()?
                .1?
                .0;
            Some(Ready {
                number: 9,
                policy: record.params.policy,
                key,
            })
        }
    }
}

/// A current thread that is good, a sound window, and a ready thread of any policy.
pub fn decision(picks: &mut impl Picks) -> Decision {
    let config = picks.sound_config();
    let now = picks.reading(config.period);
    let window = picks.window(config, now);
    let demand = picks.demand();
    let mut current = good(picks, config.period, now);
    current.running = picks.below(4) != 0;
    current.deferred = picks.of([None, Some(Deferred::Head), Some(Deferred::Tail)]);
    let ready = ready(picks, window, now, demand);
    Decision {
        current,
        window,
        now,
        ready,
        demand,
    }
}
