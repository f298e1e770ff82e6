//! Worked cases of policies, budgets and windows: the oracle answers as the paper says.
#![cfg(not(feature = "unchanged"))]

use core::cmp::Ordering;
use kernel::oracle::*;

const PERIOD: u64 = 10_000_000;
const TWO: Budget = Budget {
    budget: 2_000_000,
    period: PERIOD,
    burst: 1_000_000,
};

fn window() -> Window {
    window_new(config_new(PERIOD, 2_000_000, 3_000_000, DEFAULT_ORDER).unwrap())
}

fn fair(role: Role) -> Params {
    params_fair(16, 5_000_000, 128, role, Backend::Stride).unwrap()
}

fn candidate(params: Params) -> Candidate {
    Candidate {
        params,
        fair_pass: 0,
        turn: 1,
        budget_available: true,
    }
}

#[test]
fn budget_parameters_are_refused_out_of_range() {
    assert!(budget_new(1, 1, 1).is_some());
    assert!(budget_new(1_000_000_000, 1_000_000_000, 1_000_000_000).is_some());
    assert_eq!(budget_new(1, 0, 1), None);
    assert_eq!(budget_new(1, 1_000_000_001, 1), None);
    assert_eq!(budget_new(0, 10, 1), None);
    assert_eq!(budget_new(11, 10, 1), None);
    assert_eq!(budget_new(1, 10, 0), None);
    assert_eq!(budget_new(1, 10, 11), None);
    assert_eq!(weight_new(0), None);
    assert_eq!(weight_new(1024), Some(1024));
    assert_eq!(weight_new(1025), None);
    assert_eq!(params_fair(16, 0, 1, Role::Ordinary, Backend::Stride), None);
    assert_eq!(params_idle().band, LOWEST_PRIORITY);
}

#[test]
fn budget_refills_only_when_the_epoch_rises() {
    let spent = BudgetRt {
        epoch: Some(0),
        remaining: 0,
        burst: 5,
    };
    assert_eq!(budget_refresh(spent, 9_999_999, TWO).unwrap().remaining, 0);
    let refilled = budget_refresh(spent, 10_000_000, TWO).unwrap();
    assert_eq!((refilled.epoch, refilled.remaining), (Some(1), 2_000_000));
    let later = BudgetRt {
        epoch: Some(3),
        ..spent
    };
    assert_eq!(budget_refresh(later, 10_000_000, TWO).unwrap(), later);
}

#[test]
fn an_interval_charges_the_budget_from_its_last_period() {
    let runtime = budget_runtime_new(TWO);
    let (runtime, accepted) = budget_account_interval(runtime, 9_500_000, 10_300_000, TWO).unwrap();
    assert!(accepted);
    assert_eq!((runtime.remaining, runtime.burst), (1_700_000, 200_000));
    assert!(!budget_account_interval(runtime, 2, 1, TWO).unwrap().1);
    let (edge, _) = budget_account_interval(runtime, 19_000_000, 20_000_000, TWO).unwrap();
    assert_eq!((edge.remaining, edge.burst), (2_000_000, 0));
}

#[test]
fn damaged_parameters_panic_and_are_caught() {
    let nothing = Budget { period: 0, ..TWO };
    assert_eq!(
        budget_refresh(budget_runtime_new(TWO), 1, nothing),
        Err(Panic::Fault)
    );
    let lacking = Params {
        budget: None,
        ..params_budget(TWO, 1, Role::Ordinary)
    };
    assert!(matches!(runtime_new(lacking), Err(Panic::Invariant(_))));
    let runtime = Runtime::Budget(budget_runtime_new(TWO));
    assert_eq!(
        runtime_account(runtime, lacking, 0, 1),
        Ok((runtime, false))
    );
    let mut broken = window();
    broken.config.period = 0;
    assert_eq!(window_refresh(broken, 1), Err(Panic::Fault));
}

#[test]
fn fair_runtimes_stay_as_given() {
    let given = Runtime::Fair {
        pass: 1 << 70,
        remaining: 9,
    };
    let params = fair(Role::Ordinary);
    assert_eq!(runtime_account(given, params, 1, 5), Ok((given, true)));
    assert_eq!(runtime_finish_turn(given, params), given);
    assert_eq!(runtime_candidate_key(given, params, 7), (1 << 70, 7));
    assert_eq!(
        runtime_next_deadline(given, 1, params, true, false),
        Ok((given, Some(10)))
    );
}

#[test]
fn configurations_are_refused_out_of_range() {
    assert!(config_new(PERIOD, 6_999_999, 3_000_000, DEFAULT_ORDER).is_some());
    assert_eq!(
        config_new(PERIOD, 7_000_000, 3_000_000, DEFAULT_ORDER),
        None
    );
    assert!(config_new(PERIOD, 0, 3_000_000, DEFAULT_ORDER).is_some());
    assert_eq!(config_new(PERIOD, 0, 0, DEFAULT_ORDER), None);
    let equal = Order {
        fair: 1,
        ..DEFAULT_ORDER
    };
    assert_eq!(config_new(PERIOD, 0, 3_000_000, equal), None);
    assert!(!config_new(PERIOD, 0, 1, DEFAULT_ORDER).unwrap().prefer_fair);
}

#[test]
fn the_floor_is_due_seven_milliseconds_in() {
    let due = |now| window_protection_deadline(window(), now, true).unwrap().1 == Some(now);
    assert!(!due(6_999_999));
    assert!(due(7_000_000));
    assert!(due(7_000_001));
    let demand = Demand {
        protected: true,
        fair: true,
        ..Demand::default()
    };
    let key = |now| {
        let protected = candidate(fair(Role::Protected));
        window_candidate_key(window(), now, protected, demand)
            .unwrap()
            .1
            .unwrap()
    };
    assert_eq!(key(6_999_999).0.urgency, 2);
    assert_eq!(
        (key(7_000_000).0.urgency, key(7_000_000).1),
        (1, Mode::Protected)
    );
}

#[test]
fn a_protected_interval_over_an_edge_leaves_two_milliseconds() {
    let (after, accepted) = window_account_dispatch(
        window(),
        9_000_000,
        11_000_000,
        fair(Role::Protected),
        Mode::Ordinary,
    )
    .unwrap();
    assert!(accepted);
    assert_eq!(after.protected_remaining, 2_000_000);
    let (older, _) = window_account_dispatch(
        after,
        5_000_000,
        6_000_000,
        fair(Role::Protected),
        Mode::Ordinary,
    )
    .unwrap();
    assert_eq!(
        (older.epoch, older.protected_remaining),
        (Some(1), 1_000_000)
    );
}

#[test]
fn nothing_is_due_where_the_period_does_not_fit() {
    let (_, deadline) = window_protection_deadline(window(), u64::MAX, true).unwrap();
    assert_eq!(deadline, None);
    assert_eq!(window_period_deadline(window(), u64::MAX).unwrap(), None);
}

#[test]
fn an_exhausted_thread_has_no_key_beside_fair_demand() {
    let exhausted = Candidate {
        budget_available: false,
        ..candidate(params_budget(TWO, 1, Role::Protected))
    };
    let demand = Demand {
        fair: true,
        protected: true,
        any_budget: true,
        ..Demand::default()
    };
    assert_eq!(
        window_candidate_key(window(), 7_000_000, exhausted, demand)
            .unwrap()
            .1,
        None
    );
    let alone = Demand {
        any_budget: true,
        ..Demand::default()
    };
    let (key, mode) = window_candidate_key(window(), 7_000_000, exhausted, alone)
        .unwrap()
        .1
        .unwrap();
    assert_eq!((key.urgency, key.rank, mode), (2, 3, Mode::Borrow));
}

#[test]
fn a_fair_thread_is_preferred_while_the_allowance_lasts() {
    let at = |prefer_fair, priority_remaining| {
        let preferring = Window {
            config: config_with_prefer_fair(window().config, prefer_fair),
            epoch: Some(0),
            priority_remaining,
            ..window()
        };
        let thread = Candidate {
            fair_pass: 9,
            ..candidate(fair(Role::Ordinary))
        };
        let (key, mode) = window_candidate_key(preferring, 1_000, thread, Demand::default())
            .unwrap()
            .1
            .unwrap();
        (
            key.urgency,
            key.rank,
            key.algorithm_rank,
            key.algorithm,
            mode,
        )
    };
    assert_eq!(at(false, 1), (2, 2, 1, 9, Mode::Ordinary));
    assert_eq!(at(true, 1), (2, 0, 1, 9, Mode::Priority));
    assert_eq!(at(true, 0), (2, 2, 1, 9, Mode::Ordinary));
}

#[test]
fn keys_compare_the_algorithm_before_the_band() {
    let low = Key {
        urgency: 2,
        rank: 2,
        algorithm_rank: 1,
        algorithm: 5,
        band: 200,
        turn: 9,
    };
    let high = Key {
        algorithm: 6,
        band: 1,
        turn: 1,
        ..low
    };
    assert_eq!(key_compare(low, high), Ordering::Less);
    assert_eq!(key_compare(low, low), Ordering::Equal);
}

#[test]
fn admission_looks_at_period_and_backend() {
    let config = window().config;
    assert!(config_admits(
        config,
        params_budget(TWO, 1, Role::Ordinary),
        Backend::Stride
    ));
    let other = Budget {
        period: 20_000_000,
        ..TWO
    };
    assert!(!config_accepts(
        config,
        params_budget(other, 1, Role::Ordinary)
    ));
    assert!(!config_admits(
        config,
        fair(Role::Ordinary),
        Backend::RoundRobin
    ));
    assert!(!config_admits(config, params_idle(), Backend::Stride));
}
