//! Worked cases of turns, accounting, the switch rule and deadlines: the oracle answers as the paper says.
#![cfg(not(feature = "unchanged"))]

use kernel::oracle::*;

const PERIOD: u64 = 10_000_000;
const TWO: Budget = Budget {
    budget: 2_000_000,
    period: PERIOD,
    burst: 1_000_000,
};

fn window() -> Window {
    window_new(config_new(PERIOD, 2_000_000, 3_000_000, DEFAULT_ORDER).unwrap())
}

fn running(params: Params, runtime: Runtime) -> Record {
    Record {
        running: true,
        ..Record::new(params, runtime, 5, 0)
    }
}

fn fifo(priority: u8) -> Record {
    running(params_fifo(priority, 128, Role::Ordinary), Runtime::Fifo)
}

fn fair(backend: Backend, pass: u128, remaining: u64) -> Record {
    let params = params_fair(16, 5_000_000, 128, Role::Ordinary, backend).unwrap();
    running(params, Runtime::Fair { pass, remaining })
}

fn budget(remaining: u64, burst: u64) -> Record {
    let runtime = BudgetRt {
        epoch: Some(0),
        remaining,
        burst,
    };
    running(
        params_budget(TWO, 128, Role::Ordinary),
        Runtime::Budget(runtime),
    )
}

fn demand() -> Demand {
    Demand {
        fair: true,
        ..Demand::default()
    }
}

/// The key that the window gives the current thread, as a ready thread's.
fn ready_as(record: &Record, now: u64, change: impl FnOnce(&mut Key)) -> Option<Ready> {
    let pass = runtime_candidate_key(record.runtime, record.params, record.turn).0;
    let candidate = Candidate {
        params: record.params,
        fair_pass: pass,
        turn: record.turn,
        budget_available: true,
    };
    let (mut key, _) = window_candidate_key(window(), now, candidate, demand())
        .unwrap()
        .1
        .unwrap();
    change(&mut key);
    Some(Ready {
        number: 9,
        policy: record.params.policy,
        key,
    })
}

fn switches(record: &Record, ready: Option<Ready>, yielding: bool) -> Option<bool> {
    switch_rule(
        &mut record.clone(),
        &mut window(),
        0,
        ready,
        demand(),
        yielding,
    )
    .unwrap()
}

#[test]
fn front_turns_are_for_fifo_alone() {
    let mut turns = Turns::NEW;
    let mut first = fifo(1);
    prepare_enqueue(&mut turns, &mut first, true, 0).unwrap();
    assert_eq!((first.turn, turns.front), ((1 << 63) - 1, (1 << 63) - 1));
    let mut other = fair(Backend::Stride, 3, 4);
    prepare_enqueue(&mut turns, &mut other, true, 0).unwrap();
    assert_eq!(other.turn, 5);
    other.turn = 0;
    prepare_enqueue(&mut turns, &mut other, true, 0).unwrap();
    assert_eq!((other.turn, turns.back), (1 << 63, (1 << 63) + 1));
    prepare_enqueue(&mut turns, &mut first, false, 0).unwrap();
    assert_eq!(first.turn, (1 << 63) + 1);
    let mut spent = budget(0, 1);
    prepare_enqueue(&mut turns, &mut spent, true, 10_000_000).unwrap();
    let Runtime::Budget(left) = spent.runtime else {
        panic!("a budget's runtime");
    };
    assert_eq!(
        (left.epoch, left.remaining, spent.turn),
        (Some(1), 2_000_000, 5)
    );
}

#[test]
fn turns_run_out_with_a_stop() {
    let mut turns = Turns {
        back: u64::MAX,
        front: 1,
    };
    let stop = |answer| matches!(answer, Err(Refusal::Halted(Panic::Invariant(_))));
    assert!(stop(prepare_enqueue(&mut turns, &mut fifo(1), true, 0)));
    assert!(stop(prepare_enqueue(&mut turns, &mut fifo(1), false, 0)));
    turns.front = 0;
    let answer = prepare_enqueue(&mut turns, &mut fifo(1), true, 0);
    assert_eq!(answer, Err(Refusal::Halted(Panic::Fault)));
    turns.back = u64::MAX - 1;
    assert_eq!(prepare_enqueue(&mut turns, &mut fifo(1), false, 0), Ok(()));
}

#[test]
fn accounting_charges_record_and_window() {
    let mut record = budget(2_000_000, 1_000_000);
    record.params.role = Role::Protected;
    let mut state = window();
    account_current(
        &mut record,
        &mut state,
        Mode::Ordinary,
        9_000_000,
        11_000_000,
    )
    .unwrap();
    let Runtime::Budget(left) = record.runtime else {
        panic!("a budget's runtime");
    };
    assert_eq!((left.remaining, left.burst), (1_000_000, 0));
    assert_eq!(state.protected_remaining, 2_000_000);
    let before = (record, state);
    let answer = account_current(&mut record, &mut state, Mode::Ordinary, 2, 1);
    assert_eq!(answer, Err(Refusal::PreemptionInvariant));
    assert_eq!((record, state), before);
    record.runtime = Runtime::Idle;
    let answer = account_current(&mut record, &mut state, Mode::Ordinary, 1, 2);
    assert_eq!(answer, Err(Refusal::InvalidSchedulingParameters));
    let mut idle = running(params_idle(), Runtime::Idle);
    account_current(
        &mut idle,
        &mut state,
        Mode::Priority,
        11_000_000,
        11_500_000,
    )
    .unwrap();
    assert_eq!(state.priority_remaining, 1_500_000);
    let mut given = fair(Backend::Stride, 7, 8);
    account_current(
        &mut given,
        &mut state,
        Mode::Priority,
        11_500_000,
        11_600_000,
    )
    .unwrap();
    assert_eq!(
        (given.runtime, state.priority_remaining),
        (
            Runtime::Fair {
                pass: 7,
                remaining: 8
            },
            1_400_000
        )
    );
}

#[test]
fn a_fifo_thread_yields_to_equal_priority_alone() {
    let current = fifo(5);
    let same = ready_as(&current, 0, |_| {});
    let lower = ready_as(&current, 0, |key| key.algorithm = 6);
    let higher = ready_as(&current, 0, |key| key.algorithm = 4);
    assert_eq!(switches(&current, None, true), None);
    assert_eq!(switches(&current, same, false), None);
    assert_eq!(switches(&current, same, true), Some(false));
    assert_eq!(switches(&current, lower, true), None);
    assert_eq!(switches(&current, higher, false), Some(true));
    let tail = Record {
        deferred: Some(Deferred::Tail),
        ..current
    };
    assert_eq!(switches(&tail, same, false), Some(true));
    let mut taken = tail;
    switch_rule(&mut taken, &mut window(), 0, None, demand(), false).unwrap();
    assert_eq!(taken.deferred, None);
}

#[test]
fn an_expired_slice_yields_by_backend() {
    let stride = fair(Backend::Stride, 10, 0);
    let more = ready_as(&stride, 0, |key| key.algorithm = 11);
    let less = ready_as(&stride, 0, |key| key.algorithm = 9);
    assert_eq!(switches(&stride, more, false), None);
    assert_eq!(switches(&stride, less, false), Some(false));
    assert_eq!(switches(&stride, more, true), Some(false));
    let robin = fair(Backend::RoundRobin, 10, 0);
    let later = ready_as(&robin, 0, |key| key.turn = 99);
    assert_eq!(switches(&robin, later, false), Some(false));
    let unspent = fair(Backend::RoundRobin, 10, 1);
    assert_eq!(switches(&unspent, later, false), None);
    let ranked = ready_as(&robin, 0, |key| key.rank += 1);
    assert_eq!(switches(&robin, ranked, false), None);
    assert_eq!(switches(&robin, ranked, true), Some(false));
}

#[test]
fn a_thread_without_a_key_gives_way() {
    let current = budget(0, 1);
    let ready = ready_as(&fair(Backend::Stride, 1, 1), 0, |_| {});
    assert_eq!(switches(&current, ready, false), Some(true));
    let stopped = Record {
        running: false,
        ..fifo(0)
    };
    assert_eq!(switches(&stopped, ready, false), Some(true));
}

#[test]
fn a_spent_burst_switches_and_ends_the_turn() {
    let mut current = budget(5, 0);
    let equal = ready_as(&current, 0, |key| key.turn = 99);
    let front = switch_rule(&mut current, &mut window(), 0, equal, demand(), false).unwrap();
    assert_eq!(front, Some(false));
    let Runtime::Budget(left) = current.runtime else {
        panic!("a budget's runtime");
    };
    assert_eq!(left.burst, 1_000_000);
}

#[test]
fn deadlines_follow_budget_peers() {
    let at = |now, peer, remaining| {
        let mut record = budget(remaining, 300);
        if let Runtime::Budget(runtime) = &mut record.runtime {
            runtime.epoch = Some(now / PERIOD);
        }
        let mut mode = Mode::Borrow;
        let none = Demand {
            eligible_budget: true,
            ..Demand::default()
        };
        let deadline = deadline_rule(
            &mut record,
            &mut window(),
            &mut mode,
            now,
            None,
            none,
            true,
            peer,
        )
        .unwrap();
        (deadline, mode)
    };
    assert_eq!(at(1_000, false, 500), (Some(1_500), Mode::Ordinary));
    assert_eq!(at(1_000, true, 500), (Some(1_300), Mode::Ordinary));
    assert_eq!(
        at(9_999_900, false, 500),
        (Some(10_000_000), Mode::Ordinary)
    );
    assert_eq!(
        at(u64::MAX - 10, false, 5),
        (Some(u64::MAX - 5), Mode::Ordinary)
    );
    assert_eq!(at(u64::MAX - 10, true, 5), (None, Mode::Ordinary));
    let mut mode = Mode::Protected;
    let answer = deadline_rule(
        &mut budget(0, 1),
        &mut window(),
        &mut mode,
        77,
        None,
        demand(),
        true,
        false,
    );
    assert_eq!((answer, mode), (Ok(Some(77)), Mode::Protected));
}

#[test]
fn deadlines_follow_the_demand() {
    let at = |demand| {
        let mut record = running(params_fifo(5, 128, Role::Protected), Runtime::Fifo);
        let mut mode = Mode::Borrow;
        let deadline = deadline_rule(
            &mut record,
            &mut window(),
            &mut mode,
            1_000,
            None,
            demand,
            true,
            false,
        )
        .unwrap();
        (deadline, mode)
    };
    let none = Demand::default();
    let sensitive = Demand {
        window_sensitive: true,
        ..none
    };
    let any = Demand {
        any_budget: true,
        ..none
    };
    let protected = Demand {
        protected: true,
        ..any
    };
    assert_eq!(at(none), (None, Mode::Ordinary));
    assert_eq!(at(sensitive), (Some(10_000_000), Mode::Ordinary));
    assert_eq!(at(any), (Some(10_000_000), Mode::Ordinary));
    assert_eq!(at(protected), (Some(7_000_000), Mode::Ordinary));
}

#[test]
fn a_whole_processor_accounts_chooses_and_arms() {
    let mut records = vec![
        fair(Backend::RoundRobin, 0, 0),
        fair(Backend::RoundRobin, 0, 1),
    ];
    records[1].running = false;
    records[1].turn = 6;
    let mut processor = Processor {
        cpu: 0,
        current: 0,
        queue: Queue::EMPTY,
        window: window(),
        now: None,
        mode: Mode::Ordinary,
        armed_deadline: None,
        deadline_generation: 0,
        fair_floor: 0,
    };
    enqueue(&mut processor.queue, &mut records, 1, 0).unwrap();
    account_processor(&mut processor, &mut records, None).unwrap();
    assert_eq!(processor.now, None);
    account_processor(&mut processor, &mut records, Some(1_000)).unwrap();
    assert_eq!(
        (processor.now, processor.window.epoch),
        (Some(1_000), Some(0))
    );
    let rules = Rules::port(2);
    let candidate = current_candidate(&mut processor, &mut records)
        .unwrap()
        .unwrap();
    assert!(candidate.budget_available);
    assert_eq!(
        choose_ready(rules, &mut processor, &mut records, false),
        Ok(Some((1, false)))
    );
    refresh_deadline(rules, &mut processor, &mut records).unwrap();
    assert_eq!(
        (processor.armed_deadline, processor.deadline_generation),
        (Some(1_000), 1)
    );
}
