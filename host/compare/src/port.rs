//! The port's calls on the oracle's plain values. A refusal is its number in document 01, and leaves the answer's words
//! untouched.

use core::cmp::Ordering;

use kernel::oracle::*;

use crate::calls;
use crate::words::*;

/// A value, or the number of a refusal.
pub type Answer<T> = Result<T, u64>;

/// What answers' words hold before a call.
const UNTOUCHED: u64 = 0x5555_5555;

/// Calls with lent answer words, and gives what they stand for.
fn answered<const N: usize, T>(
    call: impl FnOnce(&mut [u64; N]) -> u64,
    value: impl FnOnce([u64; N]) -> T,
) -> Answer<T> {
    let mut words = [UNTOUCHED; N];
    match call(&mut words) {
        0 => Ok(value(words)),
        number => {
            assert_eq!(words, [UNTOUCHED; N], "an answer beside a refusal");
            Err(number)
        }
    }
}

/// The number of a call as its verdict.
fn verdict(number: u64) -> Answer<()> {
    match number {
        0 => Ok(()),
        number => Err(number),
    }
}

pub fn budget_new(budget: u64, period: u64, burst: u64) -> Answer<Budget> {
    answered(
        |answer| calls::budget_parameters_new(budget, period, burst, answer),
        budget_of,
    )
}

pub fn weight_new(value: u16) -> Option<u16> {
    match calls::thread_weight_new(value) {
        0 => None,
        weight => Some(weight),
    }
}

pub fn policy_class(policy: Policy) -> Class {
    match class_and_priority(policy).0 {
        0 => Class::RealTime,
        1 => Class::Fair,
        2 => Class::Budget,
        3 => Class::Idle,
        other => panic!("a class of {other}"),
    }
}

pub fn policy_priority(policy: Policy) -> Option<u8> {
    let priority = option_of(class_and_priority(policy).1);
    priority.map(|number| u8::try_from(number).expect("a priority"))
}

fn class_and_priority(policy: Policy) -> (u64, [u64; 2]) {
    let params = Params {
        policy,
        ..params_idle()
    };
    let [tag, priority, ..] = row_words(params, Runtime::Idle);
    let mut answer = [UNTOUCHED; 2];
    let class = calls::policy_class_and_priority(tag, priority, &mut answer);
    (class, answer)
}

pub fn priority_new(value: u8) -> u8 {
    calls::thread_priority_new(value)
}

pub fn constants() -> [u64; 6] {
    let mut answer = [UNTOUCHED; 6];
    calls::policy_constants(&mut answer);
    answer
}

/// The policy that a call stores.
fn policy_made(call: impl FnOnce(&mut [u64; 2])) -> Policy {
    let mut answer = [UNTOUCHED; 2];
    call(&mut answer);
    let mut words = [0; 11];
    words[0..2].copy_from_slice(&answer);
    parameters_of(words).policy
}

pub fn policy_fifo(priority: u8) -> Policy {
    policy_made(|answer| calls::policy_fifo(priority, answer))
}

pub fn policy_fair() -> Policy {
    policy_made(|answer| calls::policy_fair(answer))
}

/// The parameters that a call stores.
fn constructed(call: impl FnOnce(&mut calls::ParametersWords)) -> Params {
    let mut words = [UNTOUCHED; 11];
    call(&mut words);
    parameters_of(words)
}

pub fn params_read(params: Params) -> Params {
    constructed(|answer| calls::parameters_read(&row_words(params, Runtime::Idle), answer))
}

pub fn params_fair(
    weight: u16,
    quantum: u64,
    band: u8,
    role: Role,
    backend: Backend,
) -> Option<Params> {
    let mut words = [UNTOUCHED; 11];
    let (role, backend) = (role_word(role), backend_word(backend));
    let made = calls::parameters_fair(&mut words, weight, quantum, band, role, backend);
    let made = flag_of(made);
    assert!(made || words == [UNTOUCHED; 11], "parameters not made");
    made.then(|| parameters_of(words))
}

pub fn params_budget(budget: Budget, band: u8, role: Role) -> Params {
    let words = budget_words(budget);
    constructed(|answer| calls::parameters_budget(answer, &words, band, role_word(role)))
}

pub fn params_fifo(priority: u8, band: u8, role: Role) -> Params {
    constructed(|answer| calls::parameters_fifo(answer, priority, band, role_word(role)))
}

pub fn params_idle() -> Params {
    constructed(|answer| calls::parameters_idle(answer))
}

/// Calls with a budget runtime's lent words.
fn on_budget(
    runtime: BudgetRt,
    call: impl FnOnce(&mut calls::BudgetRuntimeWords) -> u64,
) -> (u64, BudgetRt) {
    let mut words = budget_runtime_words(runtime);
    let number = call(&mut words);
    let after = budget_runtime_of(words);
    assert!(number == 0 || after == runtime, "a runtime after a refusal");
    (number, after)
}

fn stepped(
    runtime: BudgetRt,
    call: impl FnOnce(&mut calls::BudgetRuntimeWords) -> u64,
) -> Answer<BudgetRt> {
    let (number, after) = on_budget(runtime, call);
    verdict(number).map(|()| after)
}

pub fn budget_runtime_new(budget: Budget) -> Answer<BudgetRt> {
    let blank = BudgetRt {
        epoch: Some(UNTOUCHED),
        remaining: UNTOUCHED,
        burst: UNTOUCHED,
    };
    stepped(blank, |words| {
        calls::budget_new(words, &budget_words(budget))
    })
}

pub fn budget_refresh(runtime: BudgetRt, now: u64, budget: Budget) -> Answer<BudgetRt> {
    stepped(runtime, |words| {
        calls::budget_refresh(words, now, &budget_words(budget))
    })
}

pub fn budget_account_interval(
    runtime: BudgetRt,
    start: u64,
    end: u64,
    budget: Budget,
) -> Answer<BudgetRt> {
    stepped(runtime, |words| {
        calls::budget_account_interval(words, start, end, &budget_words(budget))
    })
}

pub fn budget_period_deadline(now: u64, budget: Budget) -> Answer<Option<u64>> {
    answered(
        |answer| calls::budget_period_deadline(now, &budget_words(budget), answer),
        option_of,
    )
}

pub fn budget_deadline(
    runtime: BudgetRt,
    now: u64,
    budget: Budget,
    borrow: bool,
) -> Answer<(BudgetRt, Option<u64>)> {
    let mut after = runtime;
    let deadline = answered(
        |answer| {
            let (number, left) = on_budget(runtime, |words| {
                calls::budget_deadline(words, now, &budget_words(budget), borrow, answer)
            });
            after = left;
            number
        },
        option_of,
    );
    deadline.map(|deadline| (after, deadline))
}

pub fn budget_finish_turn(runtime: BudgetRt, budget: Budget) -> Answer<BudgetRt> {
    stepped(runtime, |words| {
        calls::budget_finish_turn(words, &budget_words(budget))
    })
}

/// None: another period, and nothing changes.
pub fn budget_reconfigure(runtime: BudgetRt, old: Budget, new: Budget) -> Answer<Option<BudgetRt>> {
    let before = budget_runtime_words(runtime);
    answered(
        |answer| calls::budget_reconfigure(&before, &budget_words(old), &budget_words(new), answer),
        |[some, epoch, remaining, burst, changed]| {
            flag_of(changed).then(|| budget_runtime_of([some, epoch, remaining, burst]))
        },
    )
}

/// Calls with the row of these parameters and this runtime, and gives the runtime that it answers.
fn ran(
    params: Params,
    runtime: Runtime,
    call: impl FnOnce(&calls::Row, &mut calls::RuntimeWords) -> u64,
) -> Answer<Runtime> {
    let row = row_words(params, runtime);
    answered(|answer| call(&row, answer), runtime_of)
}

pub fn runtime_new(params: Params, fair: Runtime) -> Answer<Runtime> {
    let Runtime::Fair { pass, remaining } = fair else {
        panic!("what a fair thread starts with");
    };
    let [high, low] = halves(pass);
    ran(params, Runtime::Idle, |row, answer| {
        calls::runtime_new(row, high, low, remaining, answer)
    })
}

pub fn runtime_account(runtime: Runtime, params: Params, start: u64, end: u64) -> Answer<Runtime> {
    ran(params, runtime, |row, answer| {
        calls::runtime_account(row, start, end, answer)
    })
}

pub fn runtime_epoch_refresh(runtime: Runtime, now: u64, params: Params) -> Answer<Runtime> {
    ran(params, runtime, |row, answer| {
        calls::runtime_epoch_refresh(row, now, answer)
    })
}

pub fn runtime_same_kind(runtime: Runtime, params: Params) -> bool {
    calls::runtime_same_kind(&row_words(params, runtime))
}

pub fn runtime_candidate_key(runtime: Runtime, params: Params, turn: u64) -> (u128, u64) {
    let mut answer = [UNTOUCHED; 3];
    calls::runtime_candidate_key(&row_words(params, runtime), turn, &mut answer);
    (whole(answer[0], answer[1]), answer[2])
}

pub fn runtime_next_deadline(
    runtime: Runtime,
    now: u64,
    params: Params,
    competition: bool,
    borrow: bool,
) -> Answer<(Runtime, Option<u64>)> {
    let mut due = [UNTOUCHED; 2];
    let after = ran(params, runtime, |row, after| {
        calls::runtime_next_deadline(row, now, competition, borrow, after, &mut due)
    });
    assert!(after.is_ok() || due == [UNTOUCHED; 2], "a refused deadline");
    after.map(|after| (after, option_of(due)))
}

pub fn runtime_finish_turn(runtime: Runtime, params: Params) -> Answer<Runtime> {
    ran(params, runtime, |row, answer| {
        calls::runtime_finish_turn(row, answer)
    })
}

pub fn config_new(config: Config) -> Answer<Config> {
    let mut words = config_words(config);
    let number = calls::config_new(&mut words);
    let made = window_of(words).config;
    assert!(number == 0 || made == config, "a refused configuration");
    verdict(number).map(|()| made)
}

pub fn config_with_prefer_fair(config: Config, prefer_fair: bool) -> Config {
    let mut words = config_words(config);
    calls::config_with_prefer_fair(&mut words, prefer_fair);
    window_of(words).config
}

pub fn config_accepts(config: Config, params: Params) -> bool {
    calls::config_accepts(&config_words(config), &row_words(params, Runtime::Idle))
}

pub fn config_admits(config: Config, params: Params, backend: Backend) -> bool {
    let row = row_words(params, Runtime::Idle);
    calls::config_admits(&config_words(config), &row, backend_word(backend))
}

pub fn window_new(config: Config) -> Answer<Window> {
    let mut words = config_words(config);
    let number = calls::window_new(&mut words);
    assert!(number == 0 || words == config_words(config), "no window");
    verdict(number).map(|()| window_of(words))
}

pub fn window_period_ns(window: Window) -> u64 {
    calls::window_period_ns(&window_words(window))
}

/// Calls with a window's lent words.
fn on_window<T>(window: Window, call: impl FnOnce(&mut calls::WindowWords) -> T) -> (T, Window) {
    let mut words = window_words(window);
    let answer = call(&mut words);
    (answer, window_of(words))
}

pub fn window_refresh(window: Window, now: u64) -> (Answer<()>, Window) {
    on_window(window, |words| verdict(calls::window_refresh(words, now)))
}

pub fn window_account_dispatch(
    window: Window,
    start: u64,
    end: u64,
    params: Params,
    mode: Mode,
) -> (Answer<()>, Window) {
    let row = row_words(params, Runtime::Idle);
    on_window(window, |words| {
        let number = calls::window_account_dispatch(words, start, end, &row, mode_word(mode));
        verdict(number)
    })
}

pub fn window_period_deadline(window: Window, now: u64) -> (Answer<Option<u64>>, Window) {
    on_window(window, |words| {
        answered(
            |answer| calls::window_period_deadline(words, now, answer),
            option_of,
        )
    })
}

pub fn window_protection_deadline(
    window: Window,
    now: u64,
    protected_waiting: bool,
) -> (Answer<Option<u64>>, Window) {
    on_window(window, |words| {
        answered(
            |answer| calls::window_protection_deadline(words, now, protected_waiting, answer),
            option_of,
        )
    })
}

pub fn window_candidate_key(
    window: Window,
    now: u64,
    candidate: Candidate,
    demand: Demand,
) -> (Answer<Option<(Key, Mode)>>, Window) {
    let (candidate, demand) = (candidate_words(candidate), demand_words(demand));
    on_window(window, |words| {
        answered(
            |answer| calls::window_candidate_key(words, now, &candidate, &demand, answer),
            key_of,
        )
    })
}

pub fn window_next_deadline(
    window: Window,
    now: u64,
    mode: Mode,
    competition: bool,
    demand: Demand,
) -> (Answer<Option<u64>>, Window) {
    let (mode, demand) = (mode_word(mode), demand_words(demand));
    on_window(window, |words| {
        answered(
            |answer| calls::window_next_deadline(words, now, mode, competition, &demand, answer),
            option_of,
        )
    })
}

pub fn key_compare(a: Key, b: Key) -> Ordering {
    match calls::dispatch_keys_compare(&key_words(a), &key_words(b)) {
        0 => Ordering::Less,
        1 => Ordering::Equal,
        2 => Ordering::Greater,
        other => panic!("an order of {other}"),
    }
}
