//! The oracle's plain values as the port's words, and back; words that the port would not write are a panic.

use kernel::oracle::*;

use crate::calls::*;
use tables::rows::{record_of, row_of};
use tables::windows;

pub use tables::windows::{candidate_words, demand_words, halves, key_words, whole, window_words};

pub fn flag_of(word: u64) -> bool {
    match word {
        0 => false,
        1 => true,
        other => panic!("a flag of {other}"),
    }
}

pub fn option_words(number: Option<u64>) -> [u64; 2] {
    [number.is_some().into(), number.unwrap_or(0)]
}

pub fn option_of([some, number]: [u64; 2]) -> Option<u64> {
    flag_of(some).then_some(number)
}

pub fn role_word(role: Role) -> u64 {
    match role {
        Role::Ordinary => 0,
        Role::Priority => 1,
        Role::Protected => 2,
    }
}

pub fn backend_word(backend: Backend) -> u64 {
    match backend {
        Backend::Stride => 0,
        Backend::RoundRobin => 1,
    }
}

const MODES: [Mode; 5] = [
    Mode::StrictFifo,
    Mode::Priority,
    Mode::Protected,
    Mode::Ordinary,
    Mode::Borrow,
];

pub fn mode_word(mode: Mode) -> u64 {
    let place = MODES.iter().position(|known| *known == mode);
    place.expect("a mode") as u64
}

const PLAIN: Params = Params {
    policy: Policy::Idle,
    band: 0,
    role: Role::Ordinary,
    weight: 0,
    quantum: 0,
    backend: Backend::Stride,
    budget: None,
};

/// A record's row with these parameters and this runtime.
pub fn row_words(params: Params, runtime: Runtime) -> Row {
    row_of(&Record::new(params, runtime, 0, 0))
}

/// The parameters that eleven words stand for, as the port writes them.
pub fn parameters_of(words: ParametersWords) -> Params {
    let mut row = row_words(PLAIN, Runtime::Idle);
    row[0..11].copy_from_slice(&words);
    let params = record_of(&row).params;
    assert_eq!(words, row_words(params, Runtime::Idle)[0..11], "parameters");
    params
}

/// The runtime that five words stand for, as the port writes them.
pub fn runtime_of(words: RuntimeWords) -> Runtime {
    let mut row = row_words(PLAIN, Runtime::Idle);
    row[11..16].copy_from_slice(&words);
    let runtime = record_of(&row).runtime;
    assert_eq!(words, row_words(PLAIN, runtime)[11..16], "a runtime");
    runtime
}

pub fn budget_words(budget: Budget) -> BudgetWords {
    [budget.budget, budget.period, budget.burst]
}

pub fn budget_of([budget, period, burst]: BudgetWords) -> Budget {
    Budget {
        budget,
        period,
        burst,
    }
}

pub fn budget_runtime_words(runtime: BudgetRt) -> BudgetRuntimeWords {
    let [some, epoch] = option_words(runtime.epoch);
    [some, epoch, runtime.remaining, runtime.burst]
}

pub fn budget_runtime_of([some, epoch, remaining, burst]: BudgetRuntimeWords) -> BudgetRt {
    BudgetRt {
        epoch: option_of([some, epoch]),
        remaining,
        burst,
    }
}

/// A window of this configuration, its other words 0.
pub fn config_words(config: Config) -> WindowWords {
    window_words(Window {
        config,
        epoch: None,
        priority_remaining: 0,
        protected_remaining: 0,
    })
}

/// A window's words, as the port writes them.
pub fn window_of(words: WindowWords) -> Window {
    let window = windows::window_of(&words);
    assert_eq!(words, window_words(window), "a window");
    window
}

pub fn key_of(words: KeyWords) -> Option<(Key, Mode)> {
    let key = windows::key_of(&words);
    let rest = &windows::key_words(key)[2..];
    let made = flag_of(words[0]);
    assert!(!made || words[2..] == *rest, "a key");
    made.then_some((key, MODES[words[1] as usize]))
}
