//! The kernel's window calls on lent words, as the port has them, and on its own types.

use crate::Input;
use crate::calls::*;
use crate::policy::*;
use crate::scheduler::algorithms::arbitration::*;

fn flag(word: u64) -> bool {
    word != 0
}

fn role_of(tag: u64) -> SchedulingRole {
    match tag {
        0 => SchedulingRole::Ordinary,
        1 => SchedulingRole::Priority,
        _ => SchedulingRole::Protected,
    }
}

fn mode_of(tag: u64) -> DispatchMode {
    match tag {
        0 => DispatchMode::StrictFifo,
        1 => DispatchMode::Priority,
        2 => DispatchMode::Protected,
        3 => DispatchMode::Ordinary,
        _ => DispatchMode::Borrow,
    }
}

fn mode_tag(mode: DispatchMode) -> u64 {
    match mode {
        DispatchMode::StrictFifo => 0,
        DispatchMode::Priority => 1,
        DispatchMode::Protected => 2,
        DispatchMode::Ordinary => 3,
        DispatchMode::Borrow => 4,
    }
}

fn parameters_of(w: &Row) -> SchedulingParameters {
    let policy = match w[0] {
        0 => SchedulingPolicy::fifo(ThreadPriority::new(w[1] as u8)),
        1 => SchedulingPolicy::Fair,
        2 => SchedulingPolicy::Budget,
        _ => SchedulingPolicy::Idle,
    };
    let backend = match w[6] {
        0 => FairBackend::Stride,
        _ => FairBackend::RoundRobin,
    };
    SchedulingParameters::of_any(
        policy,
        ThreadPriority::new(w[2] as u8),
        role_of(w[3]),
        ThreadWeight::of_any(w[4] as u16),
        w[5],
        backend,
        flag(w[7]).then(|| BudgetParameters::of_any(w[8], w[9], w[10])),
    )
}

fn window_of(w: &WindowWords) -> CpuWindow {
    let order = ArbitrationOrder {
        priority_rank: w[3] as u8,
        budget_rank: w[4] as u8,
        fair_rank: w[5] as u8,
        borrow_rank: w[6] as u8,
    };
    let config = ArbitrationConfig::of_any(w[0], w[1], w[2], order, flag(w[7]));
    CpuWindow::of_any(config, flag(w[8]).then_some(w[9]), w[10], w[11])
}

/// The whole window's words.
fn window_words(window: CpuWindow) -> WindowWords {
    let (config, epoch, priority_remaining_ns, protected_remaining_ns) = window.parts();
    let (period_ns, priority_allowance_ns, protected_floor_ns, order, prefer_fair) = config.parts();
    [
        period_ns,
        priority_allowance_ns,
        protected_floor_ns,
        order.priority_rank.into(),
        order.budget_rank.into(),
        order.fair_rank.into(),
        order.borrow_rank.into(),
        prefer_fair.into(),
        epoch.is_some().into(),
        epoch.unwrap_or(0),
        priority_remaining_ns,
        protected_remaining_ns,
    ]
}

/// The words that a call can change: its epoch and what remains.
fn store_progress(words: &mut WindowWords, window: CpuWindow) {
    words[8..12].copy_from_slice(&window_words(window)[8..12]);
}

fn demand_of(w: &DemandWords) -> Demand {
    Demand {
        protected: flag(w[0]),
        fair: flag(w[1]),
        window_sensitive: flag(w[2]),
        eligible_budget: flag(w[3]),
        any_budget: flag(w[4]),
    }
}

fn candidate_of(w: &Row) -> Candidate {
    Candidate {
        parameters: parameters_of(w),
        fair_pass: u128::from(w[12]) << 64 | u128::from(w[13]),
        turn: w[16],
        budget_available: flag(w[14]),
    }
}

fn key_words(answer: Option<(DispatchKey, DispatchMode)>) -> KeyWords {
    let Some((key, mode)) = answer else {
        return [0; 9];
    };
    [
        1,
        mode_tag(mode),
        key.urgency.into(),
        key.rank.into(),
        key.algorithm_rank.into(),
        (key.algorithm >> 64) as u64,
        key.algorithm as u64,
        key.band.into(),
        key.turn,
    ]
}

#[inline(never)]
#[unsafe(no_mangle)]
pub extern "C" fn rust_window_refresh(window: &mut WindowWords, now: u64) -> u64 {
    let mut state = window_of(window);
    state.refresh(now);
    store_progress(window, state);
    0
}

#[inline(never)]
#[unsafe(no_mangle)]
pub extern "C" fn rust_window_account_dispatch(
    window: &mut WindowWords,
    start: u64,
    end: u64,
    row: &Row,
    mode: u64,
) -> u64 {
    let mut state = window_of(window);
    let accepted = state.account_dispatch(start, end, parameters_of(row), mode_of(mode));
    store_progress(window, state);
    if accepted { 0 } else { 7 }
}

#[inline(never)]
#[unsafe(no_mangle)]
pub extern "C" fn rust_window_candidate_key(
    window: &mut WindowWords,
    now: u64,
    candidate: &Row,
    demand: &DemandWords,
    answer: &mut KeyWords,
) -> u64 {
    let mut state = window_of(window);
    let key = state.candidate_key(now, candidate_of(candidate), demand_of(demand));
    store_progress(window, state);
    *answer = key_words(key);
    0
}

/// One input in the kernel's own types, and room for its key.
#[derive(Clone, Copy)]
pub struct Native {
    window: CpuWindow,
    start: u64,
    now: u64,
    candidate: Candidate,
    mode: DispatchMode,
    demand: Demand,
    key: Option<(DispatchKey, DispatchMode)>,
}

impl Native {
    pub fn of(input: &Input) -> Self {
        Self {
            window: window_of(&input.window),
            start: input.start,
            now: input.now,
            candidate: candidate_of(&input.candidate),
            mode: mode_of(input.mode),
            demand: demand_of(&input.demand),
            key: None,
        }
    }
}

#[inline(never)]
#[unsafe(no_mangle)]
pub fn native_window_refresh(input: &mut Native) {
    input.window.refresh(input.now);
}

#[inline(never)]
#[unsafe(no_mangle)]
pub fn native_window_account_dispatch(input: &mut Native) {
    let parameters = input.candidate.parameters;
    let window = &mut input.window;
    window.account_dispatch(input.start, input.now, parameters, input.mode);
}

#[inline(never)]
#[unsafe(no_mangle)]
pub fn native_window_candidate_key(input: &mut Native) {
    input.key = input
        .window
        .candidate_key(input.now, input.candidate, input.demand);
}
