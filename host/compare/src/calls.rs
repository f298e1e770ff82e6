//! The port's calls on lent words, of its crates record_entries and window_entries. What the words stand for:
//! crates/policy_words/specs/PolicyWords.antt for parameters and runtime in a row,
//! crates/window_words/specs/WindowWords.antt and crates/record_entries/specs/RecordWords.antt for the others.

pub type Row = [u64; 32];
pub type ParametersWords = [u64; 11];
pub type RuntimeWords = [u64; 5];
pub type WindowWords = [u64; 12];
pub type DemandWords = [u64; 5];
pub type KeyWords = [u64; 9];
pub type DeadlineWords = [u64; 2];
pub type BudgetWords = [u64; 3];
pub type BudgetRuntimeWords = [u64; 4];

// Every call takes plain numbers and lent words, keeps nothing and is total.
unsafe extern "C" {
    pub safe fn budget_parameters_new(
        budget_ns: u64,
        period_ns: u64,
        burst_ns: u64,
        answer: &mut BudgetWords,
    ) -> u64;
    pub safe fn thread_weight_new(value: u16) -> u16;
    pub safe fn thread_priority_new(value: u8) -> u8;
    pub safe fn policy_constants(answer: &mut [u64; 6]);
    pub safe fn policy_fifo(priority: u8, answer: &mut [u64; 2]);
    pub safe fn policy_fair(answer: &mut [u64; 2]);
    pub safe fn policy_class_and_priority(tag: u64, priority: u64, answer: &mut [u64; 2]) -> u64;
    pub safe fn parameters_read(row: &Row, answer: &mut ParametersWords);
    pub safe fn parameters_fair(
        answer: &mut ParametersWords,
        weight: u16,
        quantum_ns: u64,
        band: u8,
        role: u64,
        backend: u64,
    ) -> u64;
    pub safe fn parameters_budget(
        answer: &mut ParametersWords,
        budget: &BudgetWords,
        band: u8,
        role: u64,
    );
    pub safe fn parameters_fifo(answer: &mut ParametersWords, priority: u8, band: u8, role: u64);
    pub safe fn parameters_idle(answer: &mut ParametersWords);

    pub safe fn budget_new(runtime: &mut BudgetRuntimeWords, budget: &BudgetWords) -> u64;
    pub safe fn budget_refresh(
        runtime: &mut BudgetRuntimeWords,
        now_ns: u64,
        budget: &BudgetWords,
    ) -> u64;
    pub safe fn budget_account_interval(
        runtime: &mut BudgetRuntimeWords,
        start: u64,
        end: u64,
        budget: &BudgetWords,
    ) -> u64;
    pub safe fn budget_finish_turn(runtime: &mut BudgetRuntimeWords, budget: &BudgetWords) -> u64;
    pub safe fn budget_period_deadline(
        now_ns: u64,
        budget: &BudgetWords,
        answer: &mut DeadlineWords,
    ) -> u64;
    pub safe fn budget_deadline(
        runtime: &mut BudgetRuntimeWords,
        now_ns: u64,
        budget: &BudgetWords,
        borrow: bool,
        answer: &mut DeadlineWords,
    ) -> u64;
    pub safe fn budget_reconfigure(
        runtime: &BudgetRuntimeWords,
        old: &BudgetWords,
        new: &BudgetWords,
        answer: &mut [u64; 5],
    ) -> u64;

    pub safe fn runtime_new(
        row: &Row,
        pass_high: u64,
        pass_low: u64,
        remaining_ns: u64,
        answer: &mut RuntimeWords,
    ) -> u64;
    pub safe fn runtime_account(row: &Row, start: u64, end: u64, answer: &mut RuntimeWords) -> u64;
    pub safe fn runtime_epoch_refresh(row: &Row, now_ns: u64, answer: &mut RuntimeWords) -> u64;
    pub safe fn runtime_finish_turn(row: &Row, answer: &mut RuntimeWords) -> u64;
    pub safe fn runtime_same_kind(row: &Row) -> bool;
    pub safe fn runtime_candidate_key(row: &Row, turn: u64, answer: &mut [u64; 3]);
    pub safe fn runtime_next_deadline(
        row: &Row,
        now_ns: u64,
        competition: bool,
        borrow: bool,
        after: &mut RuntimeWords,
        answer: &mut DeadlineWords,
    ) -> u64;

    pub safe fn config_new(window: &mut WindowWords) -> u64;
    pub safe fn config_with_prefer_fair(window: &mut WindowWords, prefer_fair: bool);
    pub safe fn config_accepts(window: &WindowWords, row: &Row) -> bool;
    pub safe fn config_admits(window: &WindowWords, row: &Row, backend: u64) -> bool;
    pub safe fn window_new(window: &mut WindowWords) -> u64;
    pub safe fn window_period_ns(window: &WindowWords) -> u64;
    pub safe fn window_refresh(window: &mut WindowWords, now_ns: u64) -> u64;
    pub safe fn window_account_dispatch(
        window: &mut WindowWords,
        start: u64,
        end: u64,
        row: &Row,
        mode: u64,
    ) -> u64;
    pub safe fn window_period_deadline(
        window: &mut WindowWords,
        now_ns: u64,
        answer: &mut DeadlineWords,
    ) -> u64;
    pub safe fn window_protection_deadline(
        window: &mut WindowWords,
        now_ns: u64,
        protected_waiting: bool,
        answer: &mut DeadlineWords,
    ) -> u64;
    pub safe fn window_next_deadline(
        window: &mut WindowWords,
        now_ns: u64,
        mode: u64,
        competition: bool,
        demand: &DemandWords,
        answer: &mut DeadlineWords,
    ) -> u64;
    pub safe fn window_candidate_key(
        window: &mut WindowWords,
        now_ns: u64,
        candidate: &Row,
        demand: &DemandWords,
        answer: &mut KeyWords,
    ) -> u64;
    pub safe fn dispatch_keys_compare(a: &KeyWords, b: &KeyWords) -> u64;
}
