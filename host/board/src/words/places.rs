//! Where each word stands. The numbers are those of the definitions in crates policy_words, codec, window_words and
//! board_words, and of the code in crate lift_record, to which tests/places.rs holds them.

/// The most rows that a table may have.
pub const MAX_RECORDS: usize = 4096;

/// Of a row: the policy's number.
pub const POLICY_TAG: usize = 0;
/// Of a row: the priority of a FIFO thread.
pub const FIFO_PRIORITY: usize = 1;
/// Of a row: the band.
pub const BAND: usize = 2;
/// Of a row: the role's number.
pub const ROLE_TAG: usize = 3;
/// Of a row: the weight.
pub const WEIGHT: usize = 4;
/// Of a row: the length of a Fair thread's slice.
pub const QUANTUM: usize = 5;
/// Of a row: the number of a Fair thread's backend.
pub const BACKEND_TAG: usize = 6;
/// Of a row: whether it has a budget.
pub const BUDGET_TAG: usize = 7;
/// Of a row: the budget.
pub const BUDGET_NS: usize = 8;
/// Of a row: the budget's period.
pub const BUDGET_PERIOD: usize = 9;
/// Of a row: the budget's burst.
pub const BUDGET_BURST: usize = 10;
/// Of a row: the kind of its runtime, by the policy's number.
pub const RUNTIME_TAG: usize = 11;
/// Of a row: the high half of a Fair thread's pass; whether a budget has an epoch.
pub const RUNTIME_FIRST: usize = 12;
/// Of a row: the low half of a Fair thread's pass; a budget's epoch.
pub const RUNTIME_SECOND: usize = 13;
/// Of a row: what is left of a Fair thread's slice, or of a budget.
pub const RUNTIME_THIRD: usize = 14;
/// Of a row: what is left of a budget's burst.
pub const RUNTIME_FOURTH: usize = 15;
/// Of a row: the turn.
pub const READY_TURN: usize = 16;
/// Of a row: its height in a tree, 1 in a new row.
pub const HEIGHT: usize = 21;
/// Of a row: the kind of the list that it is in.
pub const MEMBERSHIP_TAG: usize = 26;
/// Of a row: the processor of a ready list, or the number of a wait list.
pub const MEMBERSHIP_FIRST: usize = 27;
/// Of a row: the priority of a FIFO list.
pub const MEMBERSHIP_SECOND: usize = 28;
/// Of a row: the assigned processor.
pub const CPU: usize = 29;
/// Of a row: the first of the words behind the processor's, which no call uses.
pub const SPARE: usize = CPU + 1;

/// Of a candidate: the high half of the pass.
pub const CANDIDATE_PASS_HIGH: usize = 12;
/// Of a candidate: the low half of the pass.
pub const CANDIDATE_PASS_LOW: usize = 13;
/// Of a candidate: whether it has time left.
pub const CANDIDATE_AVAILABLE: usize = 14;
/// Of a candidate: the turn.
pub const CANDIDATE_TURN: usize = 16;

/// Of a window: the period.
pub const WINDOW_PERIOD: usize = 0;
/// Of a window: the priority allowance.
pub const WINDOW_ALLOWANCE: usize = 1;
/// Of a window: the protected floor.
pub const WINDOW_FLOOR: usize = 2;
/// Of a window: the rank of the role Priority.
pub const PRIORITY_RANK: usize = 3;
/// Of a window: the rank of Budget threads.
pub const BUDGET_RANK: usize = 4;
/// Of a window: the rank of Fair threads.
pub const FAIR_RANK: usize = 5;
/// Of a window: the rank of threads that borrow.
pub const BORROW_RANK: usize = 6;
/// Of a window: whether fair threads are preferred.
pub const PREFER_FAIR: usize = 7;
/// Of a window: whether it has an epoch.
pub const EPOCH_TAG: usize = 8;
/// Of a window: the epoch.
pub const EPOCH: usize = 9;
/// Of a window: what is left of the allowance.
pub const ALLOWANCE_LEFT: usize = 10;
/// Of a window: what is left of the floor.
pub const FLOOR_LEFT: usize = 11;

/// Of a demand: a protected thread waits.
pub const DEMAND_PROTECTED: usize = 0;
/// Of a demand: a FIFO or Fair thread waits.
pub const DEMAND_FAIR: usize = 1;
/// Of a demand: a thread waits whose key depends on the window.
pub const DEMAND_SENSITIVE: usize = 2;
/// Of a demand: a Budget thread with time left waits.
pub const DEMAND_ELIGIBLE: usize = 3;
/// Of a demand: a Budget thread waits.
pub const DEMAND_ANY: usize = 4;

/// Of a key: whether there is one.
pub const KEY_TAG: usize = 0;
/// Of a key: the mode's number.
pub const KEY_MODE: usize = 1;
/// Of a key: the urgency.
pub const KEY_URGENCY: usize = 2;
/// Of a key: the rank.
pub const KEY_RANK: usize = 3;
/// Of a key: the algorithm's rank.
pub const KEY_ALGORITHM_RANK: usize = 4;
/// Of a key: the high half of the algorithm's part.
pub const KEY_HIGH: usize = 5;
/// Of a key: the low half of the algorithm's part.
pub const KEY_LOW: usize = 6;
/// Of a key: the band.
pub const KEY_BAND: usize = 7;
/// Of a key: the turn.
pub const KEY_TURN: usize = 8;

/// Of a selection: whether a thread is named.
pub const SELECTED_TAG: usize = 0;
/// Of a selection: the thread's number. Its key's words stand where a key's do, from the urgency on.
pub const SELECTED_ID: usize = 1;
/// Of a selection: the number of the thread's policy.
pub const SELECTED_POLICY: usize = 9;
/// Of a selection: the priority of a FIFO thread.
pub const SELECTED_PRIORITY: usize = 10;
/// Of a selection: the first word of the demand.
pub const SELECTION_PROTECTED: usize = 11;
/// Of a selection: whether there is a lowest fair pass.
pub const MIN_PASS_TAG: usize = 16;
/// Of a selection: the high half of the lowest fair pass.
pub const MIN_PASS_HIGH: usize = 17;
/// Of a selection: the low half of the lowest fair pass.
pub const MIN_PASS_LOW: usize = 18;

/// Of the turn counters: the one at the back.
pub const BACK_TURN: usize = 0;
/// Of the turn counters: the one at the front.
pub const FRONT_TURN: usize = 1;

/// Of the lengths: how many FIFO threads are queued.
pub const REAL_TIME_LENGTH: usize = 0;
/// Of the lengths: how many Fair and Budget threads are queued.
pub const FAIR_LENGTH: usize = 1;
/// Of the lengths: how many Budget threads are queued.
pub const BUDGET_LENGTH: usize = 2;

/// Of a choice: whether to switch.
pub const SHOULD_SWITCH: usize = 0;
/// Of a choice: whether the running thread then goes to the front.
pub const TO_FRONT: usize = 1;

/// Of a deadline: whether there is one.
pub const DEADLINE_TAG: usize = 0;
/// Of a deadline: when it is.
pub const DEADLINE_AT: usize = 1;

/// Of a run: its start.
pub const RUN_START: usize = 0;
/// Of a run: its end.
pub const RUN_END: usize = 1;
/// Of a run: its thread's number.
pub const RUN_THREAD: usize = 2;

/// Of a place, and of what a slide answers: the number of the first run.
pub const PLACE_FIRST: usize = 0;
/// Of a place, and of what a slide answers: how many runs.
pub const PLACE_COUNT: usize = 1;
/// Of what a slide answers: whether it searched afresh.
pub const SLID_AFRESH: usize = 2;
