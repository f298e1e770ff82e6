//! The C calls on words: each takes plain numbers, arrays and slices, and each but [`version`] answers the number of
//! documents 01 and 02, 0 where it was made.
//!
//! For whoever has words of any kind, such as the programs that compare the entries with the Rust. Any words are taken:
//! a flag is set where its word is not 0, a byte is its word's remainder by 256, a number beyond the last of a choice
//! stands for the last. What the words stand for: a row crates/codec/specs/Codec.antt; a window, candidate, demand and
//! key crates/window_words/specs/WindowWords.antt; a selection, counters and a choice
//! crates/board_words/specs/BoardWords.antt; a queue crates/lent_queue/specs/LentQueue.antt; a lift record
//! crates/lift_record/specs/Record.antt. The calls of the crate's
//! root are these calls on types of their own, and say what each does.

mod declared;
mod places;

pub use images::{
    QUEUE_ROW_WORDS, QUEUE_ROWS, QueueWords, ROW_WORDS, Row, WINDOW_WORDS, WindowWords,
};
pub use places::*;

use declared::*;

/// How many steps a path has room for.
pub const PATH_STEPS: usize = 40;
/// How many words a step of a path has.
pub const PATH_STEP_WORDS: usize = 2;
/// The steps of one descent in a tree, lent for the time of a call.
pub type Path = [[u64; PATH_STEP_WORDS]; PATH_STEPS];

/// How many words a configuration has.
pub const CONFIG_WORDS: usize = 8;
/// Period, allowance, floor, four ranks, and whether fair threads are preferred: the first words of a window.
pub type ConfigWords = [u64; CONFIG_WORDS];

/// How many words a demand has.
pub const DEMAND_WORDS: usize = 5;
/// What threads ask for, in five flags.
pub type DemandWords = [u64; DEMAND_WORDS];

/// How many words a key has.
pub const KEY_WORDS: usize = 9;
/// Whether there is a key, its mode, and the key in seven.
pub type KeyWords = [u64; KEY_WORDS];

/// How many words a selection has.
pub const SELECTION_WORDS: usize = 19;
/// Whether a thread is named, its number, its key in seven, its policy in two; the demand's five; whether there is a
/// lowest fair pass, its two halves.
pub type SelectionWords = [u64; SELECTION_WORDS];

/// How many turn counters there are.
pub const TURN_WORDS: usize = 2;
/// The counters at the back and at the front.
pub type TurnWords = [u64; TURN_WORDS];

/// How many lengths there are.
pub const LENGTH_WORDS: usize = 3;
/// How many FIFO threads, Fair and Budget ones together, and Budget ones are queued.
pub type LengthWords = [u64; LENGTH_WORDS];

/// How many words a choice has.
pub const CHOICE_WORDS: usize = 2;
/// Whether to switch, and whether the running thread then goes to the front.
pub type ChoiceWords = [u64; CHOICE_WORDS];

/// How many words a deadline has.
pub const DEADLINE_WORDS: usize = 2;
/// Whether there is a deadline, and when.
pub type DeadlineWords = [u64; DEADLINE_WORDS];

/// How many words one flag has.
pub const FLAG_WORDS: usize = 1;
/// One flag.
pub type FlagWord = [u64; FLAG_WORDS];

/// How many words a run of a lift record has.
pub const RUN_WORDS: usize = 3;
/// The run's start, its end and its thread's number.
pub type RunWords = [u64; RUN_WORDS];

/// How many words a place in a lift record has.
pub const PLACE_WORDS: usize = 2;
/// The first run of a part, and how many runs it has.
pub type PlaceWords = [u64; PLACE_WORDS];

/// How many words a slide answers.
pub const SLID_WORDS: usize = 3;
/// The place, and whether the slide searched afresh.
pub type SlidWords = [u64; SLID_WORDS];

/// A selection's thread as the ready thread of `switch`.
#[inline]
pub fn ready_in(selection: &SelectionWords) -> &KeyWords {
    selection.first_chunk().expect("19 words begin with 9")
}

/// A selection's demand.
#[inline]
pub fn demand_in(selection: &SelectionWords) -> &DemandWords {
    selection[SELECTION_PROTECTED..]
        .first_chunk()
        .expect("5 words after 11 of 19")
}

/// The version of the linked library.
#[inline]
pub fn version() -> u64 {
    // SAFETY: nothing is lent.
    unsafe { board_version() }
}

/// `CpuRunQueue::new`
#[inline]
pub fn new(q: &mut QueueWords) -> u64 {
    // SAFETY: the address is that of the words.
    unsafe { board_new(q) }
}

/// `CpuRunQueue::enqueue`
#[inline]
pub fn enqueue(q: &mut QueueWords, t: &mut [Row], path: &mut Path, id: u64, cpu: u8) -> u64 {
    // SAFETY: addresses and count are those of what is lent.
    unsafe { board_enqueue(q, t.as_mut_ptr(), t.len() as u64, path, id, cpu) }
}

/// `CpuRunQueue::enqueue_front`
#[inline]
pub fn enqueue_front(q: &mut QueueWords, t: &mut [Row], path: &mut Path, id: u64, cpu: u8) -> u64 {
    // SAFETY: addresses and count are those of what is lent.
    unsafe { board_enqueue_front(q, t.as_mut_ptr(), t.len() as u64, path, id, cpu) }
}

/// `CpuRunQueue::remove`
#[inline]
pub fn remove(q: &mut QueueWords, t: &mut [Row], path: &mut Path, id: u64, cpu: u8) -> u64 {
    // SAFETY: addresses and count are those of what is lent.
    unsafe { board_remove(q, t.as_mut_ptr(), t.len() as u64, path, id, cpu) }
}

/// `CpuRunQueue::real_time_len`, `fair_len` and `budget_len`.
#[inline]
pub fn lengths(q: &QueueWords, answer: &mut LengthWords) -> u64 {
    // SAFETY: addresses are those of what is lent.
    unsafe { board_lengths(q, answer) }
}

/// `ArbitrationConfig::new`, then `CpuWindow::new`.
#[inline]
pub fn window(window: &mut WindowWords, config: &ConfigWords) -> u64 {
    // SAFETY: addresses are those of what is lent.
    unsafe { board_window(window, config) }
}

/// `CpuRunQueue::peek_next`, with a candidate where `running` is not 0.
#[allow(clippy::too_many_arguments)]
#[inline]
pub fn select(
    q: &mut QueueWords,
    t: &mut [Row],
    path: &mut Path,
    cpu: u8,
    now_ns: u64,
    window: &mut WindowWords,
    running: u64,
    current: &Row,
    answer: &mut SelectionWords,
) -> u64 {
    let (rows, count) = (t.as_mut_ptr(), t.len() as u64);
    // SAFETY: addresses and count are those of what is lent.
    unsafe {
        board_select(
            q, rows, count, path, cpu, now_ns, window, running, current, answer,
        )
    }
}

/// `prepare_enqueue`
#[inline]
pub fn prepare(t: &mut [Row], id: u64, front: u64, now_ns: u64, turns: &mut TurnWords) -> u64 {
    // SAFETY: addresses and count are those of what is lent.
    unsafe { board_prepare(t.as_mut_ptr(), t.len() as u64, id, front, now_ns, turns) }
}

/// `account_current`
#[inline]
pub fn account(
    t: &mut [Row],
    id: u64,
    window: &mut WindowWords,
    mode: u64,
    start: u64,
    end: u64,
) -> u64 {
    // SAFETY: addresses and count are those of what is lent.
    unsafe { board_account(t.as_mut_ptr(), t.len() as u64, id, window, mode, start, end) }
}

/// `current_candidate`: the candidate's row stays where the thread is not running.
#[inline]
pub fn candidate(t: &mut [Row], id: u64, running: u64, now_ns: u64, current: &mut Row) -> u64 {
    // SAFETY: addresses and count are those of what is lent.
    unsafe { board_candidate(t.as_mut_ptr(), t.len() as u64, id, running, now_ns, current) }
}

/// `expired`
#[inline]
pub fn expired(t: &[Row], id: u64, answer: &mut FlagWord) -> u64 {
    // SAFETY: addresses and count are those of what is lent.
    unsafe { board_expired(t.as_ptr(), t.len() as u64, id, answer) }
}

/// `finish_turn`
#[inline]
pub fn finish(t: &mut [Row], id: u64) -> u64 {
    // SAFETY: address and count are those of what is lent.
    unsafe { board_finish(t.as_mut_ptr(), t.len() as u64, id) }
}

/// `candidate_key`: the key of a candidate under a demand, by a window.
#[inline]
pub fn key(
    window: &mut WindowWords,
    now_ns: u64,
    current: &Row,
    demand: &DemandWords,
    key: &mut KeyWords,
) -> u64 {
    // SAFETY: addresses are those of what is lent.
    unsafe { board_key(window, now_ns, current, demand, key) }
}

/// The switch rule of `choose_ready` on two keys and the current thread's row.
#[inline]
pub fn switch(
    ready: &KeyWords,
    key: &KeyWords,
    current: &Row,
    expired: u64,
    yielding: u64,
    tail: u64,
    answer: &mut ChoiceWords,
) -> u64 {
    // SAFETY: addresses are those of what is lent.
    unsafe { board_switch(ready, key, current, expired, yielding, tail, answer) }
}

/// `refresh_deadline` with the current thread's key.
#[allow(clippy::too_many_arguments)]
#[inline]
pub fn deadline(
    t: &mut [Row],
    id: u64,
    now_ns: u64,
    key: &KeyWords,
    window: &mut WindowWords,
    competition: u64,
    budget_peer: u64,
    ready: u64,
    demand: &DemandWords,
    answer: &mut DeadlineWords,
) -> u64 {
    let (rows, count) = (t.as_mut_ptr(), t.len() as u64);
    // SAFETY: addresses and count are those of what is lent.
    unsafe {
        board_deadline(
            rows,
            count,
            id,
            now_ns,
            key,
            window,
            competition,
            budget_peer,
            ready,
            demand,
            answer,
        )
    }
}

/// Document 02's search in a lift record, whose words may be no whole number of runs.
#[inline]
pub fn lift(list: &[u64], now_ns: u64, width_ns: u64, place: &mut PlaceWords) -> u64 {
    // SAFETY: addresses and count are those of what is lent.
    unsafe { board_lift(list.as_ptr(), list.len() as u64, now_ns, width_ns, place) }
}

/// The same, where order is judged from run number `ordered` on.
#[inline]
pub fn lift_from(
    list: &[u64],
    ordered: u64,
    now_ns: u64,
    width_ns: u64,
    place: &mut PlaceWords,
) -> u64 {
    let (words, count) = (list.as_ptr(), list.len() as u64);
    // SAFETY: addresses and count are those of what is lent.
    unsafe { board_lift_from(words, count, ordered, now_ns, width_ns, place) }
}

/// Document 02's slide, from the place of an earlier reading.
#[inline]
pub fn slide(
    list: &[u64],
    width_ns: u64,
    earlier_ns: u64,
    place: PlaceWords,
    now_ns: u64,
    slid: &mut SlidWords,
) -> u64 {
    let (words, count) = (list.as_ptr(), list.len() as u64);
    let [first, runs] = place;
    // SAFETY: addresses and count are those of what is lent.
    unsafe {
        board_slide(
            words, count, width_ns, earlier_ns, first, runs, now_ns, slid,
        )
    }
}

/// A run behind the first `runs` of a lift record; the words are those of all its room.
#[inline]
pub fn append(list: &mut [u64], runs: u64, run: &RunWords) -> u64 {
    let (words, count) = (list.as_mut_ptr(), list.len() as u64);
    let [start, end, thread] = *run;
    // SAFETY: address and count are those of what is lent.
    unsafe { board_append(words, count, runs, start, end, thread) }
}
