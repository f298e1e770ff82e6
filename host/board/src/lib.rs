//! The scheduling core of a hoist board: the proved C calls of libboard.a and libimages.a as safe functions.
//!
//! A board keeps, for each processor, a [`Queue`], a [`Window`] and a [`Path`]; for all of them a table of [`Record`]s,
//! one a thread, and the [`Turns`]. It lends them to each call. The calls keep nothing, allocate nothing, and each of
//! them ends with an answer or a [`Refusal`], whatever they were lent. One queue and its table serve one call at a
//! time.
//!
//! # The loop
//!
//! Who wakes is prepared and enqueued. Then it is chosen who runs, that one is taken out of the queue, the timer is set
//! to the deadline, and what ran is charged. `examples/cycle.rs` has the whole of it.
//!
//! ```
//! use board::{Budget, Config, Path, Queue, Record, Refusal, Role, Turns};
//!
//! const CPU: u8 = 0;
//! const SWAY: Budget = Budget { budget_ns: 2_000_000, period_ns: 10_000_000, burst_ns: 1_000_000 };
//! const SWAY_A: u64 = 0;
//! const SWAY_B: u64 = 1;
//! const IDLE: u64 = 2;
//!
//! # fn main() -> Result<(), Refusal> {
//! let sway = Record::budget(SWAY, Role::Protected);
//! let mut table = [sway, sway, Record::idle()];
//! let (mut queue, mut path, mut turns) = (Queue::EMPTY, Path::NEW, Turns::START);
//! let mut window = board::window(&Config::new(10_000_000, 2_000_000, 3_000_000))?;
//! let (now, mut current) = (0, IDLE);
//!
//! // Who wakes is prepared and enqueued.
//! for id in [SWAY_B, SWAY_A] {
//!     board::prepare(&mut table, id, false, now, &mut turns)?;
//!     board::enqueue(&mut queue, &mut table, &mut path, id, CPU)?;
//! }
//!
//! // Who runs: a selection beside the current thread, if it is running, and the switch rule.
//! let running = board::candidate(&mut table, current, true, now)?;
//! let selection = board::select(&mut queue, &mut table, &mut path, CPU, now, &mut window, running.as_ref())?;
//! let key = match &running {
//!     Some(running) => board::key(&mut window, now, running, &selection.demand())?,
//!     None => None,
//! };
//! let expired = board::expired(&table, current)?;
//! let choice = board::switch(&selection, key.as_ref(), running.as_ref(), expired, false, false)?;
//! if expired {
//!     board::finish(&mut table, current)?;
//! }
//! if let (true, Some(next)) = (choice.switches(), selection.thread()) {
//!     if running.is_some() && current != IDLE {
//!         // Whoever gives way is enqueued again; where `choice.to_front()` says so, by `enqueue_front`.
//!         board::prepare(&mut table, current, choice.to_front(), now, &mut turns)?;
//!         board::enqueue(&mut queue, &mut table, &mut path, current, CPU)?;
//!     }
//!     board::remove(&mut queue, &mut table, &mut path, next, CPU)?;
//!     current = next;
//! }
//! assert_eq!(current, SWAY_B);
//!
//! // Until when: the same look at the thread that now runs, and the timer is set to the deadline.
//! let running = board::candidate(&mut table, current, true, now)?;
//! let selection = board::select(&mut queue, &mut table, &mut path, CPU, now, &mut window, running.as_ref())?;
//! let key = match &running {
//!     Some(running) => board::key(&mut window, now, running, &selection.demand())?,
//!     None => None,
//! };
//! let lengths = board::lengths(&queue)?;
//! let deadline = board::deadline(&mut table, current, now, key.as_ref(), &mut window, &lengths, &selection)?;
//! assert_eq!(deadline, Some(1_000_000));
//!
//! // It ran until then, and is charged by the mode of its key.
//! let mode = key.map_or(board::Mode::Ordinary, |key| key.mode());
//! board::account(&mut table, current, &mut window, mode, now, 1_000_000)?;
//! assert!(board::expired(&table, current)?);
//! # Ok(())
//! # }
//! ```
//!
//! # The lift record
//!
//! Who ran when: a list of [`Run`]s, recorded as they end. A screen asks for the part of it that lies in the stretch
//! before a reading, and where a list is complete moves that stretch on.
//!
//! ```
//! use board::{Place, Refusal, Run};
//!
//! # fn main() -> Result<(), Refusal> {
//! let (mut list, mut runs) = ([Run::NONE; 6], 0);
//! for run in [(0, 4, 0), (4, 9, 1), (10, 10, 2), (12, 20, 0), (20, 20, 1), (25, 30, 2)] {
//!     board::append(&mut list, runs, Run::new(run.0, run.1, run.2))?;
//!     runs += 1;
//! }
//!
//! // Made by `append`, all runs are known to be in order, so that the search need not look at each of them.
//! let (part, place) = board::lift_from(&list[..runs], runs, 15, 6)?;
//! assert_eq!(place, Place::new(2, 2));
//! assert_eq!(part, &[Run::new(10, 10, 2), Run::new(12, 20, 0)]);
//!
//! // From there to a later reading.
//! let (part, slid) = board::slide(&list[..runs], 6, 15, place, 24)?;
//! assert_eq!((slid.place(), slid.afresh()), (Place::new(3, 2), false));
//! assert_eq!(part, &list[3..5]);
//!
//! // A list that is full, and a run that starts before the last has ended.
//! assert_eq!(board::append(&mut list, runs, Run::new(30, 31, 0)), Err(Refusal::BadTable));
//! assert_eq!(board::append(&mut list, 5, Run::new(19, 31, 0)), Err(Refusal::RecordOrder));
//! # Ok(())
//! # }
//! ```
//!
//! # Linking
//!
//! The package links libboard.a and libimages.a from the folder that the variable `STATICLIB_DIR` names, else from the
//! repository's target/staticlib. Of an installed copy that folder is what `pkg-config --variable=libdir board` prints.
//! For another processor it is target/cross/TRIPLE, which `tools/cross TRIPLE` writes.
//! The package is `no_std` and has no other dependency; counts go to the library as 64 bits on every target.

#![no_std]
#![deny(missing_docs)]

mod calls;
mod choices;
mod lift_record;
mod queue;
mod record;
mod refusal;
mod saving;
mod selection;
mod window;
pub mod words;

pub use calls::{
    account, candidate, deadline, enqueue, enqueue_front, expired, finish, key, lengths, new,
    prepare, remove, select, switch, version, window,
};
pub use choices::{Backend, Mode, Policy, Role};
pub use lift_record::{Place, Run, Slid, append, lift, lift_from, slide};
pub use queue::{Path, Queue};
pub use record::{
    Budget, Candidate, MOST_RECORDS, Membership, Record, Runtime, USUAL_BAND, USUAL_WEIGHT,
};
pub use refusal::Refusal;
pub use saving::{
    QUEUE_BYTES, RECORD_BYTES, WINDOW_BYTES, load_queue, load_record, load_table, load_window,
    store_queue, store_record, store_table, store_window,
};
pub use selection::{Choice, Lengths, Ready, Selection, Turns};
pub use window::{Config, Demand, Key, Ranks, Window};

/// The version of the calls: it rises with every changed signature, length or layout, and is `BOARD_VERSION` of the C
/// header. [`version`] answers that of the linked library.
pub const VERSION: u64 = 1;

// The types are the words that the entries take, and their images have as many bytes.
const _: () = {
    assert!(size_of::<Record>() == RECORD_BYTES && align_of::<Record>() == align_of::<u64>());
    assert!(size_of::<Candidate>() == RECORD_BYTES);
    assert!(size_of::<Window>() == WINDOW_BYTES);
    assert!(size_of::<Queue>() == QUEUE_BYTES);
    assert!(size_of::<Path>() == size_of::<words::Path>());
    assert!(size_of::<Config>() == size_of::<words::ConfigWords>());
    assert!(size_of::<Demand>() == size_of::<words::DemandWords>());
    assert!(size_of::<Key>() == size_of::<words::KeyWords>());
    assert!(size_of::<Selection>() == size_of::<words::SelectionWords>());
    assert!(size_of::<Choice>() == size_of::<words::ChoiceWords>());
    assert!(size_of::<Lengths>() == size_of::<words::LengthWords>());
    assert!(size_of::<Turns>() == size_of::<words::TurnWords>());
    assert!(size_of::<Run>() == size_of::<words::RunWords>());
    assert!(align_of::<Run>() == align_of::<u64>());
};

// Words that follow one another: the last of each shape, a configuration in front of a window, a key's parts and a
// demand within a selection, and a candidate's turn where a record has its own.
const _: () = {
    use words::*;
    assert!(SPARE + 2 == ROW_WORDS);
    assert!(PREFER_FAIR + 1 == CONFIG_WORDS && EPOCH_TAG == CONFIG_WORDS);
    assert!(FLOOR_LEFT + 1 == WINDOW_WORDS);
    assert!(DEMAND_ANY + 1 == DEMAND_WORDS);
    assert!(KEY_TURN + 1 == KEY_WORDS && SELECTED_POLICY == KEY_WORDS);
    assert!(
        SELECTION_PROTECTED + DEMAND_WORDS == MIN_PASS_TAG && MIN_PASS_LOW + 1 == SELECTION_WORDS
    );
    assert!(
        FRONT_TURN + 1 == TURN_WORDS
            && TO_FRONT + 1 == CHOICE_WORDS
            && BUDGET_LENGTH + 1 == LENGTH_WORDS
    );
    assert!(CANDIDATE_TURN == READY_TURN && DEADLINE_AT + 1 == DEADLINE_WORDS);
    assert!(
        RUN_THREAD + 1 == RUN_WORDS
            && PLACE_COUNT + 1 == PLACE_WORDS
            && SLID_AFRESH + 1 == SLID_WORDS
    );
};
