//! The calls on types: each lends the words to the call of its name in [`words`](crate::words) and gives the answer, or
//! the refusal.

use crate::choices::Mode;
use crate::queue::{Path, Queue};
use crate::record::{Candidate, Record, rows, rows_mut};
use crate::refusal::{Refusal, answered};
use crate::selection::{Choice, Lengths, Selection, Turns};
use crate::window::{Config, Demand, Key, Window};
use crate::words::{
    self, CHOICE_WORDS, DEADLINE_AT, DEADLINE_TAG, DEADLINE_WORDS, FLAG_WORDS, KEY_WORDS,
    LENGTH_WORDS, SELECTED_TAG, SELECTION_WORDS,
};

/// The version of the linked library, to be asked once: it is [`VERSION`](crate::VERSION) where package and library go
/// together, and with another one no call is to be made.
pub fn version() -> u64 {
    words::version()
}

/// Makes the queue empty, whatever its words were: also one that halted. The records of threads that were queued in it
/// are to be made anew. No refusals.
pub fn new(queue: &mut Queue) -> Result<(), Refusal> {
    answered(words::new(queue.words_mut()), ())
}

/// Puts a thread, which [`prepare`] made ready, at the end of its list and into its tree.
///
/// Changes the queue, the thread's record and the links of others. Refuses, in this order, as [`BadTable`], [`Halted`],
/// [`NoThread`], [`BadRecord`], [`BadState`] (Idle), [`Already`], [`BadState`] (another processor) or [`Damaged`], with
/// nothing changed; where the queue halts now, as [`Halted`] with the stores up to there and the mark.
///
/// [`BadTable`]: Refusal::BadTable
/// [`Halted`]: Refusal::Halted
/// [`NoThread`]: Refusal::NoThread
/// [`BadRecord`]: Refusal::BadRecord
/// [`BadState`]: Refusal::BadState
/// [`Already`]: Refusal::Already
/// [`Damaged`]: Refusal::Damaged
pub fn enqueue(
    queue: &mut Queue,
    table: &mut [Record],
    path: &mut Path,
    id: u64,
    cpu: u8,
) -> Result<(), Refusal> {
    let (queue, path) = (queue.words_mut(), path.words_mut());
    answered(words::enqueue(queue, rows_mut(table), path, id, cpu), ())
}

/// Puts a thread at the front of its list, else as [`enqueue`]: for a running thread that gives way before its turn is
/// over.
pub fn enqueue_front(
    queue: &mut Queue,
    table: &mut [Record],
    path: &mut Path,
    id: u64,
    cpu: u8,
) -> Result<(), Refusal> {
    let (queue, path) = (queue.words_mut(), path.words_mut());
    answered(
        words::enqueue_front(queue, rows_mut(table), path, id, cpu),
        (),
    )
}

/// Takes a thread out of its list and its tree: the one that is to run, or one that is to wait or end.
///
/// Changes the queue, the thread's record and the links of others. Refuses, in this order, as
/// [`BadTable`](Refusal::BadTable), [`Halted`](Refusal::Halted), [`NoThread`](Refusal::NoThread),
/// [`BadRecord`](Refusal::BadRecord), [`BadState`](Refusal::BadState) (Idle) or [`Damaged`](Refusal::Damaged) (also
/// where it is not queued here), with nothing changed; where the queue halts now, as [`enqueue`].
pub fn remove(
    queue: &mut Queue,
    table: &mut [Record],
    path: &mut Path,
    id: u64,
    cpu: u8,
) -> Result<(), Refusal> {
    let (queue, path) = (queue.words_mut(), path.words_mut());
    answered(words::remove(queue, rows_mut(table), path, id, cpu), ())
}

/// How many threads are queued. Changes nothing. No refusals.
pub fn lengths(queue: &Queue) -> Result<Lengths, Refusal> {
    let mut answer = [0; LENGTH_WORDS];
    let number = words::lengths(queue.words(), &mut answer);
    answered(number, Lengths::from_words(answer))
}

/// A new window. Refuses as [`BadConfig`](Refusal::BadConfig) where the configuration is not as [`Config::new`] says,
/// or its ranks do not rise.
pub fn window(config: &Config) -> Result<Window, Refusal> {
    let mut window = Window::NONE;
    let number = words::window(window.words_mut(), config.words());
    answered(number, window)
}

/// Names, of all queued threads, the one with the least key. `current` is the running thread, by [`candidate`].
///
/// Where the period changed since the last selection, exhausted Budget threads are refreshed and filed as having time
/// left first. Refreshes the heads of the trees and, unless the queue is empty, the window. Refuses as
/// [`BadTable`](Refusal::BadTable), [`BadConfig`](Refusal::BadConfig) or an earlier [`Halted`](Refusal::Halted), in
/// this order, with nothing changed; as [`Damaged`](Refusal::Damaged), [`BadRecord`](Refusal::BadRecord) or a first
/// [`Halted`](Refusal::Halted), where they are met, with the stores so far in queue and table, and the window as it
/// was.
pub fn select(
    queue: &mut Queue,
    table: &mut [Record],
    path: &mut Path,
    cpu: u8,
    now_ns: u64,
    window: &mut Window,
    current: Option<&Candidate>,
) -> Result<Selection, Refusal> {
    let (queue, path, window) = (queue.words_mut(), path.words_mut(), window.words_mut());
    let running = current.is_some().into();
    let candidate = current.unwrap_or(&Candidate::NONE).words();
    let mut answer = [0; SELECTION_WORDS];
    let number = words::select(
        queue,
        rows_mut(table),
        path,
        cpu,
        now_ns,
        window,
        running,
        candidate,
        &mut answer,
    );
    answered(number, Selection::from_words(answer))
}

/// Before an enqueue: refreshes the thread's budget and gives it its turn, at the front or at the back.
///
/// Changes the thread's record and the counters. Refuses, in this order, as [`BadTable`](Refusal::BadTable),
/// [`NoThread`](Refusal::NoThread), [`BadRecord`](Refusal::BadRecord), [`Already`](Refusal::Already) or
/// [`TurnsSpent`](Refusal::TurnsSpent), with nothing changed.
pub fn prepare(
    table: &mut [Record],
    id: u64,
    front: bool,
    now_ns: u64,
    turns: &mut Turns,
) -> Result<(), Refusal> {
    let number = words::prepare(rows_mut(table), id, front.into(), now_ns, turns.words_mut());
    answered(number, ())
}

/// Charges the running thread and the window for the time from `start_ns` to `end_ns`. The mode is that of the thread's
/// key, or the last one where it has no key.
///
/// Changes the thread's record and the window. Refuses, in this order, as [`BadTable`](Refusal::BadTable),
/// [`BadConfig`](Refusal::BadConfig), [`NoThread`](Refusal::NoThread), [`BadRecord`](Refusal::BadRecord) or
/// [`BackInTime`](Refusal::BackInTime), with nothing changed.
pub fn account(
    table: &mut [Record],
    id: u64,
    window: &mut Window,
    mode: Mode,
    start_ns: u64,
    end_ns: u64,
) -> Result<(), Refusal> {
    let number = words::account(
        rows_mut(table),
        id,
        window.words_mut(),
        mode.word(),
        start_ns,
        end_ns,
    );
    answered(number, ())
}

/// The current thread as a candidate, with its budget refreshed; none, and nothing changed, where it is not `running`
/// because its work is done.
///
/// Refuses, in this order, as [`BadTable`](Refusal::BadTable), [`NoThread`](Refusal::NoThread) or
/// [`BadRecord`](Refusal::BadRecord), with nothing changed.
pub fn candidate(
    table: &mut [Record],
    id: u64,
    running: bool,
    now_ns: u64,
) -> Result<Option<Candidate>, Refusal> {
    let mut current = Candidate::NONE;
    let number = words::candidate(
        rows_mut(table),
        id,
        running.into(),
        now_ns,
        current.words_mut(),
    );
    answered(number, running.then_some(current))
}

/// Whether the thread's slice or burst is spent. Changes nothing.
///
/// Refuses, in this order, as [`BadTable`](Refusal::BadTable), [`NoThread`](Refusal::NoThread) or
/// [`BadRecord`](Refusal::BadRecord).
pub fn expired(table: &[Record], id: u64) -> Result<bool, Refusal> {
    let mut answer = [0; FLAG_WORDS];
    let number = words::expired(rows(table), id, &mut answer);
    let [flag] = answer;
    answered(number, flag != 0)
}

/// Ends a turn, of a thread that expired or gave way by itself: a budget's burst is whole again. Changes the record.
///
/// Refuses, in this order, as [`BadTable`](Refusal::BadTable), [`NoThread`](Refusal::NoThread) or
/// [`BadRecord`](Refusal::BadRecord), with nothing changed.
pub fn finish(table: &mut [Record], id: u64) -> Result<(), Refusal> {
    answered(words::finish(rows_mut(table), id), ())
}

/// The running thread's key under the demand of a selection. None of an Idle thread, of a budget whose period is not
/// the window's, and of an exhausted one while others want the time.
///
/// Refreshes the window. Refuses as [`BadConfig`](Refusal::BadConfig), with nothing changed.
pub fn key(
    window: &mut Window,
    now_ns: u64,
    current: &Candidate,
    demand: &Demand,
) -> Result<Option<Key>, Refusal> {
    let mut answer = [0; KEY_WORDS];
    let number = words::key(
        window.words_mut(),
        now_ns,
        current.words(),
        demand.words(),
        &mut answer,
    );
    answered(number, Key::from_words(answer))
}

/// Whether the running thread gives way to the one that the selection names. `key` and `current` are those of the
/// running thread, where there is one; `expired`: its turn is over, by [`expired`]; `yielding`: it gives way by itself;
/// `tail`: it was placed at the end of its list. Changes nothing. No refusals.
pub fn switch(
    selection: &Selection,
    key: Option<&Key>,
    current: Option<&Candidate>,
    expired: bool,
    yielding: bool,
    tail: bool,
) -> Result<Choice, Refusal> {
    let ready = words::ready_in(selection.words());
    let key = key.map_or(&Key::NONE, Key::words);
    let current = current.unwrap_or(&Candidate::NONE).words();
    let [expired, yielding, tail] = [expired, yielding, tail].map(u64::from);
    let mut answer = [0; CHOICE_WORDS];
    let number = words::switch(ready, key, current, expired, yielding, tail, &mut answer);
    answered(number, Choice::from_words(answer))
}

/// When to look again, for the running thread: the end of its slice, of its budget or burst, of the allowance or the
/// floor, the period's end or the time when protection is due, whichever comes first; none where nothing asks for it.
/// `key` is the running thread's; lengths and selection are those of the queue without it.
///
/// Refreshes the window and the thread's budget. Refuses, in this order, as [`BadTable`](Refusal::BadTable),
/// [`BadConfig`](Refusal::BadConfig), [`NoThread`](Refusal::NoThread) or [`BadRecord`](Refusal::BadRecord), with
/// nothing changed.
pub fn deadline(
    table: &mut [Record],
    id: u64,
    now_ns: u64,
    key: Option<&Key>,
    window: &mut Window,
    lengths: &Lengths,
    selection: &Selection,
) -> Result<Option<u64>, Refusal> {
    let (rows, window, selected) = (rows_mut(table), window.words_mut(), selection.words());
    let key = key.map_or(&Key::NONE, Key::words);
    let (competition, peer) = ((!lengths.is_empty()).into(), lengths.budget());
    let (ready, demand) = (selected[SELECTED_TAG], words::demand_in(selected));
    let mut due = [0; DEADLINE_WORDS];
    let number = words::deadline(
        rows,
        id,
        now_ns,
        key,
        window,
        competition,
        peer,
        ready,
        demand,
        &mut due,
    );
    answered(
        number,
        crate::record::present(due[DEADLINE_TAG], due[DEADLINE_AT]),
    )
}
