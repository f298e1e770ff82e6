//! Sets and shows the two turn counters, and lends the scheduler's private decisions.

use super::*;
use crate::task::thread::ThreadScheduleState;

pub(in crate::task) fn set_turns(back: u64, front: u64) {
    BACK_TURN.store(back, Ordering::SeqCst);
    FRONT_TURN.store(front, Ordering::SeqCst);
}

/// The back and the front counter.
pub(in crate::task) fn turns() -> (u64, u64) {
    (
        BACK_TURN.load(Ordering::SeqCst),
        FRONT_TURN.load(Ordering::SeqCst),
    )
}

pub(in crate::task) fn prepare(
    schedule: &mut ThreadScheduleState,
    floor: u128,
    front: bool,
    now: u64,
) {
    prepare_enqueue(schedule, floor, front, now);
}

pub(in crate::task) fn account(scheduler: &mut CpuScheduler) -> Result<(), Error> {
    scheduler.account_current()
}

pub(in crate::task) fn candidate(scheduler: &mut CpuScheduler) -> Result<Option<Candidate>, Error> {
    scheduler.current_candidate()
}

pub(in crate::task) fn choose(
    scheduler: &mut CpuScheduler,
    yielding: bool,
) -> Result<Option<(ThreadId, bool)>, Error> {
    scheduler.choose_ready(yielding)
}

pub(in crate::task) fn deadline(scheduler: &mut CpuScheduler) -> Result<(), Error> {
    scheduler.refresh_deadline()
}
