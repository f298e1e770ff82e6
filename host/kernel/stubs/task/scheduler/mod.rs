//! Module list of the scheduler, its errors, and the calls that the used files make upward.

use super::policy::{self, SchedulingParameters, SchedulingPolicy, SchedulingRole, ThreadPriority};
use super::policy::{BudgetParameters, FairBackend, ThreadWeight};
use super::thread::ThreadId;
use super::thread_object::ThreadRole;
use super::wait::{WaitOutcome, WaitQueue};
use hyper::cpu::CpuIndex;

pub(crate) mod algorithms;
#[cfg(not(feature = "unchanged"))]
pub(crate) mod bridge;
pub(crate) mod queue;
mod registry;
pub(crate) mod state;

#[derive(Clone, Copy, Debug, Eq, PartialEq)]
pub enum Error {
    Allocation,
    CpuNotRegistered,
    InvalidSchedulingParameters,
    InvalidThreadState,
    PreemptionInvariant,
    QueueCorrupted,
    ThreadAlreadyQueued,
    /// A number outside the table.
    ThreadNotFound,
    /// Given by the oracle's table where it is asked to judge a record before it is refreshed.
    RecordDisagrees,
}

pub(crate) fn default_parameters(policy: SchedulingPolicy) -> SchedulingParameters {
    const PERIOD_NS: u64 = 10_000_000;
    match policy {
        SchedulingPolicy::Fifo { priority } => {
            SchedulingParameters::fifo(priority, ThreadPriority::NORMAL, SchedulingRole::Ordinary)
        }
        SchedulingPolicy::Fair => SchedulingParameters::fair(
            ThreadWeight::DEFAULT,
            PERIOD_NS,
            ThreadPriority::NORMAL,
            SchedulingRole::Ordinary,
            FairBackend::Stride,
        )
        .expect("a quantum in range"),
        SchedulingPolicy::Budget => SchedulingParameters::budget(
            BudgetParameters::new(PERIOD_NS, PERIOD_NS, PERIOD_NS).expect("a budget in range"),
            ThreadPriority::NORMAL,
            SchedulingRole::Ordinary,
        ),
        SchedulingPolicy::Idle => SchedulingParameters::idle(),
    }
}

pub(crate) fn account_cpu_time(_cpu: CpuIndex, _role: ThreadRole, _elapsed: u64) {}

pub(crate) struct ParkToken;

pub(crate) fn prepare_park(_queue: &WaitQueue) -> Result<ParkToken, Error> {
    Err(Error::CpuNotRegistered)
}

pub(crate) fn complete_park(_token: ParkToken) -> WaitOutcome {
    WaitOutcome::Cancelled
}

pub(crate) fn wake_one(_queue: &WaitQueue) -> Result<Option<ThreadId>, Error> {
    Err(Error::CpuNotRegistered)
}

pub(crate) fn wake_all(_queue: &WaitQueue) -> Result<usize, Error> {
    Err(Error::CpuNotRegistered)
}

pub(crate) fn cancel_waiter(_queue: &WaitQueue, _thread: ThreadId) -> Result<bool, Error> {
    Err(Error::CpuNotRegistered)
}

pub(crate) fn waiter_count(_queue: &WaitQueue) -> Result<usize, Error> {
    Err(Error::CpuNotRegistered)
}
