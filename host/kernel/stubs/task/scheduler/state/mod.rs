//! Stand-in for one processor's scheduler: the fields that the accounting and decision code names.

use super::Error;
use super::algorithms::arbitration::{Candidate, CpuWindow, DispatchMode};
use super::queue::{CpuRunQueue, LocalReadyQueueAuthority, Selection};
use super::registry::CpuThreadTableAuthority;
use crate::task::thread::{ThreadId, ThreadScheduleState};
use hyper::cpu::{CpuIndex, MAX_CPUS, PerCpu};
use hyper::sync::InterruptSpinLock;

pub(in crate::task) mod runtime;

pub(in crate::task) struct CpuScheduler {
    pub(in crate::task) index: CpuIndex,
    pub(in crate::task) current: ThreadId,
    pub(in crate::task) run_queue: CpuRunQueue,
    pub(in crate::task) window: CpuWindow,
    pub(in crate::task) last_account_ns: Option<u64>,
    pub(in crate::task) fair_floor: u128,
    pub(in crate::task) dispatch_mode: DispatchMode,
    pub(in crate::task) armed_deadline_ns: Option<u64>,
    pub(in crate::task) deadline_generation: u64,
    /// The table lies in the scheduler here, where the kernel finds it through the registry.
    pub(in crate::task) records: Vec<ThreadScheduleState>,
    /// What the oracle's table adds to a selection, and whether it stopped one.
    #[cfg(not(feature = "unchanged"))]
    pub(in crate::task) rules: crate::oracle::Rules,
    #[cfg(not(feature = "unchanged"))]
    pub(in crate::task) move_limit_reached: bool,
    /// A selection that stands in for the queue's own, to try the rules after it by themselves.
    pub(in crate::task) given_selection: Option<Selection>,
}

pub(in crate::task) static CPU_SCHEDULERS: PerCpu<
    InterruptSpinLock<Option<CpuScheduler>, crate::hal::irq::LocalMask>,
> = PerCpu::new([const { InterruptSpinLock::new(None) }; MAX_CPUS]);

impl CpuScheduler {
    fn thread_authority(&mut self) -> CpuThreadTableAuthority<'_> {
        CpuThreadTableAuthority::new(self.index, &mut self.records)
    }

    /// The queue's own selection, on the source's own access to the records.
    fn own_selection(&mut self, current: Option<Candidate>) -> Result<Selection, Error> {
        let now = self.now();
        let cpu = self.index;
        let table = CpuThreadTableAuthority::new(cpu, &mut self.records);
        self.run_queue.peek_next(
            &mut LocalReadyQueueAuthority::new(table),
            cpu,
            now,
            &mut self.window,
            current,
        )
    }

    #[cfg(feature = "unchanged")]
    fn local_selection(&mut self, current: Option<Candidate>) -> Result<Selection, Error> {
        self.own_selection(current)
    }

    #[cfg(not(feature = "unchanged"))]
    fn local_selection(&mut self, current: Option<Candidate>) -> Result<Selection, Error> {
        if let Some(selection) = self.given_selection {
            return Ok(selection);
        }
        if self.rules == crate::oracle::Rules::NONE {
            return self.own_selection(current);
        }
        let now = self.now();
        let cpu = self.index;
        let limit_reached = &mut self.move_limit_reached;
        let mut table = super::bridge::Table::new(&mut self.records, self.rules, limit_reached);
        self.run_queue
            .peek_next(&mut table, cpu, now, &mut self.window, current)
    }
}
