//! Stand-in for the thread registry: a table of schedule states whose places are the threads' numbers.

use super::Error;
use crate::task::thread::{QueueLinks, Thread, ThreadId, ThreadScheduleState};
use crate::task::thread_object::ThreadRole;
use hyper::cpu::CpuIndex;

/// The part of a thread that accounting touches; it keeps nothing.
pub(crate) struct AccountedThread;

impl AccountedThread {
    pub(crate) fn account_runtime_ns(&self, _elapsed: u64) {}

    pub(crate) fn role(&self) -> ThreadRole {
        ThreadRole::Kernel
    }
}

/// One processor's access to the records of the table.
pub(in crate::task) struct CpuThreadTableAuthority<'cpu> {
    cpu: CpuIndex,
    records: &'cpu mut Vec<ThreadScheduleState>,
}

impl<'cpu> CpuThreadTableAuthority<'cpu> {
    pub(in crate::task) fn new(cpu: CpuIndex, records: &'cpu mut Vec<ThreadScheduleState>) -> Self {
        Self { cpu, records }
    }

    pub(in crate::task) fn cpu(&self) -> CpuIndex {
        self.cpu
    }

    pub(in crate::task) fn with_thread<R>(
        &self,
        id: ThreadId,
        operation: impl FnOnce(&AccountedThread, &ThreadScheduleState) -> R,
    ) -> Result<R, Error> {
        let record = usize::try_from(id.get())
            .ok()
            .and_then(|place| self.records.get(place))
            .ok_or(Error::ThreadNotFound)?;
        Ok(operation(&AccountedThread, record))
    }

    pub(in crate::task) fn with_thread_mut<R>(
        &mut self,
        id: ThreadId,
        operation: impl FnOnce(&AccountedThread, &mut ThreadScheduleState) -> R,
    ) -> Result<R, Error> {
        let record = usize::try_from(id.get())
            .ok()
            .and_then(|place| self.records.get_mut(place))
            .ok_or(Error::ThreadNotFound)?;
        Ok(operation(&AccountedThread, record))
    }
}

/// Access to whole threads held by the coordinator; the host has none.
pub(in crate::task) struct ThreadTableWriteAuthority<'table> {
    threads: &'table mut [Thread],
}

impl ThreadTableWriteAuthority<'_> {
    pub(in crate::task) fn with_thread<R>(
        &self,
        id: ThreadId,
        operation: impl FnOnce(&Thread) -> R,
    ) -> Result<R, Error> {
        let thread = self.threads.iter().find(|thread| thread.id() == id);
        thread.map(operation).ok_or(Error::ThreadNotFound)
    }

    pub(in crate::task) fn with_thread_mut<R>(
        &mut self,
        id: ThreadId,
        operation: impl FnOnce(&mut Thread) -> R,
    ) -> Result<R, Error> {
        let thread = self.threads.iter_mut().find(|thread| thread.id() == id);
        thread.map(operation).ok_or(Error::ThreadNotFound)
    }

    pub(in crate::task) fn control_links(&self, _id: ThreadId) -> Result<QueueLinks, Error> {
        Err(Error::ThreadNotFound)
    }
}

/// Access to the links of the global queues; the host has none.
pub(in crate::task) struct ThreadControlAuthority<'table> {
    links: &'table mut [QueueLinks],
}

impl ThreadControlAuthority<'_> {
    pub(in crate::task) fn links(&self, id: ThreadId) -> Result<QueueLinks, Error> {
        let links = usize::try_from(id.get())
            .ok()
            .and_then(|place| self.links.get(place));
        links.copied().ok_or(Error::ThreadNotFound)
    }

    pub(in crate::task) fn with_links_mut<R>(
        &mut self,
        id: ThreadId,
        operation: impl FnOnce(&mut QueueLinks) -> R,
    ) -> Result<R, Error> {
        let links = usize::try_from(id.get())
            .ok()
            .and_then(|place| self.links.get_mut(place));
        links.map(operation).ok_or(Error::ThreadNotFound)
    }
}
