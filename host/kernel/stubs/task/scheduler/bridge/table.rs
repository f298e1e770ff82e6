//! The oracle's thread table: the source's own answers, with list links and membership stored as they come.

use super::super::Error;
use super::super::queue::{
    LocalReadyQueueAuthority, ReadyQueueAccess, ReadySnapshot, ThreadQueueAuthority,
    ThreadReadAuthority,
};
use super::super::registry::CpuThreadTableAuthority;
use super::queues::record_agrees;
use super::record_from_source;
use crate::oracle::Rules;
use crate::task::thread::{
    QueueLinks, QueueMembership, ReadyTreeLinks, ThreadId, ThreadScheduleState,
};
use hyper::cpu::CpuIndex;

/// Where a selection stands between two moves of exhausted threads.
///
/// A move removes from one tree, refreshes and inserts into another. Keys are read first by the
/// removal, then by the insertion before its first store, and by nothing else in a selection.
#[derive(Clone, Copy, Eq, PartialEq)]
enum Move {
    None,
    Removing,
    Inserting,
}

pub(in crate::task) struct Table<'a> {
    records: &'a mut Vec<ThreadScheduleState>,
    rules: Rules,
    moves: u64,
    stage: Move,
    limit_reached: &'a mut bool,
}

impl<'a> Table<'a> {
    /// `limit_reached` outlives a panic, and tells the table's stop from the source's.
    pub(in crate::task) fn new(
        records: &'a mut Vec<ThreadScheduleState>,
        rules: Rules,
        limit_reached: &'a mut bool,
    ) -> Self {
        Self {
            records,
            rules,
            moves: 0,
            stage: Move::None,
            limit_reached,
        }
    }

    /// The source's own access; the processor is not looked at by what is delegated to it.
    fn local(&mut self) -> LocalReadyQueueAuthority<'_> {
        LocalReadyQueueAuthority::new(CpuThreadTableAuthority::new(
            CpuIndex::from(0),
            self.records,
        ))
    }

    fn at(&self, id: ThreadId) -> Result<&ThreadScheduleState, Error> {
        let place = usize::try_from(id.get()).map_err(|_| Error::ThreadNotFound)?;
        self.records.get(place).ok_or(Error::ThreadNotFound)
    }

    fn store(&mut self, id: ThreadId, links: QueueLinks) -> bool {
        let place = usize::try_from(id.get()).ok();
        match place.and_then(|place| self.records.get_mut(place)) {
            Some(record) => {
                record.ready_queue_links = links;
                true
            }
            None => false,
        }
    }
}

impl ThreadReadAuthority for Table<'_> {
    fn queue_links(&self, id: ThreadId) -> Result<QueueLinks, Error> {
        self.at(id).map(|record| record.ready_queue_links)
    }
}

impl ThreadQueueAuthority for Table<'_> {
    fn insertion_state(
        &self,
        id: ThreadId,
        _membership: QueueMembership,
    ) -> Result<(QueueLinks, Option<CpuIndex>), Error> {
        let record = self.at(id)?;
        Ok((
            record.ready_queue_links,
            Some(record.placement.assigned_cpu()),
        ))
    }

    fn residence_matches(&self, id: ThreadId, _cpu: Option<CpuIndex>) -> Result<bool, Error> {
        self.at(id).map(|_| true)
    }

    fn set_queue_links(&mut self, id: ThreadId, links: QueueLinks) -> bool {
        self.store(id, links)
    }

    fn commit_insert(&mut self, id: ThreadId, links: QueueLinks) -> bool {
        self.store(id, links)
    }

    fn commit_remove(&mut self, id: ThreadId, _membership: QueueMembership) -> bool {
        self.store(id, QueueLinks::EMPTY)
    }
}

impl ReadyQueueAccess for Table<'_> {
    fn snapshot(&mut self, id: ThreadId) -> Result<ReadySnapshot, Error> {
        self.local().snapshot(id)
    }

    fn tree_key(&mut self, id: ThreadId) -> Result<(u128, u8, u64, u64), Error> {
        if self.stage == Move::None {
            if self.moves == self.rules.move_limit {
                *self.limit_reached = true;
                hyper::debug::invariant_failure("more moves than the table's limit");
            }
            self.moves += 1;
            self.stage = Move::Removing;
        }
        self.local().tree_key(id)
    }

    fn tree_links(&mut self, id: ThreadId) -> Result<ReadyTreeLinks, Error> {
        self.local().tree_links(id)
    }

    fn set_tree_links(&mut self, id: ThreadId, links: ReadyTreeLinks) -> Result<(), Error> {
        if self.stage == Move::Inserting {
            self.stage = Move::None;
        }
        self.local().set_tree_links(id, links)
    }

    fn refresh_runtime(&mut self, id: ThreadId, now: u64) -> Result<(), Error> {
        if self.stage == Move::Removing {
            self.stage = Move::Inserting;
        }
        if self.rules.judge_records && !record_agrees(&record_from_source(self.at(id)?)) {
            return Err(Error::RecordDisagrees);
        }
        self.local().refresh_runtime(id, now)
    }
}
