//! Sets and shows the private state of a processor's run queue, and lends its private operations.

use super::*;

/// A run queue's state, part by part.
pub(in crate::task::scheduler) struct Parts {
    pub fifo: [ThreadQueue; PRIORITY_LEVELS],
    pub fifo_len: usize,
    pub fair: ThreadQueue,
    pub roots: [Option<ThreadId>; INDEX_COUNT],
    pub epoch: Option<u64>,
    pub budget_threads: usize,
}

impl CpuRunQueue {
    pub(in crate::task::scheduler) fn of_any(parts: Parts) -> Self {
        Self {
            realtime: FixedPriorityFifo {
                queues: parts.fifo,
                len: parts.fifo_len,
            },
            fair: FairQueue { queue: parts.fair },
            indices: parts.roots.map(Tree::of_any),
            scratch: Box::new(MutationScratch::new(ThreadId::BOOTSTRAP)),
            budget_epoch: parts.epoch,
            budget_threads: parts.budget_threads,
        }
    }

    pub(in crate::task::scheduler) fn parts(&self) -> Parts {
        Parts {
            fifo: self.realtime.queues,
            fifo_len: self.realtime.len,
            fair: self.fair.queue,
            roots: self.indices.map(|tree| tree.root()),
            epoch: self.budget_epoch,
            budget_threads: self.budget_threads,
        }
    }
}

/// `push` of one list.
pub(in crate::task::scheduler) fn list_push(
    threads: &mut impl ThreadQueueAuthority,
    list: &mut ThreadQueue,
    id: ThreadId,
    membership: QueueMembership,
) -> Result<(), Error> {
    push(threads, list, id, membership)
}

/// `push_front` of one list.
pub(in crate::task::scheduler) fn list_push_front(
    threads: &mut impl ThreadQueueAuthority,
    list: &mut ThreadQueue,
    id: ThreadId,
    membership: QueueMembership,
) -> Result<(), Error> {
    push_front(threads, list, id, membership)
}

/// `remove` of one list.
pub(in crate::task::scheduler) fn list_remove(
    threads: &mut impl ThreadQueueAuthority,
    list: &mut ThreadQueue,
    id: ThreadId,
    membership: QueueMembership,
) -> Result<(), Error> {
    remove(threads, list, id, membership)
}

/// `Tree::first` over the table's records.
pub(in crate::task::scheduler) fn index_first(
    threads: &mut impl ReadyQueueAccess,
    tree: &Tree<ThreadId>,
) -> Result<Option<ThreadId>, Error> {
    tree.first(&mut IndexNodes(threads))
}

/// `Tree::contains` over the table's records.
pub(in crate::task::scheduler) fn index_contains(
    threads: &mut impl ReadyQueueAccess,
    tree: &Tree<ThreadId>,
    id: ThreadId,
) -> Result<bool, Error> {
    tree.contains(&mut IndexNodes(threads), id)
}

/// `Tree::insert` over the table's records.
pub(in crate::task::scheduler) fn index_insert(
    threads: &mut impl ReadyQueueAccess,
    tree: &mut Tree<ThreadId>,
    id: ThreadId,
) -> Result<(), Error> {
    let mut scratch = MutationScratch::new(ThreadId::BOOTSTRAP);
    index_insert_by(threads, tree, id, &mut scratch)
}

/// `Tree::insert` over the table's records, by a path that is kept.
pub(in crate::task::scheduler) fn index_insert_by(
    threads: &mut impl ReadyQueueAccess,
    tree: &mut Tree<ThreadId>,
    id: ThreadId,
    scratch: &mut MutationScratch<ThreadId>,
) -> Result<(), Error> {
    tree.insert(&mut IndexNodes(threads), id, scratch)
}

/// `Tree::remove` over the table's records.
pub(in crate::task::scheduler) fn index_remove(
    threads: &mut impl ReadyQueueAccess,
    tree: &mut Tree<ThreadId>,
    id: ThreadId,
) -> Result<(), Error> {
    let mut scratch = MutationScratch::new(ThreadId::BOOTSTRAP);
    index_remove_by(threads, tree, id, &mut scratch)
}

/// `Tree::remove` over the table's records, by a path that is kept.
pub(in crate::task::scheduler) fn index_remove_by(
    threads: &mut impl ReadyQueueAccess,
    tree: &mut Tree<ThreadId>,
    id: ThreadId,
    scratch: &mut MutationScratch<ThreadId>,
) -> Result<(), Error> {
    tree.remove(&mut IndexNodes(threads), id, scratch)
}

/// `ready_index_key`.
pub(in crate::task::scheduler) fn tree_key(
    schedule: &crate::task::thread::ThreadScheduleState,
    id: ThreadId,
) -> (u128, u8, u64, u64) {
    ready_index_key(schedule, id)
}

/// `index_for`: the place of a record's tree among the twelve.
pub(in crate::task::scheduler) fn tree_place(
    schedule: &crate::task::thread::ThreadScheduleState,
) -> Result<usize, Error> {
    index_for(ReadySnapshot::from_schedule(schedule))
}

/// `ReadySnapshot::candidate`: a queued record as selection sees it.
pub(in crate::task::scheduler) fn queued_candidate(
    schedule: &crate::task::thread::ThreadScheduleState,
) -> Candidate {
    ReadySnapshot::from_schedule(schedule).candidate()
}

/// `add_demand`.
pub(in crate::task::scheduler) fn demand_with(mut demand: Demand, candidate: Candidate) -> Demand {
    add_demand(&mut demand, candidate);
    demand
}
