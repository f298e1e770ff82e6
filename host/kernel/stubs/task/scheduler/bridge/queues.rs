//! Run queues, their lists and their trees over plain records, run by the source.

use super::super::Error;
use super::super::algorithms::arbitration::CpuWindow;
use super::super::algorithms::ready_index::{MutationScratch, Tree};
use super::super::queue::access;
use super::super::queue::{CpuRunQueue, LocalReadyQueueAuthority, Selection as SourceSelection};
use super::super::registry::CpuThreadTableAuthority;
use super::*;
use crate::oracle::{
    Candidate, Demand, Policy, Ready, Runtime, Selection, TreeKey, Window, budget_new,
};

/// Policy, budget and runtime agree and the budget is sound; weight and quantum are not looked at.
pub fn record_agrees(record: &Record) -> bool {
    let sound = |budget: crate::oracle::Budget| {
        budget_new(budget.budget, budget.period, budget.burst).is_some()
    };
    match (record.params.policy, record.params.budget, record.runtime) {
        (Policy::Fifo(_), None, Runtime::Fifo)
        | (Policy::Fair, None, Runtime::Fair { .. })
        | (Policy::Idle, None, Runtime::Idle) => true,
        (Policy::Budget, Some(budget), Runtime::Budget(_)) => sound(budget),
        _ => false,
    }
}

/// `ready_index_key` of a record that stands at `place`.
pub fn record_tree_key(record: &Record, place: u64) -> TreeKey {
    access::tree_key(&record_to_source(record), thread(place))
}

/// `index_for`: which of the twelve trees an enqueue files the record in.
pub fn record_tree_place(record: &Record) -> Answer<usize> {
    access::tree_place(&record_to_source(record)).map_err(refusal)
}

/// A queued record as selection sees it (not refreshed).
pub fn record_candidate(record: &Record) -> Candidate {
    Mirror::from_source(access::queued_candidate(&record_to_source(record)))
}

/// `add_demand`.
pub fn demand_with(demand: Demand, candidate: Candidate) -> Demand {
    Mirror::from_source(access::demand_with(
        demand.to_source(),
        candidate.to_source(),
    ))
}

fn with_queue<T>(
    queue: &mut Queue,
    records: &mut [Record],
    rules: Rules,
    call: impl FnOnce(&mut CpuRunQueue, &mut Table<'_>) -> Result<T, Error>,
) -> Answer<T> {
    let mut source = queue_to_source(queue);
    let result = with_table(records, rules, |table| call(&mut source, table));
    *queue = queue_from_source(&source);
    result
}

/// No rule of the table bears on anything but a selection.
const QUEUE_CALL: Rules = Rules {
    judge_records: false,
    move_limit: u64::MAX,
};

/// `CpuRunQueue::enqueue`.
pub fn enqueue(queue: &mut Queue, records: &mut [Record], place: u64, cpu: u8) -> Answer<()> {
    with_queue(queue, records, QUEUE_CALL, |queue, table| {
        queue.enqueue(table, thread(place), CpuIndex::from(cpu))
    })
}

/// `CpuRunQueue::enqueue_front`.
pub fn enqueue_front(queue: &mut Queue, records: &mut [Record], place: u64, cpu: u8) -> Answer<()> {
    with_queue(queue, records, QUEUE_CALL, |queue, table| {
        queue.enqueue_front(table, thread(place), CpuIndex::from(cpu))
    })
}

/// `CpuRunQueue::remove`, handed the record's own membership.
pub fn remove(queue: &mut Queue, records: &mut [Record], place: u64, cpu: u8) -> Answer<()> {
    let membership = usize::try_from(place)
        .ok()
        .and_then(|place| records.get(place))
        .map_or(Membership::None, |record| record.membership);
    remove_as(queue, records, place, cpu, membership)
}

/// `CpuRunQueue::remove`, handed any membership.
pub fn remove_as(
    queue: &mut Queue,
    records: &mut [Record],
    place: u64,
    cpu: u8,
    membership: Membership,
) -> Answer<()> {
    with_queue(queue, records, QUEUE_CALL, |queue, table| {
        queue.remove(
            table,
            thread(place),
            CpuIndex::from(cpu),
            membership_to_source(membership),
        )
    })
}

pub(super) fn selection_from_source(selection: SourceSelection) -> Selection {
    Selection {
        ready: selection.ready.map(|ready| Ready {
            number: number(ready.id),
            policy: Mirror::from_source(ready.policy),
            key: Mirror::from_source(ready.key),
        }),
        demand: Mirror::from_source(selection.demand),
        fair_min_pass: selection.fair_min_pass,
    }
}

/// `CpuRunQueue::peek_next` under the given rules; the window keeps its stores too.
pub fn peek_next_by(
    rules: Rules,
    queue: &mut Queue,
    records: &mut [Record],
    cpu: u8,
    now: u64,
    window: &mut Window,
    current: Option<Candidate>,
) -> Answer<Selection> {
    let mut state = window.to_source();
    let result = with_queue(queue, records, rules, |queue, table| {
        queue.peek_next(
            table,
            CpuIndex::from(cpu),
            now,
            &mut state,
            current.map(Mirror::to_source),
        )
    });
    *window = Mirror::from_source(state);
    result.map(selection_from_source)
}

/// `CpuRunQueue::peek_next` under the port's rules: records judged, moves limited to the record count.
pub fn peek_next(
    queue: &mut Queue,
    records: &mut [Record],
    cpu: u8,
    now: u64,
    window: &mut Window,
    current: Option<Candidate>,
) -> Answer<Selection> {
    let rules = Rules::port(records.len());
    peek_next_by(rules, queue, records, cpu, now, window, current)
}

fn with_list(
    list: &mut List,
    records: &mut [Record],
    call: impl FnOnce(&mut ThreadQueue, &mut Table<'_>) -> Result<(), Error>,
) -> Answer<()> {
    let mut source = list_to_source(*list);
    let result = with_table(records, QUEUE_CALL, |table| call(&mut source, table));
    *list = list_from_source(source);
    result
}

/// `push` of one list by itself.
pub fn list_push(
    list: &mut List,
    records: &mut [Record],
    place: u64,
    membership: Membership,
) -> Answer<()> {
    with_list(list, records, |list, table| {
        access::list_push(table, list, thread(place), membership_to_source(membership))
    })
}

/// `push_front` of one list by itself.
pub fn list_push_front(
    list: &mut List,
    records: &mut [Record],
    place: u64,
    membership: Membership,
) -> Answer<()> {
    with_list(list, records, |list, table| {
        access::list_push_front(table, list, thread(place), membership_to_source(membership))
    })
}

/// `remove` of one list by itself.
pub fn list_remove(
    list: &mut List,
    records: &mut [Record],
    place: u64,
    membership: Membership,
) -> Answer<()> {
    with_list(list, records, |list, table| {
        access::list_remove(table, list, thread(place), membership_to_source(membership))
    })
}

/// `Tree::first` over records.
pub fn index_first(root: Option<u64>, records: &mut [Record]) -> Answer<Option<u64>> {
    let tree = Tree::of_any(root.map(thread));
    let first = with_table(records, QUEUE_CALL, |table| {
        access::index_first(table, &tree)
    });
    first.map(|first| first.map(number))
}

/// `Tree::contains` over records.
pub fn index_contains(root: Option<u64>, records: &mut [Record], place: u64) -> Answer<bool> {
    let tree = Tree::of_any(root.map(thread));
    with_table(records, QUEUE_CALL, |table| {
        access::index_contains(table, &tree, thread(place))
    })
}

/// `Tree::insert` over records.
pub fn index_insert(root: &mut Option<u64>, records: &mut [Record], place: u64) -> Answer<()> {
    let mut tree = Tree::of_any(root.map(thread));
    let result = with_table(records, QUEUE_CALL, |table| {
        access::index_insert(table, &mut tree, thread(place))
    });
    *root = tree.root().map(number);
    result
}

/// `Tree::remove` over records.
pub fn index_remove(root: &mut Option<u64>, records: &mut [Record], place: u64) -> Answer<()> {
    let mut tree = Tree::of_any(root.map(thread));
    let result = with_table(records, QUEUE_CALL, |table| {
        access::index_remove(table, &mut tree, thread(place))
    });
    *root = tree.root().map(number);
    result
}

/// A tree over records that stay the source's own between calls, through the source's own access: for counts of
/// instructions.
pub struct KeptTree {
    records: Vec<ThreadScheduleState>,
    tree: Tree<ThreadId>,
    scratch: MutationScratch<ThreadId>,
}

impl KeptTree {
    pub fn of(records: &[Record]) -> Self {
        Self {
            records: records_to_source(records),
            tree: Tree::of_any(None),
            scratch: MutationScratch::new(thread(0)),
        }
    }

    pub fn insert(&mut self, place: u64) -> Answer<()> {
        let cpu = CpuThreadTableAuthority::new(CpuIndex::from(0), &mut self.records);
        let threads = &mut LocalReadyQueueAuthority::new(cpu);
        access::index_insert_by(threads, &mut self.tree, thread(place), &mut self.scratch)
            .map_err(refusal)
    }

    pub fn remove(&mut self, place: u64) -> Answer<()> {
        let cpu = CpuThreadTableAuthority::new(CpuIndex::from(0), &mut self.records);
        let threads = &mut LocalReadyQueueAuthority::new(cpu);
        access::index_remove_by(threads, &mut self.tree, thread(place), &mut self.scratch)
            .map_err(refusal)
    }
}

/// A run queue with its window over records that stay the source's own between calls, through the source's own access:
/// for counts of instructions.
pub struct KeptQueue {
    records: Vec<ThreadScheduleState>,
    queue: CpuRunQueue,
    window: CpuWindow,
}

impl KeptQueue {
    /// An empty queue of processor 0.
    pub fn of(records: &[Record], window: Window) -> Self {
        Self {
            records: records_to_source(records),
            queue: queue_to_source(&Queue::EMPTY),
            window: window.to_source(),
        }
    }

    pub fn enqueue(&mut self, place: u64) -> Answer<()> {
        let cpu = CpuThreadTableAuthority::new(CpuIndex::from(0), &mut self.records);
        let threads = &mut LocalReadyQueueAuthority::new(cpu);
        self.queue
            .enqueue(threads, thread(place), CpuIndex::from(0))
            .map_err(refusal)
    }

    pub fn enqueue_front(&mut self, place: u64) -> Answer<()> {
        let cpu = CpuThreadTableAuthority::new(CpuIndex::from(0), &mut self.records);
        let threads = &mut LocalReadyQueueAuthority::new(cpu);
        self.queue
            .enqueue_front(threads, thread(place), CpuIndex::from(0))
            .map_err(refusal)
    }

    /// Handed the record's own membership.
    pub fn remove(&mut self, place: u64) -> Answer<()> {
        let membership = self.records[length(place)].ready_queue_links.membership;
        let cpu = CpuThreadTableAuthority::new(CpuIndex::from(0), &mut self.records);
        let threads = &mut LocalReadyQueueAuthority::new(cpu);
        self.queue
            .remove(threads, thread(place), CpuIndex::from(0), membership)
            .map_err(refusal)
    }

    /// The number of the thread that is named, with no current thread.
    pub fn select(&mut self, now: u64) -> Answer<Option<u64>> {
        let cpu = CpuThreadTableAuthority::new(CpuIndex::from(0), &mut self.records);
        let threads = &mut LocalReadyQueueAuthority::new(cpu);
        let window = &mut self.window;
        let selection = self
            .queue
            .peek_next(threads, CpuIndex::from(0), now, window, None)
            .map_err(refusal)?;
        Ok(selection.ready.map(|ready| number(ready.id)))
    }
}
