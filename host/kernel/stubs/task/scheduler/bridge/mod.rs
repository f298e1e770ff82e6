//! The oracle inside the scheduler: conversions of its private types, table, queue and decision calls.

use super::Error;
use super::queue::CpuRunQueue;
use super::queue::access::Parts;
use crate::oracle::convert::Mirror;
use crate::oracle::stop::run;
use crate::oracle::{
    Answer, Deferred, Links, List, ListLinks, Membership, Queue, Record, Refusal, Rules,
};
use crate::task::policy::ThreadPlacement;
use crate::task::thread::{
    DeferredFifoPlacement, QueueLinks, QueueMembership, ReadyTreeLinks, ThreadId,
    ThreadScheduleState, ThreadState,
};
use crate::task::wait::{ThreadQueue, WaitRecord};
use hyper::cpu::CpuIndex;

pub(crate) mod decisions;
pub(crate) mod queues;
mod table;

pub(in crate::task) use table::Table;

fn thread(number: u64) -> ThreadId {
    ThreadId::from_process_publication(number)
}

fn number(id: ThreadId) -> u64 {
    id.get()
}

fn cpu_number(cpu: CpuIndex) -> u8 {
    u8::try_from(cpu.get()).expect("a processor number below 256")
}

fn length(len: u64) -> usize {
    usize::try_from(len).expect("a host with 64 bit lengths")
}

fn membership_to_source(membership: Membership) -> QueueMembership {
    match membership {
        Membership::None => QueueMembership::None,
        Membership::ReadyFifo { cpu, priority } => QueueMembership::ReadyRealTime {
            cpu: CpuIndex::from(cpu),
            priority,
        },
        Membership::ReadyFair { cpu } => QueueMembership::ReadyFair {
            cpu: CpuIndex::from(cpu),
        },
        Membership::Waiting { queue } => QueueMembership::Waiting {
            queue: length(queue),
        },
        Membership::Terminated => QueueMembership::Terminated,
    }
}

fn membership_from_source(membership: QueueMembership) -> Membership {
    match membership {
        QueueMembership::None => Membership::None,
        QueueMembership::ReadyRealTime { cpu, priority } => Membership::ReadyFifo {
            cpu: cpu_number(cpu),
            priority,
        },
        QueueMembership::ReadyFair { cpu } => Membership::ReadyFair {
            cpu: cpu_number(cpu),
        },
        QueueMembership::Waiting { queue } => Membership::Waiting {
            queue: queue as u64,
        },
        QueueMembership::Terminated => Membership::Terminated,
    }
}

/// The record's one policy is both `parameters` and `scheduling`.
fn record_to_source(record: &Record) -> ThreadScheduleState {
    ThreadScheduleState {
        placement: ThreadPlacement::pinned(CpuIndex::from(record.cpu)),
        scheduling: record.params.policy.to_source(),
        parameters: record.params.to_source(),
        runtime: record.runtime.to_source(),
        ready_turn: record.turn,
        ready_tree: ReadyTreeLinks {
            left: record.tree.left.map(thread),
            right: record.tree.right.map(thread),
            height: record.tree.height,
        },
        budget_history: None,
        fair_history: None,
        fair_origin: None,
        auto_migrated: false,
        deferred_fifo_placement: record.deferred.map(|deferred| match deferred {
            Deferred::Head => DeferredFifoPlacement::Head,
            Deferred::Tail => DeferredFifoPlacement::Tail,
        }),
        state: if record.running {
            ThreadState::Running
        } else {
            ThreadState::Ready
        },
        ready_queue_links: QueueLinks {
            previous: record.list.previous.map(thread),
            next: record.list.next.map(thread),
            membership: membership_to_source(record.membership),
        },
        wait: WaitRecord::NEW,
        pending_migration: None,
    }
}

fn record_from_source(schedule: &ThreadScheduleState) -> Record {
    Record {
        params: Mirror::from_source(schedule.parameters),
        runtime: Mirror::from_source(schedule.runtime),
        turn: schedule.ready_turn,
        tree: Links {
            left: schedule.ready_tree.left.map(number),
            right: schedule.ready_tree.right.map(number),
            height: schedule.ready_tree.height,
        },
        list: ListLinks {
            previous: schedule.ready_queue_links.previous.map(number),
            next: schedule.ready_queue_links.next.map(number),
        },
        membership: membership_from_source(schedule.ready_queue_links.membership),
        cpu: cpu_number(schedule.placement.assigned_cpu()),
        running: schedule.state == ThreadState::Running,
        deferred: schedule
            .deferred_fifo_placement
            .map(|deferred| match deferred {
                DeferredFifoPlacement::Head => Deferred::Head,
                DeferredFifoPlacement::Tail => Deferred::Tail,
            }),
    }
}

fn records_to_source(records: &[Record]) -> Vec<ThreadScheduleState> {
    records.iter().map(record_to_source).collect()
}

fn records_from_source(table: &[ThreadScheduleState], records: &mut [Record]) {
    for (record, schedule) in records.iter_mut().zip(table) {
        *record = record_from_source(schedule);
    }
}

fn list_to_source(list: List) -> ThreadQueue {
    ThreadQueue {
        head: list.head.map(thread),
        tail: list.tail.map(thread),
        len: length(list.len),
    }
}

fn list_from_source(list: ThreadQueue) -> List {
    List {
        head: list.head.map(number),
        tail: list.tail.map(number),
        len: list.len as u64,
    }
}

fn queue_to_source(queue: &Queue) -> CpuRunQueue {
    CpuRunQueue::of_any(Parts {
        fifo: queue.fifo.map(list_to_source),
        fifo_len: length(queue.fifo_length),
        fair: list_to_source(queue.fair),
        roots: queue.roots.map(|root| root.map(thread)),
        epoch: queue.epoch,
        budget_threads: length(queue.budget_count),
    })
}

fn queue_from_source(queue: &CpuRunQueue) -> Queue {
    let parts = queue.parts();
    Queue {
        fifo: parts.fifo.map(list_from_source),
        fifo_length: parts.fifo_len as u64,
        fair: list_from_source(parts.fair),
        budget_count: parts.budget_threads as u64,
        roots: parts.roots.map(|root| root.map(number)),
        epoch: parts.epoch,
    }
}

fn refusal(error: Error) -> Refusal {
    match error {
        Error::ThreadNotFound => Refusal::ThreadNotFound,
        Error::QueueCorrupted => Refusal::QueueCorrupted,
        Error::InvalidThreadState => Refusal::InvalidThreadState,
        Error::ThreadAlreadyQueued => Refusal::ThreadAlreadyQueued,
        Error::InvalidSchedulingParameters => Refusal::InvalidSchedulingParameters,
        Error::PreemptionInvariant => Refusal::PreemptionInvariant,
        Error::RecordDisagrees => Refusal::RecordDisagrees,
        Error::Allocation | Error::CpuNotRegistered => Refusal::Other,
    }
}

/// Runs a call of the source and tells how it ended.
fn answer<T>(call: impl FnOnce() -> Result<T, Error>) -> Answer<T> {
    match run(call) {
        Ok(result) => result.map_err(refusal),
        Err(panic) => Err(Refusal::Halted(panic)),
    }
}

/// Runs a call over a table; the records keep every store that was made.
fn with_table<T>(
    records: &mut [Record],
    rules: Rules,
    call: impl FnOnce(&mut Table<'_>) -> Result<T, Error>,
) -> Answer<T> {
    let mut source = records_to_source(records);
    let mut stopped = false;
    let mut table = Table::new(&mut source, rules, &mut stopped);
    let result = answer(|| call(&mut table));
    records_from_source(&source, records);
    if stopped {
        Err(Refusal::MoveLimit)
    } else {
        result
    }
}
