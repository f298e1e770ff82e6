//! A queue and its table on both sides, and one call on both.

use core::fmt::Debug;

use kernel::oracle::*;
use tables::bytes::queue_words;
use tables::named;
use tables::queues::{MarkedQueue, QueueWords, queue_of, words_of};
use tables::rows::{Path, Row};
use tables::table::{MOST_RECORDS, Table, expected};
use tables::tally::Tally;

/// Queue, table, path, the thread's number, the processor; the answer is document 01's number.
type QueueCall = fn(&mut QueueWords, &mut [Row], &mut Path, u64, u8) -> u64;

#[derive(Clone, Copy, Debug)]
pub enum Call {
    Enqueue,
    EnqueueFront,
    Remove,
}

impl Call {
    pub const ALL: [Self; 3] = [Self::Enqueue, Self::EnqueueFront, Self::Remove];

    fn name(self, number: u64) -> &'static str {
        match self {
            Self::Enqueue => named!("enqueue", number),
            Self::EnqueueFront => named!("enqueue_front", number),
            Self::Remove => named!("remove", number),
        }
    }

    fn of_port(self) -> QueueCall {
        match self {
            Self::Enqueue => ::board::words::enqueue,
            Self::EnqueueFront => ::board::words::enqueue_front,
            Self::Remove => ::board::words::remove,
        }
    }

    fn by_source(self, queue: &mut Queue, records: &mut [Record], id: u64, cpu: u8) -> Answer<()> {
        match self {
            Self::Enqueue => enqueue(queue, records, id, cpu),
            Self::EnqueueFront => enqueue_front(queue, records, id, cpu),
            Self::Remove => remove(queue, records, id, cpu),
        }
    }
}

/// The port's words and rows, and the source's queue and records, with the mark that document 01 adds.
#[derive(Clone)]
pub struct Board {
    words: QueueWords,
    pub table: Table,
    pub marked: MarkedQueue,
    path: Path,
}

impl Board {
    /// A new queue, made by the port over words of any kind.
    pub fn new(tally: &mut Tally, records: Vec<Record>) -> Self {
        let mut words = [[u64::MAX; 5]; 270];
        let number = ::board::words::new(&mut words);
        tally.compare("new", (), (number, queue_of(&words)), (0, MarkedQueue::NEW));
        Self::of(MarkedQueue::NEW, records)
    }

    pub fn of(marked: MarkedQueue, records: Vec<Record>) -> Self {
        Self {
            words: queue_words(&marked),
            table: Table::of(records),
            marked,
            path: [[u64::MAX; 2]; 40],
        }
    }

    /// What any words stand for.
    pub fn of_words(words: QueueWords, rows: Vec<Row>) -> Self {
        Self {
            words,
            table: Table::of_rows(rows),
            marked: queue_of(&words),
            path: [[0; 2]; 40],
        }
    }

    pub fn words(&self) -> QueueWords {
        self.words
    }

    /// What the port's calls are lent: the words, the rows and a path.
    pub fn lent(&mut self) -> (&mut QueueWords, &mut [Row], &mut Path) {
        (&mut self.words, &mut self.table.rows, &mut self.path)
    }

    pub fn count(&self) -> u64 {
        self.table.records.len() as u64
    }

    pub fn is_queued(&self, id: u64) -> bool {
        self.table.records[id as usize].membership != Membership::None
    }

    /// Another record in a place.
    pub fn put(&mut self, id: u64, record: Record) {
        self.table.put(id as usize, record);
    }

    /// The mark of a queue that halted, on both sides.
    pub fn mark(&mut self, halted: bool) {
        self.marked.halted = halted;
        self.words = words_of(&self.marked);
    }

    /// Document 01's refusals in its order, as far as they come before the source's own.
    fn refused(&self, call: Call, id: u64, cpu: u8) -> Option<u64> {
        let records = &self.table.records;
        if records.len() > MOST_RECORDS {
            return Some(10);
        }
        if self.marked.halted {
            return Some(9);
        }
        let place = usize::try_from(id).ok();
        let Some(record) = place.and_then(|place| records.get(place)) else {
            return Some(4);
        };
        if !record_agrees(record) {
            return Some(11);
        }
        if record.params.policy == Policy::Idle {
            return Some(2);
        }
        match call {
            Call::Remove => None,
            _ if record.membership != Membership::None => Some(3),
            _ if record.cpu != cpu => Some(2),
            _ => None,
        }
    }

    /// The source's answer and stores; a halt leaves the mark.
    fn by_source(&mut self, call: Call, id: u64, cpu: u8) -> u64 {
        if let Some(number) = self.refused(call, id, cpu) {
            return number;
        }
        let queue = &mut self.marked.queue;
        let answer = call.by_source(queue, &mut self.table.records, id, cpu);
        self.marked.halted = matches!(answer, Err(Refusal::Halted(_)));
        expected(answer).err().unwrap_or(0)
    }

    fn by_port(&mut self, call: Call, id: u64, cpu: u8) -> u64 {
        let (q, t, path) = self.lent();
        call.of_port()(q, t, path, id, cpu)
    }

    fn lengths(&self) -> [u64; 3] {
        let mut answer = [u64::MAX; 3];
        assert_eq!(::board::words::lengths(&self.words, &mut answer), 0);
        answer
    }

    /// Makes the call on both sides and goes on from the source's queue and table.
    pub fn call(&mut self, tally: &mut Tally, call: Call, id: u64, cpu: u8) -> u64 {
        let shown = self.table.shown();
        let before = (call, id, cpu, self.marked.clone(), shown);
        let port = self.by_port(call, id, cpu);
        let source = self.by_source(call, id, cpu);
        if let (1, Some(records)) = (source, &before.4) {
            let left = (&self.marked, &self.table.records);
            tally.compare(
                "Damaged by the source changes",
                id,
                left,
                (&before.3, records),
            );
        }
        let lengths = self.lengths();
        let queue = &self.marked.queue;
        let wanted = [queue.fifo_length, queue.fair.len, queue.budget_count];
        tally.compare("lengths", id, lengths, wanted);
        self.compare(tally, call.name(source), before, port, source);
        source
    }

    /// Answer, queue and every record; the port then goes on from the source's.
    pub fn compare<A: PartialEq + Debug>(
        &mut self,
        tally: &mut Tally,
        name: &'static str,
        before: impl Debug,
        port: A,
        source: A,
    ) {
        let left = (self.words != words_of(&self.marked)).then(|| queue_of(&self.words));
        let other = left.filter(|left| *left != self.marked);
        let wanted = other.is_some().then(|| self.marked.clone());
        let (here, there) = self.table.difference();
        let differs = port != source || other.is_some() || here.is_some();
        tally.compare(name, before, (port, other, here), (source, wanted, there));
        if differs {
            *self = Self::of(self.marked.clone(), self.table.records.clone());
        }
    }
}
