//! A board with its history: who is queued, and whether every call so far was one of demand 3's list.

use compare_queue::board::{Board, Call};
use kernel::oracle::*;
use tables::tally::Tally;

use crate::scan::Scan;
use crate::selecting::{Peek, Selected, select};

/// Runs are for this processor; calls for others are made too.
pub const CPU: u8 = 0;

/// So many queued threads are noted.
const MANY: usize = 1000;

/// The name of a judged selection, by which they are counted.
fn judged_name(changes: bool, wanted: &Selected) -> &'static str {
    let named = wanted
        .answer
        .is_ok_and(|selection| selection.ready.is_some());
    match (changes, named) {
        (false, true) => "demand 3 by a scan, a thread",
        (false, false) => "demand 3 by a scan, none",
        (true, true) => "demand 3 by a scan, a thread after moves",
        (true, false) => "demand 3 by a scan, none after moves",
    }
}

#[derive(Clone)]
pub struct History {
    pub board: Board,
    /// From its accepted enqueue to its accepted removal.
    queued: Vec<bool>,
    /// Every call so far was accepted for this processor, or refused without a change.
    stands: bool,
}

impl History {
    pub fn new(tally: &mut Tally, records: Vec<Record>) -> Self {
        let queued = vec![false; records.len()];
        Self {
            board: Board::new(tally, records),
            queued,
            stands: true,
        }
    }

    /// A board that no list of accepted calls has left, of which demand 3 says nothing.
    pub fn of(board: Board) -> Self {
        let queued = board.table.records.iter();
        Self {
            queued: queued.map(|r| r.membership != Membership::None).collect(),
            board,
            stands: false,
        }
    }

    pub fn count(&self) -> u64 {
        self.board.count()
    }

    pub fn is_queued(&self, id: u64) -> bool {
        self.queued.get(id as usize).is_some_and(|queued| *queued)
    }

    /// Another record in a place whose thread is not queued.
    pub fn put(&mut self, id: u64, record: Record) {
        assert!(!self.is_queued(id));
        self.board.put(id, record);
    }

    pub fn call(&mut self, tally: &mut Tally, call: Call, id: u64, cpu: u8) {
        let answer = self.board.call(tally, call, id, cpu);
        self.stands &= answer != 9 && (answer != 0 || cpu == CPU);
        if answer == 0 {
            self.queued[id as usize] = !matches!(call, Call::Remove);
        }
    }

    /// The selection comes in another period than the last, and finds exhausted threads.
    fn changes_period(&self, peek: &Peek) -> bool {
        let queue = &self.board.marked.queue;
        let epoch = peek.now.checked_div(peek.window().config.period);
        queue.epoch != epoch && queue.roots[9..].iter().any(Option::is_some)
    }

    fn judged(&self, peek: &Peek) -> Result<Selected, &'static str> {
        if !self.stands || peek.cpu != CPU {
            return Err("left out of the scan: a call for another processor");
        }
        let scan = Scan {
            queue: &self.board.marked.queue,
            records: &self.board.table.records,
            queued: &self.queued,
            peek,
        };
        scan.wanted()
    }

    /// A selection on both sides, judged by a scan over all queued threads where the premises hold.
    pub fn select(&mut self, tally: &mut Tally, peek: &Peek) -> Selected {
        let judged = self.judged(peek);
        let changes = self.changes_period(peek);
        let shown = self.board.table.shown();
        let before = (peek.cpu != CPU).then(|| self.board.clone());
        let selected = select(tally, &mut self.board, peek);
        self.stands &= match before {
            Some(before) => {
                before.marked == self.board.marked
                    && before.table.records == self.board.table.records
            }
            None => matches!(selected.answer, Ok(_) | Err(5 | 10)),
        };
        match judged {
            Ok(wanted) => {
                if self.queued.iter().filter(|queued| **queued).count() >= MANY {
                    tally.note("judged by a scan over 1,000 threads or more");
                }
                let input = (peek.now, peek.window(), peek.current(), shown);
                let name = judged_name(changes, &wanted);
                tally.compare(name, input, selected, wanted);
            }
            Err(premise) => tally.note(premise),
        }
        selected
    }
}
