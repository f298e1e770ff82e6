//! A whole board on both sides: table, queue, window and turn counters go from call to call, each side's own; after
//! each call all of it is compared.

use compare_queue::board::Call;
use compare_runtime::checks::{Decision, port_deadline, port_switch};
use compare_runtime::expected;
use compare_runtime::port::{Answer, Others, Rows};
use compare_selection::history::{CPU, History};
use compare_selection::selecting::Peek;
use kernel::oracle::{Candidate, Deferred, Mode, Record, Selection, Turns, Window};
use tables::tally::Tally;

pub struct Board {
    pub run: History,
    pub window: Window,
    pub turns: Turns,
    /// The mode of the running thread's last key, by which accounting charges.
    mode: Mode,
    pub now: u64,
    /// The thread that runs; none idles.
    pub current: Option<u64>,
}

impl Board {
    pub fn new(run: History, window: Window, turns: Turns, now: u64) -> Self {
        Self {
            run,
            window,
            turns,
            mode: Mode::Ordinary,
            now,
            current: None,
        }
    }

    /// The record of a thread that runs, for the source, which looks at its state.
    fn running(&self, id: u64, deferred: Option<Deferred>) -> Record {
        let record = self.run.board.table.records[id as usize];
        Record {
            running: true,
            deferred,
            ..record
        }
    }

    /// What document 01 refuses of a named record before the source is asked.
    fn judged(&self, id: u64) -> Answer<usize> {
        expected::judged(&self.run.board.table.records, id, None)
    }

    /// The source's record after a call; the port's table has neither state nor deferred placement.
    fn keep(&mut self, id: u64, record: Record) {
        self.run.board.table.records[id as usize] = Record {
            running: false,
            deferred: None,
            ..record
        };
    }

    /// Whether it was prepared.
    pub fn prepare(&mut self, tally: &mut Tally, id: u64, front: bool) -> bool {
        let (now, before) = (self.now, self.turns);
        let (mut port_turns, mut turns) = (before, before);
        let table = &mut self.run.board.table;
        let port = Rows::lent(&mut table.rows, |rows| {
            rows.prepare_enqueue(id, front, now, &mut port_turns)
        });
        let source = expected::prepare_enqueue(&mut table.records, id, front, now, &mut turns);
        let (ours, wanted) = ((port, port_turns), (source, turns));
        let input = (id, front, now, before);
        let board = &mut self.run.board;
        board.compare(tally, "prepare on a board", input, ours, wanted);
        self.turns = turns;
        source.is_ok()
    }

    /// A thread gets its turn and goes into the queue.
    pub fn enqueue(&mut self, tally: &mut Tally, id: u64, front: bool) {
        let call = match front {
            true => Call::EnqueueFront,
            false => Call::Enqueue,
        };
        if self.prepare(tally, id, front) {
            self.run.call(tally, call, id, CPU);
        }
    }

    /// The named thread and the window charged up to a reading.
    pub fn account(&mut self, tally: &mut Tally, id: u64, end: u64) {
        let (start, mode, before) = (self.now, self.mode, self.window);
        let (mut port_window, mut window) = (before, before);
        let table = &mut self.run.board.table;
        let port = Rows::lent(&mut table.rows, |rows| {
            rows.account_current(id, &mut port_window, mode, start, end)
        });
        let records = &mut table.records;
        let source = expected::account_current(records, id, &mut window, mode, start, end);
        let (ours, wanted) = ((port, port_window), (source, window));
        let input = (id, before, mode, start, end);
        let board = &mut self.run.board;
        board.compare(tally, "account on a board", input, ours, wanted);
        self.window = window;
    }

    /// The running thread, refreshed, as a candidate.
    fn candidate(&mut self, tally: &mut Tally) -> Option<Candidate> {
        let (id, now, window) = (self.current?, self.now, self.window);
        let port = Rows::lent(&mut self.run.board.table.rows, |rows| {
            rows.current_candidate(id, true, now)
        });
        let mut records = [self.running(id, None)];
        let source = expected::current_candidate(&mut records, 0, now, window);
        self.keep(id, records[0]);
        let board = &mut self.run.board;
        board.compare(tally, "candidate on a board", (id, now), port, source);
        source.ok().flatten()
    }

    fn select(&mut self, tally: &mut Tally) -> Option<Selection> {
        let current = self.candidate(tally);
        let peek = Peek::new(CPU, self.now, self.window, current);
        let selected = self.run.select(tally, &peek);
        self.window = selected.window;
        selected.answer.ok()
    }

    /// The switch rule on a selection: whether to switch, and the front flag.
    fn switch(&mut self, tally: &mut Tally, decision: &Decision, yielding: bool) -> Option<bool> {
        let id = self.current?;
        let (mut port_window, mut window) = (self.window, self.window);
        let port = Rows::lent(&mut self.run.board.table.rows, |rows| {
            port_switch(rows, id, &mut port_window, decision, yielding)
        });
        let (mut record, demand) = (decision.current, decision.demand);
        let (now, ready) = (decision.now, decision.ready);
        let source = self
            .judged(id)
            .and_then(|_| expected::switch(&mut record, &mut window, now, ready, demand, yielding));
        self.keep(id, record);
        let (ours, wanted) = ((port, port_window), (source, window));
        let board = &mut self.run.board;
        board.compare(tally, "switch on a board", decision, ours, wanted);
        self.window = window;
        source.ok().flatten()
    }

    fn decision(&self, id: u64, selection: &Selection, deferred: Option<Deferred>) -> Decision {
        Decision {
            current: self.running(id, deferred),
            window: self.window,
            now: self.now,
            ready: selection.ready,
            demand: selection.demand,
        }
    }

    /// Who runs from now on: whoever gives way is enqueued again, the chosen one removed.
    pub fn choose(&mut self, tally: &mut Tally, yielding: bool, deferred: Option<Deferred>) {
        let Some(selection) = self.select(tally) else {
            return;
        };
        let next = selection.ready.map(|ready| ready.number);
        let front = match self.current {
            None => next.map(|_| false),
            Some(id) => {
                let decision = self.decision(id, &selection, deferred);
                self.switch(tally, &decision, yielding)
            }
        };
        let (Some(next), Some(front)) = (next, front) else {
            return;
        };
        if let Some(current) = self.current.take() {
            self.enqueue(tally, current, front);
        }
        self.run.call(tally, Call::Remove, next, CPU);
        self.current = (!self.run.is_queued(next)).then_some(next);
    }

    /// Until when the running thread may run at the latest.
    pub fn arm(&mut self, tally: &mut Tally) -> Option<u64> {
        let (id, selection) = (self.current?, self.select(tally)?);
        let queue = &self.run.board.marked.queue;
        let others = Others {
            competition: queue.fifo_length.wrapping_add(queue.fair.len) != 0,
            budget_peer: queue.budget_count != 0,
            ready: selection.ready.is_some(),
            demand: selection.demand,
        };
        let decision = self.decision(id, &selection, None);
        let (mut port_window, mut port_mode) = (self.window, self.mode);
        let port = Rows::lent(&mut self.run.board.table.rows, |rows| {
            port_deadline(
                rows,
                id,
                &mut port_window,
                &mut port_mode,
                &decision,
                others,
            )
        });
        let (mut record, mut window, mut mode) = (decision.current, self.window, self.mode);
        let (now, ready) = (self.now, selection.ready);
        let source = self.judged(id).and_then(|_| {
            expected::deadline(&mut record, &mut window, &mut mode, now, ready, others)
        });
        self.keep(id, record);
        let (ours, wanted) = ((port, port_window, port_mode), (source, window, mode));
        let board = &mut self.run.board;
        board.compare(tally, "deadline on a board", &decision, ours, wanted);
        (self.window, self.mode) = (window, mode);
        source.ok().flatten()
    }
}
