//! Runs on sound queues: enqueues at either end, removals and selections mixed, records that are not queued changed
//! between.

use compare_queue::board::{Board, Call};
use compare_queue::sound::{changed, place, processor, sensible};
use kernel::oracle::*;
use tables::generator::Random;
use tables::make;
use tables::tally::Tally;
use tables::values::Picks;

use crate::history::{CPU, History};
use crate::selecting::Peek;

/// What a run keeps to.
#[derive(Clone, Copy)]
pub struct Course {
    config: Config,
    backend: Backend,
    /// One fair backend, one period, records fresh when they are enqueued and a clock that rises: demand 3's premises
    /// hold mostly.
    steady: bool,
    /// They hold for every record and reading.
    strict: bool,
    /// Most threads are budget threads, of which many are exhausted.
    budgets: bool,
    /// Bands, turns, passes and priorities are few, so that threads of two trees often have equal keys.
    close: bool,
    /// No call is for another processor.
    alone: bool,
    now: u64,
    window: Window,
}

impl Course {
    pub fn new(random: &mut Random) -> Self {
        let config = random.any_sound_config();
        let period = config.period;
        let now = match random.below(4) {
            0 => random.reading(period),
            1 => u64::MAX - random.below(8) * (period / 2),
            2 => random.number(),
            _ => random.below(4 * period),
        };
        Self {
            config,
            backend: random.backend(),
            steady: random.below(4) != 0,
            strict: random.flag(),
            budgets: random.flag(),
            close: random.below(3) == 0,
            alone: random.below(4) != 0,
            now,
            window: random.window(config, now),
        }
    }

    /// A course on which demand 3's premises hold mostly.
    pub fn steady(random: &mut Random) -> Self {
        let course = Self::new(random);
        Self {
            steady: true,
            strict: true,
            alone: true,
            now: random.below(4 * course.config.period),
            ..course
        }
    }

    pub fn config(&self) -> Config {
        self.config
    }

    /// A budget of the course's period, with what a refresh at this reading leaves of it.
    fn budgeted(&self, random: &mut Random, record: &mut Record) {
        let period = self.config.period;
        let budget = Budget {
            budget: 1 + random.below(period),
            period,
            burst: 1 + random.below(period),
        };
        let runtime = Runtime::Budget(BudgetRt {
            epoch: random.epoch(self.now, period),
            remaining: random.rest(budget.budget) * random.below(2),
            burst: random.rest(budget.burst),
        });
        record.params.policy = Policy::Budget;
        record.params.budget = Some(budget);
        record.runtime = match self.slips(random, 16) {
            true => runtime,
            false => runtime_epoch_refresh(runtime, self.now, record.params).expect("a refresh"),
        };
    }

    /// An exception from what the course keeps to.
    fn slips(&self, random: &mut Random, bound: u64) -> bool {
        !self.strict && random.below(bound) == 0
    }

    /// One of few keys.
    fn close(random: &mut Random, record: &mut Record) {
        record.params.band = 0;
        record.turn = (1 << 63) + random.below(2);
        if let Policy::Fifo(priority) = &mut record.params.policy {
            *priority = 1;
        }
        if let Runtime::Fair { pass, .. } = &mut record.runtime {
            *pass = random.of([0, 1 << 64]);
        }
    }

    /// A record that suits the course.
    fn suited(&self, random: &mut Random, record: Record) -> Record {
        let mut record = record;
        if self.close {
            Self::close(random, &mut record);
        }
        if self.steady && !self.slips(random, 64) {
            record.params.backend = self.backend;
        }
        let is_budget = record.params.policy == Policy::Budget;
        if record_agrees(&record) && (is_budget || self.budgets && random.below(4) != 0) {
            if self.steady || random.flag() {
                self.budgeted(random, &mut record);
            }
        }
        record
    }

    /// A thread that the queue takes.
    pub fn thread(&self, random: &mut Random) -> Record {
        let record = make::thread(random);
        self.suited(random, record)
    }

    fn any_thread(&self, random: &mut Random) -> Record {
        let record = make::any_thread(random);
        self.suited(random, record)
    }

    /// A call's processor.
    fn processor(&self, random: &mut Random) -> u8 {
        match self.alone {
            true => CPU,
            false => processor(random),
        }
    }

    /// The next reading.
    fn tick(&mut self, random: &mut Random) {
        let period = self.config.period;
        if !self.steady || self.slips(random, 64) {
            self.now = random.later(self.now, period);
            return;
        }
        let edge = period - self.now % period;
        let step = random.of([0, 0, 1, period / 3, edge - 1, edge, period, 5 * period]);
        self.now = self.now.saturating_add(step);
    }

    /// The run's configuration, at times another, of another period or not sound.
    fn its_config(&self, random: &mut Random) -> Config {
        let mut config = self.config;
        config.prefer_fair = random.flag();
        match (self.steady, random.below(32)) {
            (_, 0) => random.config(),
            (_, 1) => random.sound_config(),
            (false, 2..12) => random.any_sound_config(),
            _ => config,
        }
    }

    /// The window that the last selection left, or one of its own.
    fn window(&self, random: &mut Random) -> Window {
        if random.below(3) == 0 {
            return self.window;
        }
        let config = self.its_config(random);
        random.window(config, self.now)
    }

    /// A candidate of any kind, or one of the table's threads.
    fn current(&self, random: &mut Random, records: &[Record]) -> Option<Candidate> {
        match random.below(4) {
            0 | 1 => None,
            2 => Some(random.candidate(self.config.period)),
            _ => {
                let place = random.below(records.len() as u64) as usize;
                let candidate = record_candidate(&records[place]);
                let is_budget = candidate.params.policy == Policy::Budget;
                Some(Candidate {
                    budget_available: candidate.budget_available || !is_budget,
                    ..candidate
                })
            }
        }
    }

    /// A selection at the next reading.
    pub fn peek(&mut self, random: &mut Random, board: &Board) -> Peek {
        self.tick(random);
        let window = self.window(random);
        let current = self.current(random, &board.table.records);
        Peek::new(self.processor(random), self.now, window, current)
    }
}

/// A selection; the window that it leaves goes on.
pub fn select(tally: &mut Tally, random: &mut Random, course: &mut Course, run: &mut History) {
    let peek = course.peek(random, &run.board);
    course.window = run.select(tally, &peek).window;
}

/// One call; before it at times another record in the place of one that is not queued, with links and membership of any
/// kind.
fn step(
    tally: &mut Tally,
    random: &mut Random,
    course: &mut Course,
    run: &mut History,
    growing: bool,
) {
    if random.below(3) == 0 {
        return select(tally, random, course, run);
    }
    let count = run.count();
    let id = place(random, count);
    if id < count && !run.is_queued(id) && random.below(4) != 0 {
        let linked = changed(random, count);
        let membership = match random.below(16) {
            0 => make::membership(random),
            _ => linked.membership,
        };
        let record = Record {
            tree: linked.tree,
            list: linked.list,
            membership,
            ..course.any_thread(random)
        };
        run.put(id, record);
    }
    let call = sensible(random, run.is_queued(id), growing);
    run.call(tally, call, id, course.processor(random));
}

fn new(tally: &mut Tally, random: &mut Random, course: &Course, count: u64) -> History {
    let records = (0..count).map(|_| course.any_thread(random));
    History::new(tally, records.collect())
}

/// A queue of this many records that grows and shrinks.
pub fn seeded(tally: &mut Tally, random: &mut Random, count: u64, calls: u64) {
    let mut course = Course::new(random);
    let mut run = new(tally, random, &course, count);
    for number in 0..calls {
        let growing = number / (2 * count + 8) % 2 == 0;
        step(tally, random, &mut course, &mut run, growing);
    }
}

/// Every thread of a table that the queue takes whole, with a selection at times; then calls of every kind.
pub fn filled(tally: &mut Tally, random: &mut Random, mut course: Course, count: u64, calls: u64) {
    let records = (0..count).map(|_| course.thread(random));
    let mut run = History::new(tally, records.collect());
    for id in 0..count {
        let call = random.of([Call::Enqueue, Call::EnqueueFront]);
        run.call(tally, call, id, CPU);
        if random.below(64) == 0 {
            select(tally, random, &mut course, &mut run);
        }
    }
    for _ in 0..calls {
        step(tally, random, &mut course, &mut run, false);
    }
}

/// A sound queue of few records, most of them queued, at times with selections between.
pub fn small(tally: &mut Tally, random: &mut Random) -> (Course, History) {
    let mut course = Course::new(random);
    let count = 1 + random.below(12);
    let mut run = new(tally, random, &course, count);
    for _ in 0..2 * count {
        step(tally, random, &mut course, &mut run, true);
    }
    (course, run)
}

/// Tables at the most records and beyond: selection is refused there, before a bad window and a halted queue are looked
/// at, and in that order.
pub fn limits(tally: &mut Tally, random: &mut Random) {
    let mut course = Course::new(random);
    for count in [4096, 4097, 5000] {
        let records = vec![course.thread(random); count];
        let mut board = Board::new(tally, records);
        for halted in [false, true] {
            board.mark(halted);
            for _ in 0..16 {
                let mut peek = course.peek(random, &board);
                if random.flag() {
                    peek.window[2] = 0;
                }
                crate::selecting::select(tally, &mut board, &peek);
            }
        }
    }
}
