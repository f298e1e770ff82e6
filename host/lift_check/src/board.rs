//! A board over the unchanged source: the threads of a lift, and the cycle of wake, choose, switch, deadline and
//! account.

use kernel::oracle::*;

pub const NAMES: [&str; 8] = [
    "hook A sway 1",
    "hook A sway 2",
    "hook B sway 1",
    "hook B sway 2",
    "brake",
    "drive",
    "log",
    "idle",
];

const IDLE: u64 = 7;
const PERIOD: u64 = 10_000_000;

/// A sway loop: a budget of 2,000,000 in 10,000,000, at most 1,000,000 at a stretch.
fn sway() -> Record {
    let budget = budget_new(2_000_000, PERIOD, 1_000_000).expect("a budget");
    let full = BudgetRt {
        epoch: None,
        remaining: budget.budget,
        burst: budget.burst,
    };
    let params = params_budget(budget, 128, Role::Protected);
    Record::new(params, Runtime::Budget(full), 0, 0)
}

fn fifo(priority: u8, role: Role) -> Record {
    Record::new(params_fifo(priority, 128, role), Runtime::Fifo, 0, 0)
}

fn log() -> Record {
    let params = params_fair(16, 4_000_000, 128, Role::Ordinary, Backend::Stride);
    let given = Runtime::Fair {
        pass: 0,
        remaining: 4_000_000,
    };
    Record::new(params.expect("a quantum"), given, 0, 0)
}

fn threads() -> Vec<Record> {
    vec![
        sway(),
        sway(),
        sway(),
        sway(),
        fifo(1, Role::Ordinary),
        fifo(2, Role::Priority),
        log(),
        Record::new(params_idle(), Runtime::Idle, 0, 0),
    ]
}

/// A thread that wakes, and how long it works before it waits again.
pub struct Wake {
    pub at: u64,
    pub thread: u64,
    pub work: u64,
}

/// Who runs from a reading on, with the key, if any, and the deadline.
pub struct Running {
    pub at: u64,
    pub thread: u64,
    pub key: Option<(Key, Mode)>,
    pub deadline: Option<u64>,
}

pub struct Board {
    processor: Processor,
    records: Vec<Record>,
    turns: Turns,
    work: [u64; 8],
}

impl Board {
    pub fn new() -> Self {
        let config = config_new(PERIOD, 2_000_000, 3_000_000, DEFAULT_ORDER);
        let mut records = threads();
        records[IDLE as usize].running = true;
        Self {
            processor: Processor {
                cpu: 0,
                current: IDLE,
                queue: Queue::EMPTY,
                window: window_new(config.expect("a configuration")),
                now: Some(0),
                mode: Mode::Ordinary,
                armed_deadline: None,
                deadline_generation: 0,
                fair_floor: 0,
            },
            records,
            turns: Turns::NEW,
            work: [0, 0, 0, 0, 0, 0, 0, u64::MAX],
        }
    }

    pub fn now(&self) -> u64 {
        self.processor.now.unwrap_or(0)
    }

    fn rules(&self) -> Rules {
        Rules::port(self.records.len())
    }

    fn enqueue(&mut self, thread: u64, front: bool) -> Answer<()> {
        let now = self.now();
        let record = &mut self.records[thread as usize];
        prepare_enqueue(&mut self.turns, record, front, now)?;
        let (queue, records) = (&mut self.processor.queue, &mut self.records[..]);
        match front {
            true => enqueue_front(queue, records, thread, 0),
            false => enqueue(queue, records, thread, 0),
        }
    }

    pub fn wake(&mut self, wake: &Wake) -> Answer<()> {
        self.work[wake.thread as usize] = wake.work;
        self.enqueue(wake.thread, false)
    }

    /// The switch, if the source wants one; the processor idles where nobody is left.
    fn switch(&mut self) -> Answer<()> {
        let current = self.processor.current;
        let rules = self.rules();
        let chosen = choose_ready(rules, &mut self.processor, &mut self.records, false)?;
        let running = self.records[current as usize].running;
        let next = match chosen {
            Some((next, front)) => {
                self.records[current as usize].running = false;
                if running && current != IDLE {
                    self.enqueue(current, front)?;
                }
                remove(&mut self.processor.queue, &mut self.records, next, 0)?;
                next
            }
            None if running => current,
            None => IDLE,
        };
        self.processor.current = next;
        self.records[next as usize].running = true;
        Ok(())
    }

    /// The running thread's key by the demand of all, on a copy of everything.
    fn key(&self) -> Answer<Option<(Key, Mode)>> {
        let (mut processor, mut records) = (self.processor, self.records.clone());
        let Some(current) = current_candidate(&mut processor, &mut records)? else {
            return Ok(None);
        };
        let (queue, window) = (&mut processor.queue, &mut processor.window);
        let now = self.now();
        let selection = peek_next(queue, &mut records, 0, now, window, Some(current))?;
        let key = window_candidate_key(*window, now, current, selection.demand);
        Ok(key.expect("a key or none").1)
    }

    /// Who runs now, and until when at the latest.
    pub fn dispatch(&mut self) -> Answer<Running> {
        self.switch()?;
        let rules = self.rules();
        refresh_deadline(rules, &mut self.processor, &mut self.records)?;
        Ok(Running {
            at: self.now(),
            thread: self.processor.current,
            key: self.key()?,
            deadline: self.processor.armed_deadline,
        })
    }

    /// When the running thread's work is done.
    pub fn done_at(&self) -> u64 {
        let work = self.work[self.processor.current as usize];
        self.now().saturating_add(work)
    }

    /// The running thread charged up to this reading; it waits from there on where its work is done.
    pub fn run_until(&mut self, reading: u64) -> Answer<()> {
        let ran = reading - self.now();
        account_processor(&mut self.processor, &mut self.records, Some(reading))?;
        let current = self.processor.current as usize;
        self.work[current] = self.work[current].saturating_sub(ran);
        if self.work[current] == 0 {
            self.records[current].running = false;
        }
        Ok(())
    }
}
