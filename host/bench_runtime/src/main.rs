//! One call on a table of 16 threads, C times: `bench_runtime --side port|rust --call CALL --kind KIND --calls C`.
//!
//! SIDE is port (the port through C, on lent rows and words) or rust (the kernel's Rust on its own records). CALL is
//! prepare (`prepare_enqueue`), account (`account_current`), switch (`choose_ready` for a given selection, so with the
//! current candidate, its key and whether its turn expired), deadline (`refresh_deadline` for a given selection, so
//! with the current candidate and its key) or finish (`finish_turn`). KIND is the running thread's policy: fifo, fair
//! or budget. `instructions` counts what `bench_call` takes.

use std::env;
use std::hint::black_box;
use std::process::ExitCode;

use board::words::{self, DemandWords, KeyWords, Row, WindowWords};
use kernel::oracle::{
    Backend, BudgetRt, DEFAULT_ORDER, Demand, KeptScheduler, Key, Policy, Ready, Record, Role,
    Runtime, Window, budget_new, config_new, params_budget, params_fair, params_fifo, window_new,
};
use tables::rows::row_of;
use tables::windows::{demand_words, key_words, window_words};

const PERIOD: u64 = 10_000_000;

fn window() -> Window {
    let config = config_new(PERIOD, 2_000_000, 3_000_000, DEFAULT_ORDER);
    window_new(config.expect("a sound configuration"))
}

const DEMAND: Demand = Demand {
    protected: true,
    fair: true,
    window_sensitive: false,
    eligible_budget: true,
    any_budget: true,
};

/// A ready thread that the running one does not give way to.
fn ready() -> Ready {
    Ready {
        number: 1,
        policy: Policy::Fair,
        key: Key {
            urgency: 2,
            rank: 2,
            algorithm_rank: 1,
            algorithm: 99,
            band: 128,
            turn: 99,
        },
    }
}

fn record(kind: &str) -> Option<Record> {
    let budget = budget_new(2_000_000, PERIOD, 1_000_000)?;
    let (params, runtime) = match kind {
        "fifo" => (params_fifo(5, 128, Role::Priority), Runtime::Fifo),
        "fair" => (
            params_fair(16, 5_000_000, 128, Role::Ordinary, Backend::Stride)?,
            Runtime::Fair {
                pass: 7,
                remaining: 5_000_000,
            },
        ),
        "budget" => (
            params_budget(budget, 128, Role::Protected),
            Runtime::Budget(BudgetRt {
                epoch: Some(0),
                remaining: budget.budget,
                burst: budget.burst,
            }),
        ),
        _ => return None,
    };
    Some(Record {
        running: true,
        ..Record::new(params, runtime, 5, 0)
    })
}

#[derive(Clone, Copy)]
enum Call {
    Prepare,
    Account,
    Switch,
    Deadline,
    Finish,
}

fn call_of(name: &str) -> Option<Call> {
    Some(match name {
        "prepare" => Call::Prepare,
        "account" => Call::Account,
        "switch" => Call::Switch,
        "deadline" => Call::Deadline,
        "finish" => Call::Finish,
        _ => return None,
    })
}

/// What a call answers is the same for both sides.
trait Side {
    fn of(records: &[Record]) -> Self;
    fn set_reading(&mut self, reading: u64);
    fn call(&mut self, call: Call, reading: u64) -> u64;
}

/// What a board keeps and lends.
struct Port {
    rows: Vec<Row>,
    window: WindowWords,
    turns: [u64; 2],
    last: u64,
    ready: KeyWords,
    demand: DemandWords,
    current: Row,
    key: KeyWords,
}

impl Port {
    /// The current candidate and its key, as a board asks for them.
    fn look(&mut self, reading: u64) {
        let (window, current) = (&mut self.window, &mut self.current);
        words::candidate(&mut self.rows, 0, 1, reading, current);
        words::key(window, reading, current, &self.demand, &mut self.key);
    }

    // Apart from the small calls, as the source's are, so that these do not set up its frame.
    #[inline(never)]
    fn switch(&mut self, reading: u64) -> u64 {
        self.look(reading);
        let (mut expired, mut choice) = ([0; 1], [0; 2]);
        words::expired(&self.rows, 0, &mut expired);
        let row = &self.rows[0];
        words::switch(&self.ready, &self.key, row, expired[0], 0, 0, &mut choice);
        if expired[0] != 0 {
            words::finish(&mut self.rows, 0);
        }
        choice[0]
    }

    #[inline(never)]
    fn deadline(&mut self, reading: u64) -> u64 {
        self.look(reading);
        let mut due = [0; 2];
        let (rows, window, demand) = (&mut self.rows, &mut self.window, &self.demand);
        words::deadline(
            rows, 0, reading, &self.key, window, 1, 1, 1, demand, &mut due,
        );
        due[1]
    }
}

impl Side for Port {
    fn of(records: &[Record]) -> Self {
        let mut ready = key_words(self::ready().key);
        ready[0] = 1;
        Self {
            rows: records.iter().map(row_of).collect(),
            window: window_words(window()),
            turns: [1 << 63; 2],
            last: 0,
            ready,
            demand: demand_words(DEMAND),
            current: [0; 32],
            key: [0; 9],
        }
    }

    fn set_reading(&mut self, _: u64) {}

    fn call(&mut self, call: Call, reading: u64) -> u64 {
        match call {
            Call::Prepare => words::prepare(&mut self.rows, 0, 0, reading, &mut self.turns),
            Call::Account => {
                let start = std::mem::replace(&mut self.last, reading);
                words::account(&mut self.rows, 0, &mut self.window, 3, start, reading)
            }
            Call::Switch => self.switch(reading),
            Call::Deadline => self.deadline(reading),
            Call::Finish => words::finish(&mut self.rows, 0),
        }
    }
}

impl Side for KeptScheduler {
    fn of(records: &[Record]) -> Self {
        KeptScheduler::of(records, window(), 0, Some(ready()), DEMAND)
    }

    fn set_reading(&mut self, reading: u64) {
        KeptScheduler::set_clock(reading);
    }

    fn call(&mut self, call: Call, reading: u64) -> u64 {
        match call {
            Call::Prepare => self.prepare(false, reading),
            Call::Account => self.account().expect("an accepted interval"),
            Call::Switch => return self.choose().expect("a choice").into(),
            Call::Deadline => return self.deadline().expect("a deadline").unwrap_or(0),
            Call::Finish => self.finish(),
        }
        0
    }
}

// The name by which callgrind starts and ends its count.
#[inline(never)]
fn bench_call(side: &mut impl Side, call: Call, reading: u64) -> u64 {
    side.call(call, reading)
}

/// What the calls answered, all together: the same for both sides.
fn run<S: Side>(call: Call, kind: &str, calls: u64) -> Option<u64> {
    let mut side = S::of(&vec![record(kind)?; 16]);
    let mut answered: u64 = 0;
    for number in 0..calls {
        // Within a period, where the source's own reading stays that of the last accounting.
        let reading = match call {
            Call::Prepare | Call::Account => number * 100,
            Call::Switch | Call::Deadline | Call::Finish => 0,
        };
        side.set_reading(reading);
        answered = answered.wrapping_add(bench_call(&mut side, call, black_box(reading)));
    }
    Some(answered)
}

fn main() -> ExitCode {
    let words: Vec<String> = env::args().collect();
    let value = |name: &str| {
        let place = words.iter().position(|word| word == name)?;
        words.get(place + 1).map(String::as_str)
    };
    let ran = || {
        let calls = value("--calls")?.parse().ok()?;
        let (call, kind) = (call_of(value("--call")?)?, value("--kind")?);
        match value("--side")? {
            "port" => run::<Port>(call, kind, calls),
            "rust" => run::<KeptScheduler>(call, kind, calls),
            _ => None,
        }
    };
    match ran() {
        Some(answered) => {
            println!("{answered}");
            ExitCode::SUCCESS
        }
        None => {
            eprintln!(
                "usage: bench_runtime --side port|rust --call prepare|account|switch|deadline|finish --kind \
                fifo|fair|budget --calls C"
            );
            ExitCode::from(2)
        }
    }
}
