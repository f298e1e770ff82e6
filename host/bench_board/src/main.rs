//! The calls of a board on both sides: `bench_board --side port|rust --call CALL --kind KIND --queued N --calls C`, for
//! counts of instructions, and `bench_board --times N`, for nanoseconds.
//!
//! SIDE is port (the port's exported entries, on lent words and rows) or rust (the kernel's Rust on its own queue and
//! records, through its own access). CALL is turns (one thread is removed and enqueued again), front (the same at the
//! front), select (selections within one period, a thread removed and enqueued between), period (each selection in
//! another period, no thread exhausted), renewal (a selection at a change of period with every budget thread exhausted,
//! each on a queue of its own) or cycle (a whole cycle of a board within one period, every thread but the running one
//! prepared and enqueued before). KIND is stride (every thread in one tree), mixed (every policy and role) or budget.
//! Threads and order of calls are the same for both sides, and so is what is printed: all numbers of named threads and
//! deadlines together. `instructions` counts what the functions `bench_..` take. With --times each row is run on both
//! sides, one after the other, N times; printed are the ratio of both sides' fastest runs, which other work on the
//! machine disturbs least, and the median of the ratios of neighbouring runs with the least and the greatest.

mod sides;

use std::env;
use std::hint::black_box;
use std::process::ExitCode;
use std::time::Instant;

use kernel::oracle::*;
use sides::{PERIOD, Port, Rust, START, Side};
use tables::generator::Random;
use tables::make;
use tables::values::Picks;

/// What one cycle lasts.
const STRETCH: u64 = 1_000;

// The names by which callgrind starts and ends its count.
#[inline(never)]
fn bench_enqueue(side: &mut impl Side, id: u64) {
    side.enqueue(id);
}

#[inline(never)]
fn bench_front(side: &mut impl Side, id: u64) {
    side.enqueue_front(id);
}

#[inline(never)]
fn bench_remove(side: &mut impl Side, id: u64) {
    side.remove(id);
}

#[inline(never)]
fn bench_select(side: &mut impl Side, now: u64) -> u64 {
    side.select(now)
}

#[inline(never)]
fn bench_cycle(side: &mut impl Side, now: u64) -> (u64, u64) {
    side.cycle(now)
}

/// A board of which all threads are queued.
fn filled<S: Side>(records: &[Record]) -> S {
    let mut side = S::of(records);
    (0..records.len() as u64).for_each(|id| side.enqueue(id));
    side
}

/// What the calls named, all together, and how long they took with all that is between them.
fn run<S: Side>(call: &str, records: &[Record], calls: u64) -> Option<(u64, u128)> {
    let (mut random, queued) = (Random::new(7), records.len() as u64);
    let mut side: S = match call {
        "cycle" => {
            let mut side = S::of(records);
            side.wake(queued - 1);
            side
        }
        _ => filled(records),
    };
    let mut renewals: Vec<S> = match call {
        "renewal" => (0..calls).map(|_| filled(records)).collect(),
        _ => Vec::new(),
    };
    let mut named: u64 = 0;
    let began = Instant::now();
    for number in 0..calls {
        let id = black_box(random.below(queued));
        match call {
            "turns" => {
                bench_remove(&mut side, id);
                bench_enqueue(&mut side, id);
            }
            "front" => {
                bench_remove(&mut side, id);
                bench_front(&mut side, id);
            }
            "select" => {
                side.remove(id);
                side.enqueue(id);
                named += bench_select(&mut side, START + number % PERIOD);
            }
            "period" => {
                side.select(START);
                named += bench_select(&mut side, START + (1 + number) * PERIOD);
            }
            "renewal" => named += bench_select(&mut renewals[number as usize], START + PERIOD),
            "cycle" => {
                let (runs, due) = bench_cycle(&mut side, START + (1 + number) * STRETCH % PERIOD);
                named = named.wrapping_add(runs).wrapping_add(due);
            }
            _ => return None,
        }
    }
    Some((named, began.elapsed().as_nanos()))
}

/// A thread of this kind, its budget of the window's period and, if so, exhausted.
fn record(random: &mut Random, kind: &str, exhausted: bool) -> Option<Record> {
    let mut record = match kind {
        "stride" => make::record(random, make::Kind::Stride),
        "mixed" => make::thread(random),
        "budget" => make::record(random, make::Kind::Budget),
        _ => return None,
    };
    if record.params.policy == Policy::Budget {
        let (budget, burst) = (2_000_000, 1_000_000);
        let remaining = if exhausted { 0 } else { budget };
        record.params.budget = budget_new(budget, PERIOD, burst);
        record.runtime = Runtime::Budget(BudgetRt {
            epoch: Some(START / PERIOD),
            remaining,
            burst,
        });
    }
    Some(record)
}

/// So many threads.
fn records(call: &str, kind: &str, queued: u64) -> Option<Vec<Record>> {
    let mut random = Random::new(1);
    let exhausted = call == "renewal";
    (0..queued)
        .map(|_| record(&mut random, kind, exhausted))
        .collect()
}

fn bench(side: &str, call: &str, kind: &str, queued: u64, calls: u64) -> Option<u64> {
    let records = records(call, kind, queued)?;
    let ran = match side {
        "port" => run::<Port>(call, &records, calls),
        "rust" => run::<Rust>(call, &records, calls),
        _ => None,
    };
    ran.map(|(named, _)| named)
}

/// The rows that are timed, with the number of calls for a queue of 16.
const TIMED: [(&str, &str, u64); 12] = [
    ("turns", "stride", 5_000),
    ("turns", "mixed", 5_000),
    ("front", "stride", 5_000),
    ("front", "mixed", 5_000),
    ("select", "stride", 5_000),
    ("select", "mixed", 5_000),
    ("period", "stride", 5_000),
    ("period", "mixed", 5_000),
    ("renewal", "mixed", 200),
    ("renewal", "budget", 200),
    ("cycle", "stride", 2_000),
    ("cycle", "mixed", 2_000),
];

/// How long the runs of one row took on both sides, each in order, and the ratios of neighbouring runs, port to Rust.
struct Timed {
    port: Vec<u128>,
    rust: Vec<u128>,
    ratios: Vec<f64>,
}

fn timed(call: &str, kind: &str, queued: u64, calls: u64, times: u64) -> Option<Timed> {
    let records = records(call, kind, queued)?;
    let (mut port, mut rust, mut ratios) = (Vec::new(), Vec::new(), Vec::new());
    for _ in 0..times {
        let (ours_named, ours) = run::<Port>(call, &records, calls)?;
        let (theirs_named, theirs) = run::<Rust>(call, &records, calls)?;
        assert_eq!(
            ours_named, theirs_named,
            "{call} {kind} {queued}: both sides name the same"
        );
        port.push(ours);
        rust.push(theirs);
        ratios.push(ours as f64 / theirs as f64);
    }
    port.sort();
    rust.sort();
    ratios.sort_by(f64::total_cmp);
    Some(Timed { port, rust, ratios })
}

fn times(times: u64) -> Option<()> {
    println!(
        "{:<26}{:>8}{:>8}{:>8}{:>10}",
        "nanoseconds, port / Rust", "fastest", "median", "least", "greatest"
    );
    for (call, kind, calls) in TIMED {
        for queued in [16, 256, 4096] {
            let calls = match call {
                "renewal" => (calls * 16 / queued).max(2),
                _ => calls,
            };
            let Timed { port, rust, ratios } = timed(call, kind, queued, calls, times)?;
            let fastest = *port.first()? as f64 / *rust.first()? as f64;
            let (least, greatest) = (ratios.first()?, ratios.last()?);
            let name = format!("{call}, {queued}, {kind}");
            println!(
                "{name:<26}{fastest:>8.2}{:>8.2}{least:>8.2}{greatest:>10.2}",
                ratios[ratios.len() / 2]
            );
        }
    }
    Some(())
}

fn main() -> ExitCode {
    let words: Vec<String> = env::args().collect();
    let value = |name: &str| {
        let place = words.iter().position(|word| word == name)?;
        words.get(place + 1).map(String::as_str)
    };
    let number = |name: &str| value(name)?.parse::<u64>().ok();
    let ran = || match number("--times") {
        Some(count) => times(count.max(1)),
        None => {
            let (side, call, kind) = (value("--side")?, value("--call")?, value("--kind")?);
            let named = bench(side, call, kind, number("--queued")?, number("--calls")?)?;
            println!("{named}");
            Some(())
        }
    };
    match ran() {
        Some(()) => ExitCode::SUCCESS,
        None => {
            eprintln!(
                "usage: bench_board --side port|rust --call turns|front|select|period|renewal|cycle --kind \
                stride|mixed|budget --queued N --calls C, or --times N"
            );
            ExitCode::from(2)
        }
    }
}
