//! One call on a lift record, C times: `bench_record --call CALL --runs N --moved M --calls C`.
//!
//! The list has N runs with nothing between them. CALL is lift (a search that names all runs), lift_from (the same with
//! all runs taken for in order: one halving goes down at every step, the other up), behind (a slide of a stretch that
//! covers one run, which leaves M runs behind), ahead (a slide of a stretch that begins with the list, which takes in M
//! runs), append (the last run is recorded), order or order_slide (a search or a slide that is refused for a word
//! behind the last run, so that nothing but the order of all runs was looked at). Printed is what the calls answered,
//! all together. `instructions` counts what `bench_call` takes.

use std::env;
use std::hint::black_box;
use std::process::ExitCode;

use board::words::{self, PLACE_WORDS, PlaceWords, RUN_WORDS, SLID_WORDS};

/// How long a run is.
const RUN_NS: u64 = 100;

#[derive(Clone, Copy)]
enum Call {
    Lift,
    LiftFrom,
    Slide {
        width_ns: u64,
        place: PlaceWords,
        now_ns: u64,
    },
    Append,
}

/// Slides begin at the end of the first run.
fn call_of(name: &str, moved: u64) -> Option<Call> {
    let slide = |width_ns| Call::Slide {
        width_ns,
        place: [0, 1],
        now_ns: RUN_NS * (1 + moved),
    };
    Some(match name {
        "lift" | "order" => Call::Lift,
        "lift_from" => Call::LiftFrom,
        "behind" | "order_slide" => slide(RUN_NS),
        "ahead" => slide(u64::MAX),
        "append" => Call::Append,
        _ => return None,
    })
}

fn run(number: u64) -> [u64; RUN_WORDS] {
    [RUN_NS * number, RUN_NS * (number + 1), number % 8]
}

// The name by which callgrind starts and ends its count.
#[inline(never)]
fn bench_call(list: &mut [u64], runs: u64, call: Call) -> [u64; 4] {
    let (mut place, mut slid) = ([0; PLACE_WORDS], [0; SLID_WORDS]);
    let (now, all) = (RUN_NS * runs, u64::MAX);
    match call {
        Call::Lift => {
            let number = words::lift(list, now, all, &mut place);
            [number, place[0], place[1], 0]
        }
        Call::LiftFrom => {
            let number = words::lift_from(list, runs, now, all, &mut place);
            [number, place[0], place[1], 0]
        }
        Call::Slide {
            width_ns,
            place,
            now_ns,
        } => {
            let number = words::slide(list, width_ns, RUN_NS, place, now_ns, &mut slid);
            [number, slid[0], slid[1], slid[2]]
        }
        Call::Append => [words::append(list, runs - 1, &run(runs - 1)), 0, 0, 0],
    }
}

/// What the calls answered, all together.
fn calls(call: Call, runs: u64, behind: &[u64], times: u64) -> [u64; 4] {
    let mut list: Vec<u64> = (0..runs).flat_map(run).collect();
    list.extend(behind);
    let mut answered = [0; 4];
    for _ in 0..times {
        let answer = bench_call(black_box(&mut list), black_box(runs), black_box(call));
        for (sum, word) in answered.iter_mut().zip(answer) {
            *sum += word;
        }
    }
    answered
}

fn main() -> ExitCode {
    let words: Vec<String> = env::args().collect();
    let value = |name: &str| {
        let place = words.iter().position(|word| word == name)?;
        words.get(place + 1).map(String::as_str)
    };
    let number = |name: &str| value(name)?.parse::<u64>().ok();
    let ran = || {
        let name = value("--call")?;
        let call = call_of(name, number("--moved")?)?;
        let behind: &[u64] = if name.starts_with("order") { &[0] } else { &[] };
        Some(calls(call, number("--runs")?, behind, number("--calls")?))
    };
    match ran() {
        Some(answered) => {
            println!("{answered:?}");
            ExitCode::SUCCESS
        }
        None => {
            eprintln!(
                "usage: bench_record --call lift|lift_from|behind|ahead|append|order|order_slide --runs N \
                --moved M --calls C"
            );
            ExitCode::from(2)
        }
    }
}
