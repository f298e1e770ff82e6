//! Records calls with the answers of the kernel's own Rust: `record [--seed N] [--cases N] PATH`.
//!
//! Cases are histories of sound queues and of damaged ones, on tables of up to 32 records and at the limit of 4,096; in
//! each, calls of every kind follow one another. A line of the list is a call with its answer, or the words that it is
//! brought; after each call one number stands for all words of table, queue, window and answers. Queue calls and
//! selections are made by the port too, through the packages of the comparisons. What was compared is printed; the list
//! is written only where the last line is `differs 0`.

mod calls;
mod cases;
mod state;

use std::process::ExitCode;
use std::{env, fs};

const USAGE: &str = "usage: record [--seed N] [--cases N] PATH";

struct Options {
    seed: u64,
    cases: u64,
    path: String,
}

fn options() -> Option<Options> {
    let (mut seed, mut cases, mut path) = (1, 120, None);
    let mut words = env::args().skip(1);
    while let Some(word) = words.next() {
        match word.as_str() {
            "--seed" => seed = words.next()?.parse().ok()?,
            "--cases" => cases = words.next()?.parse().ok()?,
            _ if path.is_none() => path = Some(word),
            _ => return None,
        }
    }
    Some(Options {
        seed,
        cases,
        path: path?,
    })
}

fn main() -> ExitCode {
    let Some(options) = options() else {
        eprintln!("{USAGE}");
        return ExitCode::from(2);
    };
    let head = format!(
        "# Calls with the answers of the unchanged Rust, written by host/record --seed {} --cases {}; \
         program cases runs them. The letters of the steps are those of\n\
         # crates/cases/stdin. The text is in blocks of 65,536 bytes, each of whole cases, filled up with a comment.\n",
        options.seed, options.cases
    );
    let run = cases::recorded(options.seed, options.cases, head);
    println!("{:>12} calls recorded", run.state.calls);
    if run.tally.report() != 0 {
        return ExitCode::FAILURE;
    }
    match fs::write(&options.path, &run.state.lines) {
        Ok(()) => ExitCode::SUCCESS,
        Err(error) => {
            eprintln!("cannot write {}: {error}", options.path);
            ExitCode::FAILURE
        }
    }
}
