//! Compares the port's leaf crates with the kernel's own Rust: `compare [--seed N] [--seconds S] [--limit N]`.
//!
//! First the boundary values in combination, then seeded random runs for S seconds. The last line is
//! `differs 0`, or `differs N` with the first differing inputs above it and exit code 1.

mod boundary;
mod calls;
mod checks;
mod expected;
mod port;
mod random;
mod words;

use std::env;
use std::process::ExitCode;
use std::time::Duration;

use tables::tally::Tally;

const USAGE: &str = "usage: compare [--seed N] [--seconds S] [--limit N]";

struct Options {
    seed: u64,
    seconds: u64,
    /// Comparisons of a product of boundary values, at most about.
    limit: u64,
}

fn options() -> Option<Options> {
    let mut options = Options {
        seed: 1,
        seconds: 5,
        limit: 1_000_000,
    };
    let mut words = env::args().skip(1);
    while let Some(word) = words.next() {
        let number = words.next()?.parse().ok()?;
        match word.as_str() {
            "--seed" => options.seed = number,
            "--seconds" => options.seconds = number,
            "--limit" => options.limit = number,
            _ => return None,
        }
    }
    Some(options)
}

fn main() -> ExitCode {
    let Some(options) = options() else {
        eprintln!("{USAGE}");
        return ExitCode::from(2);
    };
    let mut tally = Tally::default();
    boundary::run(&mut tally, options.limit.into());
    random::run(
        &mut tally,
        options.seed,
        Duration::from_secs(options.seconds),
    );
    match tally.report() {
        0 => ExitCode::SUCCESS,
        _ => ExitCode::FAILURE,
    }
}
