//! Compares the port's run queue with the kernel's own Rust: `compare_queue [--seed N] [--seconds S]`.
//!
//! First tables at their limits and a queue of 4,096, then seeded random runs for S seconds. After each call the
//! answer, the queue and every record are compared; where document 01 adds a refusal, it decides. The last line is
//! `differs 0`, or `differs N` with the first differing inputs above it and exit code 1.

use std::process::ExitCode;

use compare_queue::{damaged, sound};
use tables::generator::Random;
use tables::run;
use tables::tally::Tally;
use tables::values::Picks;

/// Tables at their limits, paths at theirs, and a queue of 4,096.
fn first(tally: &mut Tally, random: &mut Random) {
    sound::limits(tally, random);
    damaged::long_paths(tally, random);
    sound::filled(tally, random, 4096, 200);
}

/// A round of seeded runs: damaged queues, small ones, and a larger one, at times of 4,096.
fn round(tally: &mut Tally, random: &mut Random, number: u64) {
    for _ in 0..32 {
        damaged::parts(tally, random);
        damaged::touched(tally, random);
        damaged::words(tally, random);
        let count = 1 + random.below(64);
        sound::seeded(tally, random, count, 8 * count);
    }
    let count = match number % 256 {
        255 => 4096,
        _ => random.of([256, 300, 512]),
    };
    sound::filled(tally, random, count, 64);
}

fn main() -> ExitCode {
    run::compare("compare_queue", first, round)
}
