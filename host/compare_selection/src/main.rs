//! Compares the port's selection with the kernel's own Rust: `compare_selection [--seed N] [--seconds S]`.
//!
//! Runs mix enqueues at either end, removals and selections, on sound queues and on damaged ones. After each call
//! answer, window, queue and every record are compared; where document 01 adds a refusal, it decides. On sound queues a
//! plain scan over all queued threads judges each selection where demand 3's premises hold. What was noted beside the
//! comparisons stands in brackets. The last line is `differs 0`, or `differs N` with the first differing inputs above
//! it and exit code 1.

use std::process::ExitCode;

use compare_selection::sound::Course;
use compare_selection::{damaged, sound};
use tables::generator::Random;
use tables::run;
use tables::tally::Tally;
use tables::values::Picks;

/// Tables at their limits, paths at theirs, and a queue of 4,096.
fn first(tally: &mut Tally, random: &mut Random) {
    sound::limits(tally, random);
    damaged::long_paths(tally, random);
    let course = Course::steady(random);
    sound::filled(tally, random, course, 4096, 200);
}

/// A round of seeded runs: damaged queues, small ones, and a larger one, at times of 4,096.
fn round(tally: &mut Tally, random: &mut Random, number: u64) {
    for _ in 0..32 {
        damaged::parts(tally, random);
        damaged::touched(tally, random);
        damaged::tangled(tally, random);
        damaged::words(tally, random);
    }
    for _ in 0..16 {
        let count = 1 + random.below(64);
        sound::seeded(tally, random, count, 8 * count);
    }
    let count = match number % 64 {
        63 => 4096,
        _ => random.of([256, 300, 512]),
    };
    let course = Course::new(random);
    sound::filled(tally, random, course, count, 64);
}

fn main() -> ExitCode {
    run::compare("compare_selection", first, round)
}
