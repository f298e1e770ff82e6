//! Compares the port's lift record with what document 02 says of it: `compare_record [--seed N] [--seconds S]`.
//!
//! The source has no lift record; the judge is written from document 02's sentences over all runs of a list (judge.rs),
//! and for lists that are only said to be in order from the definition of halving. First every list of up to three runs
//! over small numbers, in order and not, with every reading, width and place about them, and every count of words to
//! 11; then seeded lists for S seconds: up to some thousand runs, times near 2^64, damaged lists, and lists that grow
//! run by run. Of each call its number and what it stores are compared. The last line is `differs 0`, or `differs N`
//! with the first differing inputs above it and exit code 1.

mod both;
mod judge;
mod seeded;
mod small;

use std::process::ExitCode;

use tables::generator::Random;
use tables::run;
use tables::tally::Tally;
use tables::values::Picks;

fn first(tally: &mut Tally, _: &mut Random) {
    small::every(tally);
}

/// A round of seeded lists: short ones, and one of some hundred or thousand runs.
fn round(tally: &mut Tally, random: &mut Random, number: u64) {
    for _ in 0..64 {
        let count = 1 + random.below(24);
        seeded::sound(tally, random, count, 8);
        seeded::damaged(tally, random, count);
        seeded::growing(tally, random, count);
        seeded::played(tally, random, count);
    }
    let count = match number % 16 {
        0 => 4096,
        _ => 100 + random.below(400),
    };
    seeded::sound(tally, random, count, 16);
    seeded::damaged(tally, random, count);
}

fn main() -> ExitCode {
    run::compare("compare_record", first, round)
}
