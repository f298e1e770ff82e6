//! Compares the port's preparing, accounting, switch rule and deadlines with the kernel's own Rust: `compare_runtime
//! [--seed N] [--seconds S]`.
//!
//! First every pair of policies for the switch rule, all small values, and boundary values in combination, then seeded
//! random runs for S seconds. After each call the answer, the counters or the window, and every record are compared.
//! The last line is `differs 0`, or `differs N` with the first differing inputs above it and exit code 1.

use std::process::ExitCode;

use compare_runtime::runs;
use tables::generator::Random;
use tables::run;
use tables::tally::Tally;

/// As many numbers of a product of boundary values as are tried.
const LIMIT: u128 = 300_000;

/// Tables at their limits, every pair of policies, all small values, and boundary values.
fn first(tally: &mut Tally, random: &mut Random) {
    runs::large(tally, random);
    runs::every_pair(tally);
    runs::small(tally);
    runs::boundary(tally, LIMIT);
}

fn round(tally: &mut Tally, random: &mut Random, _: u64) {
    runs::round(tally, random);
    runs::sequence(tally, random);
}

fn main() -> ExitCode {
    run::compare("compare_runtime", first, round)
}
