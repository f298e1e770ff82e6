//! Compares the port with the kernel's own Rust over calls mixed as on a board: `compare_board [--seed N] [--seconds S
//! | --minutes M]`.
//!
//! Threads are prepared and enqueued, chosen by selection and the switch rule, removed, charged with the window, and
//! their deadlines set, over one table, one queue, one window and one pair of turn counters that go from call to call;
//! sound boards to 4,096 records, damaged and halted ones. After each call its answer, counters or window, the queue
//! and every record are compared; where document 01 adds a refusal, it decides; where demand 3's premises hold, a scan
//! over all queued threads judges the selection too. The last line is `differs 0`, or `differs N` with the first
//! differing inputs above it and exit code 1.

mod board;
mod runs;

use std::process::ExitCode;

use tables::generator::Random;
use tables::run;
use tables::tally::Tally;
use tables::values::Picks;

/// A board of 4,096 threads.
fn first(tally: &mut Tally, random: &mut Random) {
    runs::filled(tally, random, 4096, 50);
}

/// A round of seeded runs: damaged boards, small ones, and a larger one, at times of 4,096.
fn round(tally: &mut Tally, random: &mut Random, number: u64) {
    for _ in 0..32 {
        runs::damaged(tally, random);
    }
    for _ in 0..16 {
        let count = 1 + random.below(64);
        runs::seeded(tally, random, count, 8 * count);
    }
    let count = match number % 64 {
        63 => 4096,
        _ => random.of([256, 300, 512]),
    };
    runs::filled(tally, random, count, 64);
}

fn main() -> ExitCode {
    run::compare("compare_board", first, round)
}
