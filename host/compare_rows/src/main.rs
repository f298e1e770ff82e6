//! Compares the port's trees and lists over rows with the kernel's own Rust: `compare_rows [--seed N] [--seconds S]`;
//! and the byte images with what writing again gives what was read.
//!
//! First every order of few keys, and paths and tables at their limits, then seeded random runs for S seconds. After
//! each call the answer, the root or the list, and every record are compared. The last line is `differs 0`, or
//! `differs N` with the first differing inputs above it and exit code 1. The source knows no limit of records, and
//! hands a number outside back as any other error: what document 01 refuses before, the host knows by rule.

mod calls;
mod image_runs;
mod list_runs;
mod lists;
mod port;
mod tree_runs;
mod trees;

use std::process::ExitCode;

use tables::generator::Random;
use tables::tally::Tally;
use tables::values::Picks;
use tables::{make, rows, run};

/// Encoder and decoder agree, and the rows of a table are read as the records they were made of.
fn layout(tally: &mut Tally, random: &mut Random) {
    for _ in 0..100_000 {
        let mut record = make::record(random, make::Kind::Any);
        record.tree.left = make::link(random, 8);
        record.list.next = make::link(random, 8);
        record.membership = make::membership(random);
        let again = rows::record_of(&rows::row_of(&record));
        tally.compare("row of a record, read back", record, again, record);
    }
}

/// The layout, every order of few keys, paths at their limit, and tables at theirs.
fn first(tally: &mut Tally, random: &mut Random) {
    layout(tally, random);
    image_runs::limits(tally, random);
    tree_runs::every_order(tally);
    tree_runs::long_paths(tally);
    tree_runs::limits(tally);
    list_runs::limits(tally, random);
}

/// A round of seeded runs: damaged tables, small ones, and a larger one, at times of 4,096.
fn round(tally: &mut Tally, random: &mut Random, number: u64) {
    if number % 16 == 0 {
        tree_runs::large(tally, random, 4096);
        list_runs::seeded(tally, random, 4096, 200);
    }
    for _ in 0..64 {
        image_runs::seeded(tally, random);
        tree_runs::damaged(tally, random);
        list_runs::damaged(tally, random);
        let count = 1 + random.below(64);
        tree_runs::seeded(tally, random, count, 8 * count);
        list_runs::seeded(tally, random, count, 8 * count);
    }
    let count = random.of([256, 1000, 2048]);
    tree_runs::large(tally, random, count);
    list_runs::seeded(tally, random, count, 64);
}

fn main() -> ExitCode {
    run::compare("compare_rows", first, round)
}
