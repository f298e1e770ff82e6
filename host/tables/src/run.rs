//! The frame of a comparison: its options, its rounds until the time is up, its report.

use std::env;
use std::process::ExitCode;
use std::time::{Duration, Instant};

use crate::generator::Random;
use crate::tally::Tally;

/// `--seed N` and `--seconds S` or `--minutes M`, else 1 and 5 seconds; none where a word is not one of them.
fn options() -> Option<(u64, u64)> {
    let (mut seed, mut seconds) = (1, 5);
    let mut words = env::args().skip(1);
    while let Some(word) = words.next() {
        let number = words.next()?.parse().ok()?;
        match word.as_str() {
            "--seed" => seed = number,
            "--seconds" => seconds = number,
            "--minutes" => seconds = 60 * number,
            _ => return None,
        }
    }
    Some((seed, seconds))
}

/// What is compared first, then rounds by their number for the given seconds, at least one; the last line is `differs
/// N`.
pub fn compare(
    program: &str,
    first: impl FnOnce(&mut Tally, &mut Random),
    mut round: impl FnMut(&mut Tally, &mut Random, u64),
) -> ExitCode {
    let Some((seed, seconds)) = options() else {
        eprintln!("usage: {program} [--seed N] [--seconds S | --minutes M]");
        return ExitCode::from(2);
    };
    let (mut tally, mut random) = (Tally::default(), Random::new(seed));
    first(&mut tally, &mut random);
    let (began, time) = (Instant::now(), Duration::from_secs(seconds));
    for number in 0.. {
        round(&mut tally, &mut random, number);
        if began.elapsed() >= time {
            break;
        }
    }
    match tally.report() {
        0 => ExitCode::SUCCESS,
        _ => ExitCode::FAILURE,
    }
}
