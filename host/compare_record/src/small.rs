//! Every list of few runs over small numbers, in order and not, with every reading, width and place about them.

use board::words::{PlaceWords, RUN_WORDS};
use tables::tally::Tally;

use crate::{both, judge};

const MOST_RUNS: usize = 3;
/// Starts and ends.
const TIMES: u64 = 4;
/// Readings and widths.
const READINGS: u64 = 6;
/// Counts of words that are tried, of which every third is of whole runs.
const MOST_WORDS: usize = 11;
const NO_NUMBER: u64 = u64::MAX;

/// The list of so many runs with this number: its starts and ends are the number's digits. A thread is any number.
fn list(count: usize, number: u64) -> Vec<u64> {
    let digit = |place: usize| number / TIMES.pow(place as u32) % TIMES;
    let run = |k: usize| [digit(2 * k), digit(2 * k + 1), NO_NUMBER - k as u64];
    (0..count).flat_map(run).collect()
}

/// All of them: none, one, two and three runs.
fn lists() -> impl Iterator<Item = Vec<u64>> {
    let of = |count: usize| (0..TIMES.pow(2 * count as u32)).map(move |number| list(count, number));
    (0..=MOST_RUNS).flat_map(of)
}

/// Every reading with every width.
fn readings() -> impl Iterator<Item = (u64, u64)> {
    (0..READINGS).flat_map(|now| (0..READINGS).map(move |width| (now, width)))
}

/// Every width, earlier and new reading.
fn moves() -> impl Iterator<Item = (u64, u64, u64)> {
    (0..READINGS).flat_map(|width| readings().map(move |(earlier, now)| (width, earlier, now)))
}

/// Numbers of runs in and about a list.
fn numbers(list: &[u64]) -> impl Iterator<Item = u64> + Clone {
    let count = (list.len() / RUN_WORDS) as u64;
    (0..=count + 1).chain([NO_NUMBER])
}

fn places(list: &[u64]) -> impl Iterator<Item = PlaceWords> {
    let counts = numbers(list);
    numbers(list).flat_map(move |first| counts.clone().map(move |count| [first, count]))
}

fn searches(tally: &mut Tally, list: &[u64]) {
    for (now, width) in readings() {
        both::lift(tally, list, now, width);
        for ordered in numbers(list) {
            both::lift_from(tally, list, ordered, now, width);
        }
    }
}

/// Of a list in order with every place, of another, which is refused whatever the place is, with one.
fn slides(tally: &mut Tally, list: &[u64]) {
    let tried = if judge::in_order_since(list, 0) {
        usize::MAX
    } else {
        1
    };
    for (width, earlier, now) in moves() {
        for place in places(list).take(tried) {
            both::slide(tally, list, width, earlier, place, now);
        }
    }
}

fn appends(tally: &mut Tally, list: &[u64]) {
    for known in numbers(list) {
        for time in 0..TIMES * TIMES {
            let run = [time / TIMES, time % TIMES, NO_NUMBER];
            both::append(tally, &mut list.to_vec(), known, &run);
        }
    }
}

/// The first words of every list with zeros behind it: whole runs or not, in order or not.
fn word_counts(tally: &mut Tally) {
    for mut list in lists() {
        list.resize(MOST_WORDS, 0);
        for count in 0..=MOST_WORDS {
            let words = &list[..count];
            let place = both::lift(tally, words, 2, 1);
            both::lift_from(tally, words, 1, 2, 1);
            both::lift_from(tally, words, NO_NUMBER, 2, 1);
            both::slide(tally, words, 1, 2, place, 3);
            both::append(tally, &mut words.to_vec(), 1, &[3, 3, 0]);
        }
    }
}

pub fn every(tally: &mut Tally) {
    for list in lists() {
        searches(tally, &list);
        slides(tally, &list);
        appends(tally, &list);
    }
    word_counts(tally);
}
