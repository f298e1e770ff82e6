//! Seeded lists: some thousand runs, times near 2^64, damaged ones, and such as grow run by run.

use board::words::{RUN_END, RUN_START, RUN_WORDS, RunWords};
use tables::generator::Random;
use tables::tally::Tally;
use tables::values::Picks;

use crate::both;

/// From when on and how far apart the runs of a list are.
struct Course {
    begin: u64,
    gap: u64,
}

impl Course {
    /// About 0, anywhere, or so that the last runs lie at the greatest reading.
    fn new(random: &mut Random, count: u64) -> Self {
        let gap = random.of([2, 5, 1000, 10_000_000]);
        let begin = match random.below(3) {
            0 => random.below(gap),
            1 => random.number(),
            _ => u64::MAX - random.below(gap.saturating_mul(count + 1)),
        };
        Self { begin, gap }
    }

    /// At once or a while later.
    fn later(&self, random: &mut Random, time: u64) -> u64 {
        let step = match random.below(3) {
            0 => 0,
            _ => random.below(self.gap),
        };
        time.saturating_add(step)
    }

    /// Runs in order.
    fn runs(&self, random: &mut Random, count: u64) -> Vec<u64> {
        let (mut list, mut time) = (Vec::new(), self.begin);
        for _ in 0..count {
            let start = self.later(random, time);
            time = self.later(random, start);
            list.extend([start, time, random.below(8)]);
        }
        list
    }
}

fn count(list: &[u64]) -> u64 {
    (list.len() / RUN_WORDS) as u64
}

/// A start or an end of a list, or one beside it.
fn reading(random: &mut Random, list: &[u64]) -> u64 {
    if count(list) == 0 || random.below(16) == 0 {
        return random.number();
    }
    let run = RUN_WORDS * random.below(count(list)) as usize;
    let edge = list[run + random.of([RUN_START, RUN_END])];
    edge.wrapping_add(random.below(3)).wrapping_sub(1)
}

/// As far as one edge from another, or a few, or any.
fn width(random: &mut Random, list: &[u64], now: u64) -> u64 {
    match random.below(8) {
        0 => random.number(),
        1 => random.below(4),
        _ => now.saturating_sub(reading(random, list)),
    }
}

/// How many runs are said to be in order or recorded: some, all, or any number.
fn known(random: &mut Random, list: &[u64]) -> u64 {
    match random.below(8) {
        0 => random.number(),
        1 => count(list),
        _ => random.below(count(list) + 2),
    }
}

/// Searches anywhere; and slides on from a place that is at times another one.
fn asked(tally: &mut Tally, random: &mut Random, list: &[u64], calls: u64) {
    let mut earlier = reading(random, list);
    let wide = width(random, list, earlier);
    let mut from = both::lift(tally, list, earlier, wide);
    for _ in 0..calls {
        let now = reading(random, list);
        let wide_now = width(random, list, now);
        both::lift(tally, list, now, wide_now);
        let ordered = known(random, list);
        both::lift_from(tally, list, ordered, now, wide_now);
        if random.below(8) == 0 {
            let part = random.below(2) as usize;
            let other = from[part].wrapping_add(random.of([1, u64::MAX]));
            from[part] = random.of([other, other, u64::MAX]);
        }
        let next = if random.below(4) == 0 {
            now
        } else {
            now.max(earlier)
        };
        let [first, count, _] = both::slide(tally, list, wide, earlier, from, next);
        (earlier, from) = (next, [first, count]);
    }
}

/// A list in order.
pub fn sound(tally: &mut Tally, random: &mut Random, count: u64, calls: u64) {
    let list = Course::new(random, count).runs(random, count);
    asked(tally, random, &list, calls);
}

/// A stretch that moves over a whole list, as a screen does that plays a lift again.
pub fn played(tally: &mut Tally, random: &mut Random, count: u64) {
    let course = Course::new(random, count);
    let list = course.runs(random, count);
    let wide = random.below(course.gap.saturating_mul(8));
    let mut now = course.begin;
    let mut from = both::lift(tally, &list, now, wide);
    for _ in 0..count {
        let next = course.later(random, now);
        let [first, count, _] = both::slide(tally, &list, wide, now, from, next);
        (now, from) = (next, [first, count]);
    }
}

/// A list with words overwritten or exchanged, at times cut off anywhere, also within a run.
pub fn damaged(tally: &mut Tally, random: &mut Random, count: u64) {
    let mut list = Course::new(random, count).runs(random, count);
    let words = list.len() as u64;
    for _ in 0..random.of([1, 1, 2, 5]) {
        let (word, other) = (random.below(words) as usize, random.below(words) as usize);
        match random.below(4) {
            0 => list[word] = random.number(),
            1 => list[word] = list[word].wrapping_add(random.of([1, u64::MAX, 7])),
            2 => list.swap(word, other),
            _ => list[word] ^= 1 << random.below(64),
        }
    }
    if random.below(4) == 0 {
        list.truncate(random.below(words + 1) as usize);
    }
    asked(tally, random, &list, 4);
}

/// A run from a time on: mostly one that follows, at times one that begins or ends too early.
fn next_run(random: &mut Random, course: &Course, time: u64) -> RunWords {
    let mut early = || random.of([0, 0, 0, 1]);
    let (of_start, of_end) = (early(), early());
    let start = course.later(random, time).wrapping_sub(of_start);
    let end = course.later(random, start).wrapping_sub(of_end);
    [start, end, random.number()]
}

/// A list that grows: runs are recorded, at times where they do not belong, and a screen asks between, mostly in the
/// middle of the next run.
pub fn growing(tally: &mut Tally, random: &mut Random, room: u64) {
    let course = Course::new(random, room);
    let wide = random.below(course.gap.saturating_mul(8));
    let mut list = vec![0; RUN_WORDS * room as usize + random.below(RUN_WORDS as u64) as usize];
    let (mut runs, mut time, mut now, mut from) = (0, course.begin, 0, [0, 0]);
    for _ in 0..room + 4 {
        let run = next_run(random, &course, time);
        let at = match random.below(16) {
            0 => known(random, &list),
            _ => runs,
        };
        if both::append(tally, &mut list, at, &run) && at == runs {
            (runs, time) = (runs + 1, run[RUN_END]);
        }
        let words = &list[..RUN_WORDS * runs as usize];
        let next = course.later(random, time).max(now);
        both::lift_from(tally, words, runs, next, wide);
        let [first, count, _] = both::slide(tally, words, wide, now, from, next);
        (now, from) = (next, [first, count]);
    }
}
