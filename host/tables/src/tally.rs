//! Counts the comparisons of each function and keeps the first differing inputs.

use core::fmt::Debug;

/// As many differing inputs as are printed.
const SHOWN: usize = 5;

/// The name of a call that answered this number, by which comparisons are counted.
#[macro_export]
macro_rules! named {
    ($call:literal, $number:expr) => {
        match $number {
            0 => $call,
            1 => concat!($call, ", Damaged"),
            2 => concat!($call, ", BadState"),
            3 => concat!($call, ", Already"),
            4 => concat!($call, ", NoThread"),
            9 => concat!($call, ", Halted"),
            10 => concat!($call, ", BadTable"),
            11 => concat!($call, ", BadRecord"),
            12 => concat!($call, ", RecordOrder"),
            _ => concat!($call, ", a number that it does not have"),
        }
    };
}

#[derive(Default)]
pub struct Tally {
    counts: Vec<(&'static str, u64)>,
    noted: Vec<(&'static str, u64)>,
    differing: Vec<String>,
    differs: u64,
}

fn count(counts: &mut Vec<(&'static str, u64)>, name: &'static str) {
    match counts.iter_mut().find(|(known, _)| *known == name) {
        Some((_, count)) => *count += 1,
        None => counts.push((name, 1)),
    }
}

impl Tally {
    /// Counts something that is no comparison.
    pub fn note(&mut self, what: &'static str) {
        count(&mut self.noted, what);
    }

    pub fn compare<T: PartialEq + Debug>(
        &mut self,
        function: &'static str,
        input: impl Debug,
        port: T,
        expected: T,
    ) {
        count(&mut self.counts, function);
        if port == expected {
            return;
        }
        self.differs += 1;
        if self.differing.len() < SHOWN {
            self.differing.push(format!(
                "{function} {input:?}\n  port     {port:?}\n  expected {expected:?}"
            ));
        }
    }

    /// Prints what was noted, the counts and the first differing inputs; the last line is `differs N`.
    pub fn report(&self) -> u64 {
        for (what, count) in &self.noted {
            println!("{count:>12} ({what})");
        }
        for (function, count) in &self.counts {
            println!("{count:>12} {function}");
        }
        let all: u64 = self.counts.iter().map(|(_, count)| count).sum();
        println!("{all:>12} comparisons in all");
        for line in &self.differing {
            println!("{line}");
        }
        println!("differs {}", self.differs);
        self.differs
    }
}
