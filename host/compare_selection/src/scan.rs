//! Demand 3 by a plain scan over all queued threads, where its premises hold: crates/sound_selection/specs/Claim.antt.

use core::cmp::Ordering;

use kernel::oracle::*;

use crate::selecting::{Peek, Selected};

/// What a selection is judged on: queue and records as it is handed them, and who is queued.
pub struct Scan<'a> {
    pub queue: &'a Queue,
    pub records: &'a [Record],
    pub queued: &'a [bool],
    pub peek: &'a Peek,
}

/// A queued thread refreshed to now.
struct Now {
    number: u64,
    record: Record,
    candidate: Candidate,
}

fn refreshed(record: &Record, now: u64) -> Record {
    let runtime = runtime_epoch_refresh(record.runtime, now, record.params);
    Record {
        runtime: runtime.expect("a refresh of a queued record"),
        ..*record
    }
}

fn has_time_left(record: &Record) -> bool {
    matches!(record.runtime, Runtime::Budget(budget) if budget.remaining != 0)
}

/// The threads of a tree.
fn standing(root: Option<u64>, records: &[Record]) -> Vec<u64> {
    let mut found = Vec::new();
    let mut open: Vec<u64> = root.into_iter().collect();
    while let Some(number) = open.pop() {
        let links = records[number as usize].tree;
        open.extend(links.left.into_iter().chain(links.right));
        found.push(number);
    }
    found
}

impl Scan<'_> {
    fn threads(&self) -> Vec<Now> {
        let places = (0..).zip(self.records).zip(self.queued);
        let queued = places.filter(|(_, queued)| **queued);
        let thread = |((number, record), _): ((u64, &Record), &bool)| {
            let record = refreshed(record, self.peek.now);
            let candidate = record_candidate(&record);
            Now {
                number,
                record,
                candidate,
            }
        };
        queued.map(thread).collect()
    }

    /// The source's demand of all queued threads and the current one.
    fn demand(&self, threads: &[Now]) -> Demand {
        let queued = threads.iter().map(|thread| thread.candidate);
        let all = queued.chain(self.peek.current());
        all.fold(Demand::default(), demand_with)
    }

    fn lowest_pass(&self, threads: &[Now]) -> Option<u128> {
        let queued = threads.iter().map(|thread| thread.candidate);
        let all = queued.chain(self.peek.current());
        let fair = all.filter(|candidate| candidate.params.policy == Policy::Fair);
        fair.map(|candidate| candidate.fair_pass).min()
    }

    fn key(&self, thread: &Now, demand: Demand) -> Option<Key> {
        let given =
            window_candidate_key(self.peek.window(), self.peek.now, thread.candidate, demand);
        given.expect("a key or none").1.map(|(key, _)| key)
    }

    /// The one with the least key, the lower number on equal keys.
    fn least(&self, threads: &[Now], demand: Demand) -> Option<Ready> {
        let mut least: Option<Ready> = None;
        for thread in threads {
            let Some(key) = self.key(thread, demand) else {
                continue;
            };
            let comes_first = least.is_none_or(|old| {
                let by_key = key_compare(key, old.key);
                by_key.then(thread.number.cmp(&old.number)) == Ordering::Less
            });
            if comes_first {
                least = Some(Ready {
                    number: thread.number,
                    policy: thread.record.params.policy,
                    key,
                });
            }
        }
        least
    }

    /// Every queued budget thread is filed by whether it has time left once refreshed to now.
    fn is_filed(&self, threads: &[Now]) -> bool {
        let epoch = self.peek.now / self.peek.window().config.period;
        let changes = self.queue.epoch != Some(epoch);
        let ready: Vec<u64> = self.queue.roots[6..9]
            .iter()
            .flat_map(|root| standing(*root, self.records))
            .collect();
        let mut is_ready = vec![false; self.records.len()];
        ready
            .iter()
            .for_each(|place| is_ready[*place as usize] = true);
        let budgets = threads
            .iter()
            .filter(|thread| thread.record.params.policy == Policy::Budget);
        let filed = |thread: &Now| is_ready[thread.number as usize] || changes;
        budgets
            .into_iter()
            .all(|thread| has_time_left(&thread.record) == filed(thread))
    }

    /// The first premise that does not hold.
    fn missing(&self, threads: &[Now]) -> Option<&'static str> {
        if !self.peek.is_sound() {
            return Some("left out of the scan: the window is not sound");
        }
        let config = self.peek.window().config;
        let params = || threads.iter().map(|thread| thread.record.params);
        if !params().all(|params| config_accepts(config, params)) {
            return Some("left out of the scan: the window does not admit a budget's period");
        }
        let admitted = |backend| params().all(|params| config_admits(config, params, backend));
        if !admitted(Backend::Stride) && !admitted(Backend::RoundRobin) {
            return Some("left out of the scan: two fair backends");
        }
        if !self.is_filed(threads) {
            return Some("left out of the scan: a budget thread is filed otherwise");
        }
        None
    }

    /// What the selection has to answer and the window that it has to leave, or the premise that does not hold.
    pub fn wanted(&self) -> Result<Selected, &'static str> {
        let threads = self.threads();
        if let Some(premise) = self.missing(&threads) {
            return Err(premise);
        }
        let demand = self.demand(&threads);
        let selection = Selection {
            ready: self.least(&threads, demand),
            demand,
            fair_min_pass: self.lowest_pass(&threads),
        };
        let given = self.peek.window();
        let window = match threads.is_empty() {
            true => given,
            false => window_refresh(given, self.peek.now).expect("a refreshed window"),
        };
        Ok(Selected {
            answer: Ok(selection),
            window,
        })
    }
}
