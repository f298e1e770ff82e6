//! Windows, demands, candidates and keys as words, and back: the layout of crates/window_words/specs/WindowWords.antt.

use kernel::oracle::*;

use crate::rows::{Row, byte, link, link_words, parameters, row_of};

/// The configuration, the epoch, what remains of the allowance, what remains of the floor.
pub type WindowWords = [u64; 12];
pub type DemandWords = [u64; 5];
pub type KeyWords = [u64; 9];

/// The high and the low half.
pub fn halves(wide: u128) -> [u64; 2] {
    [(wide >> 64) as u64, wide as u64]
}

pub fn whole(high: u64, low: u64) -> u128 {
    u128::from(high) << 64 | u128::from(low)
}

pub fn window_words(window: Window) -> WindowWords {
    let config = window.config;
    let order = config.order;
    let [some, epoch] = link_words(window.epoch);
    [
        config.period,
        config.allowance,
        config.floor,
        order.priority.into(),
        order.budget.into(),
        order.fair.into(),
        order.borrow.into(),
        config.prefer_fair.into(),
        some,
        epoch,
        window.priority_remaining,
        window.protected_remaining,
    ]
}

/// What any words stand for.
pub fn window_of(words: &WindowWords) -> Window {
    let [priority, budget, fair, borrow] = [words[3], words[4], words[5], words[6]].map(byte);
    Window {
        config: Config {
            period: words[0],
            allowance: words[1],
            floor: words[2],
            order: Order {
                priority,
                budget,
                fair,
                borrow,
            },
            prefer_fair: words[7] != 0,
        },
        epoch: link(words[8], words[9]),
        priority_remaining: words[10],
        protected_remaining: words[11],
    }
}

pub fn demand_words(demand: Demand) -> DemandWords {
    [
        demand.protected.into(),
        demand.fair.into(),
        demand.window_sensitive.into(),
        demand.eligible_budget.into(),
        demand.any_budget.into(),
    ]
}

/// What any words stand for.
pub fn demand_of(words: &DemandWords) -> Demand {
    let [
        protected,
        fair,
        window_sensitive,
        eligible_budget,
        any_budget,
    ] = words.map(|w| w != 0);
    Demand {
        protected,
        fair,
        window_sensitive,
        eligible_budget,
        any_budget,
    }
}

pub fn candidate_words(candidate: Candidate) -> Row {
    let mut row = row_of(&Record::new(candidate.params, Runtime::Fifo, 0, 0));
    [row[12], row[13]] = halves(candidate.fair_pass);
    row[14] = candidate.budget_available.into();
    row[16] = candidate.turn;
    row
}

/// What any words stand for.
pub fn candidate_of(row: &Row) -> Candidate {
    Candidate {
        params: parameters(row),
        fair_pass: whole(row[12], row[13]),
        turn: row[16],
        budget_available: row[14] != 0,
    }
}

pub fn key_words(key: Key) -> KeyWords {
    let [high, low] = halves(key.algorithm);
    let (urgency, rank) = (key.urgency.into(), key.rank.into());
    let (algorithm, band) = (key.algorithm_rank.into(), key.band.into());
    [1, 0, urgency, rank, algorithm, high, low, band, key.turn]
}

/// Words 2 to 8 of a key's nine.
pub fn key_of(words: &KeyWords) -> Key {
    Key {
        urgency: byte(words[2]),
        rank: byte(words[3]),
        algorithm_rank: byte(words[4]),
        algorithm: whole(words[5], words[6]),
        band: byte(words[7]),
        turn: words[8],
    }
}
