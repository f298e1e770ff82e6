//! A processor's window, what threads ask of it, and keys.

use crate::choices::Mode;
use crate::record::{present, whole};
use crate::words::{
    ALLOWANCE_LEFT, BORROW_RANK, BUDGET_RANK, CONFIG_WORDS, ConfigWords, DEMAND_ANY,
    DEMAND_ELIGIBLE, DEMAND_FAIR, DEMAND_PROTECTED, DEMAND_SENSITIVE, DemandWords, EPOCH,
    EPOCH_TAG, FAIR_RANK, FLOOR_LEFT, KEY_ALGORITHM_RANK, KEY_BAND, KEY_HIGH, KEY_LOW, KEY_MODE,
    KEY_RANK, KEY_TAG, KEY_TURN, KEY_URGENCY, KEY_WORDS, KeyWords, PREFER_FAIR, PRIORITY_RANK,
    WINDOW_ALLOWANCE, WINDOW_FLOOR, WINDOW_PERIOD, WINDOW_WORDS, WindowWords,
};

/// The ranks of the algorithms within one urgency. They rise in this order.
#[derive(Clone, Copy, Debug, PartialEq, Eq, Hash)]
pub struct Ranks {
    /// Of the role Priority, while some of the allowance is left.
    pub priority: u8,
    /// Of Budget threads.
    pub budget: u8,
    /// Of Fair and other threads.
    pub fair: u8,
    /// Of Budget threads whose budget is exhausted.
    pub borrow: u8,
}

impl Ranks {
    /// 0, 1, 2 and 3.
    pub const USUAL: Self = Self {
        priority: 0,
        budget: 1,
        fair: 2,
        borrow: 3,
    };
}

/// What a window is made from by [`window`](crate::window), which says whether it is one that a window can have.
#[derive(Clone, Copy, Debug, PartialEq, Eq)]
#[repr(transparent)]
pub struct Config(ConfigWords);

impl Config {
    /// In each period of `period_ns` (1 to 1,000,000,000) the role Priority comes before others for `allowance_ns`, and
    /// protected threads have `floor_ns` for sure. The floor is above 0 and below the period, and the allowance is
    /// below what the floor leaves of it. Ranks are [`Ranks::USUAL`]; fair threads are not preferred.
    pub const fn new(period_ns: u64, allowance_ns: u64, floor_ns: u64) -> Self {
        let mut words = [0; CONFIG_WORDS];
        words[WINDOW_PERIOD] = period_ns;
        words[WINDOW_ALLOWANCE] = allowance_ns;
        words[WINDOW_FLOOR] = floor_ns;
        Self(words).with_ranks(Ranks::USUAL)
    }

    /// With other ranks.
    pub const fn with_ranks(mut self, ranks: Ranks) -> Self {
        self.0[PRIORITY_RANK] = ranks.priority as u64;
        self.0[BUDGET_RANK] = ranks.budget as u64;
        self.0[FAIR_RANK] = ranks.fair as u64;
        self.0[BORROW_RANK] = ranks.borrow as u64;
        self
    }

    /// Whether Fair threads run on the allowance as the role Priority does.
    pub const fn with_prefer_fair(mut self, prefer_fair: bool) -> Self {
        self.0[PREFER_FAIR] = prefer_fair as u64;
        self
    }

    /// The configuration of any words ([`words`](crate::words)).
    pub const fn from_words(words: ConfigWords) -> Self {
        Self(words)
    }

    /// Its words ([`words`](crate::words)).
    pub const fn words(&self) -> &ConfigWords {
        &self.0
    }
}

/// What is left of a processor's priority allowance and protected floor in this period. Made by
/// [`window`](crate::window); the calls that are lent it refresh it to their reading.
#[derive(Clone, Copy, Debug, PartialEq, Eq)]
#[repr(transparent)]
pub struct Window(WindowWords);

impl Window {
    /// The words of no window: every call refuses it as [`BadConfig`](crate::Refusal::BadConfig).
    pub(crate) const NONE: Self = Self([0; WINDOW_WORDS]);

    /// The period.
    pub const fn period_ns(&self) -> u64 {
        self.0[WINDOW_PERIOD]
    }

    /// The allowance of each period.
    pub const fn allowance_ns(&self) -> u64 {
        self.0[WINDOW_ALLOWANCE]
    }

    /// The floor of each period.
    pub const fn floor_ns(&self) -> u64 {
        self.0[WINDOW_FLOOR]
    }

    /// The period that it was last refreshed to, counted from 0; none before the first.
    pub const fn epoch(&self) -> Option<u64> {
        present(self.0[EPOCH_TAG], self.0[EPOCH])
    }

    /// What is left of the allowance.
    pub const fn allowance_left_ns(&self) -> u64 {
        self.0[ALLOWANCE_LEFT]
    }

    /// What is left of the floor.
    pub const fn floor_left_ns(&self) -> u64 {
        self.0[FLOOR_LEFT]
    }

    /// The window of any words ([`words`](crate::words)).
    pub const fn from_words(words: WindowWords) -> Self {
        Self(words)
    }

    /// Its words ([`words`](crate::words)).
    pub const fn words(&self) -> &WindowWords {
        &self.0
    }

    pub(crate) const fn words_mut(&mut self) -> &mut WindowWords {
        &mut self.0
    }
}

/// What the queued threads and the running one ask of the window. Part of a [`Selection`](crate::Selection).
#[derive(Clone, Copy, Debug, PartialEq, Eq)]
#[repr(transparent)]
pub struct Demand(DemandWords);

impl Demand {
    /// A protected thread is there; one with a budget only where it has time left.
    pub const fn protected(&self) -> bool {
        self.0[DEMAND_PROTECTED] != 0
    }

    /// A FIFO or Fair thread is there.
    pub const fn fair(&self) -> bool {
        self.0[DEMAND_FAIR] != 0
    }

    /// A Fair thread is there, or one of role Priority.
    pub const fn window_sensitive(&self) -> bool {
        self.0[DEMAND_SENSITIVE] != 0
    }

    /// A Budget thread with time left is there.
    pub const fn eligible_budget(&self) -> bool {
        self.0[DEMAND_ELIGIBLE] != 0
    }

    /// A Budget thread is there.
    pub const fn any_budget(&self) -> bool {
        self.0[DEMAND_ANY] != 0
    }

    /// The demand of any words ([`words`](crate::words)).
    pub const fn from_words(words: DemandWords) -> Self {
        Self(words)
    }

    /// Its words ([`words`](crate::words)).
    pub const fn words(&self) -> &DemandWords {
        &self.0
    }
}

/// The parts of a key, in the words of a key and of a selection at the same places.
macro_rules! key_parts {
    () => {
        /// 0 of strict FIFO, 1 where protection is due, else 2.
        pub const fn urgency(&self) -> u8 {
            self.0[KEY_URGENCY] as u8
        }

        /// The rank, of [`Ranks`](crate::Ranks).
        pub const fn rank(&self) -> u8 {
            self.0[KEY_RANK] as u8
        }

        /// 0 of FIFO, 1 of Fair, 2 of Budget.
        pub const fn algorithm_rank(&self) -> u8 {
            self.0[KEY_ALGORITHM_RANK] as u8
        }

        /// The priority of FIFO, the pass of Stride, else the turn.
        pub const fn algorithm(&self) -> u128 {
            whole(self.0[KEY_HIGH], self.0[KEY_LOW])
        }

        /// The band.
        pub const fn band(&self) -> u8 {
            self.0[KEY_BAND] as u8
        }

        /// The turn.
        pub const fn turn(&self) -> u64 {
            self.0[KEY_TURN]
        }
    };
}

pub(crate) use key_parts;

/// A running thread's key under a demand and a window, by [`key`](crate::key). Keys compare as urgency, rank, algorithm
/// rank, algorithm, band, turn; the least comes first.
#[derive(Clone, Copy, Debug, PartialEq, Eq)]
#[repr(transparent)]
pub struct Key(KeyWords);

impl Key {
    /// The words of no key.
    pub(crate) const NONE: KeyWords = [0; KEY_WORDS];

    /// Why the thread runs; [`account`](crate::account) charges by it.
    pub const fn mode(&self) -> Mode {
        Mode::from_word(self.0[KEY_MODE])
    }

    key_parts!();

    /// The key of any words ([`words`](crate::words)), where they say that there is one.
    pub const fn from_words(words: KeyWords) -> Option<Self> {
        if words[KEY_TAG] == 0 {
            None
        } else {
            Some(Self(words))
        }
    }

    /// Its words ([`words`](crate::words)).
    pub const fn words(&self) -> &KeyWords {
        &self.0
    }
}
