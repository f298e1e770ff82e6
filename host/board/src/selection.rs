//! What a selection, a switch and the counts of a queue answer.

use crate::choices::Policy;
use crate::record::{present, whole};
use crate::window::{Demand, key_parts};
use crate::words::{
    self, BACK_TURN, BUDGET_LENGTH, ChoiceWords, FAIR_LENGTH, FRONT_TURN, KEY_ALGORITHM_RANK,
    KEY_BAND, KEY_HIGH, KEY_LOW, KEY_RANK, KEY_TURN, KEY_URGENCY, LengthWords, MIN_PASS_HIGH,
    MIN_PASS_LOW, MIN_PASS_TAG, REAL_TIME_LENGTH, SELECTED_ID, SELECTED_POLICY, SELECTED_PRIORITY,
    SELECTED_TAG, SHOULD_SWITCH, SelectionWords, TO_FRONT, TURN_WORDS, TurnWords,
};

/// Whom a selection names, and what all queued threads and the running one ask of the window. By
/// [`select`](crate::select).
#[derive(Clone, Copy, Debug, PartialEq, Eq)]
#[repr(transparent)]
pub struct Selection(SelectionWords);

impl Selection {
    /// The queued thread with the least key; none where none has one.
    pub const fn ready(&self) -> Option<Ready> {
        if self.0[SELECTED_TAG] == 0 {
            None
        } else {
            Some(Ready(self.0))
        }
    }

    /// The number of that thread.
    pub const fn thread(&self) -> Option<u64> {
        present(self.0[SELECTED_TAG], self.0[SELECTED_ID])
    }

    /// What all ask for.
    pub fn demand(&self) -> Demand {
        Demand::from_words(*words::demand_in(&self.0))
    }

    /// The lowest pass of a Fair thread, where there is one.
    pub const fn lowest_pass(&self) -> Option<u128> {
        if self.0[MIN_PASS_TAG] == 0 {
            None
        } else {
            Some(whole(self.0[MIN_PASS_HIGH], self.0[MIN_PASS_LOW]))
        }
    }

    /// The selection of any words ([`words`](crate::words)).
    pub const fn from_words(words: SelectionWords) -> Self {
        Self(words)
    }

    /// Its words ([`words`](crate::words)).
    pub const fn words(&self) -> &SelectionWords {
        &self.0
    }
}

/// A queued thread that a selection names, with its key.
#[derive(Clone, Copy, Debug, PartialEq, Eq)]
pub struct Ready(SelectionWords);

impl Ready {
    /// The thread's number.
    pub const fn thread(&self) -> u64 {
        self.0[SELECTED_ID]
    }

    /// Its policy.
    pub const fn policy(&self) -> Policy {
        Policy::from_word(self.0[SELECTED_POLICY])
    }

    /// The priority of a FIFO thread.
    pub const fn priority(&self) -> u8 {
        self.0[SELECTED_PRIORITY] as u8
    }

    key_parts!();
}

/// What the switch rule says of the running thread. By [`switch`](crate::switch).
#[derive(Clone, Copy, Debug, PartialEq, Eq)]
#[repr(transparent)]
pub struct Choice(ChoiceWords);

impl Choice {
    /// Whether it gives way to the thread that the selection names.
    pub const fn switches(&self) -> bool {
        self.0[SHOULD_SWITCH] != 0
    }

    /// Whether it then goes to the front: its turn was not over, and it did not give way by itself.
    pub const fn to_front(&self) -> bool {
        self.0[TO_FRONT] != 0
    }

    /// The choice of any words ([`words`](crate::words)).
    pub const fn from_words(words: ChoiceWords) -> Self {
        Self(words)
    }

    /// Its words ([`words`](crate::words)).
    pub const fn words(&self) -> &ChoiceWords {
        &self.0
    }
}

/// How many threads are queued. By [`lengths`](crate::lengths).
#[derive(Clone, Copy, Debug, PartialEq, Eq)]
#[repr(transparent)]
pub struct Lengths(LengthWords);

impl Lengths {
    /// FIFO threads.
    pub const fn real_time(&self) -> u64 {
        self.0[REAL_TIME_LENGTH]
    }

    /// Fair and Budget threads together.
    pub const fn fair(&self) -> u64 {
        self.0[FAIR_LENGTH]
    }

    /// Budget threads.
    pub const fn budget(&self) -> u64 {
        self.0[BUDGET_LENGTH]
    }

    /// Whether nobody is queued.
    pub const fn is_empty(&self) -> bool {
        self.real_time() == 0 && self.fair() == 0
    }

    /// The lengths of any words ([`words`](crate::words)).
    pub const fn from_words(words: LengthWords) -> Self {
        Self(words)
    }

    /// Their words ([`words`](crate::words)).
    pub const fn words(&self) -> &LengthWords {
        &self.0
    }
}

/// The two counters that hand out turns, by [`prepare`](crate::prepare).
#[derive(Clone, Copy, Debug, PartialEq, Eq)]
#[repr(transparent)]
pub struct Turns(TurnWords);

impl Turns {
    /// Both counters before the first turn, in the middle of their range: one goes up from there, the other down.
    pub const START: Self = Self([1 << (u64::BITS - 1); TURN_WORDS]);

    /// The counter at the back.
    pub const fn back(&self) -> u64 {
        self.0[BACK_TURN]
    }

    /// The counter at the front.
    pub const fn front(&self) -> u64 {
        self.0[FRONT_TURN]
    }

    /// The counters of any words ([`words`](crate::words)).
    pub const fn from_words(words: TurnWords) -> Self {
        Self(words)
    }

    /// Their words ([`words`](crate::words)).
    pub const fn words(&self) -> &TurnWords {
        &self.0
    }

    pub(crate) const fn words_mut(&mut self) -> &mut TurnWords {
        &mut self.0
    }
}
