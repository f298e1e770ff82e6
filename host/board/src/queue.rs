//! A run queue, and the path that its calls are lent.

use crate::words::{self, PATH_STEP_WORDS, PATH_STEPS, QUEUE_ROW_WORDS, QUEUE_ROWS, QueueWords};

/// A run queue of one processor, 10,800 bytes: 256 priority lists, the list of Fair and Budget threads, twelve trees,
/// counts, epoch and mark. Changed by the calls alone.
#[derive(Clone, Debug, PartialEq, Eq)]
#[repr(transparent)]
pub struct Queue(QueueWords);

impl Queue {
    /// A new queue, with nobody in it: what [`new`](crate::new) makes of any other.
    pub const EMPTY: Self = Self([[0; QUEUE_ROW_WORDS]; QUEUE_ROWS]);

    /// The queue of any words ([`words`]).
    pub const fn from_words(words: QueueWords) -> Self {
        Self(words)
    }

    /// Its words ([`words`]).
    pub const fn words(&self) -> &QueueWords {
        &self.0
    }

    pub(crate) const fn words_mut(&mut self) -> &mut QueueWords {
        &mut self.0
    }
}

/// Room for the steps of one descent in a tree, 640 bytes. It holds nothing before or after a call, so one serves for
/// all queues that are not lent at the same time.
#[derive(Clone, Debug)]
#[repr(transparent)]
pub struct Path(words::Path);

impl Path {
    /// A path.
    pub const NEW: Self = Self([[0; PATH_STEP_WORDS]; PATH_STEPS]);

    pub(crate) const fn words_mut(&mut self) -> &mut words::Path {
        &mut self.0
    }
}
