//! A queue as 270 rows of five words, and back: the layout of crates/lent_queue/specs/LentQueue.antt.

use core::fmt;

use kernel::oracle::*;

use crate::rows::{link, link_words};

/// Rows 0 to 255 the priority lists, 256 the fair list, 257 to 268 the roots, 269 the counts, the epoch and the mark.
pub type QueueWords = [[u64; 5]; 270];

const FAIR: usize = 256;
const ROOTS: usize = 257;
const COUNTS: usize = 269;

/// A queue and the mark of one that halted.
#[derive(Clone, PartialEq)]
pub struct MarkedQueue {
    pub queue: Queue,
    pub halted: bool,
}

impl MarkedQueue {
    pub const NEW: Self = Self {
        queue: Queue::EMPTY,
        halted: false,
    };
}

/// The lists and trees that are not empty.
impl fmt::Debug for MarkedQueue {
    fn fmt(&self, to: &mut fmt::Formatter<'_>) -> fmt::Result {
        let queue = &self.queue;
        let lists = queue.fifo.iter().enumerate();
        let lists: Vec<_> = lists.filter(|(_, list)| **list != List::EMPTY).collect();
        let roots = queue.roots.iter().enumerate();
        let roots: Vec<_> = roots.filter(|(_, root)| root.is_some()).collect();
        to.debug_struct("Queue")
            .field("fifo", &lists)
            .field("fifo_length", &queue.fifo_length)
            .field("fair", &queue.fair)
            .field("budget_count", &queue.budget_count)
            .field("roots", &roots)
            .field("epoch", &queue.epoch)
            .field("halted", &self.halted)
            .finish()
    }
}

fn list_words(list: List) -> [u64; 5] {
    let ([a, b], [c, d]) = (link_words(list.head), link_words(list.tail));
    [a, b, c, d, list.len]
}

fn list(words: [u64; 5]) -> List {
    List {
        head: link(words[0], words[1]),
        tail: link(words[2], words[3]),
        len: words[4],
    }
}

pub fn words_of(marked: &MarkedQueue) -> QueueWords {
    let queue = &marked.queue;
    let mut words = [[0; 5]; 270];
    for (row, list) in words.iter_mut().zip(queue.fifo) {
        *row = list_words(list);
    }
    words[FAIR] = list_words(queue.fair);
    for (row, root) in words[ROOTS..].iter_mut().zip(queue.roots) {
        row[..2].copy_from_slice(&link_words(root));
    }
    let [some, epoch] = link_words(queue.epoch);
    words[COUNTS] = [
        queue.fifo_length,
        queue.budget_count,
        some,
        epoch,
        marked.halted.into(),
    ];
    words
}

pub fn queue_of(words: &QueueWords) -> MarkedQueue {
    let [fifo_length, budget_count, some, epoch, mark] = words[COUNTS];
    let mut queue = Queue {
        fifo_length,
        fair: list(words[FAIR]),
        budget_count,
        epoch: link(some, epoch),
        ..Queue::EMPTY
    };
    for (at, row) in queue.fifo.iter_mut().zip(words) {
        *at = list(*row);
    }
    for (root, row) in queue.roots.iter_mut().zip(&words[ROOTS..]) {
        *root = link(row[0], row[1]);
    }
    MarkedQueue {
        queue,
        halted: mark != 0,
    }
}
