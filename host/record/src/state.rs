//! The words that the machine of crates/steps has, as the recorded calls leave them, and the lines that bring it there.

use std::fmt::Write;

use compare_queue::board::Board;
use tables::queues::{MarkedQueue, QueueWords, words_of};
use tables::rows::{Row, row_of};
use tables::windows::WindowWords;

/// Rows of the scratch.
pub const CURRENT: usize = 0;
pub const TURNS: usize = 1;
pub const DEMAND: usize = 2;
pub const KEY: usize = 3;
pub const READY: usize = 4;
pub const DUE: usize = 5;
pub const SELECTION: usize = 6;
pub const WINDOW: usize = 7;

/// A new case's first rows are those from here on, which no case of the list has but one of 4,096 records.
const KEPT: usize = 4000;

/// What a new case starts with: crates/steps/src/machine.rt.
const NEW_WINDOW: WindowWords = [10, 2, 3, 0, 1, 2, 3, 0, 0, 0, 2, 3];
const NEW_COUNT: usize = 9;

/// The program reads blocks of so many bytes.
const BLOCK: usize = 65536;

/// A case takes fewer bytes.
const ROOM: usize = 8192;

const PRIME: u64 = 2_147_483_647;
const WEIGHT: u64 = 1_000_003;

/// The words as the machine has them, and what was written so far.
pub struct State {
    pub lines: String,
    pub calls: u64,
    begun: usize,
    rows: Vec<Row>,
    count: usize,
    queue: QueueWords,
    scratch: [Row; 8],
}

fn with_words(sum: u64, words: &[u64]) -> u64 {
    words.iter().fold(sum, |sum, word| {
        (sum % PRIME * WEIGHT + word % PRIME) % PRIME
    })
}

/// A line for each word that is to become another.
fn bring(lines: &mut String, letter: &str, from: &mut [u64], to: &[u64]) {
    for (k, (old, new)) in from.iter_mut().zip(to).enumerate() {
        if old != new {
            writeln!(lines, "{letter} {k} {new}").expect("a line");
            *old = *new;
        }
    }
}

impl State {
    pub fn new(head: String) -> Self {
        Self {
            lines: head,
            calls: 0,
            begun: 0,
            rows: vec![[0; 32]; 4097],
            count: NEW_COUNT,
            queue: words_of(&MarkedQueue::NEW),
            scratch: [[0; 32]; 8],
        }
    }

    /// A new case. The machine starts anew with each block, so the case starts one where the block has no room for a
    /// case more.
    pub fn case(&mut self, label: &str, number: u64) {
        if self.lines.len() % BLOCK + ROOM > BLOCK {
            let rest = BLOCK - self.lines.len() % BLOCK;
            writeln!(self.lines, "{:#<1$}", "", rest - 1).expect("a line");
            self.scratch = [[0; 32]; 8];
            self.rows.fill([0; 32]);
        }
        writeln!(self.lines, "={label} {number}").expect("a line");
        self.rows.copy_within(KEPT..4097, 0);
        self.count = NEW_COUNT;
        self.queue = words_of(&MarkedQueue::NEW);
        self.scratch[WINDOW][..12].copy_from_slice(&NEW_WINDOW);
        self.begun = self.lines.len();
    }

    /// Brings the table and the queue to those of the board.
    pub fn bring_board(&mut self, board: &Board) {
        let records = &board.table.records;
        if self.count != records.len() {
            self.count = records.len();
            writeln!(self.lines, "N {}", self.count).expect("a line");
        }
        for (i, (row, record)) in self.rows.iter_mut().zip(records).enumerate() {
            bring(&mut self.lines, &format!("T {i}"), row, &row_of(record));
        }
        let words = words_of(&board.marked);
        for (i, (row, other)) in self.queue.iter_mut().zip(&words).enumerate() {
            bring(&mut self.lines, &format!("Q {i}"), row, other);
        }
    }

    /// Brings the first words of a row of the scratch.
    pub fn bring_scratch(&mut self, row: usize, words: &[u64]) {
        let letter = match row {
            WINDOW => "W".to_string(),
            _ => format!("X {row}"),
        };
        bring(&mut self.lines, &letter, &mut self.scratch[row], words);
    }

    /// Words that a call left in the scratch.
    pub fn left_scratch(&mut self, row: usize, words: &[u64]) {
        self.scratch[row][..words.len()].copy_from_slice(words);
    }

    /// The table and the queue as a call left them.
    fn left_board(&mut self, board: &Board) {
        for (row, record) in self.rows.iter_mut().zip(&board.table.records) {
            *row = row_of(record);
        }
        self.queue = words_of(&board.marked);
    }

    /// A call with its answer.
    pub fn call(&mut self, line: &str, answer: u64) {
        assert!(
            self.lines.len() - self.begun < ROOM,
            "a case too long for its block"
        );
        self.calls += 1;
        writeln!(self.lines, "{line} {answer}").expect("a line");
    }

    /// After a call: one number for all words that it left.
    pub fn sum(&mut self, board: &Board) {
        self.left_board(board);
        let rows = self.rows[..self.count].iter().chain(&self.scratch);
        let sum = rows.fold(0, |sum, row| with_words(sum, row));
        let sum = self.queue.iter().fold(sum, |sum, row| with_words(sum, row));
        writeln!(self.lines, "C {sum}").expect("a line");
    }
}
