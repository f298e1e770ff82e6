//! Byte images of records, windows, queues and tables: what encodes, words that nothing encodes to, and wrong lengths.
//! What is expected is said by `tables::bytes`: words encode where they are what is written for what they are read as.

use core::fmt::Debug;

use images::{QUEUE_BYTES, RECORD_BYTES, WINDOW_BYTES};
use tables::bytes::{
    MOST_RECORDS, bytes_of, queue_answer, record_answer, table_answer, window_answer,
};
use tables::generator::Random;
use tables::make::{self, Kind};
use tables::queues::{MarkedQueue, QueueWords, words_of};
use tables::rows::{Row, row_of};
use tables::tally::Tally;
use tables::values::Picks;
use tables::windows::{WindowWords, window_words};

/// The name of a load or a store that answered this number.
macro_rules! named {
    ($call:literal) => {
        |number| match number {
            0 => $call,
            10 => concat!($call, ", a wrong length"),
            _ => concat!($call, ", words that nothing encodes to"),
        }
    };
}

/// One shape by its calls of the port, the names of their comparisons, and the answer that is expected.
struct Shape<W> {
    load: fn(&[u8], &mut W) -> u64,
    store: fn(&W, &mut [u8]) -> u64,
    loads: fn(u64) -> &'static str,
    stores: fn(u64) -> &'static str,
    answer: fn(usize, &W) -> u64,
}

const RECORD: Shape<Row> = Shape {
    load: images::load_record,
    store: images::store_record,
    loads: named!("image_load_record"),
    stores: named!("image_store_record"),
    answer: record_answer,
};

const WINDOW: Shape<WindowWords> = Shape {
    load: images::load_window,
    store: images::store_window,
    loads: named!("image_load_window"),
    stores: named!("image_store_window"),
    answer: window_answer,
};

const QUEUE: Shape<QueueWords> = Shape {
    load: images::load_queue,
    store: images::store_queue,
    loads: named!("image_load_queue"),
    stores: named!("image_store_queue"),
    answer: queue_answer,
};

const TABLE: Shape<Vec<Row>> = Shape {
    load: |bytes, rows| images::load_table(bytes, rows),
    store: |rows, bytes| images::store_table(rows, bytes),
    loads: named!("image_load_table"),
    stores: named!("image_store_table"),
    answer: |bytes, rows| table_answer(bytes, rows),
};

impl<W: Clone + PartialEq + Debug> Shape<W> {
    /// Both ways between the words and their bytes, of which some are missing or too many where a count is given:
    /// answer, and every word and byte that is left.
    fn compare(&self, tally: &mut Tally, words: &W, old: &W, image: &[u8], count: usize) {
        let mut bytes = image.to_vec();
        bytes.resize(count, 0x5a);
        let answer = (self.answer)(count, words);
        let mut loaded = old.clone();
        let number = (self.load)(&bytes, &mut loaded);
        let wanted = if answer == 0 { words } else { old };
        tally.compare(
            (self.loads)(answer),
            words,
            (number, &loaded),
            (answer, wanted),
        );
        let mut stored = vec![0xa5; count];
        let number = (self.store)(words, &mut stored);
        let wanted = if answer == 0 {
            bytes
        } else {
            vec![0xa5; count]
        };
        tally.compare(
            (self.stores)(answer),
            words,
            (number, stored),
            (answer, wanted),
        );
    }
}

/// The length as it should be, at times another.
fn length(random: &mut Random, right: usize) -> usize {
    match random.below(16) {
        0 => random.of([
            0,
            1,
            8,
            96,
            255,
            256,
            10_800,
            right + 1,
            right + 8,
            2 * right,
        ]),
        1 => right.saturating_sub(1 + random.below(8) as usize),
        _ => right,
    }
}

/// A number at the limits of tags, flags, bytes and weights, or any.
fn any_word(random: &mut Random) -> u64 {
    match random.below(4) {
        0 => random.number(),
        1 => random.of([254, 255, 256, 257, 65_535, 65_536, u64::MAX]),
        _ => random.below(6),
    }
}

fn any_row(random: &mut Random) -> Row {
    let mut record = make::record(random, Kind::Any);
    record.tree.left = make::link(random, 8);
    record.list.next = make::link(random, 8);
    record.membership = make::membership(random);
    row_of(&record)
}

/// None, or a few, of the words overwritten.
fn overwritten(random: &mut Random, words: &mut [u64]) {
    for _ in 0..random.of([0, 0, 1, 1, 2, 8]) {
        let place = random.below(words.len() as u64) as usize;
        words[place] = any_word(random);
    }
}

fn of_record(tally: &mut Tally, random: &mut Random) {
    let mut row = any_row(random);
    overwritten(random, &mut row);
    let count = length(random, RECORD_BYTES);
    RECORD.compare(tally, &row, &[7; 32], &bytes_of(&row), count);
}

fn of_window(tally: &mut Tally, random: &mut Random) {
    let config = random.any_config();
    let mut words = window_words(random.window(config, 5));
    overwritten(random, &mut words);
    let count = length(random, WINDOW_BYTES);
    WINDOW.compare(tally, &words, &[7; 12], &bytes_of(&words), count);
}

fn of_queue(tally: &mut Tally, random: &mut Random) {
    let mut marked = MarkedQueue::NEW;
    marked.queue.fair.head = make::link(random, 8);
    marked.queue.roots[random.below(12) as usize] = make::link(random, 8);
    marked.queue.epoch = make::link(random, 8);
    marked.halted = random.flag();
    let mut words = words_of(&marked);
    let any = random.below(270) as usize;
    let last = 254 + random.below(16) as usize;
    for row in [any, last] {
        if random.flag() {
            overwritten(random, &mut words[row]);
        }
    }
    let count = length(random, QUEUE_BYTES);
    QUEUE.compare(
        tally,
        &words,
        &[[7; 5]; 270],
        &bytes_of(words.as_flattened()),
        count,
    );
}

fn of_rows(tally: &mut Tally, random: &mut Random, rows: usize) {
    let mut table: Vec<Row> = (0..rows).map(|_| any_row(random)).collect();
    if rows > 0 && random.flag() {
        let place = random.below(rows as u64) as usize;
        overwritten(random, &mut table[place]);
    }
    let count = length(random, RECORD_BYTES * rows);
    let old = vec![[7; 32]; rows];
    TABLE.compare(tally, &table, &old, &bytes_of(table.as_flattened()), count);
}

/// Tables of no row, at the most rows and beyond.
pub fn limits(tally: &mut Tally, random: &mut Random) {
    for rows in [0, 1, MOST_RECORDS - 1, MOST_RECORDS, MOST_RECORDS + 1, 5000] {
        for _ in 0..4 {
            of_rows(tally, random, rows);
        }
    }
}

pub fn seeded(tally: &mut Tally, random: &mut Random) {
    for _ in 0..8 {
        of_record(tally, random);
        of_window(tally, random);
        let rows = random.below(12) as usize;
        of_rows(tally, random, rows);
    }
    of_queue(tally, random);
}
