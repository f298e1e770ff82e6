//! Tables between the oracle's records and the port's rows, as bytes that the port loads and stores; and which words
//! encode, by writing again what they were read as.

use core::cell::RefCell;

use images::{QUEUE_BYTES, RECORD_BYTES, WINDOW_BYTES};
use kernel::oracle::Record;

use crate::queues::{MarkedQueue, QueueWords, queue_of, words_of};
use crate::rows::{Row, record_of, row_of};
use crate::windows::{WindowWords, window_of, window_words};

/// A record's place is 0 to 4,095.
pub const MOST_RECORDS: usize = 4096;

/// Words as bytes, the lowest first.
pub fn bytes_of(words: &[u64]) -> Vec<u8> {
    let mut bytes = vec![0; 8 * words.len()];
    for (chunk, word) in bytes.chunks_exact_mut(8).zip(words) {
        chunk.copy_from_slice(&word.to_le_bytes());
    }
    bytes
}

/// The words of so many bytes.
pub fn words_in(bytes: &[u8]) -> Vec<u64> {
    let chunks = bytes.chunks_exact(8);
    let word = |chunk: &[u8]| u64::from_le_bytes(chunk.try_into().expect("eight bytes"));
    chunks.map(word).collect()
}

/// Records as the port's rows: written as bytes, which the port loads. Of more than a table has, the port loads none.
pub fn rows_of(records: &[Record]) -> Vec<Row> {
    if records.len() > MOST_RECORDS {
        return records.iter().map(row_of).collect();
    }
    let mut rows: Vec<Row> = records.iter().map(row_of).collect();
    let bytes = bytes_of(rows.as_flattened());
    rows.fill([u64::MAX; 32]);
    let answer = images::load_table(&bytes, &mut rows);
    assert_eq!(answer, 0, "a table of records");
    rows
}

thread_local! {
    /// Room for a table's bytes, which goes from check to check.
    static ROOM: RefCell<Vec<u8>> = const { RefCell::new(Vec::new()) };
}

/// What is asked of the bytes that the port stores rows to; none where it stores none, since a row has words that
/// nothing encodes to or there are too many.
pub fn with_image<T>(rows: &[Row], ask: impl FnOnce(&[u8]) -> T) -> Option<T> {
    ROOM.with_borrow_mut(|room| {
        let count = RECORD_BYTES * rows.len();
        room.resize(room.len().max(count), 0);
        let bytes = &mut room[..count];
        match images::store_table(rows, bytes) {
            0 => Some(ask(bytes)),
            answer => {
                let wanted = table_answer(count, rows);
                assert_eq!(answer, wanted, "a store of a table");
                None
            }
        }
    })
}

/// Whether the port's rows are these: by the bytes that it stores them to, or by their words where it stores none.
pub fn same_rows(rows: &[Row], wanted: &[Row]) -> bool {
    with_image(rows, |bytes| *bytes == bytes_of(wanted.as_flattened()))
        .unwrap_or_else(|| rows == wanted)
}

/// A queue as the port's words: written as bytes, which the port loads.
pub fn queue_words(marked: &MarkedQueue) -> QueueWords {
    let bytes = bytes_of(words_of(marked).as_flattened());
    let mut words = [[u64::MAX; 5]; 270];
    let answer = images::load_queue(&bytes, &mut words);
    assert_eq!(answer, 0, "a queue");
    words
}

/// Whether the port's bytes of a row are a record's.
pub fn is_image(bytes: &[u8], record: &Record) -> bool {
    let row = row_of(record);
    let mut wanted = [0; RECORD_BYTES];
    for (chunk, word) in wanted.chunks_exact_mut(8).zip(row) {
        chunk.copy_from_slice(&word.to_le_bytes());
    }
    *bytes == wanted
}

/// The record of a row's bytes.
pub fn record_in(bytes: &[u8]) -> Record {
    let mut row = [0; 32];
    for (word, chunk) in row.iter_mut().zip(bytes.chunks_exact(8)) {
        *word = u64::from_le_bytes(chunk.try_into().expect("eight bytes"));
    }
    record_of(&row)
}

/// The records of the port's rows, by the bytes that it stores them to, or by their words where it stores none.
pub fn records_of(rows: &[Row]) -> Vec<Record> {
    with_image(rows, |bytes| bytes.chunks_exact(RECORD_BYTES).map(record_in).collect())
        .unwrap_or_else(|| rows.iter().map(record_of).collect())
}

/// What a load or a store of a record answers.
pub fn record_answer(bytes: usize, row: &Row) -> u64 {
    match bytes {
        RECORD_BYTES if row_of(&record_of(row)) == *row => 0,
        RECORD_BYTES => 11,
        _ => 10,
    }
}

pub fn window_answer(bytes: usize, words: &WindowWords) -> u64 {
    match bytes {
        WINDOW_BYTES if window_words(window_of(words)) == *words => 0,
        WINDOW_BYTES => 5,
        _ => 10,
    }
}

pub fn queue_answer(bytes: usize, words: &QueueWords) -> u64 {
    match bytes {
        QUEUE_BYTES if words_of(&queue_of(words)) == *words => 0,
        QUEUE_BYTES => 1,
        _ => 10,
    }
}

pub fn table_answer(bytes: usize, rows: &[Row]) -> u64 {
    if rows.len() > MOST_RECORDS || bytes != RECORD_BYTES * rows.len() {
        return 10;
    }
    let encodes = rows.iter().all(|row| row_of(&record_of(row)) == *row);
    if encodes { 0 } else { 11 }
}
