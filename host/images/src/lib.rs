//! The byte images of crates/images as functions on words: load and store of a record, a window, a queue and a table.
//!
//! Words stand in their order, each as eight bytes, the lowest first. Each call answers document 01's number, 0 where
//! it was made: 10 for a wrong length; then, where nothing encodes to it, 11 of a record or a table, 5 of a window, 1
//! of a queue. A refusal changes nothing. Package `board` has the same calls on records, windows and queues.

#![no_std]
#![deny(missing_docs)]

/// How many words a record has.
pub const ROW_WORDS: usize = 32;
/// How many words a window has.
pub const WINDOW_WORDS: usize = 12;
/// How many rows a queue has.
pub const QUEUE_ROWS: usize = 270;
/// How many words a row of a queue has.
pub const QUEUE_ROW_WORDS: usize = 5;

/// A record, or a candidate: a row of the table.
pub type Row = [u64; ROW_WORDS];
/// A window.
pub type WindowWords = [u64; WINDOW_WORDS];
/// A run queue.
pub type QueueWords = [[u64; QUEUE_ROW_WORDS]; QUEUE_ROWS];

/// How many bytes a record's image has; a table's has so many for each record.
pub const RECORD_BYTES: usize = size_of::<Row>();
/// How many bytes a window's image has.
pub const WINDOW_BYTES: usize = size_of::<WindowWords>();
/// How many bytes a queue's image has.
pub const QUEUE_BYTES: usize = size_of::<QueueWords>();

// As crates/images exports them. Bytes go as their address and their count, the table as its address and its count of
// rows; a count has 64 bits on every target.
unsafe extern "C" {
    fn image_load_record(bytes: *const u8, count: u64, row: *mut Row) -> u64;
    fn image_store_record(row: *const Row, bytes: *mut u8, count: u64) -> u64;
    fn image_load_window(bytes: *const u8, count: u64, window: *mut WindowWords) -> u64;
    fn image_store_window(window: *const WindowWords, bytes: *mut u8, count: u64) -> u64;
    fn image_load_queue(bytes: *const u8, count: u64, q: *mut QueueWords) -> u64;
    fn image_store_queue(q: *const QueueWords, bytes: *mut u8, count: u64) -> u64;
    fn image_load_table(bytes: *const u8, count: u64, t: *mut Row, rows: u64) -> u64;
    fn image_store_table(t: *const Row, rows: u64, bytes: *mut u8, count: u64) -> u64;
}

/// One record from its bytes: 0, 10 or 11.
#[inline]
pub fn load_record(bytes: &[u8], row: &mut Row) -> u64 {
    // SAFETY: addresses and count are those of what is lent.
    unsafe { image_load_record(bytes.as_ptr(), bytes.len() as u64, row) }
}

/// One record as bytes: 0, 10 or 11.
#[inline]
pub fn store_record(row: &Row, bytes: &mut [u8]) -> u64 {
    // SAFETY: addresses and count are those of what is lent.
    unsafe { image_store_record(row, bytes.as_mut_ptr(), bytes.len() as u64) }
}

/// A window from its bytes: 0, 10 or 5.
#[inline]
pub fn load_window(bytes: &[u8], window: &mut WindowWords) -> u64 {
    // SAFETY: addresses and count are those of what is lent.
    unsafe { image_load_window(bytes.as_ptr(), bytes.len() as u64, window) }
}

/// A window as bytes: 0, 10 or 5.
#[inline]
pub fn store_window(window: &WindowWords, bytes: &mut [u8]) -> u64 {
    // SAFETY: addresses and count are those of what is lent.
    unsafe { image_store_window(window, bytes.as_mut_ptr(), bytes.len() as u64) }
}

/// A queue from its bytes: 0, 10 or 1.
#[inline]
pub fn load_queue(bytes: &[u8], q: &mut QueueWords) -> u64 {
    // SAFETY: addresses and count are those of what is lent.
    unsafe { image_load_queue(bytes.as_ptr(), bytes.len() as u64, q) }
}

/// A queue as bytes: 0, 10 or 1.
#[inline]
pub fn store_queue(q: &QueueWords, bytes: &mut [u8]) -> u64 {
    // SAFETY: addresses and count are those of what is lent.
    unsafe { image_store_queue(q, bytes.as_mut_ptr(), bytes.len() as u64) }
}

/// A table from its bytes, [`RECORD_BYTES`] for each of its rows: 0, 10 or 11.
#[inline]
pub fn load_table(bytes: &[u8], t: &mut [Row]) -> u64 {
    let (address, rows) = (t.as_mut_ptr(), t.len() as u64);
    // SAFETY: addresses and counts are those of what is lent.
    unsafe { image_load_table(bytes.as_ptr(), bytes.len() as u64, address, rows) }
}

/// A table as bytes, [`RECORD_BYTES`] for each of its rows: 0, 10 or 11.
#[inline]
pub fn store_table(t: &[Row], bytes: &mut [u8]) -> u64 {
    let (address, rows) = (t.as_ptr(), t.len() as u64);
    // SAFETY: addresses and counts are those of what is lent.
    unsafe { image_store_table(address, rows, bytes.as_mut_ptr(), bytes.len() as u64) }
}
