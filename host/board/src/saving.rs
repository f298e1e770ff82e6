//! Records, windows, queues and tables as bytes, for what is saved or sent.

use crate::queue::Queue;
use crate::record::{Record, rows, rows_mut};
use crate::refusal::{Refusal, answered};
use crate::window::Window;

pub use images::{QUEUE_BYTES, RECORD_BYTES, WINDOW_BYTES};

// A record is made over these, and nothing of them is left in it.
const UNLOADED: Record = Record::idle();

/// A record from its image of [`RECORD_BYTES`]. Refuses as [`BadTable`](Refusal::BadTable) another count of bytes, then
/// as [`BadRecord`](Refusal::BadRecord) what no record is stored as.
pub fn load_record(bytes: &[u8]) -> Result<Record, Refusal> {
    let mut record = UNLOADED;
    let number = images::load_record(bytes, record.words_mut());
    answered(number, record)
}

/// A record as an image. Refuses as [`load_record`]; the bytes are then as they were.
pub fn store_record(record: &Record, bytes: &mut [u8]) -> Result<(), Refusal> {
    answered(images::store_record(record.words(), bytes), ())
}

/// A window from its image of [`WINDOW_BYTES`]. Refuses as [`BadTable`](Refusal::BadTable) another count of bytes, then
/// as [`BadConfig`](Refusal::BadConfig) what no window is stored as.
pub fn load_window(bytes: &[u8]) -> Result<Window, Refusal> {
    let mut window = Window::NONE;
    let number = images::load_window(bytes, window.words_mut());
    answered(number, window)
}

/// A window as an image. Refuses as [`load_window`]; the bytes are then as they were.
pub fn store_window(window: &Window, bytes: &mut [u8]) -> Result<(), Refusal> {
    answered(images::store_window(window.words(), bytes), ())
}

/// A queue from its image of [`QUEUE_BYTES`]. Refuses as [`BadTable`](Refusal::BadTable) another count of bytes, then
/// as [`Damaged`](Refusal::Damaged) what no queue is stored as; the queue is then as it was. Whether lists and trees
/// agree with a table is not asked.
pub fn load_queue(bytes: &[u8], queue: &mut Queue) -> Result<(), Refusal> {
    answered(images::load_queue(bytes, queue.words_mut()), ())
}

/// A queue as an image. Refuses as [`load_queue`]; the bytes are then as they were.
pub fn store_queue(queue: &Queue, bytes: &mut [u8]) -> Result<(), Refusal> {
    answered(images::store_queue(queue.words(), bytes), ())
}

/// A table from its image, [`RECORD_BYTES`] for each record. Refuses as [`BadTable`](Refusal::BadTable) another count
/// of bytes or more than [`MOST_RECORDS`](crate::MOST_RECORDS) records, then as [`BadRecord`](Refusal::BadRecord) what
/// no table is stored as; no record is then changed.
pub fn load_table(bytes: &[u8], table: &mut [Record]) -> Result<(), Refusal> {
    answered(images::load_table(bytes, rows_mut(table)), ())
}

/// A table as an image. Refuses as [`load_table`]; the bytes are then as they were.
pub fn store_table(table: &[Record], bytes: &mut [u8]) -> Result<(), Refusal> {
    answered(images::store_table(rows(table), bytes), ())
}
