//! One table on both sides: the port's rows and the oracle's records.

use images::RECORD_BYTES;
use kernel::oracle::*;

use crate::bytes::{is_image, record_in, rows_of, with_image};
use crate::rows::{Row, record_of, row_of};

/// What a call gives, or the number of a refusal.
pub type Answer<T> = Result<T, u64>;

/// A table of up to so many records is printed whole with a differing call.
const SHOWN: usize = 64;

/// A record's place is 0 to 4,095.
pub const MOST_RECORDS: usize = 4096;

/// A record with its place, or none.
pub type Placed = Option<(usize, Record)>;

#[derive(Clone)]
pub struct Table {
    pub rows: Vec<Row>,
    pub records: Vec<Record>,
}

impl Table {
    /// The port's rows are loaded from the records' bytes.
    pub fn of(records: Vec<Record>) -> Self {
        let rows = rows_of(&records);
        Self { rows, records }
    }

    /// What any words stand for.
    pub fn of_rows(rows: Vec<Row>) -> Self {
        let records = rows.iter().map(record_of).collect();
        Self { rows, records }
    }

    /// Another record in a place, on both sides.
    pub fn put(&mut self, place: usize, record: Record) {
        self.rows[place] = rows_of(&[record])[0];
        self.records[place] = record;
    }

    /// The records before a call, to be shown where it differs.
    pub fn shown(&self) -> Option<Vec<Record>> {
        (self.records.len() <= SHOWN).then(|| self.records.clone())
    }

    /// The first record that differs, as the port and as the source left it. Every row is looked at: as the bytes that
    /// the port stores it to, or as its words where it stores none.
    pub fn difference(&self) -> (Placed, Placed) {
        with_image(&self.rows, |bytes| self.difference_of_bytes(bytes))
            .unwrap_or_else(|| self.difference_of_words())
    }

    fn difference_of_bytes(&self, bytes: &[u8]) -> (Placed, Placed) {
        let images = bytes.chunks_exact(RECORD_BYTES);
        let mut pairs = images.zip(&self.records).enumerate();
        let differing = pairs.find(|(_, (image, record))| !is_image(image, record));
        differing.map_or((None, None), |(place, (image, record))| {
            (Some((place, record_in(image))), Some((place, *record)))
        })
    }

    /// The same by the words, of which those that nothing encodes to stand for a record too.
    fn difference_of_words(&self) -> (Placed, Placed) {
        let pairs = self.rows.iter().zip(&self.records).enumerate();
        for (place, (row, record)) in pairs {
            if *row != row_of(record) && record_of(row) != *record {
                return (Some((place, record_of(row))), Some((place, *record)));
            }
        }
        (None, None)
    }
}

/// The source's answer as the port's: document 01, "Turned down".
pub fn expected<T>(answer: kernel::oracle::Answer<T>) -> Answer<T> {
    answer.map_err(|refusal| match refusal {
        Refusal::ThreadNotFound | Refusal::QueueCorrupted | Refusal::MoveLimit => 1,
        Refusal::InvalidThreadState => 2,
        Refusal::ThreadAlreadyQueued => 3,
        Refusal::Halted(_) => 9,
        Refusal::RecordDisagrees => 11,
        other => panic!("a refusal that these calls do not give: {other:?}"),
    })
}

/// What document 01 refuses of a tree or a list by itself before the source is asked: more than 4,096 records, then a
/// number that is not below the record count. `Tree::first` names no thread.
pub fn refused(records: usize, id: Option<u64>) -> Option<u64> {
    if records > MOST_RECORDS {
        return Some(10);
    }
    id.filter(|id| *id >= records as u64).map(|_| 4)
}
