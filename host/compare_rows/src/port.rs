//! The port's calls on plain values. A refusal is its number in document 01; the root or the list is then the caller's
//! old one.

use kernel::oracle::{List, Membership};

use crate::calls::*;
use tables::rows::{Path, Row, link_words, membership_words};
use tables::table::Answer;

fn answer<T>(number: u64, value: T) -> Answer<T> {
    if number == 0 { Ok(value) } else { Err(number) }
}

fn link(words: LinkWords) -> Option<u64> {
    match words.some {
        0 => None,
        1 => Some(words.number),
        other => panic!("a flag of {other}"),
    }
}

pub fn first(rows: &[Row], root: Option<u64>) -> Answer<Option<u64>> {
    let [some, number] = link_words(root);
    // SAFETY: the address and the count are those of a slice of rows.
    let given = unsafe { rows_index_first(rows.as_ptr(), rows.len(), some, number) };
    answer(given.number, link(given.thread))
}

pub fn contains(rows: &[Row], root: Option<u64>, id: u64) -> Answer<bool> {
    let [some, number] = link_words(root);
    // SAFETY: the address and the count are those of a slice of rows.
    let given = unsafe { rows_index_contains(rows.as_ptr(), rows.len(), some, number, id) };
    answer(given.number, given.holds == 1)
}

pub fn insert(rows: &mut [Row], root: &mut Option<u64>, id: u64) -> Answer<()> {
    let [some, number] = link_words(*root);
    let mut path: Path = [[u64::MAX; 2]; 40];
    let (t, count) = (rows.as_mut_ptr(), rows.len());
    // SAFETY: the address and the count are those of a slice of rows, and the path is lent.
    let given = unsafe { rows_index_insert(t, count, &mut path, some, number, id) };
    answer(given.number, ()).inspect(|()| *root = link(given.thread))
}

pub fn remove(rows: &mut [Row], root: &mut Option<u64>, id: u64) -> Answer<()> {
    let [some, number] = link_words(*root);
    let mut path: Path = [[u64::MAX; 2]; 40];
    let (t, count) = (rows.as_mut_ptr(), rows.len());
    // SAFETY: the address and the count are those of a slice of rows, and the path is lent.
    let given = unsafe { rows_index_remove(t, count, &mut path, some, number, id) };
    answer(given.number, ()).inspect(|()| *root = link(given.thread))
}

pub fn list(
    call: ListCall,
    rows: &mut [Row],
    list: &mut List,
    id: u64,
    membership: Membership,
) -> Answer<()> {
    let ([a, b], [c, d]) = (link_words(list.head), link_words(list.tail));
    let [tag, first, second] = membership_words(membership);
    let (t, count) = (rows.as_mut_ptr(), rows.len());
    // SAFETY: the address and the count are those of a slice of rows.
    let given = unsafe { call(t, count, a, b, c, d, list.len, id, tag, first, second) };
    answer(given.number, ()).inspect(|()| {
        *list = List {
            head: link(given.head),
            tail: link(given.tail),
            len: given.len,
        }
    })
}
