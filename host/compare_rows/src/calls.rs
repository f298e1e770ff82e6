//! The port's C calls on rows, as crates/row_entries declares them. A slice goes as its address and its count of rows.

use tables::rows::{Path, Row};

#[repr(C)]
#[derive(Clone, Copy, Debug)]
pub struct LinkWords {
    pub some: u64,
    pub number: u64,
}

#[repr(C)]
#[derive(Clone, Copy, Debug)]
pub struct ListAnswer {
    pub number: u64,
    pub head: LinkWords,
    pub tail: LinkWords,
    pub len: u64,
}

#[repr(C)]
#[derive(Clone, Copy, Debug)]
pub struct IndexAnswer {
    pub number: u64,
    pub thread: LinkWords,
}

#[repr(C)]
#[derive(Clone, Copy, Debug)]
pub struct ContainsAnswer {
    pub number: u64,
    pub holds: u64,
}

/// Table, count of rows; the list: head, tail, length; the thread; the membership's three words.
pub type ListCall = unsafe extern "C" fn(
    *mut Row,
    usize,
    u64,
    u64,
    u64,
    u64,
    u64,
    u64,
    u64,
    u64,
    u64,
) -> ListAnswer;

unsafe extern "C" {
    pub fn rows_index_first(t: *const Row, rows: usize, some: u64, number: u64) -> IndexAnswer;
    pub fn rows_index_contains(
        t: *const Row,
        rows: usize,
        some: u64,
        number: u64,
        id: u64,
    ) -> ContainsAnswer;
    pub fn rows_index_insert(
        t: *mut Row,
        rows: usize,
        path: *mut Path,
        some: u64,
        number: u64,
        id: u64,
    ) -> IndexAnswer;
    pub fn rows_index_remove(
        t: *mut Row,
        rows: usize,
        path: *mut Path,
        some: u64,
        number: u64,
        id: u64,
    ) -> IndexAnswer;
    pub fn rows_list_push(
        t: *mut Row,
        rows: usize,
        head_some: u64,
        head: u64,
        tail_some: u64,
        tail: u64,
        len: u64,
        id: u64,
        tag: u64,
        first: u64,
        second: u64,
    ) -> ListAnswer;
    pub fn rows_list_push_front(
        t: *mut Row,
        rows: usize,
        head_some: u64,
        head: u64,
        tail_some: u64,
        tail: u64,
        len: u64,
        id: u64,
        tag: u64,
        first: u64,
        second: u64,
    ) -> ListAnswer;
    pub fn rows_list_remove(
        t: *mut Row,
        rows: usize,
        head_some: u64,
        head: u64,
        tail_some: u64,
        tail: u64,
        len: u64,
        id: u64,
        tag: u64,
        first: u64,
        second: u64,
    ) -> ListAnswer;
}
