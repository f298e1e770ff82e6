//! The C calls as crates/board exports them. The table goes as its address and its count of rows, a lift record as its
//! address and its count of words, an array as its address. A count has 64 bits on every target: the library reads it
//! so, also where an address has 32.

use super::{
    ChoiceWords, ConfigWords, DeadlineWords, DemandWords, FlagWord, KeyWords, LengthWords, Path,
    PlaceWords, QueueWords, Row, SelectionWords, SlidWords, TurnWords, WindowWords,
};

unsafe extern "C" {
    pub fn board_version() -> u64;
    pub fn board_new(q: *mut QueueWords) -> u64;
    pub fn board_enqueue(
        q: *mut QueueWords,
        t: *mut Row,
        rows: u64,
        path: *mut Path,
        id: u64,
        cpu: u8,
    ) -> u64;
    pub fn board_enqueue_front(
        q: *mut QueueWords,
        t: *mut Row,
        rows: u64,
        path: *mut Path,
        id: u64,
        cpu: u8,
    ) -> u64;
    pub fn board_remove(
        q: *mut QueueWords,
        t: *mut Row,
        rows: u64,
        path: *mut Path,
        id: u64,
        cpu: u8,
    ) -> u64;
    pub fn board_lengths(q: *const QueueWords, answer: *mut LengthWords) -> u64;
    pub fn board_window(window: *mut WindowWords, config: *const ConfigWords) -> u64;
    pub fn board_select(
        q: *mut QueueWords,
        t: *mut Row,
        rows: u64,
        path: *mut Path,
        cpu: u8,
        now_ns: u64,
        window: *mut WindowWords,
        running: u64,
        current: *const Row,
        answer: *mut SelectionWords,
    ) -> u64;
    pub fn board_prepare(
        t: *mut Row,
        rows: u64,
        id: u64,
        front: u64,
        now_ns: u64,
        turns: *mut TurnWords,
    ) -> u64;
    pub fn board_account(
        t: *mut Row,
        rows: u64,
        id: u64,
        window: *mut WindowWords,
        mode: u64,
        start: u64,
        end: u64,
    ) -> u64;
    pub fn board_candidate(
        t: *mut Row,
        rows: u64,
        id: u64,
        running: u64,
        now_ns: u64,
        current: *mut Row,
    ) -> u64;
    pub fn board_expired(t: *const Row, rows: u64, id: u64, answer: *mut FlagWord) -> u64;
    pub fn board_finish(t: *mut Row, rows: u64, id: u64) -> u64;
    pub fn board_key(
        window: *mut WindowWords,
        now_ns: u64,
        current: *const Row,
        demand: *const DemandWords,
        key: *mut KeyWords,
    ) -> u64;
    pub fn board_switch(
        ready: *const KeyWords,
        key: *const KeyWords,
        current: *const Row,
        expired: u64,
        yielding: u64,
        tail: u64,
        answer: *mut ChoiceWords,
    ) -> u64;
    pub fn board_deadline(
        t: *mut Row,
        rows: u64,
        id: u64,
        now_ns: u64,
        key: *const KeyWords,
        window: *mut WindowWords,
        competition: u64,
        budget_peer: u64,
        ready: u64,
        demand: *const DemandWords,
        answer: *mut DeadlineWords,
    ) -> u64;
    pub fn board_lift(
        list: *const u64,
        words: u64,
        now_ns: u64,
        width_ns: u64,
        place: *mut PlaceWords,
    ) -> u64;
    pub fn board_lift_from(
        list: *const u64,
        words: u64,
        ordered: u64,
        now_ns: u64,
        width_ns: u64,
        place: *mut PlaceWords,
    ) -> u64;
    pub fn board_slide(
        list: *const u64,
        words: u64,
        width_ns: u64,
        earlier_ns: u64,
        first: u64,
        count: u64,
        now_ns: u64,
        slid: *mut SlidWords,
    ) -> u64;
    pub fn board_append(
        list: *mut u64,
        words: u64,
        runs: u64,
        start: u64,
        end: u64,
        thread: u64,
    ) -> u64;
}
