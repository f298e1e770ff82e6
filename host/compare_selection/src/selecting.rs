//! One selection on both sides.

use compare_queue::board::Board;
use kernel::oracle::*;
use tables::rows::Row;
use tables::table::{Answer, MOST_RECORDS, expected};
use tables::tally::Tally;
use tables::windows::{WindowWords, candidate_of, candidate_words, window_of, window_words};

use crate::port;

/// What a selection brings, as words of any kind.
#[derive(Clone, Copy)]
pub struct Peek {
    pub cpu: u8,
    pub now: u64,
    pub window: WindowWords,
    pub current: Option<Row>,
}

/// An answer, and the window as it is left.
#[derive(Clone, Copy, Debug, PartialEq)]
pub struct Selected {
    pub answer: Answer<Selection>,
    pub window: Window,
}

impl Peek {
    pub fn new(cpu: u8, now: u64, window: Window, current: Option<Candidate>) -> Self {
        Self {
            cpu,
            now,
            window: window_words(window),
            current: current.map(candidate_words),
        }
    }

    pub fn window(&self) -> Window {
        window_of(&self.window)
    }

    pub fn current(&self) -> Option<Candidate> {
        self.current.as_ref().map(candidate_of)
    }

    /// `ArbitrationConfig::new` takes the window's configuration.
    pub fn is_sound(&self) -> bool {
        let config = self.window().config;
        config_new(config.period, config.allowance, config.floor, config.order).is_some()
    }
}

/// Document 01's refusals in its order, as far as they come before the source's own.
fn refused(board: &Board, peek: &Peek) -> Option<u64> {
    if board.table.records.len() > MOST_RECORDS {
        return Some(10);
    }
    if !peek.is_sound() {
        return Some(5);
    }
    board.marked.halted.then_some(9)
}

/// The name of what the source did, by which comparisons are counted.
fn name(answer: &kernel::oracle::Answer<Selection>) -> &'static str {
    match answer {
        Ok(selection) if selection.ready.is_some() => "peek_next, a thread",
        Ok(_) => "peek_next, none",
        Err(Refusal::MoveLimit) => "peek_next, Damaged by the move limit",
        Err(Refusal::Halted(_)) => "peek_next, Halted",
        Err(Refusal::RecordDisagrees) => "peek_next, BadRecord",
        Err(_) => "peek_next, Damaged",
    }
}

/// The source's answer and stores; a halt leaves the mark.
fn by_source(board: &mut Board, peek: &Peek) -> (&'static str, Selected) {
    let mut window = peek.window();
    if let Some(number) = refused(board, peek) {
        let name = match number {
            10 => "peek_next, BadTable",
            5 => "peek_next, BadConfig",
            _ => "peek_next, Halted earlier",
        };
        let answer = Err(number);
        return (name, Selected { answer, window });
    }
    let queue = &mut board.marked.queue;
    let records = &mut board.table.records;
    let answer = peek_next(
        queue,
        records,
        peek.cpu,
        peek.now,
        &mut window,
        peek.current(),
    );
    board.marked.halted = matches!(answer, Err(Refusal::Halted(_)));
    let name = name(&answer);
    let answer = expected(answer);
    (name, Selected { answer, window })
}

fn by_port(board: &mut Board, peek: &Peek) -> Selected {
    let mut words = peek.window;
    let lent = board.lent();
    let answer = port::peek_next(lent, peek.cpu, peek.now, &mut words, peek.current.as_ref());
    Selected {
        answer,
        window: window_of(&words),
    }
}

/// Makes the selection on both sides: answer, window, queue and every record are compared, and the board goes on from
/// the source's. What the port answered.
pub fn select(tally: &mut Tally, board: &mut Board, peek: &Peek) -> Selected {
    let shown = board.table.shown();
    let brought = (peek.cpu, peek.now, peek.window(), peek.current());
    let before = (brought, board.marked.clone(), shown);
    let port = by_port(board, peek);
    let (name, source) = by_source(board, peek);
    board.compare(tally, name, before, port, source);
    port
}
