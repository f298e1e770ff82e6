//! One call of each kind: brought, made by the kernel's own Rust with document 01's refusals, and written with its
//! answer.

use compare_queue::board::{Board, Call};
use compare_runtime::expected;
use compare_runtime::port::Others;
use compare_runtime::words::mode_word;
use compare_selection::selecting::{Peek, select};
use kernel::oracle::*;
use tables::rows::link_words;
use tables::tally::Tally;
use tables::windows::{candidate_words, demand_words, halves, key_words, window_words};

use crate::state::*;

/// What the calls of one case share.
pub struct Run {
    pub state: State,
    pub tally: Tally,
    pub board: Board,
    pub turns: Turns,
}

fn number<T>(answer: &Result<T, u64>) -> u64 {
    answer.as_ref().err().copied().unwrap_or(0)
}

fn policy_words(policy: Policy) -> [u64; 2] {
    match policy {
        Policy::Fifo(priority) => [0, priority.into()],
        Policy::Fair => [1, 0],
        Policy::Budget => [2, 0],
        Policy::Idle => [3, 0],
    }
}

/// The layout of crates/board_words/specs/BoardWords.antt.
fn selection_words(selection: &Selection) -> [u64; 19] {
    let mut words = [0; 19];
    if let Some(ready) = &selection.ready {
        words[..9].copy_from_slice(&key_words(ready.key));
        words[1] = ready.number;
        words[9..11].copy_from_slice(&policy_words(ready.policy));
    }
    words[11..16].copy_from_slice(&demand_words(selection.demand));
    if let Some(pass) = selection.fair_min_pass {
        words[16] = 1;
        words[17..].copy_from_slice(&halves(pass));
    }
    words
}

fn keyed(key: Option<(Key, Mode)>) -> [u64; 9] {
    let Some((key, mode)) = key else {
        return [0; 9];
    };
    let mut words = key_words(key);
    words[1] = mode_word(mode);
    words
}

impl Run {
    pub fn queue_call(&mut self, call: Call, id: u64, cpu: u8) {
        let letter = match call {
            Call::Enqueue => 'e',
            Call::EnqueueFront => 'f',
            Call::Remove => 'r',
        };
        self.state.bring_board(&self.board);
        let answer = self.board.call(&mut self.tally, call, id, cpu);
        self.state.call(&format!("{letter} {id} {cpu}"), answer);
        self.state.sum(&self.board);
    }

    pub fn select(&mut self, peek: &Peek) {
        self.state.bring_board(&self.board);
        self.state.bring_scratch(WINDOW, &peek.window);
        if let Some(current) = &peek.current {
            self.state.bring_scratch(CURRENT, current);
        }
        let selected = select(&mut self.tally, &mut self.board, peek);
        let (now, cpu) = (peek.now, peek.cpu);
        let running = u64::from(peek.current.is_some());
        let answer = number(&selected.answer);
        self.state.call(&format!("P {now} {running} {cpu}"), answer);
        self.state
            .left_scratch(WINDOW, &window_words(selected.window));
        if let Ok(selection) = &selected.answer {
            self.state
                .left_scratch(SELECTION, &selection_words(selection));
        }
        self.state.sum(&self.board);
    }

    pub fn prepare(&mut self, id: u64, front: bool, now: u64) {
        self.state.bring_board(&self.board);
        self.state
            .bring_scratch(TURNS, &[self.turns.back, self.turns.front]);
        let mut records = self.board.table.records.clone();
        let given = expected::prepare_enqueue(&mut records, id, front, now, &mut self.turns);
        let answer = number(&given);
        let front = u64::from(front);
        self.state.call(&format!("p {id} {front} {now}"), answer);
        self.state
            .left_scratch(TURNS, &[self.turns.back, self.turns.front]);
        self.put_all(records);
    }

    pub fn account(&mut self, id: u64, window: Window, mode: Mode, start: u64, end: u64) {
        self.state.bring_board(&self.board);
        self.state.bring_scratch(WINDOW, &window_words(window));
        let (mut records, mut after) = (self.board.table.records.clone(), window);
        let given = expected::account_current(&mut records, id, &mut after, mode, start, end);
        let line = format!("a {id} {} {start} {end}", mode_word(mode));
        self.state.call(&line, number(&given));
        self.state.left_scratch(WINDOW, &window_words(after));
        self.put_all(records);
    }

    pub fn finish(&mut self, id: u64) {
        self.state.bring_board(&self.board);
        let mut records = self.board.table.records.clone();
        let given = expected::finish_turn(&mut records, id);
        self.state.call(&format!("o {id}"), number(&given));
        self.put_all(records);
    }

    pub fn budget(&mut self, budget: Budget) {
        let Budget {
            budget,
            period,
            burst,
        } = budget;
        let answer = match budget_new(budget, period, burst) {
            Some(_) => 0,
            None => 6,
        };
        self.state
            .call(&format!("b {budget} {period} {burst}"), answer);
    }

    /// The records as a call of state/runtime.rs left them.
    fn put_all(&mut self, records: Vec<Record>) {
        for (id, record) in (0..).zip(records) {
            if record != self.board.table.records[id as usize] {
                self.board.put(id, record);
            }
        }
        self.state.sum(&self.board);
    }

    /// The running thread's key, where its budget is refreshed to now already; refused where the window is not sound.
    fn key(&mut self, record: &Record, window: Window, now: u64, demand: Demand) -> Option<()> {
        let candidate = record_candidate(record);
        let config = window.config;
        let sound =
            config_new(config.period, config.allowance, config.floor, config.order).is_some();
        self.state.bring_board(&self.board);
        self.state.bring_scratch(WINDOW, &window_words(window));
        self.state
            .bring_scratch(CURRENT, &candidate_words(candidate));
        self.state.bring_scratch(DEMAND, &demand_words(demand));
        if !sound {
            self.state.call(&format!("m {now}"), 5);
            self.state.sum(&self.board);
            return None;
        }
        let (after, key) = window_candidate_key(window, now, candidate, demand).ok()?;
        self.state.call(&format!("m {now}"), 0);
        self.state.left_scratch(WINDOW, &window_words(after));
        self.state.left_scratch(KEY, &keyed(key));
        self.state.sum(&self.board);
        Some(())
    }

    /// The switch rule; where the thread's turn expired or it yields, its turn ends.
    pub fn switch(
        &mut self,
        id: u64,
        window: Window,
        now: u64,
        ready: Option<Ready>,
        demand: Demand,
        yielding: bool,
    ) {
        let mut record = self.board.table.records[id as usize];
        let Ok(expired) = expected::expired(&self.board.table.records, id) else {
            return;
        };
        if self.key(&record, window, now, demand).is_none() {
            return;
        }
        record.running = true;
        let mut after = window;
        let given = expected::switch(&mut record, &mut after, now, ready, demand, yielding);
        let Ok(chosen) = given else {
            return;
        };
        self.state
            .bring_scratch(READY, &ready.map_or([0; 9], |ready| key_words(ready.key)));
        let answer = chosen.map_or(0, |front| 1 + 2 * u64::from(front));
        let (expired, yielding) = (u64::from(expired), u64::from(yielding));
        self.state
            .call(&format!("h {id} {expired} {yielding} 0"), answer);
        self.state.sum(&self.board);
    }

    /// The choice of deadline, and its refusals.
    pub fn deadline(
        &mut self,
        id: u64,
        window: Window,
        now: u64,
        ready: Option<Ready>,
        others: Others,
    ) {
        let place = match expected::judged(&self.board.table.records, id, Some(&window)) {
            Ok(place) => place,
            Err(number) => return self.deadline_refused(id, window, now, others, number),
        };
        let mut record = self.board.table.records[place];
        if self.key(&record, window, now, others.demand).is_none() {
            return;
        }
        record.running = true;
        let (mut after, mut mode) = (window, Mode::Ordinary);
        let given = expected::deadline(&mut record, &mut after, &mut mode, now, ready, others);
        let Ok(due) = given else {
            return;
        };
        record.running = false;
        self.state.call(&deadline_line(id, now, others), 0);
        self.state.left_scratch(WINDOW, &window_words(after));
        self.state.left_scratch(DUE, &link_words(due));
        let mut records = self.board.table.records.clone();
        records[place] = record;
        self.put_all(records);
    }

    fn deadline_refused(&mut self, id: u64, window: Window, now: u64, others: Others, number: u64) {
        self.state.bring_board(&self.board);
        self.state.bring_scratch(WINDOW, &window_words(window));
        self.state.call(&deadline_line(id, now, others), number);
        self.state.sum(&self.board);
    }
}

fn deadline_line(id: u64, now: u64, others: Others) -> String {
    let flags = [others.competition, others.budget_peer, others.ready].map(u64::from);
    let [competition, peer, ready] = flags;
    format!("d {id} {now} {competition} {peer} {ready}")
}
