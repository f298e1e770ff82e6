//! The port's calls on plain values. A refusal is its number in document 01.

use kernel::oracle::{Candidate, Config, Demand, Key, Mode, Record, Turns, Window};

use crate::calls::*;
use crate::words::*;
use tables::bytes::{records_of, rows_of};
use tables::windows::candidate_of;

/// What a call gives, or the number of a refusal.
pub type Answer<T> = Result<T, u64>;

/// No key.
const NO_KEY: KeyWords = [0; 9];

/// What a candidate's words hold before a call.
const UNTOUCHED: Row = [0x5555_5555; 32];

fn answer<T>(number: u64, value: T) -> Answer<T> {
    if number == 0 { Ok(value) } else { Err(number) }
}

/// A new window over another's words.
pub fn new_window(config: Config, window: &mut Window) -> Answer<()> {
    let mut words = window_words(*window);
    let given = window_words(Window { config, ..*window });
    let config = given.first_chunk().expect("12 words begin with 8");
    let number = board::words::window(&mut words, config);
    *window = window_of(words);
    answer(number, ())
}

/// The port's table: rows of words.
pub struct Rows(Vec<Row>);

impl Rows {
    pub fn of(records: &[Record]) -> Self {
        Self(rows_of(records))
    }

    pub fn records(&self) -> Vec<Record> {
        records_of(&self.0)
    }

    /// A call on rows that someone else keeps.
    pub fn lent<T>(rows: &mut Vec<Row>, call: impl FnOnce(&mut Self) -> T) -> T {
        let mut lent = Self(core::mem::take(rows));
        let answer = call(&mut lent);
        *rows = lent.0;
        answer
    }

    pub fn prepare_enqueue(
        &mut self,
        id: u64,
        front: bool,
        now: u64,
        turns: &mut Turns,
    ) -> Answer<()> {
        let mut words = [turns.back, turns.front];
        let number = board::words::prepare(&mut self.0, id, front.into(), now, &mut words);
        [turns.back, turns.front] = words;
        answer(number, ())
    }

    pub fn account_current(
        &mut self,
        id: u64,
        window: &mut Window,
        mode: Mode,
        start: u64,
        end: u64,
    ) -> Answer<()> {
        let mut words = window_words(*window);
        let mode = mode_word(mode);
        let number = board::words::account(&mut self.0, id, &mut words, mode, start, end);
        *window = window_of(words);
        answer(number, ())
    }

    pub fn finish_turn(&mut self, id: u64) -> Answer<()> {
        answer(board::words::finish(&mut self.0, id), ())
    }

    /// The candidate; none where the thread is not Running. Then, and at a refusal, its words must stay.
    pub fn current_candidate(
        &mut self,
        id: u64,
        running: bool,
        now: u64,
    ) -> Answer<Option<Candidate>> {
        let mut row = UNTOUCHED;
        let number = board::words::candidate(&mut self.0, id, running.into(), now, &mut row);
        if number != 0 || !running {
            assert_eq!(row, UNTOUCHED, "a candidate of a thread that has none");
        }
        answer(number, running.then(|| candidate_of(&row)))
    }

    pub fn expired(&self, id: u64) -> Answer<bool> {
        let mut words = [0; 1];
        let number = board::words::expired(&self.0, id, &mut words);
        answer(number, flag_of(words[0]))
    }

    /// The key of the current thread, by its candidate and the window, which are both refreshed.
    pub fn current_key(
        &mut self,
        id: u64,
        running: bool,
        now: u64,
        window: &mut Window,
        demand: Demand,
    ) -> Answer<KeyWords> {
        let (mut row, mut key) = (UNTOUCHED, NO_KEY);
        let number = board::words::candidate(&mut self.0, id, running.into(), now, &mut row);
        answer(number, ())?;
        if !running {
            return Ok(NO_KEY);
        }
        let mut words = window_words(*window);
        let demand = demand_words(demand);
        let number = board::words::key(&mut words, now, &row, &demand, &mut key);
        *window = window_of(words);
        answer(number, key)
    }

    /// Whether to switch, and the front flag.
    pub fn choose_ready(
        &self,
        id: u64,
        ready: Option<Key>,
        current: &KeyWords,
        expired: bool,
        yielding: bool,
        tail: bool,
    ) -> (bool, bool) {
        let ready = ready.map_or(NO_KEY, key_words);
        let row = &self.0[id as usize];
        let [expired, yielding, tail] = [expired, yielding, tail].map(u64::from);
        let mut choice = [u64::MAX; 2];
        let number =
            board::words::switch(&ready, current, row, expired, yielding, tail, &mut choice);
        assert_eq!(number, 0, "the switch rule refuses nothing");
        (flag_of(choice[0]), flag_of(choice[1]))
    }

    pub fn refresh_deadline(
        &mut self,
        id: u64,
        now: u64,
        current: &KeyWords,
        window: &mut Window,
        others: Others,
    ) -> Answer<Option<u64>> {
        let mut words = window_words(*window);
        let mut due = [0; 2];
        let demand = demand_words(others.demand);
        let number = board::words::deadline(
            &mut self.0,
            id,
            now,
            current,
            &mut words,
            others.competition.into(),
            others.budget_peer.into(),
            others.ready.into(),
            &demand,
            &mut due,
        );
        *window = window_of(words);
        answer(number, option_of(due))
    }
}

/// What else there is on the processor.
#[derive(Clone, Copy, Debug)]
pub struct Others {
    pub competition: bool,
    pub budget_peer: bool,
    pub ready: bool,
    pub demand: Demand,
}

/// The mode of a key's words, if there is a key.
pub fn mode_of(key: &KeyWords) -> Option<Mode> {
    key_of(*key).map(|(_, mode)| mode)
}
