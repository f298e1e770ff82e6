//! The two sides of the benchmark: the port through its exported entries, and the kernel's Rust on its own queue and
//! records, through its own access.

use board::words;
use kernel::oracle::*;
use tables::rows::row_of;
use tables::windows::window_words;

pub const PERIOD: u64 = 10_000_000;

/// The first reading: its epoch is that of the budgets.
pub const START: u64 = PERIOD;

fn window() -> Window {
    let config = config_new(PERIOD, 2_000_000, 3_000_000, DEFAULT_ORDER);
    window_new(config.expect("a sound configuration"))
}

/// A board whose last thread runs while the others may be queued.
pub trait Side {
    fn of(records: &[Record]) -> Self;
    /// So many threads prepared and enqueued, for cycles.
    fn wake(&mut self, count: u64);
    fn enqueue(&mut self, id: u64);
    fn enqueue_front(&mut self, id: u64);
    fn remove(&mut self, id: u64);
    /// The number of the thread that a selection with no current thread names.
    fn select(&mut self, now: u64) -> u64;
    /// A whole cycle up to a reading: the running thread is charged, selection and the switch rule choose, with a
    /// running thread that yields; whoever gives way is prepared and enqueued, the chosen one removed; the deadline is
    /// chosen. The thread that then runs, and the deadline.
    fn cycle(&mut self, now: u64) -> (u64, u64);
}

/// What the board lends is kept from call to call and not cleared between.
pub struct Port {
    queue: words::QueueWords,
    rows: Vec<words::Row>,
    path: words::Path,
    window: words::WindowWords,
    current: words::Row,
    answer: words::SelectionWords,
    key: words::KeyWords,
    turns: [u64; 2],
    running: u64,
    mode: u64,
    last: u64,
}

fn made(number: u64) {
    assert_eq!(number, 0);
}

impl Port {
    /// A selection with the running thread, and then its key.
    fn look(&mut self, now: u64) {
        let (rows, current) = (&mut self.rows, &mut self.current);
        made(words::candidate(rows, self.running, 1, now, current));
        let (queue, window) = (&mut self.queue, &mut self.window);
        let (path, answer) = (&mut self.path, &mut self.answer);
        made(words::select(
            queue, rows, path, 0, now, window, 1, current, answer,
        ));
        let demand = words::demand_in(answer);
        made(words::key(window, now, current, demand, &mut self.key));
    }

    /// The switch rule on a thread that yields, whose turn ends.
    fn choose(&mut self) -> [u64; 2] {
        let (mut expired, mut choice) = ([0], [0; 2]);
        made(words::expired(&self.rows, self.running, &mut expired));
        let (ready, current) = (words::ready_in(&self.answer), &self.current);
        made(words::switch(
            ready,
            &self.key,
            current,
            expired[0],
            1,
            0,
            &mut choice,
        ));
        made(words::finish(&mut self.rows, self.running));
        choice
    }

    fn give_way(&mut self, now: u64, front: u64) {
        let (next, id) = (self.answer[1], self.running);
        made(words::prepare(
            &mut self.rows,
            id,
            front,
            now,
            &mut self.turns,
        ));
        match front {
            0 => self.enqueue(id),
            _ => self.enqueue_front(id),
        }
        self.remove(next);
        self.running = next;
    }

    fn deadline(&mut self, now: u64) -> u64 {
        let (mut lengths, mut due) = ([0; 3], [0; 2]);
        made(words::lengths(&self.queue, &mut lengths));
        if self.key[0] != 0 {
            self.mode = self.key[1];
        }
        made(words::deadline(
            &mut self.rows,
            self.running,
            now,
            &self.key,
            &mut self.window,
            lengths[0] + lengths[1],
            lengths[2],
            self.answer[0],
            words::demand_in(&self.answer),
            &mut due,
        ));
        due[1]
    }
}

impl Side for Port {
    fn of(records: &[Record]) -> Self {
        let mut queue = [[0; 5]; 270];
        made(words::new(&mut queue));
        Self {
            queue,
            rows: records.iter().map(row_of).collect(),
            path: [[0; 2]; 40],
            window: window_words(window()),
            current: [0; 32],
            answer: [0; 19],
            key: [0; 9],
            turns: [1 << 63; 2],
            running: records.len() as u64 - 1,
            mode: 3,
            last: START,
        }
    }

    fn wake(&mut self, count: u64) {
        for id in 0..count {
            made(words::prepare(
                &mut self.rows,
                id,
                0,
                START,
                &mut self.turns,
            ));
            self.enqueue(id);
        }
    }

    fn enqueue(&mut self, id: u64) {
        let (queue, rows) = (&mut self.queue, &mut self.rows);
        made(words::enqueue(queue, rows, &mut self.path, id, 0));
    }

    fn enqueue_front(&mut self, id: u64) {
        let (queue, rows) = (&mut self.queue, &mut self.rows);
        made(words::enqueue_front(queue, rows, &mut self.path, id, 0));
    }

    fn remove(&mut self, id: u64) {
        let (queue, rows) = (&mut self.queue, &mut self.rows);
        made(words::remove(queue, rows, &mut self.path, id, 0));
    }

    fn select(&mut self, now: u64) -> u64 {
        let (queue, rows, path) = (&mut self.queue, &mut self.rows, &mut self.path);
        let (window, answer) = (&mut self.window, &mut self.answer);
        made(words::select(
            queue,
            rows,
            path,
            0,
            now,
            window,
            0,
            &self.current,
            answer,
        ));
        answer[1]
    }

    fn cycle(&mut self, now: u64) -> (u64, u64) {
        let (start, window) = (core::mem::replace(&mut self.last, now), &mut self.window);
        made(words::account(
            &mut self.rows,
            self.running,
            window,
            self.mode,
            start,
            now,
        ));
        self.look(now);
        let choice = self.choose();
        if choice[0] != 0 {
            self.give_way(now, choice[1]);
        }
        self.look(now);
        let due = self.deadline(now);
        (self.running, due)
    }
}

/// The kernel's own queue and its own scheduler, each over its records.
pub struct Rust {
    queue: KeptQueue,
    board: KeptBoard,
    running: u64,
}

impl Side for Rust {
    fn of(records: &[Record]) -> Self {
        let running = records.len() as u64 - 1;
        let mut records = records.to_vec();
        records[running as usize].running = true;
        Self {
            queue: KeptQueue::of(&records, window()),
            board: KeptBoard::of(&records, window(), START, running),
            running,
        }
    }

    fn wake(&mut self, count: u64) {
        for id in 0..count {
            let queued = self.board.enqueue(id, false, START);
            queued.expect("an accepted enqueue");
        }
    }

    fn enqueue(&mut self, id: u64) {
        self.queue.enqueue(id).expect("an accepted enqueue");
    }

    fn enqueue_front(&mut self, id: u64) {
        self.queue.enqueue_front(id).expect("an accepted enqueue");
    }

    fn remove(&mut self, id: u64) {
        self.queue.remove(id).expect("an accepted removal");
    }

    fn select(&mut self, now: u64) -> u64 {
        let named = self.queue.select(now).expect("a selection");
        named.expect("a thread that is named")
    }

    fn cycle(&mut self, now: u64) -> (u64, u64) {
        KeptBoard::set_clock(now);
        self.board.account().expect("an accepted interval");
        let chosen = self.board.choose(true).expect("a choice");
        if let Some((next, front)) = chosen {
            let gone = self.board.enqueue(self.running, front, now);
            gone.expect("an accepted enqueue");
            self.board.run(next).expect("an accepted removal");
            self.running = next;
        }
        let due = self.board.deadline().expect("a deadline");
        (self.running, due.unwrap_or(0))
    }
}
