//! A board's main loop on one processor: who wakes is enqueued, it is chosen who runs, the timer is set to the
//! deadline, and what ran is charged. Here the timer is simulated, over the lifts of crates/scenario/data/twin-hook.txt
//! and change-of-period.txt; what it prints, a line for each stretch, stands in cycle.txt beside it. `cargo run
//! --example cycle`.

use std::process::ExitCode;

use board::{
    Backend, Budget, Candidate, Config, Key, Mode, Path, Queue, Record, Refusal, Role, Selection,
    Turns, Window,
};

const CPU: u8 = 0;
const PERIOD_NS: u64 = 10_000_000;
const ALLOWANCE_NS: u64 = 2_000_000;
const FLOOR_NS: u64 = 3_000_000;
const SWAY: Budget = Budget {
    budget_ns: 2_000_000,
    period_ns: PERIOD_NS,
    burst_ns: 1_000_000,
};
const LOG_WEIGHT: u16 = 16;
const LOG_SLICE_NS: u64 = 4_000_000;

const THREADS: usize = 8;
const HOOK_A_SWAY_1: u64 = 0;
const HOOK_A_SWAY_2: u64 = 1;
const HOOK_B_SWAY_1: u64 = 2;
const HOOK_B_SWAY_2: u64 = 3;
const BRAKE: u64 = 4;
const DRIVE: u64 = 5;
const LOG: u64 = 6;
const IDLE: u64 = 7;

const NAMES: [&str; THREADS] = [
    "hook A sway 1",
    "hook A sway 2",
    "hook B sway 1",
    "hook B sway 2",
    "brake",
    "drive",
    "log",
    "idle",
];

/// Two protected sway loops of either hook; the brake before all others; the drive on the window's allowance.
const TABLE: [Record; THREADS] = [
    Record::budget(SWAY, Role::Protected),
    Record::budget(SWAY, Role::Protected),
    Record::budget(SWAY, Role::Protected),
    Record::budget(SWAY, Role::Protected),
    Record::fifo(1, Role::Ordinary),
    Record::fifo(2, Role::Priority),
    Record::fair(Backend::Stride, LOG_WEIGHT, LOG_SLICE_NS, Role::Ordinary),
    Record::idle(),
];

/// What a board keeps.
struct Board {
    queue: Queue,
    table: [Record; THREADS],
    path: Path,
    window: Window,
    turns: Turns,
    /// The last reading of the clock.
    now: u64,
    /// The current thread; whether it is running, or waits since its work is done; the mode that it is charged by.
    current: u64,
    running: bool,
    mode: Mode,
    /// How long each thread works before it waits: what the simulation knows, and a board does not.
    work: [u64; THREADS],
}

/// The current thread beside all others.
struct Look {
    candidate: Option<Candidate>,
    selection: Selection,
    key: Option<Key>,
}

/// The current thread's key, and when to look again.
struct Armed {
    key: Option<Key>,
    deadline: Option<u64>,
}

impl Board {
    fn new() -> Result<Self, Refusal> {
        let mut work = [0; THREADS];
        work[IDLE as usize] = u64::MAX;
        Ok(Self {
            queue: Queue::EMPTY,
            table: TABLE,
            path: Path::NEW,
            window: board::window(&Config::new(PERIOD_NS, ALLOWANCE_NS, FLOOR_NS))?,
            turns: Turns::START,
            now: 0,
            current: IDLE,
            running: true,
            mode: Mode::Ordinary,
            work,
        })
    }

    fn enqueue(&mut self, id: u64, front: bool) -> Result<(), Refusal> {
        board::prepare(&mut self.table, id, front, self.now, &mut self.turns)?;
        let (queue, table, path) = (&mut self.queue, &mut self.table, &mut self.path);
        match front {
            true => board::enqueue_front(queue, table, path, id, CPU),
            false => board::enqueue(queue, table, path, id, CPU),
        }
    }

    fn wake(&mut self, wake: &Wake) -> Result<(), Refusal> {
        self.work[wake.thread as usize] = wake.work;
        self.enqueue(wake.thread, false)
    }

    /// A selection beside the current thread, and that thread's key.
    fn look(&mut self) -> Result<Look, Refusal> {
        let (queue, table, path) = (&mut self.queue, &mut self.table, &mut self.path);
        let (now, window) = (self.now, &mut self.window);
        let candidate = board::candidate(table, self.current, self.running, now)?;
        let selection = board::select(queue, table, path, CPU, now, window, candidate.as_ref())?;
        let key = match &candidate {
            Some(candidate) => board::key(window, now, candidate, &selection.demand())?,
            None => None,
        };
        Ok(Look {
            candidate,
            selection,
            key,
        })
    }

    /// It is chosen who runs. A turn that is spent ends; where nobody is left, the idle thread runs.
    fn choose(&mut self) -> Result<(), Refusal> {
        let Look {
            candidate,
            selection,
            key,
        } = self.look()?;
        let expired = board::expired(&self.table, self.current)?;
        let choice = board::switch(
            &selection,
            key.as_ref(),
            candidate.as_ref(),
            expired,
            false,
            false,
        )?;
        if expired {
            board::finish(&mut self.table, self.current)?;
        }
        match selection.thread() {
            Some(next) if choice.switches() => self.switch_to(next, choice.to_front())?,
            _ if self.running => {}
            _ => self.current = IDLE,
        }
        self.running = true;
        Ok(())
    }

    /// Whoever gives way is enqueued again, unless its work is done or it is the idle thread; the next one leaves the
    /// queue.
    fn switch_to(&mut self, next: u64, front: bool) -> Result<(), Refusal> {
        if self.running && self.current != IDLE {
            self.enqueue(self.current, front)?;
        }
        board::remove(&mut self.queue, &mut self.table, &mut self.path, next, CPU)?;
        self.current = next;
        Ok(())
    }

    /// When to look again. A board sets its timer to the deadline here.
    fn arm(&mut self) -> Result<Armed, Refusal> {
        let Look { selection, key, .. } = self.look()?;
        let lengths = board::lengths(&self.queue)?;
        let (table, window) = (&mut self.table, &mut self.window);
        let deadline = board::deadline(
            table,
            self.current,
            self.now,
            key.as_ref(),
            window,
            &lengths,
            &selection,
        )?;
        Ok(Armed { key, deadline })
    }

    /// The reading at which the simulated timer ends the stretch: the deadline, the end of the thread's work, or what
    /// comes next.
    fn timer(&self, armed: &Armed, next: u64) -> u64 {
        let done = self.now.saturating_add(self.work[self.current as usize]);
        done.min(next).min(armed.deadline.unwrap_or(next))
    }

    /// The current thread runs up to a reading and is charged. A board dispatches it here, and comes back by the timer,
    /// by an interrupt that wakes another thread, or because the thread waits.
    fn run_until(&mut self, reading: u64, armed: &Armed) -> Result<(), Refusal> {
        let start = core::mem::replace(&mut self.now, reading);
        let left = &mut self.work[self.current as usize];
        *left = left.saturating_sub(reading - start);
        self.running = *left > 0;
        self.mode = armed.key.map_or(self.mode, |key| key.mode());
        board::account(
            &mut self.table,
            self.current,
            &mut self.window,
            self.mode,
            start,
            reading,
        )
    }
}

/// A thread that wakes, and how long it then works before it waits again.
struct Wake {
    at: u64,
    thread: u64,
    work: u64,
}

const fn wake(at: u64, thread: u64, work: u64) -> Wake {
    Wake { at, thread, work }
}

struct Lift {
    file: &'static str,
    wakes: &'static [Wake],
    until: u64,
}

const LIFTS: [Lift; 2] = [
    Lift {
        file: "twin-hook.txt",
        wakes: &[
            wake(0, LOG, u64::MAX),
            wake(1_000_000, BRAKE, 500_000),
            wake(5_500_000, DRIVE, 2_300_000),
            wake(5_600_000, HOOK_B_SWAY_1, 1_200_000),
            wake(5_700_000, HOOK_A_SWAY_1, 800_000),
        ],
        until: 10_000_000,
    },
    Lift {
        file: "change-of-period.txt",
        wakes: &[
            wake(1_000_000, HOOK_A_SWAY_1, 2_500_000),
            wake(1_000_000, HOOK_B_SWAY_1, 2_500_000),
            wake(1_000_000, HOOK_A_SWAY_2, 2_500_000),
            wake(1_000_000, HOOK_B_SWAY_2, 2_500_000),
            wake(9_200_000, LOG, u64::MAX),
            wake(9_800_000, BRAKE, 400_000),
        ],
        until: 13_000_000,
    },
];

/// The wakes of the simulation that are due; those that are still to come.
fn wake_due<'a>(board: &mut Board, wakes: &'a [Wake]) -> Result<&'a [Wake], Refusal> {
    let due = wakes.partition_point(|wake| wake.at <= board.now);
    let (now, coming) = wakes.split_at(due);
    now.iter().try_for_each(|wake| board.wake(wake))?;
    Ok(coming)
}

/// The main loop.
fn play(lift: &Lift) -> Result<(), Refusal> {
    let mut board = Board::new()?;
    let mut wakes = lift.wakes;
    while board.now < lift.until {
        wakes = wake_due(&mut board, wakes)?;
        board.choose()?;
        let armed = board.arm()?;
        let next = wakes
            .first()
            .map_or(lift.until, |wake| wake.at.min(lift.until));
        let reading = board.timer(&armed, next);
        println!("{}", stretch(&board, &armed, reading));
        board.run_until(reading, &armed)?;
    }
    Ok(())
}

const HEADING: &str =
    "       reading  thread          why             urgency rank            for       deadline";

/// A number with an underline between groups of three digits.
fn grouped(number: u64) -> String {
    const GROUP: usize = 3;
    let digits = number.to_string();
    let (head, tail) = digits.split_at((digits.len() - 1) % GROUP + 1);
    let groups = tail
        .as_bytes()
        .chunks(GROUP)
        .map(|group| String::from_utf8_lossy(group));
    groups.fold(head.to_string(), |text, group| text + "_" + &group)
}

/// Who runs from when, why, for how long, and until which deadline at the latest.
fn stretch(board: &Board, armed: &Armed, reading: u64) -> String {
    let (at, ran) = (grouped(board.now), grouped(reading - board.now));
    let name = NAMES[board.current as usize];
    let mode = armed.key.map_or("no key", |key| key.mode().name());
    let urgency = armed
        .key
        .map_or("-".to_string(), |key| key.urgency().to_string());
    let rank = armed
        .key
        .map_or("-".to_string(), |key| key.rank().to_string());
    let deadline = armed.deadline.map_or("none".to_string(), grouped);
    format!("{at:>14}  {name:<16}{mode:<16}{urgency:>7}{rank:>5}{ran:>15}{deadline:>15}")
}

fn main() -> ExitCode {
    if board::version() != board::VERSION {
        eprintln!("cycle: package board and libboard.a are not of the same version");
        return ExitCode::FAILURE;
    }
    for lift in &LIFTS {
        println!("{}\n{HEADING}", lift.file);
        // A board that is refused goes on where it can: after Halted or Damaged with a new queue, into which it
        // enqueues its threads again. None of that is to be expected here.
        if let Err(refusal) = play(lift) {
            eprintln!("{}: {refusal}", lift.file);
            return ExitCode::FAILURE;
        }
    }
    ExitCode::SUCCESS
}
