//! The calls of a board from Rust: one protected sway loop of either hook and a drive loop on one processor. The drive
//! runs first; from 7,000,000 on the floor of 3,000,000 is all that is left of the period, so the loops are due, and
//! the one that waited longer is named. Then calls that are refused. `cargo run --example twin_hook`; what it prints
//! stands in twin_hook.txt beside it.

use board::{Budget, Config, Path, Queue, Ranks, Record, Refusal, Role, Selection, Turns, Window};

const CPU: u8 = 0;

const NAMES: [&str; 3] = ["drive", "sway of hook A", "sway of hook B"];
const DRIVE: u64 = 0;
const SWAY_A: u64 = 1;
const SWAY_B: u64 = 2;

/// 2 ms in each 10, at most 1 at a stretch.
const SWAY: Budget = Budget {
    budget_ns: 2_000_000,
    period_ns: 10_000_000,
    burst_ns: 1_000_000,
};

/// In each period of 10 ms the drive has 2 before others, and the protected loops have 3 for sure.
const CONFIG: Config = Config::new(10_000_000, 2_000_000, 3_000_000);

/// What a board keeps.
struct Board {
    queue: Queue,
    table: [Record; NAMES.len()],
    path: Path,
}

impl Board {
    fn enqueue(&mut self, id: u64) -> Result<(), Refusal> {
        board::enqueue(&mut self.queue, &mut self.table, &mut self.path, id, CPU)
    }

    fn remove(&mut self, id: u64) -> Result<(), Refusal> {
        board::remove(&mut self.queue, &mut self.table, &mut self.path, id, CPU)
    }

    fn select(&mut self, now: u64, window: &mut Window) -> Result<Selection, Refusal> {
        let (queue, table, path) = (&mut self.queue, &mut self.table, &mut self.path);
        board::select(queue, table, path, CPU, now, window, None)
    }
}

fn tell(what: &str, answer: Result<(), Refusal>) {
    match answer {
        Ok(()) => println!("{what}: made"),
        Err(refusal) => println!("{what}: refused, {refusal}"),
    }
}

fn refused(board: &mut Board) {
    tell("enqueue sway of hook A again", board.enqueue(SWAY_A));
    tell(
        "remove a thread that there is not",
        board.remove(NAMES.len() as u64),
    );
    let falling = CONFIG.with_ranks(Ranks {
        budget: 2,
        fair: 1,
        ..Ranks::USUAL
    });
    tell(
        "a window whose ranks do not rise",
        board::window(&falling).map(|_| ()),
    );
}

fn main() -> Result<(), Refusal> {
    let sway = Record::budget(SWAY, Role::Protected);
    let table = [Record::fifo(5, Role::Priority), sway, sway];
    let mut board = Board {
        queue: Queue::EMPTY,
        table,
        path: Path::NEW,
    };
    let (mut window, mut turns) = (board::window(&CONFIG)?, Turns::START);
    for id in [SWAY_B, SWAY_A, DRIVE] {
        board::prepare(&mut board.table, id, false, 0, &mut turns)?;
        board.enqueue(id)?;
        println!("{}: enqueued", NAMES[id as usize]);
    }
    for now in [6_999_999, 7_000_000] {
        let named = board.select(now, &mut window)?.thread();
        println!(
            "select at {now}: {}",
            named.map_or("nobody", |id| NAMES[id as usize])
        );
    }
    refused(&mut board);
    Ok(())
}
