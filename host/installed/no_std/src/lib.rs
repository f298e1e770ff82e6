//! What a board's own program has: no standard library, no allocation, and every call of both libraries that a cycle
//! makes, and those on a lift record. main.c calls it.

#![no_std]

use core::panic::PanicInfo;

use board::{Config, Mode, Path, QUEUE_BYTES, Queue, Record, Refusal, Role, Run, Turns, Window};

const CPU: u8 = 0;
const BRAKE: u64 = 0;
const IDLE: u64 = 1;
const RAN_NS: u64 = 400_000;

/// What `trial` answers where another thread is named, or the record has another part.
const OTHER: i32 = -1;

#[panic_handler]
fn stop(_: &PanicInfo) -> ! {
    loop {}
}

struct Board {
    table: [Record; 2],
    queue: Queue,
    path: Path,
    turns: Turns,
    window: Window,
}

impl Board {
    fn new() -> Result<Self, Refusal> {
        let mut board = Self {
            table: [Record::fifo(1, Role::Ordinary), Record::idle()],
            queue: Queue::EMPTY,
            path: Path::NEW,
            turns: Turns::START,
            window: board::window(&Config::new(10_000_000, 2_000_000, 3_000_000))?,
        };
        board::new(&mut board.queue)?;
        Ok(board)
    }

    /// The brake wakes, and is at the front after it was at the back.
    fn wake(&mut self) -> Result<(), Refusal> {
        let (queue, table, path) = (&mut self.queue, &mut self.table, &mut self.path);
        board::prepare(table, BRAKE, false, 0, &mut self.turns)?;
        board::enqueue(queue, table, path, BRAKE, CPU)?;
        board::remove(queue, table, path, BRAKE, CPU)?;
        board::enqueue_front(queue, table, path, BRAKE, CPU)
    }

    /// The queue as bytes and back.
    fn save(&mut self) -> Result<(), Refusal> {
        let mut image = [0; QUEUE_BYTES];
        board::store_queue(&self.queue, &mut image)?;
        board::load_queue(&image, &mut self.queue)
    }

    /// Who takes over from the idle thread, and is charged.
    fn cycle(&mut self) -> Result<Option<u64>, Refusal> {
        let (queue, table, path) = (&mut self.queue, &mut self.table, &mut self.path);
        let window = &mut self.window;
        let Some(idle) = board::candidate(table, IDLE, true, 0)? else {
            return Ok(None);
        };
        let selection = board::select(queue, table, path, CPU, 0, window, Some(&idle))?;
        let key = board::key(window, 0, &idle, &selection.demand())?;
        let expired = board::expired(table, IDLE)?;
        let choice = board::switch(&selection, key.as_ref(), Some(&idle), expired, false, false)?;
        let lengths = board::lengths(queue)?;
        board::deadline(table, IDLE, 0, key.as_ref(), window, &lengths, &selection)?;
        board::account(table, BRAKE, window, Mode::StrictFifo, 0, RAN_NS)?;
        board::finish(table, BRAKE)?;
        Ok(selection.thread().filter(|_| choice.switches()))
    }
}

/// The brake's stretch is recorded, and whether every search finds it.
fn lifted() -> Result<bool, Refusal> {
    let (mut list, run) = ([Run::NONE], Run::new(0, RAN_NS, BRAKE));
    board::append(&mut list, 0, run)?;
    let (part, place) = board::lift(&list, RAN_NS, RAN_NS)?;
    let (again, same) = board::lift_from(&list, list.len(), RAN_NS, RAN_NS)?;
    let (later, slid) = board::slide(&list, RAN_NS, RAN_NS, place, RAN_NS + 1)?;
    let one = |part: &[Run]| part.first() == Some(&run);
    Ok(one(part) && one(again) && one(later) && place == same && !slid.afresh())
}

fn named() -> Result<Option<u64>, Refusal> {
    let mut board = Board::new()?;
    board.wake()?;
    board.save()?;
    let (named, found) = (board.cycle()?, lifted()?);
    Ok(named.filter(|_| found))
}

/// 0 where the brake is named, else the number of a refusal or `OTHER`.
#[unsafe(no_mangle)]
pub extern "C" fn trial() -> i32 {
    match named() {
        Ok(Some(BRAKE)) => 0,
        Ok(_) => OTHER,
        Err(refusal) => refusal.number() as i32,
    }
}
