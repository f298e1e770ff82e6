//! Uses both installed libraries: a brake is enqueued and named, and the table is saved and loaded again. Prints the
//! version of the calls.

use board::{Config, Path, Queue, RECORD_BYTES, Record, Refusal, Role, Turns};

const CPU: u8 = 0;
const BRAKE: u64 = 0;

fn main() -> Result<(), Refusal> {
    assert_eq!(board::version(), board::VERSION);
    let mut table = [Record::fifo(1, Role::Ordinary), Record::idle()];
    let (mut queue, mut path, mut turns) = (Queue::EMPTY, Path::NEW, Turns::START);
    let mut window = board::window(&Config::new(10_000_000, 2_000_000, 3_000_000))?;
    board::prepare(&mut table, BRAKE, false, 0, &mut turns)?;
    board::enqueue(&mut queue, &mut table, &mut path, BRAKE, CPU)?;
    let selection = board::select(&mut queue, &mut table, &mut path, CPU, 0, &mut window, None)?;
    assert_eq!(selection.thread(), Some(BRAKE));

    let (mut bytes, mut loaded) = ([0; 2 * RECORD_BYTES], [Record::idle(); 2]);
    board::store_table(&table, &mut bytes)?;
    board::load_table(&bytes, &mut loaded)?;
    assert_eq!(loaded, table);
    println!("{}", board::VERSION);
    Ok(())
}
