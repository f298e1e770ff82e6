//! lift_check [PLACE]: the lifts of the program crates/scenario on the kernel's own Rust, their stretches compared with
//! those stored at PLACE, else crates/scenario/stdout. The last line is 'differs N'.

mod board;

use board::{Board, NAMES, Running, Wake};
use kernel::oracle::{Answer, Mode};
use std::path::PathBuf;
use std::process::ExitCode;
use std::{env, fs};

/// Work that has no end.
const ALWAYS: u64 = u64::MAX;

const fn wake(at: u64, thread: u64, work: u64) -> Wake {
    Wake { at, thread, work }
}

/// Two protected loops of two hooks wait in one tree while the drive runs on its allowance.
const ONE_PERIOD: (&str, &[Wake], u64) = (
    "twin-hook.txt",
    &[
        wake(0, 6, ALWAYS),
        wake(1_000_000, 4, 500_000),
        wake(5_500_000, 5, 2_300_000),
        wake(5_600_000, 2, 1_200_000),
        wake(5_700_000, 0, 800_000),
    ],
    10_000_000,
);

/// All four sway loops want more than their budgets, and the period changes while the brake runs.
const CHANGE_OF_PERIOD: (&str, &[Wake], u64) = (
    "change-of-period.txt",
    &[
        wake(1_000_000, 0, 2_500_000),
        wake(1_000_000, 2, 2_500_000),
        wake(1_000_000, 1, 2_500_000),
        wake(1_000_000, 3, 2_500_000),
        wake(9_200_000, 6, ALWAYS),
        wake(9_800_000, 4, 400_000),
    ],
    13_000_000,
);

fn why(mode: Mode) -> &'static str {
    match mode {
        Mode::StrictFifo => "strict FIFO",
        Mode::Priority => "priority",
        Mode::Protected => "protected",
        Mode::Ordinary => "ordinary",
        Mode::Borrow => "borrow",
    }
}

fn shown(number: Option<u64>, none: &str) -> String {
    number.map_or(none.to_string(), |number| number.to_string())
}

/// A time in nanoseconds, with an underline between groups of three digits.
fn grouped(time: u64) -> String {
    let digits = time.to_string();
    let mut text = String::new();
    for (place, digit) in digits.chars().enumerate() {
        if place > 0 && (digits.len() - place) % 3 == 0 {
            text.push('_');
        }
        text.push(digit);
    }
    text
}

fn line(running: &Running, until: u64) -> String {
    let name = NAMES[running.thread as usize];
    let mode = running.key.map_or("no key", |(_, mode)| why(mode));
    let urgency = shown(running.key.map(|(key, _)| key.urgency.into()), "-");
    let rank = shown(running.key.map(|(key, _)| key.rank.into()), "-");
    let deadline = running.deadline.map_or("none".to_string(), grouped);
    let (at, ran) = (grouped(running.at), grouped(until - running.at));
    format!("{at:>14}  {name:<16}{mode:<16}{urgency:>7}{rank:>5}{ran:>15}{deadline:>15}")
}

/// Wakes at their readings, and between them a timer at each deadline and a wait at each end of work.
fn lift(lines: &mut Vec<String>, wakes: &[Wake], end: u64) -> Answer<()> {
    let mut board = Board::new();
    let mut coming = wakes.iter().peekable();
    while board.now() < end {
        while let Some(wake) = coming.next_if(|wake| wake.at <= board.now()) {
            board.wake(wake)?;
        }
        let running = board.dispatch()?;
        let next = coming.peek().map_or(end, |wake| wake.at);
        let deadline = running.deadline.unwrap_or(end);
        let until = end.min(next).min(deadline).min(board.done_at());
        lines.push(line(&running, until));
        board.run_until(until)?;
    }
    Ok(())
}

/// The lines of a lift on the Rust.
fn run(wakes: &[Wake], end: u64) -> Answer<Vec<String>> {
    let mut lines = Vec::new();
    lift(&mut lines, wakes, end)?;
    Ok(lines)
}

/// A stretch's line starts with its reading, in fourteen columns.
fn is_stretch(line: &str) -> bool {
    let reading = line.get(..14).map_or("", str::trim_start);
    !reading.is_empty() && reading.bytes().all(|byte| byte.is_ascii_digit() || byte == b'_')
}

/// What is stored of a scenario's stretches, below its file's name.
fn stretches<'a>(text: &'a str, file: &str) -> Vec<&'a str> {
    let below = text.lines().skip_while(|line| *line != file).skip(1);
    let own = below.take_while(|line| !line.ends_with(".txt"));
    own.filter(|line| is_stretch(line)).collect()
}

fn compare(file: &str, rust: &[String], port: &[&str]) -> usize {
    let mut differs = 0;
    for at in 0..rust.len().max(port.len()) {
        let theirs = rust.get(at).map_or("", String::as_str);
        let ours = port.get(at).copied().unwrap_or("");
        if theirs != ours {
            differs += 1;
            println!("{file}, stretch {}: port {ours:?}, Rust {theirs:?}", at + 1);
        }
    }
    differs
}

fn main() -> ExitCode {
    let stored = PathBuf::from(env!("CARGO_MANIFEST_DIR")).join("../../crates/scenario/stdout");
    let place = env::args_os().nth(1).map_or(stored, PathBuf::from);
    let text = fs::read_to_string(&place).unwrap_or_default();
    let (mut lines, mut differs) = (0, 0);
    for (file, wakes, end) in [ONE_PERIOD, CHANGE_OF_PERIOD] {
        let rust = match run(wakes, end) {
            Ok(rust) => rust,
            Err(refusal) => {
                eprintln!("the Rust refuses: {refusal:?}");
                return ExitCode::FAILURE;
            }
        };
        differs += compare(file, &rust, &stretches(&text, file));
        lines += rust.len();
    }
    println!("stretches of the lifts: {lines}");
    println!("differs {differs}");
    match differs {
        0 => ExitCode::SUCCESS,
        _ => ExitCode::FAILURE,
    }
}
