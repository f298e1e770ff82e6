//! One window call many times: `bench_leaves --bench NAME --side SIDE --calls N`.
//!
//! NAME is refresh, account_dispatch or candidate_key. SIDE is port (the port through C, on lent words),
//! rust (the kernel's Rust behind the same lent words) or native (the kernel's Rust on its own types).
//! The inputs are the same for all sides; `instructions` counts what the call alone takes.

#[path = "../../compare/src/calls.rs"]
#[allow(dead_code)]
mod calls;
mod rust;

include!(concat!(env!("OUT_DIR"), "/source.rs"));

use std::env;
use std::hint::black_box;
use std::process::ExitCode;

use calls::*;
use rust::Native;

const INPUTS: usize = 256;
const PERIOD: u64 = 10_000_000;

struct Input {
    window: WindowWords,
    start: u64,
    now: u64,
    candidate: Row,
    mode: u64,
    demand: DemandWords,
}

/// A fixed seed's numbers (splitmix64).
struct Random(u64);

impl Random {
    fn below(&mut self, bound: u64) -> u64 {
        self.0 = self.0.wrapping_add(0x9e37_79b9_7f4a_7c15);
        let mixed = (self.0 ^ self.0 >> 30).wrapping_mul(0xbf58_476d_1ce4_e5b9);
        let mixed = (mixed ^ mixed >> 27).wrapping_mul(0x94d0_49bb_1331_11eb);
        (u128::from(mixed ^ mixed >> 31) * u128::from(bound) >> 64) as u64
    }

    /// A candidate's row: the parameters, the pass, whether it has time left, the turn.
    fn candidate(&mut self) -> Row {
        let mut row = [0; 32];
        row[0] = self.below(3);
        row[1] = if row[0] == 0 { self.below(256) } else { 0 };
        row[2] = self.below(256);
        row[3] = self.below(3);
        row[4] = 16;
        row[5] = if row[0] == 1 { 1_000_000 } else { 0 };
        row[7] = u64::from(row[0] == 2);
        row[8..11].copy_from_slice(&[2_000_000, PERIOD, 1_000_000]);
        row[13] = self.below(1 << 40);
        row[14] = u64::from(self.below(4) != 0);
        row[16] = (1 << 63) + self.below(1 << 20);
        row
    }

    /// Document 01's window, a few milliseconds after the last interval, at times in a new period.
    fn input(&mut self) -> Input {
        let start = self.below(1_000_000) * 1_000_000 + self.below(1_000_000);
        let mut window = [PERIOD, 2_000_000, 3_000_000, 0, 1, 2, 3, 0, 1, 0, 0, 0];
        window[7] = self.below(2);
        window[9] = start / PERIOD;
        window[10] = self.below(2_000_001);
        window[11] = self.below(3_000_001);
        Input {
            window,
            start,
            now: start + self.below(3_000_000),
            candidate: self.candidate(),
            mode: self.below(5),
            demand: [(); 5].map(|()| self.below(2)),
        }
    }
}

/// Runs `call` on one input's words after the other's.
fn repeat(inputs: &[Input], calls: u64, call: impl Fn(&Input, &mut WindowWords, &mut KeyWords)) {
    for number in 0..calls {
        let input = black_box(&inputs[number as usize % INPUTS]);
        let (mut window, mut key) = (input.window, [0; 9]);
        call(input, &mut window, &mut key);
        black_box((&window, &key));
    }
}

fn run(bench: &str, side: &str, calls: u64) -> Option<()> {
    let mut random = Random(1);
    let inputs: Vec<Input> = (0..INPUTS).map(|_| random.input()).collect();
    let natives: Vec<Native> = inputs.iter().map(Native::of).collect();
    let native = |call: fn(&mut Native)| {
        for number in 0..calls {
            let mut input = natives[number as usize % INPUTS];
            call(black_box(&mut input));
        }
    };
    match (bench, side) {
        ("refresh", "port") => repeat(&inputs, calls, |i, window, _| {
            window_refresh(window, i.now);
        }),
        ("refresh", "rust") => repeat(&inputs, calls, |i, window, _| {
            rust::rust_window_refresh(window, i.now);
        }),
        ("refresh", "native") => native(rust::native_window_refresh),
        ("account_dispatch", "port") => repeat(&inputs, calls, |i, window, _| {
            window_account_dispatch(window, i.start, i.now, &i.candidate, i.mode);
        }),
        ("account_dispatch", "rust") => repeat(&inputs, calls, |i, window, _| {
            rust::rust_window_account_dispatch(window, i.start, i.now, &i.candidate, i.mode);
        }),
        ("account_dispatch", "native") => native(rust::native_window_account_dispatch),
        ("candidate_key", "port") => repeat(&inputs, calls, |i, window, key| {
            window_candidate_key(window, i.now, &i.candidate, &i.demand, key);
        }),
        ("candidate_key", "rust") => repeat(&inputs, calls, |i, window, key| {
            rust::rust_window_candidate_key(window, i.now, &i.candidate, &i.demand, key);
        }),
        ("candidate_key", "native") => native(rust::native_window_candidate_key),
        _ => return None,
    }
    Some(())
}

fn main() -> ExitCode {
    let words: Vec<String> = env::args().collect();
    let value = |name: &str| {
        let place = words.iter().position(|word| word == name)?;
        words.get(place + 1).map(String::as_str)
    };
    let ran = || {
        let calls = value("--calls")?.parse().ok()?;
        run(value("--bench")?, value("--side")?, calls)
    };
    match ran() {
        Some(()) => ExitCode::SUCCESS,
        None => {
            eprintln!("usage: bench_leaves --bench NAME --side port|rust|native --calls N");
            ExitCode::from(2)
        }
    }
}
