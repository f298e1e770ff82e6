//! Stand-in for the clock: each host thread sets the reading that the scheduler sees.
#![allow(dead_code)]

use std::cell::Cell;

use hyper::cpu::CpuIndex;

thread_local! {
    static READING: Cell<Option<u64>> = const { Cell::new(None) };
}

pub fn set_monotonic_nanoseconds(reading: Option<u64>) {
    READING.with(|cell| cell.set(reading));
}

pub fn monotonic_nanoseconds() -> Result<u64, ()> {
    READING.with(Cell::get).ok_or(())
}

pub fn deadline_from_monotonic_nanoseconds(deadline: u64) -> Result<u64, ()> {
    Ok(deadline)
}

pub fn publish_scheduler_deadline(
    _cpu: CpuIndex,
    _generation: u64,
    _deadline: Option<u64>,
) -> Result<(), ()> {
    Ok(())
}
