//! The kernel's scheduler source, unchanged, and `oracle`: plain functions that run it.

#![allow(unexpected_cfgs)]

extern crate alloc;

/// The source's trace points are dropped with their arguments.
#[macro_export]
macro_rules! tracepoint {
    ($($argument:tt)*) => {};
}

mod accounting;
mod hal;
mod mm;
mod object;
mod process;
mod time;

#[cfg(not(feature = "unchanged"))]
pub mod oracle;

include!(concat!(env!("OUT_DIR"), "/kernel.rs"));
