//! Catches the source's panics quietly and tells a kernel stop from an arithmetic fault.

use std::cell::Cell;
use std::panic::{AssertUnwindSafe, catch_unwind, set_hook, take_hook};
use std::sync::Once;

/// Why the source did not come back.
#[derive(Clone, Copy, Debug, PartialEq, Eq)]
pub enum Panic {
    /// The source called `invariant_failure` with this message: the kernel would stop.
    Invariant(&'static str),
    /// Division by zero, a count that left its range, or any other panic of the language.
    Fault,
}

/// A finished call, or the panic that ended it.
pub type Run<T> = Result<T, Panic>;

thread_local! {
    static QUIET: Cell<bool> = const { Cell::new(false) };
}

static HOOK: Once = Once::new();

/// Runs `call`; a panic in it prints nothing and leaves its stores so far visible.
pub(crate) fn run<T>(call: impl FnOnce() -> T) -> Run<T> {
    HOOK.call_once(|| {
        let previous = take_hook();
        set_hook(Box::new(move |report| {
            if !QUIET.with(Cell::get) {
                previous(report);
            }
        }));
    });
    let outer = QUIET.with(|quiet| quiet.replace(true));
    let result = catch_unwind(AssertUnwindSafe(call));
    QUIET.with(|quiet| quiet.set(outer));
    result.map_err(
        |payload| match payload.downcast_ref::<hyper::debug::InvariantFailure>() {
            Some(failure) => Panic::Invariant(failure.0),
            None => Panic::Fault,
        },
    )
}
