//! Stand-in for the address of a subsystem's execution payload.

use core::cell::UnsafeCell;
use core::ptr::NonNull;

#[derive(Clone, Copy)]
pub(crate) struct ExternalExecutionPointer(NonNull<()>);

impl ExternalExecutionPointer {
    pub(crate) fn from_cell<T>(cell: NonNull<UnsafeCell<T>>) -> Self {
        Self(cell.cast())
    }
}
