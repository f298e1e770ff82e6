//! Plain records and functions that run the kernel's own code: the reference for comparisons.
//!
//! Every function converts plain values to the source's types, runs the source and converts back.
//! A panic inside the source is caught: `Panic` tells a kernel stop from an arithmetic fault.

mod arbitration;
pub(crate) mod convert;
mod policy;
pub(crate) mod stop;
mod tree;
mod types;

pub use crate::task::scheduler::bridge::decisions::*;
pub use crate::task::scheduler::bridge::queues::*;
pub use arbitration::*;
pub use policy::*;
pub use stop::{Panic, Run};
pub use tree::*;
pub use types::*;
