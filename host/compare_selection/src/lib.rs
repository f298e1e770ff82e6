//! Selections on both sides, runs of them, and the scan over all queued threads: what the comparisons of selection and
//! of whole boards share.

pub mod damaged;
pub mod history;
pub mod port;
pub mod scan;
pub mod selecting;
pub mod sound;
