//! A run queue on both sides, calls on it, and runs of them: what the comparisons of the queue and of selection share.

pub mod board;
pub mod damaged;
pub mod sound;
