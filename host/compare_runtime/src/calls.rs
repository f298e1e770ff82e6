//! The types of words that the port's calls take.

pub use board::words::{KeyWords, Row, WindowWords};

pub type ParametersWords = [u64; 11];
pub type RuntimeWords = [u64; 5];
pub type BudgetWords = [u64; 3];
pub type BudgetRuntimeWords = [u64; 4];
