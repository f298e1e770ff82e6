//! What the comparisons share: seeded values and records, tables as rows and as records, queues and windows as words,
//! as bytes,
//! and the count of what differs.

pub mod bytes;
pub mod generator;
pub mod make;
pub mod product;
pub mod queues;
pub mod rows;
pub mod run;
pub mod table;
pub mod tally;
pub mod values;
pub mod windows;
