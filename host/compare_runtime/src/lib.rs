//! Preparing, accounting, the switch rule and deadlines on both sides: what their own comparison and that of whole
//! boards share.

pub mod calls;
pub mod checks;
pub mod expected;
pub mod inputs;
pub mod port;
pub mod runs;
#[path = "../../compare/src/words.rs"]
#[allow(dead_code, unused_imports)]
pub mod words;
