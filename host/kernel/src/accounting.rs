//! Stand-in for resource accounting: a charge that counts nothing.

pub struct CommittedCharge;
