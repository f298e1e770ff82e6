//! Stand-in for the fair algorithm: pass and remaining slice are given values that nothing changes.

use super::super::policy::ThreadWeight;

#[derive(Clone, Copy, Debug, Eq, PartialEq)]
pub(crate) struct FairRuntime {
    pub(crate) pass: u128,
    pub(crate) remaining_ns: u64,
}

impl FairRuntime {
    pub(crate) const fn new(quantum_ns: u64) -> Self {
        Self {
            pass: 0,
            remaining_ns: quantum_ns,
        }
    }

    pub(crate) const fn pass(self) -> u128 {
        self.pass
    }

    pub(crate) const fn remaining_ns(self) -> u64 {
        self.remaining_ns
    }

    pub(crate) fn account(&mut self, _elapsed: u64, _weight: ThreadWeight) {}

    pub(crate) fn finish_turn(&mut self, _quantum_ns: u64) {}

    pub(crate) fn expire_turn(&mut self) {}

    pub(crate) fn reconfigure(&mut self, _old_quantum_ns: u64, _new_quantum_ns: u64) {}

    pub(crate) fn admit(&mut self, _floor: u128) {}

    pub(crate) fn migrate_floor(&mut self, _origin: u128, _floor: u128) {}
}
