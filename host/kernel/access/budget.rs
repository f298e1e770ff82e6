//! Sets and shows the private state of a budget runtime.

use super::BudgetRuntime;

impl BudgetRuntime {
    pub(crate) const fn of_any(
        epoch: Option<u64>,
        remaining_ns: u64,
        burst_remaining_ns: u64,
    ) -> Self {
        Self {
            epoch,
            remaining_ns,
            burst_remaining_ns,
        }
    }

    pub(crate) const fn epoch(self) -> Option<u64> {
        self.epoch
    }
}
