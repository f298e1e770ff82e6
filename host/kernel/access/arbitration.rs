//! Sets and shows the private state of arbitration configurations and processor windows.

use super::{ArbitrationConfig, ArbitrationOrder, CpuWindow};

impl ArbitrationConfig {
    pub(crate) const fn of_any(
        period_ns: u64,
        priority_allowance_ns: u64,
        protected_floor_ns: u64,
        order: ArbitrationOrder,
        prefer_fair: bool,
    ) -> Self {
        Self {
            period_ns,
            priority_allowance_ns,
            protected_floor_ns,
            order,
            prefer_fair,
        }
    }

    /// Period, allowance, floor, ranks and `prefer_fair`.
    pub(crate) const fn parts(self) -> (u64, u64, u64, ArbitrationOrder, bool) {
        (
            self.period_ns,
            self.priority_allowance_ns,
            self.protected_floor_ns,
            self.order,
            self.prefer_fair,
        )
    }
}

impl CpuWindow {
    pub(crate) const fn of_any(
        config: ArbitrationConfig,
        epoch: Option<u64>,
        priority_remaining_ns: u64,
        protected_remaining_ns: u64,
    ) -> Self {
        Self {
            config,
            epoch,
            priority_remaining_ns,
            protected_remaining_ns,
        }
    }

    /// Configuration, epoch, allowance left and floor left.
    pub(crate) const fn parts(self) -> (ArbitrationConfig, Option<u64>, u64, u64) {
        (
            self.config,
            self.epoch,
            self.priority_remaining_ns,
            self.protected_remaining_ns,
        )
    }
}
