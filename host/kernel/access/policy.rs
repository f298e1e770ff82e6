//! Makes scheduling parameters of any value, also those that the constructors refuse.

use super::{
    BudgetParameters, FairBackend, SchedulingParameters, SchedulingPolicy, SchedulingRole,
    ThreadPriority, ThreadWeight,
};

impl ThreadWeight {
    pub(crate) const fn of_any(value: u16) -> Self {
        Self(value)
    }
}

impl BudgetParameters {
    pub(crate) const fn of_any(budget_ns: u64, period_ns: u64, burst_ns: u64) -> Self {
        Self {
            budget_ns,
            period_ns,
            burst_ns,
        }
    }
}

impl SchedulingParameters {
    pub(crate) const fn of_any(
        policy: SchedulingPolicy,
        band: ThreadPriority,
        role: SchedulingRole,
        weight: ThreadWeight,
        quantum_ns: u64,
        fair_backend: FairBackend,
        budget: Option<BudgetParameters>,
    ) -> Self {
        Self {
            policy,
            band,
            role,
            weight,
            quantum_ns,
            fair_backend,
            budget,
        }
    }
}
