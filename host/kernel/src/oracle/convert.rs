//! Converts between the plain mirrors and the source's policy, runtime and arbitration types.

use super::types::*;
use crate::task::policy::{
    BudgetParameters, FairBackend, SchedulingClass, SchedulingParameters, SchedulingPolicy,
    SchedulingRole, ThreadPriority, ThreadWeight,
};
use crate::task::scheduler::algorithms::arbitration as source;
use crate::task::scheduler::algorithms::{BudgetRuntime, FairRuntime, PolicyRuntime};

/// A plain value that stands for one of the source's.
pub(crate) trait Mirror: Copy {
    type Source;
    fn to_source(self) -> Self::Source;
    fn from_source(source: Self::Source) -> Self;
}

impl Mirror for Budget {
    type Source = BudgetParameters;

    fn to_source(self) -> BudgetParameters {
        BudgetParameters::of_any(self.budget, self.period, self.burst)
    }

    fn from_source(source: BudgetParameters) -> Self {
        Self {
            budget: source.budget_ns(),
            period: source.period_ns(),
            burst: source.burst_ns(),
        }
    }
}

impl Mirror for BudgetRt {
    type Source = BudgetRuntime;

    fn to_source(self) -> BudgetRuntime {
        BudgetRuntime::of_any(self.epoch, self.remaining, self.burst)
    }

    fn from_source(source: BudgetRuntime) -> Self {
        Self {
            epoch: source.epoch(),
            remaining: source.remaining_ns(),
            burst: source.burst_remaining_ns(),
        }
    }
}

impl Mirror for Policy {
    type Source = SchedulingPolicy;

    fn to_source(self) -> SchedulingPolicy {
        match self {
            Self::Fifo(priority) => SchedulingPolicy::fifo(ThreadPriority::new(priority)),
            Self::Fair => SchedulingPolicy::fair(),
            Self::Budget => SchedulingPolicy::Budget,
            Self::Idle => SchedulingPolicy::Idle,
        }
    }

    fn from_source(source: SchedulingPolicy) -> Self {
        match source {
            SchedulingPolicy::Fifo { priority } => Self::Fifo(priority.get()),
            SchedulingPolicy::Fair => Self::Fair,
            SchedulingPolicy::Budget => Self::Budget,
            SchedulingPolicy::Idle => Self::Idle,
        }
    }
}

impl Mirror for Class {
    type Source = SchedulingClass;

    fn to_source(self) -> SchedulingClass {
        match self {
            Self::RealTime => SchedulingClass::RealTime,
            Self::Fair => SchedulingClass::Fair,
            Self::Budget => SchedulingClass::Budget,
            Self::Idle => SchedulingClass::Idle,
        }
    }

    fn from_source(source: SchedulingClass) -> Self {
        match source {
            SchedulingClass::RealTime => Self::RealTime,
            SchedulingClass::Fair => Self::Fair,
            SchedulingClass::Budget => Self::Budget,
            SchedulingClass::Idle => Self::Idle,
        }
    }
}

impl Mirror for Role {
    type Source = SchedulingRole;

    fn to_source(self) -> SchedulingRole {
        match self {
            Self::Ordinary => SchedulingRole::Ordinary,
            Self::Priority => SchedulingRole::Priority,
            Self::Protected => SchedulingRole::Protected,
        }
    }

    fn from_source(source: SchedulingRole) -> Self {
        match source {
            SchedulingRole::Ordinary => Self::Ordinary,
            SchedulingRole::Priority => Self::Priority,
            SchedulingRole::Protected => Self::Protected,
        }
    }
}

impl Mirror for Backend {
    type Source = FairBackend;

    fn to_source(self) -> FairBackend {
        match self {
            Self::Stride => FairBackend::Stride,
            Self::RoundRobin => FairBackend::RoundRobin,
        }
    }

    fn from_source(source: FairBackend) -> Self {
        match source {
            FairBackend::Stride => Self::Stride,
            FairBackend::RoundRobin => Self::RoundRobin,
        }
    }
}

impl Mirror for Params {
    type Source = SchedulingParameters;

    fn to_source(self) -> SchedulingParameters {
        SchedulingParameters::of_any(
            self.policy.to_source(),
            ThreadPriority::new(self.band),
            self.role.to_source(),
            ThreadWeight::of_any(self.weight),
            self.quantum,
            self.backend.to_source(),
            self.budget.map(Mirror::to_source),
        )
    }

    /// Reads through the source's own readers.
    fn from_source(source: SchedulingParameters) -> Self {
        Self {
            policy: Mirror::from_source(source.policy()),
            band: source.band().get(),
            role: Mirror::from_source(source.role()),
            weight: source.weight().get(),
            quantum: source.quantum_ns(),
            backend: Mirror::from_source(source.fair_backend()),
            budget: source.budget_parameters().map(Mirror::from_source),
        }
    }
}

impl Mirror for Runtime {
    type Source = PolicyRuntime;

    fn to_source(self) -> PolicyRuntime {
        match self {
            Self::Fifo => PolicyRuntime::Fifo,
            Self::Fair { pass, remaining } => PolicyRuntime::Fair(FairRuntime {
                pass,
                remaining_ns: remaining,
            }),
            Self::Budget(budget) => PolicyRuntime::Budget(budget.to_source()),
            Self::Idle => PolicyRuntime::Idle,
        }
    }

    fn from_source(source: PolicyRuntime) -> Self {
        match source {
            PolicyRuntime::Fifo => Self::Fifo,
            PolicyRuntime::Fair(fair) => Self::Fair {
                pass: fair.pass(),
                remaining: fair.remaining_ns(),
            },
            PolicyRuntime::Budget(budget) => Self::Budget(Mirror::from_source(budget)),
            PolicyRuntime::Idle => Self::Idle,
        }
    }
}

impl Mirror for Order {
    type Source = source::ArbitrationOrder;

    fn to_source(self) -> source::ArbitrationOrder {
        source::ArbitrationOrder {
            priority_rank: self.priority,
            budget_rank: self.budget,
            fair_rank: self.fair,
            borrow_rank: self.borrow,
        }
    }

    fn from_source(source: source::ArbitrationOrder) -> Self {
        Self {
            priority: source.priority_rank,
            budget: source.budget_rank,
            fair: source.fair_rank,
            borrow: source.borrow_rank,
        }
    }
}

impl Mirror for Config {
    type Source = source::ArbitrationConfig;

    fn to_source(self) -> source::ArbitrationConfig {
        source::ArbitrationConfig::of_any(
            self.period,
            self.allowance,
            self.floor,
            self.order.to_source(),
            self.prefer_fair,
        )
    }

    fn from_source(source: source::ArbitrationConfig) -> Self {
        let (period, allowance, floor, order, prefer_fair) = source.parts();
        Self {
            period,
            allowance,
            floor,
            order: Mirror::from_source(order),
            prefer_fair,
        }
    }
}

impl Mirror for Window {
    type Source = source::CpuWindow;

    fn to_source(self) -> source::CpuWindow {
        source::CpuWindow::of_any(
            self.config.to_source(),
            self.epoch,
            self.priority_remaining,
            self.protected_remaining,
        )
    }

    fn from_source(source: source::CpuWindow) -> Self {
        let (config, epoch, priority_remaining, protected_remaining) = source.parts();
        Self {
            config: Mirror::from_source(config),
            epoch,
            priority_remaining,
            protected_remaining,
        }
    }
}

impl Mirror for Demand {
    type Source = source::Demand;

    fn to_source(self) -> source::Demand {
        source::Demand {
            protected: self.protected,
            fair: self.fair,
            window_sensitive: self.window_sensitive,
            eligible_budget: self.eligible_budget,
            any_budget: self.any_budget,
        }
    }

    fn from_source(source: source::Demand) -> Self {
        Self {
            protected: source.protected,
            fair: source.fair,
            window_sensitive: source.window_sensitive,
            eligible_budget: source.eligible_budget,
            any_budget: source.any_budget,
        }
    }
}

impl Mirror for Candidate {
    type Source = source::Candidate;

    fn to_source(self) -> source::Candidate {
        source::Candidate {
            parameters: self.params.to_source(),
            fair_pass: self.fair_pass,
            turn: self.turn,
            budget_available: self.budget_available,
        }
    }

    fn from_source(source: source::Candidate) -> Self {
        Self {
            params: Mirror::from_source(source.parameters),
            fair_pass: source.fair_pass,
            turn: source.turn,
            budget_available: source.budget_available,
        }
    }
}

impl Mirror for Key {
    type Source = source::DispatchKey;

    fn to_source(self) -> source::DispatchKey {
        source::DispatchKey {
            urgency: self.urgency,
            rank: self.rank,
            algorithm_rank: self.algorithm_rank,
            algorithm: self.algorithm,
            band: self.band,
            turn: self.turn,
        }
    }

    fn from_source(source: source::DispatchKey) -> Self {
        Self {
            urgency: source.urgency,
            rank: source.rank,
            algorithm_rank: source.algorithm_rank,
            algorithm: source.algorithm,
            band: source.band,
            turn: source.turn,
        }
    }
}

impl Mirror for Mode {
    type Source = source::DispatchMode;

    fn to_source(self) -> source::DispatchMode {
        match self {
            Self::StrictFifo => source::DispatchMode::StrictFifo,
            Self::Priority => source::DispatchMode::Priority,
            Self::Protected => source::DispatchMode::Protected,
            Self::Ordinary => source::DispatchMode::Ordinary,
            Self::Borrow => source::DispatchMode::Borrow,
        }
    }

    fn from_source(source: source::DispatchMode) -> Self {
        match source {
            source::DispatchMode::StrictFifo => Self::StrictFifo,
            source::DispatchMode::Priority => Self::Priority,
            source::DispatchMode::Protected => Self::Protected,
            source::DispatchMode::Ordinary => Self::Ordinary,
            source::DispatchMode::Borrow => Self::Borrow,
        }
    }
}
