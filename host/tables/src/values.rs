//! Boundary values, each picked by a number; those that hang on a period are picked within it.

use kernel::oracle::*;

const MAX: u64 = u64::MAX;

/// A source of picks below a bound: the digits of a product, or a random generator.
pub trait Picks {
    fn below(&mut self, bound: u64) -> u64;

    fn of<T: Copy, const N: usize>(&mut self, from: [T; N]) -> T {
        from[self.below(N as u64) as usize]
    }

    fn flag(&mut self) -> bool {
        self.below(2) == 1
    }

    fn period(&mut self) -> u64 {
        self.of([
            7,
            10,
            1,
            999_999_999,
            1_000_000_000,
            1_000_000_001,
            0,
            MAX,
            10_000_000,
        ])
    }

    /// A budget or burst about a period.
    fn part(&mut self, period: u64) -> u64 {
        self.of([
            1,
            period,
            period.wrapping_sub(1),
            0,
            period.wrapping_add(1),
            period / 2,
        ])
    }

    fn budget(&mut self, period: u64) -> Budget {
        Budget {
            budget: self.part(period),
            period,
            burst: self.part(period),
        }
    }

    /// Readings at the edges of the first periods and of the last.
    fn reading(&mut self, period: u64) -> u64 {
        let last = MAX - MAX.checked_rem(period).unwrap_or(0);
        self.of([
            0,
            1,
            period.wrapping_sub(1),
            period,
            period.wrapping_add(1),
            period.wrapping_mul(2).wrapping_sub(1),
            period.wrapping_mul(2),
            period.wrapping_mul(2).wrapping_add(1),
            period.wrapping_mul(3) - period / 2 % 2,
            MAX - period,
            (MAX - period).wrapping_sub(1),
            (MAX - period).wrapping_add(1),
            last.wrapping_sub(1),
            last,
            last.wrapping_add(1),
            MAX - 1,
            MAX,
        ])
    }

    /// An interval's start: at, before and after its end, and about the edge of the end's period.
    fn start(&mut self, end: u64, period: u64) -> u64 {
        let edge = end - end.checked_rem(period).unwrap_or(0);
        self.of([
            end,
            end.wrapping_sub(1),
            end.wrapping_add(1),
            edge,
            edge.wrapping_sub(1),
            edge.wrapping_add(1),
            end.wrapping_sub(period),
            0,
            MAX,
        ])
    }

    /// None, and epochs below, at and above that of a reading.
    fn epoch(&mut self, now: u64, period: u64) -> Option<u64> {
        let epoch = now.checked_div(period).unwrap_or(0);
        self.of([
            None,
            Some(epoch.wrapping_sub(1)),
            Some(epoch),
            Some(epoch.wrapping_add(1)),
            Some(0),
        ])
    }

    /// What remains of a whole.
    fn rest(&mut self, whole: u64) -> u64 {
        self.of([0, 1, whole, whole.wrapping_add(1), MAX])
    }

    fn budget_runtime(&mut self, now: u64, budget: Budget) -> BudgetRt {
        BudgetRt {
            epoch: self.epoch(now, budget.period),
            remaining: self.rest(budget.budget),
            burst: self.rest(budget.burst),
        }
    }

    fn role(&mut self) -> Role {
        self.of([Role::Ordinary, Role::Priority, Role::Protected])
    }

    fn backend(&mut self) -> Backend {
        self.of([Backend::Stride, Backend::RoundRobin])
    }

    fn mode(&mut self) -> Mode {
        self.of([
            Mode::StrictFifo,
            Mode::Priority,
            Mode::Protected,
            Mode::Ordinary,
            Mode::Borrow,
        ])
    }

    fn byte(&mut self) -> u8 {
        self.of([0, 1, 128, 255])
    }

    fn weight(&mut self) -> u16 {
        self.of([0, 1, 16, 1024, 1025, u16::MAX])
    }

    fn quantum(&mut self) -> u64 {
        self.of([0, 1, 999_999_999, 1_000_000_000, 1_000_000_001, MAX])
    }

    fn pass(&mut self) -> u128 {
        self.of([0, 1, u128::from(MAX), 1 << 64, (1 << 64) + 1, u128::MAX])
    }

    fn turn(&mut self) -> u64 {
        self.of([0, 1, 1 << 63, MAX])
    }

    fn policy(&mut self) -> Policy {
        match self.below(4) {
            0 => Policy::Fair,
            1 => Policy::Budget,
            2 => Policy::Fifo(self.byte()),
            _ => Policy::Idle,
        }
    }

    /// Parameters of any policy with this budget, which the policy may not want.
    fn params(&mut self, budget: Option<Budget>) -> Params {
        Params {
            policy: self.policy(),
            band: self.of([0, 1, 255]),
            role: self.role(),
            weight: 16,
            quantum: 1_000_000,
            backend: self.backend(),
            budget,
        }
    }

    /// No budget, one of this period, or one of another.
    fn budget_about(&mut self, period: u64) -> Option<Budget> {
        match self.below(3) {
            0 => None,
            1 => Some(self.budget(period)),
            _ => Some(Budget {
                budget: 2,
                period: period.wrapping_add(1),
                burst: 1,
            }),
        }
    }

    fn runtime(&mut self, now: u64, budget: Budget) -> Runtime {
        match self.below(4) {
            0 => Runtime::Budget(self.budget_runtime(now, budget)),
            1 => self.fair(),
            2 => Runtime::Fifo,
            _ => Runtime::Idle,
        }
    }

    fn fair(&mut self) -> Runtime {
        Runtime::Fair {
            pass: self.pass(),
            remaining: self.of([0, 1, 1_000_000, MAX]),
        }
    }

    fn order(&mut self) -> Order {
        let [priority, budget, fair, borrow] = self.of([
            [0, 1, 2, 3],
            [252, 253, 254, 255],
            [0, 0, 1, 2],
            [0, 1, 1, 2],
            [0, 1, 2, 2],
            [1, 0, 2, 3],
            [0, 2, 1, 3],
            [0, 1, 3, 2],
            [7, 7, 7, 7],
        ]);
        Order {
            priority,
            budget,
            fair,
            borrow,
        }
    }

    /// A configuration that the source takes, at its limits.
    fn sound_config(&mut self) -> Config {
        let period = self.of([7, 10, 999_999_999, 1_000_000_000, 10_000_000]);
        let floor = self.of([1, period / 2, period - 1]);
        let limit = period - floor;
        let first = self.of([0, 252]);
        Config {
            period,
            allowance: self.of([0, limit - 1, limit / 2]),
            floor,
            order: Order {
                priority: first,
                budget: first + 1,
                fair: first + 2,
                borrow: first + 3,
            },
            prefer_fair: self.flag(),
        }
    }

    /// Allowance and floor at, below and above their limits.
    fn config(&mut self) -> Config {
        let period = self.period();
        let floor = self.of([
            period / 2,
            1,
            period.wrapping_sub(1),
            0,
            period,
            period.wrapping_add(1),
        ]);
        let limit = period.wrapping_sub(floor);
        Config {
            period,
            allowance: self.of([
                limit.wrapping_sub(1),
                0,
                1,
                limit,
                limit.wrapping_add(1),
                limit / 2,
                MAX,
            ]),
            floor,
            order: self.order(),
            prefer_fair: self.flag(),
        }
    }

    fn window(&mut self, config: Config, now: u64) -> Window {
        Window {
            config,
            epoch: self.epoch(now, config.period),
            priority_remaining: self.rest(config.allowance),
            protected_remaining: self.rest(config.floor),
        }
    }

    fn demand(&mut self) -> Demand {
        let bits = self.below(32);
        Demand {
            protected: bits & 1 != 0,
            fair: bits & 2 != 0,
            window_sensitive: bits & 4 != 0,
            eligible_budget: bits & 8 != 0,
            any_budget: bits & 16 != 0,
        }
    }

    fn candidate(&mut self, period: u64) -> Candidate {
        let budget = self.budget_about(period);
        Candidate {
            params: self.params(budget),
            fair_pass: self.pass(),
            turn: self.turn(),
            budget_available: self.flag(),
        }
    }

    fn key(&mut self) -> Key {
        Key {
            urgency: self.of([0, 1, 255]),
            rank: self.of([0, 3, 255]),
            algorithm_rank: self.of([0, 2, 255]),
            algorithm: self.pass(),
            band: self.of([0, 1, 255]),
            turn: self.of([0, 1, MAX]),
        }
    }
}
