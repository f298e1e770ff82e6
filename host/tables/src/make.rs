//! Records for the runs: keys of every kind, links and memberships sound or not.

use kernel::oracle::*;

use crate::generator::Random;
use crate::values::Picks;

/// What the keys of a table's records are made of.
#[derive(Clone, Copy, Debug)]
pub enum Kind {
    Fifo,
    Stride,
    RoundRobin,
    Budget,
    /// Any policy with any runtime, which may disagree.
    Any,
}

impl Kind {
    pub const ALL: [Self; 5] = [
        Self::Fifo,
        Self::Stride,
        Self::RoundRobin,
        Self::Budget,
        Self::Any,
    ];
}

const BUDGET: Budget = Budget {
    budget: 2_000_000,
    period: 10_000_000,
    burst: 1_000_000,
};

const SOME: BudgetRt = BudgetRt {
    epoch: Some(1),
    remaining: 2_000_000,
    burst: 1_000_000,
};

fn params(policy: Policy, band: u8, backend: Backend) -> Params {
    Params {
        policy,
        band,
        role: Role::Ordinary,
        weight: 16,
        quantum: 1_000_000,
        backend,
        budget: (policy == Policy::Budget).then_some(BUDGET),
    }
}

/// A Fair round-robin record: its key is its turn.
pub fn by_turn(turn: u64) -> Record {
    let fair = Runtime::Fair {
        pass: 0,
        remaining: 1,
    };
    Record::new(params(Policy::Fair, 0, Backend::RoundRobin), fair, turn, 0)
}

fn any(random: &mut Random) -> Record {
    let period = random.period();
    let budget = random.budget_about(period);
    let params = random.params(budget);
    let now = random.reading(period);
    let runtime = random.runtime(now, BUDGET);
    let turn = random.turn();
    Record::new(params, runtime, turn, random.byte())
}

/// A record of this kind; bands and turns meet often, so that later parts of the key decide.
pub fn record(random: &mut Random, kind: Kind) -> Record {
    let band = random.of([0, 0, 1, 255]);
    let turn = (1 << 63) - 8 + random.below(16);
    let low = random.number();
    let pass = u128::from(random.below(3)) << 64 | u128::from(low);
    match kind {
        Kind::Fifo => {
            let policy = Policy::Fifo(random.of([0, 1, 128, 254, 255]));
            let params = params(policy, band, Backend::Stride);
            Record::new(params, Runtime::Fifo, turn, 0)
        }
        Kind::Stride => {
            let params = params(Policy::Fair, band, Backend::Stride);
            Record::new(params, Runtime::Fair { pass, remaining: 1 }, turn, 0)
        }
        Kind::RoundRobin => {
            let params = params(Policy::Fair, band, Backend::RoundRobin);
            Record::new(params, Runtime::Fair { pass, remaining: 1 }, low, 0)
        }
        Kind::Budget => {
            let params = params(Policy::Budget, band, Backend::Stride);
            Record::new(params, Runtime::Budget(SOME), turn, 0)
        }
        Kind::Any => any(random),
    }
}

/// A budget that `BudgetParameters::new` takes, and what remains of it: all, some, none, or more than it is.
fn budgeted(random: &mut Random) -> (Budget, BudgetRt) {
    let budget = random.of([
        BUDGET,
        Budget {
            budget: 7,
            period: 7,
            burst: 1,
        },
    ]);
    let runtime = BudgetRt {
        epoch: random.of([None, Some(0), Some(1), Some(u64::MAX)]),
        remaining: random.of([0, 0, 1, budget.budget, u64::MAX]),
        burst: random.of([0, 1]),
    };
    (budget, runtime)
}

/// A record that a queue on processor 0 takes: any policy but Idle, any role, turns equal and different.
pub fn thread(random: &mut Random) -> Record {
    let kind = random.of([Kind::Fifo, Kind::Stride, Kind::RoundRobin, Kind::Budget]);
    let mut record = record(random, kind);
    record.params.role = random.role();
    if record.params.policy == Policy::Budget {
        let (budget, runtime) = budgeted(random);
        record.params.budget = Some(budget);
        record.runtime = Runtime::Budget(runtime);
    }
    if random.below(4) == 0 {
        record.turn = random.number();
    }
    record
}

/// At times a record that no queue on processor 0 takes: Idle, of another processor, or with parts that disagree.
pub fn any_thread(random: &mut Random) -> Record {
    let record = thread(random);
    match random.below(16) {
        0 => Record {
            params: params(Policy::Idle, 0, Backend::Stride),
            runtime: random.of([Runtime::Idle, Runtime::Idle, Runtime::Fifo]),
            ..record
        },
        1 => Record {
            cpu: random.of([1, 255]),
            ..record
        },
        2 => any(random),
        _ => record,
    }
}

/// None, a record of the table, or a number at or beyond its end.
pub fn link(random: &mut Random, count: u64) -> Option<u64> {
    match random.below(8) {
        0 | 1 => None,
        2 => Some(random.of([count, count + 1, u64::MAX, 1 << 32, 1 << 63])),
        _ => Some(random.below(count)),
    }
}

pub fn height(random: &mut Random) -> u8 {
    random.of([0, 1, 1, 2, 2, 3, 4, 127, 128, 129, 253, 254, 255])
}

/// Any membership; processors and priorities are few, so that two are often equal.
pub fn membership(random: &mut Random) -> Membership {
    let cpu = random.of([0, 0, 1, 255]);
    match random.below(6) {
        0 | 1 => Membership::ReadyFifo {
            cpu,
            priority: random.of([0, 7, 255]),
        },
        2 => Membership::ReadyFair { cpu },
        3 => Membership::Waiting {
            queue: random.of([0, 1, u64::MAX]),
        },
        4 => Membership::Terminated,
        _ => Membership::None,
    }
}

/// So many nodes in one line below node 0, to one side, or to each in turn; the threads after them stand in no tree.
pub fn chain(count: u64, side: u64, height: u8) -> Vec<Record> {
    let goes_right = |place: u64| match side {
        0 => false,
        1 => true,
        _ => place % 2 == 0,
    };
    let (mut low, mut high) = (1 << 32, 1 << 33);
    let mut records = Vec::new();
    for place in 0..count {
        let next = (place + 1 < count).then_some(place + 1);
        let turn = if goes_right(place) { low } else { high };
        let mut record = by_turn(turn);
        record.tree.height = height;
        if goes_right(place) {
            record.tree.right = next;
            low += 16;
        } else {
            record.tree.left = next;
            high -= 16;
        }
        records.push(record);
    }
    let outside = [0, 1, low + 1, high - 1, low - 8, high + 8, u64::MAX];
    records.extend(outside.map(by_turn));
    records
}
